// The crate's text (gen/) over the shim, as one library: the driver asks it for bits, bench/ for time.
#![allow(dead_code, unused_imports, unexpected_cfgs, unused_unsafe, mismatched_lifetime_syntaxes)]
pub mod base {
    #[path = "../gen/allocator.rs"]
    pub mod allocator;
    #[path = "../gen/blas.rs"]
    pub mod blas;
    #[path = "../gen/blas_uninit.rs"]
    pub mod blas_uninit;
    #[path = "../gen/constraint.rs"]
    pub mod constraint;
    #[path = "../gen/dimension.rs"]
    pub mod dimension;
    #[path = "../gen/matrix_cut.rs"]
    pub mod matrix_cut;
    #[path = "../gen/min_max.rs"]
    pub mod min_max;
    #[path = "../gen/scalar.rs"]
    pub mod scalar;
    #[path = "../shim.rs"]
    pub mod shim;
    #[path = "../gen/storage.rs"]
    pub mod storage;
    #[path = "../gen/uninit.rs"]
    pub mod uninit;
    pub mod default_allocator {
        pub use super::shim::DefaultAllocator;
    }
    pub use self::scalar::Scalar;
    pub use self::shim::*;
    pub use self::storage::*;
}
pub use base::*;
pub mod linalg {
    #[path = "../gen/lu.rs"]
    pub mod lu;
    #[path = "../gen/permutation_sequence.rs"]
    pub mod permutation_sequence;
    #[path = "../gen/solve.rs"]
    pub mod solve;
    pub use self::lu::*;
    pub use self::permutation_sequence::*;
}
