// The original for the program in C: the crate's own text, and beside it a hand-written update.
mod by_hand;
use rustoracle::base::{dimension::{Const, Dyn}, ArrayStorage, OMatrix};
use rustoracle::linalg::LU;
use std::slice::{from_raw_parts, from_raw_parts_mut};

type M = OMatrix<f64, Dyn, Dyn>;

/// The factors of an m by n matrix, and a right-hand column that is solved in place.
pub struct Original {
    lu: Option<LU<f64, Dyn, Dyn>>,
    x: M,
}

#[no_mangle]
pub extern "C" fn original_new(m: usize, n: usize) -> Box<Original> {
    let zeros = M::from_vec(m, n, vec![0.0; m * n]);
    Box::new(Original { lu: Some(LU::new(zeros)), x: M::from_vec(m, 1, vec![0.0; m]) })
}

#[no_mangle]
pub extern "C" fn original_free(_: Box<Original>) {}

/// `LU::new` on a copy of a, which lies in the store of the factors before it: no matrix is allocated.
#[no_mangle]
pub unsafe extern "C" fn original_factor(o: &mut Original, a: *const f64) {
    let (mut matrix, _) = o.lu.take().unwrap_unchecked().into_raw();
    let store = &mut matrix.data.data[..];
    store.copy_from_slice(from_raw_parts(a, store.len()));
    o.lu = Some(LU::new(matrix));
}

/// `LU::solve_mut` on a copy of b. Answers whether it could be solved.
#[no_mangle]
pub unsafe extern "C" fn original_solve(o: &mut Original, b: *const f64) -> bool {
    let store = &mut o.x.data.data[..];
    store.copy_from_slice(from_raw_parts(b, store.len()));
    o.lu.as_ref().unwrap_unchecked().solve_mut(&mut o.x)
}

/// The same with the one column known by type, as for the crate's vectors.
#[no_mangle]
pub unsafe extern "C" fn original_solve_vector(o: &mut Original, b: *const f64) -> bool {
    let store = &mut o.x.data.data[..];
    store.copy_from_slice(from_raw_parts(b, store.len()));
    o.lu.as_ref().unwrap_unchecked().solve_mut(&mut o.x.column_mut(0))
}

/// The solution of the last solve.
#[no_mangle]
pub extern "C" fn original_solution(o: &Original) -> *const f64 { o.x.data.data.as_ptr() }

/// The factors of the last factoring.
#[no_mangle]
pub extern "C" fn original_factors(o: &Original) -> *const f64 { o.lu.as_ref().unwrap().lu_internal().data.data.as_ptr() }

/// The pairs of the last factoring, into a store of 128 numbers. Answers how many.
#[no_mangle]
pub unsafe extern "C" fn original_pairs(o: &Original, swaps: *mut usize) -> usize {
    let pairs = o.lu.as_ref().unwrap().p().pairs();
    let store = from_raw_parts_mut(swaps, 128);
    store.fill(0);
    for (slot, pair) in store.chunks_exact_mut(2).zip(&pairs) {
        slot.copy_from_slice(&[pair.0, pair.1]);
    }
    pairs.len()
}

/// `LU::new` and `LU::solve_mut` with sizes that the compiler knows, all by value. Answers whether it could be solved.
#[no_mangle]
pub extern "C" fn original_four(a: &[[f64; 4]; 4], b: &[f64; 4], x: &mut [f64; 4]) -> bool {
    let mut side = OMatrix::<f64, Const<4>, Const<1>>::from_data(ArrayStorage([*b]));
    let solved = LU::new(OMatrix::<f64, Const<4>, Const<4>>::from_data(ArrayStorage(*a))).solve_mut(&mut side);
    *x = side.data.0[0];
    solved
}
