#!/usr/bin/env python3
"""Cuts the crate's own text by line ranges into src/gen/*.rs.

    oracle/gen.py FOLDER     (or CRATE_TEXT=FOLDER oracle/gen.py)

FOLDER holds the published text of nalgebra 0.35.0, with src/linalg/lu.rs and the others at their own paths.
Nothing inside a cut is edited; what is added stands before or after the cut and is listed here. A file that is
missing, or is not that release's (the line ranges would then be wrong), is named and nothing is written."""
import hashlib
import os
import sys

here = os.path.dirname(os.path.abspath(__file__))
out = os.path.join(here, 'src', 'gen')

# the files that are cut, and the first 16 digits of the SHA-256 of each
FILES = {
    'src/linalg/lu.rs': 'fc284d8c709b41a8',
    'src/linalg/permutation_sequence.rs': 'a5d6bdec59935f5e',
    'src/linalg/solve.rs': 'fec3199529f30381',
    'src/base/scalar.rs': '6b83ab324063585e',
    'src/base/constraint.rs': '6f77ce99161fedf6',
    'src/base/uninit.rs': 'c4c5cde087757156',
    'src/base/allocator.rs': 'ad5ba71e96b726c3',
    'src/base/storage.rs': '8f62c912c08880b4',
    'src/base/min_max.rs': 'c23aa3aa09e9ce0e',
    'src/base/blas.rs': 'cd906ed43658ced6',
    'src/base/blas_uninit.rs': '684506821edaea96',
    'src/base/matrix.rs': 'c8544c3893a75527',
    'src/base/dimension.rs': '5d24362f09b08e9b',
}


def crate_text():
    """The text of each file, or an end with the reason."""
    folder = sys.argv[1] if len(sys.argv) > 1 else os.environ.get('CRATE_TEXT')
    if not folder:
        sys.exit("gen.py: no folder with the text of nalgebra 0.35.0: give it as the argument or in $CRATE_TEXT")
    texts = {}
    for name, digest in FILES.items():
        try:
            with open(os.path.join(folder, name), 'rb') as f:
                raw = f.read()
        except OSError:
            sys.exit(f"gen.py: {folder} has no file {name} (the folder is the one that holds the crate's src/)")
        if hashlib.sha256(raw).hexdigest()[:16] != digest:
            sys.exit(f"gen.py: {name} in {folder} is not the text of nalgebra 0.35.0")
        texts[name] = raw.decode('utf-8').split('\n')
    return texts


TEXTS = crate_text()
for d in ('gen', 'base', 'linalg'):          # inline modules with path attributes need the last two
    os.makedirs(os.path.join(here, 'src', d), exist_ok=True)


def cut(name, first, last):
    return '\n'.join(TEXTS[name][first - 1:last]) + '\n'


def put(name, *parts):
    with open(os.path.join(out, name), 'w', encoding='utf-8') as f:
        f.write(''.join(parts))


L = 'src/linalg/'
B = 'src/base/'
# whole files, verbatim
put('permutation_sequence.rs', cut(L + "permutation_sequence.rs", 1, 166),
    '// ADDED: raw access for the driver\n'
    'impl PermutationSequence<Dyn> {\n'
    '    pub fn pairs(&self) -> Vec<(usize, usize)> { (0..self.len).map(|k| self.ipiv[k]).collect() }\n'
    '}\n')
put('lu.rs', cut(L + 'lu.rs', 1, 390),
    '// ADDED: raw construction and taking apart, for the driver and for bench/\n'
    'use crate::dimension::Dyn;\n'
    'impl LU<f64, Dyn, Dyn> {\n'
    '    pub fn from_raw(lu: OMatrix<f64, Dyn, Dyn>, p: PermutationSequence<Dyn>) -> Self { LU { lu, p } }\n'
    '    pub fn into_raw(self) -> (OMatrix<f64, Dyn, Dyn>, PermutationSequence<Dyn>) { (self.lu, self.p) }\n'
    '}\n')
put('scalar.rs', cut(B + 'scalar.rs', 1, 9))
put('constraint.rs', cut(B + 'constraint.rs', 1, 109))
put('uninit.rs', cut(B + 'uninit.rs', 1, 81))
put('allocator.rs', cut(B + 'allocator.rs', 1, 150))
put('storage.rs', cut(B + 'storage.rs', 1, 307))
# parts, verbatim between the comments
put('solve.rs',
    '// ADDED header (solve.rs 1-8 without SimdComplexField)\n',
    cut(L + 'solve.rs', 1, 1), cut(L + 'solve.rs', 4, 9),
    '// CUT solve.rs 10-441 (whole impl block)\n', cut(L + 'solve.rs', 10, 441))
put('min_max.rs',
    '// ADDED header\nuse crate::base::dimension::Dim;\nuse crate::base::storage::RawStorage;\n'
    'use crate::base::{Scalar, Vector};\nuse simba::scalar::ComplexField;\n',
    '// CUT min_max.rs 204-240\n', cut(B + 'min_max.rs', 204, 240), '} // ADDED\n')
put('blas.rs',
    '// ADDED header\nuse crate::base::blas_uninit::axcpy_uninit;\nuse crate::base::constraint::{DimEq, ShapeConstraint};\n'
    'use crate::base::dimension::{Dim, U1, U2, U3, U4};\nuse crate::base::storage::{RawStorage, Storage, StorageMut};\n'
    'use crate::base::uninit::Init;\nuse crate::base::{Matrix, Scalar, Vector};\nuse num::{One, Zero};\n'
    'use simba::scalar::{ClosedAddAssign, ClosedMulAssign};\nuse simba::simd::SimdComplexField;\n',
    '// CUT blas.rs 17-324\n', cut(B + 'blas.rs', 17, 324), '} // ADDED\n')
put('blas_uninit.rs',
    '// ADDED header\nuse crate::base::constraint::{DimEq, ShapeConstraint};\nuse crate::base::dimension::Dim;\n'
    'use crate::base::storage::{RawStorage, RawStorageMut};\nuse crate::base::uninit::InitStatus;\nuse crate::base::{Scalar, Vector};\n'
    'use num::Zero;\nuse simba::scalar::{ClosedAddAssign, ClosedMulAssign};\n',
    '// CUT blas_uninit.rs 28-117\n', cut(B + 'blas_uninit.rs', 28, 117))
put('matrix_cut.rs',
    '// ADDED header\nuse crate::base::dimension::Dim;\nuse crate::base::storage::{RawStorage, RawStorageMut};\nuse crate::base::{Matrix, Vector};\n'
    'impl<T, R: Dim, C: Dim, S: RawStorageMut<T, R, C>> Matrix<T, R, C, S> {\n',
    '// CUT matrix.rs 1205-1232 (swap_unchecked, swap)\n', cut(B + 'matrix.rs', 1205, 1232), '} // ADDED\n',
    '// CUT matrix.rs vget_unchecked, vget_unchecked_mut\n', cut(B + 'matrix.rs', 1316, 1344))
put('dimension.rs',
    '// ADDED header\nuse std::any::{Any, TypeId};\nuse std::cmp;\nuse std::fmt::Debug;\n'
    '#[derive(Clone, Copy, Eq, PartialEq, Debug)]\npub struct Dyn(pub usize);\n',
    '// CUT dimension.rs 68-108 (Dim, Dim for Dyn)\n', cut(B + 'dimension.rs', 68, 108),
    '// ADDED: the DimMin lines of the dim_ops! macro, for Dyn and for equal sizes\n'
    'pub type DimMinimum<D1, D2> = <D1 as DimMin<D2>>::Output;\n'
    'pub trait DimMin<D: Dim>: Dim { type Output: Dim; fn min(self, other: D) -> Self::Output; }\n'
    'impl<D: Dim> DimMin<D> for Dyn { type Output = Dyn; fn min(self, other: D) -> Dyn { Dyn(cmp::min(self.value(), other.value())) } }\n'
    'impl<const N: usize> DimMin<Const<N>> for Const<N> { type Output = Const<N>; fn min(self, _: Const<N>) -> Const<N> { self } }\n'
    '#[derive(Debug, Copy, Clone, PartialEq, Eq, Hash)]\n',
    '// CUT dimension.rs 223-235, 265-297\n', cut(B + 'dimension.rs', 223, 235), cut(B + 'dimension.rs', 265, 297),
    '// ADDED\npub type U2 = Const<2>; pub type U3 = Const<3>; pub type U4 = Const<4>;\n')
