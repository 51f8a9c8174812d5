// SHIM (ours): Matrix over VecStorage / views, and the plumbing methods that the crate keeps in
// files that are not at hand (matrix_view.rs, edition.rs, ops.rs, construction.rs, indexing.rs).
use crate::base::allocator::{Allocator, Reallocator};
use crate::base::dimension::{Const, Dim, Dyn, U1};
use crate::base::scalar::Scalar;
use crate::base::storage::*;
use num::{One, Zero};
use simba::scalar::ClosedMulAssign;
use std::fmt::Debug;
use std::marker::PhantomData;
use std::mem::MaybeUninit;
use std::ops::{Index, IndexMut, MulAssign, Range, RangeFrom, RangeTo};

#[derive(Clone, Copy, Debug)]
pub struct Matrix<T, R, C, S> {
    pub data: S,
    _p: PhantomData<(T, R, C)>,
}
pub type Vector<T, D, S> = Matrix<T, D, U1, S>;
pub type SquareMatrix<T, D, S> = Matrix<T, D, D, S>;
pub type OMatrix<T, R, C> = Matrix<T, R, C, Owned<T, R, C>>;
pub type OVector<T, D> = Matrix<T, D, U1, Owned<T, D, U1>>;
pub type MatrixView<'a, T, R, C, RS, CS> = Matrix<T, R, C, ViewStorage<'a, T, R, C, RS, CS>>;
pub type MatrixViewMut<'a, T, R, C, RS, CS> = Matrix<T, R, C, ViewStorageMut<'a, T, R, C, RS, CS>>;
pub type DVectorView<'a, T, RS, CS> = MatrixView<'a, T, Dyn, U1, RS, CS>;

pub struct DefaultAllocator;

// ---------- storages ----------
#[derive(Clone, Debug)]
pub struct VecStorage<T, R, C> {
    pub data: Vec<T>,
    nrows: R,
    ncols: C,
}
#[derive(Clone, Copy, Debug)]
pub struct ViewStorage<'a, T, R, C, RS, CS> {
    ptr: *const T,
    shape: (R, C),
    strides: (RS, CS),
    _p: PhantomData<&'a T>,
}
#[derive(Debug)]
pub struct ViewStorageMut<'a, T, R, C, RS, CS> {
    ptr: *mut T,
    shape: (R, C),
    strides: (RS, CS),
    _p: PhantomData<&'a mut T>,
}

unsafe impl<T, R: Dim, C: Dim> RawStorage<T, R, C> for VecStorage<T, R, C> {
    type RStride = U1;
    type CStride = Dyn;
    fn ptr(&self) -> *const T { self.data.as_ptr() }
    fn shape(&self) -> (R, C) { (self.nrows, self.ncols) }
    fn strides(&self) -> (U1, Dyn) { (crate::base::dimension::Const::<1>, Dyn(self.nrows.value())) }
    fn is_contiguous(&self) -> bool { true }
    unsafe fn as_slice_unchecked(&self) -> &[T] { &self.data[..] }
}
unsafe impl<T, R: Dim, C: Dim> RawStorageMut<T, R, C> for VecStorage<T, R, C> {
    fn ptr_mut(&mut self) -> *mut T { self.data.as_mut_ptr() }
    unsafe fn as_mut_slice_unchecked(&mut self) -> &mut [T] { &mut self.data[..] }
}
unsafe impl<T, R, C> IsContiguous for VecStorage<T, R, C> {}
unsafe impl<T: Scalar, R: Dim, C: Dim> Storage<T, R, C> for VecStorage<T, R, C> {
    fn into_owned(self) -> Owned<T, R, C> where DefaultAllocator: Allocator<R, C> { self.clone_owned() }
    fn clone_owned(&self) -> Owned<T, R, C> where DefaultAllocator: Allocator<R, C> {
        <DefaultAllocator as Allocator<R, C>>::allocate_from_iterator(self.nrows, self.ncols, self.data.iter().cloned())
    }
    fn forget_elements(self) {}
}

macro_rules! view_raw {
    ($V:ident) => {
        unsafe impl<'a, T, R: Dim, C: Dim, RS: Dim, CS: Dim> RawStorage<T, R, C> for $V<'a, T, R, C, RS, CS> {
            type RStride = RS;
            type CStride = CS;
            fn ptr(&self) -> *const T { self.ptr as *const T }
            fn shape(&self) -> (R, C) { self.shape }
            fn strides(&self) -> (RS, CS) { self.strides }
            fn is_contiguous(&self) -> bool { false }
            unsafe fn as_slice_unchecked(&self) -> &[T] {
                let (r, c) = (self.shape.0.value(), self.shape.1.value());
                let len = if r != 0 && c != 0 { self.linear_index(r - 1, c - 1) + 1 } else { 0 };
                std::slice::from_raw_parts(self.ptr as *const T, len)
            }
        }
        unsafe impl<'a, T: Scalar, R: Dim, C: Dim, RS: Dim, CS: Dim> Storage<T, R, C> for $V<'a, T, R, C, RS, CS> {
            fn into_owned(self) -> Owned<T, R, C> where DefaultAllocator: Allocator<R, C> { self.clone_owned() }
            fn clone_owned(&self) -> Owned<T, R, C> where DefaultAllocator: Allocator<R, C> {
                let (r, c) = self.shape;
                let mut v = Vec::new();
                for j in 0..c.value() { for i in 0..r.value() { v.push(unsafe { self.get_unchecked(i, j).clone() }); } }
                <DefaultAllocator as Allocator<R, C>>::allocate_from_iterator(r, c, v.into_iter())
            }
            fn forget_elements(self) {}
        }
    };
}
view_raw!(ViewStorage);
view_raw!(ViewStorageMut);
unsafe impl<'a, T, R: Dim, C: Dim, RS: Dim, CS: Dim> RawStorageMut<T, R, C> for ViewStorageMut<'a, T, R, C, RS, CS> {
    fn ptr_mut(&mut self) -> *mut T { self.ptr }
    unsafe fn as_mut_slice_unchecked(&mut self) -> &mut [T] {
        let (r, c) = (self.shape.0.value(), self.shape.1.value());
        let len = if r != 0 && c != 0 { self.linear_index(r - 1, c - 1) + 1 } else { 0 };
        std::slice::from_raw_parts_mut(self.ptr, len)
    }
}

macro_rules! vec_allocator {
    ($R:ty, $C:ty, $($bound:tt)*) => {
        impl<$($bound)*> Allocator<$R, $C> for DefaultAllocator {
            type Buffer<T: Scalar> = VecStorage<T, $R, $C>;
            type BufferUninit<T: Scalar> = VecStorage<MaybeUninit<T>, $R, $C>;
            fn allocate_uninit<T: Scalar>(nrows: $R, ncols: $C) -> Self::BufferUninit<T> {
                let n = nrows.value() * ncols.value();
                VecStorage { data: (0..n).map(|_| MaybeUninit::uninit()).collect(), nrows, ncols }
            }
            unsafe fn assume_init<T: Scalar>(u: Self::BufferUninit<T>) -> Self::Buffer<T> {
                VecStorage { data: u.data.into_iter().map(|x| x.assume_init()).collect(), nrows: u.nrows, ncols: u.ncols }
            }
            fn allocate_from_iterator<T: Scalar, I: IntoIterator<Item = T>>(nrows: $R, ncols: $C, iter: I) -> Self::Buffer<T> {
                let data: Vec<T> = iter.into_iter().collect();
                assert_eq!(data.len(), nrows.value() * ncols.value());
                VecStorage { data, nrows, ncols }
            }
        }
    };
}
vec_allocator!(Dyn, C, C: Dim);
vec_allocator!(Const<R>, Dyn, const R: usize);

// ---------- sizes that the compiler knows: an array, as the crate has it ----------
#[derive(Clone, Copy, Debug)]
pub struct ArrayStorage<T, const R: usize, const C: usize>(pub [[T; R]; C]);
unsafe impl<T, const R: usize, const C: usize> RawStorage<T, Const<R>, Const<C>> for ArrayStorage<T, R, C> {
    type RStride = U1;
    type CStride = Const<R>;
    fn ptr(&self) -> *const T { self.0.as_flattened().as_ptr() }
    fn shape(&self) -> (Const<R>, Const<C>) { (Const, Const) }
    fn strides(&self) -> (U1, Const<R>) { (Const, Const) }
    fn is_contiguous(&self) -> bool { true }
    unsafe fn as_slice_unchecked(&self) -> &[T] { self.0.as_flattened() }
}
unsafe impl<T, const R: usize, const C: usize> RawStorageMut<T, Const<R>, Const<C>> for ArrayStorage<T, R, C> {
    fn ptr_mut(&mut self) -> *mut T { self.0.as_flattened_mut().as_mut_ptr() }
    unsafe fn as_mut_slice_unchecked(&mut self) -> &mut [T] { self.0.as_flattened_mut() }
}
unsafe impl<T, const R: usize, const C: usize> IsContiguous for ArrayStorage<T, R, C> {}
unsafe impl<T: Scalar, const R: usize, const C: usize> Storage<T, Const<R>, Const<C>> for ArrayStorage<T, R, C> {
    fn into_owned(self) -> Owned<T, Const<R>, Const<C>> where DefaultAllocator: Allocator<Const<R>, Const<C>> { self.clone_owned() }
    fn clone_owned(&self) -> Owned<T, Const<R>, Const<C>> where DefaultAllocator: Allocator<Const<R>, Const<C>> {
        <DefaultAllocator as Allocator<Const<R>, Const<C>>>::allocate_from_iterator(Const, Const, self.0.as_flattened().iter().cloned())
    }
    fn forget_elements(self) {}
}
impl<const R: usize, const C: usize> Allocator<Const<R>, Const<C>> for DefaultAllocator {
    type Buffer<T: Scalar> = ArrayStorage<T, R, C>;
    type BufferUninit<T: Scalar> = ArrayStorage<MaybeUninit<T>, R, C>;
    fn allocate_uninit<T: Scalar>(_: Const<R>, _: Const<C>) -> Self::BufferUninit<T> { ArrayStorage([const { [const { MaybeUninit::uninit() }; R] }; C]) }
    unsafe fn assume_init<T: Scalar>(u: Self::BufferUninit<T>) -> Self::Buffer<T> { ArrayStorage(std::mem::transmute_copy(&u.0)) }
    fn allocate_from_iterator<T: Scalar, I: IntoIterator<Item = T>>(_: Const<R>, _: Const<C>, iter: I) -> Self::Buffer<T> {
        let mut items = iter.into_iter();
        ArrayStorage(std::array::from_fn(|_| std::array::from_fn(|_| items.next().expect("as many items as the matrix has"))))
    }
}
impl<T: Scalar, RF: Dim, CF: Dim, RT: Dim, CT: Dim> Reallocator<T, RF, CF, RT, CT> for DefaultAllocator
where DefaultAllocator: Allocator<RF, CF, Buffer<T> = VecStorage<T, RF, CF>> + Allocator<RT, CT, BufferUninit<T> = VecStorage<MaybeUninit<T>, RT, CT>> {
    unsafe fn reallocate_copy(nrows: RT, ncols: CT, buf: VecStorage<T, RF, CF>) -> VecStorage<MaybeUninit<T>, RT, CT> {
        let n = nrows.value() * ncols.value();
        let mut data: Vec<MaybeUninit<T>> = buf.data.into_iter().map(MaybeUninit::new).collect();
        data.resize_with(n, MaybeUninit::uninit);
        VecStorage { data, nrows, ncols }
    }
}

// ---------- ranges ----------
pub trait DimRange { type Size: Dim; fn begin(&self) -> usize; fn size(&self, n: usize) -> Self::Size; }
impl DimRange for usize {
    type Size = U1;
    fn begin(&self) -> usize { *self }
    fn size(&self, n: usize) -> U1 { assert!(*self < n); crate::base::dimension::Const::<1> }
}
impl DimRange for RangeFrom<usize> {
    type Size = Dyn;
    fn begin(&self) -> usize { self.start }
    fn size(&self, n: usize) -> Dyn { assert!(self.start <= n); Dyn(n - self.start) }
}
impl DimRange for RangeTo<usize> { type Size = Dyn; fn begin(&self) -> usize { 0 } fn size(&self, n: usize) -> Dyn { assert!(self.end <= n); Dyn(self.end) } }
impl DimRange for Range<usize> {
    type Size = Dyn;
    fn begin(&self) -> usize { self.start }
    fn size(&self, n: usize) -> Dyn { assert!(self.start <= self.end && self.end <= n); Dyn(self.end - self.start) }
}

fn vw<'a, T, R: Dim, C: Dim, RS: Dim, CS: Dim>(ptr: *const T, shape: (R, C), strides: (RS, CS)) -> MatrixView<'a, T, R, C, RS, CS> {
    Matrix { data: ViewStorage { ptr, shape, strides, _p: PhantomData }, _p: PhantomData }
}
fn vwm<'a, T, R: Dim, C: Dim, RS: Dim, CS: Dim>(ptr: *mut T, shape: (R, C), strides: (RS, CS)) -> MatrixViewMut<'a, T, R, C, RS, CS> {
    Matrix { data: ViewStorageMut { ptr, shape, strides, _p: PhantomData }, _p: PhantomData }
}

// ---------- reading ----------
impl<T, R: Dim, C: Dim, S: RawStorage<T, R, C>> Matrix<T, R, C, S> {
    pub fn from_data(data: S) -> Self { Matrix { data, _p: PhantomData } }
    pub fn shape_generic(&self) -> (R, C) { self.data.shape() }
    pub fn shape(&self) -> (usize, usize) { let (r, c) = self.data.shape(); (r.value(), c.value()) }
    pub fn nrows(&self) -> usize { self.shape().0 }
    pub fn ncols(&self) -> usize { self.shape().1 }
    pub fn len(&self) -> usize { self.nrows() * self.ncols() }
    pub fn is_empty(&self) -> bool { self.len() == 0 }
    pub fn is_square(&self) -> bool { self.nrows() == self.ncols() }
    pub fn strides(&self) -> (usize, usize) { let (r, c) = self.data.strides(); (r.value(), c.value()) }
    pub unsafe fn get_unchecked(&self, ij: (usize, usize)) -> &T {
        debug_assert!(ij.0 < self.nrows() && ij.1 < self.ncols());
        self.data.get_unchecked(ij.0, ij.1)
    }
    pub fn view_range<A: DimRange, B: DimRange>(&self, a: A, b: B) -> MatrixView<'_, T, A::Size, B::Size, S::RStride, S::CStride> {
        let (r, c) = self.shape();
        let sh = (a.size(r), b.size(c));
        vw(self.data.get_address_unchecked(a.begin(), b.begin()), sh, self.data.strides())
    }
    pub fn rows_range<A: DimRange>(&self, a: A) -> MatrixView<'_, T, A::Size, C, S::RStride, S::CStride> {
        let sh = (a.size(self.nrows()), self.data.shape().1);
        vw(self.data.get_address_unchecked(a.begin(), 0), sh, self.data.strides())
    }
    pub fn columns_generic<CV: Dim>(&self, first: usize, n: CV) -> MatrixView<'_, T, R, CV, S::RStride, S::CStride> {
        assert!(first + n.value() <= self.ncols());
        vw(self.data.get_address_unchecked(0, first), (self.data.shape().0, n), self.data.strides())
    }
    pub fn rows_generic<RV: Dim>(&self, first: usize, n: RV) -> MatrixView<'_, T, RV, C, S::RStride, S::CStride> {
        assert!(first + n.value() <= self.nrows());
        vw(self.data.get_address_unchecked(first, 0), (n, self.data.shape().1), self.data.strides())
    }
    fn v2m(&self, i: usize) -> (usize, usize) {
        let (nrows, ncols) = self.shape();
        if nrows == 1 { (0, i) } else if ncols == 1 { (i, 0) } else { (i % nrows, i / nrows) }
    }
    pub fn iter(&self) -> impl Iterator<Item = &T> {
        let (r, c) = self.shape();
        (0..r * c).map(move |k| unsafe { self.get_unchecked(if c == 1 { (k, 0) } else { (k % r, k / r) }) })
    }
    pub fn clone_owned(&self) -> OMatrix<T, R, C> where T: Scalar, S: Storage<T, R, C>, DefaultAllocator: Allocator<R, C> {
        Matrix { data: self.data.clone_owned(), _p: PhantomData }
    }
    pub fn into_owned(self) -> OMatrix<T, R, C> where T: Scalar, S: Storage<T, R, C>, DefaultAllocator: Allocator<R, C> {
        Matrix { data: self.data.into_owned(), _p: PhantomData }
    }
    /// ours: entries below the diagonal become zero
    pub fn upper_triangle(&self) -> OMatrix<T, R, C> where T: Scalar + Zero, S: Storage<T, R, C>, DefaultAllocator: Allocator<R, C> {
        let mut m = self.clone_owned();
        for j in 0..m.ncols() { for i in j + 1..m.nrows() { m[(i, j)] = T::zero(); } }
        m
    }
    pub fn resize_generic<R3: Dim, C3: Dim>(self, r: R3, c: C3, val: T) -> OMatrix<T, R3, C3>
    where T: Scalar, DefaultAllocator: Reallocator<T, R, C, R3, C3> {
        let mut v = Vec::new();
        for j in 0..c.value() { for i in 0..r.value() {
            v.push(if i < self.nrows() && j < self.ncols() { unsafe { self.get_unchecked((i, j)).clone() } } else { val.clone() });
        } }
        Matrix { data: <DefaultAllocator as Allocator<R3, C3>>::allocate_from_iterator(r, c, v.into_iter()), _p: PhantomData }
    }
}
impl<T: Scalar, R: Dim, C: Dim> OMatrix<T, R, C> where DefaultAllocator: Allocator<R, C> {
    pub fn repeat_generic(r: R, c: C, e: T) -> Self {
        Matrix { data: <DefaultAllocator as Allocator<R, C>>::allocate_from_iterator(r, c, std::iter::repeat(e).take(r.value() * c.value())), _p: PhantomData }
    }
    pub fn identity_generic(r: R, c: C) -> Self where T: Zero + One {
        let mut m = Self::repeat_generic(r, c, T::zero());
        m.fill_diagonal(T::one());
        m
    }
}
impl OMatrix<f64, Dyn, Dyn> {
    pub fn from_vec(r: usize, c: usize, v: Vec<f64>) -> Self {
        assert_eq!(v.len(), r * c);
        Matrix { data: VecStorage { data: v, nrows: Dyn(r), ncols: Dyn(c) }, _p: PhantomData }
    }
}

// ---------- writing ----------
impl<T, R: Dim, C: Dim, S: RawStorageMut<T, R, C>> Matrix<T, R, C, S> {
    pub fn view_range_mut<A: DimRange, B: DimRange>(&mut self, a: A, b: B) -> MatrixViewMut<'_, T, A::Size, B::Size, S::RStride, S::CStride> {
        let (r, c) = self.shape();
        let sh = (a.size(r), b.size(c));
        vwm(self.data.get_address_unchecked_mut(a.begin(), b.begin()), sh, self.data.strides())
    }
    pub fn rows_range_mut<A: DimRange>(&mut self, a: A) -> MatrixViewMut<'_, T, A::Size, C, S::RStride, S::CStride> {
        let sh = (a.size(self.nrows()), self.data.shape().1);
        vwm(self.data.get_address_unchecked_mut(a.begin(), 0), sh, self.data.strides())
    }
    pub fn columns_range_mut<B: DimRange>(&mut self, b: B) -> MatrixViewMut<'_, T, R, B::Size, S::RStride, S::CStride> {
        let sh = (self.data.shape().0, b.size(self.ncols()));
        vwm(self.data.get_address_unchecked_mut(0, b.begin()), sh, self.data.strides())
    }
    pub fn column_mut(&mut self, j: usize) -> MatrixViewMut<'_, T, R, U1, S::RStride, S::CStride> { self.columns_range_mut(j) }
    pub fn columns_range_pair_mut<A: DimRange, B: DimRange>(&mut self, a: A, b: B)
        -> (MatrixViewMut<'_, T, R, A::Size, S::RStride, S::CStride>, MatrixViewMut<'_, T, R, B::Size, S::RStride, S::CStride>) {
        let (r, st) = (self.data.shape().0, self.data.strides());
        let n = self.ncols();
        let (sa, sb) = (a.size(n), b.size(n));
        assert!(a.begin() + sa.value() <= b.begin() || b.begin() + sb.value() <= a.begin(), "Columns range pair must not overlap");
        let pa = self.data.get_address_unchecked_mut(0, a.begin());
        let pb = self.data.get_address_unchecked_mut(0, b.begin());
        (vwm(pa, (r, sa), st), vwm(pb, (r, sb), st))
    }
    pub fn rows_range_pair_mut<A: DimRange, B: DimRange>(&mut self, a: A, b: B)
        -> (MatrixViewMut<'_, T, A::Size, C, S::RStride, S::CStride>, MatrixViewMut<'_, T, B::Size, C, S::RStride, S::CStride>) {
        let (c, st) = (self.data.shape().1, self.data.strides());
        let n = self.nrows();
        let (sa, sb) = (a.size(n), b.size(n));
        assert!(a.begin() + sa.value() <= b.begin() || b.begin() + sb.value() <= a.begin(), "Rows range pair must not overlap");
        let pa = self.data.get_address_unchecked_mut(a.begin(), 0);
        let pb = self.data.get_address_unchecked_mut(b.begin(), 0);
        (vwm(pa, (sa, c), st), vwm(pb, (sb, c), st))
    }
    pub unsafe fn get_unchecked_mut(&mut self, ij: (usize, usize)) -> &mut T {
        debug_assert!(ij.0 < self.nrows() && ij.1 < self.ncols());
        self.data.get_unchecked_mut(ij.0, ij.1)
    }
    pub fn swap_rows(&mut self, i1: usize, i2: usize) {
        assert!(i1 < self.nrows() && i2 < self.nrows());
        if i1 != i2 { for j in 0..self.ncols() { unsafe { self.swap_unchecked((i1, j), (i2, j)) } } }
    }
    pub fn swap_columns(&mut self, j1: usize, j2: usize) {
        assert!(j1 < self.ncols() && j2 < self.ncols());
        if j1 != j2 { for i in 0..self.nrows() { unsafe { self.swap_unchecked((i, j1), (i, j2)) } } }
    }
    pub fn fill_diagonal(&mut self, v: T) where T: Clone {
        for i in 0..self.nrows().min(self.ncols()) { self[(i, i)] = v.clone(); }
    }
    /// ours: entries at least `shift` above the diagonal are filled
    pub fn fill_upper_triangle(&mut self, v: T, shift: usize) where T: Clone {
        for j in shift..self.ncols() { for i in 0..(j + 1 - shift).min(self.nrows()) { self[(i, j)] = v.clone(); } }
    }
    pub fn fill_with_identity(&mut self) where T: Clone + Zero + One {
        for j in 0..self.ncols() { for i in 0..self.nrows() { self[(i, j)] = T::zero(); } }
        self.fill_diagonal(T::one());
    }
}
impl<T, R: Dim, C: Dim, S: RawStorage<T, R, C>> Index<(usize, usize)> for Matrix<T, R, C, S> {
    type Output = T;
    fn index(&self, ij: (usize, usize)) -> &T {
        assert!(ij.0 < self.nrows() && ij.1 < self.ncols());
        unsafe { self.get_unchecked(ij) }
    }
}
impl<T, R: Dim, C: Dim, S: RawStorageMut<T, R, C>> IndexMut<(usize, usize)> for Matrix<T, R, C, S> {
    fn index_mut(&mut self, ij: (usize, usize)) -> &mut T {
        assert!(ij.0 < self.nrows() && ij.1 < self.ncols());
        unsafe { self.get_unchecked_mut(ij) }
    }
}
impl<T, R: Dim, C: Dim, S: RawStorage<T, R, C>> Index<usize> for Matrix<T, R, C, S> {
    type Output = T;
    fn index(&self, i: usize) -> &T { &self[self.v2m(i)] }
}
impl<T, R: Dim, C: Dim, S: RawStorageMut<T, R, C>> IndexMut<usize> for Matrix<T, R, C, S> {
    fn index_mut(&mut self, i: usize) -> &mut T { let ij = self.v2m(i); &mut self[ij] }
}
impl<T: Scalar + ClosedMulAssign, R: Dim, C: Dim, S: RawStorageMut<T, R, C>> MulAssign<T> for Matrix<T, R, C, S> {
    fn mul_assign(&mut self, rhs: T) {
        for j in 0..self.ncols() { for i in 0..self.nrows() { unsafe { *self.get_unchecked_mut((i, j)) *= rhs.clone() } } }
    }
}
#[allow(dead_code)]
fn _dbg<T: Debug>(_: T) {}
