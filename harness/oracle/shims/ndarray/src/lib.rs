//! Working stand-in for the part of `ndarray` that sdc1d.rs uses: row-first one- and
//! two-dimensional arrays, every index checked as ndarray checks it.

// The names are ndarray's.
#![allow(clippy::should_implement_trait, clippy::len_without_is_empty)]

use num_traits::Zero;
use std::ops::{Index, IndexMut};

#[derive(Clone, Debug, PartialEq)]
pub struct Array1<T> {
    data: Vec<T>,
}

#[derive(Clone, Debug, PartialEq)]
pub struct Array2<T> {
    rows: usize,
    cols: usize,
    data: Vec<T>,
}

pub type ArrayView2<'a, T> = &'a Array2<T>;

#[derive(Clone, Copy, Debug)]
pub struct Axis(pub usize);

/// A row or a column.
#[derive(Clone, Copy, Debug)]
pub struct ArrayView1<'a, T> {
    data: &'a [T],
    start: usize,
    step: usize,
    len: usize,
}

impl<T> Array1<T> {
    pub fn zeros(n: usize) -> Self
    where
        T: Clone + Zero,
    {
        Self {
            data: vec![T::zero(); n],
        }
    }
    pub fn from_elem(n: usize, v: T) -> Self
    where
        T: Clone,
    {
        Self { data: vec![v; n] }
    }
    pub fn len(&self) -> usize {
        self.data.len()
    }
    pub fn iter(&self) -> std::slice::Iter<'_, T> {
        self.data.iter()
    }
    pub fn iter_mut(&mut self) -> std::slice::IterMut<'_, T> {
        self.data.iter_mut()
    }
    pub fn to_vec(&self) -> Vec<T>
    where
        T: Clone,
    {
        self.data.clone()
    }
    pub fn mapv<U>(&self, f: impl FnMut(T) -> U) -> Array1<U>
    where
        T: Clone,
    {
        Array1 {
            data: self.data.iter().cloned().map(f).collect(),
        }
    }
    pub fn fill(&mut self, v: T)
    where
        T: Clone,
    {
        self.data.iter_mut().for_each(|x| *x = v.clone())
    }
    pub fn assign(&mut self, o: &Self)
    where
        T: Clone,
    {
        self.data.clone_from_slice(&o.data)
    }
}

impl<T> From<Vec<T>> for Array1<T> {
    fn from(data: Vec<T>) -> Self {
        Self { data }
    }
}

impl<T> Index<usize> for Array1<T> {
    type Output = T;
    fn index(&self, i: usize) -> &T {
        &self.data[i]
    }
}

impl<T> IndexMut<usize> for Array1<T> {
    fn index_mut(&mut self, i: usize) -> &mut T {
        &mut self.data[i]
    }
}

impl<T> Array2<T> {
    pub fn zeros((rows, cols): (usize, usize)) -> Self
    where
        T: Clone + Zero,
    {
        Self {
            rows,
            cols,
            data: vec![T::zero(); rows * cols],
        }
    }
    pub fn default((rows, cols): (usize, usize)) -> Self
    where
        T: Default,
    {
        Self {
            rows,
            cols,
            data: (0..rows * cols).map(|_| T::default()).collect(),
        }
    }
    pub fn dim(&self) -> (usize, usize) {
        (self.rows, self.cols)
    }
    pub fn iter(&self) -> std::slice::Iter<'_, T> {
        self.data.iter()
    }
    pub fn row(&self, r: usize) -> ArrayView1<'_, T> {
        self.index_axis(Axis(0), r)
    }
    pub fn index_axis(&self, axis: Axis, i: usize) -> ArrayView1<'_, T> {
        let (start, step, len) = match axis.0 {
            0 => {
                assert!(i < self.rows);
                (i * self.cols, 1, self.cols)
            }
            1 => {
                assert!(i < self.cols);
                (i, self.cols, self.rows)
            }
            _ => panic!("axis"),
        };
        ArrayView1 {
            data: &self.data,
            start,
            step,
            len,
        }
    }
    #[inline]
    fn at(&self, i: usize, j: usize) -> usize {
        assert!(
            i < self.rows && j < self.cols,
            "ndarray: index out of bounds"
        );
        i * self.cols + j
    }
}

impl<T> Default for Array2<T> {
    fn default() -> Self {
        Self {
            rows: 0,
            cols: 0,
            data: Vec::new(),
        }
    }
}

impl<T> Index<(usize, usize)> for Array2<T> {
    type Output = T;
    #[inline]
    fn index(&self, (i, j): (usize, usize)) -> &T {
        &self.data[self.at(i, j)]
    }
}

impl<T> IndexMut<(usize, usize)> for Array2<T> {
    fn index_mut(&mut self, (i, j): (usize, usize)) -> &mut T {
        let k = self.at(i, j);
        &mut self.data[k]
    }
}

impl<T> Index<[usize; 2]> for Array2<T> {
    type Output = T;
    fn index(&self, [i, j]: [usize; 2]) -> &T {
        &self.data[self.at(i, j)]
    }
}

impl<T> IndexMut<[usize; 2]> for Array2<T> {
    fn index_mut(&mut self, [i, j]: [usize; 2]) -> &mut T {
        let k = self.at(i, j);
        &mut self.data[k]
    }
}

impl<'a, T> ArrayView1<'a, T> {
    pub fn iter(&self) -> impl Iterator<Item = &'a T> + 'a {
        let v = ArrayView1 {
            data: self.data,
            start: self.start,
            step: self.step,
            len: self.len,
        };
        (0..v.len).map(move |i| &v.data[v.start + i * v.step])
    }
}

impl<T> Index<usize> for ArrayView1<'_, T> {
    type Output = T;
    fn index(&self, i: usize) -> &T {
        assert!(i < self.len);
        &self.data[self.start + i * self.step]
    }
}

pub struct Zip;

pub struct Zip1<'a, A>(&'a Array2<A>);

pub struct Zip2<'a, A, B>(&'a Array2<A>, &'a Array2<B>);

impl Zip {
    pub fn from<A>(a: &Array2<A>) -> Zip1<'_, A> {
        Zip1(a)
    }
}

impl<'a, A> Zip1<'a, A> {
    pub fn and<B>(self, b: &'a Array2<B>) -> Zip2<'a, A, B> {
        assert_eq!(self.0.dim(), b.dim());
        Zip2(self.0, b)
    }
}

impl<A, B> Zip2<'_, A, B> {
    pub fn map_collect<C>(self, mut f: impl FnMut(&A, &B) -> C) -> Array2<C> {
        Array2 {
            rows: self.0.rows,
            cols: self.0.cols,
            data: self
                .0
                .iter()
                .zip(self.1.iter())
                .map(|(a, b)| f(a, b))
                .collect(),
        }
    }
}

pub mod prelude {
    pub use super::{Array1, Array2, ArrayView1, ArrayView2, Axis};
}
