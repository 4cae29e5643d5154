//! A stand-in for nalgebra: `DMatrix<f64>` with the operations that the five files use, and no other.
use std::ops::{Index, IndexMut};

/// Cell (r, c) is entry r * columns + c.
#[derive(Debug, Clone, PartialEq)]
pub struct DMatrix<T> {
    rows: usize,
    columns: usize,
    cells: Vec<T>,
}

/// One column, first row first.
pub struct Column<'a> {
    matrix: &'a DMatrix<f64>,
    column: usize,
}

impl DMatrix<f64> {
    pub fn zeros(rows: usize, columns: usize) -> Self {
        Self { rows, columns, cells: vec![0.0; rows * columns] }
    }

    pub fn from_fn(rows: usize, columns: usize, mut cell: impl FnMut(usize, usize) -> f64) -> Self {
        let mut out = Self::zeros(rows, columns);
        for r in 0..rows {
            for c in 0..columns {
                out[(r, c)] = cell(r, c);
            }
        }
        out
    }

    pub fn from_row_slice(rows: usize, columns: usize, cells: &[f64]) -> Self {
        assert_eq!(cells.len(), rows * columns);
        Self { rows, columns, cells: cells.to_vec() }
    }

    pub fn nrows(&self) -> usize {
        self.rows
    }

    pub fn ncols(&self) -> usize {
        self.columns
    }

    pub fn clone_owned(&self) -> Self {
        self.clone()
    }

    pub fn fill_diagonal(&mut self, value: f64) {
        for i in 0..self.rows.min(self.columns) {
            self[(i, i)] = value;
        }
    }

    pub fn map(&self, mut f: impl FnMut(f64) -> f64) -> Self {
        Self::from_fn(self.rows, self.columns, |r, c| f(self[(r, c)]))
    }

    pub fn column(&self, column: usize) -> Column<'_> {
        Column { matrix: self, column }
    }
}

impl Column<'_> {
    /// "sums run first to last from +0"
    pub fn sum(&self) -> f64 {
        let mut s = 0.0;
        for r in 0..self.matrix.rows {
            s += self.matrix[(r, self.column)];
        }
        s
    }
}

impl<T> Index<(usize, usize)> for DMatrix<T> {
    type Output = T;

    fn index(&self, (r, c): (usize, usize)) -> &T {
        assert!(r < self.rows && c < self.columns);
        &self.cells[r * self.columns + c]
    }
}

impl<T> IndexMut<(usize, usize)> for DMatrix<T> {
    fn index_mut(&mut self, (r, c): (usize, usize)) -> &mut T {
        assert!(r < self.rows && c < self.columns);
        &mut self.cells[r * self.columns + c]
    }
}
