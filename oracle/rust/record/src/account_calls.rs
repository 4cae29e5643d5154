//! The calls of the programs `risks` and `hrp_accounts`: clusters, the bisection, and HRP's whole accounts.
use crate::calls::{table, Answer, Cells, Line, Record, Table};
use crate::rules::{self, need, Handed};
use nalgebra::DMatrix;
use openquant::api::{self, Account, Distance};

/// A matrix that an account may hand over.
#[derive(Clone)]
pub struct Matrix {
    pub given: bool,
    pub rows: usize,
    pub columns: usize,
    pub cells: Vec<f64>,
}

impl Matrix {
    pub fn of(rows: usize, columns: usize, cells: Vec<f64>) -> Self {
        Self { given: true, rows, columns, cells }
    }

    pub fn absent() -> Self {
        Self { given: false, rows: 0, columns: 0, cells: Vec::new() }
    }

    pub fn handed(&self) -> Handed {
        Handed { given: self.given, rows: self.rows, columns: self.columns, len: self.cells.len() }
    }

    pub fn made(&self) -> Option<DMatrix<f64>> {
        self.given.then(|| DMatrix::from_row_slice(self.rows, self.columns, &self.cells))
    }
}

/// One call of HRP's `allocate`: the matrices are prices, returns and covariance, the rooms those of rows, order, weights, correlations,
/// distances and scratch.
#[derive(Clone)]
pub struct Hrp {
    pub distance: Distance,
    pub shrink: bool,
    pub name: Vec<u8>,
    pub assets: usize,
    pub matrices: [Matrix; 3],
    pub rooms: [usize; 6],
}

impl Hrp {
    /// An account of these matrices in buffers with a little room to spare.
    pub fn new(assets: usize, matrices: [Matrix; 3]) -> Self {
        let rooms = need::hrp(assets).map(|need| need + 3);
        Self { distance: Distance::DistanceOfDistances, shrink: false, name: Vec::new(), assets, matrices, rooms }
    }

    /// Bytes that are no text, which the source cannot be handed, are no name.
    fn run(&self) -> Result<api::Allocation, u8> {
        rules::account(self.assets, &self.matrices.each_ref().map(Matrix::handed), &self.rooms, need::hrp)?;
        let [prices, returns, covariance] = self.matrices.each_ref().map(Matrix::made);
        api::hrp_allocate(&Account {
            assets: self.assets,
            prices: prices.as_ref(),
            returns: returns.as_ref(),
            covariance: covariance.as_ref(),
            resample_by: std::str::from_utf8(&self.name).ok(),
            use_shrinkage: self.shrink,
            distance: self.distance,
        })
    }
}

fn cells(m: &DMatrix<f64>) -> Vec<f64> {
    match table(m).cells {
        Cells::Doubles(cells) => cells,
        Cells::Numbers(_) => unreachable!(),
    }
}

pub fn row(cells: Vec<f64>) -> Table {
    Table { rows: 1, columns: cells.len(), cells: Cells::Doubles(cells) }
}

impl Line {
    /// `len`, and so many bytes.
    pub fn bytes(self, list: &[u8]) -> Self {
        list.iter().fold(self.number(list.len()), |line, &b| line.number(b as usize))
    }

    pub fn matrix(self, m: &Matrix) -> Self {
        self.number(m.given as usize).number(m.rows).number(m.columns).cells(&m.cells)
    }
}

impl Record {
    pub fn inverse_variance_weights(&mut self, rows: usize, columns: usize, cov: &[f64], assets: &[usize], room: usize) {
        let judged = rules::cluster(rows, columns, cov.len(), assets, Some(room), None);
        let answer =
            judged.and_then(|()| api::inverse_variance_weights(&DMatrix::from_row_slice(rows, columns, cov), assets)).map(|m| table(&m));
        let call = Line::default().number(1).number(room).number(rows).number(columns).cells(cov).list(assets);
        self.put(1, call, &answer);
    }

    pub fn cluster_variance(&mut self, rows: usize, columns: usize, cov: &[f64], assets: &[usize]) {
        let judged = rules::cluster(rows, columns, cov.len(), assets, None, None);
        let answer = judged.and_then(|()| api::cluster_variance(&DMatrix::from_row_slice(rows, columns, cov), assets)).map(|m| table(&m));
        let call = Line::default().number(2).number(rows).number(columns).cells(cov).list(assets);
        self.put(2, call, &answer);
    }

    pub fn cluster_sharpe(&mut self, expected: &[f64], rows: usize, columns: usize, cov: &[f64], assets: &[usize]) {
        let judged = rules::cluster(rows, columns, cov.len(), assets, None, Some(expected.len()));
        let answer = judged
            .and_then(|()| api::cluster_sharpe(expected, &DMatrix::from_row_slice(rows, columns, cov), assets))
            .map(|ratio| row(vec![ratio]));
        let call = Line::default().number(3).cells(expected).number(rows).number(columns).cells(cov).list(assets);
        self.put(3, call, &answer);
    }

    pub fn recursive_bisection_min_var(&mut self, rows: usize, columns: usize, cov: &[f64], order: &[usize], room: usize) -> Answer {
        let judged = rules::bisection(rows, columns, cov.len(), order, room);
        let answer = judged.and_then(|()| api::recursive_bisection_min_var(&DMatrix::from_row_slice(rows, columns, cov), order)).map(row);
        let call = Line::default().number(4).number(room).number(rows).number(columns).cells(cov).list(order);
        self.put(4, call, &answer);
        answer
    }

    pub fn hrp_allocate(&mut self, account: &Hrp) {
        let call = Line::default().number(5).number(account.distance as usize).number(account.shrink as usize);
        let call = call.bytes(&account.name).number(account.assets);
        let call = account.matrices.iter().fold(call, Line::matrix).numbers(&account.rooms);
        let answer = account.run();
        let told = match &answer {
            Err(refusal) => Line::default().number(*refusal as usize).numbers(&[0; 5]),
            Ok(a) => {
                let line = Line::default().number(0).list(&a.rows).list(&a.order).answer(&a.weights);
                line.answer(&cells(&a.correlations)).answer(&cells(&a.distances))
            }
        };
        self.put_lines(5, call, told.number(0), answer.is_ok());
    }
}
