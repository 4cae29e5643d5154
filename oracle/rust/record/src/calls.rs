//! Calls and answers as lines of hex tokens.
//!
//! A call is: opcode, room (the answer buffer's length), [measure | method | step | n node], rows, columns, len, cells. A number has no
//! leading zeros and a double has 16 digits. An answer is: refusal number or 0, rows, columns, cells, and 0 for a buffer that is
//! clean past the answer.
use crate::rules::{self, need};
use nalgebra::DMatrix;
use openquant::api::{self, Linkage, Measure};
use std::fmt::Write;

/// The calls on one matrix.
#[derive(Clone, Copy)]
pub enum Op {
    ResamplePrices(usize),
    ReturnsFromPrices,
    Covariance,
    ShrinkCovariance,
    Cov2corr,
    MeanExpectedReturns,
    ExponentialExpectedReturns,
    CorrToDistances(Measure),
    DistanceOfDistances,
    LinkageChildren(Linkage),
}

impl Op {
    fn code(self) -> usize {
        match self {
            Op::ResamplePrices(_) => 1,
            Op::ReturnsFromPrices => 2,
            Op::Covariance => 3,
            Op::ShrinkCovariance => 4,
            Op::Cov2corr => 5,
            Op::MeanExpectedReturns => 6,
            Op::ExponentialExpectedReturns => 7,
            Op::CorrToDistances(_) => 8,
            Op::DistanceOfDistances => 9,
            Op::LinkageChildren(_) => 10,
        }
    }

    fn parameter(self) -> Option<usize> {
        match self {
            Op::ResamplePrices(step) => Some(step),
            Op::CorrToDistances(measure) => Some(measure as usize),
            Op::LinkageChildren(method) => Some(method as usize),
            _ => None,
        }
    }

    pub fn need(self, rows: usize, columns: usize) -> usize {
        match self {
            Op::ResamplePrices(step) => need::sampled(rows, columns, step),
            Op::ReturnsFromPrices => need::returns(rows, columns),
            Op::MeanExpectedReturns | Op::ExponentialExpectedReturns => columns,
            Op::LinkageChildren(_) => need::children(columns),
            _ => need::square(columns),
        }
    }

    fn square(self) -> bool {
        matches!(self, Op::ShrinkCovariance | Op::Cov2corr | Op::CorrToDistances(_) | Op::DistanceOfDistances | Op::LinkageChildren(_))
    }

    fn run(self, m: &DMatrix<f64>) -> Answer {
        let answer = match self {
            Op::ResamplePrices(step) => api::resample_prices(m, step),
            Op::ReturnsFromPrices => api::returns_from_prices(m)?,
            Op::Covariance => api::covariance(m)?,
            Op::ShrinkCovariance => api::shrink_covariance(m),
            Op::Cov2corr => api::cov2corr(m)?,
            Op::MeanExpectedReturns => row(api::mean_expected_returns(m)),
            Op::ExponentialExpectedReturns => row(api::exponential_expected_returns(m)),
            Op::CorrToDistances(measure) => api::corr_to_distances(measure, m),
            Op::DistanceOfDistances => api::distance_of_distances(m),
            Op::LinkageChildren(method) => {
                let rows = api::linkage_children(m, method);
                return Ok(Table { rows: rows.len(), columns: 2, cells: Cells::Numbers(rows.concat()) });
            }
        };
        Ok(table(&answer))
    }
}

fn row(cells: Vec<f64>) -> DMatrix<f64> {
    DMatrix::from_row_slice(1, cells.len(), &cells)
}

pub fn table(m: &DMatrix<f64>) -> Table {
    let cells = (0..m.nrows()).flat_map(|r| (0..m.ncols()).map(move |c| m[(r, c)])).collect();
    Table { rows: m.nrows(), columns: m.ncols(), cells: Cells::Doubles(cells) }
}

pub enum Cells {
    Doubles(Vec<f64>),
    Numbers(Vec<usize>),
}

pub struct Table {
    pub rows: usize,
    pub columns: usize,
    pub cells: Cells,
}

pub type Answer = Result<Table, u8>;

#[derive(Default)]
pub struct Line(String);

impl Line {
    pub fn number(mut self, n: usize) -> Self {
        write!(self.0, "{}{n:x}", if self.0.is_empty() { "" } else { " " }).unwrap();
        self
    }

    pub fn numbers(self, list: &[usize]) -> Self {
        list.iter().fold(self, |line, &n| line.number(n))
    }

    fn doubles(mut self, list: &[f64], bits: fn(f64) -> u64) -> Self {
        for &x in list {
            write!(self.0, " {:016x}", bits(x)).unwrap();
        }
        self
    }

    pub fn double(self, x: f64) -> Self {
        self.doubles(&[x], f64::to_bits)
    }

    /// `len`, and so many doubles.
    pub fn cells(self, list: &[f64]) -> Self {
        self.number(list.len()).doubles(list, f64::to_bits)
    }

    /// `len`, and so many numbers.
    pub fn list(self, list: &[usize]) -> Self {
        self.number(list.len()).numbers(list)
    }

    /// `len`, and so many doubles of an answer.
    pub fn answer(self, list: &[f64]) -> Self {
        self.number(list.len()).doubles(list, settled)
    }
}

/// "An answer that is NaN has the bits 7ff8000000000000".
fn settled(x: f64) -> u64 {
    if x.is_nan() {
        0x7ff8_0000_0000_0000
    } else {
        x.to_bits()
    }
}

fn told(answer: &Answer) -> Line {
    let line = match answer {
        Err(refusal) => Line::default().number(*refusal as usize).number(0).number(0),
        Ok(table) => {
            let line = Line::default().number(0).number(table.rows).number(table.columns);
            match &table.cells {
                Cells::Doubles(cells) => line.doubles(cells, settled),
                Cells::Numbers(cells) => line.numbers(cells),
            }
        }
    };
    line.number(0)
}

#[derive(Default)]
pub struct Record {
    pub calls: String,
    pub answers: String,
    /// The opcodes whose calls are written; the others are made all the same, so that the cases after them stay what they are.
    pub played: &'static [usize],
    /// How many calls each opcode has, and of these how many are done.
    pub counts: [(usize, usize); 14],
}

impl Record {
    pub fn put_lines(&mut self, code: usize, call: Line, answer: Line, done: bool) {
        if self.played.contains(&code) {
            writeln!(self.calls, "{}", call.0).unwrap();
            writeln!(self.answers, "{}", answer.0).unwrap();
        }
        self.counts[code].0 += 1;
        self.counts[code].1 += done as usize;
    }

    pub fn put(&mut self, code: usize, call: Line, answer: &Answer) {
        self.put_lines(code, call, told(answer), answer.is_ok());
    }

    /// A call on one matrix, whatever its sizes.
    pub fn sized(&mut self, op: Op, rows: usize, columns: usize, cells: &[f64], room: usize) -> Answer {
        let judged = rules::matrix(rows, columns, cells.len(), room, || op.need(rows, columns), op.square());
        let answer = judged.and_then(|()| op.run(&DMatrix::from_row_slice(rows, columns, cells)));
        let call = Line::default().number(op.code()).number(room).numbers(op.parameter().as_slice());
        self.put(op.code(), call.number(rows).number(columns).cells(cells), &answer);
        answer
    }

    /// A call on one matrix within the limits, in a buffer with a little room to spare.
    pub fn call(&mut self, op: Op, rows: usize, columns: usize, cells: &[f64]) -> Answer {
        let spare = self.counts[op.code()].0 % 4;
        self.sized(op, rows, columns, cells, op.need(rows, columns) + spare)
    }

    pub fn quasi_diagonalization(&mut self, n: usize, node: usize, ids: &[usize], room: usize) {
        let answer = rules::leaf_order(n, node, ids, &[room]).map(|()| {
            let rows: Vec<[usize; 2]> = ids.chunks(2).map(|r| [r[0], r[1]]).collect();
            let leaves = api::quasi_diagonalization(n, &rows, node);
            Table { rows: 1, columns: leaves.len(), cells: Cells::Numbers(leaves) }
        });
        let call = Line::default().number(0xb).number(room).number(n).number(node).number(ids.len()).numbers(ids);
        self.put(0xb, call, &answer);
    }

    pub fn seriate_matrix(&mut self, rows: usize, columns: usize, cells: &[f64], order: &[usize], room: usize) {
        let judged = rules::matrix(rows, columns, cells.len(), room, || need::square(columns), true);
        let answer = judged.and_then(|()| rules::order(order, columns)).map(|()| {
            let m = DMatrix::from_row_slice(rows, columns, cells);
            table(&api::seriate_matrix(&m, order))
        });
        let call = Line::default().number(0xc).number(room).number(rows).number(columns).cells(cells);
        self.put(0xc, call.number(order.len()).numbers(order), &answer);
    }

    /// Bytes that are no text, which the source cannot be handed, are no name: "else 1".
    pub fn freq_step(&mut self, name: &[u8]) {
        let step = std::str::from_utf8(name).map_or(1, api::freq_step);
        let bytes: Vec<usize> = name.iter().map(|&b| b as usize).collect();
        let answer = Ok(Table { rows: 1, columns: 1, cells: Cells::Numbers(vec![step]) });
        self.put(0xd, Line::default().number(0xd).number(bytes.len()).numbers(&bytes), &answer);
    }
}
