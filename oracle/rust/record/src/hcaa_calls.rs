//! HCAA's calls: whole accounts for `hcaa_accounts`, a weight shared down given merge rows and the tail-risk measures for `risks`.
use crate::account_calls::{row, Matrix};
use crate::calls::{Line, Record};
use crate::rules::{self, need, Sizes};
use nalgebra::DMatrix;
use openquant::api::{self, Distance, HcaaAccount, HcaaAllocation, Linkage, Refused, Sharing, Tail};

/// One call of HCAA's `allocate`: the matrices are prices, returns and covariance, the rooms those of rows, order, weights and scratch.
#[derive(Clone)]
pub struct Hcaa {
    pub distance: Distance,
    pub linkage: Linkage,
    pub metric: Vec<u8>,
    pub method: Vec<u8>,
    pub confidence: f64,
    pub clusters: Option<usize>,
    pub name: Vec<u8>,
    pub assets: usize,
    pub matrices: [Matrix; 3],
    pub expected_given: bool,
    pub expected: Vec<f64>,
    pub rooms: [usize; 4],
}

impl Hcaa {
    /// An account of these matrices in buffers with a little room to spare: the allocator's defaults, and no cut.
    pub fn new(metric: &str, assets: usize, matrices: [Matrix; 3]) -> Self {
        Self {
            distance: Distance::Correlation,
            linkage: Linkage::Ward,
            metric: metric.into(),
            method: b"mean".to_vec(),
            confidence: 0.05,
            clusters: None,
            name: Vec::new(),
            assets,
            matrices,
            expected_given: false,
            expected: Vec::new(),
            rooms: need::hcaa(assets).map(|need| need + 3),
        }
    }

    /// Bytes that are no text, which the source cannot be handed, are no name.
    fn run(&self) -> Result<HcaaAllocation, Refused> {
        let handed = self.matrices.each_ref().map(Matrix::handed);
        rules::account(self.assets, &handed, &self.rooms, need::hcaa)?;
        let [prices, returns, covariance] = self.matrices.each_ref().map(Matrix::made);
        let due = api::hcaa_due(&HcaaAccount {
            assets: self.assets,
            prices: prices.as_ref(),
            returns: returns.as_ref(),
            covariance: covariance.as_ref(),
            expected: self.expected_given.then_some(&self.expected),
            metric: &String::from_utf8_lossy(&self.metric),
            method: &String::from_utf8_lossy(&self.method),
            confidence: self.confidence,
            clusters: self.clusters,
            resample_by: std::str::from_utf8(&self.name).ok(),
            distance: self.distance,
            linkage: self.linkage,
        });
        due.known()
    }
}

/// The metrics in the order of their numbers.
pub const METRICS: [&str; 6] = [
    "minimum_variance",
    "minimum_standard_deviation",
    "sharpe_ratio",
    "equal_weighting",
    "expected_shortfall",
    "conditional_drawdown_risk",
];

/// Those that need no return rows.
pub const PLAIN: [&str; 4] = [METRICS[0], METRICS[1], METRICS[2], METRICS[3]];

/// Those of tail risk.
pub const TAILS: [&str; 2] = [METRICS[4], METRICS[5]];

/// A matrix that is handed over, whatever its sizes.
#[derive(Clone, Default)]
pub struct Lone {
    pub rows: usize,
    pub columns: usize,
    pub cells: Vec<f64>,
}

impl Lone {
    pub fn of(rows: usize, columns: usize, cells: Vec<f64>) -> Self {
        Self { rows, columns, cells }
    }

    fn sizes(&self) -> Sizes {
        Sizes { rows: self.rows, columns: self.columns, len: self.cells.len() }
    }

    fn made(&self) -> DMatrix<f64> {
        DMatrix::from_row_slice(self.rows, self.columns, &self.cells)
    }
}

/// One call of `allocate_down_tree`; the metric is its number.
#[derive(Clone)]
pub struct Down {
    pub metric: usize,
    pub clusters: usize,
    pub assets: usize,
    pub expected_given: bool,
    pub expected: Vec<f64>,
    pub returns: Lone,
    pub confidence: f64,
    pub covariance: Lone,
    pub ids: Vec<usize>,
    pub room: usize,
    pub scratch: usize,
}

impl Down {
    /// A covariance of n assets shared down these rows with no cut, where there is an expected return for each and no return row.
    pub fn new(metric: usize, n: usize, cells: Vec<f64>, ids: Vec<usize>) -> Self {
        let expected = (0..n).map(|i| 0.05 + 0.01 * (i * i % 7) as f64).collect();
        Self {
            metric,
            clusters: n,
            assets: n,
            expected_given: true,
            expected,
            returns: Lone::default(),
            confidence: 0.05,
            covariance: Lone::of(n, n, cells),
            ids,
            room: n + 2,
            scratch: need::SCRATCH + 3,
        }
    }

    fn run(&self) -> Result<Vec<f64>, Refused> {
        let metric = METRICS[self.metric];
        rules::sharing(&rules::Sharing {
            sharpe: metric == "sharpe_ratio",
            tail: api::is_tail_risk(metric),
            clusters: self.clusters,
            assets: self.assets,
            expected: self.expected_given.then_some(self.expected.len()),
            returns: self.returns.sizes(),
            confidence: self.confidence,
            covariance: self.covariance.sizes(),
            ids: &self.ids,
            room: self.room,
            scratch: self.scratch,
        })?;
        let rows: Vec<[usize; 2]> = self.ids.chunks(2).map(|r| [r[0], r[1]]).collect();
        let due = api::sharing_due(&Sharing {
            rows: &rows,
            assets: self.assets,
            clusters: self.clusters,
            metric,
            expected: &self.expected,
            returns: &self.returns.made(),
            covariance: &self.covariance.made(),
            confidence: self.confidence,
        });
        due.known()
    }
}

/// One call of a tail-risk measure; series is the room of the portfolio's.
#[derive(Clone)]
pub struct Measured {
    pub tail: Tail,
    pub returns: Lone,
    pub covariance: Lone,
    pub assets: Vec<usize>,
    pub confidence: f64,
    pub series: usize,
}

impl Measured {
    fn run(&self) -> Result<f64, u8> {
        rules::measure(self.returns.sizes(), self.covariance.sizes(), &self.assets, self.confidence, self.series)?;
        let due = api::tail_due(self.tail, &self.returns.made(), &self.covariance.made(), self.confidence, &self.assets);
        due.known().map_err(|refused| refused.number)
    }
}

impl Line {
    fn lone(self, m: &Lone) -> Self {
        self.number(m.rows).number(m.columns).cells(&m.cells)
    }

    /// The refusal's number and, after 6, its two values.
    fn refused(r: &Refused) -> Self {
        let line = Line::default().number(r.number as usize);
        if r.number == 6 {
            line.numbers(&r.asked)
        } else {
            line
        }
    }
}

impl Record {
    pub fn hcaa_allocate(&mut self, a: &Hcaa) {
        let mut call = Line::default().number(6).number(a.distance as usize).number(a.linkage as usize);
        call = call
            .bytes(&a.metric)
            .bytes(&a.method)
            .double(a.confidence)
            .number(a.clusters.is_some() as usize)
            .number(a.clusters.unwrap_or(0));
        call = call.bytes(&a.name).number(a.assets);
        call = a.matrices.iter().fold(call, Line::matrix);
        call = call.number(a.expected_given as usize).cells(&a.expected).numbers(&a.rooms);
        let answer = a.run();
        let told = match &answer {
            Err(refusal) => Line::refused(refusal).numbers(&[0; 3]),
            Ok(a) => Line::default().number(0).list(&a.rows).list(&a.order).answer(&a.weights),
        };
        self.put_lines(6, call, told.number(0), answer.is_ok());
    }

    pub fn allocate_down_tree(&mut self, d: &Down) {
        let call = Line::default().number(7).number(d.room).number(d.metric).number(d.clusters).number(d.assets);
        let call = call.number(d.expected_given as usize).cells(&d.expected);
        let call = call.lone(&d.returns).double(d.confidence).number(d.scratch).lone(&d.covariance).list(&d.ids);
        let answer = d.run();
        let told = match &answer {
            Err(refusal) => Line::refused(refusal).number(0),
            Ok(weights) => Line::default().number(0).answer(weights),
        };
        self.put_lines(7, call, told.number(0), answer.is_ok());
    }

    pub fn measure(&mut self, m: &Measured) {
        let code = 8 + m.tail as usize;
        let call = Line::default().number(code).lone(&m.returns).lone(&m.covariance).list(&m.assets);
        self.put(code, call.double(m.confidence).number(m.series), &m.run().map(|risk| row(vec![risk])));
    }
}
