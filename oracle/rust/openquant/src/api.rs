//! The source's inner steps, for a recorder. A refusal is document 01's number. Where hrp.rs and hcaa.rs have a copy each, both are
//! run and have to agree.
use crate::hcaa::{HcaaDistance, HcaaLinkage};
use crate::hrp::{HierarchicalRiskParity, HrpDistance, HrpError};
use crate::nearest::{noted, Known};
use crate::{hcaa_open, hcaa_ruled, hrp_open};
use nalgebra::DMatrix;
use std::sync::OnceLock;

pub use crate::hcaa_open::door::{cluster_sharpe, exponential_expected_returns, mean_expected_returns};
pub use crate::hrp_open::door::{recursive_bisection_min_var, seriate_matrix, shrink_covariance};

type Answer = Result<DMatrix<f64>, u8>;

/// Numbers by their bits, any NaN for any other.
fn bits(cells: impl IntoIterator<Item = f64>) -> Vec<u64> {
    cells.into_iter().map(|x| if x.is_nan() { f64::NAN.to_bits() } else { x.to_bits() }).collect()
}

fn agreed(a: Answer, b: Answer) -> Answer {
    let cells = |m: &DMatrix<f64>| bits((0..m.nrows()).flat_map(|r| (0..m.ncols()).map(move |c| m[(r, c)])));
    let seen = |m: &DMatrix<f64>| (m.nrows(), m.ncols(), cells(m));
    assert_eq!(a.as_ref().map(seen), b.as_ref().map(seen));
    a
}

pub fn returns_from_prices(prices: &DMatrix<f64>) -> Answer {
    agreed(hrp_open::door::returns_from_prices(prices), hcaa_open::door::returns_from_prices(prices))
}

pub fn covariance(returns: &DMatrix<f64>) -> Answer {
    agreed(hrp_open::door::covariance(returns), hcaa_open::door::covariance(returns))
}

pub fn cov2corr(cov: &DMatrix<f64>) -> Answer {
    agreed(hrp_open::door::cov2corr(cov), hcaa_open::door::cov2corr(cov))
}

pub fn freq_step(name: &str) -> usize {
    crate::util::resample::freq_step(Some(name))
}

pub fn resample_prices(prices: &DMatrix<f64>, step: usize) -> DMatrix<f64> {
    crate::util::resample::resample_prices(prices, step)
}

#[derive(Clone, Copy, PartialEq)]
pub enum Measure {
    Hrp,
    Hcaa,
}

pub fn corr_to_distances(measure: Measure, corr: &DMatrix<f64>) -> DMatrix<f64> {
    match measure {
        Measure::Hrp => hrp_open::door::corr_to_distances(corr),
        Measure::Hcaa => hcaa_open::door::corr_to_distances(corr),
    }
}

pub fn distance_of_distances(d: &DMatrix<f64>) -> DMatrix<f64> {
    crate::util::linkage::distance_of_distances(d)
}

#[derive(Clone, Copy, PartialEq, Debug)]
pub enum Linkage {
    Single,
    Complete,
    Average,
    Ward,
}

impl Linkage {
    fn hcaa(self) -> HcaaLinkage {
        match self {
            Linkage::Single => HcaaLinkage::Single,
            Linkage::Complete => HcaaLinkage::Complete,
            Linkage::Average => HcaaLinkage::Average,
            Linkage::Ward => HcaaLinkage::Ward,
        }
    }
}

pub fn linkage_children(distance: &DMatrix<f64>, method: Linkage) -> Vec<[usize; 2]> {
    crate::util::linkage::linkage_children(distance, method.hcaa().into())
}

pub fn quasi_diagonalization(n: usize, rows: &[[usize; 2]], node: usize) -> Vec<usize> {
    crate::util::linkage::quasi_diagonalization(n, rows, node)
}

fn row(cells: Vec<f64>) -> DMatrix<f64> {
    DMatrix::from_row_slice(1, cells.len(), &cells)
}

/// One row.
pub fn inverse_variance_weights(cov: &DMatrix<f64>, assets: &[usize]) -> Answer {
    let mine = hrp_open::door::inverse_variance_weights(cov, assets).map(row);
    agreed(mine, hcaa_open::door::inverse_variance_weights(cov, assets).map(row))
}

/// One cell.
pub fn cluster_variance(cov: &DMatrix<f64>, assets: &[usize]) -> Answer {
    let mine = hrp_open::door::cluster_variance(cov, assets).map(|v| row(vec![v]));
    agreed(mine, hcaa_open::door::cluster_variance(cov, assets).map(|v| row(vec![v])))
}

#[derive(Clone, Copy, PartialEq, Debug)]
pub enum Distance {
    Correlation,
    DistanceOfDistances,
}

impl Distance {
    fn hrp(self) -> HrpDistance {
        match self {
            Distance::Correlation => HrpDistance::Correlation,
            Distance::DistanceOfDistances => HrpDistance::DistanceOfDistances,
        }
    }

    fn hcaa(self) -> HcaaDistance {
        match self {
            Distance::Correlation => HcaaDistance::Correlation,
            Distance::DistanceOfDistances => HcaaDistance::DistanceOfDistances,
        }
    }
}

/// The distance that both allocators read in a name, or 7.
pub fn distance_named(name: &str) -> Result<Distance, u8> {
    let (hrp, hcaa) = (name.parse::<HrpDistance>(), name.parse::<HcaaDistance>());
    let named = [Distance::Correlation, Distance::DistanceOfDistances].into_iter().find(|d| hrp == Ok(d.hrp()));
    assert_eq!(named.map(Distance::hcaa), hcaa.ok());
    named.ok_or(7)
}

/// The linkage that HCAA reads in a name, or 8.
pub fn linkage_named(name: &str) -> Result<Linkage, u8> {
    match name.parse() {
        Ok(HcaaLinkage::Single) => Ok(Linkage::Single),
        Ok(HcaaLinkage::Complete) => Ok(Linkage::Complete),
        Ok(HcaaLinkage::Average) => Ok(Linkage::Average),
        Ok(HcaaLinkage::Ward) => Ok(Linkage::Ward),
        Err(_) => Err(8),
    }
}

/// Names for so many assets; the source reads only how many there are.
fn names(assets: usize) -> &'static [String] {
    static NAMES: OnceLock<Vec<String>> = OnceLock::new();
    &NAMES.get_or_init(|| (0..64).map(|i| i.to_string()).collect())[..assets]
}

/// What HRP's public call is handed, and with which distance its allocator was made.
pub struct Account<'a> {
    pub assets: usize,
    pub prices: Option<&'a DMatrix<f64>>,
    pub returns: Option<&'a DMatrix<f64>>,
    pub covariance: Option<&'a DMatrix<f64>>,
    pub resample_by: Option<&'a str>,
    pub use_shrinkage: bool,
    pub distance: Distance,
}

/// What it leaves in the allocator's public fields.
pub struct Allocation {
    pub rows: Vec<usize>,
    pub order: Vec<usize>,
    pub weights: Vec<f64>,
    pub correlations: DMatrix<f64>,
    pub distances: DMatrix<f64>,
}

pub fn hrp_allocate(account: &Account) -> Result<Allocation, u8> {
    let mut model = HierarchicalRiskParity::with_distance(account.distance.hrp());
    let Account { prices, returns, covariance, resample_by, use_shrinkage, .. } = *account;
    let said = model.allocate(names(account.assets), prices, returns, covariance, resample_by, use_shrinkage);
    said.map_err(|e| match e {
        HrpError::NoData => 1,
        HrpError::DimensionMismatch(_) => 3,
        other => panic!("allocate gives no {other}"),
    })?;
    Ok(Allocation {
        rows: model.clusters.concat(),
        order: model.ordered_indices,
        weights: model.weights,
        correlations: model.seriated_correlations.expect("correlations"),
        distances: model.seriated_distances.expect("distances"),
    })
}

/// A refusal's number and, after 6, the clusters that were asked for and the assets.
#[derive(Clone, Copy, PartialEq, Debug)]
pub struct Refused {
    pub number: u8,
    pub asked: [usize; 2],
}

impl From<u8> for Refused {
    fn from(number: u8) -> Self {
        Self { number, asked: [0; 2] }
    }
}

/// What HCAA's public call is handed, and how its allocator was made.
#[derive(Clone, Copy)]
pub struct HcaaAccount<'a> {
    pub assets: usize,
    pub prices: Option<&'a DMatrix<f64>>,
    pub returns: Option<&'a DMatrix<f64>>,
    pub covariance: Option<&'a DMatrix<f64>>,
    pub expected: Option<&'a [f64]>,
    pub metric: &'a str,
    pub method: &'a str,
    pub confidence: f64,
    pub clusters: Option<usize>,
    pub resample_by: Option<&'a str>,
    pub distance: Distance,
    pub linkage: Linkage,
}

pub struct HcaaAllocation {
    pub rows: Vec<usize>,
    pub order: Vec<usize>,
    pub weights: Vec<f64>,
}

/// `allocate` of one of the modules that have hcaa.rs.
macro_rules! hcaa_of {
    ($name:ident, $module:ident) => {
        pub fn $name(account: &HcaaAccount) -> Result<HcaaAllocation, Refused> {
            use crate::$module::{HcaaDistance, HcaaError, HcaaLinkage, HierarchicalClusteringAssetAllocation};
            let mut model = HierarchicalClusteringAssetAllocation::new(account.method);
            model.distance = match account.distance {
                Distance::Correlation => HcaaDistance::Correlation,
                Distance::DistanceOfDistances => HcaaDistance::DistanceOfDistances,
            };
            model.linkage = match account.linkage {
                Linkage::Single => HcaaLinkage::Single,
                Linkage::Complete => HcaaLinkage::Complete,
                Linkage::Average => HcaaLinkage::Average,
                Linkage::Ward => HcaaLinkage::Ward,
            };
            let HcaaAccount { prices, returns, covariance, expected, metric, confidence, clusters, resample_by, .. } = *account;
            let names = names(account.assets);
            let said = model.allocate(names, prices, returns, covariance, expected, metric, confidence, clusters, resample_by);
            said.map_err(|e| match e {
                HcaaError::NoData => 1.into(),
                HcaaError::UnknownAllocationMetric(_) => 2.into(),
                HcaaError::DimensionMismatch(_) => 3.into(),
                HcaaError::MissingExpectedReturnsForSharpe => 4.into(),
                HcaaError::UnknownReturns(_) => 5.into(),
                HcaaError::InvalidNumClusters { requested, assets } => Refused { number: 6, asked: [requested, assets] },
                HcaaError::MissingReturnsForTailRisk => 16.into(),
                other => panic!("allocate gives no {other}"),
            })?;
            Ok(HcaaAllocation { rows: model.clusters.concat(), order: model.ordered_indices, weights: model.weights })
        }
    };
}

// The source unchanged, and with document 02's Nearest rule.
hcaa_of!(hcaa_allocate, hcaa);
hcaa_of!(hcaa_allocate_ruled, hcaa_ruled);

pub fn is_tail_risk(metric: &str) -> bool {
    matches!(metric, "expected_shortfall" | "conditional_drawdown_risk")
}

/// 17: "confidence NaN or outside 0 to 1".
pub fn is_confidence(x: f64) -> bool {
    (0.0..=1.0).contains(&x)
}

/// How the source, unchanged, answers.
#[derive(Clone, Copy, PartialEq, Debug)]
pub enum Beside {
    Same,
    /// Otherwise, where a known difference is met.
    Known(Known),
    /// Otherwise, where none is.
    Unknown,
}

/// What document 02 expects, and how the source answers beside it.
pub struct Due<T> {
    pub answer: Result<T, Refused>,
    pub beside: Beside,
}

impl<T> Due<T> {
    fn of<S: PartialEq>(answer: Result<T, Refused>, source: &Result<T, Refused>, met: Known, seen: impl Fn(&T) -> S) -> Self {
        let beside = match (answer.as_ref().map(&seen) == source.as_ref().map(&seen), met.any()) {
            (true, _) => Beside::Same,
            (false, true) => Beside::Known(met),
            (false, false) => Beside::Unknown,
        };
        Self { answer, beside }
    }

    /// For a recorder, which has no other way to say so.
    pub fn known(self) -> Result<T, Refused> {
        assert_ne!(self.beside, Beside::Unknown, "the source and document 02 part, and no known difference is met");
        self.answer
    }
}

/// Under a tail-risk metric the ruled copy's answer, and 17 where the confidence is none and nothing before it refuses: asked for no clusters
/// at all, the source then comes as far as its 6. Under any other metric the source's answer.
pub fn hcaa_due(account: &HcaaAccount) -> Due<HcaaAllocation> {
    let source = hcaa_allocate(account);
    if !is_tail_risk(account.metric) {
        return Due { answer: source, beside: Beside::Same };
    }
    let (answer, met) = if is_confidence(account.confidence) {
        noted(|| hcaa_allocate_ruled(account))
    } else {
        let before = match hcaa_allocate(&HcaaAccount { clusters: Some(0), ..*account }) {
            Err(Refused { number: 6, .. }) => 17.into(),
            Err(refused) => refused,
            Ok(_) => panic!("no clusters are accepted"),
        };
        (Err(before), Known { confidence: true, ..Known::default() })
    };
    Due::of(answer, &source, met, |a| (a.rows.clone(), a.order.clone(), bits(a.weights.iter().copied())))
}

/// What a weight is shared down by.
pub struct Sharing<'a> {
    pub rows: &'a [[usize; 2]],
    pub assets: usize,
    pub clusters: usize,
    pub metric: &'a str,
    pub expected: &'a [f64],
    pub returns: &'a DMatrix<f64>,
    pub covariance: &'a DMatrix<f64>,
    pub confidence: f64,
}

/// Where document 02 has no refusal before the recursion's own.
pub fn sharing_due(s: &Sharing) -> Due<Vec<f64>> {
    let (answer, met) = noted(|| hcaa_ruled::door::allocate_down_tree(s));
    let source = hcaa_open::door::allocate_down_tree(s);
    Due::of(answer.map_err(Refused::from), &source.map_err(Refused::from), met, |w| bits(w.iter().copied()))
}

/// The two measures of a list of assets.
#[derive(Clone, Copy, PartialEq, Debug)]
pub enum Tail {
    ExpectedShortfall,
    ConditionalDrawdown,
}

/// Likewise.
pub fn tail_due(tail: Tail, returns: &DMatrix<f64>, cov: &DMatrix<f64>, confidence: f64, assets: &[usize]) -> Due<f64> {
    let (ruled, source) = match tail {
        Tail::ExpectedShortfall => {
            let ruled = || hcaa_ruled::door::cluster_expected_shortfall(returns, cov, confidence, assets);
            (noted(ruled), hcaa_open::door::cluster_expected_shortfall(returns, cov, confidence, assets))
        }
        Tail::ConditionalDrawdown => {
            let ruled = || hcaa_ruled::door::cluster_conditional_drawdown(returns, cov, confidence, assets);
            (noted(ruled), hcaa_open::door::cluster_conditional_drawdown(returns, cov, confidence, assets))
        }
    };
    let (answer, met) = ruled;
    Due::of(answer.map_err(Refused::from), &source.map_err(Refused::from), met, |&x| bits([x]))
}
