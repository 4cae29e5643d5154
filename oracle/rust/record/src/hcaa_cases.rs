//! HCAA's accounts, and weights shared down given merge rows, for the programs `hcaa_accounts` and `risks`.
use crate::account_calls::{Hrp, Matrix};
use crate::account_cases::{figures, from_prices, from_returns, given, prices, resized, returns, shorten, DISTANCES};
use crate::calls::Record;
use crate::cases::{HUGE, METHODS};
use crate::hcaa_calls::{Down, Hcaa, Lone, PLAIN};
use crate::kinds::{any_tree, covariance, diagonal, filled, mirrored, square, wild};
use crate::random::{Random, ODD};
use crate::rules::need;
use openquant::api::Linkage;

/// More than any account needs.
const WHOLE: [usize; 4] = [200, 100, 100, 8300];

pub fn whole(account: &Hcaa) -> Hcaa {
    Hcaa { rooms: WHOLE, ..account.clone() }
}

/// Any linkage and distance.
pub fn mixed(account: Hcaa, rng: &mut Random) -> Hcaa {
    Hcaa { linkage: rng.pick(&METHODS), distance: rng.pick(&DISTANCES), ..account }
}

fn expecting(expected: Vec<f64>, account: Hcaa) -> Hcaa {
    Hcaa { expected_given: true, expected, ..account }
}

/// Document 01's worked account.
fn worked(clusters: Option<usize>) -> Hcaa {
    let cov = vec![1.0, 0.5, 0.0, 0.5, 1.0, 0.0, 0.0, 0.0, 1.0];
    Hcaa { linkage: Linkage::Single, clusters, ..Hcaa::new("equal_weighting", 3, given(3, cov)) }
}

/// Each account runs in what the ones before it left.
fn one_after_another(out: &mut Record, rng: &mut Random) {
    out.hcaa_allocate(&whole(&worked(None)));
    // 64 assets are accepted.
    let long = Hcaa::new("minimum_variance", 64, from_returns(3, 64, returns(rng, 3, 64)));
    out.hcaa_allocate(&whole(&long));
    out.hcaa_allocate(&worked(Some(2)));
    out.hcaa_allocate(&whole(&worked(Some(1))));
    out.hcaa_allocate(&whole(&Hcaa { clusters: Some(7), ..long.clone() }));
    // Refused for the clusters, a side, a variance, a buffer: nothing of the account before is left.
    for clusters in [0, 4, HUGE] {
        out.hcaa_allocate(&whole(&worked(Some(clusters))));
    }
    let middle = Hcaa::new("sharpe_ratio", 11, from_prices(5, 11, prices(rng, 5, 11)));
    out.hcaa_allocate(&whole(&middle));
    out.hcaa_allocate(&whole(&Hcaa::new("minimum_variance", 3, given(3, diagonal(&[f64::INFINITY, 1.0, 1.0])))));
    out.hcaa_allocate(&whole(&middle));
    out.hcaa_allocate(&whole(&Hcaa::new("equal_weighting", 3, given(3, diagonal(&[1.0, 0.0, 1.0])))));
    out.hcaa_allocate(&whole(&long));
    out.hcaa_allocate(&Hcaa { rooms: [200, 100, 100, 8191], ..middle.clone() });
    out.hcaa_allocate(&whole(&worked(None)));
    // 65 assets are 9, whatever else there is.
    for rooms in [WHOLE, [0; 4]] {
        out.hcaa_allocate(&Hcaa { assets: 65, rooms, ..worked(None) });
        out.hcaa_allocate(&Hcaa { assets: HUGE, rooms, clusters: Some(0), ..worked(None) });
    }
    out.hcaa_allocate(&whole(&Hcaa::new("minimum_variance", 1, given(1, vec![2.5]))));
    // An HRP account, and one of HCAA's after it.
    out.hrp_allocate(&Hrp::new(9, given(9, covariance(rng, 9))));
    out.hcaa_allocate(&whole(&worked(None)));
}

/// An account of 2 assets that one sentence of document 01 refuses, or none does, or that a later sentence no longer sees.
pub type Flaw = fn(&mut Hcaa);

const FLAWS: [Flaw; 69] = [
    |a| a.assets = 65,
    |a| a.assets = 0,
    |a| a.assets = 1,
    |a| a.assets = 3,
    // 9 of each matrix; of an absent one nothing is looked at.
    |a| (a.matrices[0].rows, a.matrices[0].columns) = (4097, 0),
    |a| (a.matrices[1].rows, a.matrices[1].columns) = (1, 65),
    |a| (a.matrices[2].rows, a.matrices[2].columns) = (HUGE, HUGE),
    |a| (a.matrices[1].rows, a.matrices[1].columns) = (4096, 2),
    // 10 of each.
    |a| shorten(&mut a.matrices[0]),
    |a| shorten(&mut a.matrices[1]),
    |a| shorten(&mut a.matrices[2]),
    |a| a.matrices[0].cells.push(1.0),
    |a| a.matrices[2].cells.push(1.0),
    // 11 of each.
    |a| a.rooms[0] = 1,
    |a| a.rooms[1] = 1,
    |a| a.rooms[2] = 1,
    |a| a.rooms[3] = 8191,
    |a| a.rooms = [0; 4],
    |a| a.rooms = [2, 2, 2, 8192],
    // No matrix, or one less.
    |a| a.matrices.iter_mut().for_each(|m| m.given = false),
    |a| a.matrices[0].given = false,
    |a| a.matrices[1].given = false,
    |a| a.matrices[2].given = false,
    // 2, by its case too; of tail risk, so 16 where there are no return rows.
    |a| a.metric = b"Equal_weighting".to_vec(),
    |a| a.metric = Vec::new(),
    |a| a.metric = b"minimum_variance ".to_vec(),
    |a| a.metric = b"sharpe_rati".to_vec(),
    |a| a.metric = vec![0xff; 3],
    |a| a.metric = b"expected_shortfall".to_vec(),
    |a| a.metric = b"conditional_drawdown_risk".to_vec(),
    |a| a.metric = b"Expected_shortfall".to_vec(),
    // 3 of each.
    |a| resized(&mut a.matrices[0], 4, 3),
    |a| resized(&mut a.matrices[0], 4, 1),
    |a| resized(&mut a.matrices[1], 3, 3),
    |a| resized(&mut a.matrices[1], 0, 3),
    |a| resized(&mut a.matrices[2], 2, 3),
    |a| resized(&mut a.matrices[2], 3, 2),
    |a| resized(&mut a.matrices[2], 3, 3),
    |a| resized(&mut a.matrices[2], 0, 0),
    // The price rules, and too few rows.
    |a| resized(&mut a.matrices[0], 0, 2),
    |a| resized(&mut a.matrices[0], 1, 2),
    |a| resized(&mut a.matrices[0], 1, 3),
    |a| resized(&mut a.matrices[0], 2, 2),
    |a| resized(&mut a.matrices[1], 0, 2),
    |a| resized(&mut a.matrices[1], 1, 2),
    |a| {
        if let Some(price) = a.matrices[0].cells.get_mut(3) {
            *price = -0.0;
        }
    },
    |a| a.name = b"Month".to_vec(),
    |a| a.name = b"W".to_vec(),
    // Sharpe: expected returns given, of another length, or not looked at; methods.
    |a| a.metric = b"sharpe_ratio".to_vec(),
    |a| (a.metric, a.method) = (b"sharpe_ratio".to_vec(), b"Exponential".to_vec()),
    |a| (a.metric, a.method) = (b"sharpe_ratio".to_vec(), b"MEAN".to_vec()),
    |a| (a.metric, a.method) = (b"sharpe_ratio".to_vec(), b"median".to_vec()),
    |a| (a.metric, a.method) = (b"sharpe_ratio".to_vec(), Vec::new()),
    |a| (a.metric, a.expected_given, a.expected) = (b"sharpe_ratio".to_vec(), true, vec![0.1, 0.2]),
    |a| (a.metric, a.expected_given, a.expected) = (b"sharpe_ratio".to_vec(), true, vec![0.1]),
    |a| (a.metric, a.expected_given, a.expected) = (b"sharpe_ratio".to_vec(), true, vec![0.1; 65]),
    |a| (a.expected_given, a.expected) = (true, vec![]),
    |a| (a.expected_given, a.expected) = (false, vec![0.1, 0.2]),
    |a| a.method = b"mea".to_vec(),
    // 6 at its edges.
    |a| a.clusters = Some(0),
    |a| a.clusters = Some(1),
    |a| a.clusters = Some(2),
    |a| a.clusters = Some(3),
    |a| a.clusters = Some(HUGE),
    // Variances and sides.
    |a| a.matrices[2].cells.iter_mut().for_each(|x| *x = 0.0),
    |a| a.matrices[2].cells.iter_mut().for_each(|x| *x = f64::INFINITY),
    |a| (a.metric, a.clusters) = (b"equal_weighting".to_vec(), Some(1)),
    |a| a.metric = b"equal_weighting".to_vec(),
    |a| a.matrices[1].cells.iter_mut().for_each(|x| *x = 0.5),
];

/// Document 01's order for HCAA, from 9 to a side: a flaw for each of its sentences, of an account by Sharpe from prices and a covariance.
const ORDER: [Flaw; 15] = [
    |a| (a.matrices[2].rows, a.matrices[2].columns) = (65, 64),
    |a| shorten(&mut a.matrices[2]),
    |a| a.rooms[1] = 1,
    |a| a.matrices.iter_mut().for_each(|m| m.given = false),
    |a| a.metric = b"sharpe".to_vec(),
    |a| a.assets = 0,
    |a| a.matrices[0].cells[1] = 0.0,
    |a| resized(&mut a.matrices[0], 4, 3),
    |a| resized(&mut a.matrices[2], 3, 3),
    |a| (a.expected_given, a.expected) = (true, vec![0.5; 3]),
    |a| a.matrices[0].given = false,
    |a| a.method = b"median".to_vec(),
    |a| a.clusters = Some(3),
    |a| a.matrices[2].cells[0] = 0.0,
    |a| a.matrices[2].cells[0] = f64::INFINITY,
];

/// Each sentence with those that come after it, so many of them, at once; the earlier one's flaw is made last, so that it stays.
pub fn pairs<T: Clone>(order: &[fn(&mut T)], after: usize, base: &T, mut call: impl FnMut(&T)) {
    for (k, earlier) in order.iter().enumerate() {
        for later in order[k + 1..].iter().take(after) {
            let mut both = base.clone();
            later(&mut both);
            earlier(&mut both);
            call(&both);
        }
    }
}

/// An account of prices, returns and covariance, but only the kept ones.
fn kept(made: &[Matrix; 3], kept: usize) -> Hcaa {
    let mut matrices = made.clone();
    for (k, m) in matrices.iter_mut().enumerate() {
        if kept >> k & 1 == 0 {
            *m = Matrix::absent();
        }
    }
    Hcaa::new("minimum_variance", 2, matrices)
}

fn refusals(out: &mut Record, rng: &mut Random) {
    let made = [Matrix::of(4, 2, prices(rng, 4, 2)), Matrix::of(3, 2, returns(rng, 3, 2)), Matrix::of(2, 2, covariance(rng, 2))];
    let bases: Vec<Hcaa> = (0..8).map(|k| kept(&made, k)).collect();
    // Each way to give and leave out, by every metric.
    for base in &bases {
        for metric in PLAIN {
            out.hcaa_allocate(&Hcaa { metric: metric.into(), ..base.clone() });
        }
    }
    for kept in [1, 2, 4, 7] {
        for flaw in FLAWS {
            let mut account = mixed(bases[kept].clone(), rng);
            flaw(&mut account);
            out.hcaa_allocate(&account);
        }
    }
    // Two or three flaws at once: the first sentence is the answer's.
    pairs(&ORDER, ORDER.len(), &Hcaa { metric: b"sharpe_ratio".to_vec(), ..bases[5].clone() }, |account| out.hcaa_allocate(account));
    for _ in 0..80 {
        let mut account = mixed(bases[rng.below(8)].clone(), rng);
        for _ in 0..2 + rng.below(2) {
            FLAWS[rng.below(FLAWS.len())](&mut account);
        }
        out.hcaa_allocate(&account);
    }
    // An absent matrix's sizes and slice are not looked at.
    for (rows, columns, len) in [(HUGE, HUGE, 0), (5, 5, 3), (0, 0, 7), (4097, 1, 1)] {
        let mut account = bases[4].clone();
        for m in &mut account.matrices[..2] {
            *m = Matrix { given: false, rows, columns, cells: vec![1.5; len] };
        }
        out.hcaa_allocate(&account);
    }
    // Prices are looked at beside a covariance, and returns of 0 rows have any columns.
    for matrix in [Matrix::of(0, 64, vec![]), Matrix::of(4096, 0, vec![]), Matrix::of(0, 0, vec![])] {
        for place in 0..2 {
            for metric in ["minimum_variance", "sharpe_ratio"] {
                let mut account = Hcaa::new(metric, 2, given(2, made[2].cells.clone()));
                account.matrices[place] = matrix.clone();
                out.hcaa_allocate(&account);
            }
        }
    }
}

/// Document 01's figures, and clusters of every kind by every metric.
fn figured(out: &mut Record, rng: &mut Random) {
    for clusters in [None, Some(0), Some(1), Some(2), Some(3), Some(4)] {
        out.hcaa_allocate(&worked(clusters));
        for metric in &PLAIN[..2] {
            out.hcaa_allocate(&Hcaa { metric: metric.as_bytes().to_vec(), ..worked(clusters) });
        }
        out.hcaa_allocate(&expecting(vec![0.1, 0.2, 0.3], Hcaa { metric: b"sharpe_ratio".to_vec(), ..worked(clusters) }));
    }
    for (n, cov) in figures() {
        for metric in PLAIN {
            let clusters = [None, Some(1 + rng.below(n))][rng.below(2)];
            let account = Hcaa { clusters, ..Hcaa::new(metric, n, given(n, cov.clone())) };
            out.hcaa_allocate(&mixed(expecting(filled(n, || 0.2 + rng.gain()), account), rng));
        }
    }
    // Equal weighting of an infinite variance: a side of it refuses, a cut cluster doesn't.
    for clusters in [1, 2] {
        let account = Hcaa::new("equal_weighting", 2, given(2, diagonal(&[f64::INFINITY, 1.0])));
        out.hcaa_allocate(&Hcaa { clusters: Some(clusters), ..account });
    }
    // Very small variances: a share of none of the weight.
    out.hcaa_allocate(&Hcaa { clusters: Some(1), ..Hcaa::new("minimum_variance", 2, given(2, diagonal(&[1e-308, 1e-308]))) });
    for odd in ODD {
        for place in [0, 3] {
            let mut cov = square(3, |i, j| if i == j { 1.0 + i as f64 } else { 0.25 });
            cov[place] = odd;
            let clusters = Some(1 + rng.below(3));
            let account = Hcaa { clusters, ..Hcaa::new(rng.pick(&PLAIN), 3, given(3, cov)) };
            out.hcaa_allocate(&mixed(expecting(vec![0.1, 0.3, 0.2], account), rng));
        }
        // As an expected return: ratios below 0, NaN, infinite, and both 0.
        let account = Hcaa::new("sharpe_ratio", 3, given(3, covariance(rng, 3)));
        out.hcaa_allocate(&mixed(expecting(vec![odd, 0.5, 0.25], account.clone()), rng));
        out.hcaa_allocate(&mixed(expecting(vec![odd; 3], account), rng));
    }
}

/// Every metric, linkage and distance, cut anywhere.
fn trees(out: &mut Record, rng: &mut Random) {
    for n in [1, 2, 3, 5] {
        for metric in PLAIN {
            for linkage in METHODS {
                for distance in DISTANCES {
                    let clusters = [None, Some(1 + rng.below(n))][rng.below(2)];
                    let account = Hcaa { linkage, distance, clusters, ..Hcaa::new(metric, n, given(n, covariance(rng, n))) };
                    out.hcaa_allocate(&expecting(filled(n, || rng.gain() + 0.03), account));
                }
            }
        }
    }
    for n in [4, 6, 8] {
        for linkage in METHODS {
            // Few correlations, so many ties; an asymmetric matrix; any bits.
            let ties = mirrored(n, 1.0, || rng.pick(&[0.0, 0.25, 0.5]));
            let lean = square(n, |i, j| if i == j { 0.5 + rng.unit() } else { rng.gain() });
            for cov in [ties, lean, wild(rng, n)] {
                let account = Hcaa { linkage, clusters: Some(1 + rng.below(n)), ..Hcaa::new(rng.pick(&PLAIN), n, given(n, cov)) };
                let expected = filled(n, || rng.seldom(9, 0.1));
                out.hcaa_allocate(&expecting(expected, Hcaa { distance: rng.pick(&DISTANCES), ..account }));
            }
        }
    }
    // Every cut of one tree.
    let nine = given(9, covariance(rng, 9));
    for clusters in 1..10 {
        out.hcaa_allocate(&Hcaa { clusters: Some(clusters), rooms: need::hcaa(9), ..Hcaa::new(rng.pick(&PLAIN[..2]), 9, nine.clone()) });
        out.hcaa_allocate(&Hcaa { clusters: Some(clusters), ..Hcaa::new("equal_weighting", 9, nine.clone()) });
    }
    for (n, metric) in [(16, "minimum_standard_deviation"), (17, "equal_weighting"), (32, "minimum_variance")] {
        let account = Hcaa { clusters: Some(n / 3), ..Hcaa::new(metric, n, given(n, covariance(rng, n))) };
        out.hcaa_allocate(&mixed(account, rng));
    }
}

/// From returns and prices: sampled, and expected returns estimated from them.
fn estimates(out: &mut Record, rng: &mut Random) {
    for (rows, n) in [(2, 1), (2, 2), (2, 5), (3, 3), (6, 4), (21, 2)] {
        for (metric, method) in [("sharpe_ratio", "mean"), ("sharpe_ratio", "exponential"), ("minimum_standard_deviation", "none")] {
            let account = Hcaa::new(metric, n, from_returns(rows, n, filled(rows * n, || rng.gain() + 0.02)));
            out.hcaa_allocate(&mixed(Hcaa { method: method.into(), ..account }, rng));
        }
    }
    let names: [&[u8]; 9] = [b"", b"w", b"Week", b"WEEKLY", b"m", b"Month", b"monthly", b"daily", &[0xff, b'w']];
    for (k, name) in names.iter().enumerate() {
        let monthly = (4..8).contains(&k);
        for rows in if monthly { &[3, 20, 21, 42, 63][..] } else { &[3, 4, 5, 9, 10, 15, 16] } {
            let (rows, n) = (*rows, 1 + rng.below(if monthly { 2 } else { 3 }));
            let account = Hcaa::new(rng.pick(&PLAIN), n, from_prices(rows, n, prices(rng, rows, n)));
            let method = rng.pick(&["mean", "exponential"]);
            out.hcaa_allocate(&mixed(Hcaa { name: name.to_vec(), method: method.into(), ..account }, rng));
        }
    }
    // A zero price beside a covariance too, and one that sampling steps over.
    for place in [0, 4, 9, 10] {
        let mut cells = prices(rng, 16, 1);
        cells[place] = 0.0;
        for name in ["", "weekly"] {
            let mut account = Hcaa::new("minimum_variance", 1, from_prices(16, 1, cells.clone()));
            account.name = name.into();
            out.hcaa_allocate(&account);
            account.matrices[2] = Matrix::of(1, 1, vec![2.0]);
            out.hcaa_allocate(&account);
        }
    }
    // Prices and returns of odd doubles; the same column twice; constant prices.
    for metric in PLAIN {
        out.hcaa_allocate(&mixed(Hcaa::new(metric, 3, from_prices(4, 3, filled(12, || rng.seldom(6, 2.5)))), rng));
        out.hcaa_allocate(&mixed(Hcaa::new(metric, 3, from_returns(4, 3, filled(12, || rng.seldom(5, 0.25)))), rng));
        out.hcaa_allocate(&mixed(Hcaa::new(metric, 2, from_returns(3, 2, filled(6, || rng.wild()))), rng));
        out.hcaa_allocate(&Hcaa::new(metric, 2, from_returns(3, 2, vec![0.1, 0.1, -0.2, -0.2, 0.05, 0.05])));
        out.hcaa_allocate(&Hcaa::new(metric, 2, from_prices(3, 2, vec![5.0; 6])));
    }
    for (rows, n, metric) in [(4, 16, "sharpe_ratio"), (3, 33, "sharpe_ratio"), (4, 48, "equal_weighting"), (3, 64, "sharpe_ratio")] {
        let account = Hcaa::new(metric, n, from_prices(rows, n, prices(rng, rows, n)));
        out.hcaa_allocate(&mixed(Hcaa { clusters: Some(1 + rng.below(n)), ..account.clone() }, rng));
        out.hcaa_allocate(&mixed(account, rng));
    }
}

pub type Bend = fn(&mut Down);

pub const BENDS: [Bend; 32] = [
    |d| d.assets = 65,
    |d| d.assets = HUGE,
    |d| d.assets = 0,
    |d| d.assets = 2,
    |d| d.assets = 4,
    // 9 and 10.
    |d| (d.covariance.rows, d.covariance.columns) = (4097, 0),
    |d| (d.covariance.rows, d.covariance.columns) = (1, 65),
    |d| (d.covariance.rows, d.covariance.columns) = (4096, 2),
    |d| (d.covariance.rows, d.covariance.columns) = (HUGE, HUGE),
    |d| d.covariance.cells.truncate(8),
    |d| d.covariance.cells.push(1.0),
    // 11.
    |d| d.room = 2,
    |d| d.room = 0,
    |d| d.room = 3,
    // 3.
    |d| d.covariance = Lone::of(2, 3, vec![1.0; 6]),
    |d| d.covariance = Lone::of(3, 2, vec![1.0; 6]),
    |d| d.covariance = Lone::of(0, 0, vec![]),
    |d| d.expected.truncate(2),
    |d| d.expected = vec![0.1; 65],
    |d| d.expected_given = false,
    |d| (d.expected_given, d.expected) = (false, vec![]),
    // 14.
    |d| d.ids.truncate(3),
    |d| d.ids = vec![],
    |d| d.ids.push(4),
    |d| d.ids = vec![0, 1, 1, 2],
    |d| d.ids = vec![0, 3, 1, 2],
    |d| d.ids = vec![0, 1, 2, HUGE],
    // 6, and 1.
    |d| d.clusters = 0,
    |d| d.clusters = 4,
    |d| d.clusters = HUGE,
    |d| d.covariance.cells.iter_mut().for_each(|x| *x = -1.0),
    |d| d.covariance.cells.iter_mut().for_each(|x| *x = f64::INFINITY),
];

fn shared_down(out: &mut Record, rng: &mut Random) {
    let three = covariance(rng, 3);
    let base = |metric| Down::new(metric, 3, three.clone(), vec![1, 2, 0, 3]);
    for metric in 0..4 {
        for bend in BENDS {
            let mut call = base(metric);
            bend(&mut call);
            out.allocate_down_tree(&call);
        }
    }
    for _ in 0..80 {
        let mut call = base(rng.pick(&[0, 1, 2, 2, 3]));
        for _ in 0..2 + rng.below(2) {
            BENDS[rng.below(BENDS.len())](&mut call);
        }
        out.allocate_down_tree(&call);
    }
    out.allocate_down_tree(&Down::new(0, 0, vec![], vec![]));
    out.allocate_down_tree(&Down::new(0, 0, vec![], vec![0, 1]));
    // Only the variances that a scored side or an inverse-variance cut reads are looked at.
    for metric in 0..4 {
        out.allocate_down_tree(&Down::new(metric, 1, vec![-1.0], vec![]));
        for clusters in [1, 2] {
            for variances in [[-1.0, 1.0], [f64::NAN, 1.0], [f64::INFINITY, 1.0], [0.0, 0.0]] {
                out.allocate_down_tree(&Down { clusters, ..Down::new(metric, 2, diagonal(&variances), vec![1, 0]) });
            }
        }
        for clusters in [1, 2, 3] {
            for variances in [[1.0, -1.0, 2.0], [f64::INFINITY, f64::INFINITY, 1.0], [1.0, 0.5, f64::NAN]] {
                out.allocate_down_tree(&Down { clusters, ..Down::new(metric, 3, diagonal(&variances), vec![0, 1, 3, 2]) });
            }
        }
    }
    for (n, cov) in figures() {
        let ids = any_tree(rng, n);
        out.allocate_down_tree(&Down { clusters: 1 + rng.below(n), ..Down::new(rng.below(4), n, cov, ids) });
    }
    for n in [2, 3, 4, 5, 8] {
        for metric in 0..4 {
            // Any tree, its rows' smaller id first or not; expected returns of both signs.
            let mut call = Down::new(metric, n, covariance(rng, n), any_tree(rng, n));
            out.allocate_down_tree(&call);
            call.clusters = 1 + rng.below(n);
            call.expected = filled(n, || rng.gain());
            out.allocate_down_tree(&call);
            call.covariance.cells = wild(rng, n);
            call.expected = filled(n, || rng.seldom(4, 0.1));
            out.allocate_down_tree(&call);
        }
    }
    // The deepest tree of 64 assets.
    let deep: Vec<usize> = (0..63).flat_map(|k| [k + 1, if k == 0 { 0 } else { 63 + k }]).collect();
    let many = covariance(rng, 64);
    out.allocate_down_tree(&Down { clusters: 40, ..Down::new(2, 64, many, deep) });
}

pub fn all(out: &mut Record, rng: &mut Random) {
    one_after_another(out, rng);
    refusals(out, rng);
    figured(out, rng);
    trees(out, rng);
    estimates(out, rng);
    shared_down(out, rng);
}
