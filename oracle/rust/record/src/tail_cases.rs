//! The tail-risk metrics: both measures of a cluster, sharing by them, and accounts by them, for the programs `risks` and `hcaa_accounts`.
use crate::account_calls::Matrix;
use crate::account_cases::{from_prices, from_returns, given, prices, resized, returns, shorten};
use crate::calls::Record;
use crate::cases::HUGE;
use crate::hcaa_calls::{Down, Hcaa, Lone, Measured, TAILS};
use crate::hcaa_cases::{mixed, pairs, whole, Bend, Flaw, BENDS};
use crate::kinds::{any_tree, covariance, diagonal, filled, wild};
use crate::random::{Random, ODD};
use crate::rules::need::{self, SCRATCH};
use openquant::api::Tail;

const MEASURES: [Tail; 2] = [Tail::ExpectedShortfall, Tail::ConditionalDrawdown];

/// The metrics of tail risk by their numbers.
const METRICS: [usize; 2] = [4, 5];

/// Confidences that are one: both ends, both zeros, parts whose index is a half, and the doubles beside one half.
const CONFIDENCES: [f64; 12] =
    [0.05, 0.5, 0.0, -0.0, 1.0, 0.25, 0.75, 0.125, 0.1, 0.95, 0.5 - f64::EPSILON / 4.0, 0.5 + f64::EPSILON / 2.0];

/// And such as are none.
const NONE: [f64; 8] = [f64::NAN, -f64::NAN, -5e-324, -1.0, 1.0 + f64::EPSILON, 2.0, f64::INFINITY, f64::NEG_INFINITY];

const MINUS_NAN: f64 = f64::from_bits(0xfff8_0000_0000_0000);

/// Two days of two assets that are alike otherwise. By expected shortfall at one half 0.25 and 0.75, since the index of one half goes to the
/// worse day; the source, which rounds it up, shares equally.
const DAYS: [f64; 4] = [-3.0, -1.0, 1.0, -1.0];

/// The portfolio's days are those of one asset. Mostly a little more is lent than their series needs.
fn alone(out: &mut Record, tail: Tail, days: &[f64], confidence: f64) {
    let (returns, covariance) = (Lone::of(days.len(), 1, days.to_vec()), Lone::of(1, 1, vec![2.0]));
    let series = need::series(days.len()) + out.counts[8 + tail as usize].0 % 4;
    out.measure(&Measured { tail, returns, covariance, assets: vec![0], confidence, series });
}

/// Days whose order, ties, signs and sizes matter, at every place of their list.
fn placed(out: &mut Record, rng: &mut Random) {
    let short: [&[f64]; 12] = [
        &[0.01],
        &[-3.0, 1.0],
        &[-1.0, 0.5, -0.25],
        &[0.03, -0.01, 0.02, -0.02],
        &[0.1, -0.2, 0.3, -0.4, 0.2],
        // Ties; zeros of both signs; a fall to nothing, and below it.
        &[-0.01, -0.01, 0.02, -0.01],
        &[0.0, -0.0, 0.0, -0.0],
        &[0.5, -1.0, 3.0, 1.0],
        &[-2.0, 0.5, -3.0],
        // Wealth that overflows, and its fall.
        &[1e200, 1e200, -0.5],
        &[f64::INFINITY, -1.0, 0.5],
        &[f64::NEG_INFINITY, f64::INFINITY, 0.5, -0.5],
    ];
    for days in short {
        for tail in MEASURES {
            alone(out, tail, days, rng.pick(&CONFIDENCES));
            // The index is a half, or a whole and a half; the start of the wealth makes the list of drawdowns longer by one.
            let last = (days.len() - 1 + tail as usize).max(1);
            alone(out, tail, days, (rng.below(last) as f64 + 0.5) / last as f64);
        }
    }
    // NaN of both signs, at both ends of the list.
    for nan in [f64::NAN, MINUS_NAN] {
        for confidence in [0.0, 0.5, 1.0] {
            for days in [[nan, 0.25, -0.5], [-0.5, 0.25, nan]] {
                MEASURES.into_iter().for_each(|tail| alone(out, tail, &days, confidence));
            }
        }
    }
    for (k, odd) in ODD.into_iter().enumerate() {
        alone(out, MEASURES[k % 2], &[-0.1, odd, 0.05, odd], rng.pick(&CONFIDENCES));
    }
    for tail in MEASURES {
        for confidence in CONFIDENCES {
            alone(out, tail, &filled(9, || rng.gain()), confidence);
        }
        alone(out, tail, &filled(252, || rng.gain()), 0.05);
    }
}

/// Document 01's order, with document 02's 16 and 17: a flaw for each of its sentences, of a measure of two assets.
const MEASURE_ORDER: [fn(&mut Measured); 14] = [
    |m| (m.returns.rows, m.returns.columns) = (1, 65),
    |m| (m.covariance.rows, m.covariance.columns) = (65, 64),
    |m| m.assets = vec![0; 65],
    |m| m.covariance.cells.push(1.0),
    |m| m.returns.cells.clear(),
    |m| m.series = m.returns.rows,
    |m| m.covariance = Lone::of(3, 2, vec![1.0; 6]),
    |m| m.returns = Lone::of(1, 3, vec![0.5; 3]),
    |m| m.assets = vec![0, 2],
    |m| m.returns = Lone::of(0, 2, vec![]),
    |m| m.confidence = f64::NAN,
    |m| m.covariance = Lone::of(2, 2, diagonal(&[0.0, 1.0])),
    |m| m.covariance = Lone::of(2, 2, diagonal(&[f64::INFINITY; 2])),
    |m| m.assets = vec![],
];

/// More, each at an edge.
const MEASURE_FLAWS: [fn(&mut Measured); 21] = [
    |m| (m.returns.rows, m.returns.columns) = (4097, 0),
    |m| (m.returns.rows, m.returns.columns) = (4097, 1),
    |m| (m.returns.rows, m.returns.columns) = (HUGE, HUGE),
    |m| (m.covariance.rows, m.covariance.columns) = (HUGE, 0),
    |m| m.assets = vec![9; 65],
    |m| m.returns.cells.push(0.5),
    |m| m.covariance.cells.truncate(3),
    |m| m.covariance = Lone::of(2, 3, vec![1.0; 6]),
    |m| m.covariance = Lone::of(0, 2, vec![]),
    |m| m.returns = Lone::of(4, 1, vec![0.5; 4]),
    // No rows of any columns, and no columns of any rows.
    |m| m.returns = Lone::of(0, 64, vec![]),
    |m| m.returns = Lone::of(0, 0, vec![]),
    |m| (m.returns, m.covariance, m.assets) = (Lone::of(3, 0, vec![]), Lone::default(), vec![]),
    |m| m.assets = vec![HUGE],
    |m| m.assets = vec![1],
    |m| m.assets = vec![1, 1, 0],
    |m| m.assets = (0..64).map(|i| i % 2).collect(),
    |m| m.covariance = Lone::of(2, 2, diagonal(&[-1.0, 1.0])),
    |m| m.covariance = Lone::of(2, 2, diagonal(&[f64::NAN, 1.0])),
    |m| m.covariance = Lone::of(2, 2, diagonal(&[f64::INFINITY, 1.0])),
    |m| m.covariance = Lone::of(2, 2, vec![1.0, 5.0, -5.0, 4.0]),
];

/// As much as the program can lend for a series.
const LONG: usize = 4352;

/// What is lent for the series, at the edges of its rows and their start; more than any series needs; and rows of which 9 is said first.
const SERIES: [fn(&mut Measured); 16] = [
    |m| m.series = 3,
    |m| m.series = 2,
    |m| m.series = 0,
    |m| m.series = LONG,
    |m| (m.returns, m.series) = (Lone::of(1, 2, vec![0.5, -0.25]), 2),
    |m| (m.returns, m.series) = (Lone::of(1, 2, vec![0.5, -0.25]), 1),
    |m| (m.returns, m.series) = (Lone::of(0, 2, vec![]), 1),
    |m| (m.returns, m.series) = (Lone::of(0, 2, vec![]), 0),
    |m| (m.returns, m.series) = (Lone::of(4096, 0, vec![]), 4097),
    |m| (m.returns, m.series) = (Lone::of(4096, 0, vec![]), 4096),
    |m| (m.returns, m.covariance, m.assets, m.series) = (Lone::of(4096, 0, vec![]), Lone::default(), vec![], 4097),
    |m| (m.returns, m.covariance, m.assets, m.series) = (Lone::of(4096, 0, vec![]), Lone::default(), vec![], 4096),
    |m| (m.confidence, m.series) = (f64::NAN, LONG),
    |m| (m.returns, m.series) = (Lone::of(4097, 0, vec![]), 4097),
    |m| (m.returns, m.series) = (Lone::of(HUGE, 0, vec![]), 0),
    |m| (m.returns, m.series) = (Lone::of(HUGE, 2, vec![]), LONG),
];

fn measures(out: &mut Record, rng: &mut Random) {
    let unit = Lone::of(2, 2, diagonal(&[1.0, 1.0]));
    let worked = |tail| Measured {
        tail,
        returns: Lone::of(2, 2, DAYS.to_vec()),
        covariance: unit.clone(),
        assets: vec![0, 1],
        confidence: 0.5,
        series: need::series(2) + 2,
    };
    for tail in MEASURES {
        for assets in [&[0][..], &[1], &[0, 1], &[1, 0]] {
            out.measure(&Measured { assets: assets.to_vec(), ..worked(tail) });
        }
        for confidence in NONE {
            out.measure(&Measured { confidence, ..worked(tail) });
        }
    }
    for (k, flaw) in MEASURE_FLAWS.iter().chain(&MEASURE_ORDER).enumerate() {
        let mut call = worked(MEASURES[k % 2]);
        flaw(&mut call);
        out.measure(&call);
    }
    for tail in MEASURES {
        for lend in SERIES {
            let mut call = worked(tail);
            lend(&mut call);
            out.measure(&call);
        }
        pairs(&MEASURE_ORDER, 2, &worked(tail), |call| out.measure(call));
    }
    placed(out, rng);
    for (rows, n) in [(2, 2), (3, 3), (5, 4), (8, 3), (20, 2)] {
        for tail in MEASURES {
            let base = Measured {
                tail,
                returns: Lone::of(rows, n, returns(rng, rows, n)),
                covariance: Lone::of(n, n, covariance(rng, n)),
                assets: rng.permutation(n),
                confidence: rng.pick(&CONFIDENCES),
                series: need::series(rows) + n % 3,
            };
            out.measure(&base);
            let odd = Lone::of(rows, n, filled(rows * n, || rng.seldom(6, -0.25)));
            out.measure(&Measured { returns: odd, confidence: rng.pick(&CONFIDENCES), ..base.clone() });
            let bits = Lone::of(rows, n, filled(rows * n, || rng.wild()));
            out.measure(&Measured { returns: bits, covariance: Lone::of(n, n, wild(rng, n)), ..base });
        }
    }
}

/// Of what is shared by tail risk; no other metric looks at more than the sizes.
const TAIL_BENDS: [Bend; 12] = [
    |d| (d.returns.rows, d.returns.columns) = (4097, 0),
    |d| (d.returns.rows, d.returns.columns) = (1, 65),
    |d| (d.returns.rows, d.returns.columns) = (HUGE, HUGE),
    |d| d.returns.cells.truncate(1),
    |d| d.returns.cells.push(0.5),
    |d| d.scratch = SCRATCH - 1,
    |d| d.scratch = 0,
    |d| d.returns = Lone::of(2, 2, vec![0.5; 4]),
    |d| d.returns = Lone::of(4096, 0, vec![]),
    |d| d.returns = Lone::of(0, 64, vec![]),
    |d| d.confidence = f64::NAN,
    |d| d.confidence = 1.5,
];

/// A flaw for each sentence, in their order, of sharing by tail risk.
const SHARING_ORDER: [Bend; 12] = [
    |d| (d.covariance.rows, d.covariance.columns) = (65, 64),
    |d| (d.returns.rows, d.returns.columns) = (1, 65),
    |d| d.covariance.cells.push(1.0),
    |d| d.returns.cells.push(1.0),
    |d| d.room = 2,
    |d| d.scratch = SCRATCH - 1,
    |d| d.returns = Lone::of(1, 2, vec![0.5; 2]),
    |d| d.ids = vec![0, 1, 1, 2],
    |d| d.returns = Lone::of(0, 3, vec![]),
    |d| d.confidence = -0.5,
    |d| d.clusters = 4,
    |d| d.covariance.cells[0] = 0.0,
];

fn shared_down(out: &mut Record, rng: &mut Random) {
    let (three, days) = (covariance(rng, 3), returns(rng, 4, 3));
    let base =
        |metric| Down { returns: Lone::of(4, 3, days.clone()), confidence: 0.25, ..Down::new(metric, 3, three.clone(), vec![1, 2, 0, 3]) };
    for (k, bend) in BENDS.iter().enumerate() {
        let mut call = base(METRICS[k % 2]);
        bend(&mut call);
        out.allocate_down_tree(&call);
    }
    for metric in [0, 2, 4, 5] {
        for bend in TAIL_BENDS {
            let mut call = base(metric);
            bend(&mut call);
            out.allocate_down_tree(&call);
        }
    }
    pairs(&SHARING_ORDER, 4, &base(5), |call| out.allocate_down_tree(call));
    // The worked figure, and every confidence.
    let worked = |metric, confidence| Down {
        returns: Lone::of(2, 2, DAYS.to_vec()),
        confidence,
        ..Down::new(metric, 2, diagonal(&[1.0, 1.0]), vec![0, 1])
    };
    for metric in METRICS {
        for confidence in [0.05, 0.5, 0.0, 1.0, rng.pick(&CONFIDENCES), rng.pick(&NONE)] {
            out.allocate_down_tree(&worked(metric, confidence));
        }
        // One asset reads nothing, a cut cluster no return, and a side only the variances that it has.
        out.allocate_down_tree(&Down { returns: Lone::of(1, 1, vec![f64::NAN]), ..Down::new(metric, 1, vec![-1.0], vec![]) });
        for clusters in [1, 2, 3] {
            for variances in [[1.0, -1.0, 2.0], [f64::INFINITY, f64::INFINITY, 1.0], [1.0, 0.5, f64::NAN]] {
                let call = Down { covariance: Lone::of(3, 3, diagonal(&variances)), ids: vec![0, 1, 3, 2], clusters, ..base(metric) };
                out.allocate_down_tree(&call);
            }
        }
    }
    for (n, rows) in [(2, 3), (3, 5), (4, 8), (5, 2), (8, 9), (16, 4)] {
        for metric in METRICS {
            let made = Down {
                returns: Lone::of(rows, n, returns(rng, rows, n)),
                confidence: rng.pick(&CONFIDENCES),
                ..Down::new(metric, n, covariance(rng, n), any_tree(rng, n))
            };
            out.allocate_down_tree(&made);
            let odd = Lone::of(rows, n, filled(rows * n, || rng.seldom(7, 0.125)));
            out.allocate_down_tree(&Down { clusters: 1 + rng.below(n), returns: odd, ..made.clone() });
            if n < 5 {
                out.allocate_down_tree(&Down { covariance: Lone::of(n, n, wild(rng, n)), confidence: 0.5, ..made });
            }
        }
    }
}

/// The order of an account's sentences, of one by tail risk from prices and a covariance.
const ORDER: [Flaw; 15] = [
    |a| (a.matrices[2].rows, a.matrices[2].columns) = (65, 64),
    |a| shorten(&mut a.matrices[2]),
    |a| a.rooms[3] = 8191,
    |a| a.matrices.iter_mut().for_each(|m| m.given = false),
    |a| a.metric = b"expected_shortfal".to_vec(),
    |a| a.assets = 0,
    |a| a.matrices[0].cells[1] = 0.0,
    |a| resized(&mut a.matrices[0], 4, 3),
    |a| resized(&mut a.matrices[2], 3, 3),
    // No return rows, then a confidence that is none.
    |a| a.matrices[0].given = false,
    |a| a.confidence = 1.0 + f64::EPSILON,
    |a| a.clusters = Some(0),
    |a| a.clusters = Some(3),
    |a| a.matrices[2].cells[0] = 0.0,
    |a| a.matrices[2].cells[0] = f64::INFINITY,
];

fn trusting(confidence: f64, account: Hcaa) -> Hcaa {
    Hcaa { confidence, ..account }
}

fn refusals(out: &mut Record, rng: &mut Random) {
    let made = [Matrix::of(4, 2, prices(rng, 4, 2)), Matrix::of(3, 2, returns(rng, 3, 2)), Matrix::of(2, 2, covariance(rng, 2))];
    let kept = |metric, kept: usize| {
        let matrices = [0, 1, 2].map(|k| if kept >> k & 1 == 1 { made[k].clone() } else { Matrix::absent() });
        Hcaa::new(metric, 2, matrices)
    };
    // Each way to give and leave out, with a confidence and without one; another metric does not look at it.
    for base in 0..8 {
        for metric in TAILS {
            for confidence in [0.5, rng.pick(&NONE)] {
                out.hcaa_allocate(&trusting(confidence, kept(metric, base)));
            }
        }
    }
    for metric in ["minimum_variance", "equal_weighting", "sharpe_ratio"] {
        out.hcaa_allocate(&trusting(rng.pick(&NONE), kept(metric, 3)));
    }
    pairs(&ORDER, ORDER.len(), &kept("conditional_drawdown_risk", 5), |account| out.hcaa_allocate(account));
    // Returns of no rows beside a covariance: 16, whatever their columns; prices of one row are 1 before it.
    for matrix in [Matrix::of(0, 2, vec![]), Matrix::of(0, 64, vec![]), Matrix::of(0, 0, vec![])] {
        for confidence in [0.05, f64::NAN] {
            let mut account = trusting(confidence, kept("expected_shortfall", 4));
            account.matrices[1] = matrix.clone();
            out.hcaa_allocate(&account);
        }
    }
    let mut account = trusting(f64::NAN, kept("expected_shortfall", 5));
    resized(&mut account.matrices[0], 1, 2);
    out.hcaa_allocate(&account);
    for confidence in NONE {
        out.hcaa_allocate(&trusting(confidence, kept(rng.pick(&TAILS), 2)));
        out.hcaa_allocate(&Hcaa { clusters: Some(0), ..trusting(confidence, kept(rng.pick(&TAILS), 6)) });
    }
}

fn both(rows: usize, n: usize, days: Vec<f64>, cov: Vec<f64>) -> [Matrix; 3] {
    [Matrix::absent(), Matrix::of(rows, n, days), Matrix::of(n, n, cov)]
}

fn accounts(out: &mut Record, rng: &mut Random) {
    for metric in TAILS {
        for confidence in [0.05, 0.5, 0.0, 1.0, rng.pick(&CONFIDENCES)] {
            out.hcaa_allocate(&trusting(confidence, Hcaa::new(metric, 2, both(2, 2, DAYS.to_vec(), diagonal(&[1.0, 1.0])))));
        }
        // A day of NaN, of either sign, and of an infinity.
        for odd in [f64::NAN, MINUS_NAN, f64::INFINITY, f64::NEG_INFINITY] {
            for confidence in [0.0, 0.5, 1.0] {
                let days = vec![-0.5, 0.25, odd, odd, 0.125, -0.25];
                out.hcaa_allocate(&trusting(confidence, Hcaa::new(metric, 2, both(3, 2, days, diagonal(&[1.0, 2.0])))));
            }
        }
        // From returns alone, cut and not, of 1 to 64 assets.
        for (rows, n) in [(2, 1), (2, 2), (5, 2), (3, 3), (9, 4), (6, 5), (12, 8), (4, 16), (3, 33), (4, 64)] {
            let account = trusting(rng.pick(&CONFIDENCES), Hcaa::new(metric, n, from_returns(rows, n, returns(rng, rows, n))));
            out.hcaa_allocate(&mixed(whole(&account), rng));
            out.hcaa_allocate(&mixed(Hcaa { clusters: Some(1 + rng.below(n)), ..trusting(rng.pick(&CONFIDENCES), account) }, rng));
        }
        // From prices, sampled or not, alone and beside a covariance.
        for (rows, n, name) in [(2, 2, ""), (4, 3, ""), (15, 2, "w"), (16, 1, "Weekly"), (42, 2, "month"), (4, 2, "m")] {
            let account = trusting(rng.pick(&CONFIDENCES), Hcaa::new(metric, n, from_prices(rows, n, prices(rng, rows, n))));
            let mut account = mixed(Hcaa { name: name.into(), ..account }, rng);
            out.hcaa_allocate(&account);
            account.matrices[2] = Matrix::of(n, n, covariance(rng, n));
            out.hcaa_allocate(&account);
        }
        // Returns beside a covariance: one row is enough.
        for (rows, n) in [(1, 1), (1, 2), (1, 3), (2, 3), (5, 4), (8, 6)] {
            let clusters = [None, Some(1 + rng.below(n))][rng.below(2)];
            let account = Hcaa { clusters, ..Hcaa::new(metric, n, both(rows, n, returns(rng, rows, n), covariance(rng, n))) };
            out.hcaa_allocate(&mixed(trusting(rng.pick(&CONFIDENCES), account), rng));
            let odd = both(rows, n, filled(rows * n, || rng.seldom(5, -0.125)), covariance(rng, n));
            out.hcaa_allocate(&mixed(trusting(rng.pick(&CONFIDENCES), Hcaa::new(metric, n, odd)), rng));
        }
        // Few values, so many ties; any bits; the same days twice; no day that moves.
        out.hcaa_allocate(&trusting(0.5, Hcaa::new(metric, 4, from_returns(6, 4, filled(24, || rng.pick(&[0.0, 0.01, -0.01]))))));
        out.hcaa_allocate(&trusting(0.5, Hcaa::new(metric, 3, both(4, 3, filled(12, || rng.wild()), wild(rng, 3)))));
        out.hcaa_allocate(&trusting(0.25, Hcaa::new(metric, 2, from_returns(3, 2, vec![0.1, 0.1, -0.2, -0.2, 0.05, 0.05]))));
        out.hcaa_allocate(&trusting(0.5, Hcaa::new(metric, 2, both(3, 2, vec![0.0; 6], diagonal(&[1.0, 3.0])))));
        // A variance that a side reads, and one that none does.
        out.hcaa_allocate(&Hcaa::new(metric, 2, both(2, 2, DAYS.to_vec(), diagonal(&[f64::INFINITY, 1.0]))));
        out.hcaa_allocate(&Hcaa { clusters: Some(1), ..Hcaa::new(metric, 2, both(2, 2, DAYS.to_vec(), diagonal(&[f64::INFINITY, 1.0]))) });
    }
    // After one by tail risk, one by another metric, and a refusal.
    out.hcaa_allocate(&whole(&Hcaa::new("expected_shortfall", 2, both(2, 2, DAYS.to_vec(), diagonal(&[1.0, 1.0])))));
    out.hcaa_allocate(&whole(&Hcaa::new("minimum_variance", 2, given(2, diagonal(&[1.0, 3.0])))));
    out.hcaa_allocate(&whole(&Hcaa::new("conditional_drawdown_risk", 2, given(2, diagonal(&[1.0, 3.0])))));
}

pub fn all(out: &mut Record, rng: &mut Random) {
    measures(out, rng);
    shared_down(out, rng);
    refusals(out, rng);
    accounts(out, rng);
}
