//! What the programs `risks`, `hrp_accounts` and `hcaa_accounts` are run on.
#![allow(unused_must_use)]
use crate::account_calls::{Hrp, Matrix};
use crate::calls::Record;
use crate::cases::HUGE;
use crate::kinds::{covariance, diagonal, filled, mirrored, square, wild};
use crate::random::{Random, ODD};
use openquant::api::Distance;

pub const DISTANCES: [Distance; 2] = [Distance::Correlation, Distance::DistanceOfDistances];

const WHOLE: [usize; 6] = [200, 100, 100, 4200, 4200, 8300];

/// What one matrix and list of assets give by all three calls on clusters.
fn cluster(out: &mut Record, expected: &[f64], rows: usize, columns: usize, cov: &[f64], assets: &[usize]) {
    let spare = out.counts[1].0 % 4;
    out.inverse_variance_weights(rows, columns, cov, assets, assets.len() + spare);
    out.cluster_variance(rows, columns, cov, assets);
    out.cluster_sharpe(expected, rows, columns, cov, assets);
}

fn clusters(out: &mut Record, rng: &mut Random) {
    let few: Vec<usize> = (0..4).collect();
    let most: Vec<usize> = (0..64).map(|i| i % 3).collect();
    let over: Vec<usize> = (0..65).map(|i| i % 3).collect();
    let three = covariance(rng, 3);
    // 9, before all the rest.
    for (rows, columns) in [(4097, 0), (4097, 1), (0, 65), (1, 65), (65, 64), (4096, 2), (HUGE, 0), (0, HUGE), (HUGE, HUGE)] {
        cluster(out, &[], rows, columns, &[], &[0]);
    }
    cluster(out, &[0.1; 3], 3, 3, &three, &over);
    cluster(out, &[0.1; 3], 3, 3, &three[..8], &over);
    cluster(out, &[0.1; 2], 2, 3, &three[..6], &[7; 65]);
    out.inverse_variance_weights(3, 3, &three, &over, 0);
    cluster(out, &[0.1; 3], 3, 3, &three, &most);
    // 10, before 11 and the rest.
    for (rows, columns, len) in [(2, 2, 3), (2, 2, 5), (2, 2, 0), (0, 0, 1), (2, 3, 5), (64, 64, 4), (4096, 1, 2)] {
        cluster(out, &[0.1; 2], rows, columns, &vec![1.0; len], &[0, 1]);
        out.inverse_variance_weights(rows, columns, &vec![1.0; len], &[9, 9], 1);
    }
    // 11, before 3 and the rest; the room is for the list, not for the matrix.
    for (rows, columns) in [(3, 3), (3, 2), (2, 3)] {
        for room in [0, 1, 2, 9] {
            out.inverse_variance_weights(rows, columns, &three[..rows * columns], &[2, 9], room);
            out.inverse_variance_weights(rows, columns, &three[..rows * columns], &[1, 0], room);
        }
    }
    out.inverse_variance_weights(3, 3, &three, &most, 63);
    out.inverse_variance_weights(3, 3, &three, &most, 64);
    out.inverse_variance_weights(3, 3, &three, &[], 0);
    // 3: not square, then expected returns of another length, before 14.
    for (rows, columns) in [(2, 3), (3, 2), (1, 3), (3, 1), (0, 3), (3, 0), (9, 1)] {
        let cells = vec![0.0; rows * columns];
        cluster(out, &vec![0.1; columns], rows, columns, &cells, &[9]);
        cluster(out, &vec![0.1; columns], rows, columns, &cells, &[]);
    }
    for len in [0, 2, 4, 64, 65] {
        out.cluster_sharpe(&vec![0.1; len], 3, 3, &three, &[0, 1]);
        out.cluster_sharpe(&vec![0.1; len], 3, 3, &three, &[0, 3]);
        out.cluster_sharpe(&vec![0.1; len], 3, 3, &[0.0; 9], &[]);
    }
    // 14 at its edge, before 1.
    for assets in [&[3][..], &[0, 3], &[3, 0], &[0, 1, 2, 3], &[HUGE], &[2, HUGE, 0], &[64], &[2], &[0, 1, 2]] {
        for cov in [&three, &diagonal(&[1.0, -1.0, 0.0]), &diagonal(&[f64::INFINITY; 3])] {
            cluster(out, &[0.1, 0.2, -0.3], 3, 3, cov, assets);
        }
    }
    // An empty cluster is 1, of no assets too, where any asset is 14.
    cluster(out, &[0.1; 3], 3, 3, &three, &[]);
    cluster(out, &[], 0, 0, &[], &[]);
    cluster(out, &[], 0, 0, &[], &[0]);
    // Each odd double as each variance, as a covariance to each side of the diagonal, and as an expected return.
    for odd in ODD {
        for place in [0, 8, 3] {
            let mut cov = square(3, |i, j| if i == j { 1.0 + i as f64 } else { 0.25 });
            cov[place] = odd;
            let assets: &[usize] = [&[0, 1, 2][..], &[2, 0, 1], &[1, 0], &[0, 0, 1, 1]][rng.below(4)];
            cluster(out, &[0.1, -0.2, 0.3], 3, 3, &cov, assets);
        }
        out.cluster_sharpe(&[odd, 0.5, 0.25], 3, 3, &three, &[2, 0]);
        cluster(out, &[odd], 1, 1, &[odd], &[0]);
        cluster(out, &[odd; 2], 2, 2, &diagonal(&[odd, odd]), &[1, 0]);
    }
    // Variances of a cluster that come out below 0, so 0; as NaN, so 0; at 0; and huge.
    cluster(out, &[0.1; 2], 2, 2, &[1.0, -2.0, -2.0, 1.0], &[0, 1]);
    cluster(out, &[0.1; 2], 2, 2, &[1.0, -1.0, -1.0, 1.0], &[0, 1]);
    cluster(out, &[0.1; 2], 2, 2, &[1.0, f64::INFINITY, f64::NEG_INFINITY, 1.0], &[0, 1]);
    cluster(out, &[0.1; 2], 2, 2, &[1.0, f64::INFINITY, f64::INFINITY, 1.0], &[1, 0]);
    cluster(out, &[0.1; 2], 2, 2, &[1e308, 1e308, 1e308, 1e308], &[0, 1, 0]);
    cluster(out, &[0.1; 2], 2, 2, &[1e-308, 1e-308, 1e-308, 1e-309], &[0, 1, 0]);
    for n in [1, 2, 3, 4, 7] {
        let expected = filled(n, || rng.gain());
        let cov = covariance(rng, n);
        cluster(out, &expected, n, n, &cov, &rng.permutation(n));
        cluster(
            out,
            &expected,
            n,
            n,
            &square(n, |i, j| if i == j { 0.5 + rng.unit() } else { rng.gain() }),
            &rng.permutation(n)[..n / 2 + 1],
        );
        let repeated: Vec<usize> = (0..n + 3).map(|_| rng.below(n)).collect();
        cluster(out, &expected, n, n, &cov, &repeated);
        let bits = wild(rng, n);
        cluster(out, &filled(n, || rng.wild()), n, n, &bits, &rng.permutation(n));
        cluster(out, &filled(n, || rng.seldom(3, 0.1)), n, n, &square(n, |_, _| rng.seldom(5, 2.0)), &rng.permutation(n));
    }
    let cov = covariance(rng, 12);
    cluster(out, &filled(12, || rng.gain()), 12, 12, &cov, &few);
    out.cluster_variance(12, 12, &cov, &rng.permutation(12));
}

/// The covariances that both the bisection and whole accounts are run on.
pub fn figures() -> Vec<(usize, Vec<f64>)> {
    let inf = f64::INFINITY;
    let tiny = 1.0 / (1u64 << 60) as f64;
    let mut far = diagonal(&[1.0; 4]);
    far[1] = inf;
    far[4] = inf;
    let variances: [&[f64]; 24] = [
        &[1.0, 3.0],
        &[f64::NAN, 1.0],
        &[1.0, f64::NAN],
        &[f64::NAN, f64::NAN],
        &[inf, 1.0],
        &[1.0, inf],
        &[inf, inf],
        &[inf],
        &[f64::NAN],
        &[4.0],
        &[tiny, tiny],
        &[tiny, tiny, tiny, tiny],
        &[0.0],
        &[-0.0, 1.0],
        &[1.0, 0.0],
        &[-1.0, 1.0],
        &[1.0, 2.0, f64::from_bits(1 << 63 | 1)],
        // A side of one asset, of two, and one that is cut later.
        &[inf, 1.0, 1.0],
        &[1.0, inf, 1.0, 1.0],
        &[inf, inf, 1.0, 1.0],
        &[1.0, 1.0, inf, inf, 2.0],
        // Sums beyond the range: a factor of 1, then of 0.
        &[1e308, 1e308],
        &[1e308, 1e308, 1e308, 1e308],
        &[1e-308, f64::from_bits(1), 1e-310],
    ];
    let mut out: Vec<(usize, Vec<f64>)> = variances.iter().map(|v| (v.len(), diagonal(v))).collect();
    out.push((4, far));
    // Variances of a side that come out below 0 and as NaN, so 0.
    out.push((4, square(4, |i, j| if i == j { 1.0 } else { -2.0 })));
    out.push((
        4,
        square(4, |i, j| {
            if i == j {
                1.0
            } else if (i + j) % 2 == 1 && i < 2 {
                [inf, -inf][i]
            } else {
                0.5
            }
        }),
    ));
    // Nearly the same bet twice, and an asymmetric matrix.
    out.push((3, vec![0.04, 0.036, 0.0, 0.036, 0.04, 0.0, 0.0, 0.0, 0.04]));
    out.push((3, vec![1.0, 0.5, 0.0, -0.25, 2.0, 0.75, 0.0, 0.1, 3.0]));
    out
}

fn bisections(out: &mut Record, rng: &mut Random) {
    let three = covariance(rng, 3);
    for (rows, columns) in [(4097, 0), (4097, 1), (0, 65), (1, 65), (65, 64), (4096, 2), (HUGE, 0), (0, HUGE), (HUGE, HUGE)] {
        out.recursive_bisection_min_var(rows, columns, &[], &[0], 1);
    }
    for (rows, columns, len) in [(2, 2, 3), (2, 2, 5), (2, 2, 0), (0, 0, 1), (2, 3, 5), (64, 64, 4), (4096, 1, 2)] {
        out.recursive_bisection_min_var(rows, columns, &vec![1.0; len], &[1, 0], 2);
        out.recursive_bisection_min_var(rows, columns, &vec![1.0; len], &[9], 0);
    }
    for (rows, columns) in [(3, 3), (2, 3), (3, 2), (0, 3), (3, 0), (9, 1), (1, 1), (0usize, 0usize)] {
        for order in [&[0, 1, 2][..], &[0, 1], &[0], &[], &[0, 3, 1]] {
            for room in [columns.saturating_sub(1), columns, columns + 5] {
                out.recursive_bisection_min_var(rows, columns, &vec![0.5; rows * columns], order, room);
            }
        }
    }
    let no_orders: [&[usize]; 9] =
        [&[], &[0, 1], &[0, 1, 2, 3], &[0, 1, 1], &[0, 1, 3], &[2, 2, 2], &[HUGE, 0, 1], &[0, 2, 1, 0], &[1, 2, 3]];
    for order in no_orders {
        // 14 comes before 1.
        out.recursive_bisection_min_var(3, 3, &three, order, 3);
        out.recursive_bisection_min_var(3, 3, &[0.0; 9], order, 7);
    }
    out.recursive_bisection_min_var(1, 1, &[1.0], &(0..65).collect::<Vec<_>>(), 1);
    for order in [[0, 1, 2], [0, 2, 1], [1, 0, 2], [1, 2, 0], [2, 0, 1], [2, 1, 0]] {
        out.recursive_bisection_min_var(3, 3, &three, &order, 4);
        for place in [0, 4, 8] {
            for odd in [f64::INFINITY, f64::NAN, -1.0, f64::MAX] {
                let mut cov = three.clone();
                cov[place] = odd;
                out.recursive_bisection_min_var(3, 3, &cov, &order, 3 + place % 3);
            }
        }
    }
    for (n, cov) in figures() {
        let straight: Vec<usize> = (0..n).collect();
        out.recursive_bisection_min_var(n, n, &cov, &straight, n);
        out.recursive_bisection_min_var(n, n, &cov, &rng.permutation(n), n + 2);
    }
    for odd in ODD {
        for place in [1, 4, 5] {
            let mut cov = square(4, |i, j| if i == j { 1.0 + i as f64 } else { 0.25 });
            cov[place] = odd;
            out.recursive_bisection_min_var(4, 4, &cov, &rng.permutation(4), 5);
        }
    }
    for n in (1..10).chain([13]) {
        let cov = covariance(rng, n);
        out.recursive_bisection_min_var(n, n, &cov, &rng.permutation(n), n + rng.below(3));
    }
    for n in [2, 3, 5, 7] {
        let cov = wild(rng, n);
        out.recursive_bisection_min_var(n, n, &cov, &rng.permutation(n), n);
        let cov = square(n, |i, j| if i == j { 1.0 + rng.unit() } else { rng.seldom(4, uneven(i, j)) });
        out.recursive_bisection_min_var(n, n, &cov, &rng.permutation(n), n + 1);
        let cov = square(n, |i, j| if i == j { 1e-20 * rng.unit() } else { 1e-21 * (i as f64 - j as f64) });
        out.recursive_bisection_min_var(n, n, &cov, &rng.permutation(n), n + 40);
    }
    let cov = covariance(rng, 64);
    out.recursive_bisection_min_var(64, 64, &cov, &rng.permutation(64), 70);
}

/// A small covariance that differs by place.
fn uneven(i: usize, j: usize) -> f64 {
    0.05 * (i as f64 - 0.7 * j as f64)
}

pub fn given(n: usize, cov: Vec<f64>) -> [Matrix; 3] {
    [Matrix::absent(), Matrix::absent(), Matrix::of(n, n, cov)]
}

pub fn from_returns(rows: usize, n: usize, cells: Vec<f64>) -> [Matrix; 3] {
    [Matrix::absent(), Matrix::of(rows, n, cells), Matrix::absent()]
}

pub fn from_prices(rows: usize, n: usize, cells: Vec<f64>) -> [Matrix; 3] {
    [Matrix::of(rows, n, cells), Matrix::absent(), Matrix::absent()]
}

pub fn returns(rng: &mut Random, rows: usize, n: usize) -> Vec<f64> {
    filled(rows * n, || rng.gain())
}

pub fn prices(rng: &mut Random, rows: usize, n: usize) -> Vec<f64> {
    filled(rows * n, || rng.price())
}

/// An account by both distances, the buffers of the first as they are asked, of the second exact.
fn both(out: &mut Record, account: &Hrp) {
    for distance in DISTANCES {
        let mut account = account.clone();
        account.distance = distance;
        if distance == Distance::Correlation {
            account.rooms = crate::rules::need::hrp(account.assets);
        }
        out.hrp_allocate(&account);
    }
}

/// Buffers are filled with junk once, before the first call, so that these run in what the ones before them left.
fn one_after_another(out: &mut Record, rng: &mut Random) {
    let short = Hrp::new(2, given(2, diagonal(&[1.0, 3.0])));
    let whole = |account: &Hrp| Hrp { rooms: WHOLE, ..account.clone() };
    out.hrp_allocate(&whole(&short));
    // 64 assets are accepted.
    let mut long = Hrp::new(64, from_returns(3, 64, returns(rng, 3, 64)));
    long.distance = Distance::Correlation;
    out.hrp_allocate(&whole(&long));
    out.hrp_allocate(&short);
    out.hrp_allocate(&whole(&short));
    let middle = Hrp::new(11, from_prices(5, 11, prices(rng, 5, 11)));
    out.hrp_allocate(&whole(&middle));
    // Refused for a side, for a variance, for a buffer: nothing of the account before is left.
    out.hrp_allocate(&whole(&Hrp::new(3, given(3, diagonal(&[f64::INFINITY, 1.0, 1.0])))));
    out.hrp_allocate(&whole(&middle));
    out.hrp_allocate(&whole(&Hrp::new(3, given(3, diagonal(&[0.0, 1.0, 1.0])))));
    out.hrp_allocate(&whole(&Hrp::new(9, given(9, covariance(rng, 9)))));
    let mut none = whole(&short);
    none.rooms[5] = 8191;
    out.hrp_allocate(&none);
    out.hrp_allocate(&whole(&short));
    // 65 assets are 9, whatever else there is.
    for rooms in [WHOLE, [0; 6]] {
        out.hrp_allocate(&Hrp { assets: 65, rooms, ..short.clone() });
        out.hrp_allocate(&Hrp { assets: HUGE, rooms, ..short.clone() });
    }
    out.hrp_allocate(&whole(&Hrp::new(1, given(1, vec![2.5]))));
}

/// An account of 2 assets that one sentence of document 01 refuses, or none does, or that a later sentence no longer sees.
type Flaw = fn(&mut Hrp);

fn each_given(account: &mut Hrp, change: impl Fn(&mut Matrix)) {
    account.matrices.iter_mut().filter(|m| m.given).for_each(change);
}

pub fn shorten(m: &mut Matrix) {
    m.cells.pop();
}

pub fn resized(m: &mut Matrix, rows: usize, columns: usize) {
    if m.given {
        let cell = m.cells.first().copied().unwrap_or(1.0);
        *m = Matrix::of(rows, columns, (0..rows * columns).map(|k| cell + 0.125 * ((k * k) % 7) as f64).collect());
    }
}

const FLAWS: [Flaw; 44] = [
    |a| a.assets = 65,
    |a| a.assets = 0,
    |a| a.assets = 1,
    |a| a.assets = 3,
    // 9 of each matrix; of an absent one nothing is looked at.
    |a| (a.matrices[0].rows, a.matrices[0].columns) = (4097, 0),
    |a| (a.matrices[1].rows, a.matrices[1].columns) = (1, 65),
    |a| (a.matrices[2].rows, a.matrices[2].columns) = (HUGE, HUGE),
    |a| (a.matrices[1].rows, a.matrices[1].columns) = (4096, 2),
    // 10 of each.
    |a| shorten(&mut a.matrices[0]),
    |a| shorten(&mut a.matrices[1]),
    |a| shorten(&mut a.matrices[2]),
    |a| a.matrices[0].cells.push(1.0),
    |a| a.matrices[2].cells.push(1.0),
    |a| each_given(a, |m| m.cells.clear()),
    // 11 of each.
    |a| a.rooms[0] = 1,
    |a| a.rooms[1] = 1,
    |a| a.rooms[2] = 1,
    |a| a.rooms[3] = 3,
    |a| a.rooms[4] = 3,
    |a| a.rooms[5] = 8191,
    |a| a.rooms = [0; 6],
    |a| a.rooms = [2, 2, 2, 4, 4, 8192],
    // No matrix, or one less.
    |a| each_given(a, |m| m.given = false),
    |a| a.matrices[0].given = false,
    |a| a.matrices[1].given = false,
    |a| a.matrices[2].given = false,
    // 3 of each.
    |a| resized(&mut a.matrices[0], 4, 3),
    |a| resized(&mut a.matrices[0], 4, 1),
    |a| resized(&mut a.matrices[1], 3, 3),
    |a| resized(&mut a.matrices[1], 0, 3),
    |a| resized(&mut a.matrices[2], 2, 3),
    |a| resized(&mut a.matrices[2], 3, 2),
    |a| resized(&mut a.matrices[2], 3, 3),
    |a| resized(&mut a.matrices[2], 0, 0),
    // The price rules, and too few rows.
    |a| resized(&mut a.matrices[0], 0, 2),
    |a| resized(&mut a.matrices[0], 1, 2),
    |a| resized(&mut a.matrices[0], 2, 2),
    |a| resized(&mut a.matrices[1], 0, 2),
    |a| resized(&mut a.matrices[1], 1, 2),
    |a| {
        if let Some(price) = a.matrices[0].cells.get_mut(3) {
            *price = -0.0;
        }
    },
    |a| a.name = b"Month".to_vec(),
    // Variances and sides.
    |a| a.matrices[2].cells.iter_mut().for_each(|x| *x = 0.0),
    |a| a.matrices[2].cells.iter_mut().for_each(|x| *x = f64::INFINITY),
    |a| a.matrices[1].cells.iter_mut().for_each(|x| *x = 0.5),
];

fn refusals(out: &mut Record, rng: &mut Random) {
    let made = [Matrix::of(4, 2, prices(rng, 4, 2)), Matrix::of(3, 2, returns(rng, 3, 2)), Matrix::of(2, 2, covariance(rng, 2))];
    // Each way to give and leave out, each with every flaw alone.
    let bases: Vec<Hrp> = (0..8)
        .map(|kept| {
            let mut matrices = made.clone();
            for (k, m) in matrices.iter_mut().enumerate() {
                if kept >> k & 1 == 0 {
                    *m = Matrix::absent();
                }
            }
            Hrp::new(2, matrices)
        })
        .collect();
    for base in &bases {
        both(out, base);
    }
    for kept in [1, 2, 4, 7] {
        for flaw in FLAWS {
            let mut account = bases[kept].clone();
            flaw(&mut account);
            account.shrink = rng.below(2) == 0;
            account.distance = rng.pick(&DISTANCES);
            out.hrp_allocate(&account);
        }
    }
    // Two or three flaws at once: the first sentence is the answer's.
    for _ in 0..120 {
        let mut account = bases[1 + rng.below(7)].clone();
        for _ in 0..2 + rng.below(2) {
            FLAWS[rng.below(FLAWS.len())](&mut account);
        }
        account.shrink = rng.below(2) == 0;
        account.distance = rng.pick(&DISTANCES);
        out.hrp_allocate(&account);
    }
    // An absent matrix's sizes and slice are not looked at.
    for (rows, columns, len) in [(HUGE, HUGE, 0), (5, 5, 3), (0, 0, 7), (4097, 1, 1)] {
        let mut account = bases[4].clone();
        for m in &mut account.matrices[..2] {
            *m = Matrix { given: false, rows, columns, cells: vec![1.5; len] };
        }
        both(out, &account);
    }
    // The smallest and largest matrices that pass 9.
    out.hrp_allocate(&Hrp::new(2, [Matrix::of(0, 64, vec![]), Matrix::absent(), made[2].clone()]));
    out.hrp_allocate(&Hrp::new(2, [Matrix::of(4096, 0, vec![]), Matrix::absent(), made[2].clone()]));
    out.hrp_allocate(&Hrp::new(2, [Matrix::of(4096, 0, vec![]), Matrix::absent(), Matrix::absent()]));
    out.hrp_allocate(&Hrp::new(2, [Matrix::of(0, 0, vec![]), Matrix::of(0, 2, vec![]), made[2].clone()]));
    out.hrp_allocate(&Hrp::new(2, [Matrix::absent(), Matrix::of(4096, 0, vec![]), made[2].clone()]));
}

fn accounts(out: &mut Record, rng: &mut Random) {
    one_after_another(out, rng);
    refusals(out, rng);
    for (n, cov) in figures() {
        let mut account = Hrp::new(n, given(n, cov));
        // Shrinkage and sampling have no effect on a given covariance.
        account.shrink = n % 2 == 0;
        account.name = b"w".to_vec();
        both(out, &account);
    }
    for odd in ODD {
        for place in [0, 3] {
            let mut cov = square(3, |i, j| if i == j { 1.0 + i as f64 } else { 0.25 });
            cov[place] = odd;
            let mut account = Hrp::new(3, given(3, cov));
            account.distance = rng.pick(&DISTANCES);
            out.hrp_allocate(&account);
        }
    }
    for n in [1, 2, 3, 4, 6] {
        let cov = covariance(rng, n);
        both(out, &Hrp::new(n, given(n, cov)));
        both(out, &Hrp::new(n, given(n, wild(rng, n))));
        let cov = square(n, |i, j| if i == j { 0.5 + rng.unit() } else { rng.gain() });
        both(out, &Hrp::new(n, given(n, cov)));
        // Few correlations, so many ties.
        both(out, &Hrp::new(n, given(n, mirrored(n, 1.0, || rng.pick(&[0.0, 0.25, 0.5])))));
    }
    for (rows, n) in [(2, 1), (2, 2), (2, 5), (3, 3), (6, 4), (21, 2)] {
        for shrink in [false, true] {
            let mut account = Hrp::new(n, from_returns(rows, n, returns(rng, rows, n)));
            account.shrink = shrink;
            both(out, &account);
        }
    }
    let names: [&[u8]; 9] = [b"", b"w", b"Week", b"WEEKLY", b"m", b"Month", b"monthly", b"daily", &[0xff, b'w']];
    for (k, name) in names.iter().enumerate() {
        // A month's rows where the name is one's, and for one that is none.
        let monthly = (4..8).contains(&k);
        for rows in if monthly { &[3, 20, 21, 42, 63][..] } else { &[3, 4, 5, 9, 10, 15, 16] } {
            let (rows, n) = (*rows, 1 + rng.below(if monthly { 2 } else { 3 }));
            let mut account = Hrp::new(n, from_prices(rows, n, prices(rng, rows, n)));
            account.name = name.to_vec();
            account.shrink = rng.below(2) == 0;
            account.distance = rng.pick(&DISTANCES);
            out.hrp_allocate(&account);
        }
    }
    // A zero price, of either sign, among 11 rows, then weekly among 16: met in rows 4 and 9 alone.
    for zero in [0.0, -0.0] {
        for place in [0, 3, 4, 5, 9, 10] {
            let mut cells = prices(rng, 11, 1);
            cells[place] = zero;
            let mut account = Hrp::new(1, from_prices(11, 1, cells.clone()));
            out.hrp_allocate(&account);
            account.matrices[0] = Matrix::of(16, 1, cells.into_iter().chain(prices(rng, 5, 1)).collect());
            account.name = b"weekly".to_vec();
            out.hrp_allocate(&account);
        }
    }
    // Prices and returns of odd doubles.
    for _ in 0..4 {
        let mut account = Hrp::new(3, from_prices(4, 3, filled(12, || rng.seldom(6, 2.5))));
        account.shrink = true;
        both(out, &account);
        both(out, &Hrp::new(3, from_returns(4, 3, filled(12, || rng.seldom(5, 0.25)))));
        both(out, &Hrp::new(2, from_returns(3, 2, filled(6, || rng.wild()))));
    }
    // The same column twice, and constant prices.
    both(out, &Hrp::new(2, from_returns(3, 2, vec![0.1, 0.1, -0.2, -0.2, 0.05, 0.05])));
    both(out, &Hrp::new(2, from_prices(3, 2, vec![5.0; 6])));
    out.hrp_allocate(&Hrp::new(16, from_prices(4, 16, prices(rng, 4, 16))));
}

pub fn all(out: &mut Record, rng: &mut Random) {
    clusters(out, rng);
    bisections(out, rng);
    accounts(out, rng);
    crate::hcaa_cases::all(out, rng);
    crate::tail_cases::all(out, rng);
}
