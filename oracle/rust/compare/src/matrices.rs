//! Covariances, returns and prices of many kinds.
use crate::kinds::{covariance, diagonal, filled, mirrored, square, wild, Kind, TINY};
use crate::random::{Random, ODD};
use nalgebra::DMatrix;

/// Row by row.
pub fn cells(m: &DMatrix<f64>) -> Vec<f64> {
    (0..m.nrows()).flat_map(|r| (0..m.ncols()).map(move |c| m[(r, c)])).collect()
}

/// How many assets: few for the most part, and now and then up to 64.
pub fn assets(rng: &mut Random) -> usize {
    match rng.below(200) {
        0 => 0,
        1 => 64,
        2..=3 => 1 + rng.below(64),
        4..=13 => 1 + rng.below(32),
        14..=70 => 1 + rng.below(12),
        _ => 1 + rng.below(6),
    }
}

fn power_of_two(rng: &mut Random) -> f64 {
    let exponent = rng.below(2098) as i32 - 1074;
    if exponent < -1022 {
        f64::from_bits(1 << (exponent + 1074))
    } else {
        f64::from_bits(((exponent + 1023) as u64) << 52)
    }
}

/// The covariance of returns, or nearly so: positive, and its correlations of all sizes.
fn sampled(rng: &mut Random, n: usize) -> Vec<f64> {
    let rows = 3 + rng.below(6);
    let gains = filled(rows * n, || rng.gain());
    let mut out = vec![0.0; n * n];
    for i in 0..n {
        for j in i..n {
            let sum: f64 = (0..rows).map(|r| gains[r * n + i] * gains[r * n + j]).sum();
            out[i * n + j] = sum;
            out[j * n + i] = sum;
        }
    }
    out
}

/// Nothing but correlations of 1 and −1.
fn one_bet(rng: &mut Random, n: usize) -> Vec<f64> {
    let sizes = filled(n, || rng.pick(&[1.0, -1.0, 2.0, 0.5]));
    square(n, |i, j| sizes[i] * sizes[j])
}

/// A covariance with one variance that is refused, or nearly.
fn one_bad(rng: &mut Random, n: usize) -> Vec<f64> {
    let mut out = covariance(rng, n);
    if n > 0 {
        let i = rng.below(n);
        out[i * n + i] = rng.pick(&ODD);
    }
    out
}

const COVARIANCES: [Kind; 22] = [
    covariance,
    covariance,
    covariance,
    sampled,
    sampled,
    sampled,
    wild,
    one_bet,
    one_bad,
    // Few correlations, so many ties; ties within 1e-12 and just outside.
    |rng, n| mirrored(n, 1.0, || rng.pick(&[0.0, 0.25, 0.5])),
    |rng, n| mirrored(n, 1.0, || 0.5 + rng.below(8) as f64 * TINY),
    |rng, n| mirrored(n, 4.0, || rng.pick(&[2.0, 2.0 + 1e-12, 2.0 + 4e-12, -1.0])),
    // Asymmetric, plain and with odd doubles.
    |rng, n| square(n, |i, j| if i == j { 0.5 + rng.unit() } else { rng.gain() }),
    |rng, n| square(n, |i, j| if i == j { 0.5 + rng.unit() } else { 2.0 * rng.unit() - 1.0 }),
    |rng, n| square(n, |i, j| if i == j { 0.5 + rng.unit() } else { rng.seldom(4, 0.125) }),
    |rng, n| square(n, |_, _| rng.seldom(5, 2.0)),
    // Variances alone: odd, subnormal, of any size.
    |rng, n| diagonal(&filled(n, || rng.seldom(3, 1.0).abs())),
    |rng, n| diagonal(&filled(n, || f64::from_bits(rng.bits() >> (12 + rng.below(52))))),
    |rng, n| diagonal(&filled(n, || power_of_two(rng))),
    // One double throughout; a covariance of any scale.
    |rng, n| vec![rng.pick(&ODD); n * n],
    |rng, n| {
        let scale = power_of_two(rng);
        covariance(rng, n).into_iter().map(|x| x * scale).collect()
    },
    |rng, n| {
        let scale = power_of_two(rng);
        sampled(rng, n).into_iter().map(|x| x * scale).collect()
    },
];

pub fn a_covariance(rng: &mut Random, n: usize) -> Vec<f64> {
    rng.pick(&COVARIANCES)(rng, n)
}

const NO_DAYS: [f64; 5] = [f64::NAN, -f64::NAN, f64::INFINITY, f64::NEG_INFINITY, f64::MAX];

pub fn returns(rng: &mut Random, rows: usize, n: usize) -> Vec<f64> {
    let count = rows * n;
    match rng.below(14) {
        0 => filled(count, || rng.seldom(6, 0.25)),
        1 => filled(count, || rng.wild()),
        2 => filled(count, || rng.pick(&[0.0, 0.01, -0.01])),
        // A day here and there that is no number, or has no end; losses of everything and more.
        12 => filled(count, || if rng.below(12) == 0 { rng.pick(&NO_DAYS) } else { rng.gain() }),
        13 => filled(count, || rng.pick(&[-0.5, -1.0, -2.0, 0.0, 0.5, 1.0])),
        3 => {
            let scale = power_of_two(rng);
            filled(count, || rng.gain() * scale)
        }
        // Some columns the same.
        4 => {
            let row = filled(rows, || rng.gain());
            let columns = filled(n, || rng.pick(&[1.0, 1.0, -1.0, 3.0]));
            (0..count).map(|k| row[k / n] * columns[k % n]).collect()
        }
        5 => vec![rng.pick(&ODD); count],
        _ => filled(count, || rng.gain() + 0.005),
    }
}

pub fn prices(rng: &mut Random, rows: usize, n: usize) -> Vec<f64> {
    let count = rows * n;
    match rng.below(12) {
        0 => filled(count, || rng.seldom(8, 2.5)),
        1 => filled(count, || rng.wild()),
        2 => filled(count, || if rng.below(30) == 0 { rng.pick(&[0.0, -0.0]) } else { rng.price() }),
        3 => filled(count, || rng.pick(&[1.0, 2.0, 4.0])),
        4 => vec![5.0; count],
        5 => {
            let scale = power_of_two(rng);
            filled(count, || rng.price() * scale)
        }
        _ => filled(count, || rng.price()),
    }
}
