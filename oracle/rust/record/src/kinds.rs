//! Matrices of many kinds.
use crate::random::Random;

pub fn filled(count: usize, cell: impl FnMut() -> f64) -> Vec<f64> {
    std::iter::repeat_with(cell).take(count).collect()
}

/// n by n, each cell by its row and column.
pub fn square(n: usize, mut cell: impl FnMut(usize, usize) -> f64) -> Vec<f64> {
    (0..n * n).map(|k| cell(k / n, k % n)).collect()
}

/// n by n, the upper triangle by `cell`, copied across, and `diagonal` between.
pub fn mirrored(n: usize, diagonal: f64, mut cell: impl FnMut() -> f64) -> Vec<f64> {
    let mut out = vec![diagonal; n * n];
    for i in 0..n {
        for j in i + 1..n {
            out[i * n + j] = cell();
            out[j * n + i] = out[i * n + j];
        }
    }
    out
}

pub fn diagonal(variances: &[f64]) -> Vec<f64> {
    square(variances.len(), |i, j| if i == j { variances[i] } else { 0.0 })
}

/// Like a covariance: variances of their own, and small numbers between, copied across.
pub fn covariance(rng: &mut Random, n: usize) -> Vec<f64> {
    let mut out = mirrored(n, 0.0, || rng.gain());
    (0..n).for_each(|i| out[i * n + i] = 0.01 + rng.unit());
    out
}

/// Variances that are positive or NaN among any bits.
pub fn wild(rng: &mut Random, n: usize) -> Vec<f64> {
    square(n, |i, j| if i == j { rng.wild().abs() } else { rng.wild() })
}

/// A matrix of n by n, of one kind.
pub type Kind = fn(&mut Random, usize) -> Vec<f64>;

/// Any bits but a signalling NaN, on which the source and document 01 part (docs/DIFFERENCES.md).
pub fn quiet(x: f64) -> f64 {
    if x.is_nan() {
        f64::from_bits(x.to_bits() | 0x0008_0000_0000_0000)
    } else {
        x
    }
}

pub const TINY: f64 = 1.0 / (1u64 << 40) as f64;

pub const DISTANCES: [Kind; 21] = [
    |rng, n| mirrored(n, 0.0, || 2.0 * rng.unit()),
    |rng, n| square(n, |_, _| 2.0 * rng.unit()),
    // Few values, so many ties.
    |rng, n| mirrored(n, 0.0, || rng.pick(&[0.5, 1.0, 1.5])),
    |rng, n| square(n, |_, _| rng.pick(&[0.5, 1.0])),
    // Ties that are not transitive: 2^-40 is within 1e-12 and 2^-39 is not.
    |rng, n| mirrored(n, 0.0, || 1.0 - rng.below(6) as f64 * TINY),
    |rng, n| square(n, |_, _| 1.0 + rng.pick(&[0.0, -TINY, -2.0 * TINY, TINY])),
    |rng, n| mirrored(n, 0.0, || 0.25 + rng.below(20) as f64 * TINY / 2.0),
    // At 1e-12 itself and a step of the doubles to each side.
    |rng, n| mirrored(n, 0.0, || f64::from_bits(1e-12f64.to_bits() + 1 - rng.below(3) as u64) * rng.below(3) as f64),
    // Some NaN, much NaN, nothing but NaN.
    |rng, n| mirrored(n, 0.0, || rng.seldom(6, 1.0)),
    |rng, n| square(n, |_, _| rng.seldom(4, 0.75)),
    |rng, n| mirrored(n, 0.0, || if rng.below(3) == 0 { f64::NAN } else { rng.unit() }),
    |rng, n| square(n, |_, _| if rng.below(2) == 0 { f64::NAN } else { rng.unit() }),
    |_, n| vec![f64::NAN; n * n],
    // All equal.
    |_, n| vec![1.0; n * n],
    |_, n| vec![0.0; n * n],
    |_, n| vec![f64::INFINITY; n * n],
    // Infinities, both zeros, huge, tiny, negative.
    |rng, n| mirrored(n, 0.0, || rng.pick(&[f64::INFINITY, f64::NEG_INFINITY, 1.0, 2.0])),
    |rng, n| mirrored(n, -0.0, || rng.pick(&[0.0, -0.0, f64::from_bits(1), -f64::from_bits(1)])),
    |rng, n| mirrored(n, 0.0, || (rng.unit() - 0.5) * f64::MAX * 2.0),
    |rng, n| square(n, |_, _| quiet(rng.wild())),
    // Squares at the top of the range: a product in another order overflows.
    |rng, n| mirrored(n, 0.0, || (0.95 + 0.13 * rng.unit()) * 1e154),
];

/// Rows that join any two nodes which no row has joined yet, either first.
pub fn any_tree(rng: &mut Random, n: usize) -> Vec<usize> {
    let mut free: Vec<usize> = (0..n).collect();
    let mut ids = Vec::new();
    for k in 0..n.saturating_sub(1) {
        for _ in 0..2 {
            let at = rng.below(free.len());
            ids.push(free.swap_remove(at));
        }
        free.push(n + k);
    }
    ids
}
