//! Matrices beside their mirrors: in which way the two differ, and matrices that are made to differ in just that way.
use crate::kinds::TINY;
use crate::random::{Random, ODD};
use openquant::api::Linkage;
use Mirror::*;

/// How the cells off the diagonal stand to those across from them. Two are equal where their bits are, or where both are NaN; +0 and −0 are two.
#[derive(Clone, Copy)]
pub enum Mirror {
    /// All equal, and neither of the next two.
    Own,
    /// All equal, NaNs of different bits among them.
    NanBits,
    /// All equal, −0 twice among them.
    MinusZeros,
    /// Equal but for zeros, +0 across from −0.
    ZeroSigns,
    /// Equal but for one pair of numbers.
    OneCell,
    /// Equal but for one NaN, across from a number.
    OneNan,
    Several,
    Throughout,
}

/// Of a table: where a given matrix differs from its mirror, and last where the merge step's distances do.
pub const HEADINGS: [&str; 9] =
    ["nowhere", "NaN's bits", "-0 twice", "zero's sign", "one cell", "one NaN", "several", "throughout", "distances"];

/// What a tree was built from: the matrix that was given, and the distances that the merge step was handed.
pub struct Mirrors {
    pub linkage: Linkage,
    pub given: Mirror,
    pub distances: Mirror,
}

/// The cells above the diagonal, each with the one across from it.
fn pairs(n: usize, cells: &[f64]) -> impl Iterator<Item = (f64, f64)> + '_ {
    (0..n).flat_map(move |i| (i + 1..n).map(move |j| (cells[i * n + j], cells[j * n + i])))
}

fn equal(a: f64, b: f64) -> bool {
    a.to_bits() == b.to_bits() || a.is_nan() && b.is_nan()
}

impl Mirror {
    /// Of n by n cells; under 2 assets there is nothing off the diagonal.
    pub fn of(n: usize, cells: &[f64]) -> Option<Self> {
        let all = pairs(n, cells).count();
        let unequal: Vec<(f64, f64)> = pairs(n, cells).filter(|&(a, b)| !equal(a, b)).collect();
        Some(match unequal[..] {
            [] if all == 0 => return None,
            [] if pairs(n, cells).any(|(a, b)| a.to_bits() != b.to_bits()) => NanBits,
            [] if pairs(n, cells).any(|(a, _)| a == 0.0 && a.is_sign_negative()) => MinusZeros,
            [] => Own,
            // The same number by different bits is a zero.
            _ if unequal.iter().all(|(a, b)| a == b) => ZeroSigns,
            [(a, b)] if a.is_nan() || b.is_nan() => OneNan,
            [_] => OneCell,
            _ if unequal.len() == all => Throughout,
            _ => Several,
        })
    }

    pub fn unequal(self) -> bool {
        !matches!(self, Own | NanBits | MinusZeros)
    }
}

/// Quiet ones of both signs, and two that signal.
const NANS: [u64; 8] = [
    0x7ff8_0000_0000_0000,
    0xfff8_0000_0000_0000,
    0x7ff8_0000_0000_0001,
    0xfff8_0000_0000_beef,
    0x7fff_ffff_ffff_ffff,
    0xffff_ffff_ffff_ffff,
    0x7ff0_0000_0000_0001,
    0xfff4_0000_0000_0000,
];

/// Two different numbers below n.
fn two(rng: &mut Random, n: usize) -> (usize, usize) {
    let first = rng.below(n);
    (first, (first + 1 + rng.below(n - 1)) % n)
}

/// Any number but this one: of the matrix's own, so that there are ties, or near to this one, so that the two tie, or odd.
fn another(rng: &mut Random, x: f64, cells: &[f64]) -> f64 {
    let one = || match rng.below(8) {
        0..=2 => rng.pick(cells),
        3 => x + rng.pick(&[TINY, -TINY, 2.0 * TINY]),
        4 => x * rng.pick(&[-1.0, 0.5, 1.0 + f64::EPSILON]),
        _ => rng.pick(&ODD),
    };
    std::iter::repeat_with(one).find(|y| !y.is_nan() && *y != x).expect("another number")
}

/// A cell and the one across from it, where x was in both.
fn pair(rng: &mut Random, kind: Mirror, x: f64, cells: &[f64]) -> (f64, f64) {
    let number = if x.is_nan() { rng.unit() } else { x };
    let (a, b) = two(rng, NANS.len());
    match kind {
        NanBits => (f64::from_bits(NANS[a]), f64::from_bits(NANS[b])),
        MinusZeros => (-0.0, -0.0),
        ZeroSigns => (0.0, -0.0),
        OneNan => (f64::from_bits(NANS[a]), number),
        _ => (another(rng, number, cells), number),
    }
}

/// The cells that are changed, above the diagonal and below it.
fn places(rng: &mut Random, kind: Mirror, n: usize) -> Vec<(usize, usize)> {
    let times = match kind {
        Own => 0,
        OneCell | OneNan => 1,
        Throughout => {
            let mut turned = |(i, j)| if rng.below(2) == 0 { (i, j) } else { (j, i) };
            return (0..n).flat_map(|i| (i + 1..n).map(move |j| (i, j))).map(&mut turned).collect();
        }
        // One for the most part, else some.
        _ => 1 + rng.below(2) * rng.below(n),
    };
    (0..times).map(|_| two(rng, n)).collect()
}

/// Half of the time, makes n by n cells their own mirror and then, for the most part, differ from it in one way.
pub fn bend(rng: &mut Random, n: usize, cells: &mut [f64]) {
    if n < 2 || rng.below(2) == 0 {
        return;
    }
    for i in 0..n {
        (0..i).for_each(|j| cells[i * n + j] = cells[j * n + i]);
    }
    let kind = rng.pick(&[Own, NanBits, MinusZeros, ZeroSigns, OneCell, OneNan, Throughout]);
    for (i, j) in places(rng, kind, n) {
        (cells[i * n + j], cells[j * n + i]) = pair(rng, kind, cells[i * n + j], cells);
    }
}
