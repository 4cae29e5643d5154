//! A case: what both sides are handed, how it is judged, and how a disagreeing one is made smaller.
use crate::buffers::{Input, Lent, Verdict};
use crate::mirror::Mirrors;
use crate::random::Random;
use openquant::api::Beside;
use openquant::nearest::Known;

/// Everything that is handed over, kept from case to case.
#[derive(Default)]
pub struct Desk {
    pub doubles: [Input<f64>; 4],
    pub numbers: Input<usize>,
    pub bytes: [Input<u8>; 5],
    pub rows: Lent<usize>,
    pub order: Lent<usize>,
    pub weights: Lent<f64>,
    pub covariance: Lent<f64>,
    pub correlations: Lent<f64>,
    pub distances: Lent<f64>,
    pub scratch: Lent<f64>,
    pub count: Lent<usize>,
    pub listing: Lent<u8>,
}

/// Where the source answers otherwise than is due, as docs/DIFFERENCES.md lists.
#[derive(Clone, Copy)]
pub enum Listed {
    No,
    /// A signalling NaN lent to the merge step.
    Signalling,
    /// The rules of the tail-risk metrics.
    TailRisk(Known),
}

pub struct Judged {
    /// The refusal's number, or 0, that is due.
    pub number: u8,
    pub listed: Listed,
    pub verdict: Verdict,
}

impl Judged {
    /// With how the unchanged source answers beside what is due.
    pub fn beside(number: u8, beside: Beside, verdict: Verdict) -> Self {
        let (listed, verdict) = match beside {
            Beside::Same => (Listed::No, verdict),
            Beside::Known(met) => (Listed::TailRisk(met), verdict),
            Beside::Unknown => (Listed::No, verdict.and(Err("the Rust differs from document 02, and not as listed".into()))),
        };
        Self { number, listed, verdict }
    }
}

pub trait Case: Sized {
    const NAME: &'static str;

    fn make(rng: &mut Random) -> Self;

    /// Under which name it is counted.
    fn kind(&self) -> &'static str {
        Self::NAME
    }

    /// Calls both sides, ours in buffers of junk.
    fn judge(&self, desk: &mut Desk, junk: &mut Random) -> Judged;

    /// Of an accepted case: how a given covariance, or given distances, stand to their mirror.
    fn mirrors(&self) -> Option<Mirrors> {
        None
    }

    /// How much there is to read in `show`.
    fn size(&self) -> usize;

    /// Every input by its bits.
    fn show(&self) -> String;

    /// Cases like this one with something left out.
    fn smaller(&self) -> Vec<Self>;
}

/// A disagreeing case with as much left out as can be, within so many tries.
pub fn shrunk<C: Case>(mut case: C, desk: &mut Desk, seed: u64) -> C {
    let mut tries = 4000;
    loop {
        let found = case.smaller().into_iter().filter(|c| c.size() < case.size()).find(|c| {
            tries -= 1;
            tries > 0 && c.judge(desk, &mut Random::new(seed)).verdict.is_err()
        });
        match found {
            Some(less) => case = less,
            None => return case,
        }
    }
}

/// What a cell adds to a case's size: a plain one less than any other.
pub fn weight(x: f64) -> usize {
    match x.to_bits() {
        0 => 1,
        0x3ff0_0000_0000_0000 => 2,
        _ => 4,
    }
}

/// What rooms add: those that are just what is needed, nothing.
pub fn weight_of_rooms(rooms: &[usize], needs: &[usize]) -> usize {
    3 * rooms.iter().zip(needs).filter(|(room, need)| room != need).count()
}

/// The places of a list's first cells that can be made plain, and what each can be.
pub fn plainer(cells: &[f64]) -> impl Iterator<Item = (usize, f64)> + '_ {
    let plain = |i: usize| [0.0, 1.0].into_iter().map(move |x| (i, x));
    (0..cells.len().min(64)).flat_map(plain).filter(|&(i, x)| weight(x) < weight(cells[i]))
}
