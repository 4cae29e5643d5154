//! HCAA's accounts.
use crate::account::{bytes, text, yes, Inputs, Matrix};
use crate::buffers::{hex, number, Verdict};
use crate::case::{plainer, weight, weight_of_rooms, Case, Desk, Judged};
use crate::damage;
use crate::mirror::Mirrors;
use crate::names;
use crate::ours::rovignesc_hcaa;
use crate::random::Random;
use crate::rules::{self, need};
use openquant::api::{self, Beside, Distance, Due, HcaaAccount, HcaaAllocation, Linkage, Measure, Refused};

#[derive(Clone)]
pub struct Hcaa {
    pub inputs: Inputs,
    pub expected_given: u8,
    pub expected: Vec<f64>,
    pub metric: Vec<u8>,
    pub method: Vec<u8>,
    pub confidence: f64,
    pub linkage: Vec<u8>,
    pub clusters_given: u8,
    pub clusters: usize,
    /// Rows, order, weights, scratch, the two numbers of refusal 6.
    pub rooms: [usize; 5],
}

/// What `allocate` needs and, in the C interface, the two numbers of refusal 6 besides.
pub fn needs(assets: usize) -> [usize; 5] {
    let [rows, order, weights, scratch] = need::hcaa(assets);
    [rows, order, weights, scratch, 2]
}

impl Hcaa {
    /// Several names at once, so that the order of 8, 7 and 2 is seen.
    fn spoil_names(&mut self, rng: &mut Random) {
        for name in [&mut self.linkage, &mut self.inputs.distance, &mut self.metric] {
            if rng.below(3) > 0 {
                *name = names::spoiled(rng, "average");
            }
        }
    }

    /// 9, 10, 11, 8, 7.
    fn named(&self) -> Result<(Linkage, Distance), u8> {
        rules::account(self.inputs.assets, &self.inputs.handed(), &self.rooms, needs)?;
        Ok((api::linkage_named(&text(&self.linkage))?, api::distance_named(&text(&self.inputs.distance))?))
    }

    /// Those by document 01, the rest by the source and, under a tail-risk metric, by document 02.
    fn theirs(&self) -> Due<HcaaAllocation> {
        let (linkage, distance) = match self.named() {
            Ok(named) => named,
            Err(number) => return Due { answer: Err(number.into()), beside: Beside::Same },
        };
        let [prices, returns, covariance] = self.inputs.matrices.each_ref().map(Matrix::made);
        api::hcaa_due(&HcaaAccount {
            assets: self.inputs.assets,
            prices: prices.as_ref(),
            returns: returns.as_ref(),
            covariance: covariance.as_ref(),
            expected: (self.expected_given != 0).then_some(&self.expected),
            metric: &text(&self.metric),
            method: &text(&self.method),
            confidence: self.confidence,
            clusters: (self.clusters_given != 0).then_some(self.clusters),
            resample_by: Some(&text(&self.inputs.sampling)),
            distance,
            linkage,
        })
    }

    fn lend(&self, desk: &mut Desk, junk: &mut Random) {
        self.inputs.lend(&mut desk.doubles, &mut desk.bytes);
        desk.doubles[3].set(&self.expected);
        desk.bytes[2].set(&self.metric);
        desk.bytes[3].set(&self.method);
        desk.bytes[4].set(&self.linkage);
        desk.rows.dirty(self.rooms[0], junk);
        desk.order.dirty(self.rooms[1], junk);
        desk.weights.dirty(self.rooms[2], junk);
        desk.scratch.dirty(self.rooms[3], junk);
        desk.count.dirty(self.rooms[4], junk);
    }

    fn ours(&self, d: &mut Desk) -> u8 {
        let [prices, returns, covariance] = &self.inputs.matrices;
        // The slices are the desk's own, and none of them overlaps another.
        unsafe {
            rovignesc_hcaa(
                self.inputs.assets,
                d.doubles[0].at(),
                d.doubles[0].len(),
                prices.given,
                prices.rows,
                prices.columns,
                d.doubles[1].at(),
                d.doubles[1].len(),
                returns.given,
                returns.rows,
                returns.columns,
                d.doubles[2].at(),
                d.doubles[2].len(),
                covariance.given,
                covariance.rows,
                covariance.columns,
                d.doubles[3].at(),
                d.doubles[3].len(),
                self.expected_given,
                d.bytes[2].at(),
                d.bytes[2].len(),
                d.bytes[3].at(),
                d.bytes[3].len(),
                self.confidence,
                self.clusters_given,
                self.clusters,
                d.bytes[0].at(),
                d.bytes[0].len(),
                d.bytes[1].at(),
                d.bytes[1].len(),
                d.bytes[4].at(),
                d.bytes[4].len(),
                d.rows.at(),
                d.rows.len(),
                d.order.at(),
                d.order.len(),
                d.weights.at(),
                d.weights.len(),
                d.scratch.at(),
                d.scratch.len(),
                d.count.at(),
                d.count.len(),
            )
        }
    }

    fn compare(&self, d: &Desk, ours: u8, theirs: &Result<HcaaAllocation, Refused>) -> Verdict {
        let refused = theirs.as_ref().err();
        number(ours, refused.map_or(0, |r| r.number))?;
        let done = theirs.as_ref().ok();
        d.rows.holds("rows", done.map_or(&[], |a| &a.rows))?;
        d.order.holds("order", done.map_or(&[], |a| &a.order))?;
        d.weights.holds("weights", done.map_or(&[], |a| &a.weights))?;
        d.scratch.holds("scratch", &[])?;
        d.count.holds("asked", refused.filter(|r| r.number == 6).map_or(&[], |r| &r.asked))?;
        self.inputs.unchanged(&d.doubles, &d.bytes)?;
        d.doubles[3].unchanged("expected", &self.expected)?;
        d.bytes[2].unchanged("metric", &self.metric)?;
        d.bytes[3].unchanged("method", &self.method)?;
        d.bytes[4].unchanged("linkage", &self.linkage)
    }
}

/// One for each asset, for the most part; where they are not given, anything.
fn expected(rng: &mut Random, n: usize) -> Vec<f64> {
    let len = match rng.below(24) {
        0 => rng.pick(&[0, 1, 64, 65, 200]),
        1 => n + 1,
        2 => n.saturating_sub(1),
        _ => n,
    };
    let kind = rng.below(6);
    let mut one = || match kind {
        0 => rng.seldom(3, 0.1),
        1 => rng.wild(),
        2 => rng.gain(),
        _ => rng.gain() + 0.04,
    };
    (0..len).map(|_| one()).collect()
}

/// Mostly a count that there can be, else one at the edges.
fn clusters(rng: &mut Random, n: usize) -> usize {
    match rng.below(16) {
        0 => rng.pick(&[0, n + 1, usize::MAX, 1 << 32]),
        1 => n,
        _ => 1 + rng.below(n.max(1)),
    }
}

/// Mostly a part of the days; its index whole, or a whole and a half, in a list of one more, as many or one fewer than there are rows.
fn confidence(rng: &mut Random, inputs: &Inputs) -> f64 {
    let [prices, returns, _] = &inputs.matrices;
    let rows = if returns.given != 0 { returns.rows } else { prices.rows };
    match rng.below(24) {
        0 => rng.pick(&[f64::NAN, -f64::NAN, -5e-324, -1.0, 1.0 + f64::EPSILON, 2.0, f64::INFINITY, f64::NEG_INFINITY]),
        1 => rng.wild(),
        2..=4 => 0.05,
        5..=7 => 0.5,
        8..=9 => rng.pick(&[0.0, -0.0, 1.0, 0.25, 0.75, 0.95, 5e-324, 1.0 - f64::EPSILON / 2.0]),
        10..=17 => {
            let last = rows.min(4096).saturating_sub(rng.below(3)).max(1);
            let index = rng.below(last + 1) as f64 + rng.pick(&[0.0, 0.5]);
            (index / last as f64).min(1.0)
        }
        _ => rng.unit(),
    }
}

impl Case for Hcaa {
    const NAME: &'static str = "hcaa";

    fn make(rng: &mut Random) -> Self {
        let mut inputs = Inputs::make(rng);
        let n = inputs.assets;
        let rooms = damage::rooms(rng, needs(n));
        damage::shapes(rng, &mut inputs);
        let expected_given = if rng.below(2) == 0 { 0 } else { yes(rng) };
        let clusters_given = if rng.below(2) == 0 { 0 } else { yes(rng) };
        let expected = if expected_given != 0 || rng.below(3) == 0 { expected(rng, n) } else { Vec::new() };
        let confidence = confidence(rng, &inputs);
        let mut made = Self {
            inputs,
            expected_given,
            expected,
            metric: names::metric(rng),
            method: names::method(rng),
            confidence,
            linkage: names::linkage(rng),
            clusters_given,
            clusters: clusters(rng, n),
            rooms,
        };
        if rng.below(60) == 0 {
            made.spoil_names(rng);
        }
        made.inputs.bend(rng);
        made
    }

    fn judge(&self, desk: &mut Desk, junk: &mut Random) -> Judged {
        let theirs = self.theirs();
        self.lend(desk, junk);
        let ours = self.ours(desk);
        let verdict = self.compare(desk, ours, &theirs.answer);
        Judged::beside(theirs.answer.err().map_or(0, |r| r.number), theirs.beside, verdict)
    }

    fn mirrors(&self) -> Option<Mirrors> {
        self.inputs.mirrors(Measure::Hcaa, api::linkage_named(&text(&self.linkage)).ok()?)
    }

    fn size(&self) -> usize {
        let flags = self.expected_given.min(2) as usize + self.clusters_given.min(2) as usize;
        let names = self.metric.len() + self.method.len() + self.linkage.len();
        let expected: usize = self.expected.iter().map(|&x| weight(x)).sum();
        let rooms = weight_of_rooms(&self.rooms, &needs(self.inputs.assets.min(65)));
        self.inputs.size() + flags + names + weight(self.confidence) + expected + self.clusters.min(99) + rooms
    }

    fn show(&self) -> String {
        format!(
            "{}expected: {}, {} entries{}\nmetric: {}\nmethod: {}\nconfidence: {:016x} ({})\nlinkage: {}\nclusters: given {}, {}\nrooms of {}: {:?}\n",
            self.inputs.show(),
            if self.expected_given == 0 { "absent" } else { "given" },
            self.expected.len(),
            hex(&self.expected),
            bytes(&self.metric),
            bytes(&self.method),
            self.confidence.to_bits(),
            self.confidence,
            bytes(&self.linkage),
            self.clusters_given,
            self.clusters,
            ROOMS,
            self.rooms
        )
    }

    fn smaller(&self) -> Vec<Self> {
        let mut out = Vec::new();
        for (asset, inputs) in self.inputs.smaller() {
            let mut less = Self { inputs, ..self.clone() };
            if let Some(asset) = asset.filter(|&a| a < less.expected.len()) {
                less.expected.remove(asset);
            }
            less.clusters = less.clusters.min(less.inputs.assets.max(1));
            out.push(less);
        }
        for (i, x) in plainer(&self.expected) {
            let mut less = self.clone();
            less.expected[i] = x;
            out.push(less);
        }
        let change = |f: fn(&mut Self)| {
            let mut less = self.clone();
            f(&mut less);
            less
        };
        out.push(change(|a| (a.expected_given, a.expected) = (0, Vec::new())));
        out.push(change(|a| (a.clusters_given, a.clusters) = (0, 0)));
        out.push(change(|a| a.clusters = a.clusters.saturating_sub(1)));
        out.push(change(|a| a.linkage = b"ward".to_vec()));
        out.push(change(|a| a.method = b"mean".to_vec()));
        out.push(change(|a| a.metric = b"minimum_variance".to_vec()));
        out.push(change(|a| a.metric = b"sharpe_ratio".to_vec()));
        out.push(change(|a| a.metric = b"expected_shortfall".to_vec()));
        out.push(change(|a| a.confidence = 0.0));
        out.push(change(|a| a.confidence = 1.0));
        if self.inputs.assets <= 64 {
            out.push(change(|a| a.rooms = needs(a.inputs.assets)));
        }
        out
    }
}

const ROOMS: &str = "rows, order, weights, scratch, asked";
