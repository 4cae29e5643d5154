//! HRP's accounts.
use crate::account::{text, yes, Inputs, Matrix};
use crate::buffers::{number, Verdict};
use crate::case::{weight_of_rooms, Case, Desk, Judged, Listed};
use crate::damage;
use crate::matrices::cells;
use crate::mirror::Mirrors;
use crate::ours::rovignesc_hrp;
use crate::random::Random;
use crate::rules::{self, need};
use openquant::api::{self, Account, Allocation, Linkage, Measure};

#[derive(Clone)]
pub struct Hrp {
    pub inputs: Inputs,
    pub shrink: u8,
    /// Rows, order, weights, correlations, distances, scratch.
    pub rooms: [usize; 6],
}

impl Hrp {
    /// 9, 10, 11 and 7 by document 01, the rest by the source.
    fn theirs(&self) -> Result<Allocation, u8> {
        rules::account(self.inputs.assets, &self.inputs.handed(), &self.rooms, need::hrp)?;
        let distance = api::distance_named(&text(&self.inputs.distance))?;
        let [prices, returns, covariance] = self.inputs.matrices.each_ref().map(Matrix::made);
        api::hrp_allocate(&Account {
            assets: self.inputs.assets,
            prices: prices.as_ref(),
            returns: returns.as_ref(),
            covariance: covariance.as_ref(),
            resample_by: Some(&text(&self.inputs.sampling)),
            use_shrinkage: self.shrink != 0,
            distance,
        })
    }

    fn lend(&self, desk: &mut Desk, junk: &mut Random) {
        self.inputs.lend(&mut desk.doubles, &mut desk.bytes);
        desk.rows.dirty(self.rooms[0], junk);
        desk.order.dirty(self.rooms[1], junk);
        desk.weights.dirty(self.rooms[2], junk);
        desk.correlations.dirty(self.rooms[3], junk);
        desk.distances.dirty(self.rooms[4], junk);
        desk.scratch.dirty(self.rooms[5], junk);
    }

    fn ours(&self, d: &mut Desk) -> u8 {
        let [prices, returns, covariance] = &self.inputs.matrices;
        // The slices are the desk's own, and none of them overlaps another.
        unsafe {
            rovignesc_hrp(
                self.inputs.assets,
                d.doubles[0].at(),
                d.doubles[0].len(),
                prices.given,
                prices.rows,
                prices.columns,
                d.doubles[1].at(),
                d.doubles[1].len(),
                returns.given,
                returns.rows,
                returns.columns,
                d.doubles[2].at(),
                d.doubles[2].len(),
                covariance.given,
                covariance.rows,
                covariance.columns,
                d.bytes[0].at(),
                d.bytes[0].len(),
                self.shrink,
                d.bytes[1].at(),
                d.bytes[1].len(),
                d.rows.at(),
                d.rows.len(),
                d.order.at(),
                d.order.len(),
                d.weights.at(),
                d.weights.len(),
                d.correlations.at(),
                d.correlations.len(),
                d.distances.at(),
                d.distances.len(),
                d.scratch.at(),
                d.scratch.len(),
            )
        }
    }

    fn compare(&self, d: &Desk, ours: u8, theirs: &Result<Allocation, u8>) -> Verdict {
        number(ours, theirs.as_ref().err().copied().unwrap_or(0))?;
        let done = theirs.as_ref().ok();
        d.rows.holds("rows", done.map_or(&[], |a| &a.rows))?;
        d.order.holds("order", done.map_or(&[], |a| &a.order))?;
        d.weights.holds("weights", done.map_or(&[], |a| &a.weights))?;
        d.correlations.holds("seriated_correlations", &done.map_or(Vec::new(), |a| cells(&a.correlations)))?;
        d.distances.holds("seriated_distances", &done.map_or(Vec::new(), |a| cells(&a.distances)))?;
        d.scratch.holds("scratch", &[])?;
        self.inputs.unchanged(&d.doubles, &d.bytes)
    }
}

impl Case for Hrp {
    const NAME: &'static str = "hrp";

    fn make(rng: &mut Random) -> Self {
        let mut inputs = Inputs::make(rng);
        let rooms = damage::rooms(rng, need::hrp(inputs.assets));
        damage::shapes(rng, &mut inputs);
        let shrink = if rng.below(2) == 0 { 0 } else { yes(rng) };
        inputs.bend(rng);
        Self { inputs, shrink, rooms }
    }

    fn judge(&self, desk: &mut Desk, junk: &mut Random) -> Judged {
        let theirs = self.theirs();
        self.lend(desk, junk);
        let ours = self.ours(desk);
        let verdict = self.compare(desk, ours, &theirs);
        Judged { number: theirs.err().unwrap_or(0), listed: Listed::No, verdict }
    }

    fn mirrors(&self) -> Option<Mirrors> {
        self.inputs.mirrors(Measure::Hrp, Linkage::Single)
    }

    fn size(&self) -> usize {
        let rooms = weight_of_rooms(&self.rooms, &need::hrp(self.inputs.assets.min(65)));
        self.inputs.size() + self.shrink.min(2) as usize + rooms
    }

    fn show(&self) -> String {
        format!("{}use_shrinkage: {}\nrooms of {}: {:?}\n", self.inputs.show(), self.shrink, ROOMS, self.rooms)
    }

    fn smaller(&self) -> Vec<Self> {
        let fewer = self.inputs.smaller().into_iter();
        let mut out: Vec<Self> = fewer.map(|(_, inputs)| Self { inputs, ..*self }).collect();
        out.push(Self { shrink: self.shrink.min(1), ..self.clone() });
        out.push(Self { shrink: 0, ..self.clone() });
        if self.inputs.assets <= 64 {
            out.push(Self { rooms: need::hrp(self.inputs.assets), ..self.clone() });
        }
        out
    }
}

const ROOMS: &str = "rows, order, weights, seriated_correlations, seriated_distances, scratch";
