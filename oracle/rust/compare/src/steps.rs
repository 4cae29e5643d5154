//! The covariance, the merge step, the leaf order and the square root.
use crate::account::{bytes, text};
use crate::buffers::{hex, number, Entry};
use crate::case::{plainer, weight, weight_of_rooms, Case, Desk, Judged, Listed};
use crate::damage;
use crate::kinds::{any_tree, quiet, DISTANCES};
use crate::matrices;
use crate::mirror::{self, Mirror, Mirrors};
use crate::names;
use crate::ours::{rovignesc_covariance, rovignesc_linkage_children, rovignesc_quasi_diagonalization, rovignesc_sqrt};
use crate::random::{Random, ODD};
use crate::rules::{self, need};
use nalgebra::DMatrix;
use openquant::api;

/// A lone matrix, and the room of the buffer for its answer.
#[derive(Clone)]
struct Lone {
    rows: usize,
    columns: usize,
    cells: Vec<f64>,
    room: usize,
}

impl Lone {
    /// 9, 10, 11.
    fn sized(&self, need: fn(usize) -> usize) -> Result<(), u8> {
        rules::sized(self.rows, self.columns, self.cells.len(), self.room, || need(self.columns))
    }

    fn whole(&self) -> bool {
        self.rows.checked_mul(self.columns) == Some(self.cells.len())
    }

    fn damaged(mut self, rng: &mut Random) -> Self {
        match rng.below(8) {
            0 => (self.rows, self.columns) = rng.pick(&[(4097, 0), (1, 65), (65, 64), (0, 3), (3, 0), (usize::MAX, usize::MAX)]),
            1 => self.rows += 1,
            2 => self.columns += 1,
            3 => self.cells.push(0.5),
            4 => {
                self.cells.pop();
            }
            5 => self.room = self.room.saturating_sub(1 + rng.below(8)),
            // A slice that fits a matrix of one row more.
            _ => {
                self.rows += 1;
                self.cells.resize(self.rows * self.columns, 0.25);
            }
        }
        self
    }

    fn size(&self, need: fn(usize) -> usize) -> usize {
        let cells: usize = self.cells.iter().map(|&x| weight(x)).sum();
        let rooms = weight_of_rooms(&[self.room], &[need(self.columns.min(65))]);
        self.rows.min(99) + self.columns.min(99) + cells + rooms
    }

    fn show(&self, what: &str, answer: &str) -> String {
        let (cells, len) = (hex(&self.cells), self.cells.len());
        format!("{what}: {} by {}, {len} cells{cells}\nroom of {answer}: {}\n", self.rows, self.columns, self.room)
    }

    /// The cells that are kept, of a matrix that is whole: so many rows and columns less.
    fn less(&self, rows: usize, columns: usize, kept: impl Fn(usize, usize) -> bool) -> Self {
        let w = self.columns;
        let cells = self.cells.iter().enumerate().filter(|(k, _)| kept(k / w, k % w)).map(|(_, x)| *x).collect();
        Self { rows: self.rows - rows, columns: w - columns, cells, room: self.room }
    }

    /// Plainer cells; just the room that is needed.
    fn plainer(&self, need: fn(usize) -> usize) -> Vec<Self> {
        let plain = |(i, x)| {
            let mut less = self.clone();
            less.cells[i] = x;
            less
        };
        let mut out: Vec<Self> = plainer(&self.cells).map(plain).collect();
        if self.columns <= 64 {
            out.push(Self { room: need(self.columns), ..self.clone() });
        }
        out
    }
}

/// Of returns.
#[derive(Clone)]
pub struct Covariance(Lone);

impl Covariance {
    /// 9, 10, 11, then the source's 1.
    fn theirs(&self) -> Result<Vec<f64>, u8> {
        self.0.sized(need::square)?;
        let returns = DMatrix::from_row_slice(self.0.rows, self.0.columns, &self.0.cells);
        api::covariance(&returns).map(|m| matrices::cells(&m))
    }
}

impl Case for Covariance {
    const NAME: &'static str = "covariance";

    fn make(rng: &mut Random) -> Self {
        let n = if rng.below(6) == 0 { rng.below(65) } else { matrices::assets(rng) };
        let rows = match rng.below(40) {
            0 => rng.below(3),
            1 => 4096 / n.max(1),
            2..=13 => rng.below(65),
            _ => 2 + rng.below(9),
        };
        let cells = matrices::returns(rng, rows, n);
        let [room] = damage::rooms(rng, [need::square(n)]);
        let whole = Lone { rows, columns: n, cells, room };
        Self(if rng.below(8) == 0 { whole.damaged(rng) } else { whole })
    }

    fn judge(&self, desk: &mut Desk, junk: &mut Random) -> Judged {
        let theirs = self.theirs();
        desk.doubles[0].set(&self.0.cells);
        desk.covariance.dirty(self.0.room, junk);
        // The slices are the desk's own, and none of them overlaps another.
        let ours = unsafe {
            rovignesc_covariance(
                desk.doubles[0].at(),
                desk.doubles[0].len(),
                self.0.rows,
                self.0.columns,
                desk.covariance.at(),
                desk.covariance.len(),
            )
        };
        let due = theirs.as_ref().err().copied().unwrap_or(0);
        let verdict = number(ours, due)
            .and_then(|()| desk.covariance.holds("covariance", theirs.as_deref().unwrap_or(&[])))
            .and_then(|()| desk.doubles[0].unchanged("returns", &self.0.cells));
        Judged { number: due, listed: Listed::No, verdict }
    }

    fn size(&self) -> usize {
        self.0.size(need::square)
    }

    fn show(&self) -> String {
        self.0.show("returns", "covariance")
    }

    fn smaller(&self) -> Vec<Self> {
        let mut out = Vec::new();
        if self.0.whole() {
            out.extend((0..self.0.columns.min(64)).map(|column| self.0.less(0, 1, |_, c| c != column)));
            out.extend((0..self.0.rows.min(64)).map(|row| self.0.less(1, 0, |r, _| r != row)));
        }
        out.extend(self.0.plainer(need::square));
        out.into_iter().map(Self).collect()
    }
}

#[derive(Clone)]
pub struct Merge {
    distances: Lone,
    linkage: Vec<u8>,
    /// Of the number of pairs.
    count: usize,
}

/// The live pairs that document 01's scans visit: each step has one slot fewer.
fn live_pairs(n: usize) -> usize {
    (2..=n).map(|live| live * (live - 1) / 2).sum()
}

impl Merge {
    /// 9, 10, 11, 8, then 3.
    fn theirs(&self, cells: &[f64]) -> Result<Vec<usize>, u8> {
        let Lone { rows, columns, .. } = self.distances;
        self.distances.sized(need::children)?;
        if self.count < 1 {
            return Err(11);
        }
        let linkage = api::linkage_named(&text(&self.linkage))?;
        rules::square(rows, columns)?;
        Ok(api::linkage_children(&DMatrix::from_row_slice(rows, columns, cells), linkage).concat())
    }

    fn signals(&self) -> bool {
        self.distances.cells.iter().any(|x| quiet(*x).to_bits() != x.to_bits())
    }
}

impl Case for Merge {
    const NAME: &'static str = "linkage_children";

    fn make(rng: &mut Random) -> Self {
        let n = matrices::assets(rng);
        let mut cells = rng.pick(&DISTANCES)(rng, n);
        // docs/DIFFERENCES.md has what the source does with a signalling NaN.
        if rng.below(30) == 0 && !cells.is_empty() {
            let i = rng.below(cells.len());
            cells[i] = f64::from_bits(0x7ff0_0000_0000_0001);
        }
        let [room, count] = damage::rooms(rng, [need::children(n), 1]);
        let linkage = names::linkage(rng);
        let whole = Lone { rows: n, columns: n, cells, room };
        let mut distances = if rng.below(10) == 0 { whole.damaged(rng) } else { whole };
        // Drawn last, so that nothing else of a case changes.
        if distances.rows == distances.columns && distances.whole() {
            mirror::bend(rng, distances.rows, &mut distances.cells);
        }
        Self { distances, linkage, count }
    }

    /// To document 01 one NaN is like any other, so a signalling one is judged as if it were quiet; whether the source does so too is seen apart.
    fn judge(&self, desk: &mut Desk, junk: &mut Random) -> Judged {
        let cells = &self.distances.cells;
        let raw = self.theirs(cells);
        let theirs = if self.signals() { self.theirs(&cells.iter().map(|&x| quiet(x)).collect::<Vec<_>>()) } else { raw.clone() };
        desk.doubles[0].set(cells);
        desk.bytes[0].set(&self.linkage);
        desk.rows.dirty(self.distances.room, junk);
        desk.count.dirty(self.count, junk);
        // The slices are the desk's own, and none of them overlaps another.
        let ours = unsafe {
            rovignesc_linkage_children(
                desk.doubles[0].at(),
                desk.doubles[0].len(),
                self.distances.rows,
                self.distances.columns,
                desk.bytes[0].at(),
                desk.bytes[0].len(),
                desk.rows.at(),
                desk.rows.len(),
                desk.count.at(),
                desk.count.len(),
            )
        };
        let due = theirs.as_ref().err().copied().unwrap_or(0);
        let pairs = theirs.as_ref().ok().map(|_| live_pairs(self.distances.columns));
        let verdict = number(ours, due)
            .and_then(|()| desk.rows.holds("rows", theirs.as_deref().unwrap_or(&[])))
            .and_then(|()| desk.count.holds("pairs", pairs.as_slice()))
            .and_then(|()| desk.doubles[0].unchanged("distances", cells))
            .and_then(|()| desk.bytes[0].unchanged("linkage", &self.linkage));
        Judged { number: due, listed: if raw == theirs { Listed::No } else { Listed::Signalling }, verdict }
    }

    fn mirrors(&self) -> Option<Mirrors> {
        let given = Mirror::of(self.distances.columns, &self.distances.cells)?;
        let linkage = api::linkage_named(&text(&self.linkage)).ok()?;
        Some(Mirrors { linkage, given, distances: given })
    }

    fn size(&self) -> usize {
        self.distances.size(need::children) + self.linkage.len() + weight_of_rooms(&[self.count], &[1])
    }

    fn show(&self) -> String {
        format!("{}linkage: {}\nroom for the pairs: {}\n", self.distances.show("distances", "rows"), bytes(&self.linkage), self.count)
    }

    fn smaller(&self) -> Vec<Self> {
        let m = &self.distances;
        let mut out = Vec::new();
        if m.rows == m.columns && m.whole() {
            out.extend((0..m.columns).map(|asset| m.less(1, 1, |r, c| r != asset && c != asset)));
        }
        out.extend(m.plainer(need::children));
        let mut out: Vec<Self> = out.into_iter().map(|distances| Self { distances, ..self.clone() }).collect();
        out.push(Self { count: 1, ..self.clone() });
        out
    }
}

#[derive(Clone)]
pub struct Leaves {
    ids: Vec<usize>,
    assets: usize,
    node: usize,
    /// Of the order, and of the count.
    rooms: [usize; 2],
}

impl Leaves {
    fn theirs(&self) -> Result<Vec<usize>, u8> {
        rules::leaf_order(self.assets, self.node, &self.ids, &self.rooms)?;
        let rows: Vec<[usize; 2]> = self.ids.chunks(2).map(|r| [r[0], r[1]]).collect();
        Ok(api::quasi_diagonalization(self.assets, &rows, self.node))
    }

    fn damaged(mut self, rng: &mut Random) -> Self {
        let n = self.assets;
        match rng.below(7) {
            0 => self.assets = rng.pick(&[0, n + 1, n.saturating_sub(1), 65, usize::MAX]),
            1 => self.node = rng.pick(&[2 * n, (2 * n).saturating_sub(1), usize::MAX]),
            2 => self.ids.push(0),
            3 => {
                self.ids.pop();
            }
            4 => self.ids.clear(),
            _ if self.ids.is_empty() => self.ids = vec![0, 1],
            // One id of a tree changed, or two in each other's place, which may leave a tree.
            5 => {
                let at = rng.below(self.ids.len());
                self.ids[at] = if rng.below(8) == 0 { usize::MAX } else { rng.below(2 * n) };
            }
            _ => {
                let (a, b) = (rng.below(self.ids.len()), rng.below(self.ids.len()));
                self.ids.swap(a, b);
            }
        }
        self
    }
}

impl Case for Leaves {
    const NAME: &'static str = "quasi_diagonalization";

    fn make(rng: &mut Random) -> Self {
        let n = matrices::assets(rng);
        let ids = any_tree(rng, n);
        let root = (2 * n).saturating_sub(2);
        let node = if rng.below(2) == 0 { root } else { rng.below(root + 1) };
        let rooms = damage::rooms(rng, [n, 1]);
        let whole = Self { ids, assets: n, node, rooms };
        if rng.below(4) == 0 {
            whole.damaged(rng)
        } else {
            whole
        }
    }

    fn judge(&self, desk: &mut Desk, junk: &mut Random) -> Judged {
        let theirs = self.theirs();
        desk.numbers.set(&self.ids);
        desk.order.dirty(self.rooms[0], junk);
        desk.count.dirty(self.rooms[1], junk);
        // The slices are the desk's own, and none of them overlaps another.
        let ours = unsafe {
            rovignesc_quasi_diagonalization(
                desk.numbers.at(),
                desk.numbers.len(),
                self.assets,
                self.node,
                desk.order.at(),
                desk.order.len(),
                desk.count.at(),
                desk.count.len(),
            )
        };
        let due = theirs.as_ref().err().copied().unwrap_or(0);
        let count = theirs.as_ref().ok().map(Vec::len);
        let verdict = number(ours, due)
            .and_then(|()| desk.order.holds("order", theirs.as_deref().unwrap_or(&[])))
            .and_then(|()| desk.count.holds("leaves", count.as_slice()))
            .and_then(|()| desk.numbers.unchanged("rows", &self.ids));
        Judged { number: due, listed: Listed::No, verdict }
    }

    fn size(&self) -> usize {
        let rooms = weight_of_rooms(&self.rooms, &[self.assets, 1]);
        self.ids.iter().map(|&id| id.min(9)).sum::<usize>() + self.assets.min(99) + self.node.min(99) + rooms
    }

    fn show(&self) -> String {
        format!("rows: {:x?}\nassets: {}\nnode: {}\nrooms of order, leaves: {:?}\n", self.ids, self.assets, self.node, self.rooms)
    }

    fn smaller(&self) -> Vec<Self> {
        if self.assets > 64 {
            return Vec::new();
        }
        let exact = Self { rooms: [self.assets, 1], ..self.clone() };
        let mut out = vec![exact, Self { node: 0, ..self.clone() }];
        out.extend((0..self.ids.len()).map(|i| {
            let mut less = self.clone();
            less.ids.remove(i);
            less
        }));
        out
    }
}

/// A few roots at once, since one is soon done.
#[derive(Clone)]
pub struct Roots(Vec<f64>);

impl Case for Roots {
    const NAME: &'static str = "sqrt";

    fn make(rng: &mut Random) -> Self {
        let mut one = || match rng.below(6) {
            0 => rng.pick(&ODD),
            1 => f64::from_bits(rng.bits() >> (12 + rng.below(52))),
            // Squares, and the doubles beside them.
            2 => {
                let x = rng.unit();
                f64::from_bits((x * x).to_bits() + rng.below(3) as u64)
            }
            3 => 4.0 * rng.unit(),
            _ => rng.wild(),
        };
        Self((0..16).map(|_| one()).collect())
    }

    fn judge(&self, _: &mut Desk, _: &mut Random) -> Judged {
        let verdict = self.0.iter().try_for_each(|&x| {
            let (ours, due) = (unsafe { rovignesc_sqrt(x) }.bits(), x.sqrt().due());
            if ours == due {
                return Ok(());
            }
            Err(format!("of {:016x}: {ours:016x}, should be {due:016x}", x.to_bits()))
        });
        Judged { number: 0, listed: Listed::No, verdict }
    }

    fn size(&self) -> usize {
        self.0.len()
    }

    fn show(&self) -> String {
        format!("x:{}\n", hex(&self.0))
    }

    fn smaller(&self) -> Vec<Self> {
        self.0.iter().map(|&x| Self(vec![x])).collect()
    }
}
