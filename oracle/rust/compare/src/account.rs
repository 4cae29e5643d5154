//! What both allocators are handed: assets, matrices, and the names of a sampling and a distance.
use crate::buffers::{hex, Input, Verdict};
use crate::case::{plainer, weight};
use crate::matrices;
use crate::mirror::{self, Mirror, Mirrors};
use crate::names;
use crate::random::Random;
use crate::rules::Handed;
use nalgebra::DMatrix;
use openquant::api::{self, Distance, Linkage, Measure};

/// A matrix that may be absent; a flag is any byte.
#[derive(Clone)]
pub struct Matrix {
    pub given: u8,
    pub rows: usize,
    pub columns: usize,
    pub cells: Vec<f64>,
}

/// Any byte but 0.
pub fn yes(rng: &mut Random) -> u8 {
    rng.pick(&[1, 1, 1, 2, 128, 255])
}

impl Matrix {
    fn of(rng: &mut Random, rows: usize, columns: usize, cells: Vec<f64>) -> Self {
        Self { given: yes(rng), rows, columns, cells }
    }

    /// Sizes and cells of an absent matrix are not looked at.
    fn absent(rng: &mut Random) -> Self {
        let (rows, columns, len) = match rng.below(6) {
            0 => (usize::MAX, usize::MAX, 0),
            1 => (3, 3, 5),
            2 => (4097, 65, 1),
            _ => (0, 0, 0),
        };
        Self { given: 0, rows, columns, cells: vec![f64::NAN; len] }
    }

    pub fn handed(&self) -> Handed {
        Handed { given: self.given != 0, rows: self.rows, columns: self.columns, len: self.cells.len() }
    }

    pub fn made(&self) -> Option<DMatrix<f64>> {
        (self.given != 0).then(|| DMatrix::from_row_slice(self.rows, self.columns, &self.cells))
    }

    fn whole(&self) -> bool {
        self.given != 0 && self.rows.checked_mul(self.columns) == Some(self.cells.len())
    }

    /// Without one column, and without the row of that number where `row` is set.
    fn without(&self, asset: usize, row: bool) -> Self {
        if !self.whole() || asset >= self.columns || row && asset >= self.rows {
            return self.clone();
        }
        let gone = |k: usize| k % self.columns == asset || row && k / self.columns == asset;
        let cells = self.cells.iter().enumerate().filter(|(k, _)| !gone(*k)).map(|(_, x)| *x).collect();
        Self { given: self.given, rows: self.rows - row as usize, columns: self.columns - 1, cells }
    }

    fn without_row(&self, row: usize) -> Self {
        let mut out = self.clone();
        out.rows -= 1;
        out.cells.drain(row * self.columns..(row + 1) * self.columns);
        out
    }

    fn size(&self) -> usize {
        let shape = self.rows.min(99) + self.columns.min(99);
        self.given.min(2) as usize + shape + self.cells.iter().map(|&x| weight(x)).sum::<usize>()
    }

    fn show(&self, what: &str) -> String {
        let given = if self.given == 0 { "absent" } else { "given" };
        format!("{what}: {given} ({}), {} by {}, {} cells{}\n", self.given, self.rows, self.columns, self.cells.len(), hex(&self.cells))
    }

    /// Less of it: none, plainer cells, fewer rows.
    fn smaller(&self) -> Vec<Self> {
        let mut out = vec![Self { given: 0, rows: 0, columns: 0, cells: Vec::new() }];
        if self.given > 1 {
            out.push(Self { given: 1, ..self.clone() });
        }
        if self.whole() {
            out.extend((0..self.rows.min(16)).map(|row| self.without_row(row)));
        }
        for (i, x) in plainer(&self.cells) {
            let mut less = self.clone();
            less.cells[i] = x;
            out.push(less);
        }
        out
    }
}

#[derive(Clone)]
pub struct Inputs {
    pub assets: usize,
    /// Prices, returns, covariance.
    pub matrices: [Matrix; 3],
    pub sampling: Vec<u8>,
    pub distance: Vec<u8>,
}

pub const MATRICES: [&str; 3] = ["prices", "returns", "covariance"];

fn rows_of_returns(rng: &mut Random, most: usize) -> usize {
    match rng.below(40) {
        0 => rng.below(2),
        1 => most.min(4096),
        _ => 2 + rng.below(9),
    }
    .min(most)
}

/// Enough for a few weeks or months where the name is one's.
fn rows_of_prices(rng: &mut Random, most: usize, sampling: &[u8]) -> usize {
    match sampling.first().map(u8::to_ascii_lowercase) {
        Some(b'm') => rng.pick(&[3, 20, 21, 22, 42, 63, 64, 84]),
        Some(b'w') => rng.pick(&[3, 4, 5, 6, 10, 15, 16, 24]),
        _ => rows_of_returns(rng, most) + 1,
    }
    .min(most)
}

/// Which matrices are there: prices 1, returns 2, covariance 4. Seldom none.
fn there(rng: &mut Random) -> usize {
    match rng.below(60) {
        0 => 0,
        _ => rng.pick(&[4, 4, 4, 4, 4, 4, 2, 2, 2, 1, 1, 1, 1, 3, 5, 5, 6, 6, 7, 7]),
    }
}

impl Inputs {
    pub fn make(rng: &mut Random) -> Self {
        let n = matrices::assets(rng);
        let (sampling, distance) = (names::sampling(rng), names::distance(rng));
        let (there, most) = (there(rng), 4096 / n.max(1));
        let mut matrices = [Matrix::absent(rng), Matrix::absent(rng), Matrix::absent(rng)];
        if there & 1 != 0 {
            let rows = rows_of_prices(rng, most, &sampling);
            let cells = matrices::prices(rng, rows, n);
            matrices[0] = Matrix::of(rng, rows, n, cells);
        }
        if there & 2 != 0 {
            let rows = rows_of_returns(rng, most);
            let cells = matrices::returns(rng, rows, n);
            matrices[1] = Matrix::of(rng, rows, n, cells);
        }
        if there & 4 != 0 {
            let cells = matrices::a_covariance(rng, n);
            matrices[2] = Matrix::of(rng, n, n, cells);
        }
        Self { assets: n, matrices, sampling, distance }
    }

    /// The covariance beside its mirror: drawn last, so that nothing else of a case changes.
    pub fn bend(&mut self, rng: &mut Random) {
        let m = &mut self.matrices[2];
        if m.rows == m.columns && m.whole() {
            mirror::bend(rng, m.rows, &mut m.cells);
        }
    }

    /// Of an accepted account, where a covariance was given.
    pub fn mirrors(&self, measure: Measure, linkage: Linkage) -> Option<Mirrors> {
        let covariance = self.matrices[2].made()?;
        let pairwise = api::corr_to_distances(measure, &api::cov2corr(&covariance).ok()?);
        let distances = match api::distance_named(&text(&self.distance)).ok()? {
            Distance::Correlation => pairwise,
            Distance::DistanceOfDistances => api::distance_of_distances(&pairwise),
        };
        let of = |m: &DMatrix<f64>| Mirror::of(self.assets, &matrices::cells(m));
        Some(Mirrors { linkage, given: of(&covariance)?, distances: of(&distances)? })
    }

    pub fn handed(&self) -> [Handed; 3] {
        self.matrices.each_ref().map(Matrix::handed)
    }

    pub fn lend(&self, doubles: &mut [Input<f64>; 4], bytes: &mut [Input<u8>; 5]) {
        for (input, m) in doubles.iter_mut().zip(&self.matrices) {
            input.set(&m.cells);
        }
        bytes[0].set(&self.sampling);
        bytes[1].set(&self.distance);
    }

    pub fn unchanged(&self, doubles: &[Input<f64>; 4], bytes: &[Input<u8>; 5]) -> Verdict {
        for (k, m) in self.matrices.iter().enumerate() {
            doubles[k].unchanged(MATRICES[k], &m.cells)?;
        }
        bytes[0].unchanged("resample_by", &self.sampling)?;
        bytes[1].unchanged("distance", &self.distance)
    }

    pub fn size(&self) -> usize {
        let matrices: usize = self.matrices.iter().map(Matrix::size).sum();
        self.assets.min(99) + matrices + self.sampling.len() + self.distance.len()
    }

    pub fn show(&self) -> String {
        let matrices: String = self.matrices.iter().zip(MATRICES).map(|(m, what)| m.show(what)).collect();
        format!("assets: {}\n{matrices}resample_by: {}\ndistance: {}\n", self.assets, bytes(&self.sampling), bytes(&self.distance))
    }

    /// An asset less in every matrix that has it; less of one matrix; a plain name.
    pub fn smaller(&self) -> Vec<(Option<usize>, Self)> {
        let mut out = Vec::new();
        for asset in 0..self.assets.min(64) {
            let mut less = self.clone();
            less.assets -= 1;
            less.matrices = [0, 1, 2].map(|k| self.matrices[k].without(asset, k == 2));
            out.push((Some(asset), less));
        }
        for k in 0..3 {
            for m in self.matrices[k].smaller() {
                let mut less = self.clone();
                less.matrices[k] = m;
                out.push((None, less));
            }
        }
        out.push((None, Self { sampling: Vec::new(), ..self.clone() }));
        out.push((None, Self { distance: b"correlation".to_vec(), ..self.clone() }));
        out
    }
}

/// Bytes as they can be typed again.
pub fn bytes(name: &[u8]) -> String {
    format!("\"{}\"", name.escape_ascii())
}

/// Bytes that are no text, which the source cannot be handed, are no name.
pub fn text(name: &[u8]) -> std::borrow::Cow<'_, str> {
    String::from_utf8_lossy(name)
}
