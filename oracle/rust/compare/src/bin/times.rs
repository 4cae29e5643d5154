//! Times our library and the Rust on the same matrices: a line `WHAT N OURS-ns RUST-ns RATIO` for each, medians of calls that take turns.
use compare::kinds::{covariance, filled};
use compare::ours::{
    rovignesc_covariance, rovignesc_hcaa, rovignesc_hrp, rovignesc_linkage_children, rovignesc_listing, rovignesc_sheet, rovignesc_sqrt,
};
use compare::random::Random;
use nalgebra::DMatrix;
use openquant::api::{self, Account, Distance, HcaaAccount, Linkage};
use openquant::util::stats;
use std::hint::black_box;
use std::ptr::null;
use std::time::Instant;

const SAMPLES: usize = 151;

/// A sample repeats its call until about this many nanoseconds have passed: few, so that most samples are not interrupted.
const SAMPLE: f64 = 2e5;

const ASSETS: [usize; 4] = [8, 16, 32, 64];

const RETURN_ROWS: usize = 60;

/// The part of the days that count as bad. It is no half of 60 days or of 61, on which the Rust differs.
const CONFIDENCE: f64 = 0.05;

fn nanoseconds(times: usize, call: &mut impl FnMut()) -> f64 {
    let start = Instant::now();
    (0..times).for_each(|_| call());
    start.elapsed().as_nanos() as f64 / times as f64
}

/// How often a call is made in one sample; the first calls also warm it up.
fn repeats(call: &mut impl FnMut()) -> usize {
    let once = nanoseconds(3, call).max(1.0);
    (SAMPLE / once).ceil().clamp(1.0, 1e6) as usize
}

fn median(mut samples: Vec<f64>) -> f64 {
    samples.sort_by(f64::total_cmp);
    samples[samples.len() / 2]
}

/// An answer that the compiler must think is read.
fn keep<T>(answer: T) {
    black_box(answer);
}

/// Both sides by turns; a call does `each` of what is timed.
fn beside(what: &str, n: usize, each: usize, mut ours: impl FnMut(), mut theirs: impl FnMut()) {
    let (a, b) = (repeats(&mut ours), repeats(&mut theirs));
    let sample = |_| (nanoseconds(a, &mut ours), nanoseconds(b, &mut theirs));
    let (ours, theirs): (Vec<f64>, Vec<f64>) = (0..SAMPLES).map(sample).unzip();
    let (ours, theirs) = (median(ours) / each as f64, median(theirs) / each as f64);
    println!("{what} {n} {ours:.1} {theirs:.1} {:.2}", ours / theirs);
}

fn alone(what: &str, n: usize, mut ours: impl FnMut()) {
    let times = repeats(&mut ours);
    let samples = (0..SAMPLES).map(|_| nanoseconds(times, &mut ours)).collect();
    println!("{what} {n} {:.1} - -", median(samples));
}

/// The lent buffers of any account.
struct Buffers {
    rows: Vec<usize>,
    order: Vec<usize>,
    weights: Vec<f64>,
    correlations: Vec<f64>,
    distances: Vec<f64>,
    scratch: Vec<f64>,
    asked: [usize; 2],
}

impl Buffers {
    fn new(n: usize) -> Self {
        Self {
            rows: vec![7; 2 * (n - 1)],
            order: vec![7; n],
            weights: vec![1.5; n],
            correlations: vec![1.5; n * n],
            distances: vec![1.5; n * n],
            scratch: vec![1.5; 8192],
            asked: [7; 2],
        }
    }
}

/// An account's one matrix.
struct Given {
    assets: usize,
    rows: usize,
    cells: Vec<f64>,
    returns: bool,
}

impl Given {
    fn flag(&self, returns: bool) -> u8 {
        (self.returns == returns) as u8
    }

    fn matrix(&self) -> DMatrix<f64> {
        DMatrix::from_row_slice(self.rows, self.assets, &self.cells)
    }
}

fn ours_hrp(g: &Given, b: &mut Buffers) -> u8 {
    let (at, len) = (g.cells.as_ptr(), g.cells.len());
    let distance = b"distance_of_distances";
    // Every slice is a vector of its own; an absent matrix is not read.
    unsafe {
        rovignesc_hrp(
            g.assets,
            null(),
            0,
            0,
            0,
            0,
            at,
            len,
            g.flag(true),
            g.rows,
            g.assets,
            at,
            len,
            g.flag(false),
            g.rows,
            g.assets,
            null(),
            0,
            0,
            distance.as_ptr(),
            distance.len(),
            b.rows.as_mut_ptr(),
            b.rows.len(),
            b.order.as_mut_ptr(),
            b.order.len(),
            b.weights.as_mut_ptr(),
            b.weights.len(),
            b.correlations.as_mut_ptr(),
            b.correlations.len(),
            b.distances.as_mut_ptr(),
            b.distances.len(),
            b.scratch.as_mut_ptr(),
            b.scratch.len(),
        )
    }
}

fn ours_hcaa(metric: &str, g: &Given, b: &mut Buffers) -> u8 {
    let (at, len) = (g.cells.as_ptr(), g.cells.len());
    let (distance, linkage) = (b"correlation", b"ward");
    // Every slice is a vector of its own; an absent matrix is not read.
    unsafe {
        rovignesc_hcaa(
            g.assets,
            null(),
            0,
            0,
            0,
            0,
            at,
            len,
            g.flag(true),
            g.rows,
            g.assets,
            at,
            len,
            g.flag(false),
            g.rows,
            g.assets,
            null(),
            0,
            0,
            metric.as_ptr(),
            metric.len(),
            null(),
            0,
            CONFIDENCE,
            0,
            0,
            null(),
            0,
            distance.as_ptr(),
            distance.len(),
            linkage.as_ptr(),
            linkage.len(),
            b.rows.as_mut_ptr(),
            b.rows.len(),
            b.order.as_mut_ptr(),
            b.order.len(),
            b.weights.as_mut_ptr(),
            b.weights.len(),
            b.scratch.as_mut_ptr(),
            b.scratch.len(),
            b.asked.as_mut_ptr(),
            b.asked.len(),
        )
    }
}

fn theirs_hrp(g: &Given, m: &DMatrix<f64>) -> Vec<f64> {
    let (returns, covariance) = (g.returns.then_some(m), (!g.returns).then_some(m));
    let distance = Distance::DistanceOfDistances;
    let account = Account { assets: g.assets, prices: None, returns, covariance, resample_by: None, use_shrinkage: false, distance };
    api::hrp_allocate(&account).map_err(|_| "refused").unwrap().weights
}

fn theirs_hcaa(metric: &str, g: &Given, m: &DMatrix<f64>) -> Vec<f64> {
    let account = HcaaAccount {
        assets: g.assets,
        prices: None,
        returns: g.returns.then_some(m),
        covariance: (!g.returns).then_some(m),
        expected: None,
        metric,
        method: "mean",
        confidence: CONFIDENCE,
        clusters: None,
        resample_by: None,
        distance: Distance::Correlation,
        linkage: Linkage::Ward,
    };
    api::hcaa_allocate(&account).map_err(|_| "refused").unwrap().weights
}

fn accounts(what: &str, given: &[Given], ours: impl Fn(&Given, &mut Buffers) -> u8, theirs: impl Fn(&Given, &DMatrix<f64>) -> Vec<f64>) {
    for g in given {
        let (m, mut b) = (g.matrix(), Buffers::new(g.assets));
        assert_eq!(ours(g, &mut b), 0);
        assert_eq!(b.weights, theirs(g, &m));
        beside(what, g.assets, 1, || keep(ours(g, &mut b)), || keep(theirs(g, &m)));
    }
}

fn hcaa_accounts(what: &str, metric: &str, given: &[Given]) {
    accounts(what, given, |g, b| ours_hcaa(metric, g, b), |g, m| theirs_hcaa(metric, g, m));
}

/// The source's function itself: `api::covariance` runs it twice and compares.
fn covariances(given: &[Given]) {
    for g in given {
        let (n, m) = (g.assets, g.matrix());
        let ours = |out: &mut [f64]| {
            // Every slice is a vector of its own.
            unsafe { rovignesc_covariance(g.cells.as_ptr(), g.cells.len(), g.rows, n, out.as_mut_ptr(), out.len()) }
        };
        let mut out = vec![1.5; n * n];
        assert_eq!(ours(&mut out), 0);
        assert_eq!(Some(DMatrix::from_row_slice(n, n, &out)), stats::covariance(&m));
        beside("covariance", n, 1, || keep(ours(&mut out)), || keep(stats::covariance(&m)));
    }
}

/// The matrices of the merge step in the file that MATRICES names, for others to be timed on: a line for each, its size and the bits of its cells.
fn write(matrices: &[(usize, Vec<f64>)]) {
    let Some(path) = std::env::var_os("MATRICES") else { return };
    let hex = |cells: &Vec<f64>| cells.iter().map(|x| format!(" {:016x}", x.to_bits())).collect::<String>();
    let text: String = matrices.iter().map(|(n, cells)| format!("{n}{}\n", hex(cells))).collect();
    std::fs::write(path, text).expect("the matrices' file");
}

/// The same matrices by each linkage.
fn merges(rng: &mut Random) {
    let matrices = ASSETS.map(|n| (n, compare::kinds::mirrored(n, 0.0, || 2.0 * rng.unit())));
    write(&matrices);
    for (name, linkage) in [("ward", Linkage::Ward), ("single", Linkage::Single)] {
        for (n, cells) in &matrices {
            let m = DMatrix::from_row_slice(*n, *n, cells);
            let (mut rows, mut pairs) = (vec![7; 2 * (n - 1)], [7]);
            let mut ours = || {
                // Every slice is a vector of its own.
                unsafe {
                    rovignesc_linkage_children(
                        cells.as_ptr(),
                        cells.len(),
                        *n,
                        *n,
                        name.as_ptr(),
                        name.len(),
                        rows.as_mut_ptr(),
                        rows.len(),
                        pairs.as_mut_ptr(),
                        1,
                    )
                }
            };
            assert_eq!(ours(), 0);
            beside(&format!("merge_{name}"), *n, 1, || keep(ours()), || keep(api::linkage_children(&m, linkage)));
        }
    }
}

/// The fields of each row after what its line begins with.
fn lines(rows: std::slice::Chunks<f64>, front: impl Fn(usize) -> String, cell: impl Fn(&f64) -> String) -> String {
    let line = |(i, row): (usize, &[f64])| format!("{}{}\n", front(i), row.iter().map(&cell).collect::<Vec<_>>().join("\t"));
    rows.enumerate().map(line).collect()
}

fn name(asset: usize) -> String {
    char::from(b'0' + asset as u8).to_string()
}

fn job_text(distance: &str, block: &str, last: &str) -> String {
    format!("hcaa\tminimum_variance\tward\t{distance}\t-{last}\n{block}")
}

/// A job's text, and one that differs from it in a letter of its distance: that is refused, but only after every cell has been read.
fn listing(what: &str, n: usize, block: &str, last: &str) {
    let text = |distance: &str| job_text(distance, block, last);
    let (mut out, mut bytes) = (vec![7u8; 8192], [7usize]);
    for (what, text, due) in [(what.to_owned(), text("correlation"), 0), (format!("{what}_read"), text("correlatiox"), 7)] {
        // Every slice is a vector of its own.
        let mut ours = || unsafe { rovignesc_listing(text.as_ptr(), text.len(), out.as_mut_ptr(), out.len(), bytes.as_mut_ptr(), 1) };
        assert_eq!(ours(), due);
        alone(&what, n, || keep(ours()));
    }
}

/// The sheet of a job's text, without names and with them.
fn sheet(n: usize, block: &str) {
    let text = job_text("correlation", block, "");
    for (what, named, room) in [("sheet", 0, 8192), ("sheet_names", 1, 32_768)] {
        let (mut out, mut bytes) = (vec![7u8; room], [7usize]);
        // Every slice is a vector of its own.
        let mut ours = || unsafe { rovignesc_sheet(text.as_ptr(), text.len(), named, out.as_mut_ptr(), room, bytes.as_mut_ptr(), 1) };
        assert_eq!(ours(), 0);
        alone(what, n, || keep(ours()));
    }
}

/// As many assets as a text in hex has room for: the same covariance in hex, in decimals of about as many bytes, and in shorter ones; the sheet of the first; and
/// the second with ceilings, which the first has no room for: of 10 percent each, which nobody is above, and of 2 percent, which some are.
fn covariance_texts(rng: &mut Random) {
    let n = 62;
    let cells = covariance(rng, n);
    let front = |i| format!("{}\t", name(i));
    let hex = lines(cells.chunks(n), front, |x| format!("{:016x}", x.to_bits()));
    listing("listing", n, &hex, "");
    sheet(n, &hex);
    let decimals = lines(cells.chunks(n), front, |x| format!("{x:.13}"));
    listing("listing_decimals_13", n, &decimals, "");
    for (what, last) in [("listing_ceilings_10", "\t100000\n"), ("listing_ceilings_2", "\t20000\n")] {
        listing(what, n, &decimals.replace('\n', last), "\tceilings");
    }
    listing("listing_decimals_6", n, &lines(cells.chunks(n), front, |x| format!("{x:.6}")), "");
}

/// 60 days of prices in hex, and with two digits after the point.
fn price_texts(rng: &mut Random) {
    for n in [8, 62] {
        let mut cells = filled(n, || rng.price());
        for k in 0..59 * n {
            cells.push(cells[k] * (1.0 + rng.gain()));
        }
        let names: Vec<String> = (0..n).map(name).collect();
        for (what, cell) in [("listing_prices_hex", true), ("listing_prices", false)] {
            let cell = |x: &f64| if cell { format!("{:016x}", x.to_bits()) } else { format!("{x:.2}") };
            let days = lines(cells.chunks(n), |_| String::new(), cell);
            listing(what, n, &format!("{}\n{days}", names.join("\t")), "\tprices");
        }
    }
}

/// A row of independent roots, none vectorized; the time is that of one.
fn roots(rng: &mut Random) {
    let row = filled(4096, || 1e6 * rng.unit());
    let ours = || row.iter().for_each(|&x| keep(unsafe { rovignesc_sqrt(x) }));
    let theirs = || row.iter().for_each(|&x| keep(x.sqrt()));
    beside("sqrt", row.len(), row.len(), ours, theirs);
}

fn main() {
    let mut rng = Random::new(20261115);
    let from_covariance = ASSETS.map(|n| Given { assets: n, rows: n, cells: covariance(&mut rng, n), returns: false });
    let from_returns = ASSETS.map(|n| Given { assets: n, rows: RETURN_ROWS, cells: filled(RETURN_ROWS * n, || rng.gain()), returns: true });
    println!("WHAT N OURS-ns RUST-ns RATIO");
    covariances(&from_returns);
    merges(&mut rng);
    accounts("hrp_covariance", &from_covariance, ours_hrp, theirs_hrp);
    accounts("hrp_returns", &from_returns, ours_hrp, theirs_hrp);
    hcaa_accounts("hcaa_covariance", "minimum_variance", &from_covariance);
    hcaa_accounts("hcaa_returns", "minimum_variance", &from_returns);
    let [few, _, _, many] = from_returns;
    for (what, metric) in [("hcaa_shortfall", "expected_shortfall"), ("hcaa_drawdown", "conditional_drawdown_risk")] {
        hcaa_accounts(what, metric, std::slice::from_ref(&few));
        hcaa_accounts(what, metric, std::slice::from_ref(&many));
    }
    covariance_texts(&mut rng);
    roots(&mut rng);
    price_texts(&mut rng);
}
