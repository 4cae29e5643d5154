//! The job text of documents 01 and 02, its listing and its sheets, read and written here from their words alone, and the source's allocators between.
use crate::rules::{self, Handed};
use nalgebra::DMatrix;
use openquant::api::{self, Account, Beside, Distance, Due, HcaaAccount, Linkage, Refused};
use std::cmp::Ordering;

/// "Text of at most 65,536 bytes (else 9)".
const MOST_BYTES: usize = 65_536;

/// What is printed of a job: its listing; document 02, request 13: its sheet; and the sheet for a person, indented and with names.
#[derive(Clone, Copy)]
pub enum Form {
    Listing,
    Sheet,
    NamedSheet,
}

pub const FORMS: [Form; 3] = [Form::Listing, Form::Sheet, Form::NamedSheet];

impl Form {
    /// What holds all that is printed so: 11 where there is less.
    pub const fn room(self) -> usize {
        match self {
            Form::Listing | Form::Sheet => 8192,
            Form::NamedSheet => 32_768,
        }
    }

    pub const fn name(self) -> &'static str {
        match self {
            Form::Listing => "listing",
            Form::Sheet => "sheet",
            Form::NamedSheet => "sheet with names",
        }
    }
}

/// A job in each form.
pub struct Printed([Vec<u8>; FORMS.len()]);

/// A job whose text is well formed; names of a linkage, a distance or a metric may yet be unknown.
struct Job<'a> {
    plan: Plan<'a>,
    names: Vec<&'a [u8]>,
    /// Whether its cells are prices, a row for each day, or a covariance.
    priced: bool,
    rows: usize,
    cells: Vec<f64>,
    /// Document 02, request 10: "Each asset's record gains a ceiling in millionths", where the first line says so.
    ceilings: Option<Vec<u32>>,
}

/// What a first line says beyond its plan.
#[derive(Clone, Copy)]
struct Block {
    priced: bool,
    ceiled: bool,
}

enum Plan<'a> {
    Hrp { distance: &'a [u8] },
    Hcaa { metric: &'a [u8], linkage: &'a [u8], distance: &'a [u8], clusters: Option<usize> },
}

struct Answer {
    rows: Vec<usize>,
    order: Vec<usize>,
    weights: Vec<f64>,
}

fn fields(line: &[u8]) -> Vec<&[u8]> {
    line.split(|&b| b == b'\t').collect()
}

/// The number of 1 to so many digits.
fn digits(field: &[u8], most: usize) -> Option<usize> {
    let formed = (1..=most).contains(&field.len()) && field.iter().all(u8::is_ascii_digit);
    formed.then(|| field.iter().fold(0, |n, b| n * 10 + (b - b'0') as usize))
}

/// "clusters (1 to 9 digits, or `-` for all)": the count, `None` for all.
fn clusters(field: &[u8]) -> Option<Option<usize>> {
    if field == b"-" {
        return Some(None);
    }
    digits(field, 9).map(Some)
}

/// Document 02, request 8: for prices the first line "gains a last field `prices`"; request 10: with ceilings it says "`ceilings` as the last field".
fn block(last: &[&[u8]]) -> Option<Block> {
    match last {
        [] => Some(Block { priced: false, ceiled: false }),
        [b"prices"] => Some(Block { priced: true, ceiled: false }),
        [b"ceilings"] => Some(Block { priced: false, ceiled: true }),
        [b"prices", b"ceilings"] => Some(Block { priced: true, ceiled: true }),
        _ => None,
    }
}

/// "First line: `hrp` and distance; or `hcaa`, metric, linkage, distance, clusters", and after these what `block` reads.
fn plan(line: &[u8]) -> Option<(Plan<'_>, Block)> {
    match fields(line)[..] {
        [b"hrp", distance, ref last @ ..] => Some((Plan::Hrp { distance }, block(last)?)),
        [b"hcaa", metric, linkage, distance, count, ref last @ ..] => {
            Some((Plan::Hcaa { metric, linkage, distance, clusters: clusters(count)? }, block(last)?))
        }
        _ => None,
    }
}

/// "a name of 1 to 16 bytes 21 to 7e hex, not `order` or `refused`".
fn is_name(field: &[u8]) -> bool {
    let plain = field.iter().all(|b| (0x21..=0x7e).contains(b));
    (1..=16).contains(&field.len()) && plain && field != b"order" && field != b"refused"
}

/// "each cell 16 lower-case hex digits".
fn bits(field: &[u8]) -> Option<f64> {
    if field.len() != 16 {
        return None;
    }
    let digit = |b: u8| match b {
        b'0'..=b'9' => Some((b - b'0') as u64),
        b'a'..=b'f' => Some((b - b'a' + 10) as u64),
        _ => None,
    };
    field.iter().try_fold(0, |bits, &b| Some(bits << 4 | digit(b)?)).map(f64::from_bits)
}

/// "an optional minus, digits, an optional point with digits after it, up to 15 digits in all, at least one before the point": the double nearest to it.
fn decimal(field: &[u8]) -> Option<f64> {
    let bare = field.strip_prefix(b"-").unwrap_or(field);
    let parts: Vec<&[u8]> = bare.split(|&b| b == b'.').collect();
    let digits = |part: &&[u8]| !part.is_empty() && part.iter().all(u8::is_ascii_digit);
    let count: usize = parts.iter().map(|part| part.len()).sum();
    let formed = parts.len() <= 2 && parts.iter().all(digits) && count <= 15;
    formed.then(|| String::from_utf8_lossy(field).parse().expect("a decimal"))
}

/// "A cell of 16 lower-case hex digits keeps its old meaning, and a decimal can never have that form."
fn cell(field: &[u8]) -> Option<f64> {
    bits(field).or_else(|| decimal(field))
}

fn name(field: &[u8]) -> Option<&[u8]> {
    is_name(field).then_some(field)
}

/// "15 for a ceiling that isn't 1 to 7 digits or is above 1,000,000".
fn ceiling(field: &[u8]) -> Option<u32> {
    digits(field, 7).filter(|&n| n <= 1_000_000).map(|n| n as u32)
}

/// "Then per asset: a name .. and its covariance row": as many cells as there are assets. With ceilings "each asset's line then ends with its ceiling".
fn covariance<'a>(plan: Plan<'a>, ceiled: bool, lines: &[&'a [u8]]) -> Option<Job<'a>> {
    let mut job = Job { plan, names: Vec::new(), priced: false, rows: lines.len(), cells: Vec::new(), ceilings: ceiled.then(Vec::new) };
    for line in lines {
        let mut fields = fields(line);
        if let Some(ceilings) = &mut job.ceilings {
            ceilings.push(ceiling(fields.pop()?)?);
        }
        if fields.len() != lines.len() + 1 {
            return None;
        }
        job.names.push(name(fields[0])?);
        for field in &fields[1..] {
            job.cells.push(cell(field)?);
        }
    }
    Some(job)
}

/// One for each name, on the line after the names.
fn line_of_ceilings(line: &[u8], names: usize) -> Option<Vec<u32>> {
    let ceilings = fields(line).into_iter().map(ceiling).collect::<Option<Vec<_>>>()?;
    (ceilings.len() == names).then_some(ceilings)
}

/// Document 02, request 8: "a line of names, then one line of cells for each day"; request 10: "a line of ceilings follows the names".
fn prices<'a>(plan: Plan<'a>, ceiled: bool, lines: &[&'a [u8]]) -> Option<Job<'a>> {
    let (first, mut days) = lines.split_first()?;
    let names = fields(first).into_iter().map(name).collect::<Option<Vec<_>>>()?;
    let mut ceilings = None;
    if ceiled {
        let (line, rest) = days.split_first()?;
        ceilings = Some(line_of_ceilings(line, names.len())?);
        days = rest;
    }
    let mut cells = Vec::new();
    for day in days {
        let fields = fields(day);
        if fields.len() != names.len() {
            return None;
        }
        for field in fields {
            cells.push(cell(field)?);
        }
    }
    Some(Job { plan, names, priced: true, rows: days.len(), cells, ceilings })
}

/// "lines ended by a newline, fields parted by tabs"; what a first line says, and its block.
fn read(text: &[u8]) -> Option<Job<'_>> {
    let lines: Vec<&[u8]> = text.strip_suffix(b"\n")?.split(|&b| b == b'\n').collect();
    let (plan, Block { priced, ceiled }) = plan(lines[0])?;
    if priced {
        prices(plan, ceiled, &lines[1..])
    } else {
        covariance(plan, ceiled, &lines[1..])
    }
}

fn distance_named(name: &[u8]) -> Result<Distance, u8> {
    api::distance_named(&String::from_utf8_lossy(name))
}

impl Job<'_> {
    /// The matrix that the allocator is handed, or "the allocator's 9 for over 64 assets or 4,096 cells".
    fn matrix(&self) -> Result<DMatrix<f64>, u8> {
        let columns = self.names.len();
        let handed = |given| Handed { given, rows: self.rows, columns, len: self.cells.len() };
        rules::account(columns, &[handed(self.priced), handed(false), handed(!self.priced)], &[], |_| [])?;
        Ok(DMatrix::from_row_slice(self.rows, columns, &self.cells))
    }

    /// "Such a job keeps every day, shrinks nothing".
    fn hrp(&self, distance: Distance) -> Result<Answer, u8> {
        let cells = self.matrix()?;
        let account = Account {
            assets: self.names.len(),
            prices: self.priced.then_some(&cells),
            returns: None,
            covariance: (!self.priced).then_some(&cells),
            resample_by: None,
            use_shrinkage: false,
            distance,
        };
        api::hrp_allocate(&account).map(|a| Answer { rows: a.rows, order: a.order, weights: a.weights })
    }

    /// "estimates by `mean` and uses the double nearest 0.05 as confidence". A covariance has no return rows: 4 by Sharpe, 16 by the tail-risk metrics.
    fn hcaa(&self, metric: &[u8], linkage: Linkage, distance: Distance, clusters: Option<usize>) -> Result<Due<Answer>, u8> {
        let cells = self.matrix()?;
        let due = api::hcaa_due(&HcaaAccount {
            assets: self.names.len(),
            prices: self.priced.then_some(&cells),
            returns: None,
            covariance: (!self.priced).then_some(&cells),
            expected: None,
            metric: &String::from_utf8_lossy(metric),
            method: "mean",
            confidence: 0.05,
            clusters,
            resample_by: None,
            distance,
            linkage,
        });
        Ok(Due { answer: due.answer.map(|a| Answer { rows: a.rows, order: a.order, weights: a.weights }), beside: due.beside })
    }

    /// "8, 7, the allocator's".
    fn allocated(&self) -> Result<Due<Answer>, u8> {
        match self.plan {
            Plan::Hrp { distance } => Ok(Due { answer: Ok(self.hrp(distance_named(distance)?)?), beside: Beside::Same }),
            Plan::Hcaa { metric, linkage, distance, clusters } => {
                let linkage = api::linkage_named(&String::from_utf8_lossy(linkage))?;
                self.hcaa(metric, linkage, distance_named(distance)?, clusters)
            }
        }
    }
}

/// A weight's exact value times 1,000,000: its whole part, and the fraction left over, which is digits times 2 to the power of -down.
struct Exact {
    whole: u32,
    digits: u128,
    down: u32,
}

/// 13 where the weight "is NaN, below 0 or above 1".
fn exact(weight: f64) -> Result<Exact, u8> {
    if !(0.0..=1.0).contains(&weight) {
        return Err(13);
    }
    let (exponent, fraction) = ((weight.to_bits() >> 52 & 0x7ff) as u32, weight.to_bits() & ((1 << 52) - 1));
    // The weight is mantissa times 2 to the power of -down.
    let (mantissa, down) = if exponent == 0 { (fraction, 1074) } else { (fraction | 1 << 52, 1075 - exponent) };
    let times = mantissa as u128 * 1_000_000;
    if down >= 128 {
        return Ok(Exact { whole: 0, digits: times, down });
    }
    Ok(Exact { whole: (times >> down) as u32, digits: times & ((1 << down) - 1), down })
}

/// Which of two fractions is larger: by the place of the highest binary digit, then by the digits.
fn compared(a: &Exact, b: &Exact) -> Ordering {
    let high = |x: &Exact| if x.digits == 0 { i32::MIN } else { 128 - x.digits.leading_zeros() as i32 - x.down as i32 };
    high(a).cmp(&high(b)).then_with(|| {
        let shared = a.down.min(b.down);
        let (up_a, up_b) = (b.down - shared, a.down - shared);
        (a.digits << up_a.min(127)).cmp(&(b.digits << up_b.min(127)))
    })
}

/// "the whole part of its exact value times 1,000,000; −0 is 0"; document 02, request 3: "give one more millionth each to the assets with the largest
/// fractions left over, the lower asset number first on a tie, until the total is 1,000,000"; "18, after 13, when the missing amount is below 0 or above
/// the asset count".
fn millionths(weights: &[f64]) -> Result<Vec<u32>, u8> {
    let parts = weights.iter().map(|&weight| exact(weight)).collect::<Result<Vec<_>, _>>()?;
    let mut whole: Vec<u32> = parts.iter().map(|part| part.whole).collect();
    let total: u32 = whole.iter().sum();
    let missing = 1_000_000u32.checked_sub(total).ok_or(18)? as usize;
    if missing > weights.len() {
        return Err(18);
    }
    let mut assets: Vec<usize> = (0..weights.len()).collect();
    assets.sort_by(|&i, &j| compared(&parts[j], &parts[i])); // a stable sort: the lower number first on a tie
    for &asset in &assets[..missing] {
        whole[asset] += 1;
    }
    Ok(whole)
}

/// Document 02, request 10: "cut every asset to its ceiling, then hand the cut total out in asset order, each one filled up to its ceiling"; "20, after 18,
/// exactly when no list of whole millionths, none above its ceiling, totals one million".
fn under(ceilings: &[u32], mut parts: Vec<u32>) -> Result<Vec<u32>, u8> {
    if ceilings.iter().sum::<u32>() < 1_000_000 {
        return Err(20);
    }
    let mut cut = 0;
    for (part, &ceiling) in parts.iter_mut().zip(ceilings) {
        cut += part.saturating_sub(ceiling);
        *part = ceiling.min(*part);
    }
    for (part, &ceiling) in parts.iter_mut().zip(ceilings) {
        let more = cut.min(ceiling - *part);
        *part += more;
        cut -= more;
    }
    Ok(parts)
}

/// "name, weight bits, millionths, then the leaf order"; "where ceilings are given", each is "a fourth field".
fn listing(job: &Job, answer: &Answer, parts: &[u32]) -> Vec<u8> {
    let mut out = Vec::new();
    for (asset, (weight, part)) in answer.weights.iter().zip(parts).enumerate() {
        let ceiling = job.ceilings.as_ref().map_or_else(String::new, |ceilings| format!("\t{}", ceilings[asset]));
        out.extend_from_slice(job.names[asset]);
        out.extend_from_slice(format!("\t{:016x}\t{part}{ceiling}\n", weight.to_bits()).as_bytes());
    }
    out.extend_from_slice(b"order");
    for &asset in &answer.order {
        out.push(b'\t');
        out.extend_from_slice(job.names[asset]);
    }
    out.push(b'\n');
    out
}

/// A node's line: how many nodes are above it, its leaves, their millionths, and the name of an asset.
#[derive(Clone, Copy)]
struct Line<'a> {
    depth: usize,
    size: usize,
    subtotal: u32,
    name: Option<&'a [u8]>,
}

/// "a line per node from the root down, left first": the lines of a node and of those below it. "each branch's subtotal is the sum of its two children's".
fn branch<'a>(names: &[&'a [u8]], rows: &[usize], parts: &[u32], node: usize, depth: usize) -> Vec<Line<'a>> {
    let n = names.len();
    if node < n {
        return vec![Line { depth, size: 1, subtotal: parts[node], name: Some(names[node]) }];
    }
    let row = 2 * (node - n);
    let [left, right] = [rows[row], rows[row + 1]].map(|child| branch(names, rows, parts, child, depth + 1));
    let (size, subtotal) = (left[0].size + right[0].size, left[0].subtotal + right[0].subtotal);
    [vec![Line { depth, size, subtotal, name: None }], left, right].concat()
}

/// "depth, size, subtotal of the listing's millionths, tabs between".
fn sheet(lines: &[Line]) -> Vec<u8> {
    lines.iter().flat_map(|line| format!("{}\t{}\t{}\n", line.depth, line.size, line.subtotal).into_bytes()).collect()
}

/// The same two spaces further in for each node above, and a leaf's line with a tab and the asset's name at its end.
fn named_sheet(lines: &[Line]) -> Vec<u8> {
    let mut out = Vec::new();
    for &Line { depth, size, subtotal, name } in lines {
        out.extend(vec![b' '; 2 * depth]);
        out.extend_from_slice(format!("{depth}\t{size}\t{subtotal}").as_bytes());
        if let Some(name) = name {
            out.push(b'\t');
            out.extend_from_slice(name);
        }
        out.push(b'\n');
    }
    out
}

/// 13, 18 and 20 are the listing's, whatever is printed.
fn forms(job: &Job, answer: &Answer) -> Result<Printed, Refused> {
    let mut parts = millionths(&answer.weights)?;
    if let Some(ceilings) = &job.ceilings {
        parts = under(ceilings, parts)?;
    }
    let lines = branch(&job.names, &answer.rows, &parts, 2 * job.names.len() - 2, 0);
    Ok(Printed([listing(job, answer, &parts), sheet(&lines), named_sheet(&lines)]))
}

/// "a refusal prints `refused`, tab, number"
pub fn refusal_line(number: u8) -> Vec<u8> {
    format!("refused\t{number}\n").into_bytes()
}

/// "Order: 9, 15, 8, 7, the allocator's, 13", and document 02's 18 and 20.
fn answered(text: &[u8]) -> Result<Due<Printed>, u8> {
    if text.len() > MOST_BYTES {
        return Err(9);
    }
    let job = read(text).ok_or(15)?;
    let Due { answer, beside } = job.allocated()?;
    Ok(Due { answer: answer.and_then(|answer| forms(&job, &answer)), beside })
}

/// All that is printed of a text, or its refusal; and how the unchanged source's allocator answers beside the one that document 02 expects.
pub fn printed(text: &[u8]) -> Due<Printed> {
    answered(text).unwrap_or_else(|number| Due { answer: Err(number.into()), beside: Beside::Same })
}

/// The millionths of a text's job before ceilings, where there are any.
pub fn figures(text: &[u8]) -> Option<Vec<u32>> {
    let answer = read(text)?.allocated().ok()?.answer.ok()?;
    millionths(&answer.weights).ok()
}

/// What a call for one form is due, of what is printed of its text: 11 comes after the text's 9 and before the rest.
pub fn due<'a>(text: &[u8], form: Form, rooms: [usize; 2], printed: &'a Result<Printed, Refused>) -> Result<&'a [u8], u8> {
    if text.len() <= MOST_BYTES && (rooms[0] < form.room() || rooms[1] < 1) {
        return Err(11);
    }
    printed.as_ref().map(|Printed(forms)| &forms[form as usize][..]).map_err(|refused| refused.number)
}

#[cfg(test)]
mod tests {
    use super::{ceiling, cell, decimal, due, figures, millionths, printed, under, Form, FORMS};
    use crate::random::Random;

    /// The number, or 0, and what is printed, in buffers of just the size that is needed.
    fn said_as(form: Form, text: &str) -> (u8, String) {
        let text = text.as_bytes();
        match due(text, form, [form.room(), 1], &printed(text).answer) {
            Ok(made) => (0, String::from_utf8(made.into()).unwrap()),
            Err(number) => (number, String::new()),
        }
    }

    /// The number, or 0, and the listing.
    fn said(text: &str) -> (u8, String) {
        said_as(Form::Listing, text)
    }

    fn number(text: &str) -> u8 {
        said(text).0
    }

    /// Document 01's job, with other clusters.
    fn job(clusters: &str) -> String {
        format!(
            "hcaa\tequal_weighting\tsingle\tcorrelation\t{clusters}
A\t3ff0000000000000\t3fe0000000000000\t0000000000000000
B\t3fe0000000000000\t3ff0000000000000\t0000000000000000
C\t0000000000000000\t0000000000000000\t3ff0000000000000
"
        )
    }

    fn worked(clusters: &str) -> (u8, String) {
        said(&job(clusters))
    }

    #[test]
    fn the_job_that_is_worked() {
        let due = "A\t3fd0000000000000\t250000\nB\t3fd0000000000000\t250000\nC\t3fe0000000000000\t500000\norder\tC\tA\tB\n";
        assert_eq!(worked("-"), (0, due.into()));
        assert_eq!(worked("2"), (0, due.into()));
        let third = "3fd5555555555555";
        assert_eq!(worked("1"), (0, format!("A\t{third}\t333334\nB\t{third}\t333333\nC\t{third}\t333333\norder\tC\tA\tB\n")));
        assert_eq!(worked("0"), (6, String::new()));
        assert_eq!(worked("4"), (6, String::new()));
        assert_eq!(worked("0000000002"), (15, String::new()));
    }

    #[test]
    fn its_sheets() {
        let sheets = |text: &str| [said_as(Form::Sheet, text).1, said_as(Form::NamedSheet, text).1];
        let [plain, named] = sheets(&job("-"));
        assert_eq!(plain, "0\t3\t1000000\n1\t1\t500000\n1\t2\t500000\n2\t1\t250000\n2\t1\t250000\n");
        assert_eq!(named, "0\t3\t1000000\n  1\t1\t500000\tC\n  1\t2\t500000\n    2\t1\t250000\tA\n    2\t1\t250000\tB\n");
        // Of the listing's millionths, and below a cut too.
        assert_eq!(sheets(&job("1"))[0], "0\t3\t1000000\n1\t1\t333333\n1\t2\t666667\n2\t1\t333334\n2\t1\t333333\n");
        let one = "hrp\tcorrelation\nSIXTEEN-LETTERS-\t2.5\n";
        assert_eq!(sheets(one), ["0\t1\t1000000\n", "0\t1\t1000000\tSIXTEEN-LETTERS-\n"]);
    }

    /// A job by its covariance with the first of these ceilings.
    fn ceiled(job: &str, ceilings: &[&str]) -> String {
        let lasts = [&["ceilings"], ceilings].concat();
        job.lines().zip(lasts).map(|(line, last)| format!("{line}\t{last}\n")).collect()
    }

    #[test]
    fn a_job_with_ceilings() {
        let (quarter, half) = ("3fd0000000000000", "3fe0000000000000");
        let rows = |a: &str, b: &str, c: &str| format!("A\t{quarter}\t{a}\nB\t{quarter}\t{b}\nC\t{half}\t{c}\norder\tC\tA\tB\n");
        for (ceilings, due) in [
            (["1000000"; 3], rows("250000\t1000000", "250000\t1000000", "500000\t1000000")),
            (["250000", "0250000", "500000"], rows("250000\t250000", "250000\t250000", "500000\t500000")),
            (["300000", "0300000", "400000"], rows("300000\t300000", "300000\t300000", "400000\t400000")),
            (["300000", "1000000", "400000"], rows("300000\t300000", "300000\t1000000", "400000\t400000")),
            (["1000000", "1000000", "0400000"], rows("350000\t1000000", "250000\t1000000", "400000\t400000")),
            (["0000000", "1", "999999"], rows("0\t0", "1\t1", "999999\t999999")),
            (["0", "00", "1000000"], rows("0\t0", "0\t0", "1000000\t1000000")),
        ] {
            assert_eq!(said(&ceiled(&job("-"), &ceilings)), (0, due), "{ceilings:?}");
        }
        // The sheet is of the millionths after ceilings.
        let sheet = |ceilings: [&str; 3]| said_as(Form::Sheet, &ceiled(&job("1"), &ceilings)).1;
        assert_eq!(sheet(["1000000"; 3]), said_as(Form::Sheet, &job("1")).1);
        assert_eq!(sheet(["333333", "1000000", "300000"]), "0\t3\t1000000\n1\t1\t300000\n1\t2\t700000\n2\t1\t333333\n2\t1\t366667\n");
        for ceilings in [["0"; 3], ["333333"; 3], ["0", "0", "999999"], ["499999", "500000", "0"]] {
            for form in FORMS {
                assert_eq!(said_as(form, &ceiled(&job("-"), &ceilings)), (20, String::new()));
            }
        }
        assert_eq!(figures(ceiled(&job("-"), &["0"; 3]).as_bytes()), Some(vec![250_000, 250_000, 500_000]));
    }

    /// The same as each millionth that is cut off given to the first who has room for it, and 20 where nobody has.
    #[test]
    fn millionths_under_ceilings() {
        let mut rng = Random::new(10);
        for round in 0..200 {
            let n = 1 + rng.below(6);
            let parts = crate::ceilings::parts(&mut rng, n, 1_000_000);
            let ceilings: Vec<u32> =
                parts.iter().map(|&part| (part + rng.below(900) as u32).saturating_sub(round).min(1_000_000)).collect();
            let mut due: Vec<u32> = parts.iter().zip(&ceilings).map(|(&part, &ceiling)| part.min(ceiling)).collect();
            while due.iter().sum::<u32>() < 1_000_000 {
                let Some(asset) = (0..n).find(|&i| due[i] < ceilings[i]) else { break };
                due[asset] += 1;
            }
            let full = due.iter().sum::<u32>() == 1_000_000;
            assert_eq!(under(&ceilings, parts.clone()), if full { Ok(due) } else { Err(20) }, "{parts:?} {ceilings:?}");
        }
    }

    #[test]
    fn ceilings() {
        for (w, due) in
            [("0", 0), ("7", 7), ("0000000", 0), ("0000012", 12), ("100000", 100_000), ("0999999", 999_999), ("1000000", 1_000_000)]
        {
            assert_eq!(ceiling(w.as_bytes()), Some(due), "{w}");
        }
        let none = ["", "-", "-0", "+1", "1.0", ".5", "5.", "1e5", " 1", "1 ", "1\r", "1,0", "1_0", "0x1", "a", "/", ":", "\u{661}"];
        for w in none.iter().chain(&["00000000", "01000000", "1000001", "9999999", "10000000", "4294967297", "3ff0000000000000"]) {
            assert_eq!(ceiling(w.as_bytes()), None, "{w}");
        }
    }

    #[test]
    fn places_of_ceilings() {
        for (text, due) in [
            ("hrp\tcorrelation\tceilings\nA\t1\t1000000\n", 0),
            ("hrp\tcorrelation\tceilings\nA\t1\t999999\n", 20),
            ("hrp\tcorrelation\tceilings\nA\t1\t1000001\n", 15),
            ("hrp\tcorrelation\tceilings\nA\t1\n", 15),
            ("hrp\tcorrelation\tceilings\nA\n", 15),
            ("hrp\tcorrelation\tceilings\nA\t1\t1000000\t1000000\n", 15),
            ("hrp\tcorrelation\tceilings\nA\t1000000\t1\n", 20),
            ("hrp\tcorrelation\tceilings\nA\t1\t0\t500000\nB\t0\t1\t500000\n", 0),
            ("hrp\tcorrelation\tceilings\nA\t1\t0\t500000\nB\t0\t1\n", 15),
            ("hrp\tcorrelation\nA\t1\t1000000\n", 15),
            ("hrp\tcorrelation\tceilings\n", 1),
            ("hrp\tcorrelation\tceilings\n1000000\nA\t1\n", 15),
            // Its first line.
            ("hrp\tceilings\nA\t1\n", 7),
            ("hrp\tceilings\nA\t1\t1000000\n", 15),
            ("hrp\tceilings\tceilings\nA\t1\t0\n", 7),
            ("hrp\tcorrelation\tCeilings\nA\t1\t1000000\n", 15),
            ("hrp\tcorrelation\tceiling\nA\t1\t1000000\n", 15),
            ("hrp\tcorrelation\tceilings\t\nA\t1\t1000000\n", 15),
            ("hrp\tcorrelation\tceilings\tceilings\nA\t1\t1000000\n", 15),
            ("hrp\tcorrelation\tceilings\tprices\nA\n1000000\n1\n2\n1\n", 15),
            ("hcaa\tequal_weighting\tward\tcorrelation\tceilings\nA\t1\t1000000\n", 15),
            ("hcaa\tequal_weighting\tward\tcorrelation\t-\tceilings\nA\t1\t1000000\n", 0),
            ("hcaa\tequal_weighting\tward\tcorrelation\tceilings\t-\nA\t1\t1000000\n", 15),
            // Prices.
            ("hrp\tcorrelation\tprices\tceilings\nA\n1000000\n1\n2\n1\n", 0),
            ("hrp\tcorrelation\tprices\tceilings\nA\n0999999\n1\n2\n1\n", 20),
            ("hrp\tcorrelation\tprices\tceilings\nA\n01000000\n1\n2\n1\n", 15),
            ("hrp\tcorrelation\tprices\tceilings\nA\n1\n2\n1\n", 1),
            ("hrp\tcorrelation\tprices\tceilings\n", 15),
            ("hrp\tcorrelation\tprices\tceilings\nA\n", 15),
            ("hrp\tcorrelation\tprices\tceilings\nA\n1000000\n", 1),
            ("hrp\tcorrelation\tprices\tceilings\nA\n1000000\t0\n1\n2\n1\n", 15),
            ("hrp\tcorrelation\tprices\tceilings\nA\tB\n1000000\n1\t2\n2\t1\n1\t4\n", 15),
            ("hrp\tcorrelation\tprices\tceilings\nA\tB\n1000000\t0\n1\t2\n2\t1\n1\t4\n", 0),
            ("hrp\tcorrelation\tprices\tceilings\n1000000\nA\n1\n2\n1\n", 15),
            ("hrp\tcorrelation\tprices\nA\n1000000\n1\n2\n1\n", 0),
            // Before 20.
            ("hcaa\tx\tx\tx\t-\tceilings\nA\t1\t0\n", 8),
            ("hcaa\tx\tward\tx\t-\tceilings\nA\t1\t0\n", 7),
            ("hcaa\tx\tward\tcorrelation\t-\tceilings\nA\t1\t0\n", 2),
            ("hcaa\tequal_weighting\tward\tcorrelation\t2\tceilings\nA\t1\t0\n", 6),
            ("hcaa\tsharpe_ratio\tward\tcorrelation\t-\tceilings\nA\t1\t0\n", 4),
            ("hcaa\texpected_shortfall\tward\tcorrelation\t-\tceilings\nA\t1\t0\n", 16),
            ("hrp\tcorrelation\tceilings\nA\t0\t0\n", 1),
        ] {
            assert_eq!(number(text), due, "{text:?}");
        }
    }

    #[test]
    fn refusals_of_every_form() {
        let far = "7ff0000000000000";
        let nans = format!("hrp\tcorrelation\nA\t1\t{far}\t0\t0\nB\t{far}\t1\t0\t0\nC\t0\t0\t1\t0\nD\t0\t0\t0\t1\n");
        let tiny = "000730d67819e8d2";
        let lost = format!("hcaa\tminimum_variance\tsingle\tcorrelation\t1\nA\t{tiny}\t0\nB\t0\t{tiny}\n");
        let over = "\n".repeat(65_537);
        // Where nobody may hold anything, 20 comes after both.
        let [nothing_nans, nothing_lost] = [&nans, &lost].map(|text| ceiled(text, &["0"; 4]));
        let texts = [
            (&over[..], 9),
            ("", 15),
            ("hcaa\tx\tx\tx\t-\n", 8),
            ("hrp\tx\n", 7),
            ("hrp\tcorrelation\n", 1),
            (&nans, 13),
            (&nothing_nans, 13),
            (&lost, 18),
            (&nothing_lost, 18),
            ("hrp\tcorrelation\tceilings\nA\t1\t0\n", 20),
        ];
        for form in FORMS {
            for (text, number) in texts {
                assert_eq!(said_as(form, text), (number, String::new()));
            }
            for (text, number) in [(&over[..], 9), ("", 11), (&nans, 11)] {
                for rooms in [[form.room() - 1, 1], [form.room(), 0], [0, 0]] {
                    assert_eq!(due(text.as_bytes(), form, rooms, &printed(text.as_bytes()).answer), Err(number));
                }
            }
        }
    }

    #[test]
    fn weights_in_millionths() {
        let tiny = f64::from_bits(1);
        let below = f64::from_bits(1f64.to_bits() - 1);
        let twice = f64::from_bits(2);
        for (weights, due) in [
            (vec![1.0], vec![1_000_000]),
            (vec![-0.0, 1.0], vec![0, 1_000_000]),
            (vec![0.25, 0.25, 0.5], vec![250_000, 250_000, 500_000]),
            (vec![1.0 / 3.0; 3], vec![333_334, 333_333, 333_333]),
            (vec![1.0 / 3.0, 2.0 / 3.0], vec![333_333, 666_667]),
            (vec![tiny, below], vec![0, 1_000_000]),
            (vec![tiny, twice, 0.999_999], vec![0, 1, 999_999]),
            (vec![0.999_998, 1e-6, twice, twice], vec![999_999, 1, 0, 0]),
            (vec![1.0 / 7.0; 7], vec![142_858, 142_857, 142_857, 142_857, 142_857, 142_857, 142_857]),
            (vec![1.0 / 64.0; 64], vec![15_625; 64]),
        ] {
            assert_eq!(millionths(&weights), Ok(due), "{weights:?}");
        }
        for weights in [vec![], vec![0.0], vec![1.0, 1.0], vec![0.5, 0.25]] {
            assert_eq!(millionths(&weights), Err(18), "{weights:?}");
        }
        for weight in [f64::NAN, -5e-324, 1.0 + f64::EPSILON, f64::INFINITY] {
            assert_eq!(millionths(&[0.0, weight]), Err(13));
        }
    }

    #[test]
    fn readings() {
        for text in ["", "\n", "hrp\tcorrelation", "HRP\tcorrelation\n", "hrp\n", "hrp\tcorrelation\t\n", "hrp\tcorrelation\n\n"] {
            assert_eq!(number(text), 15, "{text:?}");
        }
        assert_eq!(number("hrp\tcorrelation\n"), 1);
        assert_eq!(number("hrp\tCorrelation\r\n"), 7);
        assert_eq!(number("hcaa\tx\t\tx\t-\n"), 8);
        assert_eq!(number("hcaa\tx\tward\tx\t-\n"), 7);
        assert_eq!(number("hcaa\tx\tward\tcorrelation\t-\n"), 2);
        assert_eq!(number("hcaa\texpected_shortfall\tward\tcorrelation\t-\n"), 1);
        // 16 is before 6, and a variance of 0 after both.
        for (count, variance) in [("-", "3ff0000000000000"), ("0", "3ff0000000000000"), ("2", "0000000000000000")] {
            for metric in ["expected_shortfall", "conditional_drawdown_risk"] {
                assert_eq!(number(&format!("hcaa\t{metric}\tward\tcorrelation\t{count}\nA\t{variance}\n")), 16);
            }
        }
        assert_eq!(number("hcaa\tsharpe_ratio\tward\tcorrelation\t-\n"), 1);
        assert_eq!(number("hcaa\tsharpe_ratio\tward\tcorrelation\t0\nA\t3ff0000000000000\n"), 4);
        assert_eq!(number("hrp\tcorrelation\nA\t3ff0000000000000\n"), 0);
        assert_eq!(number("hrp\tcorrelation\norder\t3ff0000000000000\n"), 15);
        assert_eq!(number("hrp\tcorrelation\nA\t3FF0000000000000\n"), 15);
        // Four assets whose weights are NaN.
        let far = "7ff0000000000000";
        let (one, none) = ("3ff0000000000000", "0000000000000000");
        let rows = [[one, far, none, none], [far, one, none, none], [none, none, one, none], [none, none, none, one]];
        let rows: String = rows.iter().map(|r| format!("a\t{}\n", r.join("\t"))).collect();
        assert_eq!(number(&format!("hrp\tcorrelation\n{rows}")), 13);
    }

    /// Of the whole multiples of the last binary digit's place, which is 2 to the power of -down, none is nearer to digits over 10^places.
    fn is_nearest(x: f64, digits: u128, places: u32) -> bool {
        let (exponent, fraction) = ((x.to_bits() >> 52 & 0x7ff) as u32, x.to_bits() & ((1 << 52) - 1));
        let (mantissa, down) = ((fraction | 1 << 52) as u128, 1075 - exponent);
        let tens = 10u128.pow(places);
        let (exact, read) = (digits << (down + 1), 2 * mantissa * tens);
        // A power of two has a nearer neighbour below it.
        let width = if fraction == 0 && exact < read { tens / 2 } else { tens };
        let off = exact.abs_diff(read);
        off < width || off == width && fraction & 1 == 0
    }

    #[test]
    fn decimals() {
        let mut rng = Random::new(8);
        for _ in 0..1_000_000 {
            let (count, digits) = (1 + rng.below(15), 1 + rng.bits() % 999_999_999_999_999);
            let digits = 1 + digits % 10u64.pow(count as u32).saturating_sub(1);
            let places = rng.below(count);
            let whole = format!("{digits:0count$}");
            let (front, back) = whole.split_at(count - places);
            let text = if back.is_empty() { front.to_owned() } else { format!("{front}.{back}") };
            let x = decimal(text.as_bytes()).unwrap();
            assert!(is_nearest(x, digits as u128, places as u32), "{text}");
            assert_eq!(decimal(format!("-{text}").as_bytes()), Some(-x));
        }
    }

    #[test]
    fn cells() {
        let bits = |w: &str| cell(w.as_bytes()).map(f64::to_bits);
        for (w, due) in [
            ("0", 0.0),
            ("-0", -0.0),
            ("-0.00", -0.0),
            ("007.50", 7.5),
            ("-12.5", -12.5),
            ("0.05", 0.05),
            ("999999999999999", 999_999_999_999_999.0),
            ("0.00000000000001", 1e-14),
            ("3ff0000000000000", 1.0),
            ("1234567890123456", f64::from_bits(0x1234_5678_9012_3456)),
            ("0000000000000000", 0.0),
            ("000000000000000", 0.0),
            ("-000000000000000", -0.0),
        ] {
            assert_eq!(bits(w), Some(due.to_bits()), "{w}");
        }
        let none = [
            "", "-", ".", "-.", ".5", "-.5", "5.", "-5.", "+1", "--1", "1-", "1e3", "1E3", "1.2.3", "1..2", " 1", "1 ", "1\r", "1,5",
            "1_0", "0x1",
        ];
        let long = [
            "12345678901234567",
            "-1234567890123456",
            "123456789.0123456",
            "0.000000000000000",
            "3FF0000000000000",
            "3ff000000000000",
            "nan",
            "inf",
        ];
        for w in none.iter().chain(&long) {
            assert_eq!(bits(w), None, "{w}");
        }
    }

    #[test]
    fn decimals_for_hex() {
        let text = "hcaa\tequal_weighting\tsingle\tcorrelation\t-\nA\t1\t0.5\t0\nB\t0.50\t1.0\t-0\nC\t0\t0.0\t3ff0000000000000\n";
        assert_eq!(said(text), worked("-"));
    }

    #[test]
    fn prices() {
        let days = "A\tB\n1\t2\n2\t1\n1\t4.0\n";
        let (number_of, listing) = said(&format!("hrp\tcorrelation\tprices\n{days}"));
        assert_eq!((number_of, listing.lines().count()), (0, 3));
        for metric in ["minimum_variance", "sharpe_ratio", "expected_shortfall", "conditional_drawdown_risk"] {
            assert_eq!(number(&format!("hcaa\t{metric}\tward\tcorrelation\t-\tprices\n{days}")), 0);
        }
        for (text, due) in [
            ("hrp\tprices\n", 7),
            ("hrp\tprices\tprices\nA\n1\n", 7),
            ("hrp\tprices\tprices\nA\n1\t2\n", 15),
            ("hrp\tprices\tcorrelation\nA\n1\n", 15),
            ("hrp\tcorrelation\tprices\tprices\nA\n1\n", 15),
            ("hrp\tcorrelation\tPrices\nA\n1\n", 15),
            ("hrp\tcorrelation\tprices\n", 15),
            ("hrp\tcorrelation\tprices\n\n", 15),
            ("hrp\tcorrelation\tprices\nA", 15),
            ("hrp\tcorrelation\tprices\nA\torder\n", 15),
            ("hrp\tcorrelation\tprices\nA\n", 1),
            ("hrp\tcorrelation\tprices\nA\n1\n", 1),
            ("hrp\tcorrelation\tprices\nA\n1\n2\n", 1),
            ("hrp\tcorrelation\tprices\nA\n1\n2\n1\n", 0),
            ("hrp\tcorrelation\tprices\nA\n1\n-0.0\n1\n", 1),
            ("hrp\tcorrelation\tprices\nA\n1\n2\n1", 15),
            ("hcaa\tx\tx\tx\tprices\nA\n1\n", 15),
            ("hcaa\tx\tx\tx\t-\tprices\nA\n1\n", 8),
            ("hcaa\tx\tward\tx\t-\tprices\nA\n1\n", 7),
            ("hcaa\tx\tward\tcorrelation\t-\tprices\nA\n1\n", 2),
            ("hcaa\tequal_weighting\tward\tcorrelation\t2\tprices\nA\n1\n2\n1\n", 6),
        ] {
            assert_eq!(number(text), due, "{text:?}");
        }
    }

    #[test]
    fn limits() {
        let line = |cell: &str, n: usize| format!("{}\n", vec![cell; n].join("\t"));
        let days = |head: &str, n: usize, days: usize| number(&format!("{head}\tprices\n{}{}", line("A", n), line("1", n).repeat(days)));
        // Prices that do not move have no variance.
        for (n, rows, due) in [(64, 64, 1), (65, 0, 9), (65, 1, 9), (64, 65, 9), (1, 4096, 1), (1, 4097, 9), (2, 2049, 9)] {
            assert_eq!(days("hrp\tcorrelation", n, rows), due, "{n} {rows}");
            assert_eq!(days("hrp\tx", n, rows), 7);
            assert_eq!(days("hcaa\tx\tx\tx\t-", n, rows), 8);
        }
        let covariance = |n: usize| number(&format!("hrp\tcorrelation\n{}", format!("A\t{}", line("1", n)).repeat(n)));
        assert_eq!((covariance(64), covariance(65)), (0, 9));
        // With ceilings of 1 each.
        let ceiled = |n: usize| number(&format!("hrp\tcorrelation\tceilings\n{}", format!("A\t{}", line("1", n + 1)).repeat(n)));
        assert_eq!((ceiled(64), ceiled(65)), (20, 9));
    }
}
