//! Job texts: well formed, and damaged in every way.
use crate::ceilings;
use crate::kinds::{any_tree, filled};
use crate::matrices;
use crate::names;
use crate::random::Random;

pub const MOST_BYTES: usize = 65_536;

/// A line's fields.
pub type Line = Vec<Vec<u8>>;

/// Mostly any bytes that a name may have; else what could be a cell, a count or a first line's word.
fn name(rng: &mut Random) -> Vec<u8> {
    let words: [&[u8]; 10] = [b"prices", b"ceilings", b"hrp", b"-", b"Order", b"3ff0000000000000", b"1", b"1000000", b"-2.50", b"0.5"];
    if rng.below(10) == 0 {
        return rng.pick(&words).into();
    }
    let len = rng.pick(&[1, 1, 2, 3, 4, 8, 15, 16]);
    (0..len).map(|_| 0x21 + rng.below(0x5e) as u8).collect()
}

fn clusters(rng: &mut Random, n: usize) -> String {
    match rng.below(16) {
        0..=6 => "-".into(),
        7 => rng.pick(&["0", "000000001", "999999999", "00"]).into(),
        8 => (n + 1).to_string(),
        9 => format!("{:09}", rng.below(n + 1)),
        _ => (1 + rng.below(n.max(1))).to_string(),
    }
}

/// Without returns a Sharpe ratio is 4 and the tail-risk metrics are 16, so these are not asked for too often.
fn metric(rng: &mut Random, priced: bool) -> Vec<u8> {
    if priced || rng.below(3) == 0 {
        names::metric(rng)
    } else {
        rng.pick(&["equal_weighting", "minimum_variance"]).into()
    }
}

fn first_line(rng: &mut Random, n: usize, priced: bool) -> Line {
    let mut out = if rng.below(3) == 0 {
        vec![b"hrp".to_vec(), names::distance(rng)]
    } else {
        vec![b"hcaa".to_vec(), metric(rng, priced), names::linkage(rng), names::distance(rng), clusters(rng, n).into()]
    };
    if priced {
        out.push(b"prices".to_vec());
    }
    out
}

/// How the cells of a text are written.
#[derive(Clone, Copy)]
pub enum Hand {
    Hex,
    /// Decimals with so many digits after the point.
    Places(usize),
    /// Each cell in its own way, the same double not always in the same.
    Mixed,
    /// Decimals of any digits, whatever the cell.
    Any,
}

fn hand(rng: &mut Random) -> Hand {
    match rng.below(10) {
        0..=2 => Hand::Hex,
        3..=5 => Hand::Places(rng.pick(&[0, 1, 2, 2, 3, 4, 6, 9, 13, 14])),
        6..=8 => Hand::Mixed,
        _ => Hand::Any,
    }
}

const DIGITS: &[u8; 16] = b"0123456789abcdef";

fn hex(x: f64) -> Vec<u8> {
    (0..16).rev().map(|k| DIGITS[(x.to_bits() >> (4 * k) & 15) as usize]).collect()
}

fn digits_in(cell: &[u8]) -> usize {
    cell.iter().filter(|b| b.is_ascii_digit()).count()
}

/// Near to the double, with so many digits after the point or as many as 15 digits leave; hex where it would be too long, or 0 and the double is not.
fn decimal(x: f64, places: usize) -> Vec<u8> {
    let fits = |cell: &String| digits_in(cell.as_bytes()) <= 15 && (x == 0.0 || cell.bytes().any(|b| (b'1'..=b'9').contains(&b)));
    if !x.is_finite() || x.abs() >= 1e15 {
        return hex(x);
    }
    (0..=places).rev().map(|places| format!("{x:.places$}")).find(fits).map_or_else(|| hex(x), String::into_bytes)
}

/// A decimal with a point gets zeros before its first digit, so many or as many as 15 digits leave.
fn with_zeros(mut cell: Vec<u8>, zeros: usize) -> Vec<u8> {
    if cell.contains(&b'.') {
        let (at, room) = (cell.starts_with(b"-") as usize, 15 - digits_in(&cell));
        cell.splice(at..at, vec![b'0'; zeros.min(room)]);
    }
    cell
}

/// Any digits, 1 to 15, a point among them or none; all of one kind, now and then.
fn any_decimal(rng: &mut Random) -> Vec<u8> {
    let (digits, kind) = (1 + rng.below(15), rng.below(40));
    let point = 1 + rng.below(digits);
    let mut out = if rng.below(8) == 0 { b"-".to_vec() } else { Vec::new() };
    for k in 0..digits {
        if k == point {
            out.push(b'.');
        }
        out.push(match kind {
            0 => b'0',
            1 => b'9',
            2..=5 => rng.pick(b"05"),
            _ => b'0' + rng.below(10) as u8,
        });
    }
    out
}

fn cell(rng: &mut Random, hand: Hand, x: f64) -> Vec<u8> {
    match hand {
        Hand::Hex => hex(x),
        Hand::Places(places) => decimal(x, places),
        Hand::Any => any_decimal(rng),
        Hand::Mixed => match rng.below(24) {
            0..=9 => hex(x),
            10 => any_decimal(rng),
            11..=14 => {
                let (places, zeros) = (1 + rng.below(14), 1 + rng.below(14));
                with_zeros(decimal(x, places), zeros)
            }
            _ => decimal(x, 3 + rng.below(12)),
        },
    }
}

/// Rows of any tree: any two nodes joined, one asset after the other put to those before it, or as even as can be.
fn some_tree(rng: &mut Random, n: usize) -> Vec<usize> {
    let mut assets: Vec<usize> = (0..n).collect();
    (1..n).for_each(|i| assets.swap(i, rng.below(i + 1)));
    match rng.below(3) {
        0 => any_tree(rng, n),
        1 => (1..n).flat_map(|k| [assets[k], if k == 1 { assets[0] } else { n + k - 2 }]).collect(),
        _ => (0..2 * n.saturating_sub(1)).map(|k| assets.get(k).copied().unwrap_or(k)).collect(),
    }
}

/// A covariance of variances 1 in which two assets have the less in common the later the row that joins them: by single linkage its tree is that of the rows.
fn joined_by(rows: &[usize], n: usize) -> Vec<f64> {
    let mut cells = vec![1.0; n * n];
    let mut under: Vec<Vec<usize>> = (0..n).map(|asset| vec![asset]).collect();
    for (k, row) in rows.chunks(2).enumerate() {
        let [left, right] = [&under[row[0]], &under[row[1]]];
        for (&i, &j) in left.iter().flat_map(|i| right.iter().map(move |j| (i, j))) {
            cells[i * n + j] = (99 - k) as f64 / 100.0;
            cells[j * n + i] = cells[i * n + j];
        }
        under.push([&left[..], right].concat());
    }
    cells
}

/// The lines of a job by a covariance, its first line given.
fn with_rows(rng: &mut Random, first: Line, n: usize, cells: &[f64], hand: Hand) -> Vec<Line> {
    let mut out = vec![first];
    for row in 0..n {
        let mut line = vec![name(rng)];
        line.extend(cells[row * n..(row + 1) * n].iter().map(|&x| cell(rng, hand, x)));
        out.push(line);
    }
    out
}

/// The lines of a job of so many assets by its covariance.
fn by_covariance(rng: &mut Random, n: usize, hand: Hand) -> Vec<Line> {
    let cells = matrices::a_covariance(rng, n);
    let first = first_line(rng, n, false);
    with_rows(rng, first, n, &cells, hand)
}

/// The lines of a job whose tree is any one of up to 64 assets; by Ward's linkage, or by distances of distances, it may be another.
fn by_tree(rng: &mut Random) -> Vec<Line> {
    let n = match rng.below(3) {
        0 => 64,
        1 => 1 + rng.below(64),
        _ => 1 + rng.below(16),
    };
    let cells = joined_by(&some_tree(rng, n), n);
    let first = if rng.below(3) == 0 {
        first_line(rng, n, false)
    } else {
        let (metric, linkage) = (metric(rng, false), rng.pick(&["single", "complete", "average"]));
        vec![b"hcaa".to_vec(), metric, linkage.into(), b"correlation".to_vec(), clusters(rng, n).into()]
    };
    with_rows(rng, first, n, &cells, Hand::Places(2))
}

/// Prices that go up and down from day to day, or of the kinds that accounts have.
fn prices(rng: &mut Random, days: usize, n: usize) -> Vec<f64> {
    if rng.below(4) == 0 {
        return matrices::prices(rng, days, n);
    }
    let (scale, step) = (rng.pick(&[0.05, 1.0, 1.0, 40.0, 1e6]), rng.pick(&[0.1, 1.0, 4.0]));
    let mut last = filled(n, || scale * rng.price());
    let mut out = Vec::new();
    for _ in 0..days {
        out.extend_from_slice(&last);
        last.iter_mut().for_each(|x| *x *= 1.0 + step * rng.gain());
    }
    out
}

/// The lines of a job of so many assets by its prices.
pub fn by_prices(rng: &mut Random, n: usize, days: usize, hand: Hand) -> Vec<Line> {
    let cells = prices(rng, days, n);
    let mut out = vec![first_line(rng, n, true), (0..n).map(|_| name(rng)).collect()];
    for day in 0..days {
        out.push(cells[day * n..(day + 1) * n].iter().map(|&x| cell(rng, hand, x)).collect());
    }
    out
}

pub fn joined(lines: &[Line]) -> Vec<u8> {
    let mut out = Vec::new();
    for line in lines {
        out.extend(line.join(&b'\t'));
        out.push(b'\n');
    }
    out
}

/// Forms that are no cell's, and some that look so and are one's.
const ODD_CELLS: [&[u8]; 48] = [
    b".5",
    b"5.",
    b"-.5",
    b"-5.",
    b"+1",
    b"+0.5",
    b"1e3",
    b"1E-3",
    b"--1",
    b"1-",
    b"-",
    b"",
    b".",
    b"-.",
    b"1.2.3",
    b"1..2",
    b" 1",
    b"1 ",
    b"- 1",
    b"1\r",
    b"\r1.5",
    b"1,5",
    b"1_000",
    b"0x1",
    b"nan",
    b"inf",
    b"-inf",
    b"1.a",
    b"1f",
    b"\xd9\xa1",
    // Digits: 16 with a point, 16 with a minus, 17, 15 with hex ones, 16 that are upper case.
    b"1234567890.123456",
    b"0.000000000000000",
    b"123456789012345.6",
    b"-1234567890123456",
    b"12345678901234567",
    b"00000000000000000",
    b"3ff000000000000",
    b"3FF0000000000000",
    b"3ff00000000000000",
    b"-3ff0000000000000",
    b"3ff000.000000000",
    // Cells.
    b"1234567890123456",
    b"123456789012345",
    b"-12345678.9012345",
    b"000000000000000",
    b"-000000000000000",
    b"-0",
    b"-0.0",
];

/// A cell of any line but the first becomes another.
fn damage_cell(rng: &mut Random, lines: &mut [Line]) {
    if lines.len() > 1 {
        let line = 1 + rng.below(lines.len() - 1);
        let (at, odd) = (rng.below(lines[line].len().max(1)), rng.pick(&ODD_CELLS));
        if let Some(cell) = lines[line].get_mut(at) {
            *cell = odd.into();
        }
    }
}

/// The first line's names of a linkage and a distance become unknown, one of them or both.
fn damage_names(rng: &mut Random, lines: &mut [Line]) {
    let places: &[usize] = if lines[0].len() > 4 { &[2, 3] } else { &[1] };
    let which = 1 + rng.below(3);
    for (k, &at) in places.iter().enumerate() {
        if which >> k & 1 != 0 && at < lines[0].len() {
            lines[0][at] = rng.pick(&["correlations", "wards", "", "prices", "ceilings", "hrp", "-"]).into();
        }
    }
}

/// A word in another case, with a letter too few or too many, with what is not seen, or not there.
fn misspelled(rng: &mut Random, word: &str) -> Vec<u8> {
    let (first, rest) = word.split_at(1);
    let odd = [
        first.to_uppercase() + rest,
        word.to_uppercase(),
        word[..word.len() - 1].into(),
        format!("{word}s"),
        format!(" {word}"),
        format!("{word} "),
        format!("{word}\r"),
        String::new(),
        "covariance".into(),
    ];
    odd[rng.below(odd.len())].clone().into()
}

/// The first line's last word, `prices` or `ceilings`, is misspelled, elsewhere, twice, gone, or there where no such thing follows.
pub fn damage_word(rng: &mut Random, line: &mut Line, word: &str) {
    match rng.below(8) {
        0..=2 => *line.last_mut().expect("a field") = misspelled(rng, word),
        3 => line.push(misspelled(rng, word)),
        4 => line.push(word.into()),
        5 => {
            line.pop();
        }
        6 => {
            let at = rng.below(line.len());
            line[at] = word.into();
        }
        _ => {
            let (from, to) = (line.len() - 1, rng.below(line.len()));
            line.swap(from, to);
        }
    }
}

/// Something about one line, or the lines, goes wrong.
fn damage_lines(rng: &mut Random, lines: &mut Vec<Line>) {
    let at = rng.below(lines.len());
    let empty: Line = vec![Vec::new()];
    match rng.below(26) {
        0 => lines.insert(at, empty),
        1 => lines.push(empty),
        2 => {
            lines.remove(at);
        }
        3 => {
            let line = lines[at].clone();
            lines.insert(at, line);
        }
        // A cell too few or too many: in one line, in all but the first, in all but the first and the names.
        4 => {
            lines[at].pop();
        }
        5 => lines[at].push(rng.pick(&["1", "0.5", "3ff0000000000000"]).into()),
        6 => {
            let from = 1 + rng.below(2);
            lines.iter_mut().skip(from).for_each(|line| line.push(b"0.5".to_vec()));
        }
        7 => {
            let from = 1 + rng.below(2);
            lines.iter_mut().skip(from).for_each(|line| {
                line.pop();
            });
        }
        8 => {
            lines[at].remove(0);
        }
        9 => lines[at].last_mut().expect("a field").push(b'\r'),
        10 => lines.iter_mut().for_each(|line| line.last_mut().expect("a field").push(b'\r')),
        11 => lines[at].push(Vec::new()),
        12 => lines[at].insert(0, Vec::new()),
        // Names that are none: the first field of a line, or any of the second line.
        13 => {
            let odd: [&[u8]; 10] =
                [b"order", b"refused", b"", b"seventeen-letters", b"sixteen-letters-", b"a b", b"\x7f", b"\x80", b"Order", b"A\r"];
            let line = if rng.below(2) == 0 { at } else { 1.min(lines.len() - 1) };
            let field = if line == 1 { rng.below(lines[1].len()) } else { 0 };
            lines[line][field] = rng.pick(&odd).into();
        }
        // Clusters and other last fields.
        14 => {
            let odd: [&[u8]; 9] = [b"0000000001", b"", b"--", b"-1", b"+1", b" 1", b"1 ", b"a", b"1\t2"];
            let last = lines[0].len() - 1;
            let field = if last > 4 { 4 } else { last };
            lines[0][field] = rng.pick(&odd).into();
        }
        // The first word.
        15 => lines[0][0] = rng.pick(&["HRP", "hrp ", "", "Hcaa", "hcaa", "hrp", "hr"]).into(),
        16 => lines[at] = empty,
        // Nothing after the first line; nothing after the names; no names.
        17 => lines.truncate(1),
        18 => lines.truncate(2),
        19 if lines.len() > 1 => {
            lines.remove(1);
        }
        _ => damage_word(rng, &mut lines[0], "prices"),
    }
}

/// Something about one byte goes wrong.
fn damage_bytes(rng: &mut Random, text: &mut Vec<u8>) {
    if text.is_empty() {
        return;
    }
    let at = rng.below(text.len());
    let odd = rng.pick(b"\t\n\r \0aAfFgG09-+.eE\x20\x21\x7e\x7f\x80\xff/:`");
    match rng.below(9) {
        0 => text[at] = odd,
        1 => text.insert(at, odd),
        2 => {
            text.remove(at);
        }
        3 => text.truncate(at),
        4 => {
            text.pop();
        }
        5 => text[at] = text[at].to_ascii_uppercase(),
        6 | 7 => cut(rng, text),
        _ => text[at] ^= 1 << rng.below(8),
    }
}

/// The text ends before or after one of its newlines, tabs, points or minus signs.
fn cut(rng: &mut Random, text: &mut Vec<u8>) {
    let byte = rng.pick(b"\n\t.-");
    let places: Vec<usize> = (0..text.len()).filter(|&at| text[at] == byte).collect();
    if !places.is_empty() {
        text.truncate(rng.pick(&places) + rng.below(2));
    }
}

/// Zeros after decimals with a point, from a field of each line on, until the text is just within its limit or just over, or no cell has room for more.
fn lengthen(rng: &mut Random, lines: &mut [Line], from: usize) {
    let bytes = MOST_BYTES - 1 + rng.below(4);
    let mut missing = bytes.saturating_sub(joined(lines).len());
    for cell in lines.iter_mut().skip(2).flat_map(|line| line.iter_mut().skip(from)).filter(|cell| cell.contains(&b'.')) {
        let zeros = missing.min(15 - digits_in(cell).min(15));
        cell.resize(cell.len() + zeros, b'0');
        missing -= zeros;
    }
}

/// Names and days at the edges of 64 assets and 4,096 cells.
const EDGES: [(usize, usize); 20] = [
    (64, 64),
    (64, 63),
    (64, 65),
    (64, 3),
    (65, 0),
    (65, 1),
    (65, 3),
    (65, 63),
    (65, 64),
    (63, 65),
    (63, 66),
    (200, 3),
    (1, 4096),
    (1, 4097),
    (2, 2048),
    (2, 2049),
    (4, 1024),
    (4, 1025),
    (1, 9000),
    (3000, 1),
];

/// Of about as many assets, cells or bytes as a text may have: well formed, and often damaged.
fn large(rng: &mut Random, ceiled: bool) -> Vec<u8> {
    let short = Hand::Places(rng.pick(&[0, 1, 2, 3]));
    let kind = rng.below(6);
    let mut lines = match kind {
        0 => {
            let (n, hand) = (rng.pick(&[61, 62, 63, 64, 65]), hand(rng));
            by_covariance(rng, n, hand)
        }
        1 => {
            let n = rng.pick(&[63, 64, 64, 65, 66, 90]);
            by_covariance(rng, n, short)
        }
        2 | 3 => {
            let (n, days) = rng.pick(&EDGES);
            by_prices(rng, n, days, short)
        }
        4 => {
            let n = rng.pick(&[61, 62, 63, 64]);
            by_prices(rng, n, 4000 / n, Hand::Places(2))
        }
        _ => {
            let n = rng.pick(&[63, 64]);
            by_covariance(rng, n, Hand::Places(4))
        }
    };
    if ceiled {
        ceilings::put(rng, &mut lines);
    }
    // Just within 65,536 bytes, or over.
    if kind > 3 {
        lengthen(rng, &mut lines, kind - 4);
    }
    if rng.below(4) == 0 {
        damage_names(rng, &mut lines);
    }
    damaged(rng, lines)
}

/// Texts that are not a job's, about as long as a text may be.
fn long(rng: &mut Random, ceiled: bool) -> Vec<u8> {
    let (word, line) = if ceiled { ("\tceilings", "1000000\n") } else { ("", "") };
    let mut text = match rng.below(4) {
        0 => format!("hrp\tcorrelation{word}\n").into(),
        1 => format!("hrp\tcorrelation\tprices{word}\nA\n{line}1\n2\n").into(),
        2 => vec![b'\n'; 65_000],
        _ => joined(&vec![vec![b"A".to_vec(), b"3ff0000000000000".to_vec()]; 65]),
    };
    text.resize(MOST_BYTES - 1 + rng.below(4), rng.pick(b"\n\t1"));
    text
}

fn noise(rng: &mut Random) -> Vec<u8> {
    let len = rng.below(60);
    let any = rng.below(2) == 0;
    (0..len).map(|_| if any { rng.bits() as u8 } else { rng.pick(b"\t\nhrpcaa0123456789abcdef-.A") }).collect()
}

/// A first line, right or nearly, and after it a few lines of what could be names or cells.
fn scraps(rng: &mut Random, ceiled: bool) -> Vec<u8> {
    let fronts = ["hrp", "hrp\tcorrelation", "hrp\tprices", "hcaa\tequal_weighting\tsingle\tcorrelation", "prices", "hrp\t"];
    let plain = [
        "",
        "\tprices",
        "\tprices\tprices",
        "\t-\tprices",
        "\t1\tprices",
        "\tprices\t-",
        "\t-",
        "\tcorrelation",
        "\t",
        "\tPrices",
        "\tprices ",
    ];
    let with_ceilings = [
        "\tceilings",
        "\tprices\tceilings",
        "\tceilings\tceilings",
        "\tceilings\tprices",
        "\t-\tceilings",
        "\t1\tprices\tceilings",
        "\t-\tceilings\tprices",
        "\tceilings\t-",
        "\tprices\tprices\tceilings",
        "\tCeilings",
        "\tceilings ",
    ];
    let ends = if ceiled { with_ceilings } else { plain };
    let [a, b, c] = if ceiled { ["1000000", "500000", "0600000"] } else { ["7", "2.5", "-3"] };
    let fields = ["A", "B", a, "1", b, c, "0", "4", "3ff0000000000000", "1", "2", "8", "16", "order", "", "5."];
    let most = rng.pick(&[8, 13, 16]);
    let mut text = format!("{}{}\n", rng.pick(&fronts), rng.pick(&ends));
    let wide = 1 + rng.below(3);
    for _ in 0..rng.below(6) {
        let wide = if rng.below(12) == 0 { 1 + rng.below(3) } else { wide };
        let line: Vec<&str> = (0..wide).map(|_| fields[rng.below(most)]).collect();
        text += &format!("{}\n", line.join("\t"));
    }
    text.into()
}

fn assets(rng: &mut Random) -> usize {
    match rng.below(100) {
        0 => rng.below(63),
        1..=6 => rng.below(20),
        7 => 0,
        _ => 1 + rng.below(6),
    }
}

/// Seldom too few; often such that the index of a quantile, by 0.05 or 0.95, is a whole and a half.
fn days(rng: &mut Random) -> usize {
    match rng.below(24) {
        0 => rng.below(4),
        1..=4 => rng.pick(&[11, 12, 31, 32, 51, 52]),
        5 => rng.below(61),
        _ => 3 + rng.below(8),
    }
}

/// The text of these lines, mostly as they are.
pub fn damaged(rng: &mut Random, mut lines: Vec<Line>) -> Vec<u8> {
    if lines[0].last().is_some_and(|last| last == b"ceilings") && rng.below(6) == 0 {
        ceilings::damage(rng, &mut lines);
    }
    if rng.below(7) == 0 {
        damage_lines(rng, &mut lines);
    }
    if rng.below(12) == 0 {
        damage_cell(rng, &mut lines);
    }
    let mut text = joined(&lines);
    if rng.below(8) == 0 {
        damage_bytes(rng, &mut text);
    }
    text
}

/// The lines of a job of few assets, mostly, by a covariance or by prices.
pub fn by_either(rng: &mut Random) -> Vec<Line> {
    let (n, hand) = (assets(rng), hand(rng));
    if rng.below(2) == 0 {
        return by_covariance(rng, n, hand);
    }
    let days = days(rng);
    by_prices(rng, n.max(1), days, hand)
}

/// A third of them with ceilings.
pub fn text(rng: &mut Random) -> Vec<u8> {
    let ceiled = rng.below(3) == 0;
    let kind = rng.below(300);
    let mut lines = match kind {
        0 => return long(rng, ceiled),
        1..=3 => return large(rng, ceiled),
        4..=8 => return noise(rng),
        9..=20 => return scraps(rng, ceiled),
        21..=32 => by_tree(rng),
        _ => by_either(rng),
    };
    if ceiled {
        ceilings::put(rng, &mut lines);
    }
    if kind > 32 && rng.below(40) == 0 {
        damage_names(rng, &mut lines);
    }
    damaged(rng, lines)
}

#[cfg(test)]
mod tests {
    use super::{joined_by, some_tree, text};
    use crate::random::Random;
    use nalgebra::DMatrix;
    use openquant::api::{corr_to_distances, linkage_children, Linkage, Measure};

    /// The merge step finds the tree that a covariance was made of, the smaller id of a row first.
    #[test]
    fn any_tree_is_reached() {
        let mut rng = Random::new(13);
        for n in (1..=64).chain([64; 20]) {
            let rows = some_tree(&mut rng, n);
            let distances = corr_to_distances(Measure::Hcaa, &DMatrix::from_row_slice(n, n, &joined_by(&rows, n)));
            let due: Vec<[usize; 2]> = rows.chunks(2).map(|row| [row[0].min(row[1]), row[0].max(row[1])]).collect();
            for linkage in [Linkage::Single, Linkage::Complete, Linkage::Average] {
                assert_eq!(linkage_children(&distances, linkage), due, "{n} {linkage:?}");
            }
        }
    }

    #[test]
    fn a_third_of_the_texts() {
        let mut rng = Random::new(3);
        let says = |text: &[u8]| text.split(|&b| b == b'\n').next().is_some_and(|line| line.ends_with(b"\tceilings"));
        let count = (0..3000).filter(|_| says(&text(&mut rng))).count();
        assert!((800..1000).contains(&count), "{count}");
    }
}
