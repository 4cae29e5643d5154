//! Ceilings of job texts: of every kind, and damaged.
use crate::random::Random;
use crate::sheet;
use crate::texts::{damage_word, joined, Line};

/// What all ceilings come to at least, or 20; and each at most, or 15.
const WHOLE: u32 = 1_000_000;

/// The same ceiling for all: some percent of the whole, or just enough for all of them, or one less or more.
fn even(rng: &mut Random, n: usize) -> Vec<u32> {
    let enough = WHOLE.div_ceil(n as u32);
    let near = rng.pick(&[enough, enough, enough - 1, enough + 1]);
    let ceiling = if rng.below(3) == 0 { rng.pick(&[20_000, 50_000, 100_000, 250_000, 400_000, 500_000, 999_999]) } else { near };
    vec![ceiling; n]
}

/// So many parts of a total, cut at any places.
pub fn parts(rng: &mut Random, n: usize, total: u32) -> Vec<u32> {
    let mut places: Vec<u32> = (1..n).map(|_| rng.below(total as usize + 1) as u32).collect();
    places.extend([0, total]);
    places.sort_unstable();
    places.windows(2).map(|ends| ends[1] - ends[0]).collect()
}

/// Of any size, or often at an end of what a ceiling may be.
fn any_ceiling(rng: &mut Random) -> u32 {
    match rng.below(4) {
        0 => rng.pick(&[0, 0, 1, 9, 10, 99_999, 100_000, 500_000, 999_999, WHOLE]),
        _ => rng.below(WHOLE as usize + 1) as u32,
    }
}

/// Near a job's own millionths: each within one of them; one of them lower, and the room for it elsewhere, or one less than that; or up to three times each.
fn near(rng: &mut Random, mut figures: Vec<u32>) -> Vec<u32> {
    let n = figures.len();
    match rng.below(4) {
        0 => figures.iter_mut().for_each(|c| *c = (*c + rng.below(3) as u32).saturating_sub(1)),
        1 | 2 => {
            let (from, to) = (rng.below(n), rng.below(n));
            let cut = rng.below(figures[from] as usize + 1) as u32;
            figures[from] -= cut;
            figures[to] += cut.saturating_sub(rng.pick(&[0, 0, 0, 1]));
        }
        _ => figures.iter_mut().for_each(|c| *c = rng.below(3 * *c as usize + 1) as u32),
    }
    figures
}

/// A ceiling for each of so many assets, one or more, of these lines.
fn ceilings(rng: &mut Random, n: usize, lines: &[Line]) -> Vec<u32> {
    match rng.below(16) {
        0 | 1 => vec![WHOLE; n],
        2..=4 => even(rng, n),
        // Nothing for any but one.
        5 => {
            let mut out = vec![0; n];
            out[rng.below(n)] = rng.pick(&[WHOLE, WHOLE, WHOLE, WHOLE - 1]);
            out
        }
        6 | 7 => {
            let total = rng.pick(&[WHOLE - 1, WHOLE, WHOLE, WHOLE + 1]);
            parts(rng, n, total)
        }
        8..=10 => (0..n).map(|_| any_ceiling(rng)).collect(),
        _ => match sheet::figures(&joined(lines)) {
            Some(figures) => near(rng, figures),
            None => even(rng, n),
        },
    }
}

/// Mostly as short as can be; else with zeros before them, all of 7 digits or each of its own length.
fn written(rng: &mut Random, ceilings: &[u32]) -> Line {
    let way = rng.below(8);
    let mut digits = |ceiling: &u32| {
        let width = match way {
            0 => 7,
            1 | 2 => 1 + rng.below(7),
            _ => 1,
        };
        format!("{:0width$}", ceiling.min(&WHOLE)).into_bytes()
    };
    ceilings.iter().map(&mut digits).collect()
}

/// The first line says `ceilings`, and each asset has one: at its line's end or, by prices, in a line after the names.
pub fn put(rng: &mut Random, lines: &mut Vec<Line>) {
    let priced = lines[0].last().is_some_and(|last| last == b"prices");
    let n = if priced { lines[1].len() } else { lines.len() - 1 };
    let made = if n > 0 { ceilings(rng, n, lines) } else { Vec::new() };
    let made = written(rng, &made);
    lines[0].push(b"ceilings".to_vec());
    if priced {
        lines.insert(2, made);
    } else {
        lines[1..].iter_mut().zip(made).for_each(|(line, ceiling)| line.push(ceiling));
    }
}

/// Forms that are no ceiling's, and some that look so and are one's.
const ODD: [&[u8]; 44] = [
    b"",
    b"-",
    b"-1",
    b"-0",
    b"+1",
    b"+500000",
    b"0.5",
    b"5.0",
    b"5.",
    b".5",
    b"1e5",
    b" 1",
    b"1 ",
    b"1\r",
    b"\r1",
    b"1,000",
    b"100_000",
    b"10%",
    b"0x1",
    b"a",
    b"1f",
    // Next to the digits.
    b"/",
    b":",
    b"1:",
    b"\xd9\xa1",
    // Digits: 8 and more, some that are small; 7 that are too large; a cell's.
    b"00000000",
    b"00000001",
    b"00500000",
    b"01000000",
    b"10000000",
    b"100000000",
    b"4294967297",
    b"18446744073709551617",
    b"1000001",
    b"1000010",
    b"2000000",
    b"9999999",
    b"3ff0000000000000",
    // Ceilings.
    b"0",
    b"0000000",
    b"0000001",
    b"0999999",
    b"999999",
    b"1000000",
];

/// The line's last field is gone; where that was all, the line is empty.
fn lose(line: &mut Line) {
    line.pop();
    if line.is_empty() {
        line.push(Vec::new());
    }
}

/// Ceilings where the other kind of job has them, or on another side of what they stand beside.
fn misplace(rng: &mut Random, lines: &mut Vec<Line>, priced: bool) {
    match (priced, rng.below(3)) {
        (true, 0) => {
            let ceilings = lines.remove(2);
            lines[1..].iter_mut().zip(ceilings).for_each(|(line, ceiling)| line.push(ceiling));
        }
        // After the days, or before the names.
        (true, 1) => lines[2..].rotate_left(1),
        (true, _) => lines.swap(1, 2),
        (false, 0) => {
            let ceilings = lines[1..].iter_mut().filter_map(Vec::pop).collect();
            lines.insert(1, ceilings);
        }
        // Right after the name, or before it.
        (false, way) => lines[1..].iter_mut().for_each(|line| line[way - 1..].rotate_right(1)),
    }
}

/// A ceiling is another, missing or one too many, in one line or in all; they are elsewhere; or the first line does not say so in its last field.
pub fn damage(rng: &mut Random, lines: &mut Vec<Line>) {
    let priced = lines[0].iter().rev().nth(1).is_some_and(|field| field == b"prices");
    let places = if priced { 2..lines.len().min(3) } else { 1..lines.len() };
    if places.is_empty() || rng.below(4) == 0 {
        return damage_word(rng, &mut lines[0], "ceilings");
    }
    let at = places.start + rng.below(places.len());
    match rng.below(16) {
        0..=6 => {
            let field = if priced { rng.below(lines[at].len()) } else { lines[at].len() - 1 };
            lines[at][field] = rng.pick(&ODD).into();
        }
        7 | 8 => lose(&mut lines[at]),
        9 | 10 => lines[at].push(rng.pick(&["0", "500000", "1000000"]).into()),
        11 if priced => {
            lines.remove(2);
        }
        11 => lines[1..].iter_mut().for_each(lose),
        12 if priced => lines.insert(2, lines[2].clone()),
        12 => lines[1..].iter_mut().for_each(|line| line.push(b"1000000".to_vec())),
        13 | 14 => misplace(rng, lines, priced),
        _ => {
            let last = lines[0].len() - 1;
            lines[0].swap(last - 1, last);
        }
    }
}

#[cfg(test)]
mod tests {
    use super::{damage, put, WHOLE};
    use crate::random::Random;
    use crate::sheet;
    use crate::texts::{by_either, by_prices, damaged, joined, Hand, Line};

    /// The lines of a job with ceilings, and these.
    fn with_ceilings(rng: &mut Random) -> (Vec<Line>, Line) {
        let mut lines = by_either(rng);
        put(rng, &mut lines);
        let priced = lines[0].iter().any(|field| field == b"prices");
        let ceilings = if priced { lines[2].clone() } else { lines[1..].iter().map(|line| line[line.len() - 1].clone()).collect() };
        (lines, ceilings)
    }

    /// How a text ends: its refusal's number, or 0.
    fn end(text: &[u8]) -> u8 {
        sheet::printed(text).answer.err().map_or(0, |refused| refused.number)
    }

    #[test]
    fn every_kind() {
        let mut rng = Random::new(10);
        let mut met = [0; 10];
        for _ in 0..3000 {
            let (lines, written) = with_ceilings(&mut rng);
            let ceilings: Vec<u32> = written.iter().map(|field| String::from_utf8_lossy(field).parse().unwrap()).collect();
            assert!(written.iter().all(|field| field.len() <= 7) && ceilings.iter().all(|&ceiling| ceiling <= WHOLE));
            let (total, text): (u32, _) = (ceilings.iter().sum(), joined(&lines));
            let (number, figures) = (end(&text), sheet::figures(&text).unwrap_or_default());
            let several = ceilings.len() > 1;
            let over = figures.iter().zip(&ceilings).filter(|(figure, ceiling)| figure > ceiling).count();
            let kinds = [
                several && ceilings.iter().all(|&ceiling| ceiling == WHOLE),
                several && ceilings.iter().all(|&ceiling| ceiling == WHOLE.div_ceil(ceilings.len() as u32)),
                several && ceilings.iter().filter(|&&ceiling| ceiling > 0).count() == 1 && total == WHOLE,
                several && total == WHOLE - 1,
                several && total == WHOLE,
                several && ceilings == figures,
                written.iter().any(|field| field.len() > 1 && field[0] == b'0'),
                number == 0 && over > 0,
                number == 0 && over > 1,
                number == 20,
            ];
            met.iter_mut().zip(kinds).for_each(|(count, kind)| *count += kind as usize);
        }
        assert!(met.iter().all(|&count| count >= 15), "{met:?}");
    }

    /// Mostly 15; of no assets, of one and of no days too.
    #[test]
    fn damaged_ones() {
        let mut rng = Random::new(15);
        let mut refused = 0;
        for round in 0..3000 {
            let (mut lines, _) = with_ceilings(&mut rng);
            if round % 10 == 0 {
                lines = by_prices(&mut rng, 1, 0, Hand::Hex);
                put(&mut rng, &mut lines);
            }
            damage(&mut rng, &mut lines);
            refused += (end(&damaged(&mut rng, lines)) == 15) as usize;
        }
        assert!((1800..3000).contains(&refused), "{refused}");
    }
}
