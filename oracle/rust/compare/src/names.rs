//! Names: as the source writes them, in any case, and spoiled.
use crate::random::Random;

/// Any letter in either case.
fn cased(rng: &mut Random, name: &str) -> Vec<u8> {
    let mut turn = |b: u8| if rng.below(2) == 0 { b.to_ascii_uppercase() } else { b };
    name.bytes().map(&mut turn).collect()
}

/// A byte lost, added, changed by a bit, or none left.
pub fn spoiled(rng: &mut Random, name: &str) -> Vec<u8> {
    let mut out = name.as_bytes().to_vec();
    let at = rng.below(out.len() + 1);
    match rng.below(6) {
        0 => out.insert(at, rng.pick(b" \t\0aZ_\xff")),
        1 => out.clear(),
        2 => out.truncate(at),
        3 => out = name.repeat(rng.pick(&[2, 40])).into(),
        _ if at < out.len() => out[at] ^= 1 << rng.below(8),
        _ => out.push(b'\r'),
    }
    out
}

/// A name of these: mostly as it is, else in any case, seldom spoiled.
fn named(rng: &mut Random, names: &[&str]) -> Vec<u8> {
    let name = rng.pick(names);
    match rng.below(40) {
        0 => spoiled(rng, name),
        1..=7 => cased(rng, name),
        _ => name.into(),
    }
}

pub fn distance(rng: &mut Random) -> Vec<u8> {
    named(rng, &["correlation", "distance_of_distances"])
}

pub fn linkage(rng: &mut Random) -> Vec<u8> {
    named(rng, &["single", "complete", "average", "ward"])
}

/// Case matters here, so it seldom changes.
pub fn metric(rng: &mut Random) -> Vec<u8> {
    let plain = ["minimum_variance", "minimum_standard_deviation", "sharpe_ratio", "equal_weighting"];
    let tails = ["expected_shortfall", "conditional_drawdown_risk"];
    match rng.below(40) {
        0 => {
            let name = rng.pick(&["equal_weighting", "expected_shortfall"]);
            spoiled(rng, name)
        }
        1 => named(rng, &plain),
        2 => named(rng, &tails),
        3..=16 => rng.pick(&tails).into(),
        _ => rng.pick(&plain).into(),
    }
}

pub fn method(rng: &mut Random) -> Vec<u8> {
    named(rng, &["mean", "mean", "exponential", "exponential", "median"])
}

/// Mostly none.
pub fn sampling(rng: &mut Random) -> Vec<u8> {
    match rng.below(3) {
        0 => named(rng, &["w", "week", "weekly", "m", "month", "monthly", "daily"]),
        _ => Vec::new(),
    }
}
