//! `compare SEED COUNT [FIRST]`: hands so many cases, each made from the seed and its own number, to our library and to the Rust, and says where they
//! disagree. The status is 1 where they do.
use compare::case::{shrunk, Case, Desk, Listed};
use compare::hcaa::Hcaa;
use compare::hrp::Hrp;
use compare::listing::{Listing, KINDS};
use compare::mirror::{Mirrors, HEADINGS};
use compare::random::Random;
use compare::steps::{Covariance, Leaves, Merge, Roots};
use std::collections::BTreeMap;
use std::fmt::Display;
use std::process::ExitCode;
use std::sync::atomic::{AtomicU64, Ordering};

/// The case that is being played, for the words of a panic or a crash.
static AT: AtomicU64 = AtomicU64::new(0);

extern "C" {
    fn signal(number: i32, handler: extern "C" fn(i32)) -> usize;
}

/// A library that is killed by a signal (illegal instruction, trap, abort, bus, arithmetic, segment) is not left without a word.
extern "C" fn crashed(number: i32) {
    eprintln!("case {}: signal {number}", AT.load(Ordering::Relaxed));
    std::process::exit(3);
}

fn catch_crashes() {
    for number in [4, 5, 6, 7, 8, 11] {
        // The handler only says where it was, and ends the run.
        unsafe { signal(number, crashed) };
    }
}

/// How many disagreeing cases are made smaller.
const SHRINKS: usize = 40;

struct Smallest {
    size: usize,
    text: String,
}

#[derive(Default)]
struct Tally {
    /// How many cases of each call ended with each number.
    ends: BTreeMap<(&'static str, u8), u64>,
    /// How many accepted cases of each call and linkage are of each heading.
    mirrors: BTreeMap<(&'static str, usize), [u64; HEADINGS.len()]>,
    /// Cases in which the Rust differs as listed: by a signalling NaN, and by the tail-risk rules in all and by each of them.
    signalling: u64,
    tail_risk: u64,
    halves: u64,
    minus_nans: u64,
    confidences: u64,
    disagree: u64,
    shrinks: usize,
    smallest: Option<Smallest>,
}

impl Tally {
    fn play<C: Case>(&mut self, seed: u64, at: u64, rng: &mut Random, desk: &mut Desk) {
        let case = C::make(rng);
        let junk = rng.bits();
        let judged = case.judge(desk, &mut Random::new(junk));
        *self.ends.entry((case.kind(), judged.number)).or_default() += 1;
        if judged.number == 0 {
            case.mirrors().iter().for_each(|mirrors| self.note(C::NAME, mirrors));
        }
        match judged.listed {
            Listed::No => {}
            Listed::Signalling => self.signalling += 1,
            Listed::TailRisk(met) => {
                self.tail_risk += 1;
                self.halves += met.half as u64;
                self.minus_nans += met.minus_nan as u64;
                self.confidences += met.confidence as u64;
            }
        }
        if judged.verdict.is_err() {
            self.disagree += 1;
            self.keep(case, desk, seed, at, junk);
        }
    }

    fn note(&mut self, call: &'static str, mirrors: &Mirrors) {
        let row = self.mirrors.entry((call, mirrors.linkage as usize)).or_default();
        row[mirrors.given as usize] += 1;
        row[HEADINGS.len() - 1] += mirrors.distances.unequal() as u64;
    }

    /// The smallest that was found, made smaller still.
    fn keep<C: Case>(&mut self, case: C, desk: &mut Desk, seed: u64, at: u64, junk: u64) {
        self.shrinks += 1;
        let case = if self.shrinks <= SHRINKS { shrunk(case, desk, junk) } else { case };
        let size = case.size();
        if self.smallest.as_ref().is_some_and(|s| s.size <= size) {
            return;
        }
        if let Err(why) = case.judge(desk, &mut Random::new(junk)).verdict {
            let text = format!("{}: {why}\n{}(made smaller from case {at} of seed {seed})\n", C::NAME, case.show());
            self.smallest = Some(Smallest { size, text });
        }
    }

    fn tell_mirrors(&self) {
        println!(
            "accepted, by where the given covariance or distances (2 assets or more) differ from their mirror; last, how often the merge step's \
             distances do"
        );
        table_line("", &HEADINGS);
        for call in [Hrp::NAME, Hcaa::NAME, Merge::NAME] {
            for (&(_, linkage), row) in self.mirrors.iter().filter(|((name, _), _)| *name == call) {
                let linkage = ["single", "complete", "average", "ward"][linkage];
                table_line(&format!("{call} by {linkage}"), row);
            }
        }
    }

    fn tell(&self, count: u64) {
        let calls = [Hrp::NAME, Hcaa::NAME, Covariance::NAME, Merge::NAME, Leaves::NAME, Roots::NAME];
        for name in calls.into_iter().chain(KINDS) {
            let ends: Vec<(u8, u64)> = self.ends.iter().filter(|((call, _), _)| *call == name).map(|(&(_, end), &n)| (end, n)).collect();
            let refused: String = ends.iter().filter(|(end, _)| *end > 0).map(|(end, n)| format!(" {end}:{n}")).collect();
            let done: u64 = ends.iter().filter(|(end, _)| *end == 0).map(|(_, n)| n).sum();
            println!("{name}: {done} accepted{}{refused}", if refused.is_empty() { "" } else { ", refused" });
        }
        self.tell_mirrors();
        if let Some(smallest) = &self.smallest {
            print!("the smallest that disagrees\n{}", smallest.text);
        }
        println!(
            "where the Rust differs as docs/DIFFERENCES.md lists: {} by a signalling NaN lent to the merge step, {} by the tail-risk rules (a half in {}, \
             a NaN with a minus sign in {}, a clamped confidence in {})",
            self.signalling, self.tail_risk, self.halves, self.minus_nans, self.confidences
        );
        println!("{count} cases, {} disagree", self.disagree);
    }
}

fn table_line<T: Display>(name: &str, cells: &[T]) {
    let cells: String = cells.iter().map(|cell| format!("{cell:>12}")).collect();
    println!("{name:28}{cells}");
}

/// Cases that do not depend on those before them.
fn start(seed: u64, at: u64) -> Random {
    let mut rng = Random::new(seed.wrapping_add(at.wrapping_mul(0xd134_2543_de82_ef95)));
    Random::new(rng.bits())
}

fn main() -> ExitCode {
    let words: Vec<u64> = std::env::args().skip(1).map(|w| w.parse().expect("a number")).collect();
    let (&[seed, count] | &[seed, count, _]) = &words[..] else { panic!("compare SEED COUNT [FIRST]") };
    let first = words.get(2).copied().unwrap_or(0);
    let usual = std::panic::take_hook();
    std::panic::set_hook(Box::new(move |what| {
        eprintln!("case {} of seed {seed}:", AT.load(Ordering::Relaxed));
        usual(what);
    }));
    catch_crashes();
    let mut tally = Tally::default();
    let mut desk = Desk::default();
    for at in first..first + count {
        AT.store(at, Ordering::Relaxed);
        let mut rng = start(seed, at);
        match rng.below(106) {
            0..=24 => tally.play::<Hrp>(seed, at, &mut rng, &mut desk),
            25..=57 => tally.play::<Hcaa>(seed, at, &mut rng, &mut desk),
            58..=69 => tally.play::<Merge>(seed, at, &mut rng, &mut desk),
            70..=77 => tally.play::<Leaves>(seed, at, &mut rng, &mut desk),
            78..=81 => tally.play::<Roots>(seed, at, &mut rng, &mut desk),
            82..=99 => tally.play::<Listing>(seed, at, &mut rng, &mut desk),
            _ => tally.play::<Covariance>(seed, at, &mut rng, &mut desk),
        }
    }
    tally.tell(count);
    ExitCode::from((tally.disagree != 0) as u8)
}
