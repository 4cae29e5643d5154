//! Slices that are handed over: inputs, which have to stay as they are, and lent buffers, which are full of junk before each call.
use crate::random::Random;

/// Why two answers differ, in words.
pub type Verdict = Result<(), String>;

/// What slices are made of.
pub trait Entry: Copy + Default {
    /// Anything but zero.
    fn junk(bits: u64) -> Self;
    fn bits(self) -> u64;
    /// The bits that are due where the source answers this.
    fn due(self) -> u64 {
        self.bits()
    }
}

impl Entry for f64 {
    fn junk(bits: u64) -> Self {
        f64::from_bits(bits | 1)
    }

    fn bits(self) -> u64 {
        self.to_bits()
    }

    /// "An answer that is NaN has the bits 7ff8000000000000; against the Rust any NaN matches any other."
    fn due(self) -> u64 {
        if self.is_nan() {
            0x7ff8_0000_0000_0000
        } else {
            self.to_bits()
        }
    }
}

impl Entry for usize {
    fn junk(bits: u64) -> Self {
        bits as usize | 1
    }

    fn bits(self) -> u64 {
        self as u64
    }
}

impl Entry for u8 {
    fn junk(bits: u64) -> Self {
        bits as u8 | 1
    }

    fn bits(self) -> u64 {
        self as u64
    }
}

fn same<T: Entry>(a: &[T], b: &[T]) -> bool {
    a.len() == b.len() && a.iter().zip(b).all(|(x, y)| x.bits() == y.bits())
}

/// A copy of an input. A slice of no entries is a null pointer, which is not to be read.
#[derive(Default)]
pub struct Input<T>(Vec<T>);

impl<T: Entry> Input<T> {
    pub fn set(&mut self, cells: &[T]) {
        self.0.clear();
        self.0.extend_from_slice(cells);
    }

    pub fn at(&self) -> *const T {
        if self.0.is_empty() {
            std::ptr::null()
        } else {
            self.0.as_ptr()
        }
    }

    pub fn len(&self) -> usize {
        self.0.len()
    }

    pub fn is_empty(&self) -> bool {
        self.0.is_empty()
    }

    pub fn unchanged(&self, what: &str, cells: &[T]) -> Verdict {
        if same(&self.0, cells) {
            Ok(())
        } else {
            Err(format!("the input {what} was changed"))
        }
    }
}

/// How many entries stand before a lent buffer, and after it.
const GUARD: usize = 8;

/// A lent buffer between two guards.
#[derive(Default)]
pub struct Lent<T> {
    cells: Vec<T>,
    guards: Vec<T>,
    len: usize,
}

impl<T: Entry> Lent<T> {
    /// A buffer of so many entries, nothing but junk.
    pub fn dirty(&mut self, len: usize, rng: &mut Random) {
        self.len = len;
        self.cells.clear();
        self.cells.extend(std::iter::repeat_with(|| T::junk(rng.bits())).take(len + 2 * GUARD));
        self.guards.clear();
        self.guards.extend_from_slice(&self.cells[..GUARD]);
        self.guards.extend_from_slice(&self.cells[GUARD + len..]);
    }

    pub fn at(&mut self) -> *mut T {
        if self.len == 0 {
            std::ptr::null_mut()
        } else {
            self.cells[GUARD..].as_mut_ptr()
        }
    }

    pub fn len(&self) -> usize {
        self.len
    }

    pub fn is_empty(&self) -> bool {
        self.len == 0
    }

    fn entries(&self) -> &[T] {
        &self.cells[GUARD..GUARD + self.len]
    }

    /// The answer, then zeros; and the guards as they were.
    pub fn holds(&self, what: &str, answer: &[T]) -> Verdict {
        let entries = self.entries();
        if entries.len() < answer.len() {
            return Err(format!("{what}: {} entries answered into {}", answer.len(), entries.len()));
        }
        let (ours, rest) = entries.split_at(answer.len());
        if let Some(i) = (0..ours.len()).find(|&i| ours[i].bits() != answer[i].due()) {
            return Err(format!("{what}[{i}] is {:x}, should be {:x}", ours[i].bits(), answer[i].due()));
        }
        if let Some(i) = rest.iter().position(|x| x.bits() != 0) {
            let at = answer.len() + i;
            return Err(format!("{what}[{at}] of {} is {:x}, should be zero", self.len, rest[i].bits()));
        }
        let (front, back) = self.guards.split_at(GUARD);
        if !same(&self.cells[..GUARD], front) || !same(&self.cells[GUARD + self.len..], back) {
            return Err(format!("{what}: written outside"));
        }
        Ok(())
    }
}

/// The refusal's number, or 0.
pub fn number(ours: u8, theirs: u8) -> Verdict {
    if ours == theirs {
        Ok(())
    } else {
        Err(format!("answered {ours}, should be {theirs}"))
    }
}

pub fn hex(cells: &[f64]) -> String {
    cells.iter().map(|x| format!(" {:016x}", x.to_bits())).collect()
}
