//! Job texts to listings, and to sheets without names and with them.
use crate::buffers::{number, Verdict};
use crate::case::{weight_of_rooms, Case, Desk, Judged};
use crate::ours::{rovignesc_listing, rovignesc_refusal_line, rovignesc_sheet};
use crate::random::Random;
use crate::sheet::{self, Form, Printed, FORMS};
use crate::texts;
use openquant::api::Refused;

/// What texts are called: by whether their first line ends in `prices`, and in `ceilings` after that or alone.
pub const KINDS: [&str; 4] = [Listing::NAME, "listing of prices", "listing with ceilings", "listing of prices with ceilings"];

#[derive(Clone)]
pub struct Listing {
    text: Vec<u8>,
    /// Of each form, and of its count.
    rooms: [[usize; 2]; FORMS.len()],
    /// What asks for names: anything but 0.
    named: u8,
}

/// Just what is needed.
const EXACT: [[usize; 2]; FORMS.len()] = [[FORMS[0].room(), 1], [FORMS[1].room(), 1], [FORMS[2].room(), 1]];

/// Seldom too little.
fn rooms(rng: &mut Random, form: Form) -> [usize; 2] {
    let need = form.room();
    match rng.below(60) {
        0 => rng.pick(&[[need - 1, 1], [0, 1], [10, 1], [need, 0], [0, 0]]),
        _ => [need + rng.pick(&[0, 0, 1, 9, 500]), 1 + rng.below(3)],
    }
}

/// The line of a number, in a buffer that is long enough, just enough, or one too short: then 11, and zeros.
fn line_of(refusal: u8, desk: &mut Desk, junk: &mut Random) -> Verdict {
    let line = sheet::refusal_line(refusal);
    let room = line.len() + junk.pick(&[0, 1, 7]) - 1;
    let due = if room < line.len() { 11 } else { 0 };
    desk.listing.dirty(room, junk);
    desk.count.dirty(1, junk);
    // The slices are the desk's own, and none of them overlaps another.
    let ours = unsafe { rovignesc_refusal_line(refusal, desk.listing.at(), desk.listing.len(), desk.count.at(), desk.count.len()) };
    let written = if due == 0 { line } else { Vec::new() };
    let count = Some(written.len()).filter(|&len| len > 0);
    number(ours, due)
        .and_then(|()| desk.listing.holds("the refusal's line", &written))
        .and_then(|()| desk.count.holds("its bytes", count.as_slice()))
}

impl Listing {
    /// The call for a form, in the desk's buffers.
    fn call(&self, form: Form, desk: &mut Desk) -> u8 {
        let (text, bytes) = (desk.bytes[0].at(), desk.bytes[0].len());
        let (out, room) = (desk.listing.at(), desk.listing.len());
        let (count, counts) = (desk.count.at(), desk.count.len());
        // The slices are the desk's own, and none of them overlaps another.
        unsafe {
            match form {
                Form::Listing => rovignesc_listing(text, bytes, out, room, count, counts),
                Form::Sheet => rovignesc_sheet(text, bytes, 0, out, room, count, counts),
                Form::NamedSheet => rovignesc_sheet(text, bytes, self.named, out, room, count, counts),
            }
        }
    }

    /// A form as our library prints it, into junk, held to what is due.
    fn held(&self, form: Form, theirs: &Result<Printed, Refused>, desk: &mut Desk, junk: &mut Random) -> Verdict {
        let rooms = self.rooms[form as usize];
        let due = sheet::due(&self.text, form, rooms, theirs);
        let written = due.unwrap_or_default();
        let count = Some(written.len()).filter(|&len| len > 0);
        desk.bytes[0].set(&self.text);
        desk.listing.dirty(rooms[0], junk);
        desk.count.dirty(rooms[1], junk);
        number(self.call(form, desk), due.err().unwrap_or(0))
            .and_then(|()| desk.listing.holds("what is printed", written))
            .and_then(|()| desk.count.holds("bytes", count.as_slice()))
            .and_then(|()| desk.bytes[0].unchanged("text", &self.text))
            .map_err(|why| format!("{}: {why}", form.name()))
    }
}

impl Case for Listing {
    const NAME: &'static str = "listing";

    fn kind(&self) -> &'static str {
        let first = self.text.split(|&b| b == b'\n').next().unwrap_or_default();
        let bare = first.strip_suffix(b"\tceilings");
        let priced = bare.unwrap_or(first).ends_with(b"\tprices");
        KINDS[2 * bare.is_some() as usize + priced as usize]
    }

    fn make(rng: &mut Random) -> Self {
        let text = texts::text(rng);
        let rooms = FORMS.map(|form| rooms(rng, form));
        Self { text, rooms, named: rng.pick(&[1, 1, 1, 2, 128, 255]) }
    }

    fn judge(&self, desk: &mut Desk, junk: &mut Random) -> Judged {
        let theirs = sheet::printed(&self.text);
        let due = sheet::due(&self.text, Form::Listing, self.rooms[0], &theirs.answer).err().unwrap_or(0);
        let held = FORMS.iter().try_for_each(|&form| self.held(form, &theirs.answer, desk, junk));
        Judged::beside(due, theirs.beside, held.and_then(|()| line_of(due, desk, junk)))
    }

    fn size(&self) -> usize {
        self.text.len() + weight_of_rooms(&self.rooms.concat(), &EXACT.concat())
    }

    fn show(&self) -> String {
        let hex: String = self.text.iter().map(|b| format!("{b:02x}")).collect();
        format!(
            "text: {} bytes, \"{}\"\nin hex: {hex}\nrooms of listing, sheet, sheet with names, each with that of its bytes: {:?}\nflag of names: {}\n",
            self.text.len(),
            self.text.escape_ascii(),
            self.rooms,
            self.named
        )
    }

    /// No ceilings, a line less, an asset less, a byte less.
    fn smaller(&self) -> Vec<Self> {
        let mut out = vec![Self { rooms: EXACT, ..self.clone() }];
        let lines: Vec<&[u8]> = self.text.split_inclusive(|&b| b == b'\n').collect();
        out.extend(without_ceilings(&lines).map(|text| Self { text, ..*self }));
        let narrow = |k: usize, field: usize| if k == 0 { lines[0].to_vec() } else { without(lines[k], field) };
        for gone in 1..lines.len().min(70) {
            let kept = || (0..lines.len()).filter(move |k| *k != gone);
            out.push(Self { text: kept().flat_map(|k| lines[k].to_vec()).collect(), ..*self });
            out.push(Self { text: kept().flat_map(|k| narrow(k, gone)).collect(), ..*self });
        }
        let columns = lines.get(1).map_or(0, |line| line.split(|&b| b == b'\t').count());
        for gone in 0..columns.min(70) {
            out.push(Self { text: (0..lines.len()).flat_map(|k| narrow(k, gone)).collect(), ..*self });
        }
        if self.text.len() <= 400 {
            out.extend((0..self.text.len()).map(|at| {
                let mut less = self.clone();
                less.text.remove(at);
                less
            }));
        }
        out
    }
}

/// A line without one of its fields.
fn without(line: &[u8], gone: usize) -> Vec<u8> {
    let (cells, end) = line.strip_suffix(b"\n").map_or((line, &b""[..]), |cells| (cells, b"\n"));
    let fields: Vec<&[u8]> = cells.split(|&b| b == b'\t').enumerate().filter(|(k, _)| *k != gone).map(|(_, field)| field).collect();
    [&fields.join(&b'\t')[..], end].concat()
}

/// The text of these lines without ceilings, where the first says that there are some.
fn without_ceilings(lines: &[&[u8]]) -> Option<Vec<u8>> {
    let first = lines.first()?.strip_suffix(b"\tceilings\n")?;
    let rest = lines.iter().enumerate().skip(1);
    let rest: Vec<u8> = if first.ends_with(b"\tprices") {
        rest.filter(|(k, _)| *k != 2).flat_map(|(_, line)| line.to_vec()).collect()
    } else {
        rest.flat_map(|(_, line)| without(line, line.iter().filter(|&&b| b == b'\t').count())).collect()
    };
    Some([first, b"\n", &rest[..]].concat())
}
