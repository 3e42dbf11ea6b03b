//! Gillcurtain: a proved subsetter of OpenType layout subtables.
//!
//! [`subset`] cuts one subtable down to the glyphs and lookups that are kept, or refuses. It asks
//! the system for nothing, keeps nothing between calls and takes no lock. A [`Subsetter`] does the
//! same with scratch that it owns: somewhat faster, and with little stack. [`replay`] replays
//! recorded runs over a list of lookups, and [`replay_cost`] says before what that may cost.
//! [`compare`] lists what differs between two subtables, and a [`Comparer`] does so with scratch that
//! it owns.

use std::fmt;

/// The kinds of subtable.
pub const CONTEXT: u64 = 1;
pub const CHAINED: u64 = 2;
pub const LIGATURE: u64 = 3;
pub const PAIR: u64 = 4;
/// Single substitution.
pub const SINGLE: u64 = 5;

/// The layout of what is kept.
#[derive(Clone, Copy, Debug, Default, PartialEq, Eq)]
pub enum Layout {
    /// No part is shared.
    #[default]
    Plain,
    /// A set with its rules, a coverage or a class table that is equal to an earlier one of its kind
    /// is not written again: the header points to the earlier one. It says the same as the plain
    /// layout, and is never longer.
    Packed,
}

impl Layout {
    /// The mark of the layout.
    fn mark(self) -> u64 {
        match self {
            Layout::Plain => 0,
            Layout::Packed => 1,
        }
    }
}

/// A glyph map in one of its two forms. Numbers have two bytes, big-endian. Both columns, old and
/// new, ascend, from entry to entry too. A map gives the same bytes in either form.
#[derive(Clone, Copy, Debug, PartialEq, Eq)]
pub enum Glyphs<'a> {
    /// Entries of four bytes: the old number and the new one.
    Pairs(&'a [u8]),
    /// Entries of six bytes: first old number, first new number and count, for so many pairs in
    /// step. A count is not 0, and a run goes to 65,535 at most in both columns; all 65,536 glyphs
    /// take two.
    Runs(&'a [u8]),
}

impl<'a> Glyphs<'a> {
    /// The mark of the form.
    fn form(self) -> u64 {
        match self {
            Glyphs::Pairs(_) => 4,
            Glyphs::Runs(_) => 6,
        }
    }

    fn bytes(self) -> &'a [u8] {
        match self {
            Glyphs::Pairs(bytes) | Glyphs::Runs(bytes) => bytes,
        }
    }
}

/// The stack, in bytes, that [`subset`] may use at most: 1.5 MiB. A thread that Rust starts has 2 MiB
/// unless it is asked for less. With too little, the call ends the process at the stack's guard page.
pub const STACK: usize = 3 << 19;

/// The stack, in bytes, that a call of [`Subsetter::new`] may use at most: less than any thread has.
pub const LITTLE_STACK: usize = 1 << 17;

/// The scratch that is enough for any call: so many cells of 32 bits, and so many bytes of area.
const CELLS: usize = 270_338;
const AREA: usize = 655_360;

/// What comes back. Where several refusals apply, the first of them in this order is given.
#[derive(Clone, Copy, Debug, PartialEq, Eq)]
pub enum Answer {
    /// The small subtable has so many bytes, and stands at the front of the buffer.
    Kept(usize),
    BadKind,
    BadGlyphs,
    BadLookups,
    LongSource,
    BadFormat,
    /// The lowest part that is faulty by its own bytes starts at this place of the source, or past
    /// its end where an offset points outside. Parts are the header, at 0, sets, rules, ligatures,
    /// pair sets, coverages and class tables.
    Malformed(usize),
    Device,
    /// A record's sequence index is not below its rule's input count.
    PastRule,
    Nothing,
    /// In this layout.
    TooBig,
    /// The buffer is too short; so many bytes are needed in this layout.
    NoRoom(usize),
}

#[link(name = "gillcurtain", kind = "static")]
extern "C" {
    fn gillcurtain_subset(
        kind: u64,
        form: u64,
        layout: u64,
        source: *const u8,
        source_len: usize,
        glyphs: *const u8,
        glyphs_len: usize,
        lookups: *const u8,
        lookups_len: usize,
        out: *mut u8,
        out_len: usize,
    ) -> u64;

    fn gillcurtain_subset_in(
        kind: u64,
        form: u64,
        layout: u64,
        source: *const u8,
        source_len: usize,
        glyphs: *const u8,
        glyphs_len: usize,
        lookups: *const u8,
        lookups_len: usize,
        cells: *mut u32,
        cells_len: usize,
        area: *mut u8,
        area_len: usize,
        out: *mut u8,
        out_len: usize,
    ) -> u64;
}

#[link(name = "gillcurtain_replay", kind = "static")]
extern "C" {
    fn gillcurtain_replay(
        list: *const u8,
        list_len: usize,
        buffer: *const u8,
        buffer_len: usize,
        trace: *const u8,
        trace_len: usize,
        tally: *mut u8,
        tally_len: usize,
    ) -> u64;
    fn gillcurtain_replay_cost(
        list: *const u8,
        list_len: usize,
        buffer: *const u8,
        buffer_len: usize,
        steps: *mut u8,
        steps_len: usize,
    ) -> u64;
}

#[link(name = "gillcurtain_compare", kind = "static")]
extern "C" {
    fn gillcurtain_compare(
        kind: u64,
        left: *const u8,
        left_len: usize,
        right: *const u8,
        right_len: usize,
        out: *mut u8,
        out_len: usize,
    ) -> u64;

    fn gillcurtain_compare_in(
        kind: u64,
        left: *const u8,
        left_len: usize,
        right: *const u8,
        right_len: usize,
        num: *mut u32,
        num_len: usize,
        nums: *mut u32,
        nums_len: usize,
        heads: *mut u32,
        heads_len: usize,
        links: *mut u32,
        links_len: usize,
        out: *mut u8,
        out_len: usize,
    ) -> u64;
}

/// The number that the bytes have, the highest first.
fn number(bytes: &[u8]) -> u64 {
    bytes.iter().fold(0, |n, &byte| n << 8 | u64::from(byte))
}

/// What comes of a replay.
#[derive(Clone, Copy, Debug, PartialEq, Eq)]
pub struct Replayed {
    /// 0 if all runs were replayed, else the number of the refusal. Before any run that is the first
    /// of 15 (the list), 4, 5, 6, 12 (its first faulty lookup), 16 (the trace) and 17 (a record
    /// names no lookup of the list); 18 ends the replay at a run that goes too deep.
    pub number: u32,
    /// With 6, where the lowest faulty part of the lookup starts; else 0.
    pub place: u64,
    /// How many runs there were, and how many agree.
    pub runs: u64,
    pub agreements: u64,
    /// The first run that does not agree, from 1; 0 if none.
    pub first: u64,
}

/// Replays a recorded trace over a list of lookups. The list has ten bytes a lookup: its kind (1, 2
/// or 5), and start and length of its subtable in `buffer`, in two, four and four bytes. The trace
/// has for each run a count, so many glyphs that went in, and as many that came out, two bytes each.
/// All numbers are big-endian.
///
/// Lookups that call each other can take more steps than anyone waits for, and none of them is
/// refused: ask [`replay_cost`] of a list from an unknown hand, or replay it under a time limit of
/// your own.
pub fn replay(list: &[u8], buffer: &[u8], trace: &[u8]) -> Replayed {
    let mut tally = [0u8; 24];
    // SAFETY: as in `subset`; the tally is this call's own.
    let result = unsafe {
        gillcurtain_replay(
            list.as_ptr(),
            list.len(),
            buffer.as_ptr(),
            buffer.len(),
            trace.as_ptr(),
            trace.len(),
            tally.as_mut_ptr(),
            tally.len(),
        )
    };
    let tallied = |which: usize| number(&tally[8 * which..][..8]);
    let (number, place) = halves(result);
    Replayed {
        number,
        place,
        runs: tallied(0),
        agreements: tallied(1),
        first: tallied(2),
    }
}

/// Where a number of steps is cut off: it says so many or more.
pub const MANY_STEPS: u64 = 1 << 63;

/// What a replay may cost.
#[derive(Clone, Copy, Debug, PartialEq, Eq)]
pub struct Cost {
    /// 0, or the number of the refusal that [`replay`] would give of the list and its lookups.
    pub number: u32,
    /// With 6, where the lowest faulty part of the lookup starts; else 0.
    pub place: u64,
    /// The most lookups that are asked, each at one place, for each glyph that went into the runs.
    pub steps: u64,
}

/// What a replay over this list may cost, told before any run. That is a bound: most runs ask far
/// fewer lookups.
pub fn replay_cost(list: &[u8], buffer: &[u8]) -> Cost {
    let mut steps = [0u8; 8];
    // SAFETY: as in `subset`; the steps are this call's own.
    let result = unsafe {
        gillcurtain_replay_cost(
            list.as_ptr(),
            list.len(),
            buffer.as_ptr(),
            buffer.len(),
            steps.as_mut_ptr(),
            steps.len(),
        )
    };
    let steps = number(&steps);
    let (number, place) = halves(result);
    Cost { number, place, steps }
}

/// Cuts `source`, a subtable of this kind. `lookups` is a map: entries of four bytes, the old number
/// and the new one, both big-endian, with the old numbers ascending. The small subtable is written
/// in this layout. Bytes of `out` after it keep what they held, and a refusal writes nothing.
pub fn subset(
    kind: u64,
    layout: Layout,
    source: &[u8],
    glyphs: Glyphs,
    lookups: &[u8],
    out: &mut [u8],
) -> Answer {
    // SAFETY: each pointer comes with the length of its slice, `out` is lent to nobody else, and
    // nothing is asked of what the bytes are.
    let result = unsafe {
        gillcurtain_subset(
            kind,
            glyphs.form(),
            layout.mark(),
            source.as_ptr(),
            source.len(),
            glyphs.bytes().as_ptr(),
            glyphs.bytes().len(),
            lookups.as_ptr(),
            lookups.len(),
            out.as_mut_ptr(),
            out.len(),
        )
    };
    answer(result)
}

/// Scratch for any number of calls, one after the other. A thread needs a `Subsetter` of its own.
///
/// Most of it is never touched: what a call uses grows with its maps and its result.
#[derive(Clone, Debug)]
pub struct Subsetter {
    cells: Vec<u32>,
    area: Vec<u8>,
}

impl Subsetter {
    /// With scratch that is enough for any call: 1.66 MiB.
    pub fn new() -> Subsetter {
        Subsetter { cells: vec![0; CELLS], area: vec![0; AREA] }
    }

    /// With about so many bytes of scratch. It answers the same; a call for which it is too little
    /// makes scratch of its own on the stack, as [`subset`] does, and may use [`STACK`] bytes.
    pub fn with_bytes(bytes: usize) -> Subsetter {
        let area = AREA.min(bytes / 2);
        let cells = CELLS.min((bytes - area) / 4);
        Subsetter { cells: vec![0; cells], area: vec![0; area] }
    }

    /// What [`subset`] does.
    pub fn subset(
        &mut self,
        kind: u64,
        layout: Layout,
        source: &[u8],
        glyphs: Glyphs,
        lookups: &[u8],
        out: &mut [u8],
    ) -> Answer {
        // SAFETY: as in `subset`; the scratch is this one's own, and nothing is asked of its
        // lengths or of what it holds.
        let result = unsafe {
            gillcurtain_subset_in(
                kind,
                glyphs.form(),
                layout.mark(),
                source.as_ptr(),
                source.len(),
                glyphs.bytes().as_ptr(),
                glyphs.bytes().len(),
                lookups.as_ptr(),
                lookups.len(),
                self.cells.as_mut_ptr(),
                self.cells.len(),
                self.area.as_mut_ptr(),
                self.area.len(),
                out.as_mut_ptr(),
                out.len(),
            )
        };
        answer(result)
    }
}

impl Default for Subsetter {
    fn default() -> Subsetter {
        Subsetter::new()
    }
}

/// What comes of a comparison. Where several refusals apply, the first of them in this order is
/// given; those of the left subtable come before those of the right one.
#[derive(Clone, Copy, Debug, PartialEq, Eq)]
pub enum Compared {
    /// The list has so many bytes, 12 for each difference, and stands at the front of the buffer.
    Listed(u64),
    /// Kinds 1 to 4 are compared.
    BadKind,
    LongSource,
    /// Of pairs only format 1 is compared.
    BadFormat,
    /// As in [`Answer::Malformed`].
    Malformed(u64),
    Device,
    /// The buffer is too short; so many bytes are needed. Nothing was written.
    NoRoom(u64),
}

/// A difference between two subtables. What does not apply is 0.
#[derive(Clone, Copy, Debug, PartialEq, Eq)]
pub struct Difference {
    /// 1 the format, 2 a glyph covered in one only, 3 a rule or ligature in one only, 4 a rule that
    /// moved, 5 a pair in one only, 6 a value of a pair.
    pub sort: u16,
    /// 0 left or moved, 1 right; of a value its field, 0 to 7.
    pub side: u16,
    /// The first glyph.
    pub first: u16,
    /// The rank of the rule in its set, from 0, of a moved one the left; or the second glyph.
    pub rank: u16,
    /// Formats, ranks of a moved rule, or values, which are signed.
    pub left: u16,
    pub right: u16,
}

/// The differences that a list says, in its order: first glyph, rank, side.
pub fn differences(list: &[u8]) -> impl Iterator<Item = Difference> + '_ {
    list.chunks_exact(12).map(|entry| {
        let word = |i: usize| u16::from_be_bytes([entry[2 * i], entry[2 * i + 1]]);
        Difference {
            sort: word(0),
            side: word(1),
            first: word(2),
            rank: word(3),
            left: word(4),
            right: word(5),
        }
    })
}

/// The stack, in bytes, that [`compare`] may use at most. A thread that Rust starts has 2 MiB: use a
/// [`Comparer`] there.
pub const COMPARE_STACK: usize = 6 << 20;

/// Compares two subtables of this kind, and lists what differs in `out`; the list is empty exactly
/// if both say the same. A refusal writes nothing.
pub fn compare(kind: u64, left: &[u8], right: &[u8], out: &mut [u8]) -> Compared {
    // SAFETY: as in `subset`.
    let result = unsafe {
        gillcurtain_compare(
            kind,
            left.as_ptr(),
            left.len(),
            right.as_ptr(),
            right.len(),
            out.as_mut_ptr(),
            out.len(),
        )
    };
    compared(result)
}

/// Scratch for any number of comparisons, one after the other, 5.5 MiB; a comparison with it uses at
/// most [`LITTLE_STACK`] bytes of stack. A thread needs a `Comparer` of its own.
#[derive(Clone, Debug)]
pub struct Comparer {
    num: Vec<u32>,
    nums: Vec<u32>,
    heads: Vec<u32>,
    links: Vec<u32>,
}

impl Comparer {
    /// With scratch that is enough for any two subtables.
    pub fn new() -> Comparer {
        Comparer {
            num: vec![0; 262_144],
            nums: vec![0; 131_075],
            heads: vec![0; 589_828],
            links: vec![0; 458_752],
        }
    }

    /// What [`compare`] does.
    pub fn compare(&mut self, kind: u64, left: &[u8], right: &[u8], out: &mut [u8]) -> Compared {
        // SAFETY: as in `subset`; the scratch is this one's own, and nothing is asked of its lengths
        // or of what it holds.
        let result = unsafe {
            gillcurtain_compare_in(
                kind,
                left.as_ptr(),
                left.len(),
                right.as_ptr(),
                right.len(),
                self.num.as_mut_ptr(),
                self.num.len(),
                self.nums.as_mut_ptr(),
                self.nums.len(),
                self.heads.as_mut_ptr(),
                self.heads.len(),
                self.links.as_mut_ptr(),
                self.links.len(),
                out.as_mut_ptr(),
                out.len(),
            )
        };
        compared(result)
    }
}

impl Default for Comparer {
    fn default() -> Comparer {
        Comparer::new()
    }
}

/// What a comparison's result says.
fn compared(result: u64) -> Compared {
    let (number, length) = halves(result);
    match number {
        0 => Compared::Listed(length),
        1 => Compared::BadKind,
        4 => Compared::LongSource,
        5 => Compared::BadFormat,
        6 => Compared::Malformed(length),
        7 => Compared::Device,
        10 => Compared::NoRoom(length),
        _ => unreachable!("the call gives the numbers 0, 1, 4 to 7 and 10"),
    }
}

/// The number and the length, or the place, of a call's result: the number, times 2^56, plus the
/// other.
fn halves(result: u64) -> (u32, u64) {
    ((result >> 56) as u32, result & 0xFF_FFFF_FFFF_FFFF)
}

/// The answer that a call's result says. 13 and 14 are not among them: they are for marks that no
/// form and no layout has.
fn answer(result: u64) -> Answer {
    let (number, length) = halves(result);
    let length = length as usize;
    match number {
        0 => Answer::Kept(length),
        1 => Answer::BadKind,
        2 => Answer::BadGlyphs,
        3 => Answer::BadLookups,
        4 => Answer::LongSource,
        5 => Answer::BadFormat,
        6 => Answer::Malformed(length),
        7 => Answer::Device,
        8 => Answer::Nothing,
        9 => Answer::TooBig,
        10 => Answer::NoRoom(length),
        12 => Answer::PastRule,
        _ => unreachable!("with these marks the call gives the numbers 0 to 10 and 12"),
    }
}

impl Answer {
    /// The number of the answer.
    pub fn number(self) -> u32 {
        match self {
            Answer::Kept(_) => 0,
            Answer::BadKind => 1,
            Answer::BadGlyphs => 2,
            Answer::BadLookups => 3,
            Answer::LongSource => 4,
            Answer::BadFormat => 5,
            Answer::Malformed(_) => 6,
            Answer::Device => 7,
            Answer::Nothing => 8,
            Answer::TooBig => 9,
            Answer::NoRoom(_) => 10,
            Answer::PastRule => 12,
        }
    }
}

impl fmt::Display for Answer {
    fn fmt(&self, f: &mut fmt::Formatter) -> fmt::Result {
        let said = match self {
            Answer::Kept(length) => return write!(f, "kept: {length} bytes"),
            Answer::Malformed(place) => {
                return write!(f, "the source is malformed, in the part at {place:#06x}");
            }
            Answer::NoRoom(needed) => {
                return write!(f, "the buffer is too short: it takes {needed}");
            }
            Answer::BadKind => "the kind is none of 1 to 5",
            Answer::BadGlyphs => "the glyph map is not good",
            Answer::BadLookups => "the lookup map is not good",
            Answer::LongSource => "the source is over 262,144 bytes",
            Answer::BadFormat => "the kind has no such format",
            Answer::Device => "a value format asks for a device table",
            Answer::PastRule => "a record points past its rule",
            Answer::Nothing => "nothing survives",
            Answer::TooBig => "the result is over 262,144 bytes, or an offset or a count in it over 65,535",
        };
        f.write_str(said)
    }
}
