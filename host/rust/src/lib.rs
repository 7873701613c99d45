//! The best pin assignment of a routing channel, on the proved library `libcazdrob.a`.
//!
//! A sheet describes the channel: its terminals in their fixed orders, the columns that each may take, the distances that neighbours
//! keep. `docs/FORMAT.md` of the repository has the rules. [`sheet_of_modules`] makes one of standard cells and others that move whole;
//! [`route`] gives the nets of an assignment their tracks where no column has pins of two; [`chain`] gives the longest chain of vertical
//! constraints of an assignment. Every call has an answer for every content and length of what it is lent.
//!
//! Sheet A: three columns, the nets 1, 2 on top and 2, 1 at the bottom.
//!
//! ```
//! let sheet = [
//!     1, 0, 0, 0, 7, 0, 0, 0, 0, 0, 0, 0, // T 1: net 1, first of its side, columns 1, 2, 3
//!     2, 0, 1, 255, 7, 0, 0, 0, 0, 0, 0, 0, // T 2: net 2, distance 1 to 255
//!     2, 0, 0, 0, 7, 0, 0, 0, 0, 0, 0, 0, // B 1: net 2
//!     1, 0, 1, 255, 7, 0, 0, 0, 0, 0, 0, 0, // B 2: net 1
//!     0, 0, 2, 0, 24, 0, 2, 0, 3, 0, b'C', b'P', // top at 0, p 2, bottom at 24, q 2, L 3
//! ];
//! let mut searcher = cazdrob::Searcher::new();
//! let best = searcher.assign(&sheet)?;
//! assert_eq!(best.density, 1);
//! assert_eq!(best.columns, [2, 3, 1, 2]); // top terminals in order, then bottom
//!
//! // the same on lent buffers
//! let mut columns = [0; 4];
//! let mut work = vec![0; cazdrob::cells(&sheet)];
//! assert_eq!(work.len(), 144);
//! assert_eq!(cazdrob::search(&sheet, &mut columns, &mut work), Ok(1));
//! assert_eq!(columns, [2, 3, 1, 2]);
//!
//! assert_eq!(cazdrob::measure(&sheet, &[1, 2, 1, 2]), Ok(2));
//! // T 2 stands in the column of T 1 and should be one to the right of it at the least
//! assert_eq!(cazdrob::measure(&sheet, &[2, 2, 1, 3]), Err(cazdrob::Refusal::OutOfRange { amount: -1 }));
//! assert_eq!(cazdrob::distance(2, 2, 1, 255), -1);
//!
//! // with the mark CQ a straight wire, such as net 1 above, counts in its column: no assignment has density 1
//! let mut counted = sheet;
//! counted[59] = b'Q';
//! let best = searcher.assign(&counted)?;
//! assert_eq!(best.density, 2);
//! assert_eq!(best.columns, [1, 2, 1, 2]);
//! assert_eq!(cazdrob::measure(&counted, &[2, 3, 1, 2]), Ok(2));
//! # Ok::<(), cazdrob::Refusal>(())
//! ```
#![warn(missing_docs)]

use std::error::Error;
use std::fmt;

/// The functions of `include/cazdrob.h`.
mod sys {
    use super::Span;

    extern "C" {
        pub fn cazdrob_check(sheet: *const u8, sheet_len: usize) -> u32;
        pub fn cazdrob_beyond(set: u64, columns: usize) -> u32;
        pub fn cazdrob_cells(sheet: *const u8, sheet_len: usize) -> usize;
        pub fn cazdrob_distance(before: u8, column: u8, least: u8, greatest: u8) -> i32;
        pub fn cazdrob_measure(
            sheet: *const u8,
            sheet_len: usize,
            columns: *const u8,
            columns_len: usize,
            density: *mut u32,
            amount: *mut i32,
        ) -> u32;
        pub fn cazdrob_search(
            sheet: *const u8,
            sheet_len: usize,
            columns: *mut u8,
            columns_len: usize,
            work: *mut u16,
            work_len: usize,
            density: *mut u32,
        ) -> u32;
        pub fn cazdrob_tracks(
            sheet: *const u8,
            sheet_len: usize,
            columns: *const u8,
            columns_len: usize,
            spans: *mut Span,
            spans_len: usize,
            nets: *mut usize,
            tracks: *mut u32,
            amount: *mut i32,
        ) -> u32;
        pub fn cazdrob_chain(
            sheet: *const u8,
            sheet_len: usize,
            columns: *const u8,
            columns_len: usize,
            chain: *mut u32,
            bound: *mut u32,
            net: *mut u32,
            amount: *mut i32,
        ) -> u32;
        pub fn cazdrob_modules(
            length: usize,
            top: *const u8,
            top_len: usize,
            bottom: *const u8,
            bottom_len: usize,
            sheet: *mut u8,
            sheet_len: usize,
            written: *mut usize,
        ) -> u32;
    }
}

// All that the functions ask of their pointers holds of slices and references: never null, aligned, that many elements, at most
// isize::MAX bytes, and nothing overlaps what is borrowed mutably.

/// Whether the sheet is sound: `Ok`, or one of the refusals 1 to 8.
pub fn check(sheet: &[u8]) -> Result<(), Refusal> {
    // SAFETY: the pointer and the length are a slice's.
    answer(unsafe { sys::cazdrob_check(sheet.as_ptr(), sheet.len()) }, 0, 0)
}

/// Whether a set names a column above the last of so many: the test behind 8 of [`check`].
///
/// Bit 0 of the set is column 1, bit 63 is column 64. With 0 columns every column of the set is above the last, with 64 or more none is.
///
/// ```
/// let columns_2_3_and_5 = 0b10110;
/// assert!(cazdrob::beyond(columns_2_3_and_5, 4));
/// assert!(!cazdrob::beyond(columns_2_3_and_5, 5));
/// ```
#[inline]
pub fn beyond(set: u64, columns: usize) -> bool {
    // SAFETY: nothing is lent.
    unsafe { sys::cazdrob_beyond(set, columns) != 0 }
}

/// The work cells that a search of the sheet needs, (p+1)(q+1)(L+1)²; 0 for a refused sheet.
pub fn cells(sheet: &[u8]) -> usize {
    // SAFETY: the pointer and the length are a slice's.
    unsafe { sys::cazdrob_cells(sheet.as_ptr(), sheet.len()) }
}

/// By how many columns a terminal's distance to the one before it is out of range, -510 to 255: `column - before` less the bound that it
/// breaks.
///
/// Negative, it is so many columns too close, which is tried first; positive, so many too far apart; 0 is in range. The search and the
/// measurement test every distance so.
pub fn distance(before: u8, column: u8, least: u8, greatest: u8) -> i32 {
    // SAFETY: nothing is lent.
    unsafe { sys::cazdrob_distance(before, column, least, greatest) }
}

/// The density of a column list: the columns of the top terminals in order, then those of the bottom terminals. Refused with 1 to 8,
/// 12, 13 or 14, which carries the [`distance`] of the first pair that is out of range: the top pairs in order, then the bottom pairs.
pub fn measure(sheet: &[u8], columns: &[u8]) -> Result<u32, Refusal> {
    let (mut density, mut amount) = (0, 0);
    // SAFETY: the pointers and lengths are those of slices; `density` and `amount` are borrowed by nothing else.
    let number = unsafe { sys::cazdrob_measure(sheet.as_ptr(), sheet.len(), columns.as_ptr(), columns.len(), &mut density, &mut amount) };
    answer(number, amount, 0).map(|()| density)
}

/// Finds the best assignment on lent buffers and gives its density. Refused with 1 to 11.
///
/// With an assignment the first p+q bytes of `columns` are its columns. With an assignment, and with
/// [`NoAssignment`](Refusal::NoAssignment), the first [`cells`] of `work` are 0. Everything else is left as it was, and what the buffers
/// held before plays no part.
pub fn search(sheet: &[u8], columns: &mut [u8], work: &mut [u16]) -> Result<u32, Refusal> {
    let mut density = 0;
    // SAFETY: the pointers and lengths are those of slices; `columns`, `work` and `density` are borrowed mutably and overlap nothing.
    let number = unsafe {
        sys::cazdrob_search(sheet.as_ptr(), sheet.len(), columns.as_mut_ptr(), columns.len(), work.as_mut_ptr(), work.len(), &mut density)
    };
    answer(number, 0, 0).map(|()| density)
}

/// An assignment and its density.
#[derive(Debug, Clone, PartialEq, Eq)]
pub struct Assignment {
    /// The greatest number of nets that cross a column. Nets above 60,000 leave the channel by an end and count in every column up to it;
    /// a plain net whose two pins share a column counts there if the sheet's mark is `CQ`, and not if it is `CP`.
    pub density: u32,
    /// The columns of the top terminals in order, then those of the bottom terminals.
    pub columns: Vec<u8>,
}

/// Searches one sheet after another on work cells of its own, which grow only where a sheet needs more of them.
#[derive(Debug, Clone, Default)]
pub struct Searcher {
    work: Vec<u16>,
}

impl Searcher {
    /// A searcher with no work cells yet.
    pub fn new() -> Self {
        Self::default()
    }

    /// As [`search`], on the searcher's work cells: never refused with [`Cells`](Refusal::Cells).
    pub fn search(&mut self, sheet: &[u8], columns: &mut [u8]) -> Result<u32, Refusal> {
        let needed = cells(sheet);
        if self.work.len() < needed {
            // the old cells are freed first; their content plays no part
            self.work = Vec::new();
            self.work = vec![0; needed];
        }
        search(sheet, columns, &mut self.work)
    }

    /// The best assignment of the sheet. Refused with 1 to 8 or 11.
    pub fn assign(&mut self, sheet: &[u8]) -> Result<Assignment, Refusal> {
        check(sheet)?;
        // a sound sheet has 12 bytes for each terminal and the 12 of its trailer
        let mut columns = vec![0; sheet.len() / 12 - 1];
        let density = self.search(sheet, &mut columns)?;
        Ok(Assignment { density, columns })
    }
}

/// Enough records for the nets of every sound sheet.
pub const NETS_MAX: usize = 128;

/// A net of an assignment: the columns that it runs from and to, and its track.
#[repr(C)]
#[derive(Debug, Clone, Copy, Default, PartialEq, Eq)]
pub struct Span {
    /// The net.
    pub net: u16,
    /// The column of its leftmost pin, or 1 where it leaves the channel at the left.
    pub left: u16,
    /// The column of its rightmost pin, or L where it leaves the channel at the right.
    pub right: u16,
    /// Its track, from 1. It is 0 where the net crosses no column: a plain net with one pin takes no track, and neither does one whose two
    /// pins share a column if the sheet's mark is `CP`.
    pub track: u16,
}

/// The nets of a clean assignment with their tracks.
#[derive(Debug, Clone, PartialEq, Eq)]
pub struct Routing {
    /// The number of tracks: the density of the assignment.
    pub tracks: u32,
    /// The nets of the sheet, by rising left end and, of equal left ends, by rising number.
    pub spans: Vec<Span>,
}

/// Gives the nets of a clean assignment their tracks, exactly as many as its density. The column list is as in [`measure`]. Refused with
/// 1 to 8, 12, 13, 14 or 18, and of several with the first in this order.
///
/// An assignment is clean where no column has pins of two nets. In the order of the spans each net that crosses a column gets the lowest
/// track, from 1, on which none before it has a column in common with it, the ends included.
///
/// ```
/// use cazdrob::{Module, Pin, Refusal, Span};
///
/// // six columns: nets 1, 2, 1 over 2, 3, 3, each pin in a column of its own
/// let pin = |column: u8, net| Module { width: 1, edges: 1 << (column - 1), pins: vec![Pin { offset: 1, net }] };
/// let sheet = cazdrob::sheet_of_modules(6, &[pin(1, 1), pin(2, 2), pin(4, 1)], &[pin(3, 2), pin(5, 3), pin(6, 3)])?;
/// let routing = cazdrob::route(&sheet, &[1, 2, 4, 3, 5, 6])?;
/// assert_eq!(routing.tracks, 2);
/// let span = |net, left, right, track| Span { net, left, right, track };
/// assert_eq!(routing.spans, [span(1, 1, 4, 1), span(2, 2, 3, 2), span(3, 5, 6, 1)]);
///
/// // net 9 over net 8 in one column
/// let sheet = cazdrob::sheet_of_modules(6, &[pin(3, 9)], &[pin(3, 8)])?;
/// assert_eq!(cazdrob::route(&sheet, &[3, 3]), Err(Refusal::TwoNets));
/// # Ok::<(), Refusal>(())
/// ```
pub fn route(sheet: &[u8], columns: &[u8]) -> Result<Routing, Refusal> {
    let mut spans = vec![Span::default(); NETS_MAX];
    let Tracks { nets, tracks } = tracks(sheet, columns, &mut spans)?;
    spans.truncate(nets);
    Ok(Routing { tracks, spans })
}

/// How many nets got a record, and how many tracks they take.
#[derive(Debug, Clone, Copy, PartialEq, Eq)]
pub struct Tracks {
    /// The nets of the sheet, as many as records were written.
    pub nets: usize,
    /// The number of tracks: the density of the assignment.
    pub tracks: u32,
}

/// As [`route`], into lent records. Refused with 1 to 8, 12, 13, 14, 18 or, where there are fewer records than nets, 9, and of several with
/// the first in this order.
///
/// The nets are the first records, as many as the result says. Everything else, and with a refusal the whole of it, is left as it was.
pub fn tracks(sheet: &[u8], columns: &[u8], spans: &mut [Span]) -> Result<Tracks, Refusal> {
    let (mut nets, mut tracks, mut amount) = (0, 0, 0);
    // SAFETY: the pointers and lengths are those of slices, and Span is laid out as in C; `spans`, `nets`, `tracks` and `amount` are
    // borrowed mutably and overlap nothing.
    let number = unsafe {
        sys::cazdrob_tracks(
            sheet.as_ptr(),
            sheet.len(),
            columns.as_ptr(),
            columns.len(),
            spans.as_mut_ptr(),
            spans.len(),
            &mut nets,
            &mut tracks,
            &mut amount,
        )
    };
    match answer(number, amount, 0) {
        Ok(()) => Ok(Tracks { nets, tracks }),
        // the list is only read here
        Err(Refusal::Columns) => Err(Refusal::SpanBuffer),
        Err(refusal) => Err(refusal),
    }
}

/// The longest chain of vertical constraints of an assignment, and the greater of it and the density.
#[derive(Debug, Clone, Copy, Default, PartialEq, Eq)]
pub struct Chain {
    /// How many nets the longest chain has; 0 where none lies over another.
    pub nets: u32,
    /// The greater of `nets` and the density: a wiring in two layers that gives each net one track takes at least so many tracks.
    pub bound: u32,
}

/// The longest chain of vertical constraints of an assignment. The column list is as in [`measure`]. Refused with 1 to 8, 12, 13, 14 or 19,
/// and of several with the first in this order.
///
/// A net lies over another one where a column has a pin of the first on top and a pin of the second at the bottom, and neither is a plain
/// net with one pin on the sheet. A chain is a list of nets in which each lies over the next, a circle a chain of two nets or more whose
/// last net lies over its first. The refusal [`Circle`](Refusal::Circle) has the lowest net that is on a circle.
///
/// ```
/// use cazdrob::{Chain, Module, Pin, Refusal};
///
/// // four columns, nets 1, 1, 2, 3 over 2, 3 in columns 2 and 3: net 1 lies over 2, and 2 over 3, and no more than two nets cross a column
/// let pin = |column: u8, net| Module { width: 1, edges: 1 << (column - 1), pins: vec![Pin { offset: 1, net }] };
/// let top = [pin(1, 1), pin(2, 1), pin(3, 2), pin(4, 3)];
/// let sheet = cazdrob::sheet_of_modules(4, &top, &[pin(2, 2), pin(3, 3)])?;
/// assert_eq!(cazdrob::measure(&sheet, &[1, 2, 3, 4, 2, 3]), Ok(2));
/// assert_eq!(cazdrob::chain(&sheet, &[1, 2, 3, 4, 2, 3]), Ok(Chain { nets: 3, bound: 3 }));
///
/// // nets 1, 2 over 2, 1: each lies over the other
/// let sheet = cazdrob::sheet_of_modules(2, &[pin(1, 1), pin(2, 2)], &[pin(1, 2), pin(2, 1)])?;
/// assert_eq!(cazdrob::chain(&sheet, &[1, 2, 1, 2]), Err(Refusal::Circle { net: 1 }));
/// # Ok::<(), Refusal>(())
/// ```
pub fn chain(sheet: &[u8], columns: &[u8]) -> Result<Chain, Refusal> {
    let (mut nets, mut bound, mut net, mut amount) = (0, 0, 0, 0);
    // SAFETY: the pointers and lengths are those of slices; `nets`, `bound`, `net` and `amount` are borrowed by nothing else.
    let number = unsafe {
        sys::cazdrob_chain(sheet.as_ptr(), sheet.len(), columns.as_ptr(), columns.len(), &mut nets, &mut bound, &mut net, &mut amount)
    };
    answer(number, amount, net).map(|()| Chain { nets, bound })
}

/// Enough bytes for every sound sheet.
pub const SHEET_MAX: usize = 1_548;

/// A pin of a module.
#[derive(Debug, Clone, Copy, PartialEq, Eq)]
pub struct Pin {
    /// The column of the module that it stands in, from 1, the module's first, to its width.
    pub offset: u8,
    /// Its net, 1 to 65,535. Those above 60,000 leave the channel by an end.
    pub net: u16,
}

/// Some columns of a side with pins in fixed places, such as a standard cell. It moves whole.
#[derive(Debug, Clone, PartialEq, Eq)]
pub struct Module {
    /// The number of its columns, 1 to 64.
    pub width: u8,
    /// The columns that its left edge may stand in: bit 0 is column 1, bit 63 is column 64.
    pub edges: u64,
    /// Its pins by rising offset, one at the least.
    pub pins: Vec<Pin>,
}

/// The sheet of two sides of modules, each from left to right, on a channel of `length` columns. Refused with 3, 16, 17, 4 or 6, and of
/// several with the first in this order.
///
/// The sheet's assignments are the placements without overlap, one to one: where a module's left edge is in column e, its pin with offset
/// o is in column e + o - 1. The sheet's mark is `CP`.
///
/// ```
/// use cazdrob::{Module, Pin};
///
/// // eight columns: a gate and an inverter over a flip-flop, which may begin in column 2 or 4
/// let pin = |offset, net| Pin { offset, net };
/// let nand = Module { width: 3, edges: 0b11_1111, pins: vec![pin(1, 10), pin(2, 11), pin(3, 12)] };
/// let inverter = Module { width: 2, edges: 0b111_1111, pins: vec![pin(1, 12), pin(2, 13)] };
/// let flip_flop = Module { width: 5, edges: 0b1010, pins: vec![pin(2, 10), pin(5, 13)] };
/// let sheet = cazdrob::sheet_of_modules(8, &[nand, inverter], &[flip_flop])?;
/// assert_eq!(sheet.len(), 7 * 12 + 12);
/// let best = cazdrob::Searcher::new().assign(&sheet)?;
/// assert_eq!(best.density, 1);
/// assert_eq!(best.columns, [2, 3, 4, 5, 6, 3, 6]); // left edges 2 and 5 on top, 2 at the bottom
/// # Ok::<(), cazdrob::Refusal>(())
/// ```
pub fn sheet_of_modules(length: usize, top: &[Module], bottom: &[Module]) -> Result<Vec<u8>, Refusal> {
    let mut sheet = vec![0; SHEET_MAX];
    let written = modules(length, &side(top), &side(bottom), &mut sheet)?;
    sheet.truncate(written);
    Ok(sheet)
}

/// The modules of a side as the list of bytes that [`modules`] takes.
///
/// A list has no way to spell a module with more than 255 pins. Such a module is refused with 16 in any case; it is spelt without its pins,
/// which is refused with 16 too.
pub fn side(modules: &[Module]) -> Vec<u8> {
    let mut list = Vec::new();
    for Module { width, edges, pins } in modules {
        let (count, pins) = u8::try_from(pins.len()).map_or((0, &[][..]), |count| (count, pins));
        list.extend([*width, count]);
        list.extend(edges.to_le_bytes());
        for Pin { offset, net } in pins {
            list.push(*offset);
            list.extend(net.to_le_bytes());
        }
    }
    list
}

/// As [`sheet_of_modules`], from a list of bytes for each [`side`] and into a lent buffer: gives the length of the sheet, 12(p+q)+12 with p
/// pins on top and q at the bottom. Refused with 3, 16, 17, 4, 6 or 9, and of several with the first in this order.
///
/// The sheet is the first bytes of the buffer. Everything else, and with a refusal the whole of it, is left as it was.
pub fn modules(length: usize, top: &[u8], bottom: &[u8], sheet: &mut [u8]) -> Result<usize, Refusal> {
    let mut written = 0;
    // SAFETY: the pointers and lengths are those of slices; `sheet` and `written` are borrowed mutably and overlap nothing.
    let number = unsafe {
        sys::cazdrob_modules(length, top.as_ptr(), top.len(), bottom.as_ptr(), bottom.len(), sheet.as_mut_ptr(), sheet.len(), &mut written)
    };
    match answer(number, 0, 0) {
        Ok(()) => Ok(written),
        // there is no column buffer here
        Err(Refusal::Columns) => Err(Refusal::SheetBuffer),
        Err(refusal) => Err(refusal),
    }
}

/// Why a call was refused. Later versions may have more.
#[derive(Debug, Clone, Copy, PartialEq, Eq)]
#[non_exhaustive]
pub enum Refusal {
    /// 1: the sheet is shorter than 12 bytes.
    Short,
    /// 2: its last two bytes are neither of the marks `CP` and `CQ`.
    Mark,
    /// 3: L is 0 or above 64.
    Length,
    /// 4: p or q is above 64.
    Count,
    /// 5: the sheet's length or the sections' offsets break the rule.
    Layout,
    /// 6: a net is 0.
    Net,
    /// 7: a distance pair breaks its rule.
    Distance,
    /// 8: a set names a column above L.
    Beyond,
    /// 9 of a search: the column buffer is too short.
    Columns,
    /// 10: the work buffer is too short.
    Cells,
    /// 11: no assignment exists.
    NoAssignment,
    /// 12: the column list is not p+q long.
    ListLength,
    /// 13: a listed column is not in its terminal's set.
    NotAllowed,
    /// 14: a distance is out of range.
    OutOfRange {
        /// The [`distance`] of the first such pair: negative, so many columns too close; positive, so many too far apart.
        amount: i32,
    },
    /// 9 of modules: the sheet buffer is too short.
    SheetBuffer,
    /// 16: a module has no pins, a width outside 1 to 64, offsets that do not rise within it or bytes past the list's end, or a side has
    /// more than 16 modules.
    Module,
    /// 17: a module's set names a left edge from which it does not fit the channel.
    Edge,
    /// 9 of tracks: there are fewer records than nets.
    SpanBuffer,
    /// 18: a column has pins of two nets.
    TwoNets,
    /// 19: the vertical constraints have a circle.
    Circle {
        /// The lowest net that is on one.
        net: u16,
    },
}

impl Refusal {
    /// The number of the refusal, 1 to 14 or 16 to 19.
    pub fn number(self) -> u32 {
        match self {
            Refusal::Short => 1,
            Refusal::Mark => 2,
            Refusal::Length => 3,
            Refusal::Count => 4,
            Refusal::Layout => 5,
            Refusal::Net => 6,
            Refusal::Distance => 7,
            Refusal::Beyond => 8,
            Refusal::Columns => 9,
            Refusal::Cells => 10,
            Refusal::NoAssignment => 11,
            Refusal::ListLength => 12,
            Refusal::NotAllowed => 13,
            Refusal::OutOfRange { .. } => 14,
            Refusal::SheetBuffer => 9,
            Refusal::Module => 16,
            Refusal::Edge => 17,
            Refusal::SpanBuffer => 9,
            Refusal::TwoNets => 18,
            Refusal::Circle { .. } => 19,
        }
    }
}

impl fmt::Display for Refusal {
    fn fmt(&self, f: &mut fmt::Formatter<'_>) -> fmt::Result {
        let why = match self {
            Refusal::Short => "the sheet is shorter than 12 bytes",
            Refusal::Mark => "the last two bytes are neither CP nor CQ",
            Refusal::Length => "L is 0 or above 64",
            Refusal::Count => "p or q is above 64",
            Refusal::Layout => "the sheet's length or the sections' offsets differ from the rule",
            Refusal::Net => "a net is 0",
            Refusal::Distance => "a distance pair breaks its rule",
            Refusal::Beyond => "a set names a column above L",
            Refusal::Columns => "the column buffer is too short",
            Refusal::Cells => "the work buffer is too short",
            Refusal::NoAssignment => "no assignment exists",
            Refusal::ListLength => "the column list is not p+q long",
            Refusal::NotAllowed => "a listed column is not in its terminal's set",
            Refusal::OutOfRange { .. } => "a distance is out of range",
            Refusal::SheetBuffer => "the sheet buffer is too short",
            Refusal::Module => "a module breaks its rule, or a side has more than 16 of them",
            Refusal::Edge => "a set names a left edge from which its module does not fit the channel",
            Refusal::SpanBuffer => "there are fewer records than nets",
            Refusal::TwoNets => "a column has pins of two nets",
            Refusal::Circle { .. } => "the vertical constraints have a circle",
        };
        write!(f, "refused {}: {why}", self.number())?;
        match self {
            Refusal::OutOfRange { amount } => {
                let count = amount.unsigned_abs();
                let columns = if count == 1 { "column" } else { "columns" };
                let wrong = if *amount < 0 { "too close" } else { "too far apart" };
                write!(f, ", {count} {columns} {wrong}")
            }
            Refusal::Circle { net } => write!(f, ", with net {net} on it"),
            _ => Ok(()),
        }
    }
}

impl Error for Refusal {}

/// A returned number as a result, with the amount and the net that came beside it: 0 from a call that has none, as none of those returns 14
/// or 19. 9 is a search's.
fn answer(number: u32, amount: i32, net: u32) -> Result<(), Refusal> {
    Err(match number {
        0 => return Ok(()),
        1 => Refusal::Short,
        2 => Refusal::Mark,
        3 => Refusal::Length,
        4 => Refusal::Count,
        5 => Refusal::Layout,
        6 => Refusal::Net,
        7 => Refusal::Distance,
        8 => Refusal::Beyond,
        9 => Refusal::Columns,
        10 => Refusal::Cells,
        11 => Refusal::NoAssignment,
        12 => Refusal::ListLength,
        13 => Refusal::NotAllowed,
        14 => Refusal::OutOfRange { amount },
        16 => Refusal::Module,
        17 => Refusal::Edge,
        18 => Refusal::TwoNets,
        // a net of the sheet, which has two bytes
        19 => Refusal::Circle { net: net as u16 },
        _ => unreachable!("the library returns 0 to 14 or 16 to 19, not {number}"),
    })
}

#[cfg(test)]
mod tests {
    use super::*;

    #[test]
    fn work_cells_grow_only_where_a_sheet_needs_more() {
        let mut searcher = Searcher::new();
        // no terminals, so (L+1)² cells; 65 columns are refused
        for (length, held) in [(3, 16), (1, 16), (10, 121), (65, 121), (3, 121), (64, 4225), (10, 4225)] {
            let sheet = [0, 0, 0, 0, 0, 0, 0, 0, length, 0, b'C', b'P'];
            let wanted = if length == 65 { Err(Refusal::Length) } else { Ok(0) };
            assert_eq!(searcher.search(&sheet, &mut []), wanted);
            assert_eq!(searcher.work.len(), held);
            assert!(searcher.work.iter().all(|cell| *cell == 0));
        }
    }
}
