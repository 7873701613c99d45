//! Nets that leave at the left, at the right or at both ends: the columns that they cross, and what that does to searches and measurements.
//! They count alike under both marks.
use crate::draw::{channel, sheet_of, Draw};
use crate::known::{found, free, measured, side};
use crate::lent::Seen;
use crate::reference::{leaves, Channel, Mark};
use crate::sound::every_call;
use cazdrob::{Assignment, Searcher};

/// The first and last nets of the kinds, but for net 1, and whether they leave at the left and at the right.
pub const BOUNDS: [(u16, bool, bool); 7] = [
    (60_000, false, false),
    (60_001, true, false),
    (62_000, true, false),
    (62_001, false, true),
    (64_000, false, true),
    (64_001, true, true),
    (65_535, true, true),
];

/// Whether the channel has plain nets, nets that leave at the left, at the right, at both ends.
fn kinds(channel: &Channel) -> [bool; 4] {
    let nets = channel.nets();
    [(false, false), (true, false), (false, true), (true, true)].map(|kind| nets.iter().any(|net| leaves(*net) == kind))
}

/// Counts a sheet for each kind of net that it has.
pub fn count_kinds(sheets: &mut [u32; 4], channel: &Channel) {
    sheets.iter_mut().zip(kinds(channel)).for_each(|(sheets, has)| *sheets += u32::from(has));
}

/// The channel with a plain net in the place of each net: what a library that knows no leaving nets would read.
fn all_plain(channel: &Channel) -> Channel {
    let (nets, mut plain) = (channel.nets(), channel.clone());
    for terminal in plain.top.iter_mut().chain(&mut plain.bottom) {
        terminal.net = 1 + nets.binary_search(&terminal.net).unwrap() as u16;
    }
    plain
}

/// Nets with the columns that their pins are held to, on a CP sheet, and the list of these.
pub fn held(length: u8, top: &[(u16, u8)], bottom: &[(u16, u8)]) -> (Channel, Vec<u8>) {
    let [top_side, bottom_side] = [top, bottom].map(|pins| {
        let (nets, sets): (Vec<u16>, Vec<u64>) = pins.iter().map(|(net, column)| (*net, 1 << (column - 1))).unzip();
        side(&nets, &sets, 1, 255)
    });
    let list = [top, bottom].concat().into_iter().map(|(_, column)| column).collect();
    (Channel { mark: Mark::Cp, length: length.into(), top: top_side, bottom: bottom_side }, list)
}

/// Holds the measurement and the search of held pins to this density, on a sheet with this mark.
pub fn counts_under(mark: Mark, length: u8, top: &[(u16, u8)], bottom: &[(u16, u8)], density: u32) {
    let (channel, list) = held(length, top, bottom);
    measured(&channel.under(mark), &list, Ok(density));
    found(&channel.under(mark), density, &list);
}

/// The same under both marks.
fn counts(length: u8, top: &[(u16, u8)], bottom: &[(u16, u8)], density: u32) {
    Mark::BOTH.into_iter().for_each(|mark| counts_under(mark, length, top, bottom, density));
}

/// One pin or two of a net, beside a plain net with its pins in two neighbouring columns: the density is 2 exactly where the first net
/// crosses one of the two. It crosses from its leftmost pin, or the end that it leaves at, to its rightmost, or the end.
#[test]
fn every_column_of_a_net() {
    for length in [2, 3, 8, 64] {
        let columns: Vec<u8> = if length == 64 { vec![1, 2, 33, 63, 64] } else { (1..=length).collect() };
        for (net, left, right) in BOUNDS {
            for first in &columns {
                for last in columns.iter().filter(|last| *last >= first) {
                    let pins = if first == last { vec![(net, *first)] } else { vec![(net, *first), (net, *last)] };
                    let (from, to) = (if left { 1 } else { *first }, if right { length } else { *last });
                    let crosses = left || right || first < last;
                    for column in 1..length {
                        let both = crosses && from <= column + 1 && column <= to;
                        let (channel, list) = held(length, &pins, &[(1, column), (1, column + 1)]);
                        for mark in Mark::BOTH {
                            measured(&channel.under(mark), &list, Ok(1 + u32::from(both)));
                        }
                    }
                }
            }
        }
    }
}

#[test]
fn pins_at_the_ends() {
    for length in [1, 2, 64] {
        for (net, left, right) in BOUNDS {
            for column in [1, length] {
                let density = u32::from(left || right);
                counts(length, &[(net, column)], &[], density);
                counts(length, &[], &[(net, column)], density);
                // beside a net that crosses every column
                counts(length, &[(net, column)], &[(64_002, column)], 1 + density);
                // two pins that share a column: a plain net is a straight wire
                counts_under(Mark::Cp, length, &[(net, column)], &[(net, column)], density);
                counts_under(Mark::Cq, length, &[(net, column)], &[(net, column)], 1);
            }
        }
        // one column each, the same one where L is 1
        counts(length, &[(60_001, 1)], &[(62_001, length)], if length == 1 { 2 } else { 1 });
        // each from end to end
        counts(length, &[(60_001, length)], &[(62_001, 1)], 2);
        // both in column 1, both in column L
        counts(length, &[(60_001, 1)], &[(60_002, length)], 2);
        counts(length, &[(62_001, 1)], &[(62_002, length)], 2);
    }
}

#[test]
fn a_net_that_leaves_at_both_ends_alone() {
    for length in 1..=64 {
        for column in 1..=length {
            counts(length, &[(65_535, column)], &[], 1);
        }
    }
}

/// Nets of one pin: read as plain, every density would be 0.
#[test]
fn searches() {
    let found = |channel: &Channel, density: u32, columns: &[u8]| {
        Mark::BOTH.into_iter().for_each(|mark| found(&channel.under(mark), density, columns));
    };
    // apart they share no column; the smallest word leaves column 3 empty
    found(&free(3, &[60_001], &[62_001]), 1, &[1, 2]);
    found(&free(3, &[62_001], &[60_001]), 1, &[2, 1]);
    found(&free(1, &[60_001], &[62_001]), 2, &[1, 1]);
    // the bottom net crosses every column; the top ones share column 1 or column 3 wherever they stand
    found(&free(3, &[60_001, 60_002], &[64_001]), 3, &[1, 2, 1]);
    found(&free(3, &[62_001, 62_002], &[64_001]), 3, &[1, 2, 1]);
    // the top nets turned away from each other, and towards each other, where their columns rise
    found(&free(4, &[60_001, 62_001], &[]), 1, &[1, 2]);
    found(&free(4, &[62_001, 60_001], &[]), 2, &[1, 2]);
}

/// As many nets as a sheet can have. Terminal k of each side is in column k.
#[test]
fn nets_of_one_pin_in_every_place() {
    let rows = [
        (Mark::Cp, 64_001, 65_472, 128), // every net crosses every column
        (Mark::Cq, 60_001, 61_937, 128), // every net crosses column 1
        (Mark::Cp, 62_001, 63_937, 128), // every net crosses column 64
        (Mark::Cq, 60_001, 62_001, 65),  // column c is crossed by 65 - c of the top and c of the bottom nets
        (Mark::Cq, 59_873, 59_937, 0),   // all plain
    ];
    let columns: Vec<u8> = (1..=64).chain(1..=64).collect();
    let mut searcher = Searcher::new();
    for (mark, top, bottom, density) in rows {
        let [top, bottom] = [top, bottom].map(|first: u16| (first..=first + 63).collect::<Vec<u16>>());
        let channel = free(64, &top, &bottom).under(mark);
        assert_eq!(channel.best(), Some((density, columns.clone())));
        assert_eq!(searcher.assign(&sheet_of(&channel, false)), Ok(Assignment { density, columns: columns.clone() }));
        measured(&channel, &columns, Ok(density));
    }
}

/// How many drawn sheets with a leaving net and an assignment were so.
#[derive(Debug, Default)]
struct Sheets {
    all: u32,
    /// With plain nets, nets that leave at the left, at the right, at both ends.
    kinds: [u32; 4],
    /// With each of the nets at the bounds.
    bounds: [u32; 7],
    /// Of one column, of 64.
    lengths: [u32; 2],
    /// With a leaving net of one pin in column 1, in column L.
    one_pin: [u32; 2],
    /// With columns 1 and L empty, and crossed.
    empty_ends: u32,
    /// Where all nets read as plain would give a lower least density, other columns, a lower density of the drawn list.
    denser: u32,
    moved: u32,
    list_denser: u32,
}

impl Sheets {
    fn count(&mut self, channel: &Channel, list: Option<&[u8]>) {
        let [_, left, right, both] = kinds(channel);
        let Some((density, best)) = channel.best().filter(|_| left || right || both) else {
            return;
        };
        self.all += 1;
        count_kinds(&mut self.kinds, channel);
        let nets: Vec<u16> = channel.top.iter().chain(&channel.bottom).map(|t| t.net).collect();
        self.bounds.iter_mut().zip(BOUNDS).for_each(|(sheets, (net, ..))| *sheets += u32::from(nets.contains(&net)));
        let one_pin = |net: u16| leaves(net) != (false, false) && nets.iter().filter(|other| **other == net).count() == 1;
        for (at, length, end) in [(0, 1, 1), (1, 64, channel.length as u8)] {
            self.lengths[at] += u32::from(channel.length == length);
            self.one_pin[at] += u32::from(nets.iter().zip(&best).any(|(net, column)| *column == end && one_pin(*net)));
        }
        let ends_empty = !best.contains(&1) && !best.contains(&(channel.length as u8));
        self.empty_ends += u32::from(ends_empty && (both || left && right));

        let plain = all_plain(channel);
        let (plain_density, plain_best) = plain.best().expect("the same assignments");
        self.denser += u32::from(plain_density < density);
        self.moved += u32::from(plain_best != best);
        self.list_denser += u32::from(list.is_some_and(|list| plain.density(list) < channel.density(list)));
    }
}

#[test]
fn drawn_sheets() {
    let mut draw = Draw::new(101);
    let (mut seen, mut sheets) = (Seen::default(), Sheets::default());
    let mut searcher = Searcher::new();
    for _ in 0..14_000 {
        let (length, most) = match draw.between(0, 7) {
            0 => (1, 1),
            1 => (64, 4),
            _ => (draw.between(2, 12), 6),
        };
        let [p, q] = [(); 2].map(|()| draw.between(0, most.min(length)));
        let (mut channel, list) = channel(&mut draw, length, p, q);
        match draw.between(0, 2) {
            // no pin in column 1, none in column L
            0 if length > 2 => {
                let ends = 1 | 1 << (length - 1);
                channel.top.iter_mut().chain(&mut channel.bottom).for_each(|t| t.set &= !ends);
            }
            // the first pin of a side in column 1, the last of a side in column L: of a leaving net, and mostly its only one
            1 => {
                for (first, column) in [(true, 1), (false, length)] {
                    let terminals = if draw.once_in(2) { &mut channel.top } else { &mut channel.bottom };
                    let outermost = if first { terminals.first_mut() } else { terminals.last_mut() };
                    if let Some(terminal) = outermost.filter(|_| draw.once_in(2)) {
                        terminal.net = draw.of(&[60_500, 60_501, 62_500, 62_501, 64_500, 64_501]);
                        terminal.set = 1 << (column - 1);
                    }
                }
            }
            _ => {}
        }
        let list = list.filter(|list| channel.measure(list).is_ok());
        sheets.count(&channel, list.as_deref());
        searcher = every_call(&mut draw, &channel, list, searcher, &mut seen);
    }
    seen.print("drawn sheets with leaving nets");
    println!("  {sheets:?}");
    assert!(sheets.all > 6_000 && sheets.denser > 4_000 && sheets.moved > 500 && sheets.list_denser > 2_000);
    assert!(sheets.kinds.iter().all(|sheets| *sheets > 1_500) && sheets.bounds.iter().all(|sheets| *sheets > 300));
    assert!(sheets.lengths.iter().all(|sheets| *sheets > 500) && sheets.one_pin.iter().all(|sheets| *sheets > 1_500));
    assert!(sheets.empty_ends > 400);
}
