//! The test of one set against the channel's end on all lengths and all kinds of sets, alone and in every record of a sheet.
use crate::draw::{sheet_of, Draw};
use crate::reference::{beyond, Channel, Mark, Terminal};
use cazdrob::{Refusal, Searcher};

/// How many sets named a column above the length, how many did not, and how many of each had the length as their last column or the one
/// above it.
#[derive(Debug, Default)]
struct Seen {
    beyond: u32,
    within: u32,
    just_beyond: u32,
    just_within: u32,
}

/// Holds the test of one set, and gives its answer.
fn hold(seen: &mut Seen, set: u64, length: usize) -> bool {
    let got = cazdrob::beyond(set, length);
    assert_eq!(got, beyond(set, length), "set {set:#x} on {length} columns");
    let last = 64 - set.leading_zeros() as usize;
    seen.beyond += u32::from(got);
    seen.within += u32::from(!got);
    seen.just_beyond += u32::from(last.checked_sub(1) == Some(length));
    seen.just_within += u32::from(last == length);
    got
}

/// The empty set, the full one, and by column: it alone, all but it, all up to it, all from it on.
fn regular_sets() -> Vec<u64> {
    let by_column = (0..64).map(|bit| 1 << bit).flat_map(|alone: u64| [alone, !alone, alone | (alone - 1), !(alone - 1)]);
    [0, u64::MAX].into_iter().chain(by_column).collect()
}

#[test]
fn every_length_against_the_regular_sets() {
    let mut seen = Seen::default();
    for length in 1..=64 {
        for set in regular_sets() {
            hold(&mut seen, set, length);
        }
    }
    println!("regular sets: {seen:?}");
    assert_eq!(seen.beyond + seen.within, 64 * 258);
    // each column below 64 alone, as the last of all up to it and without it in the full set; 64 too, and all from any column on
    assert!(seen.just_beyond > 120 && seen.just_within > 120);
}

#[test]
fn drawn_sets() {
    let mut draw = Draw::new(81);
    let mut seen = Seen::default();
    for _ in 0..200_000 {
        let length = draw.between(1, 64);
        let last = draw.between(length.saturating_sub(2), 64.min(length + 2));
        let set = [draw.word(), draw.word() & draw.word() & draw.word()][draw.between(0, 1)];
        hold(&mut seen, set, length);
        // none above a column near the length
        hold(&mut seen, if last == 0 { 0 } else { set & (u64::MAX >> (64 - last)) }, length);
    }
    println!("drawn sets: {seen:?}");
    assert!(seen.beyond > 50_000 && seen.within > 50_000 && seen.just_beyond > 20_000 && seen.just_within > 20_000);
}

#[test]
fn lengths_that_no_sheet_has() {
    let mut seen = Seen::default();
    for set in regular_sets() {
        assert_eq!(hold(&mut seen, set, 0), set != 0);
        for length in [65, 66, 127, 128, 255, 256, 1 << 16, 1 << 32, 1 << 63, usize::MAX] {
            assert!(!hold(&mut seen, set, length));
        }
    }
}

/// Each record of a sheet in turn has the set, the others the empty one: the sheet is refused with 8 exactly where the test says so.
#[test]
fn sets_in_every_record() {
    let terminal = |place, set| {
        let (least, greatest) = if place == 0 { (0, 0) } else { (1, 255) };
        Terminal { net: 1, least, greatest, set }
    };
    let mut seen = Seen::default();
    for length in 1..=64 {
        for set in regular_sets() {
            let beyond = hold(&mut seen, set, length);
            let answer = if beyond { Err(Refusal::Beyond) } else { Ok(()) };
            for record in 0..5 {
                let side =
                    |first: usize, count: usize| (0..count).map(|k| terminal(k, if first + k == record { set } else { 0 })).collect();
                for (bottom_first, mark) in [false, true].into_iter().zip(Mark::BOTH) {
                    let channel = Channel { mark, length, top: side(0, 3), bottom: side(3, 2) };
                    let sheet = sheet_of(&channel, bottom_first);
                    assert_eq!(cazdrob::check(&sheet), answer, "set {set:#x} on {length} columns in record {record}");
                    assert_eq!(cazdrob::cells(&sheet) == 0, beyond);
                }
            }
        }
    }
    println!("sets in records: {seen:?}");
    assert!(seen.beyond > 12_000 && seen.within > 4_000);
}

/// A terminal that may stand in one column alone stands there, in the first record of either section.
#[test]
fn each_bit_is_its_column() {
    let mut searcher = Searcher::new();
    for length in 1..=64 {
        for column in 1..=length {
            let one = vec![Terminal { net: 1, least: 0, greatest: 0, set: 1 << (column - 1) }];
            for (mark, (top, bottom)) in Mark::BOTH.into_iter().zip([(one.clone(), vec![]), (vec![], one)]) {
                let sheet = sheet_of(&Channel { mark, length, top, bottom }, false);
                assert_eq!(searcher.assign(&sheet).map(|best| best.columns), Ok(vec![column as u8]));
            }
        }
    }
}
