//! The test of one distance on all kinds of bytes, and the calls that use it.
use crate::draw::{sheet_of, Draw};
use crate::reference::{amount, within, Channel, Mark, Terminal};
use cazdrob::{Refusal, Searcher};

/// How often the distance was too short, in range and too long, and how often it broke both bounds, so that the order of the two decides.
#[derive(Debug, Default)]
struct Seen {
    short: u32,
    in_range: u32,
    long: u32,
    both_broken: u32,
}

fn terminal(least: u8, greatest: u8, set: u64) -> Terminal {
    Terminal { net: 1, least, greatest, set }
}

/// Holds one distance, and gives its amount.
fn hold(seen: &mut Seen, [before, column, least, greatest]: [u8; 4]) -> i32 {
    let got = cazdrob::distance(before, column, least, greatest);
    let what = || format!("{before} then {column}, {least} to {greatest}");
    assert_eq!(got, amount(before, column, least, greatest), "{}", what());
    assert_eq!(got == 0, within(&terminal(least, greatest, 0), before, column), "{}", what());
    match got {
        ..=-1 => seen.short += 1,
        0 => seen.in_range += 1,
        1.. => seen.long += 1,
    }
    let distance = i32::from(column) - i32::from(before);
    seen.both_broken += u32::from(i32::from(greatest) < distance && distance < i32::from(least));
    got
}

#[test]
fn chosen_bytes_in_every_place() {
    const BYTES: [u8; 13] = [0, 1, 2, 3, 5, 62, 63, 64, 65, 127, 128, 254, 255];
    let mut seen = Seen::default();
    let mut amounts = Vec::new();
    for before in BYTES {
        for column in BYTES {
            for least in BYTES {
                for greatest in BYTES {
                    amounts.push(hold(&mut seen, [before, column, least, greatest]));
                }
            }
        }
    }
    println!("chosen bytes: {seen:?}");
    assert!(seen.short > 2_000 && seen.in_range > 2_000 && seen.long > 2_000 && seen.both_broken > 2_000);
    assert_eq!(amounts.len(), 28_561);
    assert_eq!((amounts.iter().min(), amounts.iter().max()), (Some(&-510), Some(&255)));
}

#[test]
fn drawn_bytes() {
    let mut draw = Draw::new(71);
    let mut seen = Seen::default();
    for _ in 0..50_000 {
        hold(&mut seen, [(); 4].map(|()| draw.byte()));
    }
    println!("drawn bytes: {seen:?}");
    assert!(seen.short > 4_000 && seen.in_range > 4_000 && seen.long > 4_000 && seen.both_broken > 4_000);
}

/// Two terminals with a column each: an assignment exists exactly where the distance is in range, and measuring gives its amount.
#[test]
fn searches_and_measurements_of_two_columns() {
    const COLUMNS: [u8; 9] = [1, 2, 3, 5, 32, 33, 62, 63, 64];
    const BOUNDS: [u8; 10] = [1, 2, 3, 30, 31, 62, 63, 64, 254, 255];
    let mut searcher = Searcher::new();
    let mut seen = Seen::default();
    for before in COLUMNS {
        for column in COLUMNS {
            for (k, least) in BOUNDS.into_iter().enumerate() {
                for greatest in BOUNDS.into_iter().skip(k) {
                    let amount = hold(&mut seen, [before, column, least, greatest]);
                    let pair = vec![terminal(0, 0, 1 << (before - 1)), terminal(least, greatest, 1 << (column - 1))];
                    for (mark, (top, bottom)) in Mark::BOTH.into_iter().zip([(pair.clone(), vec![]), (vec![], pair)]) {
                        let sheet = sheet_of(&Channel { mark, length: 64, top, bottom }, false);
                        let assigned = searcher.assign(&sheet).map(|best| best.columns);
                        let measured = cazdrob::measure(&sheet, &[before, column]).map(|_| ());
                        if amount == 0 {
                            assert_eq!((assigned, measured), (Ok(vec![before, column]), Ok(())));
                        } else {
                            assert_eq!((assigned, measured), (Err(Refusal::NoAssignment), Err(Refusal::OutOfRange { amount })));
                        }
                    }
                }
            }
        }
    }
    println!("two columns: {seen:?}");
    assert!(seen.short > 300 && seen.in_range > 300 && seen.long > 300);
}
