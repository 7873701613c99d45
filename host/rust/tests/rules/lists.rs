//! Column lists, measured, with their tracks and with their chains: assignments, lists that are nearly one, any bytes, wrong lengths.
use crate::draw::{channel_up_to, sheet_of, Draw};
use crate::lent::{Bad, Held, Seen};
use crate::reference::Channel;

/// A column of the terminal's set, where it has one.
fn allowed(draw: &mut Draw, channel: &Channel, at: usize) -> Option<u8> {
    let terminal = channel.top.iter().chain(&channel.bottom).nth(at)?;
    let columns: Vec<u8> = (1..=64).filter(|c| terminal.set & (1 << (c - 1)) != 0).collect();
    (!columns.is_empty()).then(|| draw.of(&columns))
}

/// Holds the measurement of a list, its tracks and its chain.
fn hold(draw: &mut Draw, held: &Held, list: &[u8], seen: &mut Seen) {
    held.measure(draw, list, seen);
    let room = held.room(draw);
    held.tracks(draw, list, room, seen).ok();
    held.chain(draw, list, seen);
}

fn measured(test: &str, seed: u64, sheets: usize, lists: usize, length: usize, p: usize, q: usize) -> Seen {
    let mut draw = Draw::new(seed);
    let mut seen = Seen::default();
    for _ in 0..sheets {
        let (channel, list) = channel_up_to(&mut draw, length, p, q);
        let held = Held::new(sheet_of(&channel, draw.once_in(2)));
        let terminals = channel.terminals();
        // without an assignment at hand, rising columns
        let near = list.unwrap_or_else(|| (0..terminals).map(|place| (place % channel.length) as u8 + 1).collect());
        hold(&mut draw, &held, &near, &mut seen);
        for _ in 0..lists {
            let mut list = near.clone();
            match draw.between(0, 7) {
                // one or two columns moved a little
                0..=2 => {
                    for _ in 0..draw.between(1, 2).min(terminals) {
                        let at = draw.between(0, terminals - 1);
                        let step = draw.of(&[1, 255, 2, 254]);
                        list[at] = list[at].wrapping_add(step);
                    }
                }
                // columns that no sheet has
                3 if terminals > 0 => list[draw.between(0, terminals - 1)] = draw.of(&[0, 64, 65, 66, 128, 129, 192, 255]),
                // a column of the set of its terminal, wherever that leaves the distances: of a few terminals, or of each
                4 if terminals > 0 => {
                    for _ in 0..draw.between(1, 3) {
                        let at = draw.between(0, terminals - 1);
                        list[at] = allowed(&mut draw, &channel, at).unwrap_or(list[at]);
                    }
                }
                5 => list = (0..terminals).map(|at| allowed(&mut draw, &channel, at).unwrap_or(list[at])).collect(),
                6 => list = (0..terminals).map(|_| draw.between(0, channel.length + 1) as u8).collect(),
                // a list of another length
                _ => {
                    list = (0..draw.between(0, terminals + 3)).map(|_| draw.between(1, channel.length) as u8).collect();
                }
            }
            hold(&mut draw, &held, &list, &mut seen);
        }
    }
    seen.print(test);
    seen
}

/// Whether the bad pairs behind 14 lay in every way, in each more often than this.
fn in_every_way(bad: &Bad, times: u32) -> bool {
    let Bad { top_alone, bottom_alone, both, sides_differ, later_differs, too_close, too_far } = *bad;
    [top_alone, bottom_alone, both, sides_differ, later_differs, too_close, too_far].into_iter().all(|seen| seen > times)
}

#[test]
fn lists_of_small_sheets() {
    let seen = measured("lists of small sheets", 31, 10_000, 20, 8, 5, 5);
    for number in [0, 12, 13, 14] {
        assert!(seen.measure[number] > 10_000, "{number}");
    }
    assert!(in_every_way(&seen.bad, 3_000));
    assert!(seen.straight.denser > 300 && seen.straight.bound > 300 && seen.straight.own_track > 10);
}

#[test]
fn lists_of_large_sheets() {
    let seen = measured("lists of large sheets", 32, 2_000, 20, 64, 64, 64);
    for number in [0, 12, 13, 14] {
        assert!(seen.measure[number] > 2_000, "{number}");
    }
    assert!(in_every_way(&seen.bad, 2_000) && seen.straight.denser > 0);
}

/// Every list of a small sheet, also with columns 0 and L+1.
#[test]
fn every_list_of_a_small_sheet() {
    let mut draw = Draw::new(33);
    let mut seen = Seen::default();
    for _ in 0..60 {
        let (channel, _) = channel_up_to(&mut draw, 4, 2, 2);
        let held = Held::new(sheet_of(&channel, draw.once_in(2)));
        let columns = channel.length + 2;
        for mut number in 0..columns.pow(channel.terminals() as u32) {
            let next = |_| {
                let column = number % columns;
                number /= columns;
                column as u8
            };
            let list: Vec<u8> = (0..channel.terminals()).map(next).collect();
            hold(&mut draw, &held, &list, &mut seen);
        }
    }
    seen.print("every list of a small sheet");
    assert!(seen.measure[0] > 100 && seen.measure[13] > 1_000 && seen.measure[14] > 100);
    assert!(seen.bad.top_alone > 50 && seen.bad.bottom_alone > 50 && seen.bad.sides_differ > 50);
}

/// A list of every length, and every byte as a column.
#[test]
fn every_length_and_every_byte() {
    let mut draw = Draw::new(34);
    let mut seen = Seen::default();
    for _ in 0..40 {
        let (channel, list) = channel_up_to(&mut draw, 64, 6, 6);
        let held = Held::new(sheet_of(&channel, draw.once_in(2)));
        let terminals = channel.terminals();
        for length in 0..=terminals + 20 {
            hold(&mut draw, &held, &vec![1; length], &mut seen);
        }
        for at in 0..terminals {
            let mut list = list.clone().unwrap_or_else(|| vec![1; terminals]);
            for byte in 0..=255 {
                list[at] = byte;
                hold(&mut draw, &held, &list, &mut seen);
            }
        }
    }
    seen.print("every length and every byte");
    assert!(seen.measure[12] > 800 && seen.measure[13] > 20_000 && seen.measure[14] > 500 && seen.measure[0] > 300);
    assert!(in_every_way(&seen.bad, 100));
}
