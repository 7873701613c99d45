//! Sound sheets of every size, under both marks, and the reference's two searches against each other.
use crate::draw::{all_columns, channel, channel_up_to, sheet_of, Draw};
use crate::leaving::count_kinds;
use crate::lent::{Held, Seen};
use crate::reference::{Channel, Mark, Terminal};
use crate::tracks::add;
use cazdrob::Searcher;

/// Every call on the channel's sheet, on buffers of just the lengths that are needed and on longer ones.
pub fn every_call(draw: &mut Draw, channel: &Channel, list: Option<Vec<u8>>, searcher: Searcher, seen: &mut Seen) -> Searcher {
    let sheet = sheet_of(channel, draw.once_in(2));
    let mut held = Held::with(sheet, searcher);
    assert_eq!(held.read.as_ref(), Ok(channel));
    held.check(draw, seen);
    let (terminals, cells) = (held.terminals(), held.cells());
    let (columns_spare, cells_spare) = draw.of(&[(0, 0), (0, 7), (3, 0), (90, 40)]);
    held.search(draw, terminals + columns_spare, cells + cells_spare, seen);
    held.wrapped(draw);
    if let Some((least, best)) = held.best().clone() {
        held.measure(draw, &best, seen);
        let room = held.room(draw);
        held.tracks(draw, &best, room, seen).ok();
        held.chain(draw, &best, seen);
        if let Some(list) = list {
            held.measure(draw, &list, seen);
            held.tracks(draw, &list, room, seen).ok();
            held.chain(draw, &list, seen);
            assert!(channel.measure(&list).is_ok_and(|density| density >= least));
        }
    } else {
        assert_eq!(list, None);
    }
    held.searcher()
}

fn many(test: &str, seed: u64, sheets: usize, length: usize, p: usize, q: usize) -> Seen {
    let mut draw = Draw::new(seed);
    let mut seen = Seen::default();
    let mut searcher = Searcher::new();
    for _ in 0..sheets {
        let (channel, list) = channel_up_to(&mut draw, length, p, q);
        searcher = every_call(&mut draw, &channel, list, searcher, &mut seen);
    }
    seen.print(test);
    seen
}

#[test]
fn the_dynamic_programme_agrees_with_every_assignment_tried() {
    let mut draw = Draw::new(1);
    let (mut with, mut without, mut ties, mut by_kind, mut by_mark) = (0, 0, 0, [0; 4], [0; 2]);
    for _ in 0..60_000 {
        let (length, most) = draw.of(&[(4, 4), (5, 4), (6, 4), (7, 3), (9, 2)]);
        let (channel, list) = channel_up_to(&mut draw, length, most, most);
        let best = channel.best();
        assert_eq!(best, channel.best_of_all(), "{channel:?}");
        match best {
            None => without += 1,
            Some((least, best)) => {
                with += 1;
                count_kinds(&mut by_kind, &channel);
                add(&mut by_mark, &Mark::BOTH.map(|mark| channel.mark == mark));
                // a drawn assignment that only the word tells from the best one
                let tied = |list: &Vec<u8>| *list != best && channel.measure(list) == Ok(least);
                ties += u32::from(list.as_ref().is_some_and(tied));
            }
        }
    }
    println!(
        "{with} with an assignment, of them with nets of each kind {by_kind:?}, CP and CQ {by_mark:?}; {without} without; {ties} ties"
    );
    assert!(with > 40_000 && without > 5_000 && ties > 10_000);
    assert!(by_kind.iter().all(|sheets| *sheets > 9_000) && by_mark.iter().all(|sheets| *sheets > 20_000));
}

#[test]
fn small_sheets() {
    let seen = many("small sheets", 2, 100_000, 6, 4, 4);
    assert!(seen.search[0] > 80_000 && seen.search[11] > 10_000);
    assert!(seen.straight.denser > 1_500 && seen.straight.bound > 1_500 && seen.straight.own_track > 100);
}

#[test]
fn middle_sheets() {
    let seen = many("middle sheets", 3, 8_000, 24, 12, 12);
    assert!(seen.search[0] > 6_000 && seen.search[11] > 1_000 && seen.straight.denser > 30);
}

#[test]
fn large_sheets() {
    let seen = many("large sheets", 4, 400, 64, 24, 24);
    assert!(seen.search[0] > 250 && seen.search[11] > 50);
}

#[test]
fn the_largest_sheets() {
    let mut draw = Draw::new(5);
    let mut seen = Seen::default();
    let mut searcher = Searcher::new();
    let sizes =
        [(64, 64), (63, 64), (64, 40), (1, 64), (64, 0), (0, 64), (48, 48), (50, 44), (40, 40), (32, 33), (32, 32), (32, 32), (20, 64)];
    for (p, q) in sizes {
        let (channel, list) = channel(&mut draw, 64, p, q);
        searcher = every_call(&mut draw, &channel, list, searcher, &mut seen);
    }
    seen.print("the largest sheets");
    assert!(seen.search[0] >= 8);
}

/// The nets of one side in the reverse order at the other, on just as many columns of a CP sheet and on twice as many of a CQ sheet: up to
/// the greatest density of plain nets, 64.
#[test]
fn reversed_nets() {
    let mut draw = Draw::new(6);
    let mut seen = Seen::default();
    let mut searcher = Searcher::new();
    for terminals in [1, 2, 3, 7, 16, 31, 32, 64] {
        for (mark, length) in [(Mark::Cp, terminals), (Mark::Cq, (2 * terminals).min(64))] {
            let side = |nets: &mut dyn Iterator<Item = u16>| -> Vec<Terminal> {
                let terminal = |(place, net)| {
                    let (least, greatest) = if place == 0 { (0, 0) } else { (1, 255) };
                    Terminal { net, least, greatest, set: all_columns(length) }
                };
                nets.enumerate().map(terminal).collect()
            };
            let nets = 1..=terminals as u16;
            let channel = Channel { mark, length, top: side(&mut nets.clone()), bottom: side(&mut nets.rev()) };
            if length == terminals && terminals % 2 == 0 {
                // every net crosses the two columns in the middle
                assert_eq!(channel.best().map(|(density, _)| density), Some(terminals as u32));
            }
            searcher = every_call(&mut draw, &channel, None, searcher, &mut seen);
        }
    }
    assert_eq!(seen.search[0], 16);
}
