//! Column and work buffers of every length around what is needed.
use crate::draw::{channel, channel_up_to, sheet_of, Draw};
use crate::lent::{Held, Seen};

#[test]
fn every_length_of_both_buffers() {
    let mut draw = Draw::new(21);
    let mut seen = Seen::default();
    for _ in 0..1_500 {
        let (channel, _) = channel_up_to(&mut draw, 8, 5, 5);
        let mut held = Held::new(sheet_of(&channel, draw.once_in(2)));
        let (terminals, cells) = (held.terminals(), held.cells());
        for columns in 0..=terminals + 5 {
            for work in [0, 1, cells / 2, cells - 1, cells, cells + 1, cells + 7] {
                held.search(&mut draw, columns, work, &mut seen);
            }
        }
    }
    seen.print("every length of both buffers");
    assert!(seen.search[0] > 15_000 && seen.search[9] > 15_000 && seen.search[10] > 15_000 && seen.search[11] > 2_000);
}

/// Every number of work cells up to what is needed and some more.
#[test]
fn every_number_of_cells() {
    let mut draw = Draw::new(22);
    let mut seen = Seen::default();
    for (length, p, q) in [(1, 0, 0), (3, 2, 2), (1, 1, 1), (7, 2, 3), (12, 1, 0)] {
        let (channel, _) = channel(&mut draw, length, p, q);
        let mut held = Held::new(sheet_of(&channel, false));
        for work in 0..=held.cells() + 20 {
            held.search(&mut draw, p + q, work, &mut seen);
        }
    }
    assert_eq!(seen.search[0] + seen.search[11], 5 * 21);
    assert!(seen.search[10] > 1_000);
}

/// A cell fewer than the largest sheets need, and as many.
#[test]
fn large_buffers() {
    let mut draw = Draw::new(23);
    let mut seen = Seen::default();
    for (p, q) in [(64, 64), (30, 20)] {
        let (channel, _) = channel(&mut draw, 64, p, q);
        let mut held = Held::new(sheet_of(&channel, false));
        let cells = held.cells();
        for (columns, work) in [(p + q, cells - 1), (p + q - 1, cells), (p + q + 5, cells + 7)] {
            held.search(&mut draw, columns, work, &mut seen);
        }
    }
    assert_eq!((seen.search[9], seen.search[10]), (2, 2));
    assert_eq!(seen.search[0] + seen.search[11], 2);
}
