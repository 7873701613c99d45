//! Sheets that are not sound, or hardly: what is refused, with which number, and which of several faults is named.
use crate::draw::{all_columns, channel, channel_up_to, sheet_of, Draw};
use crate::known::free;
use crate::lent::{Held, Seen};
use crate::reference::{read, Mark};

/// Every call on the bytes, with buffers long enough for a sound sheet of this shape, or not.
fn every_call(draw: &mut Draw, sheet: Vec<u8>, seen: &mut Seen) {
    let mut held = Held::new(sheet);
    held.check(draw, seen);
    let (terminals, cells) = (held.terminals(), held.cells());
    // with a refused sheet, buffers that are too short or long enough must not matter
    let columns = terminals + draw.between(0, 4);
    let work = cells + draw.between(0, 80);
    held.search(draw, columns, work, seen);
    if cells > 0 && draw.once_in(4) {
        held.search(draw, columns.saturating_sub(3), work.saturating_sub(50), seen);
    }
    let list: Vec<u8> = (0..terminals).map(|place| place as u8 + 1).collect();
    held.measure(draw, &list, seen);
    let room = held.room(draw);
    held.tracks(draw, &list, room, seen).ok();
    held.chain(draw, &list, seen);
}

fn put(sheet: &mut [u8], at: usize, field: usize) {
    sheet[at..at + 2].copy_from_slice(&(field as u16).to_le_bytes());
}

fn get(sheet: &[u8], at: usize) -> usize {
    usize::from(sheet[at]) + 256 * usize::from(sheet[at + 1])
}

/// Damages a record: its net, its distances, or its set.
fn damage_record(draw: &mut Draw, sheet: &mut [u8], record: usize) {
    let length = get(sheet, sheet.len() - 4);
    let at = 12 * record;
    match draw.between(0, 3) {
        0 => put(sheet, at, 0),
        1 => {
            let pairs = [(0, 0), (0, 1), (1, 0), (1, 1), (2, 1), (0, 255), (255, 254), (255, 255), (128, 127), (1, 255)];
            (sheet[at + 2], sheet[at + 3]) = draw.of(&pairs);
        }
        2 => {
            // a column just above L, or any
            let column = if draw.once_in(2) { length + 1 } else { draw.between(1, 64) };
            let bit = column.clamp(1, 64) - 1;
            sheet[at + 4 + bit / 8] |= 1 << (bit % 8);
        }
        _ => sheet[at + draw.between(0, 11)] = draw.byte(),
    }
}

/// Damages a field of the trailer.
fn damage_trailer(draw: &mut Draw, sheet: &mut [u8]) {
    let trailer = sheet.len() - 12;
    let at = trailer + 2 * draw.between(0, 4);
    let old = get(sheet, at);
    let any = draw.between(0, 65_535);
    let new = [0, 1, 12, 64, 65, 256, 65_535, any, old + 1, old + 1, old.wrapping_sub(1), old.wrapping_sub(1), old + 12, old + 256];
    put(sheet, at, draw.of(&new));
}

/// Letters that are nearly a mark.
const NO_MARKS: [[u8; 2]; 12] = [*b"CX", *b"CR", *b"CO", *b"CW", *b"QC", *b"PC", *b"cq", *b"cp", *b"CC", *b"PP", *b"QQ", *b"C\0"];

pub fn damage(draw: &mut Draw, sheet: &mut Vec<u8>) {
    let len = sheet.len();
    let records = len / 12 - usize::from(len >= 12);
    match draw.between(0, 15) {
        0 if len > 0 => sheet[draw.between(0, len - 1)] = draw.byte(),
        1 if len > 0 => sheet[draw.between(0, len - 1)] ^= 1 << draw.between(0, 7),
        2 => sheet.truncate(len.saturating_sub(draw.between(1, 14))),
        3 => drop(sheet.drain(..draw.between(1, 14).min(len))),
        4 => sheet.insert(draw.between(0, len), draw.byte()),
        5 => sheet.extend((0..draw.between(1, 24)).map(|_| draw.byte()).collect::<Vec<u8>>()),
        6 if len >= 2 => {
            // the other mark too, with which the sheet is as sound as it was
            let other = draw.of(&Mark::BOTH).letters();
            let none = draw.of(&NO_MARKS);
            sheet[len - 2..].copy_from_slice(if draw.once_in(4) { &other } else { &none });
        }
        7 | 8 if len >= 12 => damage_trailer(draw, sheet),
        9 if len >= 12 => {
            // the offsets exchanged
            let trailer = len - 12;
            let (top, bottom) = (get(sheet, trailer), get(sheet, trailer + 4));
            put(sheet, trailer, bottom);
            put(sheet, trailer + 4, top);
        }
        _ if records > 0 => {
            let record = draw.between(0, records - 1);
            damage_record(draw, sheet, record);
        }
        _ => {}
    }
}

#[test]
fn one_fault_or_several() {
    let mut draw = Draw::new(11);
    let mut seen = Seen::default();
    for _ in 0..250_000 {
        let (channel, _) = channel_up_to(&mut draw, 10, 4, 4);
        let mut sheet = sheet_of(&channel, draw.once_in(2));
        for _ in 0..draw.of(&[1, 1, 2, 3, 5]) {
            damage(&mut draw, &mut sheet);
        }
        every_call(&mut draw, sheet, &mut seen);
    }
    seen.print("one fault or several");
    for number in 1..=8 {
        assert!(seen.check[number] > 5_000, "{number}");
        assert!(seen.search[number] > 5_000 && seen.measure[number] > 5_000, "{number}");
        assert!(seen.tracks[number] > 5_000 && seen.chain[number] > 5_000, "{number}");
    }
    assert!(seen.check[0] > 10_000);
}

/// Faults of the records alone, several of them, so that their order decides between 6, 7 and 8.
#[test]
fn several_faulty_records() {
    let mut draw = Draw::new(12);
    let mut seen = Seen::default();
    let mut first_in_file_would_differ = 0;
    for _ in 0..60_000 {
        let length = draw.between(1, 12);
        let (p, q) = (draw.between(0, 5), draw.between(1, 5));
        let (channel, _) = channel(&mut draw, length, p, q);
        let bottom_first = draw.once_in(2);
        let mut sheet = sheet_of(&channel, bottom_first);
        for _ in 0..draw.between(1, 6) {
            let record = draw.between(0, p + q - 1);
            damage_record(&mut draw, &mut sheet, record);
        }
        if bottom_first {
            // the same with the sections' names exchanged, so that the terminals are tried in the order of the file
            let mut exchanged = sheet.clone();
            let trailer = sheet.len() - 12;
            exchanged[trailer..trailer + 4].copy_from_slice(&sheet[trailer + 4..trailer + 8]);
            exchanged[trailer + 4..trailer + 8].copy_from_slice(&sheet[trailer..trailer + 4]);
            first_in_file_would_differ += u32::from(read(&exchanged).err() != read(&sheet).err());
        }
        every_call(&mut draw, sheet, &mut seen);
    }
    seen.print("several faulty records");
    println!("  on {first_in_file_would_differ} sheets the order of the file would give another number");
    for number in 6..=8 {
        assert!(seen.check[number] > 8_000, "{number}");
    }
    assert!(first_in_file_would_differ > 2_000);
}

/// Each field of the trailer one more and one less, on sheets of every small size and at the limits.
#[test]
fn trailer_fields_off_by_one() {
    let mut draw = Draw::new(13);
    let mut seen = Seen::default();
    let small = (0..=3).flat_map(|p| (0..=3).map(move |q| (p, q)));
    let sizes: Vec<(usize, usize)> = small.chain([(64, 0), (0, 64), (64, 64), (63, 64)]).collect();
    for (p, q) in sizes {
        for length in [1, 2, 8, 63, 64] {
            if (p + q > 64 && length > 2) || (p + q > 8 && length > 8) {
                // enough cells for one search of the largest kind elsewhere
                continue;
            }
            for bottom_first in [false, true] {
                let (channel, _) = channel(&mut draw, length, p, q);
                let sheet = sheet_of(&channel, bottom_first);
                every_call(&mut draw, sheet.clone(), &mut seen);
                for field in 0..5 {
                    for step in [1, 65_535, 256, 12, 65_524] {
                        let mut other = sheet.clone();
                        let at = sheet.len() - 12 + 2 * field;
                        put(&mut other, at, (get(&sheet, at) + step) % 65_536);
                        every_call(&mut draw, other, &mut seen);
                    }
                }
                for at in sheet.len() - 2..sheet.len() {
                    for step in [1, 255, 2, 254, 32] {
                        let mut other = sheet.clone();
                        other[at] = other[at].wrapping_add(step);
                        every_call(&mut draw, other, &mut seen);
                    }
                }
            }
        }
    }
    seen.print("trailer fields off by one");
    assert!(seen.check[0] > 200 && seen.check[2] > 800 && seen.check[3] > 200 && seen.check[4] > 100 && seen.check[5] > 1_000);
}

/// Every two letters at the end of a sheet, on small sheets: all but the two marks are refused.
#[test]
fn every_two_letters() {
    let mut draw = Draw::new(18);
    let mut seen = Seen::default();
    for (length, top, bottom) in [(1, &[][..], &[][..]), (3, &[1, 2], &[2, 1])] {
        let sheet = sheet_of(&free(length, top, bottom), false);
        for letters in 0..=65_535u16 {
            let mut other = sheet.clone();
            put(&mut other, sheet.len() - 2, letters.into());
            let [first, second] = letters.to_le_bytes();
            // every call where one letter is that of a mark
            if first == b'C' || second == b'P' || second == b'Q' {
                every_call(&mut draw, other, &mut seen);
            } else {
                Held::new(other).check(&mut draw, &mut seen);
            }
        }
    }
    seen.print("every two letters");
    assert_eq!((seen.check[0], seen.check[2]), (2 * 2, 2 * 65_534));
    assert!(seen.search[0] >= 4 && seen.search[2] > 1_000 && seen.measure[2] > 1_000);
    assert!(seen.tracks[2] > 1_000 && seen.chain[2] > 1_000);
}

/// The two marks exchanged: whatever else is wrong with a sheet is refused as it was.
#[test]
fn the_marks_exchanged() {
    let mut draw = Draw::new(19);
    let mut seen = Seen::default();
    for _ in 0..40_000 {
        let (channel, _) = channel_up_to(&mut draw, 10, 4, 4);
        let mut sheet = sheet_of(&channel, draw.once_in(2));
        for _ in 0..draw.of(&[0, 1, 2]) {
            damage(&mut draw, &mut sheet);
        }
        let number = cazdrob::check(&sheet).map_err(|r| r.number());
        if matches!(number, Err(1 | 2)) {
            continue;
        }
        let last = sheet.len() - 1;
        sheet[last] = if sheet[last] == b'P' { b'Q' } else { b'P' };
        assert_eq!(cazdrob::check(&sheet).map_err(|r| r.number()), number);
        every_call(&mut draw, sheet, &mut seen);
    }
    seen.print("the marks exchanged");
    for number in [0, 3, 4, 5, 6, 7, 8] {
        assert!(seen.check[number] > 500, "{number}");
    }
}

/// Every short length and the lengths around the longest sheet: random bytes, with more and more of the trailer put right.
#[test]
fn every_length() {
    let mut draw = Draw::new(14);
    let mut seen = Seen::default();
    for len in (0..=100).chain(760..=810).chain(1_500..=1_600) {
        for _ in 0..80 {
            let mut sheet: Vec<u8> = (0..len).map(|_| draw.byte()).collect();
            if len >= 12 {
                let right = draw.between(0, 5);
                let trailer = len - 12;
                let terminals = trailer / 12;
                if right >= 1 {
                    sheet[len - 2..].copy_from_slice(&draw.of(&Mark::BOTH).letters());
                }
                let length = draw.between(1, if terminals > 10 { 8 } else { 64 });
                if right >= 2 {
                    put(&mut sheet, trailer + 8, length);
                }
                if right >= 3 {
                    let p = draw.between(terminals.saturating_sub(65).min(65), terminals.min(65));
                    let q = terminals - p;
                    let (top, bottom) = draw.of(&[(0, 12 * p), (12 * q, 0), (0, 12 * p), (12 * q, 0), (0, 0), (12 * p, 0), (1, 12 * p)]);
                    for (field, value) in [top, p, bottom, q].into_iter().enumerate() {
                        put(&mut sheet, trailer + 2 * field, value);
                    }
                    if right >= 4 {
                        // distances and, of most records, nets and sets
                        for record in 0..terminals {
                            let at = 12 * record;
                            let first = at == top || at == bottom;
                            (sheet[at + 2], sheet[at + 3]) = if first { (0, 0) } else { (1, 255) };
                            if right == 5 {
                                let set = draw.word() & all_columns(length);
                                sheet[at + 4..at + 12].copy_from_slice(&set.to_le_bytes());
                            }
                        }
                        if terminals > 0 && draw.once_in(2) {
                            put(&mut sheet, 12 * draw.between(0, terminals - 1), 0);
                        }
                    }
                }
            }
            every_call(&mut draw, sheet, &mut seen);
        }
    }
    seen.print("every length");
    assert_eq!(seen.check[1], 12 * 80);
    for number in (0..=8).filter(|number| *number != 1) {
        assert!(seen.check[number] > 50, "{number}");
    }
}

/// A sound sheet cut at the front or at the end to every length, and its longest kind with bytes more and fewer.
#[test]
fn cut_to_every_length() {
    let mut draw = Draw::new(15);
    let mut seen = Seen::default();
    for (length, p, q) in [(8, 0, 0), (9, 1, 0), (7, 2, 3), (64, 1, 1), (12, 4, 2), (2, 64, 64), (3, 64, 63)] {
        for bottom_first in [false, true] {
            let (channel, _) = channel(&mut draw, length, p, q);
            let sheet = sheet_of(&channel, bottom_first);
            for cut in 0..=sheet.len() {
                if cut > 40 && cut + 40 < sheet.len() && cut % 12 > 1 {
                    continue;
                }
                every_call(&mut draw, sheet[cut..].to_vec(), &mut seen);
                every_call(&mut draw, sheet[..sheet.len() - cut].to_vec(), &mut seen);
            }
            for more in 1..=24 {
                let extra: Vec<u8> = (0..more).map(|_| draw.byte()).collect();
                every_call(&mut draw, [&extra[..], &sheet].concat(), &mut seen);
                every_call(&mut draw, [&sheet[..], &extra].concat(), &mut seen);
            }
        }
    }
    seen.print("cut to every length");
    assert!(seen.check[1] > 250 && seen.check[2] > 500 && seen.check[5] > 700);
}

/// Every column above L named by a set, one at a time, at every length.
#[test]
fn every_column_beyond_the_length() {
    let mut draw = Draw::new(16);
    let mut seen = Seen::default();
    for length in 1..=64 {
        let (channel, _) = channel(&mut draw, length, 2, 2);
        for column in 1..=64 {
            let mut damaged = channel.clone();
            let terminal = draw.between(0, 3);
            let side = if terminal < 2 { &mut damaged.top } else { &mut damaged.bottom };
            side[terminal % 2].set |= 1 << (column - 1);
            let sheet = sheet_of(&damaged, draw.once_in(2));
            assert_eq!(read(&sheet).err(), (column > length).then_some(8));
            let held = Held::new(sheet);
            held.check(&mut draw, &mut seen);
        }
    }
    assert_eq!((seen.check[0], seen.check[8]), (2_080, 2_016));
}

/// Every distance pair, on the first terminal of a side and on a later one.
#[test]
fn every_distance_pair() {
    let mut draw = Draw::new(17);
    let mut seen = Seen::default();
    let (channel, _) = channel(&mut draw, 5, 2, 2);
    let sheet = sheet_of(&channel, false);
    for least in 0..=255 {
        for greatest in 0..=255 {
            for record in 0..4 {
                let mut other = sheet.clone();
                (other[12 * record + 2], other[12 * record + 3]) = (least, greatest);
                let number = cazdrob::check(&other).map_err(|r| r.number()).err();
                let right = if record % 2 == 0 { least == 0 && greatest == 0 } else { least >= 1 && least <= greatest };
                assert_eq!(number, (!right).then_some(7));
                seen.check[number.unwrap_or(0) as usize] += 1;
            }
        }
    }
    assert_eq!(seen.check[0], 2 + 2 * (255 * 256 / 2));
}
