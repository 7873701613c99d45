//! The sheets with known results, under both marks, asked of the library and of the reference.
use crate::draw::{all_columns, sheet_of};
use crate::lent::refused;
use crate::reference::{amount, read, Channel, Mark, Refused, Terminal};
use cazdrob::{Assignment, Searcher};

/// A side: its nets, with these sets and, but for the first, this range.
pub fn side(nets: &[u16], sets: &[u64], least: u8, greatest: u8) -> Vec<Terminal> {
    let terminal = |place: usize| Terminal {
        net: nets[place],
        least: if place == 0 { 0 } else { least },
        greatest: if place == 0 { 0 } else { greatest },
        set: sets[place],
    };
    (0..nets.len()).map(terminal).collect()
}

/// A channel with full sets and ranges 1 to 255, on a CP sheet.
pub fn free(length: usize, top: &[u16], bottom: &[u16]) -> Channel {
    let full = |nets: &[u16]| side(nets, &vec![all_columns(length); nets.len()], 1, 255);
    Channel { mark: Mark::Cp, length, top: full(top), bottom: full(bottom) }
}

fn sheet_a() -> Channel {
    free(3, &[1, 2], &[2, 1])
}

pub fn found(channel: &Channel, density: u32, columns: &[u8]) {
    assert_eq!(channel.best_of_all(), Some((density, columns.to_vec())));
    assert_eq!(channel.best(), Some((density, columns.to_vec())));
    for bottom_first in [false, true] {
        let sheet = sheet_of(channel, bottom_first);
        assert_eq!(Searcher::new().assign(&sheet), Ok(Assignment { density, columns: columns.to_vec() }));
    }
}

fn without(channel: &Channel) {
    assert_eq!((channel.best_of_all(), channel.best()), (None, None));
    for bottom_first in [false, true] {
        let sheet = sheet_of(channel, bottom_first);
        assert_eq!(Searcher::new().assign(&sheet).map_err(|r| r.number()), Err(11));
    }
}

fn checked(sheet: &[u8]) -> u32 {
    let number = cazdrob::check(sheet).map_err(|r| r.number()).err().unwrap_or(0);
    assert_eq!(read(sheet).err().unwrap_or(0), number);
    number
}

#[test]
fn sheet_a_has_the_bytes_of_the_rules() {
    let trailer = [0x00, 0x00, 0x02, 0x00, 0x18, 0x00, 0x02, 0x00, 0x03, 0x00, 0x43, 0x50];
    let sheet = sheet_of(&sheet_a(), false);
    assert_eq!(sheet.len(), 60);
    assert_eq!(sheet[48..], trailer);
    let counted = sheet_of(&sheet_a().under(Mark::Cq), false);
    assert_eq!((&counted[..59], counted[59]), (&sheet[..59], 0x51));
}

#[test]
fn searches() {
    found(&sheet_a(), 1, &[2, 3, 1, 2]);
    assert_eq!(sheet_a().word(&[2, 3, 1, 2]), [1, 3, 2]);
    found(&free(2, &[1, 2], &[2, 1]), 2, &[1, 2, 1, 2]);
    found(&free(4, &[1, 2], &[2, 1]), 1, &[2, 3, 1, 2]);
    found(&free(1, &[7], &[7]), 0, &[1, 1]);
    found(&free(1, &[], &[]), 0, &[]);
    without(&free(1, &[1, 2], &[]));
    without(&Channel { mark: Mark::Cp, length: 1, top: side(&[1], &[0], 0, 0), bottom: vec![] });
    let far = |distance| {
        let top = side(&[1, 2], &[0b0001, 0b1010], distance, distance);
        Channel { mark: Mark::Cp, length: 4, top, bottom: vec![] }
    };
    without(&far(2));
    found(&far(3), 0, &[1, 4]);
    found(&free(2, &[4, 4], &[4]), 1, &[1, 2, 1]);
}

/// The same on CQ sheets.
#[test]
fn searches_where_straight_wires_count() {
    let counted = |length, top: &[u16], bottom: &[u16]| free(length, top, bottom).under(Mark::Cq);
    // no assignment has density 1 any more, and the smallest word leaves column 3 empty
    let sheet_a = counted(3, &[1, 2], &[2, 1]);
    found(&sheet_a, 2, &[1, 2, 1, 2]);
    assert_eq!(sheet_a.word(&[1, 2, 1, 2]), [0, 3, 3]);
    found(&counted(2, &[1, 2], &[2, 1]), 2, &[1, 2, 1, 2]);
    found(&counted(4, &[1, 2], &[2, 1]), 2, &[1, 2, 1, 2]);
    found(&counted(1, &[7], &[7]), 1, &[1, 1]);
    found(&counted(3, &[7], &[7]), 1, &[1, 1]);
    // a net with one pin, and one with three, which never share a column
    found(&counted(1, &[7], &[]), 0, &[1]);
    found(&counted(1, &[7], &[8]), 0, &[1, 1]);
    found(&counted(2, &[4, 4], &[4]), 1, &[1, 2, 1]);
    found(&counted(1, &[], &[]), 0, &[]);
    without(&counted(1, &[1, 2], &[]));
    without(&Channel { mark: Mark::Cq, length: 1, top: side(&[1], &[0], 0, 0), bottom: vec![] });
}

pub fn measured(channel: &Channel, list: &[u8], wanted: Result<u32, Refused>) {
    assert_eq!(channel.measure(list), wanted);
    for bottom_first in [false, true] {
        assert_eq!(cazdrob::measure(&sheet_of(channel, bottom_first), list).map_err(refused), wanted);
    }
}

fn out_of_range(amount: i32) -> Result<u32, Refused> {
    Err(Refused { number: 14, amount })
}

#[test]
fn measurements_on_sheet_a() {
    measured(&sheet_a(), &[1, 2, 1, 2], Ok(2));
    measured(&sheet_a(), &[1, 2, 2, 3], Ok(1));
    measured(&sheet_a(), &[2, 2, 1, 3], out_of_range(-1));
    measured(&sheet_a(), &[2, 2, 0, 1], Err(13.into()));
    measured(&sheet_a(), &[2, 2, 0], Err(12.into()));

    let counted = sheet_a().under(Mark::Cq);
    measured(&counted, &[1, 2, 1, 2], Ok(2));
    measured(&counted, &[2, 3, 1, 2], Ok(2));
    measured(&counted, &[1, 2, 2, 3], Ok(2));
    measured(&counted, &[2, 2, 1, 3], out_of_range(-1));
    measured(&counted, &[2, 2, 0, 1], Err(13.into()));
    measured(&counted, &[2, 2, 0], Err(12.into()));
}

#[test]
fn distances() {
    let rows = [((5, 2, 2, 255), -5), ((1, 4, 3, 3), 0), ((255, 0, 255, 0), -510), ((0, 255, 0, 0), 255), ((0, 5, 9, 2), -4)];
    for ((before, column, least, greatest), wanted) in rows {
        assert_eq!(amount(before, column, least, greatest), wanted);
        assert_eq!(cazdrob::distance(before, column, least, greatest), wanted);
    }
}

/// The first bad pair by place, top before bottom, and the least and the greatest amount that a sheet can have.
#[test]
fn amounts() {
    let three = |least, greatest| side(&[1, 2, 3], &[all_columns(64); 3], least, greatest);
    let channel = Channel { mark: Mark::Cp, length: 64, top: three(2, 4), bottom: three(3, 3) };
    measured(&channel, &[1, 3, 7, 1, 4, 7], Ok(1));
    // each bad pair alone
    measured(&channel, &[5, 2, 4, 1, 4, 7], out_of_range(-5));
    measured(&channel, &[1, 3, 8, 1, 4, 7], out_of_range(1));
    measured(&channel, &[1, 3, 7, 1, 5, 8], out_of_range(1));
    measured(&channel, &[1, 3, 7, 1, 4, 5], out_of_range(-2));
    // two on a side, and on both sides
    measured(&channel, &[1, 8, 7, 1, 4, 7], out_of_range(3));
    measured(&channel, &[1, 3, 7, 4, 1, 9], out_of_range(-6));
    measured(&channel, &[1, 3, 4, 1, 9, 1], out_of_range(-1));
    // a column out of its set, on whichever side, is refused first
    measured(&channel, &[5, 2, 4, 1, 4, 65], Err(13.into()));

    let far = |distance| {
        let bottom = side(&[1, 2], &[all_columns(64); 2], distance, distance);
        Channel { mark: Mark::Cp, length: 64, top: vec![], bottom }
    };
    measured(&far(255), &[64, 1], out_of_range(-318));
    measured(&far(1), &[1, 64], out_of_range(62));
}

#[test]
fn buffers_and_limits() {
    let sheet = sheet_of(&sheet_a(), false);
    let search = |columns: usize, cells: usize| {
        cazdrob::search(&sheet, &mut vec![0; columns], &mut vec![0; cells]).map_err(|refusal| refusal.number())
    };
    assert_eq!(cazdrob::cells(&sheet), 144);
    assert_eq!(search(4, 144), Ok(1));
    assert_eq!(search(4, 143), Err(10));
    assert_eq!(search(3, 143), Err(9));
    assert_eq!(cazdrob::cells(&sheet_of(&free(1, &[], &[]), false)), 4);

    assert_eq!(checked(&sheet_of(&free(64, &[1], &[]), false)), 0);
    let mut longer = sheet_of(&free(64, &[1], &[]), false);
    longer[12 + 8] = 65;
    assert_eq!(checked(&longer), 3);
    let nets: Vec<u16> = (1..=65).collect();
    assert_eq!(checked(&sheet_of(&free(64, &nets[..64], &[]), false)), 0);
    assert_eq!(checked(&sheet_of(&free(64, &nets, &[]), false)), 4);
    assert_eq!(checked(&sheet_of(&free(64, &[], &nets), false)), 4);
    assert_eq!(checked(&sheet[sheet.len() - 11..]), 1);
}
