//! Two sheets with one mark compared: a loosened sheet's least density is no higher, a lengthened one's is the same. Of two sheets with
//! different marks nothing is promised.
use crate::draw::{all_columns, channel, channel_up_to, sheet_of, Draw};
use crate::known::free;
use crate::leaving::count_kinds;
use crate::reference::{Channel, Mark};
use crate::tracks::add;
use cazdrob::{Assignment, Refusal, Searcher};

/// The channel loosened, on a sheet with the same mark: more columns, larger sets, wider ranges, each by a draw.
fn loosened(draw: &mut Draw, first: &Channel, most: usize) -> Channel {
    let mut second = first.clone();
    second.length += draw.between(0, most - first.length);
    let whole = draw.once_in(3);
    for side in [&mut second.top, &mut second.bottom] {
        for (place, terminal) in side.iter_mut().enumerate() {
            if whole {
                terminal.set = all_columns(second.length);
            } else if draw.once_in(2) {
                terminal.set |= draw.word() & draw.word() & all_columns(second.length);
            }
            if place > 0 && draw.once_in(2) {
                terminal.least = draw.between(1, usize::from(terminal.least)) as u8;
                terminal.greatest = draw.between(usize::from(terminal.greatest), 255) as u8;
            }
        }
    }
    second
}

fn answer(draw: &mut Draw, searcher: &mut Searcher, channel: &Channel) -> Result<Assignment, Refusal> {
    let sheet = sheet_of(channel, draw.once_in(2));
    let answer = searcher.assign(&sheet);
    if let Ok(best) = &answer {
        assert_eq!(channel.measure(&best.columns), Ok(best.density));
    }
    answer
}

#[test]
fn loosened_sheets() {
    let mut draw = Draw::new(41);
    let mut searcher = Searcher::new();
    let (mut lower, mut equal, mut first_without, mut lower_by_kind, mut lower_by_mark) = (0, 0, 0, [0; 4], [0; 2]);
    // pairs under each mark, and of these where the straight wires of a CQ sheet make the first's density higher
    let (mut by_mark, mut counted) = ([0; 2], 0);
    for round in 0..60_000 {
        let most = if round % 20 == 0 { 40 } else { 12 };
        let (first, _) = channel_up_to(&mut draw, most, 9, 9);
        let second = loosened(&mut draw, &first, most);
        let marks = Mark::BOTH.map(|mark| first.mark == mark);
        let (one, two) = (answer(&mut draw, &mut searcher, &first), answer(&mut draw, &mut searcher, &second));
        match (one, two) {
            (Ok(one), Ok(two)) => {
                assert!(two.density <= one.density, "{first:?} and {second:?}");
                add(&mut by_mark, &marks);
                counted += u32::from(straight_wires_tell(&first, one.density));
                if two.density < one.density {
                    lower += 1;
                    count_kinds(&mut lower_by_kind, &first);
                    add(&mut lower_by_mark, &marks);
                } else {
                    equal += 1;
                }
            }
            (Err(Refusal::NoAssignment), Ok(_) | Err(Refusal::NoAssignment)) => first_without += 1,
            (one, two) => panic!("{one:?} and {two:?} of {first:?} and {second:?}"),
        }
    }
    println!("loosened: {lower} lower, {equal} equal, {first_without} where the first has no assignment");
    println!("  lower with nets of each kind: {lower_by_kind:?}, on CP and CQ sheets: {lower_by_mark:?}");
    println!("  with an assignment on CP and CQ sheets: {by_mark:?}, where straight wires tell: {counted}");
    assert!(lower > 1_000 && equal > 5_000 && first_without > 500 && lower_by_kind.iter().all(|pairs| *pairs > 200));
    assert!(by_mark.iter().all(|pairs| *pairs > 3_000) && lower_by_mark.iter().all(|pairs| *pairs > 500) && counted > 1_000);
}

/// Whether the density, the least one of a CQ sheet, is above that of the same channel on a CP sheet.
fn straight_wires_tell(channel: &Channel, density: u32) -> bool {
    channel.mark == Mark::Cq && channel.under(Mark::Cp).best().is_some_and(|(least, _)| least < density)
}

#[test]
fn lengthened_sheets() {
    let mut draw = Draw::new(42);
    let mut searcher = Searcher::new();
    let (mut by_density, mut by_kind, mut by_mark, mut counted) = ([0; 11], [0; 4], [0; 2], 0);
    for round in 0..20_000 {
        let most = if round % 50 == 0 { 64 } else { 16 };
        let (p, q) = (draw.between(0, 5), draw.between(0, 5));
        let length = draw.between((p + q).max(1), most);
        let (mut first, _) = channel(&mut draw, length, p, q);
        let free = |channel: &mut Channel| {
            for side in [&mut channel.top, &mut channel.bottom] {
                for (place, terminal) in side.iter_mut().enumerate() {
                    terminal.set = all_columns(channel.length);
                    (terminal.least, terminal.greatest) = if place == 0 { (0, 0) } else { (1, 255) };
                }
            }
        };
        free(&mut first);
        let mut second = first.clone();
        second.length = draw.between(length, most);
        free(&mut second);
        let one = answer(&mut draw, &mut searcher, &first).expect("room for every terminal");
        let two = answer(&mut draw, &mut searcher, &second).expect("room for every terminal");
        assert_eq!(one.density, two.density, "{first:?} and {second:?}");
        by_density[one.density as usize] += 1;
        count_kinds(&mut by_kind, &first);
        add(&mut by_mark, &Mark::BOTH.map(|mark| first.mark == mark));
        counted += u32::from(straight_wires_tell(&first, one.density));
    }
    println!("lengthened: pairs by density {by_density:?}, with nets of each kind {by_kind:?}");
    println!("  on CP and CQ sheets: {by_mark:?}, where straight wires tell: {counted}");
    // plain nets alone, with two pins each of ten at the most, have a density of up to 5
    assert!(by_density[..7].iter().all(|pairs| *pairs > 50) && by_kind.iter().all(|pairs| *pairs > 4_000));
    assert!(by_mark.iter().all(|pairs| *pairs > 3_000) && counted > 500);
}

/// Loosened or lengthened in all but its mark, a sheet may have a higher least density than before, or a lower one.
#[test]
fn pairs_of_different_marks() {
    let mut draw = Draw::new(43);
    let mut searcher = Searcher::new();
    let mut least = |channel: &Channel| answer(&mut draw, &mut searcher, channel).map(|best| best.density);
    // a straight pair on two columns, and on three
    let [two, three] = [2, 3].map(|length| free(length, &[7], &[7]));
    assert_eq!([least(&two), least(&three.under(Mark::Cq))], [Ok(0), Ok(1)]);
    assert_eq!([least(&two.under(Mark::Cq)), least(&three)], [Ok(1), Ok(0)]);

    let (mut draw, mut higher, mut lower) = (Draw::new(44), 0, 0);
    for _ in 0..12_000 {
        let first = channel_up_to(&mut draw, 10, 6, 6).0.under(Mark::Cp);
        let second = loosened(&mut draw, &first, 10).under(Mark::Cq);
        if let (Ok(one), Ok(two)) = (least(&first), least(&second)) {
            higher += u32::from(two > one);
            lower += u32::from(two < one);
        }
    }
    println!("CP sheets loosened to CQ sheets: {higher} higher, {lower} lower");
    assert!(higher > 400 && lower > 50);
}
