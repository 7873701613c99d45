//! Two sides of modules: which are refused, with which number, and every byte of the sheets that are made.
use crate::draw::{module, modules, sheet_of, Draw};
use crate::lent::Lent;
use crate::reference;
use crate::sides::{channel, needed, read, refusals, Side};
use cazdrob::{Module, Pin, Refusal, Searcher, SHEET_MAX};
use std::collections::BTreeMap;

extern "C" {
    fn cazdrob_modules(
        length: usize,
        top: *const u8,
        top_len: usize,
        bottom: *const u8,
        bottom_len: usize,
        sheet: *mut u8,
        sheet_len: usize,
        written: *mut usize,
    ) -> u32;
}

/// How often each number was returned, and what lay behind it.
#[derive(Debug, Default)]
struct Seen {
    returned: [u32; 18],
    /// By the number returned and one behind it in the order of the answers that applied too.
    also: BTreeMap<(u32, u32), u32>,
    /// The only cause of the number returned: on top, at the bottom.
    alone: BTreeMap<String, [u32; 2]>,
    /// 16 was returned for the bottom alone, and a set of the top was behind 17.
    sixteen_below_seventeen: u32,
    /// A sheet was made with a module wider than the channel, which has the empty set.
    wider_made: u32,
}

impl Seen {
    fn count(&mut self, length: usize, sides: &[Side; 2], refused: &[u32]) {
        let number = refused.first().copied().unwrap_or(0);
        self.returned[number as usize] += 1;
        for later in refused.iter().skip(1) {
            *self.also.entry((number, *later)).or_default() += 1;
        }
        let [top, bottom] = sides.each_ref().map(|side| causes(number, length, side));
        match (&top[..], &bottom[..]) {
            ([cause], []) => self.alone.entry(cause.clone()).or_default()[0] += 1,
            ([], [cause]) => self.alone.entry(cause.clone()).or_default()[1] += 1,
            _ => {}
        }
        self.sixteen_below_seventeen += u32::from(number == 16 && top.is_empty() && sides[0].beyond(length).next().is_some());
        let wider = sides.iter().flat_map(|side| &side.modules).any(|module| usize::from(module.width) > length);
        self.wider_made += u32::from(number == 0 && wider);
    }

    fn print(&self, test: &str) {
        println!("{test}: times that each number 0 to 17 was returned");
        println!("  {:?}", self.returned);
        println!("  with one that applied too: {:?}", self.also);
        println!("  alone, on top and at the bottom: {:?}", self.alone);
        println!("  16 below 17: {}, with a module wider than the channel: {}", self.sixteen_below_seventeen, self.wider_made);
    }
}

/// What of the side is behind the number.
fn causes(number: u32, length: usize, side: &Side) -> Vec<String> {
    match number {
        16 => side.faults().into_iter().map(|fault| format!("16: {fault:?}")).collect(),
        17 => {
            let kind = |module: &Module| if usize::from(module.width) > length { "17: wider than the channel" } else { "17: an edge" };
            side.beyond(length).map(|module| kind(module).to_string()).collect()
        }
        4 if side.pins().count() > 64 => vec!["4: a side".to_string()],
        6 => side.pins().filter(|pin| pin.net == 0).map(|_| "6: a net".to_string()).collect(),
        _ => vec![],
    }
}

/// The sheet, or the number of the refusal, by the rules.
fn answer(length: usize, sides: &[Side; 2], sheet_len: usize) -> Result<Vec<u8>, u32> {
    match refusals(length, sides, sheet_len).first() {
        Some(number) => Err(*number),
        None => Ok(sheet_of(&channel(length, sides), false)),
    }
}

/// Holds a call on a buffer of this length, and gives its answer.
fn hold(draw: &mut Draw, length: usize, lists: &[Vec<u8>; 2], sheet_len: usize, seen: &mut Seen) -> Result<Vec<u8>, u32> {
    let sides = read(lists);
    let wanted = answer(length, &sides, sheet_len);
    let made = wanted.as_deref().unwrap_or(&[]);

    let [mut top, mut bottom] = lists.each_ref().map(|list| Lent::around(draw, list, |w| w as u8));
    let mut sheet = Lent::garbage(draw, sheet_len, |w| w as u8);
    let mut written = Lent::garbage(draw, 1, |w| w as usize);
    let before = (top.clone(), bottom.clone(), sheet.clone(), written.clone());
    let number = {
        let (top, bottom, sheet, written) = (top.lend(), bottom.lend(), sheet.lend(), written.lend());
        // SAFETY: the pointers and lengths are those of slices, no two of which overlap.
        unsafe {
            cazdrob_modules(
                length,
                top.as_ptr(),
                top.len(),
                bottom.as_ptr(),
                bottom.len(),
                sheet.as_mut_ptr(),
                sheet.len(),
                written.as_mut_ptr(),
            )
        }
    };
    assert_eq!(number, *wanted.as_ref().err().unwrap_or(&0), "{sides:?} on {length} columns and {sheet_len} bytes");
    top.hold(&before.0, [].into_iter(), "the top list");
    bottom.hold(&before.1, [].into_iter(), "the bottom list");
    sheet.hold(&before.2, made.iter().copied(), "the sheet");
    written.hold(&before.3, [made.len()].into_iter(), "the length of the sheet");

    let mut lent = before.2.clone();
    let wrapped = cazdrob::modules(length, top.lend(), bottom.lend(), lent.lend());
    assert_eq!(wrapped.map_err(Refusal::number), wanted.as_ref().map(Vec::len).map_err(|number| *number));
    assert_eq!(wrapped == Err(Refusal::SheetBuffer), number == 9);
    lent.hold(&before.2, made.iter().copied(), "the wrapper's sheet");

    if number == 0 {
        assert_eq!(cazdrob::check(made), Ok(()));
        assert_eq!(reference::read(made), Ok(channel(length, &sides)));
    }
    seen.count(length, &sides, &refusals(length, &sides, sheet_len));
    wanted
}

/// Holds the wrapper's call of two sides, then the C function's on a buffer of just the length that is needed, and gives the answer.
fn hold_modules(draw: &mut Draw, length: usize, [top, bottom]: &[Vec<Module>; 2], seen: &mut Seen) -> Result<Vec<u8>, u32> {
    let lists = [cazdrob::side(top), cazdrob::side(bottom)];
    let sides = read(&lists);
    assert_eq!((&sides[0].modules, &sides[1].modules), (top, bottom));
    let wrapped = cazdrob::sheet_of_modules(length, top, bottom).map_err(Refusal::number);
    assert_eq!(wrapped, answer(length, &sides, SHEET_MAX));
    hold(draw, length, &lists, needed(&sides), seen)
}

/// Two drawn sides that nothing is wrong with on this length, but that a few have more than 64 pins.
fn pair(draw: &mut Draw, length: usize) -> [Vec<Module>; 2] {
    let widest = draw.of(&[3, 6, length.min(20), 64]);
    [(); 2].map(|()| {
        let count = if draw.once_in(12) { 16 } else { draw.between(0, 5) };
        modules(draw, length, count, widest)
    })
}

/// Does one thing to a side for which it is refused, or nearly.
fn damage(draw: &mut Draw, length: usize, side: &mut Vec<Module>) {
    if side.is_empty() {
        *side = modules(draw, length, 1, 8);
    }
    let at = draw.between(0, side.len() - 1);
    let Module { width, edges, pins } = &mut side[at];
    if pins.is_empty() {
        return;
    }
    let (pin, last) = (draw.between(0, pins.len() - 1), pins.len() - 1);
    match draw.between(0, 10) {
        0 => pins.clear(),
        1 => *width = draw.of(&[0, 0, 65, 66, 128, 255]),
        2 => pins[0].offset = 0,
        3 => {
            // two pins in one column, or in falling order
            pins.insert(pin, pins[pin]);
            pins[pin].offset += u8::from(draw.once_in(2));
        }
        4 => pins[last].offset = width.saturating_add(draw.of(&[1, 1, 2, 100])),
        5 => pins[pin].net = 0,
        6 => {
            // the first left edge that is too far right
            let edge = (length + 2).saturating_sub(usize::from(*width)).clamp(1, 64);
            *edges |= 1 << (edge - 1);
        }
        7 => *edges = draw.word(),
        8 => {
            *width = draw.between((length + 1).min(64), 64) as u8;
            *edges = draw.of(&[0, 0, 1, *edges]);
        }
        9 => side.extend(modules(draw, length, 17 - at.min(16), 4)),
        _ => {
            // above 64 pins, or just not
            let pins = draw.between(31, 34);
            *side = vec![module(draw, length, pins, pins), module(draw, length, pins, pins)];
        }
    }
}

/// Lengths that no channel has, most of them in range where their high bytes are lost.
const NO_LENGTHS: [usize; 12] = [0, 65, 66, 128, 256, 257, 264, 65_536 + 8, (1 << 32) + 8, (1 << 63) + 8, usize::MAX - 64, usize::MAX];

#[test]
fn drawn_sides() {
    let mut draw = Draw::new(81);
    let mut seen = Seen::default();
    for _ in 0..30_000 {
        let length = match draw.between(0, 7) {
            0 => 64,
            1 => 1,
            2 | 3 => draw.between(1, 64),
            _ => draw.between(2, 16),
        };
        let mut sides = pair(&mut draw, length);
        for _ in 0..draw.of(&[0, 0, 1, 1, 1, 2, 4]) {
            let place = draw.between(0, 1);
            damage(&mut draw, length, &mut sides[place]);
        }
        let length = if draw.once_in(12) { draw.of(&NO_LENGTHS) } else { length };
        hold_modules(&mut draw, length, &sides, &mut seen).ok();

        // the same with another buffer, some with a list cut short
        let mut lists = sides.map(|side| cazdrob::side(&side));
        if draw.once_in(6) {
            let list = &mut lists[draw.between(0, 1)];
            list.truncate(list.len().saturating_sub(draw.between(1, 14)));
        }
        let needed = needed(&read(&lists));
        let sheet_len = if draw.once_in(4) { needed - draw.of(&[1, 1, 2, 12, needed]) } else { needed + draw.of(&[1, 12, 40]) };
        hold(&mut draw, length, &lists, sheet_len, &mut seen).ok();
    }
    seen.print("drawn sides");
    for number in [0, 3, 4, 6, 9, 16, 17] {
        assert!(seen.returned[number] > 1_000, "{number}");
    }
    // nine faults, two kinds of left edge, the pins of a side, a net
    assert_eq!(seen.alone.len(), 13);
    for (cause, times) in &seen.alone {
        assert!(times.iter().all(|times| *times > 100), "{cause}");
    }
    // every two of the six refusals
    assert_eq!(seen.also.len(), 15);
    for (numbers, times) in &seen.also {
        assert!(*times > 50, "{numbers:?}");
    }
    assert!(seen.sixteen_below_seventeen > 500 && seen.wider_made > 1_000);
}

/// Each side of some pairs cut to every length.
#[test]
fn cut_lists() {
    let mut draw = Draw::new(82);
    let mut seen = Seen::default();
    for _ in 0..120 {
        let length = draw.between(1, 30);
        let sides = pair(&mut draw, length);
        for (place, side) in sides.iter().enumerate() {
            // where a module ends, a shorter side is left
            let ends: Vec<usize> = (0..=side.len()).map(|count| cazdrob::side(&side[..count]).len()).collect();
            for cut in 0..=cazdrob::side(side).len() {
                let mut lists = sides.each_ref().map(|side| cazdrob::side(side));
                lists[place].truncate(cut);
                let number = hold(&mut draw, length, &lists, SHEET_MAX, &mut seen).err();
                assert_eq!(number == Some(16), !ends.contains(&cut));
            }
        }
    }
    seen.print("cut lists");
    assert!(seen.returned[16] > 10_000 && seen.returned[0] > 500);
}

/// Lists of any bytes, most of them small numbers.
#[test]
fn any_bytes() {
    let mut draw = Draw::new(83);
    let mut seen = Seen::default();
    for _ in 0..40_000 {
        let lists = [(); 2].map(|()| {
            let len = 13 * draw.between(0, 3) + if draw.once_in(3) { draw.between(0, 12) } else { 0 };
            (0..len).map(|_| if draw.once_in(60) { draw.byte() } else { draw.of(&[0, 1, 1, 1, 1, 2]) }).collect()
        });
        let (length, sheet_len) = (draw.between(56, 65), draw.between(0, 120));
        hold(&mut draw, length, &lists, sheet_len, &mut seen).ok();
    }
    seen.print("any bytes");
    for number in [0, 3, 6, 9, 16, 17] {
        assert!(seen.returned[number] > 30, "{number}");
    }
}

/// Buffers of every length up to what is needed and some more.
#[test]
fn every_length_of_the_buffer() {
    let mut draw = Draw::new(84);
    let mut seen = Seen::default();
    for _ in 0..60 {
        let length = draw.between(1, 64);
        let lists = pair(&mut draw, length).map(|side| cazdrob::side(&side));
        let sides = read(&lists);
        if refusals(length, &sides, SHEET_MAX).is_empty() {
            let needed = needed(&sides);
            for sheet_len in (0..=needed + 20).chain([SHEET_MAX, 4_000]) {
                let number = hold(&mut draw, length, &lists, sheet_len, &mut seen).err();
                assert_eq!(number, (sheet_len < needed).then_some(9));
            }
        }
    }
    seen.print("every length of the buffer");
    assert!(seen.returned[9] > 5_000 && seen.returned[0] > 1_000);
}

/// A module with pins in its first columns and, where it fits, with left edge 1.
fn with_pins(length: usize, width: usize, pins: usize) -> Module {
    let edges = u64::from(width <= length);
    Module { width: width as u8, edges, pins: (1..=pins as u8).map(|offset| Pin { offset, net: offset.into() }).collect() }
}

/// Holds the call with these modules on each side in turn, the other one empty, to this length of the sheet or this refusal.
fn on_each_side(length: usize, modules: &[Module], wanted: Result<usize, u32>) {
    let mut draw = Draw::new(85);
    for sides in [[modules.to_vec(), vec![]], [vec![], modules.to_vec()]] {
        let made = hold_modules(&mut draw, length, &sides, &mut Seen::default());
        assert_eq!(made.map(|sheet| sheet.len()), wanted, "{length} columns, {modules:?}");
    }
}

#[test]
fn numbers_of_pins() {
    let side = |length, pins: &[usize]| pins.iter().map(|pins| with_pins(length, *pins, *pins)).collect::<Vec<Module>>();
    // on 8 columns most of these modules are wider than the channel
    for length in [8, 64] {
        for pins in [&[64][..], &[32, 32], &[63, 1], &[31, 33], &[4; 16]] {
            on_each_side(length, &side(length, pins), Ok(12 * 64 + 12));
        }
        for pins in [&[33, 33][..], &[32, 33], &[64, 1], &[1, 64], &[5; 13], &[64; 16]] {
            on_each_side(length, &side(length, pins), Err(4));
        }
    }
    let longest = hold_modules(&mut Draw::new(86), 64, &[side(64, &[32, 32]), side(64, &[64])], &mut Seen::default());
    assert_eq!(longest.map(|sheet| sheet.len()), Ok(SHEET_MAX));
}

#[test]
fn numbers_of_modules() {
    for count in 0..=16 {
        on_each_side(20, &vec![with_pins(20, 1, 1); count], Ok(12 * count + 12));
    }
    for count in [17, 18, 32, 33, 64, 65, 256, 257, 300] {
        on_each_side(20, &vec![with_pins(20, 1, 1); count], Err(16));
    }
}

#[test]
fn lengths_of_the_channel() {
    for length in 1..=64 {
        on_each_side(length, &[], Ok(12));
        on_each_side(length, &[with_pins(length, length, 1)], Ok(24));
    }
    for length in NO_LENGTHS {
        on_each_side(length, &[], Err(3));
        on_each_side(length, &[with_pins(length, 1, 1)], Err(3));
        on_each_side(length, &[with_pins(length, 0, 0)], Err(3));
    }
}

/// More pins in a module than its list has a way to say: refused as such, after the length and before a left edge on top.
#[test]
fn more_pins_than_a_byte_can_say() {
    for count in [65, 255, 256, 257, 256 + 20, 65_536 + 20] {
        let pins = (0..count).map(|pin| Pin { offset: (pin % 64 + 1) as u8, net: 1 }).collect();
        let modules = [Module { edges: u64::MAX, ..with_pins(64, 2, 1) }, Module { pins, ..with_pins(64, 64, 1) }];
        for (length, wanted) in [(64, Refusal::Module), (65, Refusal::Length)] {
            assert_eq!(cazdrob::sheet_of_modules(length, &modules, &[]), Err(wanted));
            assert_eq!(cazdrob::sheet_of_modules(length, &modules[..1], &modules[1..]), Err(wanted));
        }
    }
}

/// Every left edge alone, of every width on every length. The pin is in the module's last column.
#[test]
fn every_left_edge() {
    let mut made = 0;
    for length in 1..=64usize {
        for width in 1..=64usize {
            for edge in 1..=64usize {
                let pins = vec![Pin { offset: width as u8, net: 1 }];
                let list = cazdrob::side(&[Module { width: width as u8, edges: 1 << (edge - 1), pins }]);
                let column = edge + width - 1;
                let wanted = if column <= length { (Ok(24), 1 << (column - 1)) } else { (Err(17), 0u64) };
                for (top, bottom) in [(&list[..], &[][..]), (&[], &list)] {
                    let mut sheet = [0; 24];
                    let written = cazdrob::modules(length, top, bottom, &mut sheet).map_err(Refusal::number);
                    assert_eq!((written, u64::from_le_bytes(sheet[4..12].try_into().unwrap())), wanted);
                    made += u32::from(written.is_ok());
                }
            }
        }
    }
    // the places of a module on a channel of 64 columns, summed over all lengths: 64·65·66/6 on each side
    assert_eq!(made, 2 * 45_760);
}

/// The first pin of a module at every offset, with every number of columns between the last pin of the module before and that one's end.
#[test]
fn every_distance_between_modules() {
    let mut draw = Draw::new(87);
    let one = |offset| Module { width: 64, edges: 0, pins: vec![Pin { offset, net: 1 }] };
    for behind in 0..=63 {
        for offset in 1..=64 {
            let sides = [vec![one(64 - behind), one(offset)], vec![]];
            let sheet = hold_modules(&mut draw, 9, &sides, &mut Seen::default()).unwrap();
            assert_eq!(sheet[14..16], [behind + offset, 255]);
        }
    }
}

/// The modules of docs/FORMAT.md on top, and one more at the bottom.
#[test]
fn a_known_sheet() {
    #[rustfmt::skip]
    let top = vec![
        3, 2, 7, 0, 0, 0, 0, 0, 0, 0, 1, 5, 0, 3, 6, 0, // width 3, left edges 1 to 3; net 5 at offset 1, net 6 at 3
        2, 1, 12, 0, 0, 0, 0, 0, 0, 0, 2, 2, 1, // width 2, left edges 3 and 4; net 258 at offset 2
    ];
    let bottom = vec![1, 1, 31, 0, 0, 0, 0, 0, 0, 0, 1, 6, 0]; // width 1, left edges 1 to 5; net 6
    let wanted = [
        [5, 0, 0, 0, 7, 0, 0, 0, 0, 0, 0, 0],    // columns 1 to 3
        [6, 0, 2, 2, 28, 0, 0, 0, 0, 0, 0, 0],   // columns 3 to 5, two to the right
        [2, 1, 2, 255, 24, 0, 0, 0, 0, 0, 0, 0], // columns 4 and 5, two to the right or more
        [6, 0, 0, 0, 31, 0, 0, 0, 0, 0, 0, 0],   // columns 1 to 5
        [0, 0, 3, 0, 36, 0, 1, 0, 5, 0, b'C', b'P'],
    ];
    let sheet = hold(&mut Draw::new(88), 5, &[top, bottom], 60, &mut Seen::default());
    assert_eq!(sheet, Ok(wanted.concat()));
    let best = Searcher::new().assign(&wanted.concat()).unwrap();
    assert_eq!((best.density, best.columns), (0, vec![1, 3, 5, 3]));
}

/// Both sides out of one list, each with some of its modules.
#[test]
fn lists_that_overlap() {
    let mut draw = Draw::new(89);
    for _ in 0..200 {
        let length = draw.between(4, 20);
        let modules = modules(&mut draw, length, 6, 4);
        let list = cazdrob::side(&modules);
        let [from, to] = [2, 4].map(|count| cazdrob::side(&modules[..count]).len());
        for (top, bottom) in [(&list[..], &list[..]), (&list[..to], &list[from..]), (&list[from..to], &list[..])] {
            let wanted = answer(length, &read(&[top.to_vec(), bottom.to_vec()]), SHEET_MAX);
            let mut sheet = [0; SHEET_MAX];
            let written = cazdrob::modules(length, top, bottom, &mut sheet).map_err(Refusal::number);
            assert_eq!(written.map(|written| sheet[..written].to_vec()), wanted);
        }
    }
}
