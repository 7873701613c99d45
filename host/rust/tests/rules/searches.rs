//! Searches of every way that one can go, told by a reading of the rules: a side without columns left, no distance that binds, distances
//! that bind and leave the density that the sets and the orders alone give, distances that make it greater. The sheets are drawn for each
//! of these, each answer is held to the reference, and on small sheets that to every assignment.
use crate::draw::{all_columns, channel_up_to, net, nets, range, rising, set, sheet_of, shuffle, Draw, Nets, Ranges, Sets};
use crate::lent::Lent;
use crate::reference::{leaves, names, read, within, Channel, Mark, Terminal};
use std::collections::BTreeMap;
use Way::{BothClosed, BottomClosed, Counted, Order, Table, TopClosed};

/// The columns of each terminal that the terminals on either hand leave it, pair by pair.
fn kept(side: &[Terminal], length: usize) -> Vec<Vec<u8>> {
    let named = |t: &Terminal| (1..=length as u8).filter(|column| names(t, *column)).collect();
    let mut kept: Vec<Vec<u8>> = side.iter().map(named).collect();
    for place in 1..side.len() {
        let before = kept[place - 1].clone();
        kept[place].retain(|column| before.iter().any(|other| within(&side[place], *other, *column)));
    }
    for place in (1..side.len()).rev() {
        let behind = kept[place].clone();
        kept[place - 1].retain(|column| behind.iter().any(|other| within(&side[place], *column, *other)));
    }
    kept
}

/// The least and the greatest distance that the ends of two sets of columns leave.
fn spread(before: &[u8], behind: &[u8]) -> (u8, u8) {
    (behind[0].saturating_sub(before[before.len() - 1]).max(1), behind[behind.len() - 1] - before[0])
}

/// Whether the ends of neighbouring sets leave a distance that is out of range, and whether two of their columns that rise are so far apart.
fn binds(side: &[Terminal], kept: &[Vec<u8>]) -> (bool, bool) {
    let pairs = || kept.windows(2).zip(side.iter().skip(1));
    let by_ends = pairs().any(|(sets, t)| {
        let (least, greatest) = spread(&sets[0], &sets[1]);
        least < t.least || t.greatest < greatest
    });
    let out = |t: &Terminal, one: u8, other: u8| one < other && !within(t, one, other);
    let by_columns = pairs().any(|(sets, t)| sets[0].iter().any(|one| sets[1].iter().any(|other| out(t, *one, *other))));
    assert!(by_ends || !by_columns);
    (by_ends, by_columns)
}

/// The terminals with the sets that are kept and with no distance that binds.
fn by_order(side: &[Terminal], kept: &[Vec<u8>]) -> Vec<Terminal> {
    let loosened = |(place, (t, columns)): (usize, (&Terminal, &Vec<u8>))| Terminal {
        net: t.net,
        least: if place == 0 { 0 } else { 1 },
        greatest: if place == 0 { 0 } else { 255 },
        set: columns.iter().map(|column| 1 << (column - 1)).sum(),
    };
    side.iter().zip(kept).enumerate().map(loosened).collect()
}

/// How a search goes.
#[derive(Debug, Clone, Copy, PartialEq, Eq)]
enum Way {
    /// The top has no columns left, the bottom has none, neither has.
    TopClosed,
    BottomClosed,
    BothClosed,
    /// No distance binds within the sets that are kept.
    Order,
    /// Distances bind, and the least density is that of the sets and the orders alone.
    Table,
    /// Distances bind and make it greater.
    Counted,
}

const WAYS: usize = 6;
const CLOSED: [Way; 3] = [TopClosed, BottomClosed, BothClosed];
const OPEN: [Way; 3] = [Order, Table, Counted];
const MARKS: [&str; 2] = ["CP", "CQ"];
const KINDS: [&str; 4] = ["plain nets", "nets that leave at the left", "nets that leave at the right", "nets that leave at both ends"];

/// A channel with what the rules say of it.
struct Known {
    channel: Channel,
    best: Option<(u32, Vec<u8>)>,
    way: Way,
    /// Distances are out of range by the ends of the sets, and of no two columns of theirs.
    ends_alone: bool,
    /// By how much distances that bind make the least density greater.
    above: u32,
    /// The sets, with no distance that binds, make it greater.
    sets_tell: bool,
    /// How many assignments have the least density, where all were tried.
    tied: usize,
}

/// So many pairs of the sides' lists are tried.
fn few(draw: &mut Draw) -> usize {
    if draw.once_in(50) {
        5_000
    } else {
        150
    }
}

impl Known {
    fn of(channel: Channel, most: usize) -> Known {
        let best = channel.best();
        let kept = [&channel.top, &channel.bottom].map(|side| kept(side, channel.length));
        let closed = kept.each_ref().map(|sets| sets.iter().any(Vec::is_empty));
        let tied = if channel.length <= 8 && channel.terminals() <= 8 { tied(&channel, &best, &kept, most) } else { 0 };
        let mut known = Known { channel, best, way: Order, ends_alone: false, above: 0, sets_tell: false, tied };
        match closed {
            [true, true] => known.way = BothClosed,
            [true, false] => known.way = TopClosed,
            [false, true] => known.way = BottomClosed,
            [false, false] => known.open(kept),
        }
        assert_eq!(known.best.is_none(), closed[0] || closed[1], "{:?}", known.channel);
        known
    }

    fn open(&mut self, kept: [Vec<Vec<u8>>; 2]) {
        let Channel { mark, length, top, bottom } = &self.channel;
        let least = self.best.as_ref().map_or(0, |(least, _)| *least);
        let bound = [binds(top, &kept[0]), binds(bottom, &kept[1])];
        let sides = [by_order(top, &kept[0]), by_order(bottom, &kept[1])];
        let [top, bottom] = sides.clone();
        let loosened = Channel { mark: *mark, length: *length, top, bottom };
        let by_columns = bound.iter().any(|(_, by_columns)| *by_columns);
        let by_order = if by_columns { loosened.best().expect("loosened").0 } else { least };
        if bound.iter().any(|(by_ends, _)| *by_ends) {
            self.ends_alone = !by_columns;
            self.above = least - by_order;
            self.way = if self.above > 0 { Counted } else { Table };
        }
        // as on a channel with room for every terminal
        let room = (sides[0].len() + sides[1].len()).max(1);
        if room <= *length {
            let [top, bottom] = sides.map(|side| side.into_iter().map(|t| Terminal { set: all_columns(room), ..t }).collect());
            let free = Channel { mark: *mark, length: room, top, bottom };
            self.sets_tell = free.best().expect("room").0 < by_order;
        }
    }

    /// What is so of the sheet.
    fn traits(&self) -> Vec<&'static str> {
        let Channel { mark, length, top, bottom } = &self.channel;
        let sides = [top, bottom];
        let pins = || top.iter().chain(bottom);
        let later = || sides.iter().flat_map(|side| side.iter().skip(1));
        let some = self.channel.terminals() > 0;
        let of_net = |kind: (bool, bool)| pins().any(|t| leaves(t.net) == kind);
        let each = [
            ("sheets", true),
            ("CP", *mark == Mark::Cp),
            ("CQ", *mark == Mark::Cq),
            ("plain nets", of_net((false, false))),
            ("nets that leave at the left", of_net((true, false))),
            ("nets that leave at the right", of_net((false, true))),
            ("nets that leave at both ends", of_net((true, true))),
            ("no pins on top", top.is_empty() && !bottom.is_empty()),
            ("no pins at the bottom", bottom.is_empty() && !top.is_empty()),
            ("no pins", !some),
            ("1 column", *length == 1),
            ("2 columns", *length == 2),
            ("3 columns", *length == 3),
            ("64 columns", *length == 64),
            ("12 pins on a side", sides.iter().any(|side| side.len() >= 12)),
            ("30 pins on each side", sides.iter().all(|side| side.len() >= 30)),
            ("more pins than columns", sides.iter().any(|side| side.len() > *length)),
            ("an empty set", pins().any(|t| t.set == 0)),
            ("sets of all columns", some && pins().all(|t| t.set == all_columns(*length))),
            ("sets of one column", some && pins().all(|t| t.set.count_ones() == 1)),
            ("other sets", pins().any(|t| t.set.count_ones() > 1 && t.set != all_columns(*length))),
            ("ranges 1 to 255", later().count() > 0 && later().all(|t| (t.least, t.greatest) == (1, 255))),
            ("a least distance above 1", later().any(|t| t.least > 1)),
            ("a greatest distance below 63", later().any(|t| t.greatest < 63)),
            ("fixed distances", later().count() > 0 && later().all(|t| t.least == t.greatest)),
            ("out of range by the ends alone", self.ends_alone),
            ("greater by 2 or more", self.above > 1),
            ("the sets make the density greater", self.sets_tell),
            ("all assignments tried", self.tied > 0),
            ("of them the word decides", self.tied > 1),
        ];
        each.into_iter().filter(|(_, is)| *is).map(|(name, _)| name).collect()
    }
}

/// How many assignments have the least density, where no more than `most` pairs of lists are to be tried; else 0. Holds the reference to them.
fn tied(channel: &Channel, best: &Option<(u32, Vec<u8>)>, kept: &[Vec<Vec<u8>>; 2], most: usize) -> usize {
    let sides = [&channel.top, &channel.bottom];
    let lists = sides.map(|side| channel.side_lists(side));
    for ((side, kept), lists) in sides.into_iter().zip(kept).zip(&lists) {
        let taken = |place: usize, column: &u8| lists.iter().any(|list| list[place] == *column);
        let columns = |place: usize| (1..=channel.length as u8).filter(|column| taken(place, column)).collect::<Vec<u8>>();
        if !lists.is_empty() {
            assert_eq!((0..side.len()).map(columns).collect::<Vec<_>>(), *kept, "{channel:?}");
        }
    }
    if lists[0].len() * lists[1].len() > most {
        return 0;
    }
    assert_eq!(*best, channel.best_of_all(), "{channel:?}");
    let least = best.as_ref().map(|(least, _)| *least);
    let of_all = lists[0].iter().flat_map(|top| lists[1].iter().map(|bottom| [&top[..], bottom].concat()));
    of_all.filter(|list| Some(channel.density(list)) == least).count()
}

/// How many sheets of each way were so.
#[derive(Default)]
struct Seen {
    of: BTreeMap<&'static str, [u32; WAYS]>,
    /// Searches on just as many cells and bytes as are needed, on more, and refused with each number.
    exact: u32,
    longer: u32,
    refused: [u32; 12],
}

impl Seen {
    fn count(&mut self, known: &Known) {
        for name in known.traits() {
            self.of.entry(name).or_default()[known.way as usize] += 1;
        }
    }

    /// Asserts that of each of these ways so many sheets were so.
    fn hold(&self, names: &[&str], ways: &[Way], least: u32) {
        for name in names {
            for way in ways {
                let sheets = self.of.get(name).map_or(0, |sheets| sheets[*way as usize]);
                assert!(sheets >= least, "{name}, {way:?}: {sheets} sheets, fewer than {least}");
            }
        }
    }

    fn print(&self, test: &str) {
        println!("{test}: sheets by way, top closed, bottom closed, both closed, by order, by the table, counted up");
        for (name, sheets) in &self.of {
            println!("  {name:<34} {}", sheets.map(|sheets| format!("{sheets:>6}")).concat());
        }
        println!("  on just as many bytes and cells {}, on more {}; refused {:?}", self.exact, self.longer, self.refused);
    }
}

/// The nets of the two sides, in their orders.
fn orders(draw: &mut Draw, p: usize, q: usize) -> [Vec<u16>; 2] {
    let kinds = nets(draw);
    let most = p.max(q).max(1);
    let mut pool: Vec<u16> = (0..most).map(|_| net(draw, kinds)).collect();
    if draw.once_in(3) {
        // few nets or many, anywhere
        pool.truncate(draw.of(&[1, 2, 4, most]));
        return [p, q].map(|count| (0..count).map(|_| draw.of(&pool)).collect());
    }
    let top = pool[..p].to_vec();
    // at the bottom the same order, or with changes, or the other way round
    match draw.between(0, 4) {
        0 => pool.reverse(),
        1 => shuffle(draw, &mut pool),
        changes => (2..changes).for_each(|_| pool.swap(draw.between(0, most - 1), draw.between(0, most - 1))),
    }
    [top, pool[..q].to_vec()]
}

/// A side around a list of columns, but for a few.
fn side(draw: &mut Draw, length: usize, nets: &[u16]) -> Vec<Terminal> {
    let columns = (nets.len() <= length && !draw.once_in(10)).then(|| rising(draw, length, nets.len()));
    let (sets, ranges) = (draw.of(&Sets::ANY), draw.of(&Ranges::ANY));
    // of so many terminals one has just one column
    let single = draw.of(&[0, 0, 0, 4, 1]);
    let terminal = |(place, net): (usize, &u16)| {
        let own = columns.as_ref().map(|columns| usize::from(columns[place]));
        let distance = columns.as_ref().filter(|_| place > 0).map(|columns| usize::from(columns[place] - columns[place - 1]));
        let (least, greatest) = if place == 0 { (0, 0) } else { range(draw, ranges, distance) };
        let mut set = set(draw, sets, length, own);
        if single > 0 && draw.once_in(single) {
            set = 1 << (own.unwrap_or_else(|| draw.between(1, length)) - 1);
        }
        Terminal { net: *net, least, greatest, set }
    };
    let mut side = nets.iter().enumerate().map(terminal).collect::<Vec<_>>();
    match draw.between(0, 15) {
        0..=2 => widen(draw, &mut side, length),
        3 | 4 => close(draw, &mut side, length),
        5 => skip(draw, &mut side, length),
        _ => {}
    }
    side
}

/// Two sides of fixed distances or nearly so, each of which has room to move as a whole. The orders, the sets and the ends of the channel
/// leave many assignments, of which the distances forbid the best.
fn stiff(draw: &mut Draw, length: usize, count: usize) -> [Vec<Terminal>; 2] {
    let most = draw.of(&[2, 4, length]).min(length - count);
    let room = draw.between(most.min(1), most);
    let top = rising(draw, length - room, count);
    let mut bottom = top.clone();
    match draw.between(0, 3) {
        0 => bottom = rising(draw, length - room, count),
        1 => bottom = top.iter().rev().map(|column| (length - room + 1) as u8 - column).collect(),
        _ => {
            // one pin or some by one column further left or right
            let one_in = draw.of(&[1, 2, 4, count.max(1)]);
            for place in 0..count {
                let (low, column) = (if place == 0 { 0 } else { bottom[place - 1] }, bottom[place]);
                let high = if place + 1 == count { (length - room) as u8 + 1 } else { bottom[place + 1] };
                let other = draw.of(&[column - 1, column + 1]);
                if draw.once_in(one_in) && low < other && other < high {
                    bottom[place] = other;
                }
            }
        }
    }
    // mostly plain nets: each has a pin on each side, or two that follow each other on one side
    let (plain_in, two_in_a_row) = (draw.of(&[1, 1, 2, 4]), draw.once_in(3));
    let fresh = |draw: &mut Draw| {
        let mut nets: Vec<u16> = Vec::new();
        for place in 0..count {
            let kinds = if draw.once_in(plain_in) { Nets::Plain } else { Nets::Mixed };
            let again = two_in_a_row && place % 2 == 1;
            nets.push(if again { nets[place - 1] } else { net(draw, kinds) });
        }
        nets
    };
    let top_nets = fresh(draw);
    let mut nets = if two_in_a_row && !draw.once_in(4) { fresh(draw) } else { top_nets.clone() };
    match draw.between(0, 8) {
        0 if count > 0 => (0..2).for_each(|_| nets.swap(draw.between(0, count - 1), draw.between(0, count - 1))),
        1 if count > 0 => nets[draw.between(0, count - 1)] = draw.of(&top_nets),
        2 => nets.truncate(count - draw.between(0, 2).min(count)),
        _ => {}
    }
    let sets = draw.of(&[Sets::All, Sets::All, Sets::All, Sets::All, Sets::Most, Sets::Stretch]);
    let ranges = draw.of(&[Ranges::Exact, Ranges::Exact, Ranges::Exact, Ranges::Exact, Ranges::Near]);
    [(top, top_nets), (bottom, nets)].map(|(columns, nets)| {
        let terminal = |(place, net): (usize, u16)| {
            let column = usize::from(columns[place]);
            let (least, greatest) = match place {
                0 => (0, 0),
                _ => range(draw, ranges, Some(column - usize::from(columns[place - 1]))),
            };
            Terminal { net, least, greatest, set: set(draw, sets, length, Some(column)) }
        };
        nets.into_iter().enumerate().map(terminal).collect()
    })
}

/// Makes the ranges just as wide as the ends of the sets leave, or one of them narrower by 1 at one end.
fn widen(draw: &mut Draw, side: &mut [Terminal], length: usize) {
    side.iter_mut().skip(1).for_each(|t| (t.least, t.greatest) = (1, 255));
    let kept = kept(side, length);
    if side.len() < 2 || kept.iter().any(Vec::is_empty) {
        return;
    }
    for (t, sets) in side.iter_mut().skip(1).zip(kept.windows(2)) {
        (t.least, t.greatest) = spread(&sets[0], &sets[1]);
    }
    let one = draw.between(1, side.len() - 1);
    let Terminal { least, greatest, .. } = &mut side[one];
    if least < greatest {
        match draw.between(0, 3) {
            0 => *least += 1,
            1 => *greatest -= 1,
            _ => {}
        }
    }
}

/// Leaves the side no list of columns, or few.
fn close(draw: &mut Draw, side: &mut [Terminal], length: usize) {
    if side.is_empty() {
        return;
    }
    let one = draw.between(0, side.len() - 1);
    if one == 0 || draw.once_in(6) {
        side[one].set = if draw.once_in(2) { 0 } else { 1 << (length - 1) };
        return;
    }
    let column = draw.between(1, length);
    match draw.between(0, 4) {
        // both in one column
        0 => (side[one - 1].set, side[one].set) = (1 << (column - 1), 1 << (column - 1)),
        // farther apart than they may be, by one column or more
        1 => {
            (side[one - 1].set, side[one].set) = (1, 1 << (length - 1));
            (side[one].least, side[one].greatest) = (1, length.saturating_sub(2).max(1) as u8);
        }
        // nearer
        2 => {
            (side[one - 1].set, side[one].set) = (1 << (column - 1), all_columns(length));
            (side[one].least, side[one].greatest) = ((length - column + 1) as u8, 255);
        }
        // the whole side is wider than the channel, or just as wide
        3 => {
            let step = (length - 1) / (side.len() - 1) + usize::from(draw.once_in(2));
            side.iter_mut().skip(1).for_each(|t| (t.least, t.greatest) = (step.max(1) as u8, 255));
        }
        // no distance between the columns of the two is the range's
        _ => {
            side[one - 1].set &= 0x5555_5555_5555_5555;
            side[one].set &= 0x5555_5555_5555_5555;
            let odd = 2 * draw.between(0, length / 2) + 1;
            (side[one].least, side[one].greatest) = (odd as u8, odd as u8);
        }
    }
}

/// Sets of every other column, and distances that are out of range by the ends of these alone.
fn skip(draw: &mut Draw, side: &mut [Terminal], length: usize) {
    let others = (0x5555_5555_5555_5555 << draw.between(0, 1)) & all_columns(length);
    for (place, t) in side.iter_mut().enumerate() {
        let set = t.set & others;
        t.set = if set == 0 { others } else { set };
        if place > 0 {
            (t.least, t.greatest) = draw.of(&[(2, 255), (2, 255), (2, 63), (1, 255)]);
        }
    }
}

/// The greatest length, and the fewest and the most pins on a side.
type Sizes = (usize, usize, usize);

/// A drawn channel of these sizes; a side may have no pins, or more than there are columns.
fn drawn(draw: &mut Draw, (length, fewest, most): Sizes) -> Channel {
    if draw.once_in(12) {
        return channel_up_to(draw, length, most, most).0;
    }
    let length = if draw.once_in(4) { length } else { draw.between(fewest.max(1), length) };
    let mark = draw.of(&Mark::BOTH);
    let [p, q] = [(); 2].map(|()| match draw.between(0, 23) {
        0 => 0,
        1 => most,
        _ => draw.between(fewest.min(length), most.min(length)),
    });
    if draw.once_in(2) && p <= length {
        let [top, bottom] = stiff(draw, length, p);
        return Channel { mark, length, top, bottom };
    }
    let [tops, bottoms] = orders(draw, p, q);
    let (top, bottom) = (side(draw, length, &tops), side(draw, length, &bottoms));
    Channel { mark, length, top, bottom }
}

/// Holds the wrapper's search on buffers of these lengths.
fn hold(draw: &mut Draw, sheet: &[u8], wanted: Result<&(u32, Vec<u8>), u32>, columns_len: usize, work_len: usize, cleared: usize) {
    let mut columns = Lent::garbage(draw, columns_len, |w| w as u8);
    let mut work = Lent::garbage(draw, work_len, |w| w as u16);
    let before = (columns.clone(), work.clone());
    let answer = cazdrob::search(sheet, columns.lend(), work.lend()).map_err(|refusal| refusal.number());
    let what = || format!("the search of {sheet:?} on {columns_len} bytes and {work_len} cells");
    assert_eq!(answer, wanted.map(|(density, _)| *density), "{}", what());
    let list = wanted.map_or(&[][..], |(_, list)| list);
    assert_eq!(columns.lend()[..list.len()], *list, "{}", what());
    columns.hold(&before.0, list.iter().copied(), &what());
    work.hold(&before.1, vec![0; cleared].into_iter(), &what());
}

/// Holds the searches of the channel's sheet, on buffers that are long enough and on others, and of one that is damaged.
fn search(draw: &mut Draw, known: &Known, seen: &mut Seen) {
    let channel = &known.channel;
    let sheet = sheet_of(channel, draw.once_in(2));
    assert_eq!(read(&sheet).as_ref(), Ok(channel));
    let (terminals, cells) = (channel.terminals(), channel.cells());
    assert_eq!(cazdrob::cells(&sheet), cells);
    let spare = draw.of(&[(0, 0), (0, 0), (1, 1), (7, 40), (140, 3), (0, 9), (2, 0)]);
    hold(draw, &sheet, known.best.as_ref().ok_or(11), terminals + spare.0, cells + spare.1, cells);
    match spare {
        (0, 0) => seen.exact += 1,
        _ => seen.longer += 1,
    }
    seen.refused[11] += u32::from(known.best.is_none());
    if draw.once_in(6) && terminals > 0 {
        let (short, work) = (draw.between(0, terminals - 1), draw.of(&[0, cells - 1, cells]));
        hold(draw, &sheet, Err(9), short, work, 0);
        seen.refused[9] += 1;
    }
    if draw.once_in(6) {
        let (columns, short) = (terminals + draw.between(0, 5), draw.of(&[0, cells / 2, cells - 1]));
        hold(draw, &sheet, Err(10), columns, short, 0);
        seen.refused[10] += 1;
    }
    if draw.once_in(6) {
        let mut damaged = sheet;
        let at = draw.between(0, damaged.len() - 1);
        if draw.once_in(4) {
            damaged.truncate(at);
        } else {
            damaged[at] ^= 1 << draw.between(0, 7);
        }
        if let Err(number) = read(&damaged) {
            hold(draw, &damaged, Err(number), terminals + 2, cells + 2, 0);
            seen.refused[number as usize] += 1;
        }
    }
}

/// So many sheets, each of one of these sizes.
fn many(test: &str, seed: u64, sheets: usize, sizes: &[Sizes]) -> Seen {
    let mut draw = Draw::new(seed);
    let mut seen = Seen::default();
    for _ in 0..sheets {
        let sizes = draw.of(sizes);
        let channel = drawn(&mut draw, sizes);
        let known = Known::of(channel, few(&mut draw));
        search(&mut draw, &known, &mut seen);
        seen.count(&known);
    }
    seen.print(test);
    seen
}

#[test]
fn small() {
    let seen = many("small", 91, 40_000, &[(3, 1, 3), (5, 2, 4), (8, 2, 4), (8, 2, 4), (10, 2, 6)]);
    seen.hold(&["sheets"], &[TopClosed, BottomClosed, Order, Table], 2_500);
    seen.hold(&["sheets"], &[BothClosed, Counted], 500);
    seen.hold(&MARKS, &CLOSED, 300);
    seen.hold(&MARKS, &[Order, Table], 5_000);
    seen.hold(&MARKS, &[Counted], 40);
    seen.hold(&KINDS, &CLOSED, 150);
    seen.hold(&KINDS, &[Order, Table], 1_500);
    seen.hold(&KINDS, &[Counted], 25);
    seen.hold(&["no pins"], &[Order], 500);
    seen.hold(&["no pins at the bottom"], &[TopClosed, Order, Table], 100);
    seen.hold(&["no pins on top"], &[BottomClosed, Order, Table], 50);
    seen.hold(&["1 column"], &[TopClosed, BottomClosed, Order], 80);
    seen.hold(&["2 columns", "3 columns"], &[TopClosed, BottomClosed, Order], 300);
    seen.hold(&["3 columns"], &[Table], 700);
    seen.hold(&["more pins than columns", "an empty set"], &CLOSED, 100);
    seen.hold(&["sets of all columns"], &OPEN, 200);
    seen.hold(&["other sets"], &OPEN, 100);
    seen.hold(&["sets of one column"], &[TopClosed, BottomClosed, Order], 150);
    seen.hold(&["ranges 1 to 255"], &[TopClosed, BottomClosed, Order], 150);
    seen.hold(&["a least distance above 1", "a greatest distance below 63", "fixed distances"], &OPEN, 300);
    seen.hold(&["out of range by the ends alone"], &[Table], 60);
    seen.hold(&["greater by 2 or more"], &[Counted], 5);
    seen.hold(&["the sets make the density greater"], &[Order, Table], 150);
    seen.hold(&["all assignments tried", "of them the word decides"], &OPEN, 200);
    assert!(seen.exact > 5_000 && seen.longer > 15_000 && seen.refused[1..9].iter().sum::<u32>() > 3_000);
    assert!(seen.refused[9..].iter().all(|searches| *searches > 3_000));
}

#[test]
fn middle() {
    let seen = many("middle", 92, 9_000, &[(16, 4, 8), (24, 6, 12)]);
    seen.hold(&["sheets"], &CLOSED, 100);
    seen.hold(&["sheets"], &[Order, Table], 1_500);
    seen.hold(&["sheets"], &[Counted], 250);
    seen.hold(&MARKS, &OPEN, 70);
    seen.hold(&KINDS, &OPEN, 50);
    seen.hold(&["no pins at the bottom", "no pins on top"], &[Order, Table], 20);
    seen.hold(&["12 pins on a side"], &OPEN, 20);
    seen.hold(&["more pins than columns", "an empty set"], &CLOSED, 15);
    seen.hold(&["sets of all columns", "fixed distances"], &OPEN, 200);
    seen.hold(&["other sets"], &OPEN, 40);
    seen.hold(&["sets of one column", "ranges 1 to 255"], &[Order], 80);
    seen.hold(&["a least distance above 1"], &OPEN, 200);
    seen.hold(&["out of range by the ends alone"], &[Table], 25);
    seen.hold(&["greater by 2 or more"], &[Counted], 15);
    seen.hold(&["the sets make the density greater"], &[Order, Table], 90);
    assert!(seen.exact > 1_000 && seen.longer > 3_000 && seen.refused[9..].iter().all(|searches| *searches > 600));
}

#[test]
fn large() {
    let seen = many("large", 93, 1_500, &[(64, 6, 12), (40, 10, 16)]);
    seen.hold(&["sheets"], &CLOSED, 20);
    seen.hold(&["sheets"], &[Order, Table], 200);
    seen.hold(&["sheets"], &[Counted], 50);
    seen.hold(&MARKS, &OPEN, 10);
    seen.hold(&KINDS, &OPEN, 10);
    seen.hold(&["12 pins on a side", "sets of all columns", "other sets"], &OPEN, 10);
    seen.hold(&["64 columns"], &[Order, Table], 15);
    seen.hold(&["out of range by the ends alone"], &[Table], 8);
    seen.hold(&["the sets make the density greater"], &[Order, Table], 20);
    assert!(seen.exact > 150 && seen.longer > 500 && seen.refused[9..].iter().all(|searches| *searches > 100));
}

#[test]
fn long_sides() {
    let seen = many("long sides", 94, 150, &[(64, 30, 40)]);
    seen.hold(&["30 pins on each side"], &[TopClosed, BottomClosed], 3);
    seen.hold(&["30 pins on each side"], &[Order, Table], 20);
    seen.hold(&["30 pins on each side"], &[Counted], 2);
    seen.hold(&["64 columns"], &[Order, Table], 5);
    seen.hold(&MARKS, &[Order, Table], 8);
}

/// Every sheet of two pins a side on three columns with one of these ranges on each side, whose nets are so.
#[test]
fn every_sheet_of_three_columns() {
    let (mut draw, mut seen) = (Draw::new(95), Seen::default());
    let nets = [[1, 2, 1, 2], [1, 2, 2, 1], [1, 1, 2, 2], [1, 60_001, 62_001, 1]];
    let ranges = [(1, 1), (2, 2), (1, 255)];
    for (mark, nets) in Mark::BOTH.into_iter().flat_map(|mark| nets.map(|nets| (mark, nets))) {
        for (top_range, bottom_range) in ranges.into_iter().flat_map(|top| ranges.map(|bottom| (top, bottom))) {
            for sets in 0..8u64.pow(4) {
                let terminal = |place: usize, (least, greatest): (u8, u8)| {
                    let set = sets >> (3 * place) & 7;
                    Terminal { net: nets[place], least, greatest, set }
                };
                let top = vec![terminal(0, (0, 0)), terminal(1, top_range)];
                let bottom = vec![terminal(2, (0, 0)), terminal(3, bottom_range)];
                let known = Known::of(Channel { mark, length: 3, top, bottom }, 0);
                search(&mut draw, &known, &mut seen);
                seen.count(&known);
            }
        }
    }
    seen.print("every sheet of three columns");
    seen.hold(&["sheets"], &CLOSED, 60_000);
    seen.hold(&MARKS, &[Order, Table], 2_000);
    // with these nets none of a CQ sheet is greater
    seen.hold(&["CP"], &[Counted], 150);
}
