//! Drawn numbers, sheets and modules; the same seed draws the same.
use crate::reference::{Channel, Mark, Terminal};
use cazdrob::{Module, Pin};

/// SplitMix64.
pub struct Draw(u64);

impl Draw {
    pub fn new(seed: u64) -> Self {
        Draw(seed)
    }

    pub fn word(&mut self) -> u64 {
        self.0 = self.0.wrapping_add(0x9e37_79b9_7f4a_7c15);
        let mut z = self.0;
        z = (z ^ (z >> 30)).wrapping_mul(0xbf58_476d_1ce4_e5b9);
        z = (z ^ (z >> 27)).wrapping_mul(0x94d0_49bb_1331_11eb);
        z ^ (z >> 31)
    }

    pub fn byte(&mut self) -> u8 {
        self.word() as u8
    }

    /// A number from `low` to `high`, both included.
    pub fn between(&mut self, low: usize, high: usize) -> usize {
        low + (self.word() % (high - low + 1) as u64) as usize
    }

    /// True once in `n` draws.
    pub fn once_in(&mut self, n: usize) -> bool {
        self.between(1, n) == 1
    }

    pub fn of<T: Copy>(&mut self, choices: &[T]) -> T {
        choices[self.between(0, choices.len() - 1)]
    }
}

/// The bytes of a channel's sheet.
pub fn sheet_of(channel: &Channel, bottom_first: bool) -> Vec<u8> {
    let section = |terminals: &[Terminal]| {
        let record = |t: &Terminal| [&t.net.to_le_bytes()[..], &[t.least, t.greatest], &t.set.to_le_bytes()].concat();
        terminals.iter().flat_map(record).collect::<Vec<u8>>()
    };
    let (top, bottom) = (section(&channel.top), section(&channel.bottom));
    let (top_at, bottom_at) = if bottom_first { (bottom.len(), 0) } else { (0, top.len()) };
    let mut sheet = if bottom_first { [bottom, top] } else { [top, bottom] }.concat();
    for field in [top_at, channel.top.len(), bottom_at, channel.bottom.len(), channel.length] {
        sheet.extend((field as u16).to_le_bytes());
    }
    sheet.extend(channel.mark.letters());
    sheet
}

/// Columns 1 to `length`.
pub fn all_columns(length: usize) -> u64 {
    u64::MAX >> (64 - length)
}

/// How the allowed sets of a channel are drawn.
#[derive(Clone, Copy)]
pub enum Sets {
    All,
    Most,
    Half,
    Stretch,
    Few,
    Mixed,
}

impl Sets {
    pub const ANY: [Sets; 6] = [Sets::All, Sets::Most, Sets::Half, Sets::Stretch, Sets::Few, Sets::Mixed];
}

/// How the distances of a channel are drawn.
#[derive(Clone, Copy)]
pub enum Ranges {
    Free,
    Near,
    Exact,
    Mixed,
}

impl Ranges {
    pub const ANY: [Ranges; 6] = [Ranges::Free, Ranges::Free, Ranges::Near, Ranges::Exact, Ranges::Mixed, Ranges::Mixed];
}

/// Which nets a channel has: all of one kind, of all leaving kinds, or of all kinds.
#[derive(Clone, Copy)]
pub enum Nets {
    Plain,
    Left,
    Right,
    Both,
    Leaving,
    Mixed,
}

pub fn nets(draw: &mut Draw) -> Nets {
    match draw.between(0, 10) {
        0..=3 => Nets::Plain,
        4..=6 => Nets::Mixed,
        _ => draw.of(&[Nets::Left, Nets::Right, Nets::Both, Nets::Leaving]),
    }
}

/// A drawn sound channel with the given length and counts. Three of four are drawn around a column list, which is then an assignment,
/// and has it beside it.
pub fn channel(draw: &mut Draw, length: usize, p: usize, q: usize) -> (Channel, Option<Vec<u8>>) {
    let sets = draw.of(&Sets::ANY);
    let ranges = draw.of(&Ranges::ANY);
    let nets = nets(draw);
    let around = p.max(q) <= length && !draw.once_in(4);
    let mut pool: Vec<u16> = (0..draw.between(1, p + q + 1)).map(|_| net(draw, nets)).collect();
    if draw.once_in(3) {
        // each net has two pins, as nearly as the draw allows
        pool.truncate((p + q) / 2 + 1);
    }
    let side = |draw: &mut Draw, count: usize| {
        let columns = around.then(|| rising(draw, length, count));
        let terminals = (0..count)
            .map(|place| {
                let own = columns.as_ref().map(|c| usize::from(c[place]));
                let distance = columns.as_ref().filter(|_| place > 0).map(|c| usize::from(c[place] - c[place - 1]));
                let (least, greatest) = if place == 0 { (0, 0) } else { range(draw, ranges, distance) };
                Terminal { net: draw.of(&pool), least, greatest, set: set(draw, sets, length, own) }
            })
            .collect();
        (terminals, columns)
    };
    let (top, top_columns) = side(draw, p);
    let (bottom, bottom_columns) = side(draw, q);
    let list = top_columns.zip(bottom_columns).map(|(t, b)| [t, b].concat());
    (Channel { mark: draw.of(&Mark::BOTH), length, top, bottom }, list)
}

/// A drawn sound channel of this length around an assignment in which no column has pins of two nets, and that assignment.
pub fn clean(draw: &mut Draw, length: usize) -> (Channel, Vec<u8>) {
    let (sets, ranges, nets) = (draw.of(&Sets::ANY), draw.of(&Ranges::ANY), nets(draw));
    // few nets or many, or one for each column
    let one_each = draw.once_in(3);
    let count = if one_each { length } else { draw.of(&[1, 3, length / 2 + 1, length]) };
    let mut pool: Vec<u16> = Vec::new();
    while pool.len() < count {
        let net = net(draw, nets);
        if !(one_each && pool.contains(&net)) {
            pool.push(net);
        }
    }
    // of eight columns so many are empty, the others have a top pin, a bottom pin or both
    let empty = draw.of(&[0, 0, 1, 2, 4, 7, 8]);
    let letters = draw.of(&[&[1][..], &[2], &[3], &[1, 2], &[1, 2], &[1, 2, 3], &[1, 2, 3], &[1, 2, 3, 3, 3]]);
    let (mut top, mut bottom) = (vec![], vec![]);
    for column in 1..=length {
        if draw.between(1, 8) > empty {
            let letter = draw.of(letters);
            let net = if one_each { pool[column - 1] } else { draw.of(&pool) };
            if letter != 2 {
                top.push((net, column));
            }
            if letter != 1 {
                bottom.push((net, column));
            }
        }
    }
    around(draw, sets, ranges, length, [top, bottom])
}

/// A drawn sound channel around the pins of its two sides, each a net and its column, and the list of these columns.
fn around(draw: &mut Draw, sets: Sets, ranges: Ranges, length: usize, sides: [Vec<(u16, usize)>; 2]) -> (Channel, Vec<u8>) {
    let list = sides.concat().into_iter().map(|(_, column)| column as u8).collect();
    let [top, bottom] = sides.map(|pins| {
        let mut before = None;
        let terminal = |(net, column): (u16, usize)| {
            let (least, greatest) = before.map_or((0, 0), |before| range(draw, ranges, Some(column - before)));
            before = Some(column);
            Terminal { net, least, greatest, set: set(draw, sets, length, Some(column)) }
        };
        pins.into_iter().map(terminal).collect()
    });
    (Channel { mark: draw.of(&Mark::BOTH), length, top, bottom }, list)
}

/// A drawn sound channel of this length around an assignment in which nets lie over others, and that assignment: chains that branch and
/// join, and circles, with nets that lead into them, out of them and from one to another.
pub fn constrained(draw: &mut Draw, length: usize) -> (Channel, Vec<u8>) {
    let (sets, ranges, kinds) = (draw.of(&Sets::ANY), draw.of(&Ranges::ANY), nets(draw));
    // of eight columns so many are empty
    let empty = draw.of(&[0, 0, 0, 1, 2, 4, 7]);
    let columns: Vec<usize> = (1..=length).filter(|_| draw.between(1, 8) > empty).collect();
    // nodes stand for nets; so many columns have a pin of one over a pin of another
    let most = columns.len();
    let both = draw.of(&[most, most, most - most / 4, most / 2, most / 4]);
    let (pairs, nodes) = over(draw, both);
    let mut pins: Vec<Pins> = pairs.into_iter().map(|(above, below)| (Some(above), Some(below))).collect();
    match draw.between(0, 3) {
        0 => {}
        1 => pins.reverse(),
        _ => shuffle(draw, &mut pins),
    }
    // the others have one pin, or two of one net, mostly of a node that is there
    let mut all = nodes;
    while pins.len() < most {
        let node = if nodes > 0 && !draw.once_in(4) { draw.between(0, nodes - 1) } else { all };
        all = all.max(node + 1);
        let other = draw.of(&[(Some(node), None), (None, Some(node)), (Some(node), Some(node))]);
        pins.insert(draw.between(0, pins.len()), other);
    }
    let mut numbers: Vec<u16> = Vec::new();
    while numbers.len() < all {
        let net = net(draw, kinds);
        if !numbers.contains(&net) {
            numbers.push(net);
        }
    }
    let side = |pin: fn(&Pins) -> Option<usize>| {
        columns.iter().zip(&pins).filter_map(|(column, pins)| Some((numbers[pin(pins)?], *column))).collect()
    };
    let sides = [side(|pins| pins.0), side(|pins| pins.1)];
    around(draw, sets, ranges, length, sides)
}

/// The node of a column's top pin and that of its bottom pin.
type Pins = (Option<usize>, Option<usize>);

/// So many pairs of nodes, the first over the second, and how many nodes there are. They are paths of new nodes, which begin and end at a
/// new node or an old one, or end where they began; some pairs have one node twice.
fn over(draw: &mut Draw, count: usize) -> (Vec<(usize, usize)>, usize) {
    // each pair has two nodes of its own, or the lower node is always on top, so that there is no circle
    let kind = draw.between(0, 11);
    let (apart, rising) = (kind == 0, kind <= 4);
    let old_in = draw.of(&[2, 2, 4, 8]);
    let (mut pairs, mut nodes) = (vec![], 0);
    while pairs.len() < count {
        let mut node = |draw: &mut Draw, old: bool| {
            if old && !apart && nodes > 0 {
                return draw.between(0, nodes - 1);
            }
            nodes += 1;
            nodes - 1
        };
        let old = draw.once_in(old_in);
        let first = node(draw, old);
        let most = count - pairs.len();
        let few = draw.of(&[1, 2, 4, 16]).min(most);
        let steps = if apart {
            1
        } else if draw.once_in(if pairs.is_empty() { 3 } else { 6 }) {
            most
        } else {
            draw.between(1, few)
        };
        let mut last = first;
        for step in 1..=steps {
            let next = if step < steps {
                node(draw, false)
            } else if draw.once_in(3) && !apart {
                first
            } else {
                let old = draw.once_in(old_in);
                node(draw, old)
            };
            pairs.push(if rising { (last.min(next), last.max(next)) } else { (last, next) });
            last = next;
        }
    }
    (pairs, nodes)
}

pub fn shuffle<T>(draw: &mut Draw, items: &mut [T]) {
    for k in (1..items.len()).rev() {
        items.swap(k, draw.between(0, k));
    }
}

/// A drawn channel with at most this length and these counts, some of them at the limits.
pub fn channel_up_to(draw: &mut Draw, length: usize, p: usize, q: usize) -> (Channel, Option<Vec<u8>>) {
    let length = if draw.once_in(8) { length } else { draw.between(1, length) };
    let mut count = |most: usize| {
        // a side with more terminals than columns has no assignment, which few sheets should be
        let most = if draw.once_in(16) { most } else { most.min(length) };
        draw.between(0, most)
    };
    let (p, q) = (count(p), count(q));
    channel(draw, length, p, q)
}

/// A drawn module that nothing is wrong with on a channel of this length. One that is wider than the channel has the empty set.
pub fn module(draw: &mut Draw, length: usize, width: usize, pins: usize) -> Module {
    let pins = rising(draw, width, pins).into_iter().map(|offset| Pin { offset, net: net(draw, Nets::Mixed) }).collect();
    let edges = if width > length { 0 } else { set(draw, Sets::Mixed, length - width + 1, None) };
    Module { width: width as u8, edges, pins }
}

/// So many drawn modules up to so wide, most of them with few pins.
pub fn modules(draw: &mut Draw, length: usize, count: usize, widest: usize) -> Vec<Module> {
    let one = |_| {
        let width = draw.between(1, widest);
        let most = if draw.once_in(12) { width } else { width.min(3) };
        let pins = draw.between(1, most);
        module(draw, length, width, pins)
    };
    (0..count).map(one).collect()
}

/// Any of these nets, often the first or the last of its kind, one whose low byte is 0 or 255, or one of few.
pub fn net(draw: &mut Draw, nets: Nets) -> u16 {
    let (first, last) = match nets {
        Nets::Plain => (1, 60_000),
        Nets::Left => (60_001, 62_000),
        Nets::Right => (62_001, 64_000),
        Nets::Both => (64_001, 65_535),
        Nets::Leaving => {
            let one = draw.of(&[Nets::Left, Nets::Right, Nets::Both]);
            return net(draw, one);
        }
        Nets::Mixed => {
            let one = draw.of(&[Nets::Plain, Nets::Leaving]);
            return net(draw, one);
        }
    };
    let any = draw.between(first, last);
    let few = first + draw.between(0, 11);
    let low_byte = [(any & !255).max(first), (any | 255).min(last)];
    draw.of(&[first, last, low_byte[0], low_byte[1], any, any, few, few]) as u16
}

/// So many different columns in rising order.
pub fn rising(draw: &mut Draw, length: usize, count: usize) -> Vec<u8> {
    let mut columns: Vec<u8> = (1..=length as u8).collect();
    while columns.len() > count {
        columns.remove(draw.between(0, columns.len() - 1));
    }
    columns
}

pub fn set(draw: &mut Draw, sets: Sets, length: usize, own: Option<usize>) -> u64 {
    let drawn = match sets {
        Sets::All => u64::MAX,
        Sets::Most => draw.word() | draw.word() | draw.word(),
        Sets::Half => draw.word(),
        Sets::Stretch => {
            let middle = own.unwrap_or_else(|| draw.between(1, length)) as u32;
            let (below, above) = (draw.between(0, 9) as u32, draw.between(0, 9) as u32);
            (1..=64).filter(|c| middle <= c + below && *c <= middle + above).map(|c| 1u64 << (c - 1)).sum()
        }
        Sets::Few => (0..draw.between(0, 3)).fold(0, |set, _| set | 1 << draw.between(0, length - 1)),
        Sets::Mixed => {
            let one = draw.of(&[Sets::All, Sets::Most, Sets::Half, Sets::Stretch, Sets::Few]);
            set(draw, one, length, own)
        }
    };
    (drawn | own.map_or(0, |own| 1 << (own - 1))) & all_columns(length)
}

pub fn range(draw: &mut Draw, ranges: Ranges, distance: Option<usize>) -> (u8, u8) {
    let distance = distance.unwrap_or_else(|| draw.between(1, 6));
    match ranges {
        Ranges::Free => (1, 255),
        Ranges::Exact => (distance as u8, distance as u8),
        Ranges::Near => {
            let least = distance.saturating_sub(draw.between(0, 3)).max(1);
            let greatest = distance + draw.between(0, 4);
            (least as u8, greatest as u8)
        }
        Ranges::Mixed => {
            let least = draw.between(1, distance) as u8;
            let greatest = draw.between(distance, 255) as u8;
            let around = [(1, 255), (least, greatest), (distance as u8, greatest), (least, distance as u8), (1, 63), (1, 254)];
            draw.of(&around)
        }
    }
}
