//! The rules in plain Rust: reading and refusing a sheet, the density of a column list, its tracks, its longest chain of vertical
//! constraints, the best assignment. The dynamic programme is that of "Optimal channel pin assignment", section 5.1, with densities by
//! definition. Nothing is shared with the library.
use std::cmp::Ordering;
use std::collections::BTreeMap;

#[derive(Debug, Clone, PartialEq, Eq)]
pub struct Terminal {
    pub net: u16,
    pub least: u8,
    pub greatest: u8,
    pub set: u64,
}

/// The last two letters of a sheet, by which its nets are counted.
#[derive(Debug, Clone, Copy, PartialEq, Eq)]
pub enum Mark {
    Cp,
    Cq,
}

impl Mark {
    pub const BOTH: [Mark; 2] = [Mark::Cp, Mark::Cq];

    pub fn letters(self) -> [u8; 2] {
        match self {
            Mark::Cp => *b"CP",
            Mark::Cq => *b"CQ",
        }
    }

    /// Whether a net counts in a column that has so many of its pins left of it, in it and right of it. A plain net counts from its
    /// leftmost pin to its rightmost: on a CP sheet where these are in two columns, on a CQ sheet where they are two pins, however short
    /// the way. A net that leaves counts up to its end of the channel.
    fn counts(self, net: u16, left: usize, here: usize, right: usize) -> bool {
        let (leaves_left, leaves_right) = leaves(net);
        let runs = match self {
            Mark::Cp => left + right > 0,
            Mark::Cq => left + here + right > 1,
        };
        (leaves_left || left + here > 0) && (leaves_right || here + right > 0) && (leaves_left || leaves_right || runs)
    }

    /// Whether a net with its pins in these columns counts in a column.
    pub fn crosses(self, net: u16, pins: &[usize], column: usize) -> bool {
        let of = |order| pins.iter().filter(|pin| (**pin).cmp(&column) == order).count();
        self.counts(net, of(Ordering::Less), of(Ordering::Equal), of(Ordering::Greater))
    }
}

#[derive(Debug, Clone, PartialEq, Eq)]
pub struct Channel {
    pub mark: Mark,
    pub length: usize,
    pub top: Vec<Terminal>,
    pub bottom: Vec<Terminal>,
}

/// A net, its left end, its right end and its track.
pub type Record = [u16; 4];

/// The answer of a refused measurement, or of tracks that are refused.
#[derive(Debug, Clone, Copy, PartialEq, Eq)]
pub struct Refused {
    pub number: u32,
    /// With 14, by how many columns the first bad pair is out of range; else 0.
    pub amount: i32,
}

impl From<u32> for Refused {
    /// A refusal that carries no amount.
    fn from(number: u32) -> Self {
        Refused { number, amount: 0 }
    }
}

/// What a call for the chain returns and leaves.
#[derive(Debug, Clone, Copy, Default, PartialEq, Eq)]
pub struct Chained {
    pub number: u32,
    /// How many nets the longest chain has.
    pub chain: u32,
    pub bound: u32,
    /// With 19, the lowest net on a circle; else 0.
    pub net: u32,
    /// With 14, as of a measurement; else 0.
    pub amount: i32,
}

impl From<Refused> for Chained {
    fn from(Refused { number, amount }: Refused) -> Self {
        Chained { number, amount, ..Chained::default() }
    }
}

/// One net over another.
pub type Over = (u16, u16);

/// The nets that are reached from this one by going from a net to one that it lies over.
pub fn reached(over: &[Over], from: u16) -> Vec<u16> {
    let mut found = Vec::new();
    let mut waiting = vec![from];
    while let Some(net) = waiting.pop() {
        for (_, below) in over.iter().filter(|(above, _)| *above == net) {
            if !found.contains(below) {
                found.push(*below);
                waiting.push(*below);
            }
        }
    }
    found
}

/// The nets on a circle, in rising order.
pub fn on_circles(over: &[Over]) -> Vec<u16> {
    let mut nets: Vec<u16> = over.iter().map(|(above, _)| *above).filter(|net| reached(over, *net).contains(net)).collect();
    nets.sort_unstable();
    nets.dedup();
    nets
}

/// How many nets the longest chain has that begins with these and has no net twice, by trying them all.
fn longest_of_all(over: &[Over], chain: &mut Vec<u16>) -> u32 {
    let (mut longest, last) = (chain.len() as u32, chain.last().copied());
    for (above, below) in over {
        if last == Some(*above) && !chain.contains(below) {
            chain.push(*below);
            longest = longest.max(longest_of_all(over, chain));
            chain.pop();
        }
    }
    longest
}

/// How many nets the longest chain from this net on has, where there is no circle; what was found of the nets below it is kept.
pub fn longest_from(over: &[Over], net: u16, kept: &mut BTreeMap<u16, u32>) -> u32 {
    if let Some(longest) = kept.get(&net) {
        return *longest;
    }
    let below: Vec<u16> = over.iter().filter(|(above, _)| *above == net).map(|(_, below)| *below).collect();
    let longest = 1 + below.into_iter().map(|net| longest_from(over, net, kept)).max().unwrap_or(0);
    kept.insert(net, longest);
    longest
}

/// How many nets the longest chain of two or more has, else 0, where there is no circle. Where the constraints are few, all chains are
/// tried too.
pub fn longest_chain(over: &[Over]) -> u32 {
    let mut kept = BTreeMap::new();
    let longest = over.iter().map(|(above, _)| longest_from(over, *above, &mut kept)).max().unwrap_or(0);
    if over.len() <= 24 {
        let all = over.iter().map(|(above, _)| longest_of_all(over, &mut vec![*above])).max().unwrap_or(0);
        assert_eq!(longest, all, "{over:?}");
    }
    longest
}

fn u16_at(bytes: &[u8], at: usize) -> usize {
    usize::from(bytes[at]) + 256 * usize::from(bytes[at + 1])
}

/// The sheet as read, or the number of its refusal, 1 to 8.
pub fn read(sheet: &[u8]) -> Result<Channel, u32> {
    if sheet.len() < 12 {
        return Err(1);
    }
    let trailer = sheet.len() - 12;
    let letters = &sheet[trailer + 10..];
    let Some(mark) = Mark::BOTH.into_iter().find(|mark| mark.letters() == letters) else {
        return Err(2);
    };
    let [top_at, p, bottom_at, q, length] = [0, 2, 4, 6, 8].map(|field| u16_at(sheet, trailer + field));
    if length == 0 || length > 64 {
        return Err(3);
    }
    if p > 64 || q > 64 {
        return Err(4);
    }
    let top_first = top_at == 0 && bottom_at == 12 * p;
    let bottom_first = bottom_at == 0 && top_at == 12 * q;
    if sheet.len() != 12 * (p + q) + 12 || !(top_first || bottom_first) {
        return Err(5);
    }
    let side = |start: usize, count: usize| -> Result<Vec<Terminal>, u32> {
        let mut terminals = Vec::new();
        for place in 0..count {
            let record = &sheet[start + 12 * place..start + 12 * place + 12];
            let terminal = Terminal {
                net: u16_at(record, 0) as u16,
                least: record[2],
                greatest: record[3],
                set: u64::from_le_bytes(record[4..12].try_into().unwrap()),
            };
            if terminal.net == 0 {
                return Err(6);
            }
            let pair_is_right = if place == 0 {
                terminal.least == 0 && terminal.greatest == 0
            } else {
                1 <= terminal.least && terminal.least <= terminal.greatest
            };
            if !pair_is_right {
                return Err(7);
            }
            if beyond(terminal.set, length) {
                return Err(8);
            }
            terminals.push(terminal);
        }
        Ok(terminals)
    };
    let top = side(top_at, p)?;
    let bottom = side(bottom_at, q)?;
    Ok(Channel { mark, length, top, bottom })
}

/// Whether the set has a column above the length.
pub fn beyond(set: u64, length: usize) -> bool {
    (1..=64).any(|column| length < column && set & (1 << (column - 1)) != 0)
}

/// Whether the terminal's set has the column.
pub fn names(terminal: &Terminal, column: u8) -> bool {
    (1..=64).contains(&column) && terminal.set & (1 << (column - 1)) != 0
}

/// Whether the terminal may stand in `column` where the one before it stands in `before`.
pub fn within(terminal: &Terminal, before: u8, column: u8) -> bool {
    let distance = i32::from(column) - i32::from(before);
    i32::from(terminal.least) <= distance && distance <= i32::from(terminal.greatest)
}

/// By how many columns a terminal stands out of the stretch of columns that its range leaves it: negative where it is left of the stretch,
/// which is tried first, positive where it is right of it.
pub fn amount(before: u8, column: u8, least: u8, greatest: u8) -> i32 {
    let [before, column, least, greatest] = [before, column, least, greatest].map(i32::from);
    let (leftmost, rightmost) = (before + least, before + greatest);
    if column < leftmost {
        column - leftmost
    } else {
        0.max(column - rightmost)
    }
}

/// Whether a net leaves the channel at the left and at the right, by its number.
pub fn leaves(net: u16) -> (bool, bool) {
    match net {
        ..=60_000 => (false, false),
        60_001..=62_000 => (true, false),
        62_001..=64_000 => (false, true),
        64_001.. => (true, true),
    }
}

impl Channel {
    /// The same channel on a sheet with this mark.
    pub fn under(&self, mark: Mark) -> Channel {
        Channel { mark, ..self.clone() }
    }

    pub fn terminals(&self) -> usize {
        self.top.len() + self.bottom.len()
    }

    /// The work cells that a search needs.
    pub fn cells(&self) -> usize {
        (self.top.len() + 1) * (self.bottom.len() + 1) * (self.length + 1) * (self.length + 1)
    }

    /// The distinct nets, in rising order.
    pub fn nets(&self) -> Vec<u16> {
        let mut nets: Vec<u16> = self.top.iter().chain(&self.bottom).map(|t| t.net).collect();
        nets.sort_unstable();
        nets.dedup();
        nets
    }

    /// The columns of a net's pins.
    pub fn pins(&self, net: u16, list: &[u8]) -> Vec<usize> {
        let terminals = self.top.iter().chain(&self.bottom);
        terminals.zip(list).filter(|(t, _)| t.net == net).map(|(_, column)| usize::from(*column)).collect()
    }

    /// The density of a column list: the greatest number of nets that cross a column.
    pub fn density(&self, list: &[u8]) -> u32 {
        let nets: Vec<(u16, Vec<usize>)> = self.nets().into_iter().map(|net| (net, self.pins(net, list))).collect();
        let count = |column: usize| nets.iter().filter(|(net, pins)| self.mark.crosses(*net, pins, column)).count() as u32;
        (1..=self.length).map(count).max().unwrap()
    }

    /// The straight wires of an assignment, plain nets with two pins that share a column, and the column of each.
    pub fn straight_wires(&self, list: &[u8]) -> Vec<(u16, usize)> {
        let wire = |net: u16| match self.pins(net, list)[..] {
            [top, bottom] if leaves(net) == (false, false) && top == bottom => Some((net, top)),
            _ => None,
        };
        self.nets().into_iter().filter_map(wire).collect()
    }

    /// The columns in which a top pin stands over a bottom pin of another net.
    pub fn two_nets(&self, list: &[u8]) -> Vec<u8> {
        let (top, bottom) = list.split_at(self.top.len());
        let over = |column: u8, net: u16| self.bottom.iter().zip(bottom).any(|(b, at)| *at == column && b.net != net);
        self.top.iter().zip(top).filter(|(t, column)| over(**column, t.net)).map(|(_, column)| *column).collect()
    }

    /// The records of the nets where there is room for so many, or 12, 13, 14, 18 or 9.
    pub fn tracks(&self, list: &[u8], room: usize) -> Result<Vec<Record>, Refused> {
        self.measure(list)?;
        if !self.two_nets(list).is_empty() {
            return Err(18.into());
        }
        let mut nets = self.nets();
        if room < nets.len() {
            return Err(9.into());
        }
        nets.sort_by_key(|net| (self.ends(*net, list).0, *net));
        let mut records: Vec<Record> = Vec::new();
        for net in nets {
            let (pins, (left, right)) = (self.pins(net, list), self.ends(net, list));
            let free = |track: &u16| records.iter().all(|[_, from, to, taken]| taken != track || *to < left || right < *from);
            let crosses_some = (1..=self.length).any(|column| self.mark.crosses(net, &pins, column));
            let track = if crosses_some { (1..).find(free).unwrap() } else { 0 };
            records.push([net, left, right, track]);
        }
        Ok(records)
    }

    /// Whether vertical constraints are of this net: it leaves, or has two pins on the sheet at the least.
    pub fn constrains(&self, net: u16) -> bool {
        leaves(net) != (false, false) || self.top.iter().chain(&self.bottom).filter(|t| t.net == net).count() > 1
    }

    /// The top net and the bottom net of each column that has two pins, by top place.
    pub fn pairs(&self, list: &[u8]) -> Vec<Over> {
        let (top, bottom) = list.split_at(self.top.len());
        let under = |column: u8| self.bottom.iter().zip(bottom).filter(move |(_, at)| **at == column).map(|(b, _)| b.net);
        self.top.iter().zip(top).flat_map(|(t, column)| under(*column).map(|net| (t.net, net))).collect()
    }

    /// Which net lies over which: the vertical constraints of an assignment, each once.
    pub fn over(&self, list: &[u8]) -> Vec<Over> {
        let mut over = self.pairs(list);
        over.retain(|(above, below)| above != below && self.constrains(*above) && self.constrains(*below));
        over.sort_unstable();
        over.dedup();
        over
    }

    /// What a call for the chain of a list returns and leaves.
    pub fn chain(&self, list: &[u8]) -> Chained {
        let density = match self.measure(list) {
            Ok(density) => density,
            Err(refused) => return refused.into(),
        };
        let over = self.over(list);
        if let Some(net) = on_circles(&over).first() {
            return Chained { number: 19, net: (*net).into(), ..Chained::default() };
        }
        let chain = longest_chain(&over);
        Chained { chain, bound: chain.max(density), ..Chained::default() }
    }

    /// The left and the right end of a net.
    fn ends(&self, net: u16, list: &[u8]) -> (u16, u16) {
        let pins = self.pins(net, list);
        let (leaves_left, leaves_right) = leaves(net);
        let left = if leaves_left { 1 } else { *pins.iter().min().unwrap() };
        let right = if leaves_right { self.length } else { *pins.iter().max().unwrap() };
        (left as u16, right as u16)
    }

    /// The amounts of the top pairs and of the bottom pairs, by place; the list has a column for each terminal.
    pub fn amounts(&self, list: &[u8]) -> [Vec<i32>; 2] {
        let (top, bottom) = list.split_at(self.top.len());
        [(&self.top, top), (&self.bottom, bottom)].map(|(terminals, columns)| {
            let later = terminals.iter().skip(1);
            columns.windows(2).zip(later).map(|(pair, t)| amount(pair[0], pair[1], t.least, t.greatest)).collect()
        })
    }

    /// The density of a column list, or 12, 13 or 14.
    pub fn measure(&self, list: &[u8]) -> Result<u32, Refused> {
        if list.len() != self.terminals() {
            return Err(12.into());
        }
        if self.top.iter().chain(&self.bottom).zip(list).any(|(t, c)| !names(t, *c)) {
            return Err(13.into());
        }
        match self.amounts(list).concat().into_iter().find(|amount| *amount != 0) {
            Some(amount) => Err(Refused { number: 14, amount }),
            None => Ok(self.density(list)),
        }
    }

    /// The word of a column list: a letter a column, from column L down.
    pub fn word(&self, list: &[u8]) -> Vec<u8> {
        let (top, bottom) = list.split_at(self.top.len());
        let letter = |column| u8::from(top.contains(&column)) + 2 * u8::from(bottom.contains(&column));
        (1..=self.length as u8).rev().map(letter).collect()
    }

    /// The best assignment and its density, by trying every assignment.
    pub fn best_of_all(&self) -> Option<(u32, Vec<u8>)> {
        let bottoms = self.side_lists(&self.bottom);
        let mut best: Option<(u32, Vec<u8>, Vec<u8>)> = None;
        for top in self.side_lists(&self.top) {
            for bottom in &bottoms {
                let list = [&top[..], bottom].concat();
                let density = self.density(&list);
                if best.as_ref().is_some_and(|(least, ..)| *least < density) {
                    continue;
                }
                let word = self.word(&list);
                if best.as_ref().is_none_or(|(least, smallest, _)| (density, &word) < (*least, smallest)) {
                    best = Some((density, word, list));
                }
            }
        }
        best.map(|(density, _, list)| (density, list))
    }

    /// Every list of a side's columns that keeps its sets and its distances.
    pub fn side_lists(&self, terminals: &[Terminal]) -> Vec<Vec<u8>> {
        let mut lists = vec![Vec::new()];
        for (place, terminal) in terminals.iter().enumerate() {
            let mut longer = Vec::new();
            for list in &lists {
                for column in 1..=self.length as u8 {
                    if names(terminal, column) && (place == 0 || within(terminal, list[place - 1], column)) {
                        longer.push([&list[..], &[column]].concat());
                    }
                }
            }
            lists = longer;
        }
        lists
    }

    /// The best assignment and its density, by the dynamic programme over d(i, j, u, v).
    pub fn best(&self) -> Option<(u32, Vec<u8>)> {
        let table = Table::of(self);
        let least = *table.last().iter().min().unwrap();
        (least != NONE).then(|| (u32::from(least), table.smallest_word(least)))
    }
}

/// Above every density: a sheet has at most 128 nets.
const NONE: u8 = 255;

/// d(i, j, u, v): the least density of columns 1 to max(u, v) where the first i top and j bottom terminals are placed, the last of them
/// in columns u and v. A side with none placed has its last one in column 0. Columns u < i and v < j are left out, as the columns of a side
/// rise.
struct Table<'a> {
    channel: &'a Channel,
    loads: Vec<u8>,
    d: Vec<u8>,
}

impl<'a> Table<'a> {
    fn of(channel: &'a Channel) -> Self {
        let (p, q, side) = (channel.top.len(), channel.bottom.len(), channel.length + 1);
        let plane = side * side;
        let mut table = Table { channel, loads: loads_of(channel), d: vec![NONE; (p + 1) * (q + 1) * plane] };
        table.d[0] = 0;
        for i in 0..=p {
            for j in 0..=q {
                if i + j > 0 {
                    let (before, rest) = table.d.split_at_mut((i * (q + 1) + j) * plane);
                    let here = &mut rest[..plane];
                    let earlier = |i: usize, j: usize| &before[(i * (q + 1) + j) * plane..][..plane];
                    if i > 0 {
                        // u > v: a top pin alone
                        let (from, load) = (earlier(i - 1, j), table.loads[(i * (q + 1) + j) * 4 + 1]);
                        for u in 1..side {
                            for u1 in predecessors(&channel.top, i, u) {
                                for v in j..u {
                                    here[u * side + v] = here[u * side + v].min(from[u1 * side + v].max(load));
                                }
                            }
                        }
                    }
                    if j > 0 {
                        // u < v: a bottom pin alone
                        let (from, load) = (earlier(i, j - 1), table.loads[(i * (q + 1) + j) * 4 + 2]);
                        for v in 1..side {
                            for v1 in predecessors(&channel.bottom, j, v) {
                                for u in i..v {
                                    here[u * side + v] = here[u * side + v].min(from[u * side + v1].max(load));
                                }
                            }
                        }
                    }
                    if i > 0 && j > 0 {
                        // u = v: both
                        let (from, load) = (earlier(i - 1, j - 1), table.loads[(i * (q + 1) + j) * 4 + 3]);
                        for u in 1..side {
                            for u1 in predecessors(&channel.top, i, u) {
                                for v1 in predecessors(&channel.bottom, j, u) {
                                    here[u * side + u] = here[u * side + u].min(from[u1 * side + v1].max(load));
                                }
                            }
                        }
                    }
                }
            }
        }
        table
    }

    fn plane(&self, i: usize, j: usize) -> &[u8] {
        let plane = (self.channel.length + 1) * (self.channel.length + 1);
        &self.d[(i * (self.channel.bottom.len() + 1) + j) * plane..][..plane]
    }

    fn last(&self) -> &[u8] {
        self.plane(self.channel.top.len(), self.channel.bottom.len())
    }

    /// The assignment with the smallest word among those of the density, which is the least: from column L down, the first of the letters
    /// 0, 1, 2, 3 that leaves a completion.
    fn smallest_word(&self, least: u8) -> Vec<u8> {
        let (p, q) = (self.channel.top.len(), self.channel.bottom.len());
        let mut list = vec![0; p + q];
        // the next terminal of each side to be placed, and the column of the one after it, where there is one
        let (mut i, mut j, mut after_top, mut after_bottom) = (p, q, None, None);
        for column in (1..=self.channel.length).rev() {
            let (letter, next) = (0..4)
                .find_map(|letter| {
                    let (a, b) = (letter & 1, letter >> 1);
                    if i < a || j < b || (a == 1 && !fits(&self.channel.top, i, column, after_top)) {
                        return None;
                    }
                    if b == 1 && !fits(&self.channel.bottom, j, column, after_bottom) {
                        return None;
                    }
                    if letter > 0 && self.loads[(i * (q + 1) + j) * 4 + letter] > least {
                        return None;
                    }
                    let next_top = if a == 1 { Some(column) } else { after_top };
                    let next_bottom = if b == 1 { Some(column) } else { after_bottom };
                    self.completes(i - a, j - b, column, next_top, next_bottom, least).then_some((letter, (next_top, next_bottom)))
                })
                .expect("a letter fits, since the density is reached");
            if letter & 1 == 1 {
                list[i - 1] = column as u8;
                i -= 1;
            }
            if letter >> 1 == 1 {
                list[p + j - 1] = column as u8;
                j -= 1;
            }
            (after_top, after_bottom) = next;
        }
        list
    }

    /// Whether the first i and j terminals can stand left of the column, at distances that suit the terminals after them, under the bound.
    fn completes(&self, i: usize, j: usize, column: usize, after_top: Option<usize>, after_bottom: Option<usize>, bound: u8) -> bool {
        let side = self.channel.length + 1;
        let suits = |terminals: &[Terminal], count: usize, at: usize, after: Option<usize>| match after {
            Some(after) if count > 0 => within(&terminals[count], at as u8, after as u8),
            _ => true,
        };
        (0..column).any(|u| {
            suits(&self.channel.top, i, u, after_top)
                && (0..column).any(|v| suits(&self.channel.bottom, j, v, after_bottom) && self.plane(i, j)[u * side + v] <= bound)
        })
    }
}

/// Whether terminal i (from 1) may stand in the column, seen from the terminal after it.
fn fits(terminals: &[Terminal], i: usize, column: usize, after: Option<usize>) -> bool {
    names(&terminals[i - 1], column as u8) && after.is_none_or(|after| within(&terminals[i], column as u8, after as u8))
}

/// The columns of terminal i - 1 that suit terminal i (from 1) in the column; 0 for the terminal before the first.
fn predecessors(terminals: &[Terminal], i: usize, column: usize) -> std::ops::Range<usize> {
    let terminal = &terminals[i - 1];
    if !names(terminal, column as u8) {
        0..0
    } else if i == 1 {
        0..1
    } else {
        // the columns of a side rise, so terminal i - 1 is in column i - 1 or right of it
        let first = column.saturating_sub(usize::from(terminal.greatest)).max(i - 1);
        let last = column.saturating_sub(usize::from(terminal.least));
        first..(last + 1).max(first)
    }
}

/// For each i, j and letter the number of nets that cross a column with this letter where i top and j bottom pins stand in it or left of
/// it. Letter 0 needs none: a net that crosses an empty column also crosses the next one with a pin, on whichever side of it that is.
fn loads_of(channel: &Channel) -> Vec<u8> {
    let (p, q) = (channel.top.len(), channel.bottom.len());
    let mut loads = vec![0; (p + 1) * (q + 1) * 4];
    let up_to = |terminals: &[Terminal], net: u16| -> Vec<usize> {
        let mut count = 0;
        let counts = terminals.iter().map(|t| {
            count += usize::from(t.net == net);
            count
        });
        std::iter::once(0).chain(counts).collect()
    };
    for net in channel.nets() {
        let (top, bottom) = (up_to(&channel.top, net), up_to(&channel.bottom, net));
        for i in 0..=p {
            for j in 0..=q {
                for letter in 1..4 {
                    let (a, b) = (letter & 1, letter >> 1);
                    if i < a || j < b {
                        continue;
                    }
                    let left = top[i - a] + bottom[j - b];
                    let here = top[i] + bottom[j] - left;
                    let right = top[p] + bottom[q] - left - here;
                    if channel.mark.counts(net, left, here, right) {
                        loads[(i * (q + 1) + j) * 4 + letter] += 1;
                    }
                }
            }
        }
    }
    loads
}
