//! Tracks of clean assignments under both marks: the record of each net, what is refused with 18 and with 9, and what is promised of every
//! answer.
use crate::damaged::damage;
use crate::draw::{channel_up_to, clean, sheet_of, Draw};
use crate::known::free;
use crate::leaving::{count_kinds, held, BOUNDS};
use crate::lent::{span, Held, Seen};
use crate::reference::{leaves, names, Channel, Mark, Record, Refused, Terminal};
use cazdrob::{Chain, Refusal, Routing, Searcher};
use std::collections::BTreeMap;

/// Whether a net leaves at the left and at the right: plain, at the left, at the right, at both ends.
pub const KINDS: [(bool, bool); 4] = [(false, false), (true, false), (false, true), (true, true)];

/// Holds the library's answer on a clean assignment to what is promised of it, by the columns that each net crosses.
fn promised(channel: &Channel, sheet: &[u8], list: &[u8]) {
    let Routing { tracks, spans } = cazdrob::route(sheet, list).unwrap();
    let mut nets: Vec<u16> = spans.iter().map(|span| span.net).collect();
    nets.sort_unstable();
    assert_eq!(nets, channel.nets(), "each net once");
    assert!(spans.windows(2).all(|two| (two[0].left, two[0].net) < (two[1].left, two[1].net)), "{spans:?} in order");

    let pins: Vec<Vec<usize>> = spans.iter().map(|span| channel.pins(span.net, list)).collect();
    let crosses = |place: usize, column: &usize| channel.mark.crosses(spans[place].net, &pins[place], *column);
    let crossed: Vec<Vec<usize>> = (0..spans.len()).map(|place| (1..=channel.length).filter(|c| crosses(place, c)).collect()).collect();
    for (place, span) in spans.iter().enumerate() {
        let ends = usize::from(span.left)..=usize::from(span.right);
        if span.track == 0 {
            assert!(crossed[place].is_empty() && span.left == span.right && pins[place].iter().all(|pin| ends.contains(pin)), "{span:?}");
        } else {
            assert!(crossed[place].iter().copied().eq(ends), "{span:?} runs over the columns that it crosses");
        }
        let taken = |track| (0..place).any(|k| spans[k].track == track && crossed[k].iter().any(|column| crosses(place, column)));
        assert!((1..span.track).all(taken), "{span:?} of {spans:?} on the lowest free track");
    }
    for column in 1..=channel.length {
        let mut there: Vec<u16> = (0..spans.len()).filter(|place| crosses(*place, &column)).map(|place| spans[place].track).collect();
        there.sort_unstable();
        assert!(there.windows(2).all(|two| two[0] < two[1]), "column {column} of {spans:?} has each track once");
    }
    let mut used: Vec<u32> = spans.iter().map(|span| span.track.into()).filter(|track| *track > 0).collect();
    used.sort_unstable();
    used.dedup();
    assert!(used.into_iter().eq(1..=tracks), "every track of {spans:?} is used");
    assert_eq!(cazdrob::measure(sheet, list), Ok(tracks));
    // no net lies over another
    assert_eq!(cazdrob::chain(sheet, list), Ok(Chain { nets: 0, bound: tracks }));
}

/// Adds one to each count whose case it is.
pub fn add(counts: &mut [u32], is: &[bool]) {
    counts.iter_mut().zip(is).for_each(|(count, is)| *count += u32::from(*is));
}

/// How many clean assignments were so.
#[derive(Debug, Default)]
struct Clean {
    all: u32,
    /// No terminals, top ones alone, bottom ones alone.
    sides: [u32; 3],
    /// One column, 64 columns, 64 top terminals, 64 bottom terminals, 64 nets.
    sizes: [u32; 5],
    /// A net of each kind: plain, leaving at the left, at the right, at both ends.
    kinds: [u32; 4],
    /// Each of the nets at the bounds.
    bounds: [u32; 7],
    /// A net of each kind with one pin.
    one_pin: [u32; 4],
    /// A net of each kind with two pins, both in one column.
    straight: [u32; 4],
    /// A straight wire, on a CP sheet and on a CQ sheet.
    straight_under: [u32; 2],
    /// Straight wires and other nets on one track, on a CQ sheet.
    straight_with_others: u32,
    /// Straight wires on every track, on a CQ sheet.
    straight_alone: u32,
    /// A net with two pins in one column and another elsewhere.
    shared: u32,
    /// A net that crosses one column alone: leaving at the left, at the right, at both ends.
    one_column: [u32; 3],
    /// Equal left ends, of nets that come in another order in the sheet.
    equal_left: u32,
    /// A net that begins in the column in which one on another track ends.
    meet: u32,
    /// A net on the track of one that ends in the column before.
    next: u32,
    /// A net on a lower track than the one, also free, whose last net ends nearest to it.
    lower: u32,
    /// A net without a track between two that have one.
    between: u32,
    /// By tracks: none, one, 2 to 7, 8 to 31, 32 to 63, 64.
    tracks: [u32; 6],
}

impl Clean {
    fn count(&mut self, channel: &Channel, list: &[u8], records: &[Record]) {
        let (p, q) = (channel.top.len(), channel.bottom.len());
        let nets: Vec<(u16, Vec<usize>)> = channel.nets().into_iter().map(|net| (net, channel.pins(net, list))).collect();
        let has = |kind: (bool, bool), which: fn(&[usize]) -> bool| nets.iter().any(|(net, pins)| leaves(*net) == kind && which(pins));
        self.all += 1;
        add(&mut self.sides, &[p + q == 0, q == 0 && p > 0, p == 0 && q > 0]);
        add(&mut self.sizes, &[channel.length == 1, channel.length == 64, p == 64, q == 64, nets.len() == 64]);
        count_kinds(&mut self.kinds, channel);
        add(&mut self.bounds, &BOUNDS.map(|(bound, ..)| nets.iter().any(|(net, _)| *net == bound)));
        add(&mut self.one_pin, &KINDS.map(|kind| has(kind, |pins| pins.len() == 1)));
        add(&mut self.straight, &KINDS.map(|kind| has(kind, |pins| pins.len() == 2 && pins[0] == pins[1])));
        let shared = |pins: &[usize]| (0..pins.len()).any(|k| pins[..k].contains(&pins[k])) && pins.iter().any(|pin| *pin != pins[0]);
        self.shared += u32::from(nets.iter().any(|(_, pins)| shared(pins)));
        let one_column = |[net, left, right, track]: &Record, kind| leaves(*net) == kind && left == right && *track > 0;
        let with = [KINDS[1], KINDS[2], KINDS[3]].map(|kind| records.iter().any(|record| one_column(record, kind)));
        add(&mut self.one_column, &with);

        let first = |net: u16| channel.top.iter().chain(&channel.bottom).position(|t| t.net == net);
        let turned = |two: &[Record]| two[0][1] == two[1][1] && first(two[0][0]) > first(two[1][0]);
        self.equal_left += u32::from(records.windows(2).any(turned));
        let on_tracks: Vec<&Record> = records.iter().filter(|[.., track]| *track > 0).collect();
        let wires = channel.straight_wires(list);
        add(&mut self.straight_under, &Mark::BOTH.map(|mark| channel.mark == mark && !wires.is_empty()));
        let is_wire = |record: &&&Record| wires.iter().any(|(net, _)| *net == record[0]);
        let (straight, others): (Vec<&Record>, Vec<&Record>) = on_tracks.iter().partition(is_wire);
        let with_other = |wire: &&Record| others.iter().any(|other| other[3] == wire[3]);
        self.straight_with_others += u32::from(straight.iter().any(with_other));
        self.straight_alone += u32::from(!straight.is_empty() && others.is_empty());
        let (mut meet, mut next, mut lower) = (false, false, false);
        for (place, [_, left, _, track]) in on_tracks.iter().enumerate() {
            let before = &on_tracks[..place];
            meet |= before.iter().any(|[_, _, to, other]| to == left && other != track);
            next |= before.iter().any(|[_, _, to, other]| to + 1 == *left && other == track);
            // where the last net of each track ends; they begin in the order of the records, so that the last one ends last
            let ends: BTreeMap<u16, u16> = before.iter().map(|[_, _, to, track]| (*track, *to)).collect();
            lower |= ends.get(track).is_some_and(|own| ends.iter().any(|(other, to)| other > track && to < left && to > own));
        }
        self.meet += u32::from(meet);
        self.next += u32::from(next);
        self.lower += u32::from(lower);
        self.between += u32::from(records.windows(3).any(|three| three[0][3] > 0 && three[1][3] == 0 && three[2][3] > 0));
        let tracks = on_tracks.iter().map(|[.., track]| *track).max().unwrap_or(0);
        add(&mut self.tracks, &[0..=0, 1..=1, 2..=7, 8..=31, 32..=63, 64..=64].map(|group| group.contains(&tracks)));
    }

    fn floors(&self, times: u32) {
        let Clean { sides, kinds, bounds, one_pin, straight, straight_under, one_column, .. } = self;
        let one = [self.shared, self.equal_left, self.meet, self.next, self.lower, self.between];
        let of_wires = [self.straight_with_others, self.straight_alone];
        let lists = [&sides[..], kinds, bounds, one_pin, straight, straight_under, one_column, &one, &of_wires, &self.sizes, &self.tracks];
        for counts in lists {
            assert!(counts.iter().all(|count| *count > times), "{counts:?}");
        }
    }
}

/// How many assignments with pins of two nets in one column, and in no other, were so.
#[derive(Debug, Default)]
struct TwoNets {
    all: u32,
    /// Plain over plain, plain over leaving, leaving over plain, leaving over leaving.
    kinds: [u32; 4],
    /// A plain net of one pin on top, at the bottom, on both sides.
    one_pin: [u32; 3],
    /// Nets of which one crosses a column and the other does not, neither does, both do.
    crossing: [u32; 3],
    /// In column 1, in column L.
    ends: [u32; 2],
    /// Nets that differ in their low byte alone, in their high byte alone.
    bytes: [u32; 2],
    /// The sheet has another column with two pins, of one net.
    beside_a_clean_one: u32,
}

impl TwoNets {
    fn count(&mut self, channel: &Channel, list: &[u8]) {
        let [column] = channel.two_nets(list)[..] else {
            return;
        };
        let p = channel.top.len();
        let net_in = |side: &[Terminal], columns: &[u8]| side[columns.iter().position(|at| *at == column).unwrap()].net;
        let (top, bottom) = (net_in(&channel.top, &list[..p]), net_in(&channel.bottom, &list[p..]));
        let leaving = |net| leaves(net) != KINDS[0];
        let one_pin = |net| !leaving(net) && channel.pins(net, list).len() == 1;
        let crosses = |net| (1..=channel.length).any(|column| channel.mark.crosses(net, &channel.pins(net, list), column));
        self.all += 1;
        let kinds = [(false, false), (false, true), (true, false), (true, true)];
        add(&mut self.kinds, &kinds.map(|kinds| (leaving(top), leaving(bottom)) == kinds));
        add(&mut self.one_pin, &[one_pin(top), one_pin(bottom), one_pin(top) && one_pin(bottom)]);
        let crossing = usize::from(crosses(top)) + usize::from(crosses(bottom));
        add(&mut self.crossing, &[crossing == 1, crossing == 0, crossing == 2]);
        add(&mut self.ends, &[column == 1, usize::from(column) == channel.length]);
        let differ = top ^ bottom;
        add(&mut self.bytes, &[differ < 256, differ & 255 == 0]);
        self.beside_a_clean_one += u32::from(list[..p].iter().any(|at| *at != column && list[p..].contains(at)));
    }

    fn floors(&self, times: u32) {
        let TwoNets { kinds, one_pin, crossing, ends, bytes, .. } = self;
        for counts in [&kinds[..], one_pin, crossing, ends, bytes, &[self.beside_a_clean_one]] {
            assert!(counts.iter().all(|count| *count > times), "{counts:?}");
        }
    }
}

/// The channel with another net for one of the two pins of a column that has two.
fn with_two_nets(draw: &mut Draw, channel: &Channel, list: &[u8]) -> Option<Channel> {
    let p = channel.top.len();
    let both: Vec<(usize, usize)> = (0..p).filter_map(|i| Some((i, list[p..].iter().position(|column| *column == list[i])?))).collect();
    let (first, last) = (both.first()?, both.last()?);
    let any = draw.of(&both);
    let (i, j) = draw.of(&[*first, *last, any, any]);
    let (old, own) = (channel.top[i].net, draw.between(1, 60_000) as u16);
    let net = match draw.between(0, 7) {
        0 => old ^ 1 << draw.between(0, 7),
        1 => old ^ 256 << draw.between(0, 7),
        2 | 3 => draw.of(&channel.nets()),
        4 | 5 => draw.of(&[60_000, 60_001, 62_000, 62_001, 64_000, 64_001, 65_535]),
        _ => own,
    };
    let mut other = channel.clone();
    let terminal = if draw.once_in(2) { &mut other.top[i] } else { &mut other.bottom[j] };
    terminal.net = net;
    (net != 0 && net != old).then_some(other)
}

/// Every refusal of a list on so many records that applies, in the order of the answers. A list of another length has no columns to ask.
fn refusals(channel: &Channel, list: &[u8], room: usize) -> Vec<u32> {
    let nine = (9, room < channel.nets().len());
    let rules = if list.len() != channel.terminals() {
        vec![(12, true), nine]
    } else {
        let not_allowed = channel.top.iter().chain(&channel.bottom).zip(list).any(|(t, column)| !names(t, *column));
        let out_of_range = channel.amounts(list).concat().into_iter().any(|amount| amount != 0);
        vec![(13, not_allowed), (14, out_of_range), (18, !channel.two_nets(list).is_empty()), nine]
    };
    rules.into_iter().filter(|(_, applies)| *applies).map(|(number, _)| number).collect()
}

/// Makes the list, or what the sheet says of it, wrong in one way: 12, 13 or 14.
pub fn spoil(draw: &mut Draw, channel: &mut Channel, list: &mut Vec<u8>) {
    let p = channel.top.len();
    let later: Vec<usize> = (1..p).chain(p + 1..list.len()).collect();
    match draw.between(0, 5) {
        0 => list.push(draw.of(&[0, 1, 64, 65, 255])),
        1 => drop(list.pop()),
        2 if !list.is_empty() => {
            let at = draw.between(0, list.len() - 1);
            let terminal = if at < p { &mut channel.top[at] } else { &mut channel.bottom[at - p] };
            terminal.set &= !(1u64 << (list[at] - 1));
        }
        _ if !later.is_empty() => {
            let at = draw.of(&later);
            let distance = list[at] - list[at - 1];
            let terminal = if at < p { &mut channel.top[at] } else { &mut channel.bottom[at - p] };
            let close = (distance + draw.between(1, 9) as u8, 255);
            (terminal.least, terminal.greatest) = if distance > 1 && draw.once_in(2) { (1, distance - 1) } else { close };
        }
        _ => {}
    }
}

fn any_length(draw: &mut Draw) -> usize {
    match draw.between(0, 11) {
        0 => 1,
        1 | 2 => 64,
        3 | 4 => draw.between(1, 64),
        _ => draw.between(2, 12),
    }
}

#[test]
fn drawn_assignments() {
    let mut draw = Draw::new(111);
    let (mut seen, mut clean_ones, mut two_nets) = (Seen::default(), Clean::default(), TwoNets::default());
    let mut also: BTreeMap<(u32, u32), u32> = BTreeMap::new();
    for _ in 0..20_000 {
        let length = any_length(&mut draw);
        let (channel, list) = clean(&mut draw, length);
        let held = Held::new(sheet_of(&channel, draw.once_in(2)));
        let nets = held.nets();
        // just as many records as nets, and two more, which are left as they were
        let records = held.tracks(&mut draw, &list, nets, &mut seen).unwrap();
        assert_eq!(held.tracks(&mut draw, &list, nets + 2, &mut seen).as_ref(), Ok(&records));
        if nets > 0 {
            assert_eq!(held.tracks(&mut draw, &list, nets - 1, &mut seen), Err(9.into()));
        }
        promised(&channel, &held.sheet, &list);
        clean_ones.count(&channel, &list, &records);

        // the same with two nets in a column, on as many records and on fewer
        let unclean = with_two_nets(&mut draw, &channel, &list);
        if let Some(channel) = &unclean {
            let held = Held::new(sheet_of(channel, draw.once_in(2)));
            for room in [held.nets(), held.nets() - 1, 0] {
                assert_eq!(held.tracks(&mut draw, &list, room, &mut seen), Err(18.into()));
                *also.entry((18, 9)).or_default() += u32::from(room < held.nets());
            }
            two_nets.count(channel, &list);
        }

        // the same with faults that are named before these
        let (mut channel, mut list) = (unclean.unwrap_or(channel), list);
        for _ in 0..draw.of(&[1, 1, 2]) {
            if list.len() == channel.terminals() {
                spoil(&mut draw, &mut channel, &mut list);
            }
        }
        let held = Held::new(sheet_of(&channel, draw.once_in(2)));
        let room = held.room(&mut draw);
        let refused = refusals(&channel, &list, room);
        let number = held.tracks(&mut draw, &list, room, &mut seen).map_err(|refused: Refused| refused.number).err();
        assert_eq!(number, refused.first().copied());
        for later in refused.iter().skip(1) {
            *also.entry((refused[0], *later)).or_default() += 1;
        }
    }
    seen.print("drawn assignments");
    println!("  {clean_ones:?}\n  {two_nets:?}\n  with one that applied too: {also:?}");
    assert!(clean_ones.all == 20_000 && two_nets.all > 4_000 && seen.straight.own_track > 1_000);
    clean_ones.floors(50);
    two_nets.floors(400);
    for number in [0, 9, 12, 13, 14, 18] {
        assert!(seen.tracks[number] > 1_000, "{number}");
    }
    for numbers in [(12, 9), (13, 14), (13, 18), (13, 9), (14, 18), (14, 9), (18, 9)] {
        assert!(also.get(&numbers).is_some_and(|times| *times > 300), "{numbers:?}");
    }
}

/// Clean assignments on sheets that are damaged, some of them so that they stay sound.
#[test]
fn damaged_sheets() {
    let mut draw = Draw::new(112);
    let mut seen = Seen::default();
    for _ in 0..30_000 {
        let length = draw.between(1, 12);
        let (channel, mut list) = clean(&mut draw, length);
        let (terminals, nets) = (channel.terminals(), channel.nets().len());
        let mut sheet = sheet_of(&channel, draw.once_in(2));
        for _ in 0..draw.of(&[1, 1, 2, 3]) {
            damage(&mut draw, &mut sheet);
        }
        match draw.between(0, 11) {
            0 => drop(list.pop()),
            1 => list.push(1),
            2 if !list.is_empty() => list[draw.between(0, terminals - 1)] = draw.between(0, length + 1) as u8,
            _ => {}
        }
        let held = Held::new(sheet);
        let room = draw.of(&[0, nets, nets, nets + 2, 130]);
        held.tracks(&mut draw, &list, room, &mut seen).ok();
    }
    seen.print("tracks on damaged sheets");
    for number in [0, 1, 2, 3, 4, 5, 6, 7, 8, 9, 12, 13, 14, 18] {
        assert!(seen.tracks[number] > 50, "{number}");
    }
}

/// What a search finds, and the list that the sheet was drawn around, on sheets with top and bottom pins in any columns or never in one.
#[test]
fn searched_assignments() {
    let mut draw = Draw::new(113);
    let mut seen = Seen::default();
    let mut searcher = Searcher::new();
    let (mut found, mut by_tracks) = ([0; 2], [0; 5]);
    for _ in 0..8_000 {
        let (mut channel, list) = if draw.once_in(3) {
            let length = draw.between(1, 8);
            let (channel, list) = clean(&mut draw, length);
            (channel, Some(list))
        } else {
            channel_up_to(&mut draw, 14, 6, 6)
        };
        if draw.once_in(2) {
            // odd columns on top, even ones at the bottom
            channel.top.iter_mut().for_each(|t| t.set &= 0x5555_5555_5555_5555);
            channel.bottom.iter_mut().for_each(|t| t.set &= 0xaaaa_aaaa_aaaa_aaaa);
        }
        let held = Held::new(sheet_of(&channel, draw.once_in(2)));
        for list in list.into_iter().chain(searcher.assign(&held.sheet).map(|best| best.columns)) {
            let room = held.room(&mut draw);
            held.tracks(&mut draw, &list, room, &mut seen).ok();
        }
        if let Ok(best) = searcher.assign(&held.sheet) {
            let routed = cazdrob::route(&held.sheet, &best.columns);
            found[usize::from(routed.is_ok())] += 1;
            match routed {
                Ok(routing) => {
                    assert_eq!(routing.tracks, best.density);
                    promised(&channel, &held.sheet, &best.columns);
                    by_tracks[(best.density as usize).min(4)] += 1;
                }
                Err(refusal) => assert_eq!(refusal, Refusal::TwoNets),
            }
        }
    }
    seen.print("searched assignments");
    println!("  found with two nets in a column, and clean: {found:?}; by tracks, 0 to 3 and more: {by_tracks:?}");
    assert!(found[0] > 500 && found[1] > 2_000 && by_tracks.iter().all(|times| *times > 60) && seen.straight.own_track > 20);
}

/// Every channel of few columns where each column is empty, or has a top pin, a bottom pin or both, of one of six nets.
#[test]
fn every_clean_assignment_of_few_columns() {
    const NETS: [u16; 6] = [1, 2, 60_001, 62_000, 62_001, 64_001];
    let mut draw = Draw::new(114);
    let (mut seen, mut clean_ones) = (Seen::default(), Clean::default());
    for length in 1..=4u8 {
        for mut number in 0..19usize.pow(length.into()) {
            let (mut top, mut bottom) = (vec![], vec![]);
            for column in 1..=length {
                if let Some(pins) = (number % 19).checked_sub(1) {
                    let (net, letter) = (NETS[pins / 3], pins % 3);
                    top.extend((letter != 1).then_some((net, column)));
                    bottom.extend((letter != 0).then_some((net, column)));
                }
                number /= 19;
            }
            let (channel, list) = held(length, &top, &bottom);
            for mark in Mark::BOTH {
                let channel = channel.under(mark);
                let held = Held::new(sheet_of(&channel, false));
                let records = held.tracks(&mut draw, &list, held.nets(), &mut seen).unwrap();
                promised(&channel, &held.sheet, &list);
                clean_ones.count(&channel, &list, &records);
            }
        }
    }
    println!("every clean assignment of few columns: {clean_ones:?}");
    assert_eq!(clean_ones.all, 2 * (19 + 361 + 6_859 + 130_321));
    assert!(clean_ones.straight_under.iter().all(|lists| *lists > 10_000) && seen.straight.own_track > 10_000);
}

/// Holds the tracks of pins that are held to their columns to these records, on a CP sheet.
fn routes(length: u8, top: &[(u16, u8)], bottom: &[(u16, u8)], records: &[Record]) {
    routes_under(Mark::Cp, length, top, bottom, records);
}

/// The same on a sheet with this mark.
fn routes_under(mark: Mark, length: u8, top: &[(u16, u8)], bottom: &[(u16, u8)], records: &[Record]) {
    let (channel, list) = held(length, top, bottom);
    hold_records(&channel.under(mark), &list, Ok(records));
}

/// Holds the tracks of a list to these records, or to this refusal; with records, one fewer is refused with 9.
fn hold_records(channel: &Channel, list: &[u8], wanted: Result<&[Record], u32>) {
    let mut draw = Draw::new(115);
    for bottom_first in [false, true] {
        let held = Held::new(sheet_of(channel, bottom_first));
        for room in [held.nets(), 128] {
            let got = held.tracks(&mut draw, list, room, &mut Seen::default());
            assert_eq!(got.map_err(|refused| refused.number), wanted.map(<[Record]>::to_vec));
        }
        if wanted.is_ok_and(|records| !records.is_empty()) {
            assert_eq!(held.tracks(&mut draw, list, held.nets() - 1, &mut Seen::default()), Err(9.into()));
        }
        if wanted.is_ok() {
            promised(channel, &held.sheet, list);
        }
    }
}

#[test]
fn known_records() {
    let sheet_a = free(3, &[1, 2], &[2, 1]);
    hold_records(&sheet_a, &[2, 3, 1, 2], Ok(&[[2, 1, 3, 1], [1, 2, 2, 0]]));
    hold_records(&sheet_a, &[1, 2, 2, 3], Ok(&[[1, 1, 3, 1], [2, 2, 2, 0]]));
    hold_records(&sheet_a, &[1, 2, 1, 2], Err(18));
    hold_records(&sheet_a, &[1, 2, 1, 3], Err(18));
    hold_records(&sheet_a, &[2, 2, 1, 2], Err(14));
    hold_records(&sheet_a, &[4, 2, 1, 2], Err(13));
    hold_records(&sheet_a, &[1, 2, 1], Err(12));
    hold_records(&free(1, &[], &[]), &[], Ok(&[]));
    hold_records(&free(64, &[], &[]), &[], Ok(&[]));

    // tracks 1 and 2 are free for net 4, and 1 is the lower one; 2 is left for net 5
    let top = [(1, 1), (2, 2), (3, 3), (1, 4), (2, 5), (4, 6), (5, 7)];
    let bottom = [(4, 8), (3, 9), (5, 10)];
    routes(10, &top, &bottom, &[[1, 1, 4, 1], [2, 2, 5, 2], [3, 3, 9, 3], [4, 6, 8, 1], [5, 7, 10, 2]]);
    // three pins, a column with two of them, and one pin alone between them
    routes(5, &[(9, 2), (8, 3), (9, 4)], &[(9, 4)], &[[9, 2, 4, 1], [8, 3, 3, 0]]);
    // nets that leave: by left end, then by net, whatever their pins
    routes(
        6,
        &[(64_001, 2), (60_002, 3), (7, 5)],
        &[(60_001, 1), (62_001, 4), (7, 5), (62_002, 6)],
        &[[60_001, 1, 1, 1], [60_002, 1, 3, 2], [64_001, 1, 6, 3], [62_001, 4, 6, 1], [7, 5, 5, 0], [62_002, 6, 6, 2]],
    );
    // a plain net and one that leaves at the right in column 1, before and between those that leave at the left
    routes(3, &[(300, 1), (61_000, 2), (300, 3)], &[(300, 1)], &[[300, 1, 3, 1], [61_000, 1, 2, 2]]);
    routes(3, &[(63_000, 1), (65_000, 2), (61_000, 3)], &[], &[[61_000, 1, 3, 1], [63_000, 1, 3, 2], [65_000, 1, 3, 3]]);
}

/// The same and other assignments on CQ sheets, where a straight wire has a track.
#[test]
fn known_records_of_straight_wires() {
    let sheet_a = free(3, &[1, 2], &[2, 1]).under(Mark::Cq);
    hold_records(&sheet_a, &[2, 3, 1, 2], Ok(&[[2, 1, 3, 1], [1, 2, 2, 2]]));
    hold_records(&sheet_a, &[1, 2, 2, 3], Ok(&[[1, 1, 3, 1], [2, 2, 2, 2]]));
    hold_records(&sheet_a, &[1, 2, 1, 2], Err(18));
    hold_records(&sheet_a, &[2, 2, 1, 2], Err(14));
    let routes = |length: u8, top: &[(u16, u8)], bottom: &[(u16, u8)], records: &[Record]| {
        routes_under(Mark::Cq, length, top, bottom, records);
    };
    // three straight wires side by side share a track, and net 4 over them has the other
    routes(3, &[(7, 1), (6, 2), (5, 3)], &[(7, 1), (6, 2), (5, 3)], &[[7, 1, 1, 1], [6, 2, 2, 1], [5, 3, 3, 1]]);
    routes(
        5,
        &[(4, 1), (7, 2), (6, 3), (5, 4)],
        &[(7, 2), (6, 3), (5, 4), (4, 5)],
        &[[4, 1, 5, 1], [7, 2, 2, 2], [6, 3, 3, 2], [5, 4, 4, 2]],
    );
    // the lower free track is left for the straight wire of net 3
    routes(4, &[(1, 1), (2, 2), (1, 3), (3, 4)], &[(2, 2), (3, 4)], &[[1, 1, 3, 1], [2, 2, 2, 2], [3, 4, 4, 1]]);
    // of three pins two share a column, and a net of one pin crosses nothing
    routes(5, &[(9, 2), (8, 3), (9, 4)], &[(9, 4)], &[[9, 2, 4, 1], [8, 3, 3, 0]]);
    // beside a net that leaves: in its order by left end and by net
    routes(3, &[(7, 1), (60_001, 2), (9, 3)], &[(7, 1), (9, 3)], &[[7, 1, 1, 1], [60_001, 1, 2, 2], [9, 3, 3, 1]]);
}

/// One net of each bound, with one pin and with two in one column: at the ends, between them, and on one column.
#[test]
fn one_net() {
    for length in [1, 2, 5, 64] {
        for (net, left, right) in BOUNDS {
            for column in [1, length / 2 + 1, length] {
                let ends = [if left { 1 } else { column.into() }, if right { length.into() } else { column.into() }];
                let record = [net, ends[0], ends[1], u16::from(left || right)];
                for mark in Mark::BOTH {
                    routes_under(mark, length, &[(net, column)], &[], &[record]);
                    routes_under(mark, length, &[], &[(net, column)], &[record]);
                }
                routes_under(Mark::Cp, length, &[(net, column)], &[(net, column)], &[record]);
                let [net, left, right, _] = record;
                routes_under(Mark::Cq, length, &[(net, column)], &[(net, column)], &[[net, left, right, 1]]);
            }
        }
    }
}

/// Two nets in one column, of all kinds and with one pin each: refused, however few records there are.
#[test]
fn two_nets_of_one_pin() {
    let mut draw = Draw::new(116);
    let mut seen = Seen::default();
    let nets = [1, 2, 257, 513, 60_000, 60_001, 62_000, 62_001, 64_000, 64_001, 65_535];
    for length in [1, 2, 64] {
        for column in [1, length] {
            for top in nets {
                for bottom in nets {
                    let (channel, list) = held(length, &[(top, column)], &[(bottom, column)]);
                    let mark = draw.of(&Mark::BOTH);
                    let held = Held::new(sheet_of(&channel.under(mark), draw.once_in(2)));
                    for room in 0..=3 {
                        let number = held.tracks(&mut draw, &list, room, &mut seen).map_err(|refused| refused.number).err();
                        assert_eq!(number, if top != bottom { Some(18) } else { (room == 0).then_some(9) });
                    }
                }
            }
        }
    }
    assert_eq!((seen.tracks[18], seen.tracks[9], seen.tracks[0]), (4 * 6 * 110, 6 * 11, 3 * 6 * 11));
}

/// As many nets as a clean assignment can have, one for each column, and as many tracks.
#[test]
fn as_many_nets_as_columns() {
    let columns: Vec<u8> = (1..=64).collect();
    // of one pin, then of two in one column
    for first in [59_937, 60_001, 62_001, 64_001] {
        let nets: Vec<u16> = (first..first + 64).collect();
        let record = |column: u16| match (first - 1 + column, leaves(first)) {
            (net, (false, false)) => [net, column, column, 0],
            (net, (true, false)) => [net, 1, column, column],
            (net, (false, true)) => [net, column, 64, column],
            (net, (true, true)) => [net, 1, 64, column],
        };
        let records: Vec<Record> = (1..=64).map(record).collect();
        let (one_pin, two_pins) = (free(64, &nets, &[]), free(64, &nets, &nets));
        let columns_of_both = [&columns[..], &columns].concat();
        hold_records(&one_pin, &columns, Ok(&records));
        hold_records(&two_pins, &columns_of_both, Ok(&records));
        hold_records(&one_pin.under(Mark::Cq), &columns, Ok(&records));
        // straight wires have the lowest track
        let counted: Vec<Record> = records.iter().map(|[net, left, right, track]| [*net, *left, *right, *track.max(&1)]).collect();
        hold_records(&two_pins.under(Mark::Cq), &columns_of_both, Ok(&counted));
    }
    // the numbers fall from column to column
    let falling: Vec<u16> = (60_001..=60_064).rev().collect();
    let records: Vec<Record> = (0..64).map(|place| [60_001 + place, 1, 64 - place, place + 1]).collect();
    hold_records(&free(64, &[], &falling), &columns, Ok(&records));
    // each within the one before
    let nested: Vec<u16> = (1..=32).chain((1..=32).rev()).collect();
    let records: Vec<Record> = (1..=32).map(|net| [net, net, 65 - net, net]).collect();
    hold_records(&free(64, &nested, &[]), &columns, Ok(&records));
    // one after the other
    let pairs: Vec<u16> = (0..64).map(|place| place / 2 + 1).collect();
    let records: Vec<Record> = (1..=32).map(|net| [net, 2 * net - 1, 2 * net, 1]).collect();
    hold_records(&free(64, &pairs, &[]), &columns, Ok(&records));
}

/// A list that is a part of the sheet: both are only read.
#[test]
fn a_list_in_the_sheet() {
    // net 770 is the bytes 2 and 3
    let sheet = sheet_of(&free(3, &[770, 770], &[]), false);
    let routing = cazdrob::route(&sheet, &sheet[..2]);
    assert_eq!(routing, Ok(Routing { tracks: 1, spans: vec![span([770, 2, 3, 1])] }));
}
