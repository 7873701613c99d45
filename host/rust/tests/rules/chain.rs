//! Chains of vertical constraints under both marks: the longest one and the bound, the lowest net on a circle, and what is refused before.
use crate::damaged::damage;
use crate::draw::{constrained, sheet_of, Draw};
use crate::known::free;
use crate::leaving::{count_kinds, held, BOUNDS};
use crate::lent::{Held, Seen};
use crate::reference::{leaves, longest_chain, longest_from, names, on_circles, reached, Chained, Channel, Mark, Over};
use crate::sound::every_call;
use crate::tracks::{add, spoil, KINDS};
use cazdrob::{Chain, Refusal, Searcher};
use std::collections::BTreeMap;

/// How many assignments without a circle were so.
#[derive(Debug, Default)]
struct Chains {
    all: u32,
    /// One column, 64 columns, 64 top terminals, 64 bottom terminals, 128 nets.
    sizes: [u32; 5],
    /// A net of each kind: plain, leaving at the left, at the right, at both ends.
    kinds: [u32; 4],
    /// Each of the nets at the bounds in a constraint.
    bounds: [u32; 7],
    /// By nets of the longest chain: none, 2, 3 to 7, 8 to 31, 32 to 63, 64, 65.
    longest: [u32; 7],
    /// The chain is shorter than the density, as long, longer.
    bound: [u32; 3],
    /// On a CP sheet, on a CQ sheet.
    marks: [u32; 2],
    /// The chain would be longer if plain nets with one pin were over others, under others.
    plain_one_pin: [u32; 2],
    /// The chain would be shorter if leaving nets with one pin were over none, under none.
    leaving_one_pin: [u32; 2],
    /// One pass over the columns from left to right, from right to left, in each of the two ways would find a shorter chain.
    one_pass: [u32; 3],
    /// Over two nets, or under two nets, of which one is in longer chains.
    branches: [u32; 2],
    /// One net over another in two columns.
    repeated: u32,
    /// A net with both pins of a column, which lies over another.
    over_itself: u32,
    /// Nets that differ in their low byte alone, in their high byte alone, one over the other.
    bytes: [u32; 2],
}

/// How many nets a chain has that is found by going once through the constraints, each of which goes on with what was found before it.
fn one_pass(over: impl Iterator<Item = Over>) -> u32 {
    let mut longest: BTreeMap<u16, u32> = BTreeMap::new();
    for (above, below) in over {
        let nets = 1 + longest.get(&below).unwrap_or(&1);
        let known = longest.entry(above).or_insert(1);
        *known = nets.max(*known);
    }
    longest.into_values().max().unwrap_or(0)
}

impl Chains {
    fn count(&mut self, channel: &Channel, list: &[u8], answer: Chained) {
        let (over, pairs) = (channel.over(list), channel.pairs(list));
        let pins = |net| channel.pins(net, list).len();
        let chain = answer.chain;
        self.all += 1;
        let (p, q, nets) = (channel.top.len(), channel.bottom.len(), channel.nets().len());
        add(&mut self.sizes, &[channel.length == 1, channel.length == 64, p == 64, q == 64, nets == 128]);
        count_kinds(&mut self.kinds, channel);
        add(&mut self.bounds, &BOUNDS.map(|(net, ..)| over.iter().any(|(above, below)| net == *above || net == *below)));
        add(&mut self.longest, &[0..=0, 2..=2, 3..=7, 8..=31, 32..=63, 64..=64, 65..=65].map(|group| group.contains(&chain)));
        let density = channel.density(list);
        add(&mut self.bound, &[chain < density, chain == density, chain > density]);
        add(&mut self.marks, &Mark::BOTH.map(|mark| channel.mark == mark));

        let of_two: Vec<Over> = pairs.iter().copied().filter(|(above, below)| above != below).collect();
        let longest = |counts: &dyn Fn(&Over) -> bool| longest_chain(&of_two.iter().copied().filter(counts).collect::<Vec<Over>>());
        let with_plain = [longest(&|(_, below)| channel.constrains(*below)), longest(&|(above, _)| channel.constrains(*above))];
        add(&mut self.plain_one_pin, &with_plain.map(|nets| nets > chain));
        let without_leaving =
            [longest(&|pair| over.contains(pair) && pins(pair.0) > 1), longest(&|pair| over.contains(pair) && pins(pair.1) > 1)];
        add(&mut self.leaving_one_pin, &without_leaving.map(|nets| nets < chain));
        let in_columns = || pairs.iter().copied().filter(|pair| over.contains(pair));
        let [rightwards, leftwards] = [one_pass(in_columns()) < chain, one_pass(in_columns().rev()) < chain];
        add(&mut self.one_pass, &[rightwards, leftwards, rightwards && leftwards]);

        let under: Vec<Over> = over.iter().map(|(above, below)| (*below, *above)).collect();
        let branches = [&over, &under].map(|over| {
            let mut kept = BTreeMap::new();
            let beyond: Vec<(u16, u32)> = over.iter().map(|(net, next)| (*net, longest_from(over, *next, &mut kept))).collect();
            beyond.iter().any(|one| beyond.iter().any(|other| one.0 == other.0 && one.1 < other.1))
        });
        add(&mut self.branches, &branches);
        self.repeated += u32::from(in_columns().count() > over.len());
        let above_others = |net: u16| over.iter().any(|(above, _)| *above == net);
        self.over_itself += u32::from(pairs.iter().any(|(above, below)| above == below && above_others(*above)));
        let differ = |one: fn(u16) -> bool| over.iter().any(|(above, below)| one(above ^ below));
        add(&mut self.bytes, &[differ(|bits| bits < 256), differ(|bits| bits & 255 == 0)]);
    }

    fn floors(&self, times: u32) {
        let Chains { sizes, kinds, bounds, longest, bound, marks, plain_one_pin, leaving_one_pin, one_pass, branches, bytes, .. } = self;
        let one = [self.repeated, self.over_itself];
        let ends = [&plain_one_pin[..], leaving_one_pin];
        for counts in [&sizes[..], kinds, bounds, longest, bound, marks, one_pass, branches, bytes, &one].into_iter().chain(ends) {
            assert!(counts.iter().all(|count| *count > times), "{counts:?}");
        }
    }
}

/// How many assignments with a circle were so.
#[derive(Debug, Default)]
struct Circles {
    all: u32,
    /// The lowest net on a circle is plain, leaves at the left, at the right, at both ends.
    kinds: [u32; 4],
    /// By the nets of the greatest group that all lead to each other: 2, 3 to 7, 8 to 31, 32 to 63, 64.
    groups: [u32; 5],
    /// A lower net only leads into a circle, out of one, from one to another.
    only_leads: [u32; 3],
    /// The lowest net on a circle is in no constraint but those of circles, leads into another circle too, is led to from another.
    lowest: [u32; 3],
    /// Circles without a net in common, with some in common.
    several: [u32; 2],
    /// The lowest net on a circle is not the first of these in the sheet, not the one with the least low byte.
    not_first: [u32; 2],
    /// The lowest net on a circle has one pin on each side, three pins or more.
    pins: [u32; 2],
    /// There is a chain without a circle too.
    beside_a_chain: u32,
    /// A net with both pins of a column, which is on no circle.
    over_itself: u32,
}

impl Circles {
    fn count(&mut self, channel: &Channel, list: &[u8], answer: Chained) {
        let (over, net) = (channel.over(list), answer.net as u16);
        let on = on_circles(&over);
        let from_each: BTreeMap<u16, Vec<u16>> = channel.nets().into_iter().map(|net| (net, reached(&over, net))).collect();
        let leads = |from: u16, to: u16| from_each[&from].contains(&to);
        let group = |net: u16| -> Vec<u16> { on.iter().copied().filter(|other| leads(net, *other) && leads(*other, net)).collect() };
        self.all += 1;
        add(&mut self.kinds, &KINDS.map(|kind| leaves(net) == kind));
        let greatest = on.iter().map(|net| group(*net).len()).max().unwrap();
        add(&mut self.groups, &[2..=2, 3..=7, 8..=31, 32..=63, 64..=64].map(|sizes| sizes.contains(&greatest)));
        let mut only_leads = [false; 3];
        for lower in channel.nets().into_iter().filter(|other| *other < net) {
            let (into, from) = (on.iter().any(|net| leads(lower, *net)), on.iter().any(|net| leads(*net, lower)));
            only_leads = [only_leads[0] || into && !from, only_leads[1] || from && !into, only_leads[2] || into && from];
        }
        add(&mut self.only_leads, &only_leads);
        let own = group(net);
        let outside = |other: &u16| *other != net && !own.contains(other);
        let into = on.iter().any(|other| outside(other) && leads(net, *other));
        let from = on.iter().any(|other| outside(other) && leads(*other, net));
        let alone = over.iter().all(|(above, below)| own.contains(above) == own.contains(below));
        add(&mut self.lowest, &[alone, into, from]);
        // with as many constraints as nets, a group is one circle
        let constraints = |group: &[u16]| over.iter().filter(|(above, below)| group.contains(above) && group.contains(below)).count();
        let shared = on.iter().any(|net| constraints(&group(*net)) > group(*net).len());
        add(&mut self.several, &[own.len() < on.len(), shared]);
        let first = channel.top.iter().chain(&channel.bottom).map(|t| t.net).find(|net| on.contains(net));
        add(&mut self.not_first, &[first != Some(net), on.iter().any(|other| other & 255 < net & 255)]);
        let pins = channel.pins(net, list).len();
        add(&mut self.pins, &[pins == 2, pins > 2]);
        let free = |net: &u16| !on.contains(net) && !on.iter().any(|other| leads(*net, *other) || leads(*other, *net));
        self.beside_a_chain += u32::from(over.iter().any(|(above, below)| free(above) && free(below)));
        self.over_itself += u32::from(channel.pairs(list).iter().any(|(above, below)| above == below && !on.contains(above)));
    }

    fn floors(&self, times: u32) {
        let Circles { kinds, groups, only_leads, lowest, several, not_first, pins, .. } = self;
        let one = [self.beside_a_chain, self.over_itself];
        for counts in [&kinds[..], groups, only_leads, lowest, several, not_first, pins, &one] {
            assert!(counts.iter().all(|count| *count > times), "{counts:?}");
        }
    }
}

/// Every refusal of a list that applies, in the order of the answers. A list of another length has no columns to ask.
fn refusals(channel: &Channel, list: &[u8]) -> Vec<u32> {
    if list.len() != channel.terminals() {
        return vec![12];
    }
    let not_allowed = channel.top.iter().chain(&channel.bottom).zip(list).any(|(t, column)| !names(t, *column));
    let out_of_range = channel.amounts(list).concat().into_iter().any(|amount| amount != 0);
    let circle = !on_circles(&channel.over(list)).is_empty();
    let rules = [(13, not_allowed), (14, out_of_range), (19, circle)];
    rules.into_iter().filter(|(_, applies)| *applies).map(|(number, _)| number).collect()
}

fn any_length(draw: &mut Draw) -> usize {
    match draw.between(0, 11) {
        0 => 1,
        1..=3 => 64,
        4 | 5 => draw.between(1, 64),
        _ => draw.between(2, 12),
    }
}

#[test]
fn drawn_assignments() {
    let mut draw = Draw::new(121);
    let (mut seen, mut chains, mut circles) = (Seen::default(), Chains::default(), Circles::default());
    let mut also: BTreeMap<(u32, u32), u32> = BTreeMap::new();
    for _ in 0..18_000 {
        let length = any_length(&mut draw);
        let (mut channel, mut list) = constrained(&mut draw, length);
        let held = Held::new(sheet_of(&channel, draw.once_in(2)));
        let answer = held.chain(&mut draw, &list, &mut seen);
        match answer.number {
            0 => chains.count(&channel, &list, answer),
            19 => circles.count(&channel, &list, answer),
            number => panic!("{number} of an assignment"),
        }

        // the same with faults that are named before a circle
        for _ in 0..draw.of(&[1, 1, 2]) {
            if list.len() == channel.terminals() {
                spoil(&mut draw, &mut channel, &mut list);
            }
        }
        let held = Held::new(sheet_of(&channel, draw.once_in(2)));
        let refused = refusals(&channel, &list);
        let answer = held.chain(&mut draw, &list, &mut seen);
        assert_eq!(answer.number, refused.first().copied().unwrap_or(0));
        for later in refused.iter().skip(1) {
            *also.entry((refused[0], *later)).or_default() += 1;
        }
    }
    seen.print("drawn assignments with constraints");
    println!("  {chains:?}\n  {circles:?}\n  with one that applied too: {also:?}");
    assert!(chains.all > 9_000 && circles.all > 4_000 && seen.straight.bound > 200);
    chains.floors(40);
    circles.floors(25);
    for number in [0, 12, 13, 14, 19] {
        assert!(seen.chain[number] > 1_000, "{number}");
    }
    for numbers in [(13, 14), (13, 19), (14, 19)] {
        assert!(also.get(&numbers).is_some_and(|times| *times > 300), "{numbers:?}");
    }
}

/// Assignments with constraints on sheets that are damaged, some of them so that they stay sound.
#[test]
fn damaged_sheets() {
    let mut draw = Draw::new(122);
    let mut seen = Seen::default();
    for _ in 0..30_000 {
        let length = draw.between(1, 12);
        let (channel, mut list) = constrained(&mut draw, length);
        let mut sheet = sheet_of(&channel, draw.once_in(2));
        for _ in 0..draw.of(&[1, 1, 2, 3]) {
            damage(&mut draw, &mut sheet);
        }
        match draw.between(0, 11) {
            0 => drop(list.pop()),
            1 => list.push(1),
            2 if !list.is_empty() => list[draw.between(0, channel.terminals() - 1)] = draw.between(0, length + 1) as u8,
            _ => {}
        }
        Held::new(sheet).chain(&mut draw, &list, &mut seen);
    }
    seen.print("chains on damaged sheets");
    for number in [0, 1, 2, 3, 4, 5, 6, 7, 8, 12, 13, 14, 19] {
        assert!(seen.chain[number] > 50, "{number}");
    }
}

/// What a search finds on sheets with constraints, and the list that each was drawn around.
#[test]
fn searched_assignments() {
    let mut draw = Draw::new(123);
    let mut seen = Seen::default();
    let mut searcher = Searcher::new();
    for _ in 0..4_000 {
        let length = draw.between(1, 8);
        let (channel, list) = constrained(&mut draw, length);
        searcher = every_call(&mut draw, &channel, Some(list), searcher, &mut seen);
    }
    seen.print("searched assignments with constraints");
    assert!(seen.chain[0] > 3_000 && seen.chain[19] > 500 && seen.straight.bound > 100);
}

/// Every channel of few columns where each column has a pin of one of the nets, or none, on each side.
#[test]
fn every_assignment_of_few_columns() {
    let mut draw = Draw::new(124);
    let mut seen = Seen::default();
    let mut by_answer: BTreeMap<(u32, u32), u32> = BTreeMap::new();
    for (nets, columns) in [(&[7, 60_002][..], 4), (&[300, 2, 62_001], 4), (&[3, 2, 60_000, 62_000, 65_535], 3)] {
        let pins = nets.len() + 1;
        for mut number in 0..pins.pow(2 * columns) {
            let (mut top, mut bottom) = (vec![], vec![]);
            for column in 1..=columns as u8 {
                for side in [&mut top, &mut bottom] {
                    side.extend((number % pins).checked_sub(1).map(|net| (nets[net], column)));
                    number /= pins;
                }
            }
            let (channel, list) = held(columns as u8, &top, &bottom);
            let [answer, counted] = Mark::BOTH.map(|mark| {
                let held = Held::new(sheet_of(&channel.under(mark), false));
                held.chain(&mut draw, &list, &mut seen)
            });
            // what lies over what is the same under both marks; the bound is no lower where straight wires count
            assert_eq!((answer.number, answer.net, answer.chain), (counted.number, counted.net, counted.chain));
            assert!(answer.bound <= counted.bound);
            *by_answer.entry((answer.net, answer.chain)).or_default() += 1;
        }
    }
    println!("every assignment of few columns, by net and chain: {by_answer:?}");
    assert_eq!(by_answer.values().sum::<u32>(), 6_561 + 65_536 + 46_656);
    assert!(seen.straight.bound > 2_000);
    for answer in [(2, 0), (3, 0), (7, 0), (300, 0), (60_000, 0), (0, 0), (0, 2), (0, 3), (0, 4)] {
        assert!(by_answer.get(&answer).is_some_and(|times| *times > 10), "{answer:?}");
    }
}

/// Holds the chain of a list to this answer.
fn hold_chain(channel: &Channel, list: &[u8], wanted: Chained) {
    let mut draw = Draw::new(125);
    for bottom_first in [false, true] {
        let held = Held::new(sheet_of(channel, bottom_first));
        assert_eq!(held.chain(&mut draw, list, &mut Seen::default()), wanted, "{list:?} of {channel:?}");
    }
}

fn no_circle(chain: u32, bound: u32) -> Chained {
    Chained { chain, bound, ..Chained::default() }
}

fn circle(net: u16) -> Chained {
    Chained { number: 19, net: net.into(), ..Chained::default() }
}

fn refused(number: u32, amount: i32) -> Chained {
    Chained { number, amount, ..Chained::default() }
}

/// Holds two rows of pins in columns 1, 2 and so on, where net 0 is no pin, to this answer on a sheet with this mark.
fn rows_under(mark: Mark, top: &[u16], bottom: &[u16], wanted: Chained) {
    let pins = |row: &[u16]| row.iter().copied().zip(1..).filter(|(net, _)| *net != 0).collect::<Vec<(u16, u8)>>();
    let (channel, list) = held(top.len() as u8, &pins(top), &pins(bottom));
    hold_chain(&channel.under(mark), &list, wanted);
}

/// The same under both marks.
fn rows(top: &[u16], bottom: &[u16], wanted: Chained) {
    Mark::BOTH.into_iter().for_each(|mark| rows_under(mark, top, bottom, wanted));
}

#[test]
fn known_chains() {
    let sheet_a = free(3, &[1, 2], &[2, 1]);
    hold_chain(&sheet_a, &[2, 3, 1, 2], no_circle(0, 1));
    hold_chain(&sheet_a, &[1, 2, 2, 3], no_circle(0, 1));
    hold_chain(&sheet_a, &[1, 2, 1, 2], circle(1));
    hold_chain(&sheet_a, &[1, 3, 1, 2], no_circle(2, 2));
    hold_chain(&sheet_a, &[2, 2, 1, 2], refused(14, -1));
    hold_chain(&sheet_a, &[4, 2, 1, 2], refused(13, 0));
    hold_chain(&sheet_a, &[1, 2, 1], refused(12, 0));
    hold_chain(&free(1, &[], &[]), &[], no_circle(0, 0));
    hold_chain(&free(64, &[], &[]), &[], no_circle(0, 0));
    let counted = sheet_a.under(Mark::Cq);
    hold_chain(&counted, &[2, 3, 1, 2], no_circle(0, 2));
    hold_chain(&counted, &[1, 2, 2, 3], no_circle(0, 2));
    hold_chain(&counted, &[1, 2, 1, 2], circle(1));
    hold_chain(&counted, &[1, 3, 1, 2], no_circle(2, 2));
    hold_chain(&counted, &[2, 2, 1, 2], refused(14, -1));

    // the constraints of figure 1 of Chao and Harper, with its nets 5 to 7 leaving at the left and 1 to 3 at the right
    rows(&[60_005, 60_006, 60_007, 4, 4, 4], &[4, 4, 4, 62_001, 62_002, 62_003], no_circle(3, 4));
    // Yoshimura and Kuh's channel of 1982: 10 over 7, 7 over 6, 6 over 2
    rows(&[0, 1, 4, 5, 1, 6, 7, 0, 4, 9, 10, 10], &[2, 3, 5, 3, 5, 2, 6, 8, 9, 8, 7, 9], no_circle(4, 5));
    // upside down the chain is as long
    rows(&[2, 3, 5, 3, 5, 2, 6, 8, 9, 8, 7, 9], &[0, 1, 4, 5, 1, 6, 7, 0, 4, 9, 10, 10], no_circle(4, 5));
}

/// A straight wire lies over no net, and none over it. On a CQ sheet it counts in the density, and so in the bound.
#[test]
fn straight_wires() {
    let both = |top: &[u16], bottom: &[u16], chain: u32, bounds: [u32; 2]| {
        Mark::BOTH.into_iter().zip(bounds).for_each(|(mark, bound)| rows_under(mark, top, bottom, no_circle(chain, bound)));
    };
    both(&[1], &[1], 0, [0, 1]);
    both(&[1, 2, 3], &[1, 2, 3], 0, [0, 1]);
    // under net 2, which runs over it
    both(&[2, 1, 2], &[0, 1, 0], 0, [1, 2]);
    // the chain is longer than the density, straight wire and all
    both(&[2, 2, 3, 5, 4], &[0, 3, 4, 5, 0], 3, [3, 3]);
    // the density is greater, but for the straight wire as great as the chain
    both(&[1, 5, 1, 1], &[2, 5, 2, 0], 2, [2, 3]);
    // a circle is one with straight wires beside it
    rows(&[1, 2, 3], &[2, 1, 3], circle(1));
    // a net with one pin counts nowhere, over another or alone
    both(&[1, 0], &[2, 0], 0, [0, 0]);
}

#[test]
fn nets_of_one_pin() {
    // a plain net with one pin lies over none, and none over it
    rows(&[1], &[2], no_circle(0, 0));
    rows(&[1, 0], &[2, 2], no_circle(0, 1));
    rows(&[1, 1], &[2, 0], no_circle(0, 1));
    rows(&[1, 1], &[2, 2], no_circle(2, 2));
    // at the ends of a chain
    rows(&[1, 2, 3], &[2, 3, 4], no_circle(2, 2));
    rows(&[1, 2, 3, 1], &[2, 3, 4, 0], no_circle(3, 3));
    rows(&[1, 2, 3, 0], &[2, 3, 4, 4], no_circle(3, 3));
    // a net that leaves does with one pin, whichever the end
    for leaving in [60_001, 62_000, 62_001, 64_000, 64_001, 65_535] {
        rows(&[leaving], &[2], no_circle(0, 1));
        rows(&[leaving, 2], &[2, 3], no_circle(2, 2));
        rows(&[1, 2], &[2, leaving], no_circle(2, 2));
        rows(&[leaving], &[60_500], no_circle(2, 2));
    }
    rows(&[60_000], &[60_500], no_circle(0, 1));
    // two pins in one column are two pins, and no net lies over itself
    rows(&[1, 5], &[1, 1], no_circle(0, 1));
    rows(&[1, 5, 5], &[1, 1, 0], no_circle(2, 2));
    rows(&[64_001], &[64_001], no_circle(0, 1));
}

#[test]
fn known_circles() {
    rows(&[1, 2], &[2, 1], circle(1));
    rows(&[2, 1], &[1, 2], circle(1));
    rows(&[60_000, 59_999], &[59_999, 60_000], circle(59_999));
    rows(&[65_535, 65_534], &[65_534, 65_535], circle(65_534));
    // the low byte alone would give net 512, the high byte alone either
    rows(&[512, 257], &[257, 512], circle(257));
    // three nets, and two circles that share net 4
    rows(&[9, 7, 8], &[7, 8, 9], circle(7));
    rows(&[4, 3, 4, 2], &[3, 4, 2, 4], circle(2));
    // lower nets that lead into a circle, out of one, and from one to another
    rows(&[1, 0, 8, 9], &[8, 1, 9, 8], circle(8));
    rows(&[8, 0, 8, 9], &[1, 1, 9, 8], circle(8));
    rows(&[8, 9, 1, 5, 6, 8], &[9, 8, 5, 6, 5, 1], circle(5));
    rows(&[1, 8, 9, 8, 2, 5, 6, 5], &[8, 9, 8, 2, 5, 6, 5, 3], circle(5));
    // two circles apart, the lower net on either
    rows(&[5, 6, 3, 9], &[6, 5, 9, 3], circle(3));
    rows(&[3, 9, 5, 6], &[9, 3, 6, 5], circle(3));
    // a chain beside a circle
    rows(&[1, 2, 3, 1, 8, 9], &[2, 3, 4, 4, 9, 8], circle(8));
    // the sheet's mark and a list that is no assignment come first
    let (channel, list) = held(2, &[(1, 1), (2, 2)], &[(2, 1), (1, 2)]);
    let mut sheet = sheet_of(&channel, false);
    assert_eq!(cazdrob::chain(&sheet, &list), Err(Refusal::Circle { net: 1 }));
    let last = sheet.len() - 1;
    sheet[last] = b'Q';
    assert_eq!(cazdrob::chain(&sheet, &list), Err(Refusal::Circle { net: 1 }));
    sheet[last] = b'X';
    assert_eq!(cazdrob::chain(&sheet, &list), Err(Refusal::Mark));
}

/// Chains and circles of every length, the columns from left to right and from right to left, the nets rising and falling.
#[test]
fn every_length() {
    for columns in 1..=64u16 {
        for leaving in [false, true] {
            let first: u16 = if leaving { 64_001 } else { 1 };
            let rising: Vec<u16> = (first..=first + columns).collect();
            let falling: Vec<u16> = rising.iter().rev().copied().collect();
            for nets in [&rising, &falling] {
                // each over the next: of plain nets the first and the last have one pin
                let backwards = |row: &[u16]| row.iter().rev().copied().collect::<Vec<u16>>();
                let (top, bottom) = (&nets[..nets.len() - 1], &nets[1..]);
                let chain = if leaving { u32::from(columns) + 1 } else { u32::from(columns - 1) };
                let chain = if chain < 2 { 0 } else { chain };
                let density = if leaving { u32::from(columns) + 1 } else { u32::from(columns - 1).min(2) };
                rows(top, bottom, no_circle(chain, chain.max(density)));
                rows(&backwards(top), &backwards(bottom), no_circle(chain, chain.max(density)));

                // the last over the first
                let around = &nets[..nets.len() - 1];
                let turned = [&around[1..], &around[..1]].concat();
                let lowest = *around.iter().min().unwrap();
                for mark in Mark::BOTH {
                    // alone, a net lies over itself in its one column
                    let alone = no_circle(0, u32::from(leaving || mark == Mark::Cq));
                    let wanted = if columns == 1 { alone } else { circle(lowest) };
                    rows_under(mark, around, &turned, wanted);
                    rows_under(mark, &backwards(around), &backwards(&turned), wanted);
                }
            }
        }
    }
}

/// As many nets as a sheet can have, two in each column.
#[test]
fn as_many_nets_as_terminals() {
    let density = [(64_001, 128), (60_001, 128), (62_001, 128), (59_873, 0)];
    for (first, density) in density {
        let (top, bottom): (Vec<u16>, Vec<u16>) = ((first..first + 64).collect(), (first + 64..first + 128).collect());
        let chain = if density == 0 { 0 } else { 2 };
        rows(&top, &bottom, no_circle(chain, density));
    }
}

/// A list that is a part of the sheet: both are only read.
#[test]
fn a_list_in_the_sheet() {
    // the nets are the bytes 2 and 3, and 2 and 3
    let sheet = sheet_of(&free(3, &[770, 770], &[770, 770]), false);
    let list = [&sheet[..2], &sheet[12..14]].concat();
    assert_eq!(list, [2, 3, 2, 3]);
    let one_side = sheet_of(&free(3, &[770, 770], &[]), false);
    assert_eq!(cazdrob::chain(&one_side, &one_side[..2]), Ok(Chain { nets: 0, bound: 1 }));
    assert_eq!(cazdrob::chain(&sheet, &list), Ok(Chain { nets: 0, bound: 1 }));
}
