//! The two marks: which nets count where under each, and what straight wires do to searches and measurements.
use crate::draw::{channel, sheet_of, Draw};
use crate::known::{found, free, measured};
use crate::leaving::{count_kinds, counts_under, held};
use crate::lent::Seen;
use crate::reference::{leaves, Channel, Mark};
use crate::sound::every_call;
use crate::tracks::add;
use cazdrob::{Assignment, Searcher};

/// Whether a net crosses a column of an assignment, by the three tests of the rules. The third asks under CQ for a net with exactly two
/// terminals on the sheet, wherever they stand.
fn by_the_tests(channel: &Channel, list: &[u8], net: u16, column: usize) -> bool {
    let pins = channel.pins(net, list);
    let (left, right) = leaves(net);
    let two_terminals = channel.top.iter().chain(&channel.bottom).filter(|t| t.net == net).count() == 2;
    let counted = channel.mark == Mark::Cq && two_terminals;
    (left || pins.iter().any(|pin| *pin <= column))
        && (right || pins.iter().any(|pin| *pin >= column))
        && (left || right || counted || pins.iter().any(|pin| *pin != column))
}

/// The reference takes plain nets of a CQ sheet as intervals: the same columns as by the tests, in every channel of few columns where each
/// has a pin of one of the nets, or none, on each side.
#[test]
fn intervals_are_as_the_tests_say() {
    let (mut crossed, mut counted) = ([0; 2], 0);
    for (nets, columns) in [(&[7, 60_002][..], 4), (&[7, 8, 64_001], 4), (&[60_000, 62_000, 62_001], 3), (&[1, 2, 3, 4], 3)] {
        let pins = nets.len() + 1;
        for mut number in 0..pins.pow(2 * columns) {
            let (mut top, mut bottom) = (vec![], vec![]);
            for column in 1..=columns as u8 {
                for side in [&mut top, &mut bottom] {
                    side.extend((number % pins).checked_sub(1).map(|net| (nets[net], column)));
                    number /= pins;
                }
            }
            let (channel, list) = held(columns as u8, &top, &bottom);
            let of_marks = Mark::BOTH.map(|mark| {
                let channel = channel.under(mark);
                let mut crosses = Vec::new();
                for net in channel.nets() {
                    let pins = channel.pins(net, &list);
                    for column in 1..=channel.length {
                        let crossing = mark.crosses(net, &pins, column);
                        assert_eq!(crossing, by_the_tests(&channel, &list, net, column), "net {net}, column {column} of {channel:?}");
                        crosses.extend(crossing.then_some((net, column)));
                    }
                }
                crosses
            });
            // the straight wires, each in its column, are all that CQ adds
            let [cp, cq] = &of_marks;
            let added: Vec<(u16, usize)> = cq.iter().filter(|one| !cp.contains(one)).copied().collect();
            assert_eq!(added, channel.straight_wires(&list));
            assert!(cp.iter().all(|one| cq.contains(one)));
            add(&mut crossed, &of_marks.each_ref().map(|crosses| !crosses.is_empty()));
            counted += u32::from(!added.is_empty());
        }
    }
    println!("with a net that crosses a column under CP and CQ: {crossed:?}, with straight wires: {counted}");
    assert!(crossed.iter().all(|lists| *lists > 50_000) && counted > 5_000);
}

/// A straight wire in every column, alone and beside a net over two neighbouring columns.
#[test]
fn every_column_of_a_straight_wire() {
    for length in [1, 2, 3, 8, 64] {
        let columns: Vec<u8> = if length == 64 { vec![1, 2, 33, 63, 64] } else { (1..=length).collect() };
        for net in [1, 256, 60_000] {
            for column in &columns {
                let wire = [(net, *column)];
                counts_under(Mark::Cp, length, &wire, &wire, 0);
                counts_under(Mark::Cq, length, &wire, &wire, 1);
                // one pin alone counts nowhere
                for mark in Mark::BOTH {
                    counts_under(mark, length, &wire, &[], 0);
                    counts_under(mark, length, &[], &wire, 0);
                }
                for first in (1..length).filter(|first| ![*first, first + 1].contains(column)) {
                    let mut top = [(net, *column), (2, first), (2, first + 1)];
                    top.sort_by_key(|(_, column)| *column);
                    counts_under(Mark::Cp, length, &top, &wire, 1);
                    counts_under(Mark::Cq, length, &top, &wire, 1);
                }
                if (2..length).contains(column) {
                    let top = [(2, column - 1), (net, *column), (2, column + 1)];
                    counts_under(Mark::Cp, length, &top, &wire, 1);
                    counts_under(Mark::Cq, length, &top, &wire, 2);
                }
            }
        }
    }
}

/// What decides is how many terminals a net has on the sheet, and not how many pins are in the column.
#[test]
fn nets_of_two_and_of_three_pins() {
    // two pins apart, or in one column; a third pin anywhere
    for mark in Mark::BOTH {
        let counted = u32::from(mark == Mark::Cq);
        counts_under(mark, 3, &[(5, 1)], &[(5, 3)], 1);
        counts_under(mark, 3, &[(5, 2)], &[(5, 2)], counted);
        counts_under(mark, 3, &[(5, 2), (5, 3)], &[(5, 2)], 1);
        counts_under(mark, 3, &[(5, 1), (5, 2)], &[(5, 2)], 1);
        // two straight wires side by side share no column
        counts_under(mark, 3, &[(5, 1), (6, 2)], &[(5, 1), (6, 2)], counted);
        // in the column of a net with three pins
        counts_under(mark, 3, &[(5, 1), (6, 2), (5, 3)], &[(5, 1), (6, 2)], 1 + counted);
        // two pins of two nets in one column, each with a pin elsewhere, and without
        counts_under(mark, 3, &[(5, 2), (6, 3)], &[(6, 2), (5, 3)], 2);
        counts_under(mark, 3, &[(5, 2)], &[(6, 2)], 0);
    }
}

/// As many straight wires as a sheet can have.
#[test]
fn straight_wires_in_every_column() {
    let nets: Vec<u16> = (1..=64).collect();
    let columns: Vec<u8> = (1..=64).chain(1..=64).collect();
    let mut searcher = Searcher::new();
    for (mark, density) in Mark::BOTH.into_iter().zip([0, 1]) {
        let channel = free(64, &nets, &nets).under(mark);
        assert_eq!(channel.best(), Some((density, columns.clone())));
        assert_eq!(searcher.assign(&sheet_of(&channel, false)), Ok(Assignment { density, columns: columns.clone() }));
        measured(&channel, &columns, Ok(density));
    }
}

/// Sheets on which the mark decides.
#[test]
fn searches() {
    let both = |channel: &Channel, cp: (u32, &[u8]), cq: (u32, &[u8])| {
        found(&channel.under(Mark::Cp), cp.0, cp.1);
        found(&channel.under(Mark::Cq), cq.0, cq.1);
    };
    // straight or not, each pair counts once under CQ, and the word decides
    both(&free(3, &[5], &[5]), (0, &[1, 1]), (1, &[1, 1]));
    both(&free(3, &[2, 3], &[2, 3]), (0, &[1, 2, 1, 2]), (1, &[1, 2, 1, 2]));
    // one of the two nets is straight under CP
    both(&free(3, &[1, 2], &[2, 1]), (1, &[2, 3, 1, 2]), (2, &[1, 2, 1, 2]));
    // with one least density: under CP two others cross the column of net 1, which is straight; under CQ they share no column
    both(&free(4, &[1, 60_001], &[62_001, 1]), (2, &[2, 3, 1, 2]), (2, &[1, 2, 3, 4]));
    both(&free(4, &[62_001, 1], &[1, 60_001]), (2, &[1, 2, 2, 3]), (2, &[3, 4, 1, 2]));
}

/// How many drawn channels with an assignment were so.
#[derive(Debug, Default)]
struct Sheets {
    all: u32,
    /// With plain nets, nets that leave at the left, at the right, at both ends.
    kinds: [u32; 4],
    /// The least density is higher under CQ, the same.
    denser: u32,
    as_dense: u32,
    /// The best assignment is another under CQ: where the least density is higher, and where it is the same.
    moved: [u32; 2],
    /// The best assignment under CQ has a straight wire in its densest column.
    straight: u32,
    /// A straight wire of the best assignment under CP is none in that under CQ.
    bent: u32,
    /// The drawn list is denser under CQ.
    list_denser: u32,
    /// No column has pins of two nets in either best assignment, and that under CQ takes more tracks.
    more_tracks: u32,
}

impl Sheets {
    fn count(&mut self, channel: &Channel, list: Option<&[u8]>) {
        let [cp, cq] = Mark::BOTH.map(|mark| channel.under(mark));
        let (Some((least, best)), Some((counted, best_counted))) = (cp.best(), cq.best()) else {
            return;
        };
        self.all += 1;
        count_kinds(&mut self.kinds, channel);
        self.denser += u32::from(counted > least);
        self.as_dense += u32::from(counted == least);
        let moved = best != best_counted;
        add(&mut self.moved, &[moved && counted > least, moved && counted == least]);
        let [wires, wires_counted] = [&best, &best_counted].map(|list| channel.straight_wires(list));
        let crosses = |net: u16, column: usize| Mark::Cq.crosses(net, &cq.pins(net, &best_counted), column);
        let load = |column: usize| cq.nets().into_iter().filter(|net| crosses(*net, column)).count() as u32;
        self.straight += u32::from(wires_counted.iter().any(|(_, column)| load(*column) == counted));
        self.bent += u32::from(wires.iter().any(|(net, _)| wires_counted.iter().all(|(other, _)| other != net)));
        self.list_denser += u32::from(list.is_some_and(|list| cq.density(list) > cp.density(list)));
        let clean = channel.two_nets(&best).is_empty() && channel.two_nets(&best_counted).is_empty();
        self.more_tracks += u32::from(clean && counted > least);
    }
}

/// Gives the terminals of one place on both sides one net, mostly a plain one of its own. Some bottom nets change places after that.
fn straighten(draw: &mut Draw, channel: &mut Channel) {
    for (place, (top, bottom)) in channel.top.iter_mut().zip(&mut channel.bottom).enumerate() {
        let own = place as u16 + 1;
        top.net = if draw.once_in(6) { draw.of(&[1, 60_001, 62_001, 64_001]) } else { own };
        bottom.net = top.net;
    }
    for place in 1..channel.bottom.len() {
        if draw.once_in(4) {
            let before = channel.bottom[place - 1].net;
            channel.bottom[place - 1].net = channel.bottom[place].net;
            channel.bottom[place].net = before;
        }
    }
}

/// Each drawn channel under both marks.
#[test]
fn drawn_sheets() {
    let mut draw = Draw::new(131);
    let (mut seen, mut sheets) = (Seen::default(), Sheets::default());
    let mut searcher = Searcher::new();
    for _ in 0..8_000 {
        let length = draw.between(1, 12);
        let [p, q] = [(); 2].map(|()| draw.between(0, length.min(6)));
        let (mut channel, list) = channel(&mut draw, length, p, q);
        if !draw.once_in(3) {
            straighten(&mut draw, &mut channel);
        }
        sheets.count(&channel, list.as_deref());
        for mark in Mark::BOTH {
            searcher = every_call(&mut draw, &channel.under(mark), list.clone(), searcher, &mut seen);
        }
    }
    seen.print("drawn sheets under both marks");
    println!("  {sheets:?}");
    let Sheets { all, kinds, denser, as_dense, moved, straight, bent, list_denser, more_tracks } = sheets;
    assert!(all > 5_000 && kinds.iter().all(|sheets| *sheets > 1_000) && denser > 1_000 && as_dense > 1_000);
    // with one least density for both marks, the best assignment is seldom another
    assert!(moved[0] > 400 && moved[1] > 0 && straight > 1_000 && bent > 400 && list_denser > 200 && more_tracks > 500);
    assert!(seen.straight.denser > 500 && seen.straight.own_track > 200 && seen.straight.bound > 500);
}
