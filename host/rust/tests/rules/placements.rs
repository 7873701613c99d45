//! The assignments of a sheet made of modules are the placements of the modules, one to one, and a search finds the best placement. With
//! the mark CQ in place of the sheet's own they are the same.
use crate::draw::{modules, Draw};
use crate::reference::{Channel, Mark};
use crate::sides::{channel, read};
use cazdrob::{Module, Refusal, Searcher};
use std::collections::BTreeSet;

/// Two sides of few modules, with so few pins that every column list can be tried, and with few nets, so that densities differ.
fn few(draw: &mut Draw) -> (usize, [Vec<Module>; 2]) {
    let (length, most) = draw.of(&[(3, 6), (4, 6), (5, 6), (6, 6), (7, 5), (8, 5), (12, 4), (64, 2)]);
    let mut sides = [(); 2].map(|()| {
        let (count, widest) = (draw.between(0, 3), draw.between(1, length.min(4)));
        modules(draw, length, count, widest)
    });
    while sides.iter().flatten().map(|module| module.pins.len()).sum::<usize>() > most {
        let longer = usize::from(sides[1].len() > sides[0].len());
        sides[longer].pop();
    }
    let nets = draw.of(&[[1, 2, 3], [1, 2, 3], [1, 60_001, 62_001]]);
    for pin in sides.iter_mut().flatten().flat_map(|module| &mut module.pins) {
        pin.net = draw.of(&nets);
    }
    (length, sides)
}

/// The assignments among all column lists, by the library's measurement.
fn assignments(sheet: &[u8], length: usize, terminals: usize) -> BTreeSet<Vec<u8>> {
    let mut found = BTreeSet::new();
    let mut list = vec![1; terminals];
    loop {
        if cazdrob::measure(sheet, &list).is_ok() {
            found.insert(list.clone());
        }
        let Some(at) = list.iter().rposition(|column| usize::from(*column) < length) else {
            return found;
        };
        list[at] += 1;
        list[at + 1..].fill(1);
    }
}

/// The least density of the lists and, of those that have it, the one with the smallest word.
fn best_of(channel: &Channel, lists: &BTreeSet<Vec<u8>>) -> Option<(u32, Vec<u8>)> {
    let best = lists.iter().min_by_key(|list| (channel.density(list), channel.word(list)))?;
    Some((channel.density(best), best.clone()))
}

#[test]
fn assignments_are_placements() {
    let mut draw = Draw::new(91);
    let mut searcher = Searcher::new();
    let (mut lists, mut placements, mut without, mut several, mut densities_differ) = (0, 0, 0, 0, 0);
    for _ in 0..6_000 {
        let (length, modules) = few(&mut draw);
        let mut sheet = cazdrob::sheet_of_modules(length, &modules[0], &modules[1]).unwrap();
        let sides = read(&modules.map(|side| cazdrob::side(&side)));
        let mark = draw.of(&Mark::BOTH);
        let channel = channel(length, &sides).under(mark);
        let letters = sheet.len() - 2;
        sheet[letters..].copy_from_slice(&mark.letters());
        let [tops, bottoms] = sides.each_ref().map(|side| side.placed());
        let placed: BTreeSet<Vec<u8>> = tops.iter().flat_map(|top| bottoms.iter().map(move |bottom| [&top[..], bottom].concat())).collect();
        assert_eq!(placed.len(), tops.len() * bottoms.len(), "two placements of {sides:?} with the same columns");
        assert_eq!(placed, assignments(&sheet, length, channel.terminals()), "{sides:?} on {length} columns");
        let best = best_of(&channel, &placed);
        let found = searcher.assign(&sheet).map(|best| (best.density, best.columns)).map_err(Refusal::number);
        assert_eq!(found, best.clone().ok_or(11), "{sides:?} on {length} columns");

        lists += length.pow(channel.terminals() as u32);
        placements += placed.len();
        without += u32::from(placed.is_empty());
        several += u32::from(placed.len() > 1 && sides.iter().any(|side| side.modules.len() > 1));
        densities_differ += u32::from(best.is_some_and(|(least, _)| placed.iter().any(|list| channel.density(list) > least)));
    }
    println!("{placements} placements among {lists} column lists");
    println!("  pairs without one {without}, with several of several modules {several}, of different densities {densities_differ}");
    assert!(placements > 200_000 && without > 1_000 && several > 1_000 && densities_differ > 400);
}
