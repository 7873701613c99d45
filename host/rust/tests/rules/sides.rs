//! Modules in plain Rust: reading the list of a side, what is refused and why, the channel that two sides mean, and every placement.
//! The structs are the wrapper's; nothing is shared with the library.
use crate::reference::{Channel, Mark, Terminal};
use cazdrob::{Module, Pin};

/// Why a module is refused with 16.
#[derive(Debug, Clone, Copy)]
pub enum Fault {
    NoPins,
    Seventeenth,
    WidthZero,
    WidthAbove,
    OffsetZero,
    OffsetsNotRising,
    OffsetAbove,
    CutInHead,
    CutInPins,
}

/// A side as read from its list.
#[derive(Debug)]
pub struct Side {
    /// The modules that are there whole.
    pub modules: Vec<Module>,
    /// How the module behind them runs past the list's end, if there is one.
    cut: Option<Fault>,
}

/// Two sides as read from their lists.
pub fn read(lists: &[Vec<u8>; 2]) -> [Side; 2] {
    lists.each_ref().map(|list| Side::read(list))
}

impl Side {
    fn read(list: &[u8]) -> Self {
        let mut modules = Vec::new();
        let mut at = 0;
        while at < list.len() {
            let Some(head) = list.get(at..at + 10) else {
                return Side { modules, cut: Some(Fault::CutInHead) };
            };
            let pins_at = at + 10;
            at = pins_at + 3 * usize::from(head[1]);
            let Some(pins) = list.get(pins_at..at) else {
                return Side { modules, cut: Some(Fault::CutInPins) };
            };
            let edges = (0..8).map(|k| u64::from(head[2 + k]) << (8 * k)).sum();
            let pins = pins.chunks(3).map(|pin| Pin { offset: pin[0], net: u16::from(pin[1]) + 256 * u16::from(pin[2]) }).collect();
            modules.push(Module { width: head[0], edges, pins });
        }
        Side { modules, cut: None }
    }

    /// One fault of each module that has one.
    pub fn faults(&self) -> Vec<Fault> {
        let of_modules = self.modules.iter().filter_map(fault).chain(self.cut);
        let seventeen = self.modules.len() + usize::from(self.cut.is_some()) > 16;
        of_modules.chain(seventeen.then_some(Fault::Seventeenth)).collect()
    }

    /// The modules whose last column is beyond the channel's end from some left edge of their set.
    pub fn beyond(&self, length: usize) -> impl Iterator<Item = &Module> {
        self.modules.iter().filter(move |module| edges_of(module).any(|edge| edge + usize::from(module.width) - 1 > length))
    }

    pub fn pins(&self) -> impl Iterator<Item = &Pin> {
        self.modules.iter().flat_map(|module| &module.pins)
    }

    fn terminals(&self) -> Vec<Terminal> {
        let mut terminals = Vec::new();
        // the columns from the last pin of the module before to that module's end
        let mut behind = None;
        for module in &self.modules {
            let mut offset_before = None;
            for Pin { offset, net } in &module.pins {
                let (least, greatest) = match (offset_before, behind) {
                    (Some(before), _) => (offset - before, offset - before),
                    (None, Some(behind)) => (behind + offset, 255),
                    (None, None) => (0, 0),
                };
                let set = edges_of(module).map(|edge| 1 << (column(edge, *offset) - 1)).sum();
                terminals.push(Terminal { net: *net, least, greatest, set });
                offset_before = Some(offset);
            }
            behind = offset_before.map(|last| module.width - last);
        }
        terminals
    }

    /// The columns of the pins in every placement.
    pub fn placed(&self) -> Vec<Vec<u8>> {
        let columns = |edges: Vec<usize>| {
            let modules = self.modules.iter().zip(edges);
            modules.flat_map(|(module, edge)| module.pins.iter().map(move |pin| column(edge, pin.offset) as u8)).collect()
        };
        placements(&self.modules, 1).into_iter().map(columns).collect()
    }
}

/// What is wrong with a module, if anything.
fn fault(module: &Module) -> Option<Fault> {
    let offsets = || module.pins.iter().map(|pin| pin.offset);
    match module.width {
        _ if module.pins.is_empty() => Some(Fault::NoPins),
        0 => Some(Fault::WidthZero),
        65.. => Some(Fault::WidthAbove),
        _ if offsets().next() == Some(0) => Some(Fault::OffsetZero),
        _ if offsets().zip(offsets().skip(1)).any(|(before, offset)| offset <= before) => Some(Fault::OffsetsNotRising),
        width => offsets().any(|offset| offset > width).then_some(Fault::OffsetAbove),
    }
}

fn edges_of(module: &Module) -> impl Iterator<Item = usize> + '_ {
    (1..=64).filter(|edge| module.edges >> (edge - 1) & 1 == 1)
}

/// The column of a pin.
fn column(edge: usize, offset: u8) -> usize {
    edge + usize::from(offset) - 1
}

/// Every placement of the modules from the first free column on: a left edge for each, in its set, with its last column left of the next
/// one's edge.
fn placements(modules: &[Module], free: usize) -> Vec<Vec<usize>> {
    let Some((module, rest)) = modules.split_first() else {
        return vec![vec![]];
    };
    let mut all = Vec::new();
    for edge in edges_of(module).filter(|edge| *edge >= free) {
        let later = placements(rest, edge + usize::from(module.width));
        all.extend(later.into_iter().map(|later| [&[edge], &later[..]].concat()));
    }
    all
}

/// Every refusal that applies, in the order of the answers; the first is given.
pub fn refusals(length: usize, sides: &[Side; 2], sheet_len: usize) -> Vec<u32> {
    let on_a_side = |applies: &dyn Fn(&Side) -> bool| sides.iter().any(applies);
    let rules = [
        (3, length == 0 || length > 64),
        (16, on_a_side(&|side| !side.faults().is_empty())),
        (17, on_a_side(&|side| side.beyond(length).next().is_some())),
        (4, on_a_side(&|side| side.pins().count() > 64)),
        (6, on_a_side(&|side| side.pins().any(|pin| pin.net == 0))),
        (9, sheet_len < needed(sides)),
    ];
    rules.into_iter().filter(|(_, applies)| *applies).map(|(number, _)| number).collect()
}

/// The length of the sheet.
pub fn needed(sides: &[Side; 2]) -> usize {
    12 * (sides[0].pins().count() + sides[1].pins().count()) + 12
}

/// The channel that two sides mean where nothing is refused.
pub fn channel(length: usize, [top, bottom]: &[Side; 2]) -> Channel {
    Channel { mark: Mark::Cp, length, top: top.terminals(), bottom: bottom.terminals() }
}
