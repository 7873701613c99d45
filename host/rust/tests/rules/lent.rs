//! Calls of the C functions on buffers out of the middle of longer ones full of garbage, each held to what the reference says, to the
//! last byte and cell of the longer buffers.
use crate::draw::Draw;
use crate::reference::{read, Chained, Channel, Mark, Record, Refused};
use cazdrob::{Chain, Refusal, Routing, Searcher, Span, Tracks};

extern "C" {
    fn cazdrob_check(sheet: *const u8, sheet_len: usize) -> u32;
    fn cazdrob_cells(sheet: *const u8, sheet_len: usize) -> usize;
    fn cazdrob_measure(
        sheet: *const u8,
        sheet_len: usize,
        columns: *const u8,
        columns_len: usize,
        density: *mut u32,
        amount: *mut i32,
    ) -> u32;
    fn cazdrob_search(
        sheet: *const u8,
        sheet_len: usize,
        columns: *mut u8,
        columns_len: usize,
        work: *mut u16,
        work_len: usize,
        density: *mut u32,
    ) -> u32;
    fn cazdrob_tracks(
        sheet: *const u8,
        sheet_len: usize,
        columns: *const u8,
        columns_len: usize,
        spans: *mut Record,
        spans_len: usize,
        nets: *mut usize,
        tracks: *mut u32,
        amount: *mut i32,
    ) -> u32;
    fn cazdrob_chain(
        sheet: *const u8,
        sheet_len: usize,
        columns: *const u8,
        columns_len: usize,
        chain: *mut u32,
        bound: *mut u32,
        net: *mut u32,
        amount: *mut i32,
    ) -> u32;
}

/// Elements to lend, with others in front of them and behind them.
#[derive(Clone)]
pub struct Lent<T> {
    all: Vec<T>,
    front: usize,
    len: usize,
}

impl<T: Copy + PartialEq + std::fmt::Debug> Lent<T> {
    pub fn around(draw: &mut Draw, elements: &[T], garbage: fn(u64) -> T) -> Self {
        let (front, back) = (draw.between(1, 24), draw.between(1, 24));
        let mut all: Vec<T> = (0..front).map(|_| garbage(draw.word())).collect();
        all.extend(elements);
        all.extend((0..back).map(|_| garbage(draw.word())));
        Lent { all, front, len: elements.len() }
    }

    pub fn garbage(draw: &mut Draw, len: usize, garbage: fn(u64) -> T) -> Self {
        let elements: Vec<T> = (0..len).map(|_| garbage(draw.word())).collect();
        Self::around(draw, &elements, garbage)
    }

    pub fn lend(&mut self) -> &mut [T] {
        &mut self.all[self.front..self.front + self.len]
    }

    /// Holds the whole to what it was before, but for its first lent elements, which are now these.
    pub fn hold(&self, before: &Self, first: impl ExactSizeIterator<Item = T>, what: &str) {
        let end = self.front + first.len();
        assert!(self.all[self.front..end].iter().copied().eq(first), "{what}: the first elements");
        assert!(self.all[..self.front] == before.all[..self.front], "{what}: in front of the buffer");
        assert!(self.all[end..] == before.all[end..], "{what}: behind what is written");
    }
}

/// How often each number was returned, by function.
#[derive(Default)]
pub struct Seen {
    pub check: [u32; 15],
    pub measure: [u32; 15],
    pub search: [u32; 15],
    pub tracks: [u32; 19],
    pub chain: [u32; 20],
    pub bad: Bad,
    pub straight: Straight,
}

impl Seen {
    pub fn print(&self, test: &str) {
        println!("{test}: times that each number was returned, from 0 on");
        let of_lists = [("measure", &self.measure[..]), ("tracks", &self.tracks), ("chain", &self.chain)];
        let calls = [("check", &self.check[..]), ("search", &self.search)].into_iter().chain(of_lists);
        for (call, times) in calls.filter(|(_, times)| times.iter().any(|times| *times > 0)) {
            println!("  {call:<7} {times:?}");
        }
        if self.measure[14] > 0 {
            println!("  of 14   {:?}", self.bad);
        }
        if self.straight != Straight::default() {
            println!("  of CQ   {:?}", self.straight);
        }
    }
}

/// How often the straight wires of a list told on a CQ sheet.
#[derive(Debug, Default, PartialEq)]
pub struct Straight {
    /// The density is above that of the same list on a CP sheet.
    pub denser: u32,
    /// A straight wire has a track of its own in its column, as another net crosses that.
    pub own_track: u32,
    /// The bound of tracks is above that of the same list on a CP sheet.
    pub bound: u32,
}

impl Straight {
    fn measured(&mut self, channel: &Channel, list: &[u8], density: u32) {
        self.denser += u32::from(density > channel.under(Mark::Cp).density(list));
    }

    fn routed(&mut self, channel: &Channel, list: &[u8], records: &[Record]) {
        let others = |net: u16, column: usize| {
            let there = |[other, left, right, track]: &Record| *other != net && *track > 0 && (*left..=*right).contains(&(column as u16));
            records.iter().any(there)
        };
        let has_track = |net: u16| records.iter().any(|[other, .., track]| *other == net && *track > 0);
        let own = |(net, column): (u16, usize)| has_track(net) && others(net, column);
        self.own_track += u32::from(channel.straight_wires(list).into_iter().any(own));
    }

    fn chained(&mut self, channel: &Channel, list: &[u8], Chained { chain, bound, .. }: Chained) {
        self.bound += u32::from(bound > chain.max(channel.under(Mark::Cp).density(list)));
    }
}

/// How often the bad pairs behind 14 lay so.
#[derive(Debug, Default)]
pub struct Bad {
    pub top_alone: u32,
    pub bottom_alone: u32,
    pub both: u32,
    /// The bottom's first bad pair has another amount than the top's.
    pub sides_differ: u32,
    /// A later bad pair of the same side has another amount than the first.
    pub later_differs: u32,
    pub too_close: u32,
    pub too_far: u32,
}

impl Bad {
    fn count(&mut self, amounts: [Vec<i32>; 2]) {
        let [top, bottom] = amounts.map(|side| side.into_iter().filter(|amount| *amount != 0).collect::<Vec<i32>>());
        self.top_alone += u32::from(bottom.is_empty());
        self.bottom_alone += u32::from(top.is_empty());
        let both = !top.is_empty() && !bottom.is_empty();
        self.both += u32::from(both);
        self.sides_differ += u32::from(both && top[0] != bottom[0]);
        let side = if top.is_empty() { bottom } else { top };
        self.later_differs += u32::from(side.iter().any(|amount| *amount != side[0]));
        self.too_close += u32::from(side[0] < 0);
        self.too_far += u32::from(side[0] > 0);
    }
}

/// A record as the wrapper has it.
pub fn span([net, left, right, track]: Record) -> Span {
    Span { net, left, right, track }
}

/// What the wrapper says of a refused measurement, of tracks that are refused, or of a chain but for 19, as the reference says it.
pub fn refused(refusal: Refusal) -> Refused {
    let amount = if let Refusal::OutOfRange { amount } = refusal { amount } else { 0 };
    Refused { number: refusal.number(), amount }
}

/// Holds the sheet and its answers for the calls to come.
pub struct Held {
    pub sheet: Vec<u8>,
    pub read: Result<Channel, u32>,
    best: Option<Option<(u32, Vec<u8>)>>,
    searcher: Searcher,
}

impl Held {
    pub fn new(sheet: Vec<u8>) -> Self {
        let read = read(&sheet);
        Held { sheet, read, best: None, searcher: Searcher::new() }
    }

    /// With a searcher that has been used.
    pub fn with(sheet: Vec<u8>, searcher: Searcher) -> Self {
        Held { searcher, ..Held::new(sheet) }
    }

    pub fn searcher(self) -> Searcher {
        self.searcher
    }

    /// The best assignment by the reference: every assignment is tried where that is quick, else it is the dynamic programme's.
    pub fn best(&mut self) -> &Option<(u32, Vec<u8>)> {
        let channel = self.read.as_ref().expect("a sound sheet");
        self.best.get_or_insert_with(|| {
            let few = channel.length <= 6 && channel.terminals() <= 8;
            if few {
                channel.best_of_all()
            } else {
                channel.best()
            }
        })
    }

    pub fn terminals(&self) -> usize {
        self.read.as_ref().map_or(0, Channel::terminals)
    }

    pub fn cells(&self) -> usize {
        self.read.as_ref().map_or(0, Channel::cells)
    }

    pub fn nets(&self) -> usize {
        self.read.as_ref().map_or(0, |channel| channel.nets().len())
    }

    /// Holds the check and the number of cells.
    pub fn check(&self, draw: &mut Draw, seen: &mut Seen) {
        let mut lent = Lent::around(draw, &self.sheet, |w| w as u8);
        let before = lent.clone();
        let sheet = lent.lend();
        let wanted = *self.read.as_ref().err().unwrap_or(&0);
        // SAFETY: the pointer and the length are a slice's, here and below.
        let (number, cells) = unsafe { (cazdrob_check(sheet.as_ptr(), sheet.len()), cazdrob_cells(sheet.as_ptr(), sheet.len())) };
        assert_eq!(number, wanted, "check of {:?}", self.sheet);
        assert_eq!(cells, self.cells(), "cells of {:?}", self.sheet);
        assert_eq!(cazdrob::check(sheet).map_err(|r| r.number()).err().unwrap_or(0), wanted);
        assert_eq!(cazdrob::cells(sheet), cells);
        lent.hold(&before, [].into_iter(), "the sheet");
        seen.check[number as usize] += 1;
    }

    /// Holds the measurement of a list.
    pub fn measure(&self, draw: &mut Draw, list: &[u8], seen: &mut Seen) {
        let wanted = self.read.as_ref().map_err(|number| Refused::from(*number)).and_then(|channel| channel.measure(list));
        let (wanted_density, Refused { number: wanted_number, amount: wanted_amount }) = match wanted {
            Ok(density) => (density, Refused::from(0)),
            Err(refused) => (0, refused),
        };
        let mut sheet = Lent::around(draw, &self.sheet, |w| w as u8);
        let mut columns = Lent::around(draw, list, |w| w as u8);
        let mut density = Lent::garbage(draw, 1, |w| w as u32);
        let mut amount = Lent::garbage(draw, 1, |w| w as i32);
        let before = (sheet.clone(), columns.clone(), density.clone(), amount.clone());
        let number = {
            let (sheet, columns, density, amount) = (sheet.lend(), columns.lend(), density.lend(), amount.lend());
            let (density, amount) = (density.as_mut_ptr(), amount.as_mut_ptr());
            unsafe { cazdrob_measure(sheet.as_ptr(), sheet.len(), columns.as_ptr(), columns.len(), density, amount) }
        };
        let got = (number, density.lend()[0], amount.lend()[0]);
        assert_eq!(got, (wanted_number, wanted_density, wanted_amount), "measurement of {list:?} on {:?}", self.sheet);
        assert_eq!(cazdrob::measure(sheet.lend(), columns.lend()).map_err(refused), wanted);
        sheet.hold(&before.0, [].into_iter(), "the sheet");
        columns.hold(&before.1, [].into_iter(), "the list");
        density.hold(&before.2, [wanted_density].into_iter(), "the density");
        amount.hold(&before.3, [wanted_amount].into_iter(), "the amount");
        seen.measure[number as usize] += 1;
        match (number, &self.read) {
            (0, Ok(channel)) if channel.mark == Mark::Cq => seen.straight.measured(channel, list, wanted_density),
            (14, Ok(channel)) => seen.bad.count(channel.amounts(list)),
            _ => {}
        }
    }

    /// Holds the tracks of a list on an array of so many records, and gives the answer.
    pub fn tracks(&self, draw: &mut Draw, list: &[u8], room: usize, seen: &mut Seen) -> Result<Vec<Record>, Refused> {
        let answer = |room| self.read.as_ref().map_err(|number| Refused::from(*number)).and_then(|channel| channel.tracks(list, room));
        let tracks_of = |records: &[Record]| records.iter().map(|[.., track]| u32::from(*track)).max().unwrap_or(0);
        let wanted = answer(room);
        let (records, Refused { number: wanted_number, amount: wanted_amount }) = match &wanted {
            Ok(records) => (&records[..], Refused::from(0)),
            Err(refused) => (&[][..], *refused),
        };
        let wanted_tracks = tracks_of(records);

        let mut sheet = Lent::around(draw, &self.sheet, |w| w as u8);
        let mut columns = Lent::around(draw, list, |w| w as u8);
        let mut spans = Lent::garbage(draw, room, |w| [w as u16, (w >> 16) as u16, (w >> 32) as u16, (w >> 48) as u16]);
        let mut nets = Lent::garbage(draw, 1, |w| w as usize);
        let mut tracks = Lent::garbage(draw, 1, |w| w as u32);
        let mut amount = Lent::garbage(draw, 1, |w| w as i32);
        let before = (sheet.clone(), columns.clone(), spans.clone(), nets.clone(), tracks.clone(), amount.clone());
        let number = {
            let (sheet, columns, spans) = (sheet.lend(), columns.lend(), spans.lend());
            let (nets, tracks, amount) = (nets.lend().as_mut_ptr(), tracks.lend().as_mut_ptr(), amount.lend().as_mut_ptr());
            unsafe {
                cazdrob_tracks(
                    sheet.as_ptr(),
                    sheet.len(),
                    columns.as_ptr(),
                    columns.len(),
                    spans.as_mut_ptr(),
                    spans.len(),
                    nets,
                    tracks,
                    amount,
                )
            }
        };
        let what = || format!("tracks of {list:?} on {:?} with {room} records", self.sheet);
        let got = (number, nets.lend()[0], tracks.lend()[0], amount.lend()[0]);
        assert_eq!(got, (wanted_number, records.len(), wanted_tracks, wanted_amount), "{}", what());
        assert_eq!(spans.lend()[..records.len()], *records, "{}", what());
        sheet.hold(&before.0, [].into_iter(), "the sheet");
        columns.hold(&before.1, [].into_iter(), "the list");
        spans.hold(&before.2, records.iter().copied(), "the records");
        nets.hold(&before.3, [records.len()].into_iter(), "the number of nets");
        tracks.hold(&before.4, [wanted_tracks].into_iter(), "the number of tracks");
        amount.hold(&before.5, [wanted_amount].into_iter(), "the amount");

        let mut kept = before.2.clone();
        let mut lent: Vec<Span> = kept.lend().iter().copied().map(span).collect();
        let wrapped = cazdrob::tracks(sheet.lend(), columns.lend(), &mut lent);
        assert_eq!(wrapped.map_err(refused), wanted.as_ref().map_err(|r| *r).map(|r| Tracks { nets: r.len(), tracks: wanted_tracks }));
        assert_eq!(wrapped == Err(Refusal::SpanBuffer), number == 9);
        assert!(lent.into_iter().eq(spans.lend().iter().copied().map(span)), "the wrapper's records, {}", what());
        let routed = if number == 9 { answer(cazdrob::NETS_MAX) } else { wanted.clone() };
        let routed = routed.map(|r| Routing { tracks: tracks_of(&r), spans: r.into_iter().map(span).collect() });
        assert_eq!(cazdrob::route(sheet.lend(), columns.lend()).map_err(refused), routed);
        seen.tracks[number as usize] += 1;
        if let (Ok(channel), Ok(records)) = (&self.read, &wanted) {
            seen.straight.routed(channel, list, records);
        }
        wanted
    }

    /// Holds the chain of a list, and gives the answer.
    pub fn chain(&self, draw: &mut Draw, list: &[u8], seen: &mut Seen) -> Chained {
        let wanted = match &self.read {
            Ok(channel) => channel.chain(list),
            Err(number) => Refused::from(*number).into(),
        };
        let mut sheet = Lent::around(draw, &self.sheet, |w| w as u8);
        let mut columns = Lent::around(draw, list, |w| w as u8);
        let [mut chain, mut bound, mut net] = [(); 3].map(|()| Lent::garbage(draw, 1, |w| w as u32));
        let mut amount = Lent::garbage(draw, 1, |w| w as i32);
        let before = (sheet.clone(), columns.clone(), chain.clone(), bound.clone(), net.clone(), amount.clone());
        let number = {
            let (sheet, columns) = (sheet.lend(), columns.lend());
            let [chain, bound, net] = [&mut chain, &mut bound, &mut net].map(|number| number.lend().as_mut_ptr());
            let amount = amount.lend().as_mut_ptr();
            unsafe { cazdrob_chain(sheet.as_ptr(), sheet.len(), columns.as_ptr(), columns.len(), chain, bound, net, amount) }
        };
        let got = Chained { number, chain: chain.lend()[0], bound: bound.lend()[0], net: net.lend()[0], amount: amount.lend()[0] };
        assert_eq!(got, wanted, "chain of {list:?} on {:?}", self.sheet);
        sheet.hold(&before.0, [].into_iter(), "the sheet");
        columns.hold(&before.1, [].into_iter(), "the list");
        chain.hold(&before.2, [wanted.chain].into_iter(), "the chain");
        bound.hold(&before.3, [wanted.bound].into_iter(), "the bound");
        net.hold(&before.4, [wanted.net].into_iter(), "the net");
        amount.hold(&before.5, [wanted.amount].into_iter(), "the amount");

        let wrapped = match cazdrob::chain(sheet.lend(), columns.lend()) {
            Ok(Chain { nets, bound }) => Chained { chain: nets, bound, ..Chained::default() },
            Err(Refusal::Circle { net }) => Chained { number: 19, net: net.into(), ..Chained::default() },
            Err(other) => refused(other).into(),
        };
        assert_eq!(wrapped, wanted, "the wrapper's chain of {list:?} on {:?}", self.sheet);
        seen.chain[number as usize] += 1;
        match (number, &self.read) {
            (0, Ok(channel)) if channel.mark == Mark::Cq => seen.straight.chained(channel, list, wanted),
            _ => {}
        }
        wanted
    }

    /// A number of records: as many as nets, one fewer, two more, none, or more than enough for every sheet.
    pub fn room(&self, draw: &mut Draw) -> usize {
        let nets = self.nets();
        draw.of(&[nets, nets, nets.saturating_sub(1), nets + 2, 0, 130])
    }

    /// Holds a search on buffers of these lengths.
    pub fn search(&mut self, draw: &mut Draw, columns_len: usize, work_len: usize, seen: &mut Seen) {
        let (terminals, cells) = (self.terminals(), self.cells());
        let wanted: Result<(u32, Vec<u8>), u32> = match self.read {
            Err(number) => Err(number),
            Ok(_) if columns_len < terminals => Err(9),
            Ok(_) if work_len < cells => Err(10),
            Ok(_) => self.best().clone().ok_or(11),
        };
        let cleared = if matches!(wanted, Ok(_) | Err(11)) { cells } else { 0 };
        let (wanted_density, list) = wanted.clone().unwrap_or((0, Vec::new()));
        let wanted_number = wanted.err().unwrap_or(0);

        let mut sheet = Lent::around(draw, &self.sheet, |w| w as u8);
        let mut columns = Lent::garbage(draw, columns_len, |w| w as u8);
        let mut work = Lent::garbage(draw, work_len, |w| w as u16);
        let mut density = Lent::garbage(draw, 1, |w| w as u32);
        let before = (sheet.clone(), columns.clone(), work.clone(), density.clone());
        let number = {
            let (sheet, columns, work, density) = (sheet.lend(), columns.lend(), work.lend(), density.lend());
            unsafe {
                cazdrob_search(
                    sheet.as_ptr(),
                    sheet.len(),
                    columns.as_mut_ptr(),
                    columns.len(),
                    work.as_mut_ptr(),
                    work.len(),
                    density.as_mut_ptr(),
                )
            }
        };
        let what = || format!("search of {:?} on {columns_len} bytes and {work_len} cells", self.sheet);
        assert_eq!((number, density.lend()[0]), (wanted_number, wanted_density), "{}", what());
        assert_eq!(columns.lend()[..list.len()], list, "{}", what());
        sheet.hold(&before.0, [].into_iter(), "the sheet");
        columns.hold(&before.1, list.iter().copied(), "the columns");
        work.hold(&before.2, vec![0; cleared].into_iter(), "the work cells");
        density.hold(&before.3, [wanted_density].into_iter(), "the density");
        seen.search[number as usize] += 1;
    }

    /// Holds the wrapper's search to the same on its own and on the searcher's cells.
    pub fn wrapped(&mut self, draw: &mut Draw) {
        let wanted = match self.read {
            Err(number) => Err(number),
            Ok(_) => self.best().clone().ok_or(11),
        };
        let wanted_density = wanted.clone().map(|(density, _)| density);
        let columns_len = self.terminals() + draw.between(0, 3);
        let columns = Lent::garbage(draw, columns_len, |w| w as u8);
        let list = wanted.as_ref().map_or(&[][..], |(_, list)| list);

        let mut lent = columns.clone();
        let mut work = vec![draw.word() as u16; self.cells()];
        assert_eq!(cazdrob::search(&self.sheet, lent.lend(), &mut work).map_err(|r| r.number()), wanted_density);
        lent.hold(&columns, list.iter().copied(), "the wrapper's columns");
        assert!(work.iter().all(|cell| *cell == 0));

        let mut lent = columns.clone();
        assert_eq!(self.searcher.search(&self.sheet, lent.lend()).map_err(|r| r.number()), wanted_density);
        lent.hold(&columns, list.iter().copied(), "the searcher's columns");
        let assigned = self.searcher.assign(&self.sheet).map(|a| (a.density, a.columns)).map_err(|r| r.number());
        assert_eq!(assigned, wanted);
    }
}
