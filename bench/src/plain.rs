//! The program that the library is compared with: section 5.1 of Cai and Wong's paper written down directly. The table is
//! d(i, j, u, v), the least density with the i-th top pin in column u and the j-th bottom pin in column v. Tracks are given by the
//! left-edge method, and the longest chain of vertical constraints by a depth-first search.

use cazdrob::{Chain, Span, Tracks};
use std::ops::Range;

const INFINITY: u16 = u16::MAX;

struct Terminal {
    net: u16,
    least: usize,
    greatest: usize,
    allowed: u64,
}

impl Terminal {
    fn allows(&self, column: usize) -> bool {
        (1..=64).contains(&column) && self.allowed >> (column - 1) & 1 == 1
    }
}

struct Channel {
    /// a plain net whose two pins share a column counts there
    counts_straight: bool,
    length: usize,
    top: Vec<Terminal>,
    bottom: Vec<Terminal>,
}

fn half(bytes: &[u8], at: usize) -> usize {
    usize::from(u16::from_le_bytes([bytes[at], bytes[at + 1]]))
}

/// Whether the set names a column above so many.
pub fn beyond(set: u64, columns: usize) -> bool {
    columns < 64 && set >> columns != 0
}

fn read_terminal(record: &[u8], first: bool, length: usize) -> Result<Terminal, u32> {
    let net = u16::from_le_bytes([record[0], record[1]]);
    let (least, greatest) = (usize::from(record[2]), usize::from(record[3]));
    let allowed = u64::from_le_bytes(record[4..12].try_into().unwrap());
    if net == 0 {
        return Err(6);
    }
    let sound = if first { least == 0 && greatest == 0 } else { 1 <= least && least <= greatest };
    if !sound {
        return Err(7);
    }
    if beyond(allowed, length) {
        return Err(8);
    }
    Ok(Terminal { net, least, greatest, allowed })
}

/// The terminals of a section, each read as it is asked for.
fn terminals(section: &[u8], length: usize) -> impl Iterator<Item = Result<Terminal, u32>> + '_ {
    section.chunks_exact(12).enumerate().map(move |(place, record)| read_terminal(record, place == 0, length))
}

fn read_side(section: &[u8], length: usize) -> Result<Vec<Terminal>, u32> {
    let mut side = Vec::with_capacity(section.len() / 12);
    for terminal in terminals(section, length) {
        side.push(terminal?);
    }
    Ok(side)
}

/// Whether a sheet counts straight wires, by its mark, its number of columns and its two sections, or the number of its refusal, 1 to 5.
fn layout(sheet: &[u8]) -> Result<(bool, usize, &[u8], &[u8]), u32> {
    if sheet.len() < 12 {
        return Err(1);
    }
    let trailer = &sheet[sheet.len() - 12..];
    let counts_straight = match &trailer[10..] {
        b"CP" => false,
        b"CQ" => true,
        _ => return Err(2),
    };
    let (top, p, bottom, q) = (half(trailer, 0), half(trailer, 2), half(trailer, 4), half(trailer, 6));
    let length = half(trailer, 8);
    if length == 0 || length > 64 {
        return Err(3);
    }
    if p > 64 || q > 64 {
        return Err(4);
    }
    let in_place = top == 0 && bottom == 12 * p || bottom == 0 && top == 12 * q;
    if sheet.len() != 12 * (p + q) + 12 || !in_place {
        return Err(5);
    }
    Ok((counts_straight, length, &sheet[top..top + 12 * p], &sheet[bottom..bottom + 12 * q]))
}

/// Reads a sheet, or gives the number of its refusal, 1 to 8.
fn read(sheet: &[u8]) -> Result<Channel, u32> {
    let (counts_straight, length, top, bottom) = layout(sheet)?;
    Ok(Channel { counts_straight, length, top: read_side(top, length)?, bottom: read_side(bottom, length)? })
}

/// Whether a sheet is sound, or the number of its refusal, 1 to 8. Nothing is kept of its terminals.
pub fn check(sheet: &[u8]) -> Result<(), u32> {
    let (_, length, top, bottom) = layout(sheet)?;
    for section in [top, bottom] {
        for terminal in terminals(section, length) {
            terminal?;
        }
    }
    Ok(())
}

/// Whether a net leaves at the left and at the right, by its number.
fn leaves(net: u16) -> (bool, bool) {
    ((60_001..=62_000).contains(&net) || net > 64_000, net > 62_000)
}

/// The first and last place of a net on one side, from 1. With no pin there, first is beyond every place and last is 0.
#[derive(Clone, Copy)]
struct Places {
    first: usize,
    last: usize,
}

#[derive(Clone, Copy)]
struct Net {
    number: u16,
    leaves: (bool, bool),
    /// counts in a column that has all its pins, as a net that leaves does in any case
    straight: bool,
    top: Places,
    bottom: Places,
}

fn collect_nets(channel: &Channel) -> Vec<Net> {
    let none = Places { first: usize::MAX, last: 0 };
    let mut nets: Vec<Net> = Vec::new();
    for (on_top, side) in [(true, &channel.top), (false, &channel.bottom)] {
        for (place, terminal) in side.iter().enumerate() {
            let at = match nets.iter().position(|net| net.number == terminal.net) {
                Some(at) => {
                    nets[at].straight = channel.counts_straight;
                    at
                }
                None => {
                    nets.push(Net { number: terminal.net, leaves: leaves(terminal.net), straight: false, top: none, bottom: none });
                    nets.len() - 1
                }
            };
            let places = if on_top { &mut nets[at].top } else { &mut nets[at].bottom };
            places.first = places.first.min(place + 1);
            places.last = place + 1;
        }
    }
    nets
}

/// The nets that cross a column. `before` are the top and bottom pins left of it, `up_to` those with the column's own, and
/// `in_column` says whether a net has one of these.
fn crossing(nets: &[Net], before: (usize, usize), up_to: (usize, usize), in_column: impl Fn(&Net) -> bool) -> u16 {
    let mut count = 0;
    for net in nets {
        // a net that leaves goes on beyond the end
        let left = net.leaves.0 || net.top.first <= before.0 || net.bottom.first <= before.1;
        let right = net.leaves.1 || net.top.last > up_to.0 || net.bottom.last > up_to.1;
        let crosses = if in_column(net) { left || right || net.straight } else { left && right };
        count += u16::from(crosses);
    }
    count
}

/// The crossing numbers x, y, z of (i, j): the last column holds a top pin, a bottom pin, or both.
fn loads(channel: &Channel, nets: &[Net], i: usize, j: usize) -> (u16, u16, u16) {
    let top = |net: &Net| channel.top[i - 1].net == net.number;
    let bottom = |net: &Net| channel.bottom[j - 1].net == net.number;
    let x = if i > 0 { crossing(nets, (i - 1, j), (i, j), top) } else { INFINITY };
    let y = if j > 0 { crossing(nets, (i, j - 1), (i, j), bottom) } else { INFINITY };
    let both = |net: &Net| top(net) || bottom(net);
    let z = if i > 0 && j > 0 { crossing(nets, (i - 1, j - 1), (i, j), both) } else { INFINITY };
    (x, y, z)
}

/// The columns that the pin before the i-th of a side may take when the i-th is in `column`. Before the first is column 0.
fn window(side: &[Terminal], i: usize, column: usize) -> Range<usize> {
    if i == 1 {
        return 0..1;
    }
    let terminal = &side[i - 1];
    let low = column.saturating_sub(terminal.greatest).max(1);
    let high = (column + 1).saturating_sub(terminal.least);
    low..high.max(low)
}

fn least_of(cells: &[u16]) -> u16 {
    cells.iter().copied().min().unwrap_or(INFINITY)
}

fn fill(channel: &Channel, work: &mut [u16]) {
    let (top, bottom) = (&channel.top[..], &channel.bottom[..]);
    let nets = collect_nets(channel);
    let width = channel.length + 1;
    let plane = width * width;
    let stride = (bottom.len() + 1) * plane;
    for i in 0..=top.len() {
        for j in 0..=bottom.len() {
            let (x, y, z) = loads(channel, &nets, i, j);
            let at = i * stride + j * plane;
            let (earlier, rest) = work.split_at_mut(at);
            let without_top = if i > 0 { &earlier[at - stride..][..plane] } else { &[] };
            let without_bottom = if j > 0 { &earlier[at - plane..][..plane] } else { &[] };
            let without_both = if i > 0 && j > 0 { &earlier[at - stride - plane..][..plane] } else { &[] };
            for u in 0..width {
                let row = &mut rest[u * width..][..width];
                let top_may = i > 0 && top[i - 1].allows(u);
                if top_may {
                    let from = window(top, i, u);
                    for v in 0..u {
                        let before = from.clone().map(|u| without_top[u * width + v]).min();
                        row[v] = before.unwrap_or(INFINITY).max(x);
                    }
                } else {
                    row[..u].fill(INFINITY);
                }
                row[u] = if i == 0 && j == 0 && u == 0 {
                    0
                } else if top_may && j > 0 && bottom[j - 1].allows(u) {
                    let across = window(bottom, j, u);
                    let rows = window(top, i, u).map(|u| least_of(&without_both[u * width..][across.clone()]));
                    rows.min().unwrap_or(INFINITY).max(z)
                } else {
                    INFINITY
                };
                for v in u + 1..width {
                    row[v] = if j > 0 && bottom[j - 1].allows(v) {
                        least_of(&without_bottom[u * width..][window(bottom, j, v)]).max(y)
                    } else {
                        INFINITY
                    };
                }
            }
        }
    }
}

/// The columns left of `end` that the i-th pin of a side may take when the one after it is in `next`.
fn left_of(side: &[Terminal], i: usize, next: usize, end: usize) -> Range<usize> {
    if i == 0 {
        return 0..1;
    }
    let mut reach = 1..end;
    if i < side.len() {
        reach.start = reach.start.max(next.saturating_sub(side[i].greatest));
        reach.end = reach.end.min((next + 1).saturating_sub(side[i].least));
    }
    reach.start..reach.end.max(reach.start)
}

/// Whether the i-th pin of a side may be in `column` when the one after it is in `next`.
fn may_stand(side: &[Terminal], i: usize, next: usize, column: usize) -> bool {
    i > 0 && (i == side.len() || (column + side[i].least..=column + side[i].greatest).contains(&next))
}

/// From the last column down, the smallest letter after which the rest can still be placed within the least density.
fn walk(channel: &Channel, work: &[u16], least: u16, columns: &mut [u8]) {
    let (top, bottom) = (&channel.top[..], &channel.bottom[..]);
    let width = channel.length + 1;
    let plane = width * width;
    let stride = (bottom.len() + 1) * plane;
    let (mut i, mut j) = (top.len(), bottom.len());
    let (mut next_top, mut next_bottom) = (0, 0);
    for column in (1..=channel.length).rev() {
        let here = &work[i * stride + j * plane..][..plane];
        let tops = left_of(top, i, next_top, column);
        let bottoms = left_of(bottom, j, next_bottom, column);
        let placed = |u: usize, v: usize| here[u * width + v] <= least;
        let empty = tops.clone().any(|u| bottoms.clone().any(|v| placed(u, v)));
        if empty {
            continue;
        }
        let top_here = may_stand(top, i, next_top, column);
        let bottom_here = may_stand(bottom, j, next_bottom, column);
        let (has_top, has_bottom) = if top_here && bottoms.clone().any(|v| placed(column, v)) {
            (true, false)
        } else if bottom_here && tops.clone().any(|u| placed(u, column)) {
            (false, true)
        } else {
            (true, true)
        };
        if has_top {
            i -= 1;
            columns[i] = column as u8;
            next_top = column;
        }
        if has_bottom {
            j -= 1;
            columns[top.len() + j] = column as u8;
            next_bottom = column;
        }
    }
}

/// The least density and its assignment, or the number of a refusal.
pub fn search(sheet: &[u8], columns: &mut [u8], work: &mut [u16]) -> Result<u32, u32> {
    let channel = read(sheet)?;
    let (p, q) = (channel.top.len(), channel.bottom.len());
    let plane = (channel.length + 1) * (channel.length + 1);
    let cells = (p + 1) * (q + 1) * plane;
    if columns.len() < p + q {
        return Err(9);
    }
    if work.len() < cells {
        return Err(10);
    }
    let work = &mut work[..cells];
    fill(&channel, work);
    let least = least_of(&work[cells - plane..]);
    if least < INFINITY {
        walk(&channel, work, least, columns);
    }
    work.fill(0);
    if least < INFINITY {
        Ok(u32::from(least))
    } else {
        Err(11)
    }
}

/// The channel that a column list is an assignment of, or the number and the amount of a refusal.
fn assigned(sheet: &[u8], columns: &[u8]) -> Result<Channel, (u32, i32)> {
    let channel = read(sheet).map_err(|number| (number, 0))?;
    let p = channel.top.len();
    if columns.len() != p + channel.bottom.len() {
        return Err((12, 0));
    }
    let sides = [(&channel.top, &columns[..p]), (&channel.bottom, &columns[p..])];
    for (side, columns) in sides {
        for (terminal, &column) in side.iter().zip(columns) {
            if !terminal.allows(usize::from(column)) {
                return Err((13, 0));
            }
        }
    }
    for (side, columns) in sides {
        for k in 1..columns.len() {
            let distance = i32::from(columns[k]) - i32::from(columns[k - 1]);
            let (least, greatest) = (side[k].least as i32, side[k].greatest as i32);
            if distance < least {
                return Err((14, distance - least));
            }
            if distance > greatest {
                return Err((14, distance - greatest));
            }
        }
    }
    Ok(channel)
}

/// A net with its leftmost and its rightmost column, 0 and L + 1 where it leaves, and whether it crosses any.
#[derive(Clone, Copy)]
struct Stretch {
    net: u16,
    left: u8,
    right: u8,
    crosses: bool,
}

fn stretches(channel: &Channel, columns: &[u8]) -> Vec<Stretch> {
    let mut nets: Vec<Stretch> = Vec::with_capacity(columns.len());
    for (terminal, &column) in channel.top.iter().chain(&channel.bottom).zip(columns) {
        match nets.iter_mut().find(|stretch| stretch.net == terminal.net) {
            Some(stretch) => {
                stretch.left = stretch.left.min(column);
                stretch.right = stretch.right.max(column);
                // a plain net whose pins share one column crosses it where straight wires count
                stretch.crosses = stretch.left < stretch.right || channel.counts_straight;
            }
            None => {
                let leaves = leaves(terminal.net);
                let left = if leaves.0 { 0 } else { column };
                let right = if leaves.1 { channel.length as u8 + 1 } else { column };
                nets.push(Stretch { net: terminal.net, left, right, crosses: left < right });
            }
        }
    }
    nets
}

/// The density of a column list, or the number and the amount of a refusal.
pub fn measure(sheet: &[u8], columns: &[u8]) -> Result<u32, (u32, i32)> {
    let channel = assigned(sheet, columns)?;
    Ok(density(&channel, &stretches(&channel, columns)))
}

fn density(channel: &Channel, nets: &[Stretch]) -> u32 {
    let crosses = |net: &Stretch, column: u8| net.crosses && net.left <= column && column <= net.right;
    let crossings = (1..=channel.length as u8).map(|column| nets.iter().filter(|net| crosses(net, column)).count());
    crossings.max().unwrap_or(0) as u32
}

/// The tracks of a clean assignment, or the number and the amount of a refusal.
pub fn tracks(sheet: &[u8], columns: &[u8], spans: &mut [Span]) -> Result<Tracks, (u32, i32)> {
    let channel = assigned(sheet, columns)?;
    let (on_top, at_bottom) = columns.split_at(channel.top.len());
    // the net of the top pin of each column, 0 where there is none
    let mut over = [0; 65];
    for (terminal, &column) in channel.top.iter().zip(on_top) {
        over[usize::from(column)] = terminal.net;
    }
    for (terminal, &column) in channel.bottom.iter().zip(at_bottom) {
        let net = over[usize::from(column)];
        if net != 0 && net != terminal.net {
            return Err((18, 0));
        }
    }
    let mut nets = stretches(&channel, columns);
    if spans.len() < nets.len() {
        return Err((9, 0));
    }
    nets.sort_unstable_by_key(|stretch| (stretch.left.max(1), stretch.net));
    // the last column of the last net on each track
    let mut ends: Vec<u8> = Vec::new();
    for (span, &Stretch { net, left, right, crosses }) in spans.iter_mut().zip(&nets) {
        let (left, right) = (left.max(1), right.min(channel.length as u8));
        let mut track = 0;
        if crosses {
            let free = ends.iter().position(|&end| end < left).unwrap_or(ends.len());
            if free == ends.len() {
                ends.push(right);
            } else {
                ends[free] = right;
            }
            track = free as u16 + 1;
        }
        *span = Span { net, left: left.into(), right: right.into(), track };
    }
    Ok(Tracks { nets: nets.len(), tracks: ends.len() as u32 })
}

/// For each net, by its place among the stretches, those that it lies over. A plain net whose pins share one column lies over none, and
/// none over it: it has one pin, or both pins of the column.
fn constraints(channel: &Channel, columns: &[u8], nets: &[Stretch]) -> Vec<Vec<usize>> {
    let (on_top, at_bottom) = columns.split_at(channel.top.len());
    let place = |net: u16| nets.iter().position(|other| other.net == net).filter(|&place| nets[place].left < nets[place].right);
    // the net of the top pin of each column
    let mut over = [None; 65];
    for (terminal, &column) in channel.top.iter().zip(on_top) {
        over[usize::from(column)] = place(terminal.net);
    }
    let mut below = vec![Vec::new(); nets.len()];
    for (terminal, &column) in channel.bottom.iter().zip(at_bottom) {
        if let (Some(above), Some(net)) = (over[usize::from(column)], place(terminal.net)) {
            if above != net {
                below[above].push(net);
            }
        }
    }
    below
}

#[derive(Clone, Copy)]
enum Colour {
    White,
    Grey,
    /// with the nets of the longest chain from here on
    Black(u32),
}

/// How many nets the longest chain from a net on has, or none where a circle is met.
fn longest_from(below: &[Vec<usize>], colours: &mut [Colour], net: usize) -> Option<u32> {
    match colours[net] {
        Colour::Black(nets) => return Some(nets),
        Colour::Grey => return None,
        Colour::White => {}
    }
    colours[net] = Colour::Grey;
    let mut longest = 0;
    for &next in &below[net] {
        longest = longest.max(longest_from(below, colours, next)?);
    }
    colours[net] = Colour::Black(longest + 1);
    Some(longest + 1)
}

/// Whether a search from a net comes back to it.
fn comes_back(below: &[Vec<usize>], net: usize) -> bool {
    let mut seen = vec![false; below.len()];
    let mut waiting = vec![net];
    while let Some(at) = waiting.pop() {
        for &next in &below[at] {
            if next == net {
                return true;
            }
            if !seen[next] {
                seen[next] = true;
                waiting.push(next);
            }
        }
    }
    false
}

/// The longest chain of vertical constraints and the bound, or the number, the amount and the net of a refusal.
pub fn chain(sheet: &[u8], columns: &[u8]) -> Result<Chain, (u32, i32, u16)> {
    let channel = assigned(sheet, columns).map_err(|(number, amount)| (number, amount, 0))?;
    let nets = stretches(&channel, columns);
    let below = constraints(&channel, columns, &nets);
    let mut colours = vec![Colour::White; nets.len()];
    let mut longest = 0;
    for net in 0..nets.len() {
        let Some(chain) = longest_from(&below, &mut colours, net) else {
            let on_circles = (0..nets.len()).filter(|&net| comes_back(&below, net));
            return Err((19, 0, on_circles.map(|net| nets[net].net).min().unwrap_or(0)));
        };
        longest = longest.max(chain);
    }
    let longest = if longest < 2 { 0 } else { longest };
    Ok(Chain { nets: longest, bound: longest.max(density(&channel, &nets)) })
}
