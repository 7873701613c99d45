//! The sheets of the tables, from a fixed seed.

const SEED: u64 = 0x3c6e_f372_fe94_f82a;

/// What is added to a net's number so that it leaves at the left, at the right, at both ends.
const LEFT: usize = 60_000;
const RIGHT: usize = 62_000;
const BOTH: usize = 64_000;

/// Marsaglia's xorshift on 64 bits.
struct Draws(u64);

impl Draws {
    fn below(&mut self, n: usize) -> usize {
        self.0 ^= self.0 << 13;
        self.0 ^= self.0 >> 7;
        self.0 ^= self.0 << 17;
        (self.0 % n as u64) as usize
    }

    fn shuffle(&mut self, items: &mut [usize]) {
        for k in (1..items.len()).rev() {
            items.swap(k, self.below(k + 1));
        }
    }
}

#[derive(Clone, Copy)]
pub struct Plan {
    pub mark: &'static [u8; 2],
    pub length: usize,
    pub top: usize,
    pub bottom: usize,
    pub nets: usize,
    /// the number of the first net
    pub first_net: usize,
    /// least and greatest distance of each later terminal
    pub range: (u8, u8),
    pub sets: Sets,
}

/// The columns that the terminals may take.
#[derive(Clone, Copy)]
pub enum Sets {
    Full,
    /// but the last top terminal none behind this one
    LastTop(usize),
    /// each column or not, as a coin falls
    Drawn,
    /// a drawn half of the columns
    Half,
    /// the top terminals those of the left half, the bottom terminals those of the right half
    Apart,
}

/// Full sets, no distance that binds, and nets of two to four pins that have a pin on each side.
pub fn open(pins: usize, length: usize) -> Plan {
    let nets = (2 * pins * 2).div_ceil(5);
    Plan { mark: b"CP", length, top: pins, bottom: pins, nets, first_net: 1, range: (1, 255), sets: Sets::Full }
}

/// Sets of the columns from 1 to a drawn one.
pub fn sets() -> Vec<u64> {
    let mut draws = Draws(SEED);
    (0..128).map(|_| u64::MAX >> draws.below(64)).collect()
}

/// The pins dealt to the nets in turn and then shuffled, each side by itself.
fn dealt(plan: &Plan) -> Vec<usize> {
    let pins = plan.top + plan.bottom;
    let mut draws = Draws(SEED);
    let mut nets: Vec<usize> = (0..pins).map(|k| plan.first_net + k % plan.nets).collect();
    let (top, bottom) = nets.split_at_mut(plan.top);
    for side in [top, bottom] {
        draws.shuffle(side);
    }
    nets
}

/// The bytes of a sheet with the pins so dealt.
pub fn sheet(plan: &Plan) -> Vec<u8> {
    sheet_with(plan, dealt(plan))
}

/// 64 nets on top and 64 at the bottom, each over the next: a chain of 65.
pub fn one_chain() -> Vec<usize> {
    (64_001..64_065).chain(64_002..64_066).collect()
}

/// 64 nets on top and 64 at the bottom, drawn from 40; in order, the lower one of each pair is on top, so that there is no circle.
pub fn drawn_pairs(in_order: bool) -> Vec<usize> {
    let mut draws = Draws(SEED);
    let mut nets: Vec<usize> = (0..128).map(|_| draws.below(40) + 1).collect();
    let (top, bottom) = nets.split_at_mut(64);
    for (above, below) in top.iter_mut().zip(bottom).filter(|(above, below)| in_order && above > below) {
        std::mem::swap(above, below);
    }
    nets
}

/// 64 nets on top and 32 at the bottom: on top 32 that are at the bottom too, and after each a pin of one of 16 others.
pub fn straight_wires() -> Vec<usize> {
    let mut draws = Draws(SEED);
    let mut others: Vec<usize> = (0..32).map(|k| 33 + k % 16).collect();
    draws.shuffle(&mut others);
    (1..=32).zip(others).flat_map(|(straight, other)| [straight, other]).chain(1..=32).collect()
}

/// Nets of a plan of which in turn one is plain, one leaves at the left, one at the right and one at both ends.
pub fn leaving(plan: &Plan) -> Vec<usize> {
    dealt(plan).into_iter().map(|net| [0, LEFT, RIGHT, BOTH][net % 4] + net).collect()
}

/// The set of terminal k, top then bottom.
fn set_of(plan: &Plan, k: usize, draws: &mut Draws) -> u64 {
    let up_to = |last: usize| u64::MAX >> (64 - last);
    let all = up_to(plan.length);
    match plan.sets {
        Sets::LastTop(last) if k + 1 == plan.top => up_to(last),
        Sets::Full | Sets::LastTop(_) => all,
        Sets::Drawn => (0..plan.length).filter(|_| draws.below(2) == 0).map(|column| 1 << column).sum(),
        Sets::Half => {
            let mut columns: Vec<usize> = (0..plan.length).collect();
            draws.shuffle(&mut columns);
            columns.iter().take(plan.length / 2).map(|column| 1 << column).sum()
        }
        Sets::Apart if k < plan.top => up_to(plan.length / 2),
        Sets::Apart => all ^ up_to(plan.length / 2),
    }
}

/// The bytes of a sheet with these nets, top then bottom.
pub fn sheet_with(plan: &Plan, nets: Vec<usize>) -> Vec<u8> {
    let mut draws = Draws(SEED);
    let mut bytes = Vec::with_capacity(12 * nets.len() + 12);
    for (k, net) in nets.into_iter().enumerate() {
        let first = k == 0 || k == plan.top;
        let (least, greatest) = if first { (0, 0) } else { plan.range };
        bytes.extend((net as u16).to_le_bytes());
        bytes.extend([least, greatest]);
        bytes.extend(set_of(plan, k, &mut draws).to_le_bytes());
    }
    for number in [0, plan.top, 12 * plan.top, plan.bottom, plan.length] {
        bytes.extend((number as u16).to_le_bytes());
    }
    bytes.extend(plan.mark);
    bytes
}
