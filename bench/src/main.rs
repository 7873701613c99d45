//! Times the library beside a plain program that does the same work. `bench/run` builds and starts it.

mod plain;
mod sheets;

use cazdrob::{Chain, Refusal, Span, Tracks, NETS_MAX};
use sheets::{drawn_pairs, leaving, one_chain, open, sets, sheet, sheet_with, straight_wires, Plan, Sets};
use std::hint::black_box;
use std::process::ExitCode;
use std::time::{Duration, Instant};

const RUNS: usize = 31;
const SHORTEST_RUN: Duration = Duration::from_millis(2);

/// One sheet with the buffers that both programs are lent in turn.
struct Trial {
    length: usize,
    sets: Vec<u64>,
    sheet: Vec<u8>,
    list: Vec<u8>,
    columns: Vec<u8>,
    work: Vec<u16>,
    spans: Vec<Span>,
}

#[derive(Clone, Copy, PartialEq)]
enum Job {
    Check,
    PlainCheck,
    Test,
    PlainTest,
    Search,
    PlainSearch,
    Measure,
    PlainMeasure,
    Tracks,
    PlainTracks,
    Chain,
    PlainChain,
    Clear,
}

/// A density, a number of tracks, of nets in a chain or of sets with a column beyond the end, or the number and the amount of a refusal.
type Answer = Result<u32, (u32, i32)>;

fn refused(why: Refusal) -> (u32, i32) {
    let amount = if let Refusal::OutOfRange { amount } = why { amount } else { 0 };
    (why.number(), amount)
}

impl Trial {
    fn new(plan: &Plan) -> Trial {
        let sheet = sheet(plan);
        let work = vec![0; cazdrob::cells(&sheet)];
        let columns = vec![0; plan.top + plan.bottom];
        let spans = vec![Span::default(); NETS_MAX];
        Trial { length: plan.length, sets: sets(), sheet, list: columns.clone(), columns, work, spans }
    }

    /// With a clean list: the top pins in columns 1, 3, 5 and so on, the bottom pins in columns 2, 4, 6 and so on.
    fn clean(plan: &Plan) -> Trial {
        let list = (0..plan.top).map(|k| 2 * k + 1).chain((0..plan.bottom).map(|k| 2 * k + 2)).map(|column| column as u8).collect();
        Trial { list, ..Trial::new(plan) }
    }

    /// With these nets, 64 a side, in columns 1 to 64.
    fn full(nets: Vec<usize>) -> Trial {
        let plan = open(64, 64);
        Trial { sheet: sheet_with(&plan, nets), list: (1..=64).chain(1..=64).collect(), ..Trial::new(&plan) }
    }

    /// With the mark CQ and a straight wire in columns 1, 3, 5 and so on.
    fn straight() -> Trial {
        let plan = Plan { mark: b"CQ", bottom: 32, ..open(64, 64) };
        let list = (1..=64).chain((1..=64).step_by(2)).collect();
        Trial { sheet: sheet_with(&plan, straight_wires()), list, ..Trial::new(&plan) }
    }

    fn job(&mut self, job: Job) -> Answer {
        let sheet = black_box(&self.sheet[..]);
        let list = black_box(&self.list[..]);
        match job {
            Job::Check => cazdrob::check(sheet).map(|()| 0).map_err(refused),
            Job::PlainCheck => plain::check(sheet).map(|()| 0).map_err(|number| (number, 0)),
            Job::Test => Ok(count_beyond(&self.sets, self.length, cazdrob::beyond)),
            // through a pointer, so that it is a call as the library's is
            Job::PlainTest => Ok(count_beyond(&self.sets, self.length, black_box(plain::beyond as fn(_, _) -> _))),
            Job::Search => cazdrob::search(sheet, &mut self.columns, &mut self.work).map_err(refused),
            Job::PlainSearch => plain::search(sheet, &mut self.columns, &mut self.work).map_err(|number| (number, 0)),
            Job::Measure => cazdrob::measure(sheet, list).map_err(refused),
            Job::PlainMeasure => plain::measure(sheet, list),
            Job::Tracks => cazdrob::tracks(sheet, list, &mut self.spans).map(|used| used.tracks).map_err(refused),
            Job::PlainTracks => plain::tracks(sheet, list, &mut self.spans).map(|used| used.tracks),
            Job::Chain => cazdrob::chain(sheet, list).map(|chain| chain.nets).map_err(refused),
            Job::PlainChain => plain::chain(sheet, list).map(|chain| chain.nets).map_err(|(number, amount, _)| (number, amount)),
            Job::Clear => {
                black_box(&mut self.work[..]).fill(0);
                Ok(0)
            }
        }
    }

    /// Both programs have to give the same answers and leave the same buffers; the columns found are the list to measure.
    fn agree(&mut self) -> Result<Answer, String> {
        let mut found = Vec::new();
        for job in [Job::Search, Job::PlainSearch] {
            self.columns.fill(0);
            self.work.fill(7);
            let answer = self.job(job);
            if self.work.iter().any(|&cell| cell != 0) {
                return Err("a search left a work cell that is not 0".into());
            }
            found.push((answer, self.columns.clone()));
        }
        if found[0] != found[1] {
            return Err(format!("searching: the library gives {:?}, the plain program {:?}", found[0], found[1]));
        }
        self.list = if found[0].0.is_ok() {
            self.columns.clone()
        } else {
            // no list is an assignment: the leftmost columns are refused
            let (top, bottom) = (low_byte(&self.sheet, 10), low_byte(&self.sheet, 6));
            (1..=top).chain(1..=bottom).collect()
        };
        let (ours, plain) = (self.job(Job::Measure), self.job(Job::PlainMeasure));
        if ours != plain {
            return Err(format!("measuring: the library gives {ours:?}, the plain program {plain:?}"));
        }
        if found[0].0.is_ok() && ours != found[0].0 {
            return Err(format!("searching gives {:?} and measuring what it found {ours:?}", found[0].0));
        }
        Ok(found[0].0)
    }

    /// Both programs have to give the same answer of the sheet, which is sound, and of each set.
    fn agree_on_checks(&mut self) -> Result<(), String> {
        let answers = [Job::Check, Job::PlainCheck].map(|job| self.job(job));
        if answers != [Ok(0); 2] {
            return Err(format!("checking: the library gives {:?}, the plain program {:?}", answers[0], answers[1]));
        }
        match self.sets.iter().find(|&&set| cazdrob::beyond(set, self.length) != plain::beyond(set, self.length)) {
            Some(set) => Err(format!("the two differ on set {set:#x} on {} columns", self.length)),
            None => Ok(()),
        }
    }

    /// Both programs have to give the same tracks and leave the same records.
    fn agree_on_tracks(&mut self) -> Result<Tracks, String> {
        let (sheet, list) = (&self.sheet[..], &self.list[..]);
        let [mut ours, mut plain] = [(); 2].map(|()| vec![Span { net: 7, left: 7, right: 7, track: 7 }; NETS_MAX]);
        let used = cazdrob::tracks(sheet, list, &mut ours).map_err(refused);
        if (used, &ours) != (plain::tracks(sheet, list, &mut plain), &plain) {
            return Err(format!("tracks: the library gives {used:?} and {ours:?}, the plain program {plain:?}"));
        }
        used.map_err(|(number, _)| format!("tracks: refused {number}"))
    }

    /// Both programs have to give the same chain and bound, or the same net on a circle; else it is no assignment.
    fn agree_on_chains(&mut self) -> Result<Result<Chain, u16>, String> {
        let (sheet, list) = (&self.sheet[..], &self.list[..]);
        let (ours, plain) = (cazdrob::chain(sheet, list), plain::chain(sheet, list));
        let numbers = |why| match why {
            Refusal::Circle { net } => (why.number(), 0, net),
            _ => (refused(why).0, refused(why).1, 0),
        };
        if ours.map_err(numbers) != plain {
            return Err(format!("chain: the library gives {ours:?}, the plain program {plain:?}"));
        }
        match ours {
            Ok(chain) => Ok(Ok(chain)),
            Err(Refusal::Circle { net }) => Ok(Err(net)),
            Err(why) => Err(format!("chain: {why}")),
        }
    }

    // kept as a function for callgrind to find
    #[inline(never)]
    fn run(&mut self, job: Job, times: u32) -> Duration {
        let start = Instant::now();
        for _ in 0..times {
            let _ = black_box(self.job(job));
        }
        start.elapsed()
    }

    /// The median time of each job in seconds, with the jobs taking turns.
    fn time<const N: usize>(&mut self, jobs: [Job; N]) -> [f64; N] {
        let times = jobs.map(|job| {
            let mut times = 1;
            while self.run(job, times) < SHORTEST_RUN {
                times *= 2;
            }
            times
        });
        let mut taken = jobs.map(|_| Vec::with_capacity(RUNS));
        for _ in 0..RUNS {
            for k in 0..N {
                taken[k].push(self.run(jobs[k], times[k]).as_secs_f64() / f64::from(times[k]));
            }
        }
        taken.map(|mut runs| {
            runs.sort_by(f64::total_cmp);
            runs[RUNS / 2]
        })
    }
}

fn count_beyond(sets: &[u64], length: usize, test: impl Fn(u64, usize) -> bool) -> u32 {
    let (sets, length) = (black_box(sets), black_box(length));
    sets.iter().map(|&set| u32::from(test(set, length))).sum()
}

/// The low byte of a number of the trailer: 10 bytes from the end is p, 6 is q.
fn low_byte(sheet: &[u8], from_end: usize) -> u8 {
    sheet[sheet.len() - from_end]
}

fn rows() -> Vec<(&'static str, Trial)> {
    let cq = Plan { mark: b"CQ", ..open(16, 40) };
    let plans = [
        ("5 a side on 12", open(5, 12)),
        ("16 a side on 40", open(16, 40)),
        ("32 a side on 64", open(32, 64)),
        ("32 a side on 64, ranges 1 to 4", Plan { range: (1, 4), ..open(32, 64) }),
        ("16 a side on 40, no assignment", Plan { sets: Sets::LastTop(15), ..open(16, 40) }),
        ("16 a side on 40, CQ", cq),
        ("5 a side on 12, ranges 1 to 3", Plan { range: (1, 3), ..open(5, 12) }),
        ("5 a side on 12, drawn sets", Plan { sets: Sets::Drawn, ..open(5, 12) }),
        ("16 a side on 40, half sets", Plan { sets: Sets::Half, ..open(16, 40) }),
        ("64 a side on 64", open(64, 64)),
        ("16 a side on 40, held apart", Plan { sets: Sets::Apart, ..open(16, 40) }),
    ];
    let mut rows: Vec<(&'static str, Trial)> = plans.iter().map(|(name, plan)| (*name, Trial::new(plan))).collect();
    rows.push(("16 a side on 40, CQ, leaving", Trial { sheet: sheet_with(&cq, leaving(&cq)), ..Trial::new(&cq) }));
    rows
}

fn track_rows() -> Vec<(&'static str, Trial)> {
    vec![
        ("5 a side on 12", Trial::clean(&open(5, 12))),
        ("16 a side on 40", Trial::clean(&open(16, 40))),
        ("32 a side on 64", Trial::clean(&open(32, 64))),
        ("32 a side on 64, two pins a net", Trial::clean(&Plan { nets: 32, ..open(32, 64) })),
        ("32 a side on 64, leaving nets", Trial::clean(&Plan { nets: 64, first_net: 64_001, ..open(32, 64) })),
        ("64 over 32 on 64, CQ", Trial::straight()),
    ]
}

/// What a search of the first four rows finds, and then three sheets that have a pin on each side of every column.
fn chain_rows() -> Vec<(&'static str, Trial)> {
    let found = |mut trial: Trial| {
        let _ = trial.job(Job::Search);
        trial.list = trial.columns.clone();
        trial
    };
    let mut rows: Vec<(&'static str, Trial)> = rows().into_iter().take(4).map(|(name, trial)| (name, found(trial))).collect();
    rows.push(("64 a side on 64, each over the next", Trial::full(one_chain())));
    rows.push(("64 a side on 64, no circle", Trial::full(drawn_pairs(true))));
    rows.push(("64 a side on 64, with circles", Trial::full(drawn_pairs(false))));
    rows
}

/// Sheets, and then lengths against which the sets are tested.
fn check_rows() -> Vec<(&'static str, Plan)> {
    vec![
        ("5 a side on 12", open(5, 12)),
        ("64 a side on 64", open(64, 64)),
        ("128 sets on 12", open(0, 12)),
        ("128 sets on 40", open(0, 40)),
        ("128 sets on 64", open(0, 64)),
    ]
}

fn shown(answer: Answer) -> String {
    answer.map_or_else(|(number, _)| format!("refused {number}"), |density| density.to_string())
}

fn span(seconds: f64) -> String {
    if seconds < 1e-6 {
        format!("{:.0} ns", seconds * 1e9)
    } else if seconds < 1e-3 {
        format!("{:.2} µs", seconds * 1e6)
    } else {
        format!("{:.2} ms", seconds * 1e3)
    }
}

fn main_table() -> Result<(), String> {
    println!("{:>63}search{:>28}measuring", "", "");
    println!(
        "{:<3}  {:<31}  {:>11}{:>11}{:>11}{:>8}  {:>11}{:>11}{:>8}  {:>10}",
        "row", "sheet", "clearing", "Cazdrob", "plain", "ratio", "Cazdrob", "plain", "ratio", "density"
    );
    for (k, (name, mut trial)) in rows().into_iter().enumerate() {
        let answer = trial.agree().map_err(|why| format!("row {}: {why}", k + 1))?;
        let [search, plain, clear] = trial.time([Job::Search, Job::PlainSearch, Job::Clear]);
        let [measure, plain_measure] = trial.time([Job::Measure, Job::PlainMeasure]);
        println!(
            "{:<3}  {name:<31}  {:>11}{:>11}{:>11}{:>8.2}  {:>11}{:>11}{:>8.2}  {:>10}",
            k + 1,
            span(clear),
            span(search),
            span(plain),
            plain / search,
            span(measure),
            span(plain_measure),
            plain_measure / measure,
            shown(answer),
        );
    }
    println!(
        "
ratio: the plain program's time over Cazdrob's. Each time is the median of {RUNS} runs, and a run is as many calls as
take at least {} ms. The two take turns, on the same sheet and the same buffers, which are not cleared before a call.
Before the timing both gave the same answer, the same columns and the same density of them.
Both leave every work cell 0, as the rules ask. clearing: the time of that alone.
Row 5 is row 2 with the last top terminal held to columns 1 to 15. No list is an assignment of it: the measured one
has the columns 1 to 16 on each side and both refuse it with 13. Row 6 is row 2 with the mark CQ, so that straight
wires count. In row 8 a coin decides of each column whether a set has it, in row 9 each set has a drawn half of the
columns. Row 11 is row 2 with the top terminals held to the left half and the bottom terminals to the right half. In
row 12 a quarter of row 6's nets is plain, and a quarter each leaves at the left, at the right and at both ends.",
        SHORTEST_RUN.as_millis()
    );
    Ok(())
}

fn check_table() -> Result<(), String> {
    println!("\nChecks of a sheet, and the test of a set against the channel's end\n");
    println!("{:<3}  {:<15}  {:>7}  {:>11}{:>11}{:>8}", "row", "checked", "beyond", "Cazdrob", "plain", "ratio");
    for (k, (name, plan)) in check_rows().iter().enumerate() {
        let jobs = if plan.top > 0 { [Job::Check, Job::PlainCheck] } else { [Job::Test, Job::PlainTest] };
        let mut trial = Trial::new(plan);
        trial.agree_on_checks().map_err(|why| format!("row {} of checks: {why}", k + 1))?;
        let beyond = shown(trial.job(jobs[0]));
        let [ours, plain] = trial.time(jobs);
        let ratio = plain / ours;
        println!("{:<3}  {name:<15}  {beyond:>7}  {:>11}{:>11}{ratio:>8.2}", k + 1, span(ours), span(plain));
    }
    println!(
        "
beyond: how many of the sets name a column above the last, in rows 1 and 2 those of the sheet. Before the timing both
gave the same answers. In rows 3 to 5 a time is that of 128 calls, one for each set, in the plain program too."
    );
    Ok(())
}

fn track_table() -> Result<(), String> {
    println!("\nTracks of clean assignments\n");
    println!("{:<3}  {:<31}  {:>4}  {:>6}  {:>11}{:>11}{:>8}", "row", "sheet", "nets", "tracks", "Cazdrob", "plain", "ratio");
    for (k, (name, mut trial)) in track_rows().into_iter().enumerate() {
        let Tracks { nets, tracks } = trial.agree_on_tracks().map_err(|why| format!("row {} of tracks: {why}", k + 1))?;
        let [ours, plain] = trial.time([Job::Tracks, Job::PlainTracks]);
        let ratio = plain / ours;
        println!("{:<3}  {name:<31}  {nets:>4}  {tracks:>6}  {:>11}{:>11}{ratio:>8.2}", k + 1, span(ours), span(plain));
    }
    println!(
        "
The top pins are in columns 1, 3, 5 and so on, the bottom pins in columns 2, 4, 6 and so on. Before the timing both
gave the same tracks and left the same records. Row 5 has 64 nets of one pin that leave at both ends. Row 6 has a
straight wire in columns 1, 3, 5 and so on, top pins of 16 nets between them, and the mark CQ."
    );
    Ok(())
}

fn chain_table() -> Result<(), String> {
    println!("\nChains of vertical constraints\n");
    println!(
        "{:<3}  {:<35}  {:>5}  {:>5}  {:>6}  {:>11}{:>11}{:>8}",
        "row", "sheet", "chain", "bound", "circle", "Cazdrob", "plain", "ratio"
    );
    for (k, (name, mut trial)) in chain_rows().into_iter().enumerate() {
        let answer = trial.agree_on_chains().map_err(|why| format!("row {} of chains: {why}", k + 1))?;
        let [chain, bound, circle] = match answer {
            Ok(Chain { nets, bound }) => [nets.to_string(), bound.to_string(), String::new()],
            Err(net) => [String::new(), String::new(), format!("net {net}")],
        };
        let [ours, plain] = trial.time([Job::Chain, Job::PlainChain]);
        let ratio = plain / ours;
        println!("{:<3}  {name:<35}  {chain:>5}  {bound:>5}  {circle:>6}  {:>11}{:>11}{ratio:>8.2}", k + 1, span(ours), span(plain));
    }
    println!(
        "
Rows 1 to 4 have the columns that the search finds for the sheets of the first table, rows 5 to 7 a pin on each side of
every column. Before the timing both gave the same chain and bound or, where there is a circle, the same net on one."
    );
    Ok(())
}

fn growth(title: &str, plans: &[Plan]) -> Result<(), String> {
    println!("\n{title}\n");
    println!(
        "{:>6}  {:>3}  {:>11}{:>8}  {:>11}{:>8}  {:>11}{:>8}",
        "a side", "L", "clearing", "growth", "Cazdrob", "growth", "plain", "growth"
    );
    let mut before: Option<[f64; 3]> = None;
    for plan in plans {
        let mut trial = Trial::new(plan);
        trial.agree().map_err(|why| format!("{} a side on {}: {why}", plan.top, plan.length))?.ok();
        let times = trial.time([Job::Clear, Job::Search, Job::PlainSearch]);
        print!("{:>6}  {:>3}", plan.top, plan.length);
        for k in 0..times.len() {
            let grown = before.map_or_else(String::new, |before| format!("{:.2}", times[k] / before[k]));
            print!("  {:>11}{grown:>8}", span(times[k]));
        }
        println!();
        before = Some(times);
    }
    Ok(())
}

/// Name, nets, length and seconds of the paper's table 1, as far as its channels have at most 64 columns.
const PAPER: [(&str, usize, usize, f64); 4] =
    [("Ex1", 15, 20, 1.05), ("Ex2", 21, 35, 7.72), ("Ex3", 30, 62, 26.92), ("Ex4", 47, 61, 40.97)];

fn paper_table() -> Result<(), String> {
    println!("\nBeside table 1 of Cai and Wong (1990): Pascal on a Sun 3/50\n");
    println!("{:<3}  {:>5}  {:>4}  {:>8}  {:>6}  {:>11}", "Ex.", "#Nets", "Len.", "CPU(s)", "a side", "Cazdrob");
    for (name, nets, length, seconds) in PAPER {
        let mut trial = Trial::new(&Plan { nets, ..open(nets, length) });
        trial.agree().map_err(|why| format!("{name}: {why}"))?.ok();
        let [search] = trial.time([Job::Search]);
        println!("{name:<3}  {nets:>5}  {length:>4}  {seconds:>8.2}  {nets:>6}  {:>11}", span(search));
    }
    println!(
        "
Ex5 to Ex8 have 79 to 175 columns, more than the 64 of a sheet. The paper does not print the terminals. Ours are
random sheets of as many nets and columns, each net with one pin on each side: section 1 says so of the nets of the
source of Ex1; of Ex2 to Ex4 it is assumed, and they may have more pins. Full sets and no distance that binds, as in
section 7. The paper needs no distances here, and so no more than its algorithm of section 4; Cazdrob's search is the
one with distances. Another machine and other sheets: only the order of magnitude compares."
    );
    Ok(())
}

fn only(words: &[String]) -> Result<(), String> {
    let usage = "usage: bench/run [--only ROW JOB N], where JOB is search, plain, measure, plain-measure, check, plain-check, test, \
                 plain-test, tracks, plain-tracks, chain or plain-chain";
    let [row, job, times] = words else {
        return Err(usage.into());
    };
    let row: usize = row.parse().map_err(|_| usage)?;
    let times = times.parse().map_err(|_| usage)?;
    let job = match &job[..] {
        "search" => Job::Search,
        "plain" => Job::PlainSearch,
        "measure" => Job::Measure,
        "plain-measure" => Job::PlainMeasure,
        "check" => Job::Check,
        "plain-check" => Job::PlainCheck,
        "test" => Job::Test,
        "plain-test" => Job::PlainTest,
        "tracks" => Job::Tracks,
        "plain-tracks" => Job::PlainTracks,
        "chain" => Job::Chain,
        "plain-chain" => Job::PlainChain,
        _ => return Err(usage.into()),
    };
    let planned = |rows: Vec<(&'static str, Plan)>| rows.iter().map(|(_, plan)| Trial::new(plan)).collect();
    let made = |rows: Vec<(&'static str, Trial)>| rows.into_iter().map(|(_, trial)| trial).collect();
    let trials: Vec<Trial> = match job {
        Job::Tracks | Job::PlainTracks => made(track_rows()),
        Job::Check | Job::PlainCheck | Job::Test | Job::PlainTest => planned(check_rows()),
        Job::Chain | Job::PlainChain => made(chain_rows()),
        _ => made(rows()),
    };
    let mut trial = row.checked_sub(1).and_then(|k| trials.into_iter().nth(k)).ok_or("no such row")?;
    if matches!(job, Job::Measure | Job::PlainMeasure) {
        trial.agree()?.ok();
    }
    let taken = trial.run(job, times);
    println!("{times} calls in {:.3} s", taken.as_secs_f64());
    Ok(())
}

fn tables() -> Result<(), String> {
    main_table()?;
    check_table()?;
    track_table()?;
    chain_table()?;
    growth("Search as L doubles", &[16, 32, 64].map(|length| open(8, length)))?;
    growth("Search as p and q double", &[4, 8, 16, 32, 64].map(|pins| open(pins, 64)))?;
    paper_table()
}

fn main() -> ExitCode {
    let words: Vec<String> = std::env::args().skip(1).collect();
    let done = match words.first().map(String::as_str) {
        None => tables(),
        Some("--only") => only(&words[1..]),
        Some(word) => Err(format!("unknown word {word}")),
    };
    match done {
        Ok(()) => ExitCode::SUCCESS,
        Err(why) => {
            eprintln!("bench: {why}");
            ExitCode::FAILURE
        }
    }
}
