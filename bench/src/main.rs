// The planner beside `reference.rs`, on the same sheet files: whether both print the same, and their times.
// And the planner against plain enumeration.
mod compare;
mod job;
mod jobs;
mod planner;
mod reference;

use job::{Random, from_hex, sheet};
use jobs::refusal;
use std::collections::BTreeMap;
use std::time::Instant;

fn main() {
    let args: Vec<String> = std::env::args().skip(1).collect();
    let bug = args.iter().any(|a| a == "bug");
    let ok = match args.first().map(String::as_str) {
        Some("agree") => agree(),
        Some("speed") => speed(),
        Some("search") => search(),
        Some("one") if args.len() > 1 => one(&args[1]),
        Some("compare") => compare::all(bug),
        _ => {
            eprintln!("bench agree | speed | search | one NAME | compare [bug]");
            false
        }
    };
    std::process::exit(if ok { 0 } else { 1 });
}

// What the planner printed of the sheets of one sort, and where the reference printed something else.
#[derive(Default)]
struct Tally {
    sheets: u32,
    dead: u32,
    refused: BTreeMap<u8, u32>,
    different: u32,
}

impl Tally {
    fn look(&mut self, file: &[u8]) {
        let ours = planner::print(file);
        let theirs = reference_print(file);
        self.sheets += 1;
        self.dead += (ours == b"dead end\n") as u32;
        if let Some((number, _)) = refusal(&ours) {
            *self.refused.entry(number).or_default() += 1;
        }
        let first = reference::settles(file, 1);
        let same = ours == theirs && fits(file, &ours) && [0, first, 0, first] == [0, 1, 2, 3].map(|times| planner::jobs(file, times)) && (planner::loads(file, 3) == 0) == ours.starts_with(b"refused");
        if !same {
            self.different += 1;
            if self.different <= 5 {
                println!("DIFFERENT: {}\n-- planner\n{}-- reference\n{}", hex(file), text(&ours), text(&theirs));
            }
        }
    }

    fn tell(&self, sort: &str) -> bool {
        let refused: u32 = self.refused.values().sum();
        let by_number: Vec<String> = self.refused.iter().map(|(number, times)| format!("{times} by {number}")).collect();
        println!(
            "{sort}: {} sheets, {} listings, {} dead ends, {refused} refused ({}); {} differences",
            self.sheets,
            self.sheets - self.dead - refused,
            self.dead,
            by_number.join(", "),
            self.different
        );
        self.different == 0
    }
}

// The text goes into an output of just its length; one byte less is too short, and then left as it was.
fn fits(file: &[u8], text: &[u8]) -> bool {
    let mut out = vec![b'?'; text.len()];
    let short = planner::print_into(file, &mut out[1..]);
    let untouched = short == 0 && out.iter().all(|b| *b == b'?');
    untouched && planner::print_into(file, &mut out) == text.len() && out == text
}

fn reference_print(file: &[u8]) -> Vec<u8> {
    let mut out = vec![];
    reference::print(file, &mut out);
    out
}

fn text(bytes: &[u8]) -> std::borrow::Cow<'_, str> {
    String::from_utf8_lossy(bytes)
}

fn hex(bytes: &[u8]) -> String {
    bytes.iter().map(|b| format!("{b:02X}")).collect()
}

const SAMPLES: [&str; 4] = [
    include_str!("../../samples/dead-end.hex"),
    include_str!("../../samples/neighbours.hex"),
    include_str!("../../samples/timers.hex"),
    include_str!("../../samples/two-buses.hex"),
];

fn agree() -> bool {
    let mut r = Random(0x1234_5678_9ABC_DEF1);
    let [mut clean, mut random, mut damaged, mut fixed, mut samples] = std::array::from_fn(|_| Tally::default());
    for i in 0..40_000u32 {
        let size = if i % 4 == 0 { 64 } else { 2 + (i % 7) as u8 };
        let file = sheet(&jobs::random(&mut r, size));
        random.look(&file);
        let good = jobs::accepted(file, reference_print);
        clean.look(&good);
        for _ in 0..4 {
            damaged.look(&jobs::damaged(&good, &mut r));
        }
    }
    for file in jobs::timed().into_iter().map(|(_, file)| file).chain(jobs::at_bounds()) {
        fixed.look(&file);
    }
    for hex in SAMPLES {
        let file = from_hex(hex);
        fixed.look(&file);
        for _ in 0..10_000 {
            samples.look(&jobs::damaged(&file, &mut r));
        }
    }
    let longest = planner::longest() == planner::LONGEST;
    if !longest {
        println!("DIFFERENT: the longest listing has {} bytes", planner::longest());
    }
    let tallies = [(&clean, "random, without records at fault"), (&random, "random"), (&damaged, "random, damaged"), (&samples, "samples, damaged"), (&fixed, "timed, samples, and at bounds")];
    // each is told, also after one that differs
    tallies.into_iter().fold(longest, |good, (tally, sort)| tally.tell(sort) & good)
}

type Timed = fn(&[u8], u32) -> u64;

// The least time of one call of some functions on a file, in nanoseconds.
struct Clock<'a, const N: usize> {
    file: &'a [u8],
    fs: [Timed; N],
    // how many calls take a fifth of a millisecond at least
    calls: [u32; N],
    best: [f64; N],
}

impl<'a, const N: usize> Clock<'a, N> {
    fn new(file: &'a [u8], fs: [Timed; N]) -> Self {
        let calls = fs.map(|f| {
            let mut calls = 1;
            while sample(file, f, calls) < 2e5 {
                calls *= 2;
            }
            calls
        });
        Clock { file, fs, calls, best: [f64::MAX; N] }
    }

    // One sample of each function in turn.
    fn tick(&mut self) {
        for i in 0..N {
            self.best[i] = self.best[i].min(sample(self.file, self.fs[i], self.calls[i]) / self.calls[i] as f64);
        }
    }
}

fn sample(file: &[u8], f: Timed, calls: u32) -> f64 {
    let t = Instant::now();
    std::hint::black_box(f(file, calls));
    t.elapsed().as_nanos() as f64
}

fn times<const N: usize>(file: &[u8], fs: [Timed; N]) -> [f64; N] {
    let mut clock = Clock::new(file, fs);
    for _ in 0..200 {
        clock.tick();
    }
    clock.best
}

// The samples of a sheet are spread over the whole run, so that other load on the machine meets all alike.
fn speed() -> bool {
    const FS: [Timed; 6] = [planner::loads, reference::settles, planner::jobs, reference::jobs, planner::prints, reference::prints];
    let sheets = jobs::timed();
    let mut clocks: Vec<_> = sheets.iter().map(|(_, file)| Clock::new(file, FS)).collect();
    for _ in 0..1000 {
        for clock in &mut clocks {
            clock.tick();
        }
    }
    let group = |name: &str| format!("{name:>16} {:>9} {:>5}", "reference", "ratio");
    println!("{:<62}{}{}{}", "nanoseconds", group("settle"), group("load, settle"), group("bytes to text"));
    for ((name, _), clock) in sheets.iter().zip(&clocks) {
        let [loads, b, c, d, e, f] = clock.best;
        let a = c - loads;
        let group = |a: f64, b: f64| format!("{a:>16.0} {b:>9.0} {:>5.2}", a / b);
        println!("{name:<62}{}{}{}", group(a, b), group(c, d), group(e, f));
    }
    true
}

// Runs one job for a while, for a profile.
fn one(name: &str) -> bool {
    for (n, file) in jobs::timed() {
        if n.contains(name) {
            let t = Instant::now();
            while t.elapsed().as_secs() < 3 {
                std::hint::black_box(planner::jobs(&file, 1000));
            }
            println!("{n}");
        }
    }
    true
}

// Looks at random for slow Range jobs.
fn search() -> bool {
    let mut r = Random(99);
    let mut worst = 0.0;
    for _ in 0..10_000 {
        let job = jobs::random_range(&mut r);
        let file = sheet(&job);
        let t = Instant::now();
        planner::jobs(&file, 50);
        if t.elapsed().as_nanos() as f64 / 50.0 > worst {
            // again with care, since other load shows too
            let [ns] = times(&file, [planner::jobs]);
            if ns > worst {
                worst = ns;
                let [theirs] = times(&file, [reference::jobs]);
                println!("{ns:.0} ns, reference {theirs:.0}: {}", jobs::describe(&job));
            }
        }
    }
    true
}
