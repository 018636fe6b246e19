// The planner against plain enumeration: boxes of small boards with one set of sensors and one of slots, or two of one kind.
// A box is a product; its layouts are listed one by one, those at which the rule holds are kept, and their hull is taken.
// Nothing here is shared with the planner or with `reference.rs`.
use crate::job::{Random, Step, apart, bar, below, claim, count, limit, new, range, roots, row, sheet, within};
use crate::planner::print;

// Candidates of each sensor, bounds of set 0 and set 1. None is dead.
#[derive(Clone, PartialEq, Debug)]
struct Boxed {
    cands: Vec<u64>,
    lo: [u64; 2],
    hi: [u64; 2],
}
type Shape = Option<Boxed>;

#[derive(Clone, PartialEq)]
struct Layout {
    slots: Vec<u8>,
    sets: [u64; 2],
}

#[derive(Clone, Copy, Debug)]
struct Size {
    n: u8,
    m: u8,
    kinds: u32,
}

fn subsets(lo: u64, hi: u64) -> Vec<u64> {
    (0..=hi).filter(|s| s & lo == lo && s & !hi == 0).collect()
}

fn layouts(b: &Boxed) -> Vec<Layout> {
    let mut rows: Vec<Vec<u8>> = vec![vec![]];
    for c in &b.cands {
        let mut more = vec![];
        for r in &rows {
            for v in 0..8 {
                if c >> v & 1 == 1 {
                    let mut r = r.clone();
                    r.push(v);
                    more.push(r);
                }
            }
        }
        rows = more;
    }
    let mut all = vec![];
    for r in rows {
        for s in subsets(b.lo[0], b.hi[0]) {
            for t in subsets(b.lo[1], b.hi[1]) {
                all.push(Layout { slots: r.clone(), sets: [s, t] });
            }
        }
    }
    all
}

fn tight(b: &Boxed, holds: &dyn Fn(&Layout) -> bool) -> Shape {
    let mut hull: Shape = None;
    for x in layouts(b) {
        if !holds(&x) {
            continue;
        }
        match &mut hull {
            None => hull = Some(Boxed { cands: x.slots.iter().map(|v| 1 << v).collect(), lo: x.sets, hi: x.sets }),
            Some(h) => {
                for (c, v) in h.cands.iter_mut().zip(&x.slots) {
                    *c |= 1 << v;
                }
                for j in 0..2 {
                    h.lo[j] &= x.sets[j];
                    h.hi[j] |= x.sets[j];
                }
            }
        }
    }
    hull
}

// Where the rule of a step holds. With a bug planted, Range forgets that its sensors lie in g.
fn holds(s: &Step, x: &Layout, bug: bool) -> bool {
    let set = |j: u8| x.sets[j as usize];
    // the sensors whose slot the test takes, or the slots of the sensors that it takes
    let sensors = |test: &dyn Fn(usize, u8) -> bool| x.slots.iter().enumerate().filter(|(i, v)| test(*i, **v)).fold(0, |m, (i, _)| m | 1u64 << i);
    let slots = |test: &dyn Fn(usize) -> bool| x.slots.iter().enumerate().filter(|(i, _)| test(*i)).fold(0, |m, (_, v)| m | 1u64 << v);
    match *s {
        Step::Range { g, s, t } => (bug || set(s) & !g == 0) && set(t) == slots(&|i| set(s) >> i & 1 == 1),
        Step::Roots { g, s, t } => set(s) == sensors(&|i, v| g >> i & 1 == 1 && set(t) >> v & 1 == 1),
        Step::Within { a, b } => set(a) & !set(b) == 0,
        Step::Apart { a, b } => set(a) & set(b) == 0,
        Step::Count { a, least, most } => (least as u32..=most as u32).contains(&set(a).count_ones()),
        Step::Row { a } => {
            let from_first = set(a) >> (set(a).trailing_zeros() % 64);
            from_first != 0 && from_first.count_ones() == 64 - from_first.leading_zeros()
        }
        _ => unreachable!(),
    }
}

// The enumerated run of a rule: its tight box; for Roots those of its implications, brought to rest.
fn run(step: &Step, b: &Boxed, bug: bool) -> Shape {
    let Step::Roots { g, s, t } = *step else {
        return tight(b, &|x| holds(step, x, bug));
    };
    let mut at = b.clone();
    loop {
        let was = at.clone();
        for i in 0..at.cands.len() {
            let inside = |x: &Layout| x.sets[s as usize] >> i & 1 == 1;
            let hit = |x: &Layout| x.sets[t as usize] >> x.slots[i] & 1 == 1;
            if g >> i & 1 == 1 {
                at = tight(&at, &|x| !inside(x) || hit(x))?;
                at = tight(&at, &|x| !hit(x) || inside(x))?;
            } else {
                at = tight(&at, &|x| !inside(x))?;
            }
        }
        if at == was {
            return Some(at);
        }
    }
}

fn settle(rules: &[Step], b: &Boxed, bug: bool) -> Shape {
    let mut at = b.clone();
    loop {
        let was = at.clone();
        for s in rules {
            at = run(s, &at, bug)?;
        }
        if at == was {
            return Some(at);
        }
    }
}

// The planner's settled box, read out of its listing.
fn planner(size: Size, b: &Boxed, rules: &[Step]) -> Shape {
    let mut job = vec![new(size.n, size.m, 2, size.kinds)];
    for (i, c) in b.cands.iter().enumerate() {
        job.push(limit(i as u8, *c));
    }
    for j in 0..2u8 {
        let room = below(if size.kinds >> j & 1 == 1 { size.m } else { size.n });
        job.push(bar(j, room & !b.hi[j as usize]));
        job.push(claim(j, b.lo[j as usize]));
    }
    job.extend(rules);
    let text = String::from_utf8(print(&sheet(&job))).unwrap();
    assert!(!text.starts_with("refused"), "{text}: {job:?}");
    if text == "dead end\n" {
        return None;
    }
    let mask = |part: &str| part.split_whitespace().filter_map(|w| w.parse::<u32>().ok()).fold(0, |m, v| m | 1u64 << v);
    let mut read = Boxed { cands: vec![], lo: [0; 2], hi: [0; 2] };
    let mut set = 0;
    for line in text.lines() {
        let (head, body) = line.split_once(':').unwrap();
        if head.starts_with("sensor") {
            read.cands.push(mask(body));
        } else {
            let (lo, hi) = body.split_once('/').unwrap();
            (read.lo[set], read.hi[set]) = (mask(lo), mask(hi));
            set += 1;
        }
    }
    Some(read)
}

// All live boxes of a board.
fn boxes(size: Size) -> Vec<Boxed> {
    let mut all = vec![Boxed { cands: vec![], lo: [0; 2], hi: [0; 2] }];
    for _ in 0..size.n {
        all = all.iter().flat_map(|b| (1..1u64 << size.m).map(move |c| {
            let mut b = b.clone();
            b.cands.push(c);
            b
        })).collect();
    }
    for j in 0..2 {
        let room = if size.kinds >> j & 1 == 1 { size.m } else { size.n };
        all = all.iter().flat_map(|b| (0..1u64 << room).flat_map(move |h| subsets(0, h).into_iter().map(move |l| {
            let mut b = b.clone();
            (b.lo[j], b.hi[j]) = (l, h);
            b
        }))).collect();
    }
    all
}

// Every rule of the board: on the two sets, every G, every count.
fn rules(size: Size) -> Vec<Step> {
    let mut all = vec![];
    if size.kinds == 2 {
        for g in 0..1 << size.n {
            all.push(range(g, 0, 1));
            all.push(roots(g, 0, 1));
        }
    } else {
        for (a, b) in [(0, 1), (1, 0)] {
            all.push(within(a, b));
            all.push(apart(a, b));
        }
    }
    for a in 0..2 {
        all.push(row(a));
        for p in 0..=size.n.max(size.m) + 1 {
            for q in p..=size.n.max(size.m) + 1 {
                all.push(count(a, p, q));
            }
        }
    }
    all
}

#[derive(Default)]
struct Tally {
    runs: u64,
    settles: u64,
    decided: u64,
    different: u64,
}

fn one(size: Size, b: &Boxed, s: &Step, bug: bool, t: &mut Tally) {
    let ours = planner(size, b, &[*s]);
    t.runs += 1;
    let mut fault = ours != run(s, b, bug);
    // Roots is tight where the result is dead or its slot set is decided
    if matches!(s, Step::Roots { .. }) && ours.as_ref().is_none_or(|x| x.lo[1] == x.hi[1]) {
        t.decided += 1;
        // a result that is dead has no support; a live one is its own tight box
        let whole = tight(ours.as_ref().unwrap_or(b), &|x| holds(s, x, bug));
        fault |= whole != ours;
    }
    tell(size, b, &[*s], &ours, fault, t);
}

fn several(size: Size, b: &Boxed, rules: &[Step], bug: bool, t: &mut Tally) {
    let ours = planner(size, b, rules);
    t.settles += 1;
    let fault = ours != settle(rules, b, bug);
    tell(size, b, rules, &ours, fault, t);
}

fn tell(size: Size, b: &Boxed, rules: &[Step], ours: &Shape, fault: bool, t: &mut Tally) {
    if fault {
        t.different += 1;
        if t.different == 1 {
            println!("DIFFERENT {size:?} {b:?} {rules:?}: planner {ours:?}");
        }
    }
}

fn pick(all: &[Step], r: &mut Random) -> Vec<Step> {
    (0..2 + r.below(4)).map(|_| all[r.below(all.len() as u64) as usize]).collect()
}

pub fn all(bug: bool) -> bool {
    let mut r = Random(4711);
    let mut good = true;
    // set 0 of sensors and set 1 of slots; two of sensors; two of slots
    for kinds in [2, 0, 3] {
        for n in 1..=3 {
            for m in 1..=3 {
                let size = Size { n, m, kinds };
                let (bs, rs) = (boxes(size), rules(size));
                let every = bs.len() <= 12_000;
                let mut t = Tally::default();
                let mut seen = 0;
                if every {
                    for b in &bs {
                        seen += 1;
                        for s in &rs {
                            one(size, b, s, bug, &mut t);
                        }
                        for _ in 0..8 {
                            several(size, b, &pick(&rs, &mut r), bug, &mut t);
                        }
                    }
                } else {
                    for _ in 0..10_000 {
                        let b = &bs[r.below(bs.len() as u64) as usize];
                        seen += 1;
                        for _ in 0..6 {
                            one(size, b, &rs[r.below(rs.len() as u64) as usize], bug, &mut t);
                        }
                        for _ in 0..4 {
                            several(size, b, &pick(&rs, &mut r), bug, &mut t);
                        }
                    }
                }
                let sets = ["two sets of sensors", "", "a set of sensors, a set of slots", "two sets of slots"][kinds as usize];
                let how = if every { "every box" } else { "a sample of boxes" };
                println!("{n} sensors, {m} slots, {sets}: {how}, {seen} of {}; {} rules, {} runs ({} Roots against their own tight box), {} settles, {} differences",
                    bs.len(), rs.len(), t.runs, t.decided, t.settles, t.different);
                good &= t.different == 0;
            }
        }
    }
    good
}
