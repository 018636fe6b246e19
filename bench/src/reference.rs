// The planner's definitions once more, in plain Rust: nothing here is proved, and no line is shared with the planner.
// Masks, one box in place, each rule run in the order of the table until a whole round changes nothing.
mod listing;
mod reading;

use crate::job::below;
use reading::load;
use std::hint::black_box;

#[derive(Clone, Copy)]
pub struct Plan {
    n: u8,
    m: u8,
    k: u8,
    kinds: u32,
    cands: [u64; 64],
    lo: [u64; 32],
    hi: [u64; 32],
    dead: bool,
}

#[derive(Clone, Copy)]
pub enum Rule {
    Range(u64, u8, u8),
    Roots(u64, u8, u8),
    Within(u8, u8),
    Apart(u8, u8),
    Count(u8, u8, u8),
    Row(u8),
}

impl Plan {
    pub fn new(n: u8, m: u8, k: u8, kinds: u32) -> Option<Plan> {
        if n == 0 || n > 64 || m == 0 || m > 64 || k > 32 || (k < 32 && kinds >> k != 0) {
            return None;
        }
        let mut p = Plan { n, m, k, kinds, cands: [0; 64], lo: [0; 32], hi: [0; 32], dead: false };
        p.cands[..n as usize].fill(below(m));
        for j in 0..k {
            p.hi[j as usize] = below(p.room(j));
        }
        Some(p)
    }

    fn of_slots(&self, set: u8) -> bool {
        self.kinds >> set & 1 == 1
    }

    fn room(&self, set: u8) -> u8 {
        if self.of_slots(set) { self.m } else { self.n }
    }

    fn limit(&mut self, i: u8, mask: u64) -> bool {
        let c = &mut self.cands[i as usize];
        let was = *c;
        *c &= mask;
        self.dead |= *c == 0;
        *c != was
    }

    fn claim(&mut self, j: u8, mask: u64) -> bool {
        let lo = &mut self.lo[j as usize];
        let was = *lo;
        *lo |= mask;
        self.dead |= *lo & !self.hi[j as usize] != 0;
        *lo != was
    }

    fn bar(&mut self, j: u8, mask: u64) -> bool {
        let hi = &mut self.hi[j as usize];
        let was = *hi;
        *hi &= !mask;
        self.dead |= self.lo[j as usize] & !*hi != 0;
        *hi != was
    }

    fn bound(&mut self, j: u8, lo: u64, hi: u64) -> bool {
        let a = self.claim(j, lo);
        let b = self.bar(j, !hi);
        a | b
    }

    fn die(&mut self) -> bool {
        let was = self.dead;
        self.dead = true;
        !was
    }

    fn run(&mut self, rule: &Rule) -> bool {
        match *rule {
            Rule::Within(a, b) => {
                let cut = self.bar(a, !self.hi[b as usize]);
                let raised = self.claim(b, self.lo[a as usize]);
                cut | raised
            }
            Rule::Apart(a, b) => {
                let one = self.bar(a, self.lo[b as usize]);
                let other = self.bar(b, self.lo[a as usize]);
                one | other
            }
            Rule::Count(a, least, most) => self.run_count(a, least as u32, most as u32),
            Rule::Row(a) => self.run_row(a),
            Rule::Roots(g, s, t) => self.run_roots(g, s, t),
            Rule::Range(g, s, t) => self.run_range(g, s, t),
        }
    }

    fn run_count(&mut self, a: u8, least: u32, most: u32) -> bool {
        let (lo, hi) = (self.lo[a as usize], self.hi[a as usize]);
        let (l, h) = (lo.count_ones(), hi.count_ones());
        if l > most || h < least {
            return self.die();
        }
        let mut moved = false;
        if l == most {
            moved |= self.bar(a, hi & !lo);
        }
        if h == least {
            moved |= self.claim(a, hi);
        }
        moved
    }

    fn run_row(&mut self, a: u8) -> bool {
        let (lo, hi) = (self.lo[a as usize], self.hi[a as usize]);
        if lo == 0 {
            return match hi.count_ones() {
                0 => self.die(),
                1 => self.claim(a, hi),
                _ => false,
            };
        }
        let first = lo.trailing_zeros();
        let last = 63 - lo.leading_zeros();
        let span = (!0 << first) & (!0 >> (63 - last));
        if span & !hi != 0 {
            return self.die();
        }
        // hi from the span outwards, up to the first gap on either side
        let up = hi >> last;
        let up_len = (!up).trailing_zeros().min(64 - last);
        let down = hi << (63 - first);
        let down_len = (!down).leading_zeros().min(first + 1);
        let reach = (!0 << (first + 1 - down_len)) & (!0u64 >> (64 - last - up_len));
        self.bound(a, span, reach)
    }

    fn run_roots(&mut self, g: u64, s: u8, t: u8) -> bool {
        let mut moved = self.bar(s, below(self.n) & !g);
        loop {
            if self.dead {
                return moved;
            }
            let mut again = false;
            let mut left = g;
            while left != 0 {
                let i = left.trailing_zeros() as u8;
                left &= left - 1;
                again |= self.forward(i, s, t);
                again |= self.backward(i, s, t);
            }
            if !again {
                return moved;
            }
            moved = true;
        }
    }

    fn forward(&mut self, i: u8, s: u8, t: u8) -> bool {
        let meet = self.cands[i as usize] & self.hi[t as usize];
        if self.lo[s as usize] >> i & 1 == 1 {
            let mut moved = self.limit(i, meet);
            if meet.count_ones() == 1 {
                moved |= self.claim(t, meet);
            }
            moved
        } else if meet == 0 {
            self.bar(s, 1 << i)
        } else {
            false
        }
    }

    fn backward(&mut self, i: u8, s: u8, t: u8) -> bool {
        let rest = self.cands[i as usize] & !self.lo[t as usize];
        if self.hi[s as usize] >> i & 1 == 0 {
            let mut moved = self.limit(i, rest);
            if rest.count_ones() == 1 {
                moved |= self.bar(t, rest);
            }
            moved
        } else if rest == 0 {
            self.claim(s, 1 << i)
        } else {
            false
        }
    }

    fn run_range(&mut self, g: u64, s: u8, t: u8) -> bool {
        let (lo_s, lo_t, hi_t) = (self.lo[s as usize], self.lo[t as usize], self.hi[t as usize]);
        let mut able = 0;
        for i in members(self.hi[s as usize] & g) {
            if self.cands[i] & hi_t != 0 {
                able |= 1 << i;
            }
        }
        if lo_s & !able != 0 {
            return self.die();
        }
        let Some(pairs) = Pairs::cover(&self.cands, able, lo_t) else {
            return self.die();
        };
        let groups = pairs.groups(&self.cands, lo_t);
        let mut moved = false;
        let mut wide = lo_t;
        let mut sure = 0;
        let mut bound = 0;
        for i in members(able) {
            let own = self.cands[i];
            let sits = own & hi_t;
            let kept = match groups[i] {
                Some(group) => {
                    bound |= 1 << i;
                    own & group
                }
                None => {
                    wide |= sits;
                    if lo_s >> i & 1 == 1 { sits } else { own }
                }
            };
            if lo_s >> i & 1 == 1 && sits.count_ones() == 1 {
                sure |= sits;
            }
            moved |= self.limit(i as u8, kept);
        }
        moved |= self.bound(s, bound, able);
        moved |= self.bound(t, sure, wide);
        moved
    }

    // Rounds until one changes nothing; a dead box has nothing to lose.
    pub fn settle(&mut self, rules: &[Rule]) {
        let mut moved = !self.dead;
        while moved {
            moved = false;
            for rule in rules {
                moved |= self.run(rule);
                if self.dead {
                    return;
                }
            }
        }
    }

    pub fn first(&self) -> u64 {
        if self.dead { 0 } else { self.cands[0] }
    }
}

fn members(mask: u64) -> impl Iterator<Item = usize> {
    let mut left = mask;
    std::iter::from_fn(move || {
        if left == 0 {
            return None;
        }
        let i = left.trailing_zeros() as usize;
        left &= left - 1;
        Some(i)
    })
}

const NONE: u8 = 64;

// A sensor of its own for each claimed slot.
struct Pairs {
    takers: [u64; 64],
    idle: u64,
    sensor_of: [u8; 64],
    slot_of: [u8; 64],
}

impl Pairs {
    fn cover(cands: &[u64; 64], sensors: u64, claimed: u64) -> Option<Pairs> {
        let mut p = Pairs { takers: [0; 64], idle: sensors, sensor_of: [NONE; 64], slot_of: [NONE; 64] };
        for i in members(sensors) {
            for v in members(cands[i] & claimed) {
                p.takers[v] |= 1 << i;
            }
        }
        let mut from = [NONE; 64];
        for w in members(claimed) {
            let mut i = p.search(sensors, w, &mut from).ok()?;
            p.idle &= !(1 << i);
            loop {
                let u = from[i as usize] as usize;
                let next = p.sensor_of[u];
                p.sensor_of[u] = i;
                p.slot_of[i as usize] = u as u8;
                if u == w {
                    break;
                }
                i = next;
            }
        }
        Some(p)
    }

    // A sensor without a slot that can be reached from slot w, or the slots reached.
    fn search(&self, sensors: u64, w: usize, from: &mut [u8; 64]) -> Result<u8, u64> {
        let mut unseen = sensors;
        let mut reached = 1u64 << w;
        let mut pending = reached;
        while pending != 0 {
            let u = pending.trailing_zeros() as usize;
            pending &= pending - 1;
            let mut fresh = self.takers[u] & unseen;
            let idle = fresh & self.idle;
            if idle != 0 {
                let i = idle.trailing_zeros() as u8;
                from[i as usize] = u as u8;
                return Ok(i);
            }
            unseen &= !fresh;
            while fresh != 0 {
                let i = fresh.trailing_zeros() as usize;
                fresh &= fresh - 1;
                from[i] = u as u8;
                let v = self.slot_of[i];
                reached |= 1 << v;
                pending |= 1 << v;
            }
        }
        Err(reached)
    }

    // For each sensor the group of slots that it is bound to, if every covering uses it.
    fn groups(&self, cands: &[u64; 64], claimed: u64) -> [Option<u64>; 64] {
        // slots whose sensor some covering leaves out: sensors without a slot take them over, then the sensors left out by that
        let mut free = 0;
        for i in members(self.idle) {
            free |= cands[i] & claimed;
        }
        let mut pending = free;
        while pending != 0 && free != claimed {
            let v = pending.trailing_zeros() as usize;
            let fresh = cands[self.sensor_of[v] as usize] & claimed & !free;
            free |= fresh;
            pending = pending & (pending - 1) | fresh;
        }
        let bound = claimed & !free;
        let mut groups = [None; 64];
        if bound == 0 {
            return groups;
        }
        // what each bound slot leads to: the slots of the sensors that could take it, and so on
        let mut next = [0u64; 64];
        for v in members(bound) {
            for u in members(cands[self.sensor_of[v] as usize] & bound) {
                next[u] |= 1 << v;
            }
        }
        let end = 64 - bound.leading_zeros() as usize;
        for k in members(bound) {
            let row = next[k];
            for own in &mut next[..end] {
                *own |= if *own >> k & 1 == 1 { row } else { 0 };
            }
        }
        for u in members(bound) {
            groups[self.sensor_of[u] as usize] = Some(next[u]);
        }
        groups
    }
}

// The text of a sheet: its listing, or the line of the refusal.
pub fn print(file: &[u8], out: &mut Vec<u8>) {
    out.clear();
    match load(file) {
        Ok((mut plan, rules)) => {
            plan.settle(&rules);
            plan.list(out);
        }
        Err(refused) => refused.tell(out),
    }
}

// From bytes to text, so many times.
pub fn prints(file: &[u8], times: u32) -> u64 {
    let mut out = Vec::with_capacity(crate::planner::LONGEST);
    let mut sum = 0;
    for _ in 0..times {
        print(black_box(file), &mut out);
        sum += black_box(&out).len() as u64;
    }
    sum
}

// Loads and settles so many times; the first sensor's candidates, joined by exclusive or.
pub fn jobs(file: &[u8], times: u32) -> u64 {
    (0..times).fold(0, |sum, _| sum ^ settles(black_box(file), 1))
}

// The same, loaded once.
pub fn settles(file: &[u8], times: u32) -> u64 {
    let Ok((start, rules)) = load(file) else {
        return 0;
    };
    let mut sum = 0;
    for _ in 0..times {
        let mut plan = start;
        plan.settle(black_box(&rules));
        sum ^= plan.first();
    }
    sum
}
