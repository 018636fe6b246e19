// The sheets that are timed, random ones, and damaged ones.
use crate::job::*;

const ALL: u64 = !0;

// Of 32 sets the first 16 hold sensors and the others slots.
const HALF: u32 = 0xFFFF_0000;

const SAMPLE: &str = include_str!("../../samples/two-buses.hex");

pub fn timed() -> Vec<(&'static str, Vec<u8>)> {
    let on_64_by_64 = [
        ("16 Range, 16 Roots, 64 set rules", range_roots_sets()),
        ("all 64 sensors different, six slots to a sensor", all_different(six_slots)),
        ("all 64 sensors different, dense", all_different(|_| ALL)),
        ("a chain of 31 Within, in the worst order", within_chain()),
        ("256 mixed rules", mixed()),
        ("256 mixed rules, a dead end", dead_end()),
        ("16 Roots, 64 set rules", roots_and_sets()),
        ("one Roots, some entries", vec![new(64, 64, 2, 2), claim(1, 0xFF), claim(0, 0xF0F0), bar(0, 0xF), roots(ALL, 0, 1)]),
        ("one Roots, no entries", vec![new(64, 64, 2, 2), roots(ALL, 0, 1)]),
        ("one Range, 32 slots claimed, dense", range_dense()),
        ("one Range, 32 slots claimed, three slots to a sensor", range_thin()),
        ("one Range, 64 slots claimed, dense", range_slow()),
        ("one Range, 64 slots claimed, a ring of two slots to a sensor", range_ring(2)),
        ("one Range, 64 slots claimed, a ring of nine slots to a sensor", range_ring(9)),
        ("one Range, 64 slots claimed, a staircase", range_stairs()),
        ("one Range, 64 slots claimed, two halves", range_halves()),
    ];
    let mut all: Vec<_> = on_64_by_64.into_iter().map(|(name, job)| (name, sheet(&job))).collect();
    all.push(("the sample sheet, 2 sensors and 5 slots", from_hex(SAMPLE)));
    all
}

// 64 rules on sets of sensors and sets of slots, such that a layout is left.
fn set_rules(job: &mut Vec<Step>) {
    for i in 0..8 {
        // the sets of either kind in pairs: one in the next
        job.push(within(2 * i, 2 * i + 1));
        job.push(within(16 + 2 * i, 17 + 2 * i));
        // and apart from those of the next pair
        job.push(apart(2 * i, (2 * i + 2) % 16));
        job.push(apart(16 + 2 * i, 16 + (2 * i + 2) % 16));
    }
    for j in 0..32 {
        job.push(count(j, 0, 48));
    }
}

fn few_limits(job: &mut Vec<Step>, r: &mut Random) {
    for i in 0..64 {
        job.push(limit(i, r.mask(64, 50) | 1 << i));
    }
}

fn roots_and_sets() -> Vec<Step> {
    let mut r = Random(7);
    let mut job = vec![new(64, 64, 32, HALF)];
    few_limits(&mut job, &mut r);
    for j in 0..4 {
        job.push(claim(16 + 2 * j, 1 << (5 * j)));
        job.push(claim(2 * j, 1 << (7 * j + 3)));
        job.push(bar(8 + j, r.mask(64, 20)));
        job.push(bar(17 + j, r.mask(64, 20)));
    }
    for j in 0..16 {
        job.push(roots(ALL, j, 16 + j));
    }
    set_rules(&mut job);
    job
}

fn range_dense() -> Vec<Step> {
    vec![new(64, 64, 2, 2), claim(1, below(32)), range(ALL, 0, 1)]
}

fn range_thin() -> Vec<Step> {
    let mut job = vec![new(64, 64, 2, 2), claim(1, below(32))];
    for i in 0..64u32 {
        // three slots to a sensor
        let mask = [0, 7, 19].iter().fold(0, |m, s| m | 1u64 << ((i + s) % 64));
        job.push(limit(i as u8, mask));
    }
    job.push(range(ALL, 0, 1));
    job
}

// 64 slots claimed, all of 64 sensors: each sensor is bound, and each search goes through all slots.
fn range_slow() -> Vec<Step> {
    vec![new(64, 64, 2, 2), claim(1, ALL), range(ALL, 0, 1)]
}

// The same with a few slots to a sensor, in one ring: each search goes round the ring.
fn range_ring(width: u32) -> Vec<Step> {
    let mut job = vec![new(64, 64, 2, 2), claim(1, ALL)];
    for i in 0..64u32 {
        job.push(limit(i as u8, (0..width).fold(0, |m, d| m | 1 << ((i + 64 - d) % 64))));
    }
    job.push(range(ALL, 0, 1));
    job
}

// Sensor i may have slot i and the next one.
fn range_stairs() -> Vec<Step> {
    let mut job = vec![new(64, 64, 2, 2)];
    job.extend((0..64u8).map(|i| limit(i, 3 << i)));
    job.extend([claim(1, ALL), range(ALL, 0, 1)]);
    job
}

// Half of the sensors may have any slot, the others only those of the first half.
fn range_halves() -> Vec<Step> {
    let mut job = vec![new(64, 64, 2, 2)];
    job.extend((32..64u8).map(|i| limit(i, below(32))));
    job.extend([claim(1, ALL), range(ALL, 0, 1)]);
    job
}

fn range_roots_sets() -> Vec<Step> {
    let mut r = Random(11);
    let mut job = vec![new(64, 64, 32, HALF)];
    few_limits(&mut job, &mut r);
    for j in 0..4 {
        job.push(claim(16 + 2 * j, 0x3 << (9 * j)));
        job.push(bar(8 + j, r.mask(64, 20)));
    }
    for j in 0..16 {
        job.push(range(ALL, j, 16 + j));
        job.push(roots(ALL, j, 16 + j));
    }
    set_rules(&mut job);
    job
}

// All sensors have slots of their own: a Range over all of them, and as many slots as sensors.
fn all_different(slots: fn(u32) -> u64) -> Vec<Step> {
    let mut job = vec![new(64, 64, 2, 2), claim(0, ALL)];
    for i in 0..64u32 {
        job.push(limit(i as u8, slots(i) | 1 << i));
    }
    job.push(range(ALL, 0, 1));
    job.push(count(1, 64, 64));
    job
}

fn six_slots(sensor: u32) -> u64 {
    [1, 5, 11, 23, 40].iter().fold(0, |m, d| m | 1 << ((sensor + d) % 64))
}

// Set 0 in set 1 in set 2 and so on, the last one posted first: each round raises one set.
fn within_chain() -> Vec<Step> {
    let mut job = vec![new(64, 64, 32, 0), claim(0, 0x8000_0000_0000_0001)];
    for j in (0..31).rev() {
        job.push(within(j, j + 1));
    }
    job
}

fn mixed() -> Vec<Step> {
    let mut r = Random(21);
    let mut job = vec![new(64, 64, 32, HALF)];
    few_limits(&mut job, &mut r);
    for j in 0..6 {
        job.push(claim(16 + 2 * j, 0x11 << (3 * j)));
        job.push(bar(8 + j, r.mask(64, 20)));
    }
    for i in 0..256u64 {
        let s = (i / 8 % 16) as u8;
        let t = 16 + s;
        let even = s & 14;
        job.push(match i % 8 {
            0 => range(ALL, s, t),
            1 => roots(ALL, s, t),
            2 => within(even, even + 1),
            3 => within(16 + even, 17 + even),
            4 => apart(even, (even + 2 + 4 * (i / 128) as u8) % 16),
            5 => apart(16 + even, 16 + (even + 2) % 16),
            6 => count(s, 0, 50 - (i / 128) as u8),
            _ => count(t, 0, 60),
        });
    }
    job
}

fn dead_end() -> Vec<Step> {
    let mut job = mixed();
    job.insert(1, claim(16, 1 << 40));
    job.insert(1, claim(18, 1 << 40));
    job
}

// A job of any kind on a board up to the given size, with some records that are refused.
pub fn random(r: &mut Random, size: u8) -> Vec<Step> {
    let n = 1 + r.below(size as u64) as u8;
    let m = 1 + r.below(size as u64) as u8;
    let k = r.below(if size > 8 { 33 } else { 7 }) as u8;
    let kinds = if k == 0 { 0 } else { r.next() as u32 & (u32::MAX >> (32 - k)) };
    let mut job = vec![new(n, m, k, kinds)];
    let open = 30 + 10 * r.below(8);
    for i in 0..n {
        if r.chance(60) {
            job.push(limit(i, r.mask(m, open) | 1 << r.below(m as u64)));
        }
    }
    let sets = k.max(1) as u64;
    let claims = r.below(4) * 5;
    for j in 0..k {
        let room = if kinds >> j & 1 == 1 { m } else { n };
        if r.chance(50) {
            let out = r.mask(room, 20);
            job.push(bar(j, out));
            if r.chance(60) {
                job.push(claim(j, r.mask(room, claims) & !out));
            }
        }
    }
    // sets of sensors and of slots
    let of = |slots: bool| (0..k).filter(|j| (kinds >> j & 1 == 1) == slots).collect::<Vec<u8>>();
    let (se, sl) = (of(false), of(true));
    let pick = |r: &mut Random, v: &[u8]| if v.is_empty() || r.chance(1) { r.below(sets + 1) as u8 } else { v[r.below(v.len() as u64) as usize] };
    let most = if r.chance(1) { 300 } else if size > 8 { 60 } else { 10 };
    for _ in 0..r.below(most) {
        let (s, t) = (pick(r, &se), pick(r, &sl));
        let (s2, t2) = (pick(r, &se), pick(r, &sl));
        let width = if r.chance(2) { 64 } else { n };
        let g = if r.chance(50) { below(n) } else { r.mask(width, 70) };
        let one = if r.chance(50) { s } else { t };
        let (p, q) = (r.below(n as u64 + 1) as u8, r.below(70) as u8);
        job.push(match r.below(7) {
            0 | 1 => range(g, s, t),
            2 => roots(g, s, t),
            3 => if r.chance(50) { within(s, s2) } else { within(t, t2) },
            4 => if r.chance(50) { apart(s, s2) } else { apart(t, t2) },
            5 => count(one, p / 3, q),
            _ => if r.chance(30) { row(one) } else { count(one, p / 4, p) },
        });
    }
    if r.chance(5) {
        job.push(limit(r.below(70) as u8, r.next()));
        job.push(claim(r.below(34) as u8, 1 << r.below(64)));
    }
    for _ in 0..r.below(4) {
        let sensor = if r.chance(5) { n } else { r.below(n as u64) as u8 };
        job.push(name(sensor, 1 + r.below(32) as u8, r.next() as u8));
    }
    // the records after the head in any order
    for i in (2..job.len()).rev() {
        job.swap(i, 1 + r.below(i as u64) as usize);
    }
    job
}

// A sheet without the records that are refused, by what the given planner says of it.
pub fn accepted(mut file: Vec<u8>, print: impl Fn(&[u8]) -> Vec<u8>) -> Vec<u8> {
    while let Some((_, position)) = refusal(&print(&file)) {
        let length = u16::from_be_bytes([file[position], file[position + 1]]) as usize;
        file.drain(position..position + 2 + length);
    }
    file
}

// The number and the position in the line of a refusal.
pub fn refusal(text: &[u8]) -> Option<(u8, usize)> {
    let line = std::str::from_utf8(text).ok()?.strip_prefix("refused ")?.trim_end();
    let (number, position) = line.split_once(" at ")?;
    Some((number.parse().ok()?, position.parse().ok()?))
}

// A sheet with one to three faults.
pub fn damaged(file: &[u8], r: &mut Random) -> Vec<u8> {
    let mut bad = file.to_vec();
    for _ in 0..1 + r.below(3) {
        damage(&mut bad, r);
    }
    bad
}

fn damage(file: &mut Vec<u8>, r: &mut Random) {
    let at = r.below(file.len() as u64 + 1) as usize;
    let records = records(file);
    let pick = |r: &mut Random| records[r.below(records.len() as u64) as usize].clone();
    match r.below(10) {
        0 if at < file.len() => file[at] ^= 1 << r.below(8),
        1 if at < file.len() => file[at] = r.next() as u8,
        2 => file.truncate(at),
        3 => {
            let more: Vec<u8> = (0..1 + r.below(12)).map(|_| r.next() as u8).collect();
            file.splice(at..at, more);
        }
        4 => {
            let end = file.len().min(at + 1 + r.below(12) as usize);
            file.drain(at..end);
        }
        // the length or the kind of a record
        5 if !records.is_empty() => file[pick(r).start + 1] = r.below(40) as u8,
        6 if !records.is_empty() => file[pick(r).start + 2] = r.below(14) as u8,
        // a record doubled, at any record's place; some hundred times at the end
        7 if !records.is_empty() => {
            let (one, place) = (file[pick(r)].to_vec(), pick(r).start);
            file.splice(place..place, one);
        }
        8 if !records.is_empty() => {
            let one = file[pick(r)].to_vec();
            for _ in 0..[1, 2, 300, 4000][r.below(4) as usize] {
                file.extend(&one);
            }
        }
        // two records swapped
        9 if !records.is_empty() => {
            let (a, b) = (pick(r), pick(r));
            let (a, b) = if a.start < b.start { (a, b) } else { (b, a) };
            if a.end <= b.start {
                let swapped = [&file[b.clone()], &file[a.end..b.start], &file[a.clone()]].concat();
                file.splice(a.start..b.end, swapped);
            }
        }
        _ => {}
    }
}

// Sheets at the bounds of what a file and a table hold.
pub fn at_bounds() -> Vec<Vec<u8>> {
    let mut all = vec![vec![], vec![1], vec![2]];
    let head = new(1, 1, 1, 0);
    for rules in [0, 256, 257] {
        let mut job = vec![row(0); rules + 1];
        job[0] = head;
        all.push(sheet(&job));
    }
    // names of 1 to 32 bytes take 5 to 36 bytes: 32,768 bytes, and one more
    for size in [32_768, 32_769] {
        let mut job = vec![head];
        let mut left = size - sheet(&job).len();
        while left > 0 {
            let record = if left <= 36 { left } else { left.min(36 + 5) - 5 };
            job.push(name(0, record as u8 - 4, b'a'));
            left -= record;
        }
        all.push(sheet(&job));
        assert!(all.last().unwrap().len() == size);
    }
    all
}

// A job with one Range on a board of 64 by 64.
pub fn random_range(r: &mut Random) -> Vec<Step> {
    let claimed = 1 + r.below(64) as u8;
    let mut job = vec![new(64, 64, 2, 2), claim(1, below(claimed))];
    let shape = r.below(4);
    let width = 1 + r.below(64) as u32;
    let sensors = claimed as u32 + if r.chance(50) { 0 } else { r.below(65 - claimed as u64) as u32 };
    for i in 0..64u32 {
        let own = 1u64 << (i % claimed as u32);
        let mask = match shape {
            0 => r.mask(64, width as u64),
            1 => (0..width).fold(0, |m, d| m | 1 << ((i + d) % claimed as u32)),
            2 => (0..width).fold(0, |m, d| m | 1 << ((i + 64 - d) % 64)),
            _ => below((i + 1).min(64) as u8) | if r.chance(width as u64) { r.next() } else { 0 },
        };
        job.push(limit(i as u8, if i < sensors { mask | own } else { ALL }));
    }
    if sensors < 64 {
        job.push(bar(0, !below(sensors as u8)));
    }
    if r.chance(50) {
        job.push(bar(1, !below(claimed)));
    }
    job.push(range(ALL, 0, 1));
    job
}

pub fn describe(job: &[Step]) -> String {
    let mut text = String::new();
    for step in job {
        text += &match step {
            Step::Limit { mask, .. } => format!("{mask:x} "),
            other => format!("[{other:x?}] "),
        };
    }
    text
}
