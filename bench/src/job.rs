// Jobs: the records of a sheet, and the bytes that they are in a file.
#[derive(Clone, Copy, Debug, PartialEq, Eq)]
pub enum Step {
    New { n: u8, m: u8, k: u8, kinds: u32 },
    // a text of so many bytes, from the given one on
    Name { sensor: u8, length: u8, first: u8 },
    Limit { sensor: u8, mask: u64 },
    Claim { set: u8, mask: u64 },
    Bar { set: u8, mask: u64 },
    Range { g: u64, s: u8, t: u8 },
    Roots { g: u64, s: u8, t: u8 },
    Within { a: u8, b: u8 },
    Apart { a: u8, b: u8 },
    Count { a: u8, least: u8, most: u8 },
    Row { a: u8 },
}

pub fn new(n: u8, m: u8, k: u8, kinds: u32) -> Step {
    Step::New { n, m, k, kinds }
}
pub fn name(sensor: u8, length: u8, first: u8) -> Step {
    Step::Name { sensor, length, first }
}
pub fn limit(sensor: u8, mask: u64) -> Step {
    Step::Limit { sensor, mask }
}
pub fn claim(set: u8, mask: u64) -> Step {
    Step::Claim { set, mask }
}
pub fn bar(set: u8, mask: u64) -> Step {
    Step::Bar { set, mask }
}
pub fn range(g: u64, s: u8, t: u8) -> Step {
    Step::Range { g, s, t }
}
pub fn roots(g: u64, s: u8, t: u8) -> Step {
    Step::Roots { g, s, t }
}
pub fn within(a: u8, b: u8) -> Step {
    Step::Within { a, b }
}
pub fn apart(a: u8, b: u8) -> Step {
    Step::Apart { a, b }
}
pub fn count(a: u8, least: u8, most: u8) -> Step {
    Step::Count { a, least, most }
}
pub fn row(a: u8) -> Step {
    Step::Row { a }
}

impl Step {
    fn put(&self, file: &mut Vec<u8>) {
        let at = file.len();
        file.extend([0, 0]);
        match *self {
            Step::New { n, m, k, kinds } => {
                file.extend([1, n, m, k]);
                file.extend(kinds.to_be_bytes());
            }
            Step::Name { sensor, length, first } => {
                file.extend([2, sensor]);
                file.extend((0..length).map(|i| 0x20 + first.wrapping_add(i) % 0x5F));
            }
            Step::Limit { sensor, mask } => put_mask(file, 3, sensor, mask),
            Step::Claim { set, mask } => put_mask(file, 4, set, mask),
            Step::Bar { set, mask } => put_mask(file, 5, set, mask),
            Step::Range { g, s, t } => put_image(file, 6, g, s, t),
            Step::Roots { g, s, t } => put_image(file, 7, g, s, t),
            Step::Within { a, b } => file.extend([8, a, b]),
            Step::Apart { a, b } => file.extend([9, a, b]),
            Step::Count { a, least, most } => file.extend([10, a, least, most]),
            Step::Row { a } => file.extend([11, a]),
        }
        let length = (file.len() - at - 2) as u16;
        file[at..at + 2].copy_from_slice(&length.to_be_bytes());
    }
}

fn put_mask(file: &mut Vec<u8>, kind: u8, number: u8, mask: u64) {
    file.extend([kind, number]);
    file.extend(mask.to_be_bytes());
}

fn put_image(file: &mut Vec<u8>, kind: u8, g: u64, s: u8, t: u8) {
    file.push(kind);
    file.extend(g.to_be_bytes());
    file.extend([s, t]);
}

// The sheet file of a job.
pub fn sheet(job: &[Step]) -> Vec<u8> {
    let mut file = vec![1];
    for step in job {
        step.put(&mut file);
    }
    file
}

// Where the records of a file begin and end, as far as their lengths lead.
pub fn records(file: &[u8]) -> Vec<std::ops::Range<usize>> {
    let mut all = vec![];
    let mut at = 1;
    while at + 2 < file.len() {
        let end = at + 2 + u16::from_be_bytes([file[at], file[at + 1]]) as usize;
        if end > file.len() {
            break;
        }
        all.push(at..end);
        at = end;
    }
    all
}

// A sheet file from hexadecimal text with comments, as samples/ has it.
pub fn from_hex(text: &str) -> Vec<u8> {
    let digits: Vec<u8> = text.lines().flat_map(|line| line.split('#').next().unwrap().chars()).filter_map(|c| c.to_digit(16)).map(|d| d as u8).collect();
    digits.chunks(2).map(|pair| pair[0] * 16 + pair[1]).collect()
}

// A small generator of numbers, so that every run makes the same jobs.
pub struct Random(pub u64);

impl Random {
    pub fn next(&mut self) -> u64 {
        self.0 ^= self.0 << 13;
        self.0 ^= self.0 >> 7;
        self.0 ^= self.0 << 17;
        self.0.wrapping_mul(0x2545_F491_4F6C_DD1D)
    }
    pub fn below(&mut self, n: u64) -> u64 {
        (self.next() >> 11) % n
    }
    pub fn chance(&mut self, in_100: u64) -> bool {
        self.below(100) < in_100
    }
    // Each number below n with the given chance.
    pub fn mask(&mut self, n: u8, in_100: u64) -> u64 {
        let mut m = 0;
        for i in 0..n {
            if self.chance(in_100) {
                m |= 1 << i;
            }
        }
        m
    }
}

pub fn below(n: u8) -> u64 {
    if n >= 64 { !0 } else { (1 << n) - 1 }
}
