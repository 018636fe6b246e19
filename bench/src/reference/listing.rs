// The listing, as bytes at the end of a text.
use super::{Plan, members};

impl Plan {
    pub fn list(&self, out: &mut Vec<u8>) {
        if self.dead {
            out.extend(b"dead end\n");
            return;
        }
        for i in 0..self.n {
            out.extend(b"sensor ");
            put_number(out, i);
            out.push(b':');
            put_members(out, self.cands[i as usize]);
            out.push(b'\n');
        }
        for j in 0..self.k {
            out.extend(b"set ");
            put_number(out, j);
            out.push(b':');
            put_members(out, self.lo[j as usize]);
            out.extend(b" /");
            put_members(out, self.hi[j as usize]);
            out.push(b'\n');
        }
    }
}

// A number below 100.
fn put_number(out: &mut Vec<u8>, n: u8) {
    if n >= 10 {
        out.push(b'0' + n / 10);
    }
    out.push(b'0' + n % 10);
}

fn put_members(out: &mut Vec<u8>, mask: u64) {
    if mask == 0 {
        out.extend(b" -");
    }
    for i in members(mask) {
        out.push(b' ');
        put_number(out, i as u8);
    }
}
