// Sheet files, from docs/SHEET.md and docs/REFUSALS.md: one pass that checks each record and enters it.
use super::{Plan, Rule};
use crate::job::below;

const LONGEST_FILE: usize = 32_768;
const PLACES: usize = 256;

// The number of a refusal, and the position of the record at fault.
pub struct Refused {
    number: u8,
    position: usize,
}

impl Refused {
    pub fn tell(&self, out: &mut Vec<u8>) {
        out.extend(format!("refused {} at {}\n", self.number, self.position).as_bytes());
    }
}

// The plan of a sheet before it is settled, and its rules.
pub fn load(file: &[u8]) -> Result<(Plan, Vec<Rule>), Refused> {
    if file.is_empty() || file.len() > LONGEST_FILE || file[0] != 1 {
        return Err(Refused { number: 10, position: 0 });
    }
    let mut rest = &file[1..];
    let mut plan = None;
    let mut rules = Vec::with_capacity(PLACES);
    loop {
        let position = file.len() - rest.len();
        if rest.is_empty() && plan.is_some() {
            break;
        }
        take(&mut rest, &mut plan, &mut rules).map_err(|number| Refused { number, position })?;
    }
    Ok((plan.unwrap(), rules))
}

// One record: the reader's refusals first, then the planner's.
fn take(rest: &mut &[u8], plan: &mut Option<Plan>, rules: &mut Vec<Rule>) -> Result<(), u8> {
    if rest.is_empty() {
        return Err(15);
    }
    let (length, after) = rest.split_first_chunk().ok_or(11)?;
    let length = u16::from_be_bytes(*length) as usize;
    if length == 0 || length > after.len() {
        return Err(11);
    }
    let (body, after) = after.split_at(length);
    let (kind, fields) = (body[0], &body[1..]);
    if !matches!(kind, 1..=11) {
        return Err(12);
    }
    let fits = match kind {
        1 => length == 8,
        2 => (3..=34).contains(&length),
        3..=5 => length == 10,
        6 | 7 => length == 11,
        8 | 9 => length == 3,
        10 => length == 4,
        _ => length == 2,
    };
    if !fits {
        return Err(13);
    }
    if kind == 2 && fields[1..].iter().any(|b| !matches!(b, 0x20..=0x7E)) {
        return Err(14);
    }
    *rest = after;
    match plan {
        None if kind == 1 => *plan = Some(head(fields)?),
        Some(plan) if kind != 1 => plan.enter(kind, fields, rules)?,
        _ => return Err(15),
    }
    Ok(())
}

fn head(fields: &[u8]) -> Result<Plan, u8> {
    let kinds = u32::from_be_bytes(fields[3..7].try_into().unwrap());
    Plan::new(fields[0], fields[1], fields[2], kinds).ok_or(1)
}

fn mask(fields: &[u8], at: usize) -> u64 {
    u64::from_be_bytes(fields[at..at + 8].try_into().unwrap())
}

impl Plan {
    fn enter(&mut self, kind: u8, fields: &[u8], rules: &mut Vec<Rule>) -> Result<(), u8> {
        let rule = match kind {
            2 => return if fields[0] < self.n { Ok(()) } else { Err(2) },
            3 => {
                let (sensor, mask) = (fields[0], mask(fields, 1));
                if sensor >= self.n {
                    return Err(2);
                }
                if mask & !below(self.m) != 0 {
                    return Err(4);
                }
                self.limit(sensor, mask);
                return Ok(());
            }
            4 | 5 => {
                let (set, mask) = (fields[0], mask(fields, 1));
                if set >= self.k {
                    return Err(3);
                }
                if mask & !below(self.room(set)) != 0 {
                    return Err(4);
                }
                if kind == 4 {
                    self.claim(set, mask);
                } else {
                    self.bar(set, mask);
                }
                return Ok(());
            }
            6 => Rule::Range(mask(fields, 0), fields[8], fields[9]),
            7 => Rule::Roots(mask(fields, 0), fields[8], fields[9]),
            8 => Rule::Within(fields[0], fields[1]),
            9 => Rule::Apart(fields[0], fields[1]),
            10 => Rule::Count(fields[0], fields[1], fields[2]),
            _ => Rule::Row(fields[0]),
        };
        self.fault(&rule)?;
        if rules.len() == PLACES {
            return Err(8);
        }
        rules.push(rule);
        Ok(())
    }

    fn fault(&self, rule: &Rule) -> Result<(), u8> {
        let on = |set: u8| if set < self.k { Ok(()) } else { Err(3) };
        match *rule {
            Rule::Range(g, s, t) | Rule::Roots(g, s, t) => {
                on(s)?;
                on(t)?;
                if g & !below(self.n) != 0 {
                    return Err(4);
                }
                if self.of_slots(s) || !self.of_slots(t) {
                    return Err(5);
                }
            }
            Rule::Within(a, b) | Rule::Apart(a, b) => {
                on(a)?;
                on(b)?;
                if self.of_slots(a) != self.of_slots(b) {
                    return Err(5);
                }
                if a == b {
                    return Err(6);
                }
            }
            Rule::Count(a, least, most) => {
                on(a)?;
                if least > most || most > 64 {
                    return Err(7);
                }
            }
            Rule::Row(a) => on(a)?,
        }
        Ok(())
    }
}
