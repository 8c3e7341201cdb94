//! What the bench does, written a second time in plain Rust from docs/, to be compared with it. It shares no code with it.

use std::io::{Read, Write};

#[derive(Clone, Copy, PartialEq, Eq)]
enum Status {
    I,
    C,
    Eb,
    Ef,
}

const STATUSES: [(Status, &str); 4] = [(Status::I, "I"), (Status::C, "C"), (Status::Eb, "EB"), (Status::Ef, "EF")];

#[derive(Clone, Copy, PartialEq, Eq)]
enum Verdict {
    Rc,
    Reb,
    Ref,
    Ri,
    Rr,
}

const VERDICTS: [&str; 5] = ["RC", "REB", "REF", "RI", "RR"];

/// A kind of length: lengths are kept as their codes, which are ordered as the lengths are.
#[derive(Clone, Copy)]
enum Kind {
    Metres,
    Grade,
}

impl Kind {
    fn admits(self, weight: u64) -> bool {
        match self {
            Kind::Metres => (1..=65_535).contains(&weight),
            Kind::Grade => (1..=255).contains(&weight),
        }
    }

    fn is_code(self, code: u64) -> bool {
        match self {
            Kind::Metres => code <= u64::from(u32::MAX),
            Kind::Grade => code < 1 << 24,
        }
    }

    fn extend(self, length: u64, weight: u64) -> Option<u64> {
        if !self.admits(weight) {
            return None;
        }
        let longer = match self {
            Kind::Metres => length + weight,
            Kind::Grade => (length / 256 + 1) * 256 + (length % 256).max(weight),
        };
        self.is_code(longer).then_some(longer)
    }
}

#[derive(Clone, Copy)]
struct Record {
    status: Status,
    par: usize,
    length: u64,
}

struct Hall {
    kind: Kind,
    records: Vec<Record>,
    cables: Vec<[Option<(usize, usize, u64)>; 8]>,
    tallies: Vec<[u64; 5]>,
}

impl Hall {
    fn new(n: usize, kind: Kind) -> Hall {
        let mut records = vec![Record { status: Status::I, par: 255, length: 0 }; n];
        records[0].status = Status::C;
        Hall { kind, records, cables: vec![[None; 8]; n], tallies: vec![[0; 5]; n] }
    }

    fn misfit(&self, below: Record, above: Record, weight: u64) -> bool {
        above.status == Status::I
            || self.kind.extend(above.length, weight).is_none_or(|reach| below.length < reach)
            || below.status != above.status && above.status != Status::Eb
    }

    fn par_cable(&self, b: usize) -> Option<(usize, usize, u64)> {
        self.cables[b].get(self.records[b].par).copied().flatten()
    }

    fn abnormal(&self, b: usize) -> bool {
        let own = self.records[b];
        own.status != Status::I
            && self.par_cable(b).is_none_or(|(up, _, weight)| self.misfit(own, self.records[up], weight))
    }

    /// The least offer and its port.
    fn offer(&self, b: usize) -> Option<(u64, usize)> {
        (0..8)
            .filter_map(|p| {
                let (v, _, weight) = self.cables[b][p]?;
                let other = self.records[v];
                (other.status == Status::C).then_some(())?;
                Some((self.kind.extend(other.length, weight)?, p))
            })
            .min()
    }

    fn children_confirmed(&self, b: usize) -> bool {
        self.cables[b].iter().flatten().all(|&(v, q, weight)| {
            let other = self.records[v];
            let child = other.par == q && other.status != Status::I && !self.misfit(other, self.records[b], weight);
            !child || other.status == Status::Ef
        })
    }

    fn verdict(&self, b: usize) -> Option<Verdict> {
        if b == 0 {
            return None;
        }
        let own = self.records[b];
        match own.status {
            Status::C => {
                if self.offer(b).is_some_and(|(l, _)| l < own.length) {
                    Some(Verdict::Rc)
                } else if self.abnormal(b)
                    || self.par_cable(b).is_some_and(|(up, _, _)| self.records[up].status == Status::Eb)
                {
                    Some(Verdict::Reb)
                } else {
                    None
                }
            }
            Status::Eb => self.children_confirmed(b).then_some(Verdict::Ref),
            Status::Ef if !self.abnormal(b) => None,
            Status::Ef => Some(if self.offer(b).is_some() { Verdict::Rr } else { Verdict::Ri }),
            Status::I => self.offer(b).map(|_| Verdict::Rr),
        }
    }

    fn next(&self, b: usize, verdict: Verdict) -> Record {
        let own = self.records[b];
        match verdict {
            Verdict::Reb => Record { status: Status::Eb, ..own },
            Verdict::Ref => Record { status: Status::Ef, ..own },
            Verdict::Ri => Record { status: Status::I, ..own },
            Verdict::Rc | Verdict::Rr => {
                let (length, par) = self.offer(b).unwrap();
                Record { status: Status::C, par, length }
            }
        }
    }

    /// The boards of the set move together, by their verdicts in `verdicts`.
    fn turn(&mut self, set: u64, verdicts: &[Option<Verdict>; 64]) {
        let mut next = [None; 64];
        for b in members(set) {
            next[b] = verdicts[b].map(|v| (v, self.next(b, v)));
        }
        for b in members(set) {
            if let Some((v, record)) = next[b] {
                self.records[b] = record;
                self.tallies[b][v as usize] = self.tallies[b][v as usize].saturating_add(1);
            }
        }
    }

    /// Judges the boards of the set; answers those of them that are enabled.
    fn judge(&self, set: u64, verdicts: &mut [Option<Verdict>; 64]) -> u64 {
        let mut enabled = 0;
        for b in members(set) {
            verdicts[b] = self.verdict(b);
            enabled |= u64::from(verdicts[b].is_some()) << b;
        }
        enabled
    }

    /// The boards of the set and their neighbours: after a turn only these can have another verdict.
    fn near(&self, set: u64) -> u64 {
        members(set).fold(set, |near, b| self.cables[b].iter().flatten().fold(near, |near, cable| near | 1 << cable.0))
    }

    fn settle(&mut self, ring: bool) {
        let mut last = 0;
        let mut verdicts = [None; 64];
        let mut enabled = self.judge(u64::MAX >> (64 - self.records.len()), &mut verdicts);
        while enabled != 0 {
            let chosen = if ring {
                let above = enabled & !(u64::MAX >> (63 - last));
                last = if above == 0 { enabled } else { above }.trailing_zeros();
                1 << last
            } else {
                enabled
            };
            self.turn(chosen, &verdicts);
            let near = self.near(chosen);
            enabled = enabled & !near | self.judge(near, &mut verdicts);
        }
    }
}

/// The members of a set of boards, ascending.
fn members(mut set: u64) -> impl Iterator<Item = usize> {
    std::iter::from_fn(move || {
        let b = set.trailing_zeros() as usize;
        let some = set != 0;
        set &= set.wrapping_sub(1);
        some.then_some(b)
    })
}

/// A refusal: its number and the byte.
type Refused = (u32, usize);

fn words(line: &[u8]) -> Option<Vec<(usize, &str)>> {
    if line.is_empty() || line.len() > 200 || !line.iter().all(|b| *b == b' ' || (33..=126).contains(b)) {
        return None;
    }
    let text = std::str::from_utf8(line).unwrap();
    let mut place = 1;
    let mut found = Vec::new();
    for word in text.split(' ') {
        if word.is_empty() {
            return None;
        }
        found.push((place, word));
        place += word.len() + 1;
    }
    Some(found)
}

fn number(field: (usize, &str)) -> Result<u64, Refused> {
    let (place, word) = field;
    if word.len() > 10 || !word.bytes().all(|b| b.is_ascii_digit()) {
        return Err((33, place));
    }
    let n: u64 = word.parse().unwrap();
    if n > u64::from(u32::MAX) { Err((33, place)) } else { Ok(n) }
}

fn named<T: Copy>(field: (usize, &str), table: &[(&str, T)]) -> Result<T, Refused> {
    table.iter().find(|e| e.0 == field.1).map(|e| e.1).ok_or((33, field.0))
}

struct Bench {
    hall: Option<Hall>,
}

impl Bench {
    fn answer(&mut self, line: &[u8], out: &mut Vec<u8>) -> Result<(), Refused> {
        let words = words(line).ok_or((30, 1))?;
        let fields = &words[1..];
        let count = match words[0].1 {
            "new" | "cut" => Some(2),
            "wire" => Some(5),
            "plant" => Some(4),
            "turn" => None,
            "settle" | "tally" => Some(1),
            "show" => Some(0),
            _ => return Err((31, 1)),
        };
        if count.is_some_and(|c| c != fields.len()) {
            return Err((32, 1));
        }
        let verb = words[0].1;
        if verb == "new" {
            let n = number(fields[0])?;
            let kind = named(fields[1], &[("metres", Kind::Metres), ("grade", Kind::Grade)])?;
            if !(1..=64).contains(&n) {
                return Err((1, 1));
            }
            self.hall = Some(Hall::new(n as usize, kind));
            out.extend_from_slice(b"ok\n");
            return Ok(());
        }
        if verb == "settle" {
            let ring = named(fields[0], &[("all", false), ("ring", true)])?;
            let hall = self.hall.as_mut().ok_or((34, 1))?;
            hall.settle(ring);
            out.extend_from_slice(b"ok\n");
            return Ok(());
        }
        let numbers = fields.iter().map(|f| number(*f)).collect::<Result<Vec<u64>, Refused>>()?;
        let hall = self.hall.as_mut().ok_or((34, 1))?;
        obey(hall, verb, &numbers, out)
    }
}

fn obey(hall: &mut Hall, verb: &str, f: &[u64], out: &mut Vec<u8>) -> Result<(), Refused> {
    let n = hall.records.len() as u64;
    let refuse = |when: bool, number: u32| if when { Err((number, 1)) } else { Ok(()) };
    match verb {
        "wire" => {
            refuse(f[0] >= n || f[2] >= n, 2)?;
            refuse(f[1] > 7 || f[3] > 7, 3)?;
            refuse(f[0] == f[2], 4)?;
            let (a, p, b, q) = (f[0] as usize, f[1] as usize, f[2] as usize, f[3] as usize);
            refuse(hall.cables[a][p].is_some() || hall.cables[b][q].is_some(), 5)?;
            refuse(!hall.kind.admits(f[4]), 7)?;
            hall.cables[a][p] = Some((b, q, f[4]));
            hall.cables[b][q] = Some((a, p, f[4]));
        }
        "cut" => {
            refuse(f[0] >= n, 2)?;
            refuse(f[1] > 7, 3)?;
            let (a, p) = (f[0] as usize, f[1] as usize);
            let (b, q, _) = hall.cables[a][p].ok_or((6, 1))?;
            hall.cables[a][p] = None;
            hall.cables[b][q] = None;
        }
        "plant" => {
            refuse(f[0] >= n, 2)?;
            refuse(f[0] == 0, 8)?;
            refuse(f[1] > 3 || f[2] > 255 || !hall.kind.is_code(f[3]), 9)?;
            hall.records[f[0] as usize] =
                Record { status: STATUSES[f[1] as usize].0, par: f[2] as usize, length: f[3] };
        }
        "turn" => {
            refuse(f.iter().any(|b| *b >= n), 2)?;
            refuse(f.is_empty(), 10)?;
            let boards = f.iter().fold(0, |set, b| set | 1 << b);
            let mut verdicts = [None; 64];
            refuse(hall.judge(boards, &mut verdicts) != boards, 11)?;
            hall.turn(boards, &verdicts);
            writeln!(out, "moved {}", boards.count_ones()).unwrap();
            return Ok(());
        }
        "tally" => {
            refuse(f[0] >= n, 2)?;
            let t = hall.tallies[f[0] as usize];
            writeln!(out, "{} {} {} {} {}", t[0], t[1], t[2], t[3], t[4]).unwrap();
            return Ok(());
        }
        _ => {
            for (b, r) in hall.records.iter().enumerate() {
                let status = STATUSES.iter().find(|s| s.0 == r.status).unwrap().1;
                let verdict = hall.verdict(b).map_or("-", |v| VERDICTS[v as usize]);
                writeln!(out, "{b} {status} {} {} {verdict}", r.par, r.length).unwrap();
            }
            return Ok(());
        }
    }
    hall.tallies.iter_mut().for_each(|t| *t = [0; 5]);
    out.extend_from_slice(b"ok\n");
    Ok(())
}

fn main() {
    let mut script = Vec::new();
    std::io::stdin().take(65_537).read_to_end(&mut script).unwrap();
    let mut out = Vec::new();
    if script.len() > 65_536 {
        out.extend_from_slice(b"no 35 0 0\n");
    } else {
        let mut bench = Bench { hall: None };
        let mut lines: Vec<&[u8]> = script.split(|b| *b == b'\n').collect();
        if lines.last().is_some_and(|l| l.is_empty()) {
            lines.pop();
        }
        for (i, line) in lines.iter().enumerate() {
            if let Err((number, byte)) = bench.answer(line, &mut out) {
                writeln!(out, "no {number} {} {byte}", i + 1).unwrap();
            }
        }
    }
    std::io::stdout().write_all(&out).unwrap();
}
