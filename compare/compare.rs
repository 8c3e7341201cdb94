//! Runs the bench and the model on scripts made from a seed and reports where they differ.
//!
//!     compare BENCH MODEL FIRST COUNT          compares on COUNT scripts, from seed FIRST on
//!     compare script SEED                      prints the script of a seed
//!     compare large MIX                        prints a large script: 64 boards, some hundreds of settles (all, ring or mixed)

use std::io::Write;
use std::process::{Command, Stdio};

/// A small generator of numbers (splitmix64), so that a seed always gives the same script.
struct Dice(u64);

impl Dice {
    fn roll(&mut self) -> u64 {
        self.0 = self.0.wrapping_add(0x9e37_79b9_7f4a_7c15);
        let mut z = self.0;
        z = (z ^ (z >> 30)).wrapping_mul(0xbf58_476d_1ce4_e5b9);
        z = (z ^ (z >> 27)).wrapping_mul(0x94d0_49bb_1331_11eb);
        z ^ (z >> 31)
    }

    fn below(&mut self, n: u64) -> u64 {
        self.roll() % n
    }

    fn one_in(&mut self, n: u64) -> bool {
        self.below(n) == 0
    }

    fn pick<T: Copy>(&mut self, from: &[T]) -> T {
        from[self.below(from.len() as u64) as usize]
    }
}

struct Maker {
    dice: Dice,
    boards: u64,
    metres: bool,
}

impl Maker {
    fn board(&mut self) -> u64 {
        if self.dice.one_in(40) { self.dice.pick(&[self.boards, 63, 64, 65, 4_294_967_295]) } else { self.dice.below(self.boards) }
    }

    fn port(&mut self) -> u64 {
        if self.dice.one_in(60) { self.dice.pick(&[8, 255, 256]) } else { self.dice.below(8) }
    }

    fn weight(&mut self) -> u64 {
        let odd = [0, 1, 255, 256, 65_535, 65_536, 4_294_967_295];
        match self.dice.below(12) {
            0 => self.dice.pick(&odd),
            1..=4 => self.dice.below(5) + 1,
            _ => self.dice.below(if self.metres { 100 } else { 255 }) + 1,
        }
    }

    /// A code that may lie near the ceiling, near the start, or nowhere.
    fn code(&mut self) -> u64 {
        let near = self.dice.below(200);
        match self.dice.below(8) {
            0 if self.metres => 4_294_967_295 - near,
            0 => 16_777_215 - near,
            1 => self.dice.pick(&[0, 16_777_215, 16_777_216, 4_294_967_295, 65_535 * 256]),
            2 => self.dice.below(4_294_967_296),
            3 => self.dice.below(16_777_216),
            _ if self.metres => self.dice.below(300),
            _ => self.dice.below(6) * 256 + self.dice.below(256),
        }
    }

    fn plant(&mut self) -> String {
        let status = if self.dice.one_in(60) { 4 } else { self.dice.below(4) };
        let par = match self.dice.below(10) {
            0 => self.dice.pick(&[8, 254, 255, 256]),
            _ => self.dice.below(8),
        };
        format!("plant {} {status} {par} {}", self.board(), self.code())
    }

    fn turn(&mut self) -> String {
        let mut line = String::from("turn");
        for _ in 0..self.dice.below(4) {
            let b = self.board();
            line.push_str(&format!(" {b}"));
        }
        line
    }

    fn new(&mut self) -> String {
        self.metres = self.dice.one_in(2);
        self.boards = match self.dice.below(6) {
            0 => 64,
            1 => self.dice.below(64) + 1,
            _ => self.dice.below(8) + 1,
        };
        let asked = if self.dice.one_in(30) { self.dice.pick(&[0, 65, 4_294_967_295]) } else { self.boards };
        let kind = if self.metres { "metres" } else { "grade" };
        format!("new {asked} {kind}")
    }

    fn line(&mut self) -> String {
        match self.dice.below(100) {
            0..=39 => format!("wire {} {} {} {} {}", self.board(), self.port(), self.board(), self.port(), self.weight()),
            40..=47 => format!("cut {} {}", self.board(), self.port()),
            48..=64 => self.plant(),
            65..=76 => self.turn(),
            77..=82 => format!("settle {}", self.dice.pick(&["all", "ring"])),
            83..=88 => format!("tally {}", self.board()),
            89..=95 => String::from("show"),
            96 => self.new(),
            _ => self.odd(),
        }
    }

    /// A line that is no command, or a hall's call with a damaged field.
    fn odd(&mut self) -> String {
        let long = "9".repeat(self.dice.below(20) as usize);
        let lines = [
            String::new(),
            String::from(" show"),
            String::from("show "),
            String::from("turn  1"),
            String::from("shew"),
            String::from("show 1"),
            String::from("wire 1 2 3 4"),
            String::from("new 4 miles"),
            String::from("settle none"),
            String::from("settle"),
            String::from("tally +1"),
            String::from("tally 4294967296"),
            String::from("tally 0000000001"),
            String::from("tally 00000000001"),
            String::from("wire 0 0 one 0 5"),
            String::from("cut 1\t0"),
            String::from("plant 1 1 1 1\r"),
            String::from("caf\u{e9} 1"),
            format!("tally {long}"),
            format!("turn{}", " 1".repeat(98)),
            format!("turn{}", " 1".repeat(99)),
            format!("{:~<200}", ""),
            format!("{:~<201}", ""),
        ];
        lines[self.dice.below(lines.len() as u64) as usize].clone()
    }
}

fn script(seed: u64) -> Vec<u8> {
    let mut maker = Maker { dice: Dice(seed), boards: 1, metres: true };
    let mut text = Vec::new();
    if !maker.dice.one_in(20) {
        let line = maker.new();
        text.extend_from_slice(line.as_bytes());
        text.push(b'\n');
    }
    let target = match maker.dice.below(50) {
        0 => 65_500 + maker.dice.below(80) as usize,
        1..=4 => 10_000,
        _ => 200 + maker.dice.below(3_000) as usize,
    };
    while text.len() < target {
        let line = maker.line();
        text.extend_from_slice(line.as_bytes());
        text.push(b'\n');
    }
    if target >= 65_500 {
        text.truncate(target);
    }
    if maker.dice.one_in(3) {
        text.pop();
    }
    text
}

/// 64 boards with many cables, planted and settled again and again.
fn large(mix: &str) -> Vec<u8> {
    let mut maker = Maker { dice: Dice(7), boards: 64, metres: true };
    let mut text = String::from("new 64 metres\n");
    for b in 1..64u64 {
        text.push_str(&format!("wire {} {} {b} 0 {}\n", (b - 1) / 3, 1 + (b - 1) % 3, 1 + maker.dice.below(90)));
    }
    for _ in 0..200 {
        let (a, p, b, q) = (maker.dice.below(64), 4 + maker.dice.below(4), maker.dice.below(64), 4 + maker.dice.below(4));
        text.push_str(&format!("wire {a} {p} {b} {q} {}\n", 1 + maker.dice.below(90)));
    }
    let mut round = 0;
    while text.len() < 64_900 {
        for _ in 0..4 {
            let b = 1 + maker.dice.below(63);
            text.push_str(&format!("plant {b} {} {} {}\n", maker.dice.below(4), maker.dice.below(8), maker.dice.below(60)));
        }
        let picker = match mix {
            "mixed" if round % 2 == 0 => "all",
            "mixed" => "ring",
            other => other,
        };
        text.push_str(&format!("settle {picker}\n"));
        round += 1;
    }
    text.into_bytes()
}

fn run(program: &str, script: &[u8]) -> Vec<u8> {
    let mut child = Command::new(program).stdin(Stdio::piped()).stdout(Stdio::piped()).spawn().expect("cannot start");
    let mut input = child.stdin.take().unwrap();
    let bytes = script.to_vec();
    let feeder = std::thread::spawn(move || {
        let _ = input.write_all(&bytes);
    });
    let output = child.wait_with_output().expect("cannot wait");
    feeder.join().unwrap();
    assert!(output.status.success(), "{program} failed");
    output.stdout
}

fn main() {
    let args: Vec<String> = std::env::args().skip(1).collect();
    let words: Vec<&str> = args.iter().map(String::as_str).collect();
    match words[..] {
        ["script", seed] => std::io::stdout().write_all(&script(seed.parse().unwrap())).unwrap(),
        ["large", mix] => std::io::stdout().write_all(&large(mix)).unwrap(),
        [bench, model, first, count] => {
            let first: u64 = first.parse().unwrap();
            let count: u64 = count.parse().unwrap();
            let mut differ = 0;
            for seed in first..first + count {
                let text = script(seed);
                if run(bench, &text) != run(model, &text) {
                    differ += 1;
                    println!("differ on the script of seed {seed}");
                }
            }
            println!("{count} scripts compared, {differ} differ");
            std::process::exit(i32::from(differ > 0));
        }
        _ => panic!("see the head of compare.rs"),
    }
}
