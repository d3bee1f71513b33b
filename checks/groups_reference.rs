//! Compares the program `groupcalc` with arithmetic of its own, on random members and non-members
//! of the three groups, on moduli that are refused, and on lines that can't be read.
//!
//!     rustc -O checks/groups_reference.rs -o groups_reference
//!     ./groups_reference PATH_OF_GROUPCALC SEED COUNT
//!
//! Ends with status 0 if every line of the answer is the expected one, and with 1 if not.
#[path = "harness.rs"]
mod harness;

use harness::{inverse, run_program, splitmix, Source};
use std::env;
use std::process::exit;

struct Random(u64);

impl Source for Random {
    fn next(&mut self) -> u64 {
        splitmix(&mut self.0)
    }
}

impl Random {
    fn below(&mut self, n: i128) -> i128 {
        i128::from(self.next()) % n
    }

    fn between(&mut self, low: i128, high: i128) -> i128 {
        low + self.below(high - low + 1)
    }
}

type Pair = (i128, i128);

const TOP: i128 = 1 << 31;
const WORD: i128 = 1 << 32;
const CURVE: i128 = 11;
const INFINITY: Pair = (11, 11);

/// What a group does, written as the textbook has it, on integers of any sign.
trait Group {
    const NUMBER: u32;
    fn fits(n: i128) -> bool;
    fn member(n: i128, p: Pair) -> bool;
    fn neutral(n: i128) -> Pair;
    fn sum(n: i128, p: Pair, q: Pair) -> Pair;
    fn negative(n: i128, p: Pair) -> Pair;
    fn some_member(random: &mut Random, n: i128) -> Pair;
    fn some_element(random: &mut Random, n: i128) -> Pair;
}

struct Sums;
struct Clock;
struct Curve;

impl Group for Sums {
    const NUMBER: u32 = 1;

    fn fits(n: i128) -> bool {
        (2..=TOP).contains(&n)
    }

    fn member(n: i128, p: Pair) -> bool {
        p.0 < n
    }

    fn neutral(_: i128) -> Pair {
        (0, 0)
    }

    fn sum(n: i128, p: Pair, q: Pair) -> Pair {
        ((p.0 + q.0).rem_euclid(n), 0)
    }

    fn negative(n: i128, p: Pair) -> Pair {
        ((-p.0).rem_euclid(n), 0)
    }

    fn some_member(random: &mut Random, n: i128) -> Pair {
        let near = [0, 1, n / 2, n - 1, random.below(n), random.below(n), random.below(n)];
        (near[random.below(7) as usize].min(n - 1), 0)
    }

    fn some_element(random: &mut Random, n: i128) -> Pair {
        let near = [n, n + 1, WORD - 1, random.between(n, WORD - 1), random.below(WORD)];
        (near[random.below(5) as usize].min(WORD - 1), 0)
    }
}

impl Group for Clock {
    const NUMBER: u32 = 2;

    fn fits(n: i128) -> bool {
        (2..=TOP).contains(&n)
    }

    fn member(n: i128, (x, y): Pair) -> bool {
        x < n && y < n && (x * x + y * y - 1).rem_euclid(n) == 0
    }

    fn neutral(_: i128) -> Pair {
        (0, 1)
    }

    fn sum(n: i128, (x1, y1): Pair, (x2, y2): Pair) -> Pair {
        ((x1 * y2 + y1 * x2).rem_euclid(n), (y1 * y2 - x1 * x2).rem_euclid(n))
    }

    fn negative(n: i128, (x, y): Pair) -> Pair {
        ((-x).rem_euclid(n), y.rem_euclid(n))
    }

    /// By the slope t of a chord through (0, -1), turned by a quarter now and then.
    fn some_member(random: &mut Random, n: i128) -> Pair {
        for _ in 0..20 {
            let t = random.below(n);
            if let Some(w) = inverse(n, 1 + t * t) {
                let p = ((2 * t * w).rem_euclid(n), ((1 - t * t) * w).rem_euclid(n));
                let turns = [(0, 1), (1, 0), (0, n - 1), (n - 1, 0)];
                return Clock::sum(n, p, turns[random.below(4) as usize]);
            }
        }
        (0, 1)
    }

    fn some_element(random: &mut Random, n: i128) -> Pair {
        let (x, y) = Clock::some_member(random, n);
        let near = [
            (x + n, y),
            (x, y + n),
            (y, x + 1),
            (random.below(n), random.below(n)),
            (random.below(WORD), random.below(WORD)),
            (WORD - 1, WORD - 1),
        ];
        let (x, y) = near[random.below(6) as usize];
        (x.min(WORD - 1), y.min(WORD - 1))
    }
}

impl Group for Curve {
    const NUMBER: u32 = 3;

    fn fits(n: i128) -> bool {
        n == CURVE
    }

    fn member(n: i128, (x, y): Pair) -> bool {
        (x, y) == INFINITY || (x < n && y < n && (y * y - x * x * x - x - 6).rem_euclid(n) == 0)
    }

    fn neutral(_: i128) -> Pair {
        INFINITY
    }

    fn sum(n: i128, p: Pair, q: Pair) -> Pair {
        if p == INFINITY {
            return q;
        }
        if q == INFINITY {
            return p;
        }
        if p.0 == q.0 && (p.1 + q.1).rem_euclid(n) == 0 {
            return INFINITY;
        }
        let (over, under) = if p == q {
            (3 * p.0 * p.0 + 1, 2 * p.1)
        } else {
            (q.1 - p.1, q.0 - p.0)
        };
        let slope = (0..n)
            .find(|k| (k * under - over).rem_euclid(n) == 0)
            .expect("a slope");
        let x = (slope * slope - p.0 - q.0).rem_euclid(n);
        (x, (slope * (p.0 - x) - p.1).rem_euclid(n))
    }

    fn negative(n: i128, p: Pair) -> Pair {
        if p == INFINITY {
            p
        } else {
            (p.0, (-p.1).rem_euclid(n))
        }
    }

    fn some_member(random: &mut Random, n: i128) -> Pair {
        loop {
            let p = (random.below(n + 1), random.below(n + 1));
            if Curve::member(n, p) {
                return p;
            }
        }
    }

    fn some_element(random: &mut Random, n: i128) -> Pair {
        let (x, y) = Curve::some_member(random, n);
        let near = [
            (x + n, y),
            (x, y + n),
            (n, y),
            (random.below(14), random.below(14)),
            (random.below(WORD), random.below(WORD)),
        ];
        near[random.below(5) as usize]
    }
}

#[derive(Default)]
struct Counts {
    members: u64,
    others: u64,
    refused: u64,
    unreadable: u64,
}

struct Cases {
    input: Vec<u8>,
    expected: Vec<String>,
}

impl Cases {
    fn add(&mut self, line: &[u8], expected: String) {
        self.input.extend_from_slice(line);
        self.input.push(b'\n');
        self.expected.push(expected);
    }
}

/// One line about two elements, and what must come of it.
fn ask<G: Group>(random: &mut Random, n: i128, cases: &mut Cases, counts: &mut Counts) {
    let fits = G::fits(n);
    let pick = |random: &mut Random| {
        if !fits {
            (random.below(WORD), random.below(WORD))
        } else if random.below(4) == 0 {
            G::some_element(random, n)
        } else {
            G::some_member(random, n)
        }
    };
    let p = pick(random);
    let q = match random.below(8) {
        0 => p,
        1 if fits && G::member(n, p) => G::negative(n, p),
        _ => pick(random),
    };
    let line = format!("{} {} {} {} {} {}", G::NUMBER, n, p.0, p.1, q.0, q.1);
    if !fits {
        counts.refused += 1;
        cases.add(line.as_bytes(), "no 12 5 0".into());
        return;
    }
    let (p_in, q_in) = (G::member(n, p), G::member(n, q));
    for member in [p_in, q_in] {
        if member {
            counts.members += 1;
        } else {
            counts.others += 1;
        }
    }
    let neutral = G::neutral(n);
    let sum = if p_in && q_in { G::sum(n, p, q) } else { neutral };
    let double = if p_in { G::sum(n, p, p) } else { neutral };
    let negative = if p_in { G::negative(n, p) } else { neutral };
    cases.add(
        line.as_bytes(),
        format!(
            "ok {} {} {} {} {} {} {} {} 1 1 2",
            p_in, q_in, sum.0, sum.1, double.0, double.1, negative.0, negative.1
        ),
    );
}

fn some_modulus(random: &mut Random) -> i128 {
    match random.below(8) {
        0 => 2,
        1 => 3,
        2 => TOP - 1,
        3 => TOP,
        4 => random.between(2, 40),
        _ => random.between(2, TOP),
    }
}

fn unfit_modulus(random: &mut Random) -> i128 {
    let unfit = [0, 1, TOP + 1, WORD - 1, random.between(TOP + 1, WORD - 1)];
    unfit[random.below(5) as usize]
}

/// A line that is not six decimal numbers of at most 32 bits after a known group.
fn unreadable(random: &mut Random) -> Vec<u8> {
    match random.below(9) {
        0 => b"".to_vec(),
        1 => b"1 7 2 0 3".to_vec(),
        2 => b"1 7 2 0 3 0 0".to_vec(),
        3 => b"1 7 2 0 3 4294967296".to_vec(),
        4 => b"1 7 -2 0 3 0".to_vec(),
        5 => b"0 7 2 0 3 0".to_vec(),
        6 => b"4 7 2 0 3 0".to_vec(),
        7 => vec![b'1', b' ', b'7', b' ', 0xff, 0xfe, 0x80, b' ', 0, b'\t'],
        _ => {
            let mut line: Vec<u8> = (0..random.below(60)).map(|_| random.next() as u8).collect();
            line.retain(|byte| *byte != b'\n');
            line.push(b'x');
            line
        }
    }
}

fn cases(random: &mut Random, count: u64) -> (Cases, [Counts; 4]) {
    let mut cases = Cases { input: Vec::new(), expected: Vec::new() };
    let mut counts: [Counts; 4] = Default::default();
    for _ in 0..count {
        let unfit = random.below(20) == 0;
        let n = if unfit { unfit_modulus(random) } else { some_modulus(random) };
        match random.below(16) {
            0..=4 => ask::<Sums>(random, n, &mut cases, &mut counts[0]),
            5..=9 => ask::<Clock>(random, n, &mut cases, &mut counts[1]),
            10..=14 => {
                let n = if unfit || random.below(20) == 0 { n } else { CURVE };
                ask::<Curve>(random, n, &mut cases, &mut counts[2]);
            }
            _ => {
                counts[3].unreadable += 1;
                let line = unreadable(random);
                cases.add(&line, "unreadable".into());
            }
        }
    }
    (cases, counts)
}

fn main() {
    let args: Vec<String> = env::args().collect();
    let [_, program, seed, count] = &args[..] else {
        println!("usage: groups_reference PATH_OF_GROUPCALC SEED COUNT");
        exit(2);
    };
    let mut random = Random(seed.parse().expect("a seed"));
    let count: u64 = count.parse().expect("a count");
    let (cases, counts) = cases(&mut random, count);
    let questions = String::from_utf8_lossy(&cases.input).into_owned();
    let answers = run_program(program, &cases.input);
    let answers = String::from_utf8_lossy(&answers).into_owned();
    let answers: Vec<&str> = answers.lines().collect();
    let mut differences = 0;
    for (place, expected) in cases.expected.iter().enumerate() {
        let answer = answers.get(place).copied().unwrap_or("(no line)");
        if answer != expected {
            differences += 1;
            if differences <= 10 {
                let question = questions.split('\n').nth(place).unwrap_or("");
                println!("line {}: {question}\n  expected {expected}\n  answered {answer}", place + 1);
            }
        }
    }
    if answers.len() != cases.expected.len() {
        println!("{} lines expected, {} answered", cases.expected.len(), answers.len());
        differences += 1;
    }
    for (name, group) in ["sums", "clock", "curve"].iter().zip(&counts) {
        println!("{name}: {} members, {} others, {} refused", group.members, group.others, group.refused);
        if count >= 1000 && (group.members == 0 || group.others == 0 || group.refused == 0) {
            println!("{name}: a kind of question was not asked");
            differences += 1;
        }
    }
    println!(
        "{} lines, {} unreadable, {differences} differences",
        cases.expected.len(),
        counts[3].unreadable
    );
    exit(i32::from(differences != 0));
}
