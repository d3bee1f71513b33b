//! A second, independent reading of what the program `agree` has to answer.
//!
//! It makes random input lines, computes the answer to each in its own arithmetic, runs the program on the lines and
//! compares every line of its output. A multiple is computed by plain doubling and adding along the key's bits, with no
//! windows and no recoding; a tally by going through the list of operations one by one.
//!
//!     agree_reference PATH SEED COUNT     compare the program at PATH on COUNT lines
//!     agree_reference --print SEED COUNT  write the lines that this seed gives
//!     agree_reference --expect FILE       write the answers to the lines of FILE

#[path = "harness.rs"]
mod harness;

use harness::{Source, compare_lines, inverse, lines_of, random_input, run_reference, splitmix};
use std::fmt;
use std::process::exit;

// ---------------------------------------------------------------------------------------------------------------------
// The three groups, on integers.

type Pair = (i128, i128);

const WORD: i128 = 1 << 32;
const TOP: i128 = 1 << 31;
const INFINITY: Pair = (11, 11);

#[derive(Clone, Copy, PartialEq, Eq)]
enum Kind {
    Sums,
    Clock,
    Curve,
}

/// A group by its kind and its modulus, which fits.
#[derive(Clone, Copy)]
struct Group {
    kind: Kind,
    n: i128,
}

impl Group {
    fn fits(kind: Kind, n: i128) -> bool {
        match kind {
            Kind::Sums | Kind::Clock => (2..=TOP).contains(&n),
            Kind::Curve => n == 11,
        }
    }

    /// Whether the two numbers are the code of a member.
    fn member(self, (x, y): Pair) -> bool {
        let n = self.n;
        match self.kind {
            Kind::Sums => x < n && y == 0,
            Kind::Clock => x < n && y < n && (x * x + y * y - 1).rem_euclid(n) == 0,
            Kind::Curve => (x, y) == INFINITY || (x < n && y < n && (y * y - x * x * x - x - 6).rem_euclid(n) == 0),
        }
    }

    fn neutral(self) -> Pair {
        match self.kind {
            Kind::Sums => (0, 0),
            Kind::Clock => (0, 1),
            Kind::Curve => INFINITY,
        }
    }

    fn sum(self, p: Pair, q: Pair) -> Pair {
        let n = self.n;
        match self.kind {
            Kind::Sums => ((p.0 + q.0).rem_euclid(n), 0),
            Kind::Clock => ((p.0 * q.1 + p.1 * q.0).rem_euclid(n), (p.1 * q.1 - p.0 * q.0).rem_euclid(n)),
            Kind::Curve => {
                if p == INFINITY {
                    return q;
                }
                if q == INFINITY {
                    return p;
                }
                if p.0 == q.0 && (p.1 + q.1).rem_euclid(n) == 0 {
                    return INFINITY;
                }
                let (over, under) = if p == q { (3 * p.0 * p.0 + 1, 2 * p.1) } else { (q.1 - p.1, q.0 - p.0) };
                let slope = (0..n).find(|k| (k * under - over).rem_euclid(n) == 0).expect("a slope");
                let x = (slope * slope - p.0 - q.0).rem_euclid(n);
                (x, (slope * (p.0 - x) - p.1).rem_euclid(n))
            }
        }
    }

    /// The key times a member, from the key's highest bit down.
    fn multiple(self, key: &Key, base: Pair) -> Pair {
        let mut result = self.neutral();
        for place in (0..key.bit_length()).rev() {
            result = self.sum(result, result);
            if key.bit(place) {
                result = self.sum(result, base);
            }
        }
        result
    }
}

/// A key as its hexadecimal digits, most significant first.
struct Key(Vec<u8>);

impl Key {
    fn words(&self) -> usize {
        self.0.len().div_ceil(8)
    }

    fn bit(&self, place: usize) -> bool {
        match self.0.len().checked_sub(1 + place / 4) {
            Some(i) => self.0[i] >> (place % 4) & 1 == 1,
            None => false,
        }
    }

    fn bit_length(&self) -> usize {
        (0..4 * self.0.len()).rev().find(|&place| self.bit(place)).map_or(0, |place| place + 1)
    }
}

// ---------------------------------------------------------------------------------------------------------------------
// The two sides: their rules and sizes, what a multiplication costs, when it is refused.

#[derive(Clone, Copy, PartialEq, Eq)]
enum Operation {
    Doubling,
    Addition,
}

#[derive(Clone, Copy, PartialEq, Eq, Debug)]
struct Tally {
    doublings: u64,
    additions: u64,
    trace: u64,
}

impl Tally {
    fn count(&mut self, operation: Operation) {
        self.trace <<= 1;
        match operation {
            Operation::Doubling => self.doublings = self.doublings.wrapping_add(1),
            Operation::Addition => {
                self.additions = self.additions.wrapping_add(1);
                self.trace |= 1;
            }
        }
    }
}

impl fmt::Display for Tally {
    fn fmt(&self, f: &mut fmt::Formatter) -> fmt::Result {
        write!(f, "{} {} {}", self.doublings, self.additions, self.trace)
    }
}

struct Side {
    name: &'static str,
    k: usize,
    b: usize,
    m: usize,
    lo: i64,
    hi: i64,
    /// Whether the draw 0 may be used.
    zero_admitted: bool,
}

/// Rule 1: lo is -2, hi is 2^(k-1) + 1, and every draw is admitted.
const MACHINE: Side = Side { name: "machine", k: 5, b: 12, m: 100, lo: -2, hi: 17, zero_admitted: true };

/// Rule 3: lo is -1, hi is 2^(k-1), and draws above 0 are admitted.
const CHIP: Side = Side { name: "chip", k: 3, b: 6, m: 160, lo: -1, hi: 4, zero_admitted: false };

#[derive(Clone, Copy, PartialEq, Eq, Debug)]
struct Refusal {
    number: usize,
    layer: usize,
    place: usize,
}

impl Side {
    /// The operations of one multiplication, in their order.
    fn operations(&self) -> Vec<Operation> {
        use Operation::{Addition, Doubling};
        let mut list = Vec::new();
        list.extend(vec![Doubling; self.b]);
        for _ in 0..self.b {
            list.extend([Doubling, Addition]);
        }
        list.extend(vec![Addition; self.hi as usize]);
        list.extend(vec![Addition; -self.lo as usize]);
        list.extend(vec![Addition; (1 << (self.k - 1)) - 1]);
        for _ in 0..self.m + self.b / self.k + 1 {
            list.extend(vec![Doubling; self.k]);
            list.push(Addition);
        }
        list.extend([Addition, Doubling, Addition]);
        list
    }

    /// The mark behind the first admitted draw from a mark on.
    fn mark_behind_draw(&self, draws: &[u8], mark: usize) -> Option<usize> {
        let size = self.b.div_ceil(8);
        let mut at = mark;
        while at + size <= draws.len() {
            let number = draws[at..at + size].iter().rev().fold(0u64, |n, &byte| n << 8 | byte as u64);
            at += size;
            if self.zero_admitted || number % (1 << self.b) != 0 {
                return Some(at);
            }
        }
        None
    }

    /// One multiplication: the multiple, and the mark after it.
    fn multiply(
        &self,
        group: Group,
        key: &Key,
        base: Pair,
        draws: &[u8],
        mark: usize,
        tally: &mut Tally,
    ) -> Result<(Pair, usize), Refusal> {
        if key.words() == 0 || key.words() > 16 {
            return Err(Refusal { number: 4, layer: 3, place: key.words() });
        }
        if key.bit_length() > self.m * self.k + self.b {
            return Err(Refusal { number: 5, layer: 3, place: key.bit_length() - 1 });
        }
        if !group.member(base) {
            return Err(Refusal { number: 8, layer: 5, place: 0 });
        }
        let Some(after) = self.mark_behind_draw(draws, mark) else {
            return Err(Refusal { number: 9, layer: 6, place: mark });
        };
        for operation in self.operations() {
            tally.count(operation);
        }
        Ok((group.multiple(key, base), after))
    }
}

// ---------------------------------------------------------------------------------------------------------------------
// Reading a line and answering it.

struct Line {
    kind: Kind,
    modulus: i128,
    base: Pair,
    keys: [Key; 2],
    draws: [Vec<u8>; 2],
}

fn decimal(field: &[u8]) -> Option<i128> {
    if field.is_empty() || !field.iter().all(|byte| byte.is_ascii_digit()) {
        return None;
    }
    let mut n = 0;
    for byte in field {
        n = n * 10 + (byte - b'0') as i128;
        if n >= WORD {
            return None;
        }
    }
    Some(n)
}

fn hex_digits(field: &[u8]) -> Option<Vec<u8>> {
    field.iter().map(|&byte| (byte as char).to_digit(16).map(|digit| digit as u8)).collect()
}

fn draw_bytes(field: &[u8]) -> Option<Vec<u8>> {
    if field == b"-" {
        return Some(Vec::new());
    }
    let digits = hex_digits(field)?;
    (digits.len() % 2 == 0).then(|| digits.chunks(2).map(|pair| pair[0] * 16 + pair[1]).collect())
}

fn read_line(line: &[u8]) -> Option<Line> {
    let fields: Vec<&[u8]> = line.split(|&byte| byte == b' ').collect();
    if fields.len() != 8 || fields.iter().any(|field| field.is_empty()) {
        return None;
    }
    let kind = match decimal(fields[0])? {
        1 => Kind::Sums,
        2 => Kind::Clock,
        3 => Kind::Curve,
        _ => return None,
    };
    Some(Line {
        kind,
        modulus: decimal(fields[1])?,
        base: (decimal(fields[2])?, decimal(fields[3])?),
        keys: [Key(hex_digits(fields[4])?), Key(hex_digits(fields[5])?)],
        draws: [draw_bytes(fields[6])?, draw_bytes(fields[7])?],
    })
}

enum Answer {
    Agreed { agreed: Pair, handed: [Pair; 2], tallies: [Tally; 2] },
    Refused { refusal: Refusal, side: &'static str, round: usize },
    Unreadable,
}

impl fmt::Display for Answer {
    fn fmt(&self, f: &mut fmt::Formatter) -> fmt::Result {
        match self {
            Answer::Agreed { agreed, handed, tallies } => {
                write!(f, "agreed {} {}", agreed.0, agreed.1)?;
                for (i, side) in [MACHINE, CHIP].iter().enumerate() {
                    let (x, y) = handed[i];
                    write!(f, " {} {x} {y} tally {} plain {}", side.name, tallies[i], tallies[i])?;
                }
                Ok(())
            }
            Answer::Refused { refusal: Refusal { number, layer, place }, side, .. } => {
                write!(f, "no {number} {layer} {place} {side}")
            }
            Answer::Unreadable => write!(f, "unreadable"),
        }
    }
}

/// Both results, or the refusal of the first side that was refused.
fn both(
    results: [Result<(Pair, usize), Refusal>; 2],
    round: usize,
) -> Result<[(Pair, usize); 2], Answer> {
    match results {
        [Err(refusal), _] => Err(Answer::Refused { refusal, side: MACHINE.name, round }),
        [_, Err(refusal)] => Err(Answer::Refused { refusal, side: CHIP.name, round }),
        [Ok(one), Ok(two)] => Ok([one, two]),
    }
}

fn exchange(line: &Line) -> Result<Answer, Answer> {
    if !Group::fits(line.kind, line.modulus) {
        let refusal = Refusal { number: 12, layer: 5, place: 0 };
        return Err(Answer::Refused { refusal, side: MACHINE.name, round: 0 });
    }
    let group = Group { kind: line.kind, n: line.modulus };
    let [key1, key2] = &line.keys;
    let [draws1, draws2] = &line.draws;
    let mut tallies = [Tally { doublings: 0, additions: 0, trace: 0 }; 2];
    let first = [
        MACHINE.multiply(group, key1, line.base, draws1, 0, &mut tallies[0]),
        CHIP.multiply(group, key2, line.base, draws2, 0, &mut tallies[1]),
    ];
    let [(one, mark1), (two, mark2)] = both(first, 1)?;
    let second = [
        MACHINE.multiply(group, key1, two, draws1, mark1, &mut tallies[0]),
        CHIP.multiply(group, key2, one, draws2, mark2, &mut tallies[1]),
    ];
    let [(by_machine, _), (by_chip, _)] = both(second, 2)?;
    assert_eq!(by_machine, by_chip, "the groups of the reference do not agree");
    Ok(Answer::Agreed { agreed: by_machine, handed: [one, two], tallies })
}

fn answer(line: &[u8]) -> Answer {
    match read_line(line) {
        None => Answer::Unreadable,
        Some(fields) => exchange(&fields).unwrap_or_else(|refused| refused),
    }
}

/// How many lines had which answer.
#[derive(Default)]
struct Counts {
    agreed: usize,
    refused: usize,
    unreadable: usize,
    /// Refusals by side, round and number.
    kinds: std::collections::BTreeMap<(&'static str, usize, usize), usize>,
}

impl Counts {
    fn count(&mut self, answer: &Answer) {
        match answer {
            Answer::Agreed { .. } => self.agreed += 1,
            Answer::Refused { refusal, side, round } => {
                self.refused += 1;
                *self.kinds.entry((side, *round, refusal.number)).or_default() += 1;
            }
            Answer::Unreadable => self.unreadable += 1,
        }
    }

    fn merge(&mut self, other: Counts) {
        self.agreed += other.agreed;
        self.refused += other.refused;
        self.unreadable += other.unreadable;
        for (kind, count) in other.kinds {
            *self.kinds.entry(kind).or_default() += count;
        }
    }

    fn last_line(&self) -> String {
        format!("{} exchanges agreed, {} refused, {} unreadable", self.agreed, self.refused, self.unreadable)
    }
}

/// The lines that the program must write for an input, with the last one.
fn expected(input: &[u8]) -> (Vec<String>, Counts) {
    let mut counts = Counts::default();
    let mut out = Vec::new();
    for line in lines_of(input) {
        let answer = answer(line);
        counts.count(&answer);
        out.push(answer.to_string());
    }
    out.push(counts.last_line());
    (out, counts)
}

// ---------------------------------------------------------------------------------------------------------------------
// Random lines.

struct Random(u64);

impl Source for Random {
    fn next(&mut self) -> u64 {
        splitmix(&mut self.0)
    }
}

impl Random {
    fn below(&mut self, n: i128) -> i128 {
        self.next() as i128 % n
    }

    fn between(&mut self, low: i128, high: i128) -> i128 {
        low + self.below(high - low + 1)
    }

    fn chance(&mut self, percent: i128) -> bool {
        self.below(100) < percent
    }

    fn pick<T: Clone>(&mut self, items: &[T]) -> T {
        items[self.below(items.len() as i128) as usize].clone()
    }
}

fn random_modulus(random: &mut Random, kind: Kind) -> i128 {
    if random.chance(4) {
        let some = random.between(TOP + 1, WORD - 1);
        return random.pick(&[0, 1, 10, 12, TOP + 1, WORD - 1, some]);
    }
    if kind == Kind::Curve {
        return 11;
    }
    match random.below(8) {
        0 => 2,
        1 => 3,
        2 => TOP - 1,
        3 => TOP,
        4 => random.between(2, 40),
        _ => random.between(2, TOP),
    }
}

fn random_member(random: &mut Random, group: Group) -> Pair {
    let n = group.n;
    match group.kind {
        Kind::Sums => {
            let some = random.below(n);
            (random.pick(&[0, 1, n / 2, n - 1, some, some, some]), 0)
        }
        Kind::Clock => {
            // by the slope t of a chord through (0, -1), turned by a quarter now and then
            for _ in 0..20 {
                let t = random.below(n);
                if let Some(w) = inverse(n, 1 + t * t) {
                    let p = ((2 * t * w).rem_euclid(n), ((1 - t * t) * w).rem_euclid(n));
                    return group.sum(p, random.pick(&[(0, 1), (1, 0), (0, n - 1), (n - 1, 0)]));
                }
            }
            (0, 1)
        }
        Kind::Curve => loop {
            let p = (random.below(n + 1), random.below(n + 1));
            if group.member(p) {
                return p;
            }
        },
    }
}

/// A pair that is mostly near a member and none itself.
fn random_other(random: &mut Random, group: Group) -> Pair {
    let n = group.n;
    let (x, y) = random_member(random, group);
    let (u, v) = (random.below(WORD), random.below(WORD));
    let (r, s) = (random.below(n), random.below(n));
    let near = [(x + n, y), (x, y + n), (x, y + 1), (y, x + 1), (n, y), (x, n), (r, s), (u, v), (WORD - 1, 0), (x, 11)];
    let (x, y) = random.pick(&near);
    (x.min(WORD - 1), y.min(WORD - 1))
}

fn random_base(random: &mut Random, kind: Kind, modulus: i128) -> Pair {
    if !Group::fits(kind, modulus) {
        return (random.below(WORD), random.below(WORD));
    }
    let group = Group { kind, n: modulus };
    if random.chance(8) {
        random_other(random, group)
    } else {
        random_member(random, group)
    }
}

/// So many random bits as hexadecimal digits, with the highest bit set.
fn random_digits(random: &mut Random, bits: usize) -> Vec<u8> {
    let count = bits.div_ceil(4).max(1);
    let mut digits: Vec<u8> = (0..count).map(|_| random.below(16) as u8).collect();
    if bits > 0 {
        let top = (bits - 1) % 4;
        digits[0] = digits[0] % (1 << top) + (1 << top);
    } else {
        digits[0] = 0;
    }
    digits
}

/// A key for sizes that allow u bits: mostly below 2^u, often at an edge, now and then of 17 words.
fn random_key(random: &mut Random, u: usize) -> Vec<u8> {
    let mut digits = match random.below(20) {
        0 => vec![0],
        1 => vec![1],
        2 => vec![2 + random.below(14) as u8],
        3 => random_digits(random, 32),
        4 => random_digits(random, 33),
        5 => {
            let mut digits = vec![15; u / 4];
            if u % 4 > 0 {
                digits.insert(0, (1 << (u % 4)) - 1);
            }
            digits
        }
        6 => random_digits(random, u),
        7 => {
            let mut digits = vec![0; u / 4 + 1];
            digits[0] = 1 << (u % 4);
            digits
        }
        8 => random_digits(random, 512),
        9 => {
            let bits = random.between(481, 512) as usize;
            random_digits(random, bits)
        }
        10 if random.chance(50) => {
            let bits = random.between(513, 560) as usize;
            random_digits(random, bits)
        }
        _ => {
            let bits = random.between(1, u as i128) as usize;
            random_digits(random, bits)
        }
    };
    let zeros = match random.below(40) {
        0 | 1 => random.below(20) as usize,
        2 => 128usize.saturating_sub(digits.len()),
        3 => 129usize.saturating_sub(digits.len()),
        _ => 0,
    };
    digits.splice(0..0, vec![0; zeros]);
    digits
}

/// Draw bytes for two multiplications, with draws that are skipped, and now and then too few of them.
fn random_draws(random: &mut Random, side: &Side) -> Vec<u8> {
    let size = side.b.div_ceil(8);
    let mut bytes = Vec::new();
    for _ in 0..2 {
        if random.chance(25) {
            for _ in 0..random.between(1, 3) {
                // low b bits of zero, any bits above them
                let number = (random.below(1 << (8 * size - side.b)) as u64) << side.b;
                bytes.extend(&number.to_le_bytes()[..size]);
            }
        }
        let number = random.next();
        bytes.extend(&number.to_le_bytes()[..size]);
    }
    match random.below(24) {
        0 => bytes.truncate(random.below(bytes.len() as i128) as usize),
        1 => bytes.truncate(size - 1),
        2 => bytes.truncate(bytes.len() - 1),
        3 => bytes.truncate(size),
        4 => bytes.extend((0..random.below(9)).map(|_| random.next() as u8).collect::<Vec<u8>>()),
        _ => {}
    }
    bytes
}

fn random_case(random: &mut Random, digits: impl Iterator<Item = u8>) -> Vec<u8> {
    let way = random.below(3);
    digits
        .map(|digit| {
            let low = char::from_digit(digit as u32, 16).unwrap() as u8;
            if way == 1 || way == 2 && random.chance(50) { low.to_ascii_uppercase() } else { low }
        })
        .collect()
}

fn draws_text(random: &mut Random, bytes: &[u8]) -> Vec<u8> {
    if bytes.is_empty() {
        return b"-".to_vec();
    }
    random_case(random, bytes.iter().flat_map(|byte| [byte >> 4, byte & 15]))
}

/// A line before it is written out, each field as its text.
struct Draft([Vec<u8>; 8]);

impl Draft {
    fn text(&self) -> Vec<u8> {
        self.0.join(&b' ')
    }
}

fn random_draft(random: &mut Random) -> Draft {
    let (number, kind) = random.pick(&[(1, Kind::Sums), (2, Kind::Clock), (3, Kind::Curve)]);
    let modulus = random_modulus(random, kind);
    let base = random_base(random, kind, modulus);
    let text = |n: i128| n.to_string().into_bytes();
    let key = |random: &mut Random, side: &Side| {
        let digits = random_key(random, side.m * side.k + side.b);
        random_case(random, digits.into_iter())
    };
    let draws = |random: &mut Random, side: &Side| {
        let bytes = random_draws(random, side);
        draws_text(random, &bytes)
    };
    let mut fields = [
        text(number),
        text(modulus),
        text(base.0),
        text(base.1),
        key(random, &MACHINE),
        key(random, &CHIP),
        draws(random, &MACHINE),
        draws(random, &CHIP),
    ];
    if random.chance(5) {
        fields[random.below(4) as usize].splice(0..0, b"000".iter().copied());
    }
    Draft(fields)
}

/// Turns a line into one that is mostly unreadable.
fn spoil(random: &mut Random, mut draft: Draft) -> Vec<u8> {
    let place = random.below(8) as usize;
    let number = random.below(4) as usize;
    let key = random.between(4, 5) as usize;
    let draws = random.between(6, 7) as usize;
    match random.below(20) {
        0 => {
            let mut fields = draft.0.to_vec();
            fields.remove(place);
            return fields.join(&b' ');
        }
        1 => return [draft.text(), random.pick(&[&b" 0"[..], b" x", b" -", b" ff"]).to_vec()].concat(),
        2 => draft.0[place].insert(0, b' '),
        3 => draft.0[place].push(b' '),
        4 => return [b" ".to_vec(), draft.text()].concat(),
        5 => draft.0[key].push(random.pick(b"gGxz@`/:-+.,")),
        6 => draft.0[draws].push(random.pick(b"0123456789abcdefABCDEF")),
        7 => draft.0[draws] = random.pick(&[&b"--"[..], b"-00", b"00-", b"0", b"0x", b"zz", b"2g", b"g2"]).to_vec(),
        8 => return Vec::new(),
        9 => draft.0[place].push(random.between(128, 255) as u8),
        10 => {
            let long = ["4294967296", "4294967297", "18446744073709551617", "18446744073709551627", "99999999999"];
            draft.0[number] = random.pick(&long).as_bytes().to_vec();
        }
        11 => draft.0[0] = random.pick(&[&b"0"[..], b"4", b"00", b"5", b"33", b"4294967295"]).to_vec(),
        12 => draft.0[number] = random.pick(&[&b"+2"[..], b"-2", b"2.", b"0x2", b"2a", b"a"]).to_vec(),
        13 => draft.0[place] = Vec::new(),
        14 => draft.0[place].push(random.pick(&[0u8, 9, 11, 12, 13, 31, 127])),
        15 => return draft.text().iter().map(|&byte| if byte == b' ' { b'\t' } else { byte }).collect(),
        16 => return vec![b' '; random.between(1, 9) as usize],
        17 => draft.0[key] = random.pick(&[&b"-"[..], b"0x1f", b"-1", b"1_0", b"fg"]).to_vec(),
        18 => draft.0.swap(number, draws),
        _ => {
            let length = random.below(60);
            return (0..length).map(|_| random.next() as u8).filter(|&byte| byte != b'\n').collect();
        }
    }
    draft.text()
}

fn random_line(random: &mut Random) -> Vec<u8> {
    let draft = random_draft(random);
    if random.chance(12) {
        spoil(random, draft)
    } else {
        draft.text()
    }
}

// ---------------------------------------------------------------------------------------------------------------------
// Running and comparing.

/// Compares one input's output.
fn compare(path: &str, input: &[u8]) -> Counts {
    let (wanted, counts) = expected(input);
    compare_lines(path, input, &wanted);
    counts
}

/// What the reference itself has to give: multiples and counts that are known otherwise.
fn examine_self() {
    let curve = Group { kind: Kind::Curve, n: 11 };
    let clock = Group { kind: Kind::Clock, n: 7 };
    let sums = Group { kind: Kind::Sums, n: 1000 };
    let key = || Key(vec![6, 4, 7, 13]);
    assert_eq!(curve.multiple(&Key(vec![3]), (2, 7)), (8, 3));
    assert_eq!(curve.multiple(&key(), (2, 7)), (5, 9));
    assert_eq!(clock.multiple(&key(), (2, 2)), (5, 5));
    assert_eq!(sums.multiple(&key(), (1, 0)), (725, 0));
    for side in [MACHINE, CHIP] {
        let list = side.operations();
        let doublings = list.iter().filter(|&&operation| operation == Operation::Doubling).count();
        let windows = side.m + side.b / side.k + 1;
        assert_eq!(doublings, 2 * side.b + side.k * windows + 1);
        let additions = side.b + (side.hi - side.lo) as usize + (1 << (side.k - 1)) + windows + 1;
        assert_eq!(list.len() - doublings, additions);
    }
    let runs = [
        ("1 1000 1 1 647d 647d 0000 0101", "no 8 5 0 machine"),
        ("1 1000 1 0 647d 647d 00000000 010001", "agreed 625 0 "),
        ("1 1000 1 0 647d 647d 0000 0101", "no 9 6 2 machine"),
        ("1 1000 1 0 647d 647d 00000000 0001", "no 9 6 2 chip"),
        ("1 1000 1 0 647d 647d 0000 00", "no 9 6 0 chip"),
        ("3 12 2 7 1 1 00000000 0101", "no 12 5 0 machine"),
        ("4 11 2 7 1 1 00000000 0101", "unreadable"),
    ];
    for (line, wanted) in runs {
        let found = answer(line.as_bytes()).to_string();
        assert!(found.starts_with(wanted), "{line}: {found}");
    }
}

/// How many lines one run of the program is given.
const BATCH: usize = 1000;

/// Refusals that a comparison of many lines has to have met, by side, round and number.
const WANTED: [(&str, usize, usize); 9] = [
    ("machine", 0, 12),
    ("machine", 1, 4),
    ("machine", 1, 8),
    ("machine", 1, 9),
    ("machine", 2, 9),
    ("chip", 1, 4),
    ("chip", 1, 5),
    ("chip", 1, 9),
    ("chip", 2, 9),
];

fn compare_all(path: &str, seed: u64, count: usize) {
    let mut random = Random(seed);
    let mut all = Counts::default();
    for input in [&b""[..], b"\n", b"\r", b"\r\n", b"\n\n", b"3 11 2 7 3 5 00000000 0101", b"3 11 2 7 3 5 - -\r"] {
        compare(path, input);
    }
    let mut left = count;
    while left > 0 {
        let batch = left.min(BATCH);
        let input = random_input(&mut random, batch, random_line);
        all.merge(compare(path, &input));
        left -= batch;
    }
    let kinds: Vec<String> =
        all.kinds.iter().map(|((side, round, number), n)| format!("{side} round {round} by {number}: {n}")).collect();
    println!("{count} lines compared: {} ({})", all.last_line(), kinds.join(", "));
    if count >= 5000 {
        for wanted in WANTED {
            if !all.kinds.contains_key(&wanted) {
                println!("no line was refused by {} on the {} in round {}", wanted.2, wanted.0, wanted.1);
                exit(1);
            }
        }
    }
}

fn main() {
    examine_self();
    run_reference(
        "agree_reference",
        compare_all,
        |seed, count| random_input(&mut Random(seed), count, random_line),
        |input| expected(input).0,
    );
}
