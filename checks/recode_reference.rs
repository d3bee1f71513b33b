//! A second, independent reading of the definitions behind the program `recode`.
//!
//! It makes random input lines, computes the answer to each from the definitions with its own big numbers, runs the
//! program on the lines and compares every line of its output.
//!
//!     recode_reference PATH SEED COUNT     compare the program at PATH on COUNT lines
//!     recode_reference --print SEED COUNT  write the lines that this seed gives
//!     recode_reference --expect FILE       write the answers to the lines of FILE

#[path = "harness.rs"]
mod harness;

use harness::{Source, compare_lines, lines_of, random_input, run_reference, splitmix};
use std::fmt;

// ---------------------------------------------------------------------------------------------------------------------
// Big numbers: 32-bit limbs, lowest first, with no zero limb at the top.

#[derive(Clone, Debug, PartialEq, Eq)]
struct Big(Vec<u32>);

impl Big {
    fn zero() -> Big {
        Big(Vec::new())
    }

    fn trimmed(mut limbs: Vec<u32>) -> Big {
        while limbs.last() == Some(&0) {
            limbs.pop();
        }
        Big(limbs)
    }

    fn power_of_two(exponent: usize) -> Big {
        let mut limbs = vec![0; exponent / 32 + 1];
        limbs[exponent / 32] = 1 << (exponent % 32);
        Big(limbs)
    }

    /// The number that hexadecimal digit values spell, most significant first.
    fn from_digits(digits: &[u8]) -> Big {
        let mut n = Big::zero();
        for &digit in digits {
            n = n.times_sixteen_plus(digit as u32);
        }
        n
    }

    fn times_sixteen_plus(&self, digit: u32) -> Big {
        let mut carry = digit as u64;
        let mut limbs = Vec::new();
        for &limb in &self.0 {
            let wide = limb as u64 * 16 + carry;
            limbs.push(wide as u32);
            carry = wide >> 32;
        }
        limbs.push(carry as u32);
        Big::trimmed(limbs)
    }

    fn bit(&self, place: usize) -> u32 {
        self.0.get(place / 32).map_or(0, |limb| limb >> (place % 32) & 1)
    }

    fn bit_length(&self) -> usize {
        match self.0.last() {
            None => 0,
            Some(top) => self.0.len() * 32 - top.leading_zeros() as usize,
        }
    }

    /// The number divided by 2^places, rounded down.
    fn shifted_down(&self, places: usize) -> Big {
        let mut limbs = vec![0u32; self.0.len()];
        for place in places..self.bit_length() {
            let to = place - places;
            limbs[to / 32] |= self.bit(place) << (to % 32);
        }
        Big::trimmed(limbs)
    }

    /// The number times 2^places.
    fn shifted_up(&self, places: usize) -> Big {
        let mut limbs = vec![0u32; self.0.len() + places / 32 + 1];
        for place in 0..self.bit_length() {
            let to = place + places;
            limbs[to / 32] |= self.bit(place) << (to % 32);
        }
        Big::trimmed(limbs)
    }

    fn plus(&self, other: &Big) -> Big {
        let mut limbs = Vec::new();
        let mut carry = 0u64;
        for i in 0..self.0.len().max(other.0.len()) + 1 {
            let a = *self.0.get(i).unwrap_or(&0) as u64;
            let b = *other.0.get(i).unwrap_or(&0) as u64;
            let wide = a + b + carry;
            limbs.push(wide as u32);
            carry = wide >> 32;
        }
        Big::trimmed(limbs)
    }

    fn minus_one(&self) -> Big {
        let mut limbs = self.0.clone();
        for limb in limbs.iter_mut() {
            let (less, borrowed) = limb.overflowing_sub(1);
            *limb = less;
            if !borrowed {
                break;
            }
        }
        Big::trimmed(limbs)
    }

    fn small(n: u128) -> Big {
        Big::trimmed((0..4).map(|i| (n >> (32 * i)) as u32).collect())
    }

    /// The number as a machine word; it must fit.
    fn as_i128(&self) -> i128 {
        assert!(self.bit_length() < 127);
        self.0.iter().rev().fold(0, |n, &limb| n << 32 | limb as i128)
    }

    fn hex(&self) -> String {
        let mut text = String::new();
        for place in (0..self.bit_length().div_ceil(4).max(1)).rev() {
            let digit = self.shifted_down(4 * place).0.first().map_or(0, |limb| limb & 15);
            text.push(char::from_digit(digit, 16).unwrap());
        }
        text
    }
}

/// A sum of signed terms, kept as what was added and what was taken away.
struct SignedSum {
    added: Big,
    taken: Big,
}

impl SignedSum {
    fn new() -> SignedSum {
        SignedSum { added: Big::zero(), taken: Big::zero() }
    }

    /// Adds term · 2^places.
    fn add(&mut self, term: i128, places: usize) {
        let size = Big::small(term.unsigned_abs()).shifted_up(places);
        if term < 0 {
            self.taken = self.taken.plus(&size);
        } else {
            self.added = self.added.plus(&size);
        }
    }

    fn equals(&self, n: &Big) -> bool {
        self.added == n.plus(&self.taken)
    }
}

// ---------------------------------------------------------------------------------------------------------------------
// Reading a line.

struct Line {
    rule: u32,
    k: u32,
    b: u32,
    m: u32,
    key_digits: Vec<u8>,
    draws: Vec<u8>,
}

fn decimal(field: &[u8]) -> Option<u32> {
    if field.is_empty() || !field.iter().all(|byte| byte.is_ascii_digit()) {
        return None;
    }
    let mut n = 0u64;
    for byte in field {
        n = n * 10 + (byte - b'0') as u64;
        if n >= 1 << 32 {
            return None;
        }
    }
    Some(n as u32)
}

fn hex_digits(field: &[u8]) -> Option<Vec<u8>> {
    field.iter().map(|&byte| (byte as char).to_digit(16).map(|digit| digit as u8)).collect()
}

fn read_line(line: &[u8]) -> Option<Line> {
    let fields: Vec<&[u8]> = line.split(|&byte| byte == b' ').collect();
    if fields.len() != 6 || fields.iter().any(|field| field.is_empty()) {
        return None;
    }
    let rule = decimal(fields[0])?;
    let (k, b, m) = (decimal(fields[1])?, decimal(fields[2])?, decimal(fields[3])?);
    if !(1..=3).contains(&rule) {
        return None;
    }
    let key_digits = hex_digits(fields[4])?;
    let draws = if fields[5] == b"-" {
        Vec::new()
    } else {
        let digits = hex_digits(fields[5])?;
        if digits.len() % 2 != 0 {
            return None;
        }
        digits.chunks(2).map(|pair| pair[0] * 16 + pair[1]).collect()
    };
    Some(Line { rule, k, b, m, key_digits, draws })
}

// ---------------------------------------------------------------------------------------------------------------------
// The definitions: sizes, draw, recoding, check.

#[derive(Clone, Copy)]
struct Sizes {
    k: usize,
    b: usize,
    m: usize,
}

impl Sizes {
    fn key_bits(&self) -> usize {
        self.m * self.k + self.b
    }
}

struct Refusal {
    number: u32,
    layer: u32,
    place: usize,
}

fn sizes_of(line: &Line) -> Result<Sizes, Refusal> {
    let refuse = |number| Err(Refusal { number, layer: 2, place: 0 });
    if line.k < 2 || line.k > 6 {
        return refuse(1);
    }
    if line.b < 1 || line.b > 30 {
        return refuse(2);
    }
    let bits = line.m as u64 * line.k as u64 + line.b as u64;
    if line.m < 1 || line.m > 255 || bits > 512 {
        return refuse(3);
    }
    Ok(Sizes { k: line.k as usize, b: line.b as usize, m: line.m as usize })
}

/// The first admitted draw of the bytes.
fn draw_of(rule: u32, b: usize, bytes: &[u8]) -> Result<i128, Refusal> {
    for part in bytes.chunks_exact(b.div_ceil(8)) {
        let whole = part.iter().rev().fold(0i128, |n, &byte| n << 8 | byte as i128);
        let s = whole % (1 << b);
        if rule != 3 || s > 0 {
            return Ok(s);
        }
    }
    Err(Refusal { number: 9, layer: 6, place: 0 })
}

fn key_of(digits: &[u8], sizes: Sizes) -> Result<Big, Refusal> {
    let words = digits.len().div_ceil(8);
    if words == 0 || words > 16 {
        return Err(Refusal { number: 4, layer: 3, place: words });
    }
    let key = Big::from_digits(digits);
    if key.bit_length() > sizes.key_bits() {
        return Err(Refusal { number: 5, layer: 3, place: key.bit_length() - 1 });
    }
    Ok(key)
}

/// The sign and the carry that a rule answers.
fn sign_and_carry(rule: u32, h: i128, s: i128, half: i128) -> (i128, i128) {
    let j = if rule == 1 { h - s } else { h };
    if j <= -half {
        (1, -1)
    } else if j < 0 {
        (-1, 0)
    } else if j < half {
        (1, 0)
    } else {
        (-1, 1)
    }
}

struct Coding {
    windows: Vec<i128>,
    signs: Vec<i128>,
    correction: i128,
}

/// The five steps, from the highest window down.
fn recode(rule: u32, sizes: Sizes, e: &Big, s: i128) -> Coding {
    let Sizes { k, b, m } = sizes;
    let (unit, span, half) = (1i128 << b, 1i128 << (k + b), 1i128 << (k + b - 1));
    let mut coding = Coding { windows: vec![0; m], signs: vec![0; m], correction: 0 };
    let mut h = e.shifted_down(k * (m - 1)).as_i128();
    for i in (0..m).rev() {
        let (g, t) = sign_and_carry(rule, h, s, half);
        let r = h - g * s - t * span;
        let magnitude = r.abs() / unit;
        let w = if r < 0 { -magnitude } else { magnitude };
        let rest = r - unit * w;
        coding.windows[i] = w;
        coding.signs[i] = g;
        if i + 1 < m {
            coding.windows[i + 1] += t;
        } else {
            assert_eq!(t, 0, "a carry out of the highest window");
        }
        if i > 0 {
            let bits = (0..k).rev().fold(0, |n, place| 2 * n + e.bit(k * (i - 1) + place) as i128);
            h = rest * (1 << k) + bits;
        } else {
            coding.correction = rest;
        }
    }
    coding
}

fn limits(rule: u32, k: usize) -> (i128, i128) {
    let most = 1i128 << (k - 1);
    match rule {
        1 => (-2, most + 1),
        2 => (-1, most + 1),
        _ => (-1, most),
    }
}

/// The equation, by one sum of big numbers, and every limit.
fn accepts(rule: u32, sizes: Sizes, e: &Big, s: i128, coding: &Coding) -> bool {
    let Sizes { k, b, m } = sizes;
    let unit = 1i128 << b;
    let (lo, hi) = limits(rule, k);
    let mut sum = SignedSum::new();
    sum.add(coding.correction, 0);
    let mut within = coding.correction.abs() < unit && s >= 0 && s < unit && (rule != 3 || s > 0);
    for i in 0..m {
        let (w, g) = (coding.windows[i], coding.signs[i]);
        sum.add(w, k * i + b);
        sum.add(g * s, k * i);
        within = within && g * w >= lo && g * w <= hi;
    }
    within && sum.equals(e)
}

enum Answer {
    Coded { s: i128, c: i128, words: Vec<i128> },
    Refused(Refusal),
    Unreadable,
}

impl fmt::Display for Answer {
    fn fmt(&self, f: &mut fmt::Formatter) -> fmt::Result {
        match self {
            Answer::Coded { s, c, words } => {
                write!(f, "ok {s} {c}")?;
                for word in words {
                    write!(f, " {word}")?;
                }
                write!(f, " yes")
            }
            Answer::Refused(refusal) => write!(f, "no {} {} {}", refusal.number, refusal.layer, refusal.place),
            Answer::Unreadable => write!(f, "unreadable"),
        }
    }
}

fn recode_line(line: &Line) -> Result<Answer, Refusal> {
    let sizes = sizes_of(line)?;
    let s = draw_of(line.rule, sizes.b, &line.draws)?;
    let key = key_of(&line.key_digits, sizes)?;
    let e = key.shifted_down(1);
    let coding = recode(line.rule, sizes, &e, s);
    assert!(accepts(line.rule, sizes, &e, s, &coding), "the definitions break their own equation or limits");
    let words = coding.windows.iter().zip(&coding.signs).map(|(w, g)| 2 * w + if *g < 0 { 1 } else { 0 }).collect();
    Ok(Answer::Coded { s, c: coding.correction, words })
}

fn answer(line: &[u8]) -> Answer {
    match read_line(line) {
        None => Answer::Unreadable,
        Some(fields) => recode_line(&fields).unwrap_or_else(Answer::Refused),
    }
}

/// How many lines had which answer.
#[derive(Default)]
struct Counts {
    accepted: usize,
    by_number: [usize; 11],
    unreadable: usize,
}

impl Counts {
    fn count(&mut self, answer: &Answer) {
        match answer {
            Answer::Coded { .. } => self.accepted += 1,
            Answer::Refused(refusal) => self.by_number[refusal.number as usize] += 1,
            Answer::Unreadable => self.unreadable += 1,
        }
    }

    fn refused(&self) -> usize {
        self.by_number.iter().sum()
    }

    fn merge(&mut self, other: &Counts) {
        self.accepted += other.accepted;
        self.unreadable += other.unreadable;
        for (mine, more) in self.by_number.iter_mut().zip(other.by_number) {
            *mine += more;
        }
    }

    fn last_line(&self) -> String {
        let Counts { accepted, unreadable, .. } = self;
        format!("{accepted} keys recoded and checked, {} refused, {unreadable} unreadable", self.refused())
    }
}

/// The lines that the program must write for an input, with the last one.
fn expected(input: &[u8]) -> (Vec<String>, Counts) {
    let mut counts = Counts::default();
    let mut out = Vec::new();
    for line in lines_of(input) {
        let answer = answer(line);
        counts.count(&answer);
        out.push(answer.to_string());
    }
    out.push(counts.last_line());
    (out, counts)
}

// ---------------------------------------------------------------------------------------------------------------------
// Random lines.

struct Random(u64);

impl Source for Random {
    fn next(&mut self) -> u64 {
        splitmix(&mut self.0)
    }
}

impl Random {
    fn below(&mut self, n: u64) -> u64 {
        self.next() % n
    }

    fn between(&mut self, low: u64, high: u64) -> u64 {
        low + self.below(high - low + 1)
    }

    fn chance(&mut self, percent: u64) -> bool {
        self.below(100) < percent
    }

    fn pick<'a, T>(&mut self, items: &'a [T]) -> &'a T {
        &items[self.below(items.len() as u64) as usize]
    }

    fn bits(&mut self, count: usize) -> Big {
        Big::trimmed((0..count.div_ceil(32)).map(|_| self.next() as u32).collect())
            .shifted_down((32 - count % 32) % 32)
    }
}

/// A line before it is written out, each field as its text.
struct Draft([Vec<u8>; 6]);

impl Draft {
    fn text(&self) -> Vec<u8> {
        self.0.join(&b' ')
    }
}

fn random_sizes(random: &mut Random) -> Sizes {
    let k = random.between(2, 6) as usize;
    let b = if random.chance(20) { *random.pick(&[1, 8, 16, 24, 30]) } else { random.between(1, 30) as usize };
    let most = ((512 - b) / k).min(255);
    let m = if random.chance(15) { most } else if random.chance(15) { 1 } else { random.between(1, most as u64) as usize };
    Sizes { k, b, m }
}

/// A key that is mostly below 2^u, often at an edge or of a plain pattern.
fn random_key(random: &mut Random, u: usize) -> Big {
    let top = Big::power_of_two(u);
    match random.below(20) {
        0 => Big::zero(),
        1 => Big::small(1),
        2 => top.minus_one(),
        3 => top,
        4 => top.plus(&random.bits(u)),
        5 => Big::power_of_two(u - 1),
        6 => Big::power_of_two(random.between(0, 512) as usize),
        7 => Big::power_of_two(random.between(0, u as u64) as usize).minus_one(),
        8 => random.bits(512),
        9 => random.bits(540),
        10 => {
            let word = random.next() as u32;
            Big::trimmed(vec![word; u.div_ceil(32)]).shifted_down((32 - u % 32) % 32)
        }
        11 => {
            let pattern = *random.pick(&[0x5555_5555, 0xaaaa_aaaa, 0xffff_0000, 0x0f0f_0f0f, 0x8000_0000]);
            Big::trimmed(vec![pattern; u.div_ceil(32)]).shifted_down((32 - u % 32) % 32)
        }
        12 => {
            let bits = random.between(1, u as u64) as usize;
            random.bits(bits)
        }
        _ => random.bits(u),
    }
}

fn with_leading_zeros(random: &mut Random, hex: String) -> String {
    let zeros = match random.below(10) {
        0 => random.below(9) as usize,
        1 => 128usize.saturating_sub(hex.len()),
        2 => 129usize.saturating_sub(hex.len()),
        3 => random.below(200) as usize,
        _ => 0,
    };
    "0".repeat(zeros) + &hex
}

fn random_case(random: &mut Random, hex: String) -> Vec<u8> {
    match random.below(3) {
        0 => hex.into_bytes(),
        1 => hex.to_uppercase().into_bytes(),
        _ => hex.bytes().map(|byte| if random.chance(50) { byte.to_ascii_uppercase() } else { byte }).collect(),
    }
}

/// Draw bytes: now and then edge draws, draws that rule 3 skips, too few bytes, none.
fn random_draws(random: &mut Random, b: usize) -> Vec<u8> {
    let width = b.div_ceil(8);
    let unit = 1u64 << b;
    let over = |random: &mut Random, s: u64| s + unit * random.below((1u64 << (8 * width)) / unit);
    let mut draws = Vec::new();
    let skips = if random.chance(20) { random.between(1, 4) } else { 0 };
    for _ in 0..skips {
        draws.push(over(random, 0));
    }
    let s = match random.below(10) {
        0 => 0,
        1 => 1,
        2 => unit - 1,
        3 => unit / 2,
        _ => random.below(unit),
    };
    draws.push(over(random, s));
    let mut bytes: Vec<u8> =
        draws.iter().flat_map(|draw| draw.to_le_bytes().into_iter().take(width)).collect();
    match random.below(20) {
        0 => bytes.truncate(random.below(bytes.len() as u64) as usize),
        1 => bytes.truncate(width - 1),
        2 => bytes.extend((0..random.below(9)).map(|_| random.next() as u8).collect::<Vec<u8>>()),
        _ => {}
    }
    bytes
}

fn draws_text(random: &mut Random, bytes: &[u8]) -> Vec<u8> {
    if bytes.is_empty() {
        return b"-".to_vec();
    }
    let hex = bytes.iter().map(|byte| format!("{byte:02x}")).collect();
    random_case(random, hex)
}

/// A number outside what a size may be, but mostly readable.
fn odd_number(random: &mut Random) -> Vec<u8> {
    let numbers = [
        "0", "1", "7", "31", "32", "100", "255", "256", "257", "511", "512", "513", "65536", "65538", "858993460",
        "1073741827", "2147483648", "4294967295", "00000000000000000003", "0000000004294967295",
    ];
    if random.chance(70) {
        random.pick(&numbers).as_bytes().to_vec()
    } else {
        (random.next() as u32).to_string().into_bytes()
    }
}

/// A line of readable fields: mostly within the limits, or with sizes outside them.
fn random_draft(random: &mut Random) -> Draft {
    let rule = random.between(1, 3);
    let sizes = random_sizes(random);
    let key = random_key(random, sizes.key_bits());
    let hex = with_leading_zeros(random, key.hex());
    let key_text = random_case(random, hex);
    let draw_bytes = random_draws(random, sizes.b);
    let draws = draws_text(random, &draw_bytes);
    let number = |n: usize| n.to_string().into_bytes();
    let mut fields =
        [number(rule as usize), number(sizes.k), number(sizes.b), number(sizes.m), key_text, draws];
    if random.chance(5) {
        let place = random.below(4) as usize;
        fields[place].splice(0..0, b"000".iter().copied());
    }
    if random.chance(12) {
        let place = random.between(1, 3) as usize;
        fields[place] = odd_number(random);
    }
    if random.chance(4) {
        let most = (512 - sizes.b) / sizes.k;
        fields[3] = number(most + random.below(3) as usize);
    }
    Draft(fields)
}

/// Turns a line into one that is mostly unreadable.
fn spoil(random: &mut Random, mut draft: Draft) -> Vec<u8> {
    let place = random.below(6) as usize;
    match random.below(22) {
        0 => {
            let mut fields = draft.0.to_vec();
            fields.remove(place);
            return fields.join(&b' ');
        }
        1 => return [draft.text(), random.pick(&[&b" 0"[..], b" x", b" -", b" ff"]).to_vec()].concat(),
        2 => draft.0[place].insert(0, b' '),
        3 => draft.0[place].push(b' '),
        4 => return [b" ".to_vec(), draft.text()].concat(),
        5 => return [draft.text(), b" ".to_vec()].concat(),
        6 => draft.0[4].push(*random.pick(b"gGxz@`/:-+.,")),
        7 => draft.0[5].push(*random.pick(b"0123456789abcdefABCDEF")),
        8 => draft.0[5] = random.pick(&[&b"--"[..], b"-00", b"00-", b"0", b"0x", b"zz", b"2g", b"g2"]).to_vec(),
        9 => return Vec::new(),
        10 => draft.0[place].push(random.between(128, 255) as u8),
        11 => draft.0[place].extend_from_slice("ü".as_bytes()),
        12 => draft.0[random.below(4) as usize] = random.between(1 << 32, u64::MAX).to_string().into_bytes(),
        13 => {
            let long = ["4294967296", "4294967297", "4294967298", "18446744073709551617", "18446744073709551618"];
            draft.0[random.below(4) as usize] = random.pick(&long).as_bytes().to_vec();
        }
        14 => draft.0[0] = random.pick(&[&b"0"[..], b"4", b"00", b"5", b"33", b"4294967295"]).to_vec(),
        15 => draft.0[random.below(4) as usize] = random.pick(&[&b"+2"[..], b"-2", b"2.", b"0x2", b"2a", b"a"]).to_vec(),
        16 => draft.0[place] = Vec::new(),
        17 => draft.0[place].push(*random.pick(&[0u8, 9, 11, 12, 13, 31, 127])),
        18 => return draft.text().iter().map(|&byte| if byte == b' ' { b'\t' } else { byte }).collect(),
        19 => return vec![b' '; random.between(1, 8) as usize],
        20 => draft.0[4] = random.pick(&[&b"-"[..], b"0x1f", b"-1", b"1_0", b"fg"]).to_vec(),
        _ => {
            let length = random.below(40) as usize;
            return (0..length).map(|_| random.next() as u8).filter(|&byte| byte != b'\n').collect();
        }
    }
    draft.text()
}

fn random_line(random: &mut Random) -> Vec<u8> {
    let draft = random_draft(random);
    if random.chance(15) {
        spoil(random, draft)
    } else {
        draft.text()
    }
}

// ---------------------------------------------------------------------------------------------------------------------
// Running and comparing.

/// Compares one input's output.
fn compare(path: &str, input: &[u8]) -> Counts {
    let (wanted, counts) = expected(input);
    compare_lines(path, input, &wanted);
    counts
}

/// The worked runs and some lines by hand, so that a slip of this program itself is seen.
fn examine_self() {
    let runs = [
        ("2 3 6 3 647c 26", "ok 38 20 1 -5 6 yes"),
        ("3 3 6 3 647d 26", "ok 38 20 1 -5 6 yes"),
        ("1 3 6 3 647c 26", "ok 38 -12 -1 8 4 yes"),
        ("3 3 6 3 0 26", "ok 38 -10 -3 6 -2 yes"),
        ("3 3 6 3 0 408026", "ok 38 -10 -3 6 -2 yes"),
        ("3 3 6 3 0 4080", "no 9 6 0"),
        ("2 3 6 3 8000 26", "no 5 3 15"),
        ("2 3 6 3 8000 -", "no 9 6 0"),
        ("2 1 31 0 0 -", "no 1 2 0"),
        ("2 2 31 0 0 -", "no 2 2 0"),
        ("2 2 30 256 0 -", "no 3 2 0"),
        ("4 3 6 3 0 26", "unreadable"),
    ];
    for (line, wanted) in runs {
        assert_eq!(answer(line.as_bytes()).to_string(), wanted, "{line}");
    }
    assert_eq!(sign_and_carry(1, -504, 63, 256), (1, -1));
    let ends: [(&[u8], usize); 6] = [(b"", 0), (b"\n", 1), (b"\r", 1), (b"a\nb", 2), (b"a\nb\n", 2), (b"a\n\r\n", 2)];
    for (input, count) in ends {
        assert_eq!(lines_of(input).len(), count);
    }
}

/// How many lines one run of the program is given.
const BATCH: usize = 2000;

fn compare_all(path: &str, seed: u64, count: usize) {
    let mut random = Random(seed);
    let mut all = Counts::default();
    let mut left = count;
    for input in [&b""[..], b"\n", b"\r", b"\r\n", b"\n\n", b"2 3 6 3 647c 26", b"2 3 6 3 647c 26\r"] {
        compare(path, input);
    }
    while left > 0 {
        let batch = left.min(BATCH);
        let input = random_input(&mut random, batch, random_line);
        all.merge(&compare(path, &input));
        left -= batch;
    }
    let by_number: Vec<String> =
        [1, 2, 3, 4, 5, 9].iter().map(|&number| format!("{number}: {}", all.by_number[number])).collect();
    println!(
        "{count} lines compared: {} accepted, {} refused ({}), {} unreadable",
        all.accepted,
        all.refused(),
        by_number.join(", "),
        all.unreadable
    );
}

fn main() {
    examine_self();
    run_reference(
        "recode_reference",
        compare_all,
        |seed, count| random_input(&mut Random(seed), count, random_line),
        |input| expected(input).0,
    );
}
