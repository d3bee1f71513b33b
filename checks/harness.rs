//! What the reference programs share: random numbers, lines with every way to end them, running a program and comparing
//! what it prints. What a program has to answer is each reference's own.

use std::io::{Read, Write};
use std::process::{exit, Command, Stdio};

/// A source of random numbers.
pub trait Source {
    fn next(&mut self) -> u64;
}

/// One step of splitmix64.
pub fn splitmix(state: &mut u64) -> u64 {
    *state = state.wrapping_add(0x9e37_79b9_7f4a_7c15);
    let z = (*state ^ (*state >> 30)).wrapping_mul(0xbf58_476d_1ce4_e5b9);
    let z = (z ^ (z >> 27)).wrapping_mul(0x94d0_49bb_1331_11eb);
    z ^ (z >> 31)
}

/// The inverse modulo n by Euclid's algorithm, if there is one.
#[allow(dead_code)]
pub fn inverse(n: i128, a: i128) -> Option<i128> {
    let (mut r, mut s) = (n, a.rem_euclid(n));
    let (mut u, mut v) = (0, 1);
    while s != 0 {
        let q = r / s;
        (r, s) = (s, r - q * s);
        (u, v) = (v, u - q * v);
    }
    (r == 1).then(|| u.rem_euclid(n))
}

/// The lines of an input: cut at each line feed, with one carriage return before the cut or the end dropped.
#[allow(dead_code)]
pub fn lines_of(input: &[u8]) -> Vec<&[u8]> {
    let mut lines: Vec<&[u8]> = input.split(|&byte| byte == b'\n').collect();
    if lines.last() == Some(&&b""[..]) {
        lines.pop();
    }
    lines.iter().map(|line| line.strip_suffix(b"\r").unwrap_or(line)).collect()
}

/// An input of `count` lines, with every way to end a line and the input.
#[allow(dead_code)]
pub fn random_input<R: Source>(random: &mut R, count: usize, line: fn(&mut R) -> Vec<u8>) -> Vec<u8> {
    let mut input = Vec::new();
    for i in 0..count {
        input.extend(line(random));
        let open_end = i + 1 == count && random.next() % 2 == 0 && !input.is_empty() && input.last() != Some(&b'\n');
        input.extend_from_slice(match random.next() % 10 {
            0 if !open_end => b"\r\n",
            0 => b"\r",
            1 if !open_end && random.next() % 10 == 0 => b"\r\r\n",
            _ if open_end => b"",
            _ => b"\n",
        });
    }
    input
}

/// What a program prints for an input. Ends the process where the program does not start or fails.
pub fn run_program(path: &str, input: &[u8]) -> Vec<u8> {
    let mut child = Command::new(path).stdin(Stdio::piped()).stdout(Stdio::piped()).spawn().unwrap_or_else(|error| {
        eprintln!("{path} does not start: {error}");
        exit(2);
    });
    let mut stdin = child.stdin.take().unwrap();
    let fed = input.to_vec();
    let feeder = std::thread::spawn(move || stdin.write_all(&fed));
    let mut output = Vec::new();
    child.stdout.take().unwrap().read_to_end(&mut output).unwrap();
    let status = child.wait().unwrap();
    if let Err(error) = feeder.join().unwrap() {
        eprintln!("{path} does not read its whole input: {error}");
        exit(1);
    }
    if !status.success() {
        eprintln!("{path} ends with {status}");
        exit(1);
    }
    output
}

/// Holds what a program prints for an input to the lines that are wanted, and ends the process at the first difference.
#[allow(dead_code)]
pub fn compare_lines(path: &str, input: &[u8], wanted: &[String]) {
    let output = run_program(path, input);
    let mut found: Vec<&[u8]> = output.split(|&byte| byte == b'\n').collect();
    if found.pop() != Some(&b""[..]) {
        eprintln!("the output's last line does not end");
        exit(1);
    }
    let lines = lines_of(input);
    for i in 0..wanted.len().max(found.len()) {
        let want = wanted.get(i).map(|text| text.as_bytes());
        let have = found.get(i).copied();
        if want != have {
            let shown = |text: Option<&[u8]>| text.map_or("(no line)".into(), |text| text.escape_ascii().to_string());
            eprintln!("input:    {}", shown(lines.get(i).copied()));
            eprintln!("expected: {}", shown(want));
            eprintln!("found:    {}", shown(have));
            exit(1);
        }
    }
}

/// The command line of a reference: compare a program, write the lines that a seed gives, or the answers to a file's.
#[allow(dead_code)]
pub fn run_reference(
    name: &str,
    compare_all: fn(&str, u64, usize),
    input_of: fn(u64, usize) -> Vec<u8>,
    answers_to: fn(&[u8]) -> Vec<String>,
) {
    let args: Vec<String> = std::env::args().skip(1).collect();
    let words: Vec<&str> = args.iter().map(|arg| arg.as_str()).collect();
    let usage = || -> ! {
        eprintln!("{name} PATH SEED COUNT | --print SEED COUNT | --expect FILE");
        exit(2)
    };
    let seed_of = |text: &str| text.parse::<u64>().unwrap_or_else(|_| usage());
    let count_of = |text: &str| text.parse::<usize>().unwrap_or_else(|_| usage());
    match words[..] {
        ["--print", seed, count] => std::io::stdout().write_all(&input_of(seed_of(seed), count_of(count))).unwrap(),
        ["--expect", path] => {
            let input = std::fs::read(path).unwrap_or_else(|error| {
                eprintln!("{path} cannot be read: {error}");
                exit(2);
            });
            let text: String = answers_to(&input).iter().map(|line| format!("{line}\n")).collect();
            std::io::stdout().write_all(text.as_bytes()).unwrap();
        }
        [path, seed, count] => compare_all(path, seed_of(seed), count_of(count)),
        _ => usage(),
    }
}
