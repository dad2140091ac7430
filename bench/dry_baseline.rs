//! The yardstick of the command `dry`: a plain Rust program over a `BTreeMap` that reads the same
//! text, refuses the same lines and prints the same bytes as `hbpi - dry K`. Nothing is proved here.
//!
//! `dry_baseline K` reads standard input and writes standard output.

use std::collections::BTreeMap;
use std::io::{self, BufWriter, Read, Write};
use std::process::ExitCode;

const KMAX: usize = 4;
const GREATEST: u64 = 257_000_001;

/// The values of a point; those behind the last attribute are 0.
type Point = [u64; KMAX];

enum Command {
    Insert(Point, Vec<u8>),
    Delete(Point),
    Lookup(Point),
    Search(Point, Point),
}

fn is_numeral(word: &[u8]) -> bool {
    let digits = !word.is_empty() && word.iter().all(u8::is_ascii_digit);
    digits && (word.len() == 1 || word[0] != b'0')
}

fn number(word: &[u8]) -> Result<u64, &'static str> {
    if !is_numeral(word) {
        return Err("BadNumber");
    }
    let text = std::str::from_utf8(word).unwrap();
    text.parse().map_err(|_| "TooLarge")
}

fn numbers(words: &[&[u8]]) -> Result<Vec<u64>, &'static str> {
    words.iter().map(|word| number(word)).collect()
}

fn point(values: impl Iterator<Item = u64>) -> Point {
    let mut point = [0; KMAX];
    for (at, value) in values.enumerate() {
        point[at] = value;
    }
    point
}

fn body(word: &[u8]) -> Result<Vec<u8>, &'static str> {
    match word {
        [b'=', body @ ..] if body.len() <= 32 => Ok(body.to_vec()),
        _ => Err("BadBody"),
    }
}

fn area(values: &[u64]) -> Result<Command, &'static str> {
    if values.chunks(2).any(|pair| pair[0] > pair[1]) {
        return Err("EmptyBox");
    }
    let lo = point(values.iter().step_by(2).copied());
    let hi = point(values.iter().skip(1).step_by(2).copied());
    Ok(Command::Search(lo, hi))
}

fn command(k: usize, line: &[u8]) -> Result<Command, &'static str> {
    if line.len() > 256 {
        return Err("LongLine");
    }
    if line.iter().any(|c| !(32..=126).contains(c)) {
        return Err("BadByte");
    }
    let words: Vec<&[u8]> = line.split(|c| *c == b' ').collect();
    if words.iter().any(|word| word.is_empty()) {
        return Err("BadSpacing");
    }
    if words[0] == b"step" {
        return Err("BadStep");
    }
    if !(1..=16).contains(&number(words[0]).unwrap_or(0)) {
        return Err("BadSession");
    }
    let wanted = match words.get(1) {
        Some(&b"insert") => k + 1,
        Some(&b"delete" | &b"lookup") => k,
        Some(&b"search") => 2 * k,
        _ => return Err("BadVerb"),
    };
    if words.len() != 2 + wanted {
        return Err("BadCount");
    }
    match words[1] {
        b"insert" => {
            let values = numbers(&words[2..2 + k])?;
            Ok(Command::Insert(point(values.into_iter()), body(words[2 + k])?))
        }
        b"delete" => Ok(Command::Delete(point(numbers(&words[2..])?.into_iter()))),
        b"lookup" => Ok(Command::Lookup(point(numbers(&words[2..])?.into_iter()))),
        _ => area(&numbers(&words[2..])?),
    }
}

/// The numbered commands of a text, or the number of the first bad line and the rule it breaks.
fn commands(k: usize, text: &[u8]) -> Result<Vec<(u32, Command)>, (u32, &'static str)> {
    let mut commands = Vec::new();
    let mut lines: Vec<&[u8]> = text.split(|c| *c == b'\n').collect();
    if lines.last().is_some_and(|last| last.is_empty()) {
        lines.pop();
    }
    for (at, line) in lines.into_iter().enumerate() {
        let number = at as u32 + 1;
        if number > 1_000_000 {
            return Err((number, "TooMany"));
        }
        if !line.is_empty() {
            commands.push((number, command(k, line).map_err(|rule| (number, rule))?));
        }
    }
    Ok(commands)
}

type Records = BTreeMap<Point, Vec<u8>>;

fn put_search(
    out: &mut impl Write,
    records: &Records,
    k: usize,
    number: u32,
    lo: &Point,
    hi: &Point,
) -> io::Result<()> {
    let mut end = [u64::MAX; KMAX];
    end[0] = hi[0];
    let inside = |key: &Point| (0..k).all(|axis| lo[axis] <= key[axis] && key[axis] <= hi[axis]);
    let found: Vec<_> = records.range(*lo..=end).filter(|(key, _)| inside(key)).collect();
    writeln!(out, "{number} box {}", found.len())?;
    for (key, body) in found {
        out.write_all(b"+")?;
        for value in &key[..k] {
            write!(out, " {value}")?;
        }
        out.write_all(b" =")?;
        out.write_all(body)?;
        out.write_all(b"\n")?;
    }
    Ok(())
}

fn put_answer(
    out: &mut impl Write,
    records: &mut Records,
    k: usize,
    number: u32,
    command: Command,
) -> io::Result<()> {
    match command {
        Command::Insert(key, _) if records.contains_key(&key) => writeln!(out, "{number} duplicate"),
        Command::Insert(key, body) => {
            records.insert(key, body);
            writeln!(out, "{number} ok")
        }
        Command::Delete(key) => match records.remove(&key) {
            Some(_) => writeln!(out, "{number} ok"),
            None => writeln!(out, "{number} absent"),
        },
        Command::Lookup(key) => match records.get(&key) {
            Some(body) => {
                write!(out, "{number} found =")?;
                out.write_all(body)?;
                out.write_all(b"\n")
            }
            None => writeln!(out, "{number} none"),
        },
        Command::Search(lo, hi) => put_search(out, records, k, number, &lo, &hi),
    }
}

fn dry(k: usize) -> io::Result<u8> {
    let mut text = Vec::new();
    io::stdin().lock().take(GREATEST).read_to_end(&mut text)?;
    let mut out = BufWriter::new(io::stdout().lock());
    let commands = match commands(k, &text) {
        Ok(commands) => commands,
        Err((line, rule)) => {
            writeln!(out, "bad text {line} {rule}")?;
            out.flush()?;
            return Ok(3);
        }
    };
    let mut records = Records::new();
    let mut order = Vec::new();
    for (number, command) in commands {
        put_answer(&mut out, &mut records, k, number, command)?;
        order.push(number);
    }
    out.write_all(b"order")?;
    for number in order {
        write!(out, " {number}")?;
    }
    out.write_all(b"\n")?;
    out.flush()?;
    Ok(0)
}

fn main() -> ExitCode {
    let k = std::env::args().nth(1).and_then(|word| word.parse().ok());
    match k {
        Some(k @ 1..=KMAX) => dry(k).map_or(ExitCode::from(5), ExitCode::from),
        _ => ExitCode::from(2),
    }
}
