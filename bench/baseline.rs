//! The same job in plain Rust, on `HashMap`: reads a file, interns its names and literals, holds the last 16 names, and prints
//! the same six lines. It is what the benchmark compares the program with; nothing of it is proved.
use std::collections::{HashMap, VecDeque};
use std::io::Write;
use std::process::exit;

const HOLD: usize = 16;

fn is_name_byte(byte: u8) -> bool {
    byte.is_ascii_alphanumeric() || byte == b'_' || byte == b'$' || byte >= 128
}

/// The names and the literals, in order.
fn scan(bytes: &[u8]) -> (Vec<&[u8]>, Vec<&[u8]>) {
    let (mut names, mut literals) = (Vec::new(), Vec::new());
    let mut at = 0;
    while at < bytes.len() {
        let start = at;
        if bytes[at] == b'"' {
            at += 1;
            while at < bytes.len() && bytes[at] != b'"' && bytes[at] != b'\n' {
                let takes = bytes[at] == b'\\' && at + 1 < bytes.len() && bytes[at + 1] != b'\n';
                at += if takes { 2 } else { 1 };
            }
            literals.push(&bytes[start + 1..at]);
            if at < bytes.len() && bytes[at] == b'"' {
                at += 1;
            }
        } else if is_name_byte(bytes[at]) {
            while at < bytes.len() && is_name_byte(bytes[at]) {
                at += 1;
            }
            if !bytes[start].is_ascii_digit() {
                names.push(&bytes[start..at]);
            }
        } else {
            at += 1;
        }
    }
    (names, literals)
}

fn hash(text: &[u8]) -> u32 {
    text.iter().fold(0u32, |h, b| h.wrapping_mul(31).wrapping_add(u32::from(*b)))
}

/// The line of a table of these live texts at the level where it settles.
fn spread<'a>(table: &str, load: usize, live: impl Iterator<Item = &'a [u8]>) -> String {
    let texts: Vec<&[u8]> = live.collect();
    let level = (3..16).find(|level| texts.len() <= (1 << level) * load).unwrap_or(16);
    let mut buckets: HashMap<u32, usize> = HashMap::new();
    for text in &texts {
        *buckets.entry(hash(text) % (1 << level)).or_insert(0) += 1;
    }
    let longest = buckets.values().max().unwrap_or(&0);
    let count = 1 << level;
    format!("{table} buckets={count} longest={longest} average={} rest={}\n", texts.len() / count, texts.len() % count)
}

fn main() {
    let path = std::env::args().nth(2).unwrap_or_default();
    let Ok(bytes) = std::fs::read(&path) else {
        eprintln!("read fault: file 1");
        exit(2);
    };
    let (names, literals) = scan(&bytes);

    let mut symbols: HashMap<Vec<u8>, u16> = HashMap::new();
    let mut window: VecDeque<&[u8]> = VecDeque::with_capacity(HOLD + 1);
    let (mut created, mut taken, mut dropped) = (0, 0, 0);
    for name in &names {
        match symbols.get_mut(*name) {
            Some(count) => {
                *count = count.saturating_add(1);
                taken += 1;
            }
            None => {
                symbols.insert(name.to_vec(), 1);
                created += 1;
            }
        }
        window.push_back(name);
        if window.len() > HOLD {
            let leaving = window.pop_front().unwrap();
            let count = symbols.get_mut(leaving).unwrap();
            if *count == 1 {
                symbols.remove(leaving);
            } else {
                *count -= 1;
            }
            dropped += 1;
        }
    }

    let mut strings: HashMap<Vec<u8>, usize> = HashMap::new();
    let mut made: Vec<&[u8]> = Vec::new();
    let mut found = 0;
    for literal in &literals {
        if strings.contains_key(*literal) {
            found += 1;
        } else {
            strings.insert(literal.to_vec(), made.len());
            made.push(literal);
        }
    }
    let last = &literals[literals.len().saturating_sub(HOLD)..];
    let mut killed = 0;
    for text in &made {
        if !last.contains(text) {
            strings.remove(*text);
            killed += 1;
        }
    }

    let mut report = format!("symbols names={} live={} references={}\n", names.len(), symbols.len(), window.len());
    report += &spread("symbols", 8, symbols.keys().map(|t| t.as_slice()));
    report += &format!("strings literals={} live={}\n", literals.len(), strings.len());
    report += &spread("strings", 2, strings.keys().map(|t| t.as_slice()));
    report += &format!("symbol log created={created} taken={taken} dropped={dropped}\n");
    report += &format!("string log created={} found={found} killed={killed}\n", made.len());
    if std::io::stdout().write_all(report.as_bytes()).is_err() {
        eprintln!("write fault");
        exit(3);
    }
}
