//! Whether the waits of two tapes agree, in plain Rust that proves nothing: the yardstick of scripts/bench_verify. It reads both
//! tapes as the yardstick of the reader does, finds the waits of each and its end, and compares them. It follows no call, and
//! judges no word, no statement, no jump and no loop.
#[allow(dead_code)]
#[path = "bench_reader.rs"]
mod reader;

use reader::{Block, Body, Program};
use std::{env, fs, hint, process};

#[derive(Clone, Copy, PartialEq)]
enum Label {
    Wait(u32),
    End,
    Again,
    Off,
}

/// A label, and the line of its block.
type Labelled = (Label, u32);

fn number(text: &[u8]) -> Option<u32> {
    std::str::from_utf8(text).ok()?.parse().ok()
}

fn label(block: &Block) -> Option<Label> {
    let Body::Words(words) = &block.body else {
        return None;
    };
    let code = words.iter().find(|word| word.letter == b'M')?;
    match number(&code.text)? {
        2 | 30 => Some(Label::End),
        99 => Some(Label::Again),
        code @ 100..=197 => Some(Label::Wait(code)),
        98 => {
            eprintln!("a call, which the yardstick does not follow");
            process::exit(1)
        }
        _ => None,
    }
}

fn labels(programs: &[Program]) -> Vec<Labelled> {
    let main = &programs[0];
    let mut labels = Vec::new();
    for block in &main.blocks {
        if let Some(label) = label(block) {
            labels.push((label, block.line));
            if !matches!(label, Label::Wait(_)) {
                return labels;
            }
        }
    }
    labels.push((Label::Off, main.blocks.last().map_or(main.line, |block| block.line)));
    labels
}

/// The number of labels that agree, and the lines of the two that do not.
fn compare(left: &[Labelled], right: &[Labelled]) -> Result<(), (usize, u32, u32)> {
    match left.iter().zip(right).position(|(one, two)| one.0 != two.0) {
        Some(at) => Err((at, left[at].1, right[at].1)),
        None => Ok(()),
    }
}

fn verdict(left: &[u8], right: &[u8]) -> String {
    let mut lists = Vec::new();
    for (text, path) in [(left, 1), (right, 2)] {
        match reader::read(0, text) {
            Ok(programs) => lists.push(labels(&programs)),
            Err((number, line)) => return format!("refusal {number} of path {path} at line {line}"),
        }
    }
    match compare(&lists[0], &lists[1]) {
        Ok(()) => "accepted".to_string(),
        Err((after, line, other)) => {
            format!("refusal 72 of path 1 at line {line}, path 2 at line {other} after {after}")
        }
    }
}

/// Tells the verdict of the two tapes that are named so many times, and prints the last one.
fn main() {
    let word = |place| env::args().nth(place).expect("two tapes and a number of rounds");
    let tape = |place| fs::read(word(place)).expect("a tape");
    let (left, right) = (tape(1), tape(2));
    let rounds: u32 = word(3).parse().expect("a number of rounds");
    for _ in 1..rounds {
        hint::black_box(verdict(hint::black_box(&left), hint::black_box(&right)));
    }
    println!("{}", verdict(&left, &right));
}
