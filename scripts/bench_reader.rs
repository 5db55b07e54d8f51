//! What the reader of tapes answers, in plain Rust that proves nothing: the yardstick of scripts/bench_reader. It keeps the same
//! programs, blocks and words, and refuses what the reader refuses, with the same number and line. The yardstick of
//! scripts/bench_verify reads by it.
use std::{env, fs};

#[allow(dead_code)]
pub struct Word {
    pub letter: u8,
    start: u32,
    end: u32,
    pub text: Vec<u8>,
}
#[allow(dead_code)]
pub enum Body {
    Words(Vec<Word>),
    Statement(Vec<u8>),
}
#[allow(dead_code)]
pub struct Block {
    pub line: u32,
    sequence: Option<u32>,
    pub body: Body,
}
#[allow(dead_code)]
pub struct Program {
    number: u32,
    pub line: u32,
    pub blocks: Vec<Block>,
}

enum Said {
    Nothing,
    Program(Option<u32>),
    Block(Option<u32>, bool, Body),
}

#[derive(Default)]
struct Buffers {
    bytes: Vec<u8>,
    places: Vec<u32>,
}

fn without_last(byte: u8, line: &[u8]) -> &[u8] {
    line.strip_suffix(&[byte]).unwrap_or(line)
}

fn content(line: &[u8], ended: bool) -> &[u8] {
    let mut line = if ended { without_last(b'\r', line) } else { line };
    while let [front @ .., b' ' | b'\t'] = line {
        line = front;
    }
    without_last(b';', line)
}

fn scan(buffers: &mut Buffers, line: &[u8]) -> bool {
    buffers.bytes.clear();
    buffers.places.clear();
    let mut inside = false;
    for (place, byte) in line.iter().enumerate() {
        if inside {
            inside = *byte != b')';
            continue;
        }
        if *byte == b' ' || *byte == b'\t' {
            continue;
        }
        inside = *byte == b'(';
        buffers.bytes.push(byte.to_ascii_uppercase());
        buffers.places.push(place as u32);
    }
    inside
}

fn is_allowed(byte: u8) -> bool {
    byte.is_ascii_uppercase()
        || byte.is_ascii_digit()
        || matches!(
            byte,
            b'.' | b'+' | b'-' | b'/' | b'(' | b')' | b'#' | b'[' | b']' | b'=' | b'*'
        )
}

fn is_statement(text: &[u8]) -> bool {
    ["#", "IF", "WHILE", "GOTO", "DO", "END"].iter().any(|word| {
        let mut rest = text.iter().filter(|byte| **byte != b'(');
        word.bytes().all(|byte| rest.next() == Some(&byte))
    })
}

fn sentence(text: &[u8]) -> Vec<u8> {
    let mut all = Vec::with_capacity(text.len());
    all.extend(text.iter().filter(|byte| **byte != b'('));
    all
}

fn unsigned(text: &[u8]) -> &[u8] {
    match text {
        [b'+' | b'-', rest @ ..] => rest,
        _ => text,
    }
}

fn parts(text: &[u8]) -> (&[u8], &[u8]) {
    let text = unsigned(text);
    match text.iter().position(|byte| *byte == b'.') {
        Some(at) => (&text[..at], &text[at + 1..]),
        None => (text, &[]),
    }
}

fn is_literal(text: &[u8]) -> bool {
    let (whole, fraction) = parts(text);
    let digits = |text: &[u8]| text.iter().all(u8::is_ascii_digit);
    digits(whole) && digits(fraction) && !(whole.is_empty() && fraction.is_empty())
}

fn has_too_many_digits(text: &[u8]) -> bool {
    let (whole, fraction) = parts(text);
    whole.iter().skip_while(|byte| **byte == b'0').count() > 8 || fraction.len() > 6
}

fn number_in(low: i64, high: i64, text: &[u8]) -> Option<u32> {
    if has_too_many_digits(text) {
        return None;
    }
    let (whole, fraction) = parts(text);
    if fraction.iter().any(|byte| *byte != b'0') {
        return None;
    }
    let size = whole.iter().fold(0i64, |sum, byte| sum * 10 + i64::from(byte - b'0'));
    let number = if text.first() == Some(&b'-') { -size } else { size };
    (low <= number && number <= high).then_some(number as u32)
}

fn closes(text: &[u8]) -> bool {
    let mut depth = 1;
    for (at, byte) in text.iter().enumerate() {
        match byte {
            b']' if depth == 1 => return at + 1 == text.len(),
            b'[' => depth += 1,
            b']' => depth -= 1,
            _ => {}
        }
    }
    false
}

fn is_value(text: &[u8]) -> bool {
    is_literal(text)
        || match unsigned(text) {
            [b'#', b'[', rest @ ..] | [b'[', rest @ ..] => closes(rest),
            [b'#', rest @ ..] => !rest.is_empty() && rest.iter().all(u8::is_ascii_digit),
            _ => false,
        }
}

fn has_long_front(text: &[u8]) -> bool {
    let sign = text.len() - unsigned(text).len();
    let digits = |text: &[u8]| text.iter().take_while(|byte| byte.is_ascii_digit()).count();
    let whole = digits(&text[sign..]);
    let rest = &text[sign + whole..];
    let fraction = if rest.first() == Some(&b'.') {
        1 + digits(&rest[1..])
    } else {
        0
    };
    let front = &text[..sign + whole + fraction];
    is_literal(front) && has_too_many_digits(front)
}

struct Piece<'a> {
    letter: u8,
    start: u32,
    end: u32,
    text: &'a [u8],
    whole: bool,
}

fn value_len(text: &[u8]) -> usize {
    let mut depth = 0usize;
    for (at, byte) in text.iter().enumerate() {
        match byte {
            b'A'..=b'Z' if depth == 0 => return at,
            b'[' => depth += 1,
            b']' => depth = depth.saturating_sub(1),
            _ => {}
        }
    }
    text.len()
}

fn piece<'a>(bytes: &'a [u8], places: &[u32]) -> (Piece<'a>, usize) {
    let value = 1 + value_len(&bytes[1..]);
    let part = bytes[..value].iter().position(|byte| *byte == b'(').unwrap_or(value);
    let whole = bytes[part..value].iter().all(|byte| *byte == b'(');
    (
        Piece {
            letter: bytes[0],
            start: places[0] + 1,
            end: places[part - 1] + 1,
            text: &bytes[1..part],
            whole,
        },
        value,
    )
}

fn is_sequence(piece: &Piece) -> bool {
    piece.letter == b'N' && is_literal(piece.text)
}

struct Reading {
    long: bool,
    broken: bool,
    said: Said,
}

fn read_words(slash: bool, bytes: &[u8], places: &[u32]) -> Reading {
    if value_len(bytes) != 0 {
        return Reading {
            long: false,
            broken: true,
            said: Said::Nothing,
        };
    }
    let mut pieces: Vec<Piece> = Vec::new();
    let mut at = 0;
    while at < bytes.len() {
        let (piece, length) = piece(&bytes[at..], &places[at..]);
        pieces.push(piece);
        at += length;
    }
    let sound = pieces
        .iter()
        .position(|piece| !(piece.whole && is_value(piece.text)))
        .unwrap_or(pieces.len());
    let long = pieces
        .iter()
        .take(sound + 1)
        .any(|piece| matches!(piece.letter, b'N' | b'O') && has_long_front(piece.text));
    let has_program = pieces.iter().any(|piece| piece.letter == b'O');
    let broken = sound < pieces.len() || (has_program && (slash || pieces.len() != 1));
    if let [piece] = &pieces[..] {
        if !slash && piece.letter == b'O' && is_literal(piece.text) {
            return Reading {
                long,
                broken,
                said: Said::Program(number_in(1, 9999, piece.text)),
            };
        }
    }
    let mut sequence = None;
    let mut in_range = true;
    let mut words = Vec::with_capacity(pieces.len());
    for piece in &pieces {
        if is_sequence(piece) {
            sequence = number_in(0, 99999, piece.text);
            in_range &= sequence.is_some();
        } else {
            words.push(Word {
                letter: piece.letter,
                start: piece.start,
                end: piece.end,
                text: piece.text.to_vec(),
            });
        }
    }
    Reading {
        long,
        broken,
        said: Said::Block(sequence, in_range, Body::Words(words)),
    }
}

fn read_block(slash: bool, bytes: &[u8], places: &[u32]) -> Reading {
    if bytes.first() == Some(&b'N') {
        let digits = bytes[1..]
            .iter()
            .take_while(|byte| byte.is_ascii_digit() || matches!(byte, b'.' | b'+' | b'-'))
            .count();
        let (number, behind) = bytes[1..].split_at(digits);
        if is_literal(number) && is_statement(behind) {
            let sequence = number_in(0, 99999, number);
            return Reading {
                long: has_too_many_digits(number),
                broken: false,
                said: Said::Block(sequence, sequence.is_some(), Body::Statement(sentence(behind))),
            };
        }
    }
    if is_statement(bytes) {
        return Reading {
            long: false,
            broken: false,
            said: Said::Block(None, true, Body::Statement(sentence(bytes))),
        };
    }
    read_words(slash, bytes, places)
}

fn comments(bytes: &[u8]) -> usize {
    bytes.iter().take_while(|byte| **byte == b'(').count()
}

fn read_line(buffers: &mut Buffers, skips: u16, line: &[u8], ended: bool) -> Result<Said, u8> {
    let unclosed = scan(buffers, content(line, ended));
    let bytes = &buffers.bytes[..];
    let mut at = comments(bytes);
    let mut skipped = false;
    let reading = if at == bytes.len() {
        Reading {
            long: false,
            broken: false,
            said: Said::Nothing,
        }
    } else {
        let slash = bytes[at] == b'/';
        if slash {
            at += 1;
            let switch = match bytes.get(at) {
                Some(digit @ b'1'..=b'9') => {
                    at += 1;
                    digit - b'0'
                }
                _ => 1,
            };
            skipped = skips >> switch & 1 == 1;
        }
        at += comments(&bytes[at..]);
        read_block(slash, &bytes[at..], &buffers.places[at..])
    };
    if reading.long && !skipped {
        Err(5)
    } else if !bytes.iter().all(|byte| is_allowed(*byte)) {
        Err(10)
    } else if reading.broken {
        Err(11)
    } else if unclosed {
        Err(12)
    } else if skipped {
        Ok(Said::Nothing)
    } else {
        Ok(reading.said)
    }
}

/// The programs of a text, or the number and the line of its refusal.
pub fn read(skips: u16, text: &[u8]) -> Result<Vec<Program>, (u8, u32)> {
    let mut buffers = Buffers::default();
    let mut programs: Vec<Program> = Vec::new();
    let (mut percent, mut blocks, mut bytes, mut line_number) = (0u32, 0u32, 0usize, 0u32);
    let mut stage = 0;
    let mut rest = text;
    while !rest.is_empty() {
        let (line, ended, behind) = match rest.iter().position(|byte| *byte == b'\n') {
            Some(at) => (&rest[..at], true, &rest[at + 1..]),
            None => (rest, false, &rest[rest.len()..]),
        };
        rest = behind;
        line_number += 1;
        bytes += line.len() + usize::from(ended);
        let past = bytes > 4_194_304;
        let is_percent = line.first() == Some(&b'%') && stage < 2;
        if is_percent {
            if line.len() > 512 {
                return Err((15, line_number));
            }
            if past {
                return Err((17, line_number));
            }
            stage += 1;
            if stage == 1 {
                percent = line_number;
            }
        } else if stage == 1 {
            let said = read_line(&mut buffers, skips, line, ended).map_err(|number| (number, line_number))?;
            let is_block = matches!(said, Said::Block(..));
            if is_block && programs.is_empty() {
                return Err((13, line_number));
            }
            if line.len() > 512 {
                return Err((15, line_number));
            }
            if is_block && blocks >= 20_000 {
                return Err((16, line_number));
            }
            if past {
                return Err((17, line_number));
            }
            match said {
                Said::Nothing => {}
                Said::Program(None) | Said::Block(_, false, _) => return Err((64, line_number)),
                Said::Program(Some(number)) => programs.push(Program {
                    number,
                    line: line_number,
                    blocks: Vec::new(),
                }),
                Said::Block(sequence, true, body) => {
                    blocks += 1;
                    programs.last_mut().unwrap().blocks.push(Block {
                        line: line_number,
                        sequence,
                        body,
                    });
                }
            }
        } else if past {
            return Err((17, line_number));
        }
    }
    match stage {
        0 => Err((13, 1)),
        _ if programs.is_empty() => Err((13, percent)),
        1 => Err((14, line_number)),
        _ => Ok(programs),
    }
}

fn digest(programs: &[Program]) -> u64 {
    let mut sum = 0u64;
    let mut add = |value: u64| sum = sum.wrapping_mul(31).wrapping_add(value);
    for program in programs {
        add(u64::from(program.number));
        add(u64::from(program.line));
        for block in &program.blocks {
            add(u64::from(block.line));
            add(u64::from(block.sequence.unwrap_or(100_000)));
            match &block.body {
                Body::Words(words) => {
                    for word in words {
                        add(u64::from(word.letter));
                        add(u64::from(word.start));
                        add(u64::from(word.end));
                        for byte in &word.text {
                            add(u64::from(*byte));
                        }
                    }
                }
                Body::Statement(text) => {
                    for byte in text {
                        add(u64::from(*byte));
                    }
                }
            }
        }
    }
    sum
}

/// Reads the tape that is named so many times, and prints what the last reading says.
fn main() {
    let name = env::args().nth(1).expect("the name of a tape");
    let rounds: u32 = env::args()
        .nth(3)
        .map_or(1, |word| word.parse().expect("a number of rounds"));
    let text = fs::read(name).expect("a tape");
    for _ in 1..rounds {
        std::hint::black_box(read(0, std::hint::black_box(&text)).is_ok());
    }
    match read(0, &text) {
        Ok(programs) => {
            let blocks: usize = programs.iter().map(|program| program.blocks.len()).sum();
            println!("{blocks} blocks, digest {}", digest(&programs));
        }
        Err((number, line)) => println!("refusal {number} at line {line}"),
    }
}
