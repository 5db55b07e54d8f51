//! A loop of #1=#1+1 as one path does it, in plain Rust that proves nothing: the yardstick of scripts/bench_path. Its flow is
//! made in the code, and not read from a tape. A block is decided first and then done, and its moves go into a list that is
//! lent.

// The loop has none of some parts of the language, whose room the types have all the same.
#![allow(dead_code)]

use std::env;

/// The largest magnitude of a value, in millionths.
const LARGEST: i64 = 99_999_999_999_999;
const UNIT: i64 = 1_000_000;

#[derive(Clone, Copy)]
enum Var {
    Vacant,
    Is(i64),
}

impl Var {
    fn or_zero(self) -> i64 {
        match self {
            Var::Vacant => 0,
            Var::Is(value) => value,
        }
    }
}

enum Instr {
    Number(i64),
    Read(u32),
    Add,
    Subtract,
}

enum Statement {
    Assign { variable: u32, code: Vec<Instr> },
    Do,
    End,
}

enum Body {
    Statement(Statement),
    Last,
}

struct Block {
    line: u32,
    body: Body,
    /// The other end of the loop that begins or ends here.
    partner: u32,
}

struct Program {
    number: u16,
    blocks: Vec<Block>,
}

struct Flow {
    programs: Vec<Program>,
}

impl Flow {
    fn block(&self, program: u16, block: u32) -> Option<&Block> {
        let program = self.programs.iter().find(|found| found.number == program)?;
        program.blocks.get(block as usize)
    }
}

#[derive(Clone, Copy)]
struct Point {
    x: i64,
    z: i64,
}

#[derive(Clone, Copy)]
enum Move {
    Rapid { to: Point },
    Dwell { ms: u64 },
}

/// The moves of a block, at most eight.
struct Moves {
    line: u32,
    count: usize,
    list: [Move; 8],
}

enum Advance {
    Need(u32),
    Effect { write: Option<(u32, Var)> },
    AtEnd,
    Alarm { cause: u8, value: i64 },
}

#[derive(Clone, Copy)]
struct Frame {
    program: u16,
    block: u32,
}

enum Route {
    Next,
    To(u32),
}

enum Change {
    Local(u32, Var),
    Own(u32, Var),
    Shared(u32, Var),
}

enum Decision {
    Need(u32),
    Write(Change),
    Go(Route),
    End,
    Alarm { cause: u8, value: i64 },
}

enum Stop {
    Needs(u32),
    Fault(u8),
}

struct PathState {
    place: Vec<Frame>,
    levels: Vec<[Var; 33]>,
    own: Vec<Var>,
    position: Point,
}

impl PathState {
    fn new() -> PathState {
        PathState {
            place: vec![Frame { program: 1, block: 0 }],
            levels: vec![[Var::Vacant; 33]],
            own: vec![Var::Vacant; 1000],
            position: Point { x: 0, z: 0 },
        }
    }

    fn running(&self) -> Frame {
        self.place[self.place.len() - 1]
    }

    /// What a variable holds; a shared one must be read, and each of its readings is one of `reads`.
    fn look(&self, variable: u32, reads: &mut &[Var]) -> Result<Var, Stop> {
        match variable {
            0 => Ok(Var::Vacant),
            1..=33 => Ok(self.levels[self.levels.len() - 1][variable as usize - 1]),
            500..=599 => {
                let (first, rest) = reads.split_first().ok_or(Stop::Needs(variable))?;
                *reads = rest;
                Ok(*first)
            }
            100..=199 | 600..=999 => Ok(self.own[variable as usize]),
            5021 => Ok(Var::Is(self.position.x * 1000)),
            5022 => Ok(Var::Is(self.position.z * 1000)),
            _ => Err(Stop::Fault(30)),
        }
    }

    fn evaluate(&self, code: &[Instr], reads: &mut &[Var]) -> Result<Var, Stop> {
        let mut stack = [Var::Vacant; 16];
        let mut depth = 0;
        for step in code {
            let value = match step {
                Instr::Number(value) => Var::Is(*value),
                Instr::Read(variable) => self.look(*variable, reads)?,
                Instr::Add | Instr::Subtract => {
                    depth -= 2;
                    let (left, right) = (stack[depth].or_zero(), stack[depth + 1].or_zero());
                    let sum = match step {
                        Instr::Subtract => left - right,
                        _ => left + right,
                    };
                    if sum.abs() > LARGEST {
                        return Err(Stop::Fault(1));
                    }
                    Var::Is(sum)
                }
            };
            stack[depth] = value;
            depth += 1;
        }
        Ok(stack[0])
    }

    fn decide(&self, flow: &Flow, reads: &[Var]) -> Decision {
        let running = self.running();
        let Some(block) = flow.block(running.program, running.block) else {
            return Decision::Alarm { cause: 63, value: 0 };
        };
        match &block.body {
            Body::Last => Decision::End,
            Body::Statement(Statement::Do) => Decision::Go(Route::Next),
            Body::Statement(Statement::End) => Decision::Go(Route::To(block.partner)),
            Body::Statement(Statement::Assign { variable, code }) => {
                let mut reads = reads;
                match self.evaluate(code, &mut reads) {
                    Ok(value) => match variable {
                        1..=33 => Decision::Write(Change::Local(*variable, value)),
                        500..=599 => Decision::Write(Change::Shared(*variable, value)),
                        100..=199 | 600..=999 => Decision::Write(Change::Own(*variable, value)),
                        3000 => Decision::Alarm { cause: 33, value: value.or_zero() },
                        _ => Decision::Alarm { cause: 31, value: 0 },
                    },
                    Err(Stop::Needs(variable)) => Decision::Need(variable),
                    Err(Stop::Fault(cause)) => Decision::Alarm { cause, value: 0 },
                }
            }
        }
    }

    fn go(&mut self, route: Route) {
        let last = self.place.len() - 1;
        match route {
            Route::Next => self.place[last].block += 1,
            Route::To(block) => self.place[last].block = block,
        }
    }

    /// A call that stays one, as that of a library does.
    #[inline(never)]
    fn advance(&mut self, flow: &Flow, reads: &[Var], moves: &mut Moves) -> Advance {
        moves.count = 0;
        match self.decide(flow, reads) {
            Decision::Need(variable) => Advance::Need(variable),
            Decision::Alarm { cause, value } => Advance::Alarm { cause, value },
            Decision::End => Advance::AtEnd,
            Decision::Go(route) => {
                self.go(route);
                Advance::Effect { write: None }
            }
            Decision::Write(change) => {
                let mut write = None;
                match change {
                    Change::Local(i, value) => {
                        let last = self.levels.len() - 1;
                        self.levels[last][i as usize - 1] = value;
                    }
                    Change::Own(v, value) => self.own[v as usize] = value,
                    Change::Shared(v, value) => write = Some((v, value)),
                }
                self.go(Route::Next);
                Advance::Effect { write }
            }
        }
    }
}

/// The loop: DO1, #1=#1+1, END1, and an end that is never reached.
fn looped() -> Flow {
    let code = vec![Instr::Read(1), Instr::Number(UNIT), Instr::Add];
    let bodies = [
        Body::Statement(Statement::Do),
        Body::Statement(Statement::Assign { variable: 1, code }),
        Body::Statement(Statement::End),
        Body::Last,
    ];
    let blocks = bodies
        .into_iter()
        .zip(3..)
        .map(|(body, line)| Block { line, body, partner: if line == 5 { 0 } else { 2 } })
        .collect();
    Flow { programs: vec![Program { number: 1, blocks }] }
}

/// What an answer adds to the count of blocks and of moves.
fn counted(answer: &Advance, moves: &Moves) -> (u64, u64) {
    match answer {
        Advance::Effect { write } => {
            let written = u64::from(matches!(write, Some((v, Var::Is(_))) if *v < 100));
            let listed = moves.list[..moves.count].iter();
            let leading = listed.filter(|what| matches!(what, Move::Rapid { to } if to.x + to.z > 0));
            (1, moves.count as u64 + written + leading.count() as u64 * u64::from(moves.line == 0))
        }
        Advance::AtEnd => (u64::from(moves.line > 9), 0),
        Advance::Need(variable) => (u64::from(*variable < 100), 0),
        Advance::Alarm { cause, value } => (u64::from(*cause == 0 && *value == 0), 0),
    }
}

fn main() {
    let turns = env::args().nth(1).and_then(|word| word.parse::<u64>().ok()).unwrap_or(0);
    // What the optimiser does not see through, as a tape that is read.
    let flow = std::hint::black_box(looped());
    let mut path = PathState::new();
    let (mut done, mut made) = (0, 0);
    let mut lent = Moves { line: 3, count: 0, list: [Move::Dwell { ms: 0 }; 8] };
    for _ in 0..turns {
        let (blocks, moves) = { let answer = path.advance(&flow, &[], &mut lent); counted(&answer, &lent) };
        done += blocks;
        made += moves;
    }
    let micro = path.levels[0][0].or_zero();
    println!("{done} blocks, {made} moves, #1 is {micro} millionths");
}
