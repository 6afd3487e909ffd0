//! Holds a `compile`, and runs of the images, against the reader and the meaning of the productions.

use std::{env, fs};

use super::extremes::{self, Extreme};
use super::maker::{Case, Maker};
use super::tally::Tally;
use crate::cases;
use crate::implementations::Recognise;
use crate::notation::meaning::{self, Cap, GivenUp, Meant};
use crate::notation::{self, Compiled, Fault, Stop, Why, LONGEST_IMAGE};
use crate::outcome::{Outcome, Refused};
use crate::random::Random;
use crate::wrong::Wrong;
use crate::{check, hex, Limits, Numbers};

pub const SEED: u64 = 20_260_201;
pub const COUNT: u64 = 100_000;

/// The wrong readers read this many texts, the first ones.
const WRONG_COUNT: u64 = 10_000;

/// How far a run of an image goes, and one of the tree.
const LIMITS: Limits = Limits { steps: 4000, depth: 256, room: 256 };
const CAP: Cap = Cap { steps: 4000, depth: 1000 };

/// Text and buffer give an answer.
pub type Compile = fn(&[u8], &mut [u8]) -> Outcome;

/// What is held to the reader and to the meaning.
#[derive(Clone, Copy)]
pub struct Held {
    pub compile: Compile,
    pub recognise: Recognise,
}

/// All extremes and so many random texts: the same number, place and image, with every byte of the buffer, and the same answers to runs. There must be
/// enough texts of every sort, unless fewer are asked for than usual.
pub fn compare(seed: u64, count: u64, held: Held) -> Result<(), String> {
    let extremes = extremes::all();
    for extreme in &extremes {
        run_extreme(extreme, held)?;
    }
    println!("{} extremes are answered as the page says", extremes.len());
    println!("seed {seed}, {count} texts");
    let mut comparison = Comparison { held, random: Random::new(!seed), tally: Tally::default() };
    let mut maker = Maker::new(seed);
    let mut wrong = Wrong::new("text", &Fault::ALL);
    for i in 1..=count {
        let case = maker.case();
        let read = notation::compile(&case.text, None);
        comparison.case(&case, &read).map_err(|what| format!("text {i}: {what}\n{}", kept(&case.text)))?;
        if i <= WRONG_COUNT {
            wrong.count(i, |fault| image_of(&notation::compile(&case.text, Some(fault))) != image_of(&read));
        }
    }
    println!("all agree: numbers, places, images, every byte of the buffers, and the runs of the images with the meaning of the texts");
    print!("{}", comparison.tally);
    println!("wrong readers, and in how many of the first {WRONG_COUNT} texts each is told apart:");
    print!("{wrong}");
    if count < COUNT {
        println!("fewer than {COUNT} texts: no count is asked for");
        return Ok(());
    }
    let mut faults = comparison.tally.faults();
    faults.extend(wrong.shortages());
    if faults.is_empty() {
        println!("ok");
        return Ok(());
    }
    Err(faults.join("\n"))
}

/// Keeps a text in a file, and says how to run it again.
fn kept(text: &[u8]) -> String {
    let file = env::temp_dir().join("differs.nez");
    match fs::write(&file, text) {
        Ok(()) => format!("to run it again: texts --text {} [INPUT]", file.display()),
        Err(error) => format!("{}: {error}; the text is {}", file.display(), hex::write(text)),
    }
}

/// An answer, and the buffer after it with the bytes behind that were not lent.
#[derive(PartialEq, Eq)]
struct Seen {
    outcome: Outcome,
    memory: Vec<u8>,
}

/// Bytes that stand behind the buffer: the call must not reach them.
const BEHIND: usize = 16;

/// A buffer of so many bytes and those behind it. No two neighbours are equal, so what is written shows.
fn memory(room: usize) -> Vec<u8> {
    (0..room + BEHIND).map(|i| (i * 89 + 147) as u8).collect()
}

fn seen(text: &[u8], room: usize, compile: Compile) -> Seen {
    let mut memory = memory(room);
    let outcome = compile(text, &mut memory[..room]);
    Seen { outcome, memory }
}

/// What must be seen, with a buffer of so many bytes.
fn expected(answer: Result<&[u8], Refused>, room: usize) -> Seen {
    let mut memory = memory(room);
    let outcome = match answer {
        Err(Refused { number, at }) => Outcome { number, length: 0, at },
        Ok(image) if image.len() > room => Outcome { number: Why::Buffer.number(), length: 0, at: 0 },
        Ok(image) => {
            memory[..image.len()].copy_from_slice(image);
            Outcome { number: 0, length: image.len() as u32, at: 0 }
        }
    };
    Seen { outcome, memory }
}

fn image_of(read: &Result<Compiled, Stop>) -> Result<&[u8], Refused> {
    match read {
        Ok(compiled) => Ok(&compiled.image),
        Err(stop) => Err((*stop).into()),
    }
}

/// Says how two answers differ.
fn same(got: &Seen, expected: &Seen) -> Result<(), String> {
    if got.outcome != expected.outcome {
        return Err(format!("the answer is {}, and by the reader it is {}", got.outcome, expected.outcome));
    }
    match got.memory.iter().zip(&expected.memory).position(|(got, expected)| got != expected) {
        Some(at) => Err(format!("{}: byte {at} of the buffer is {:02x}, and should be {:02x}", got.outcome, got.memory[at], expected.memory[at])),
        None => Ok(()),
    }
}

/// An extreme: the reader must answer what the page says, and what is held to it must answer the same.
fn run_extreme(extreme: &Extreme, held: Held) -> Result<(), String> {
    let Extreme { what, text, room, answer } = extreme;
    let read = notation::compile(text, None);
    let expected = expected(image_of(&read), *room);
    let by_page: Result<usize, Refused> = expected.outcome.into();
    if by_page != *answer {
        return Err(format!("'{what}': the reader answers {by_page:?}, and the page {answer:?}\n{}", kept(text)));
    }
    same(&seen(text, *room, held.compile), &expected).map_err(|fault| format!("'{what}': {fault}\n{}", kept(text)))
}

/// A comparison under way.
struct Comparison {
    held: Held,
    random: Random,
    tally: Tally,
}

impl Comparison {
    fn case(&mut self, case: &Case, read: &Result<Compiled, Stop>) -> Result<(), String> {
        self.is_what_was_written(case, read)?;
        let room = self.room(read);
        let expected = expected(image_of(read), room);
        same(&seen(&case.text, room, self.held.compile), &expected)?;
        match read {
            Ok(_) if expected.outcome.number == Why::Buffer.number() => self.tally.count_refused(Stop { why: Why::Buffer, at: 0 }),
            Err(stop) => self.tally.count_refused(*stop),
            Ok(compiled) => {
                self.tally.count_good(case, compiled);
                self.run(compiled)?;
            }
        }
        Ok(())
    }

    /// Holds the reader to the productions that the text was written from.
    fn is_what_was_written(&self, case: &Case, read: &Result<Compiled, Stop>) -> Result<(), String> {
        let right = match (&case.productions, read) {
            (None, _) => true,
            (Some(written), Ok(compiled)) => compiled.productions == *written,
            (Some(written), Err(_)) => notation::read(&case.text).as_ref() == Some(written),
        };
        if right {
            return Ok(());
        }
        Err("the reader does not read what was written".into())
    }

    /// A buffer too short, just long enough, or longer.
    fn room(&mut self, read: &Result<Compiled, Stop>) -> usize {
        let needed = read.as_ref().map_or(0, |compiled| compiled.image.len());
        match self.random.below(40) {
            0 => needed.saturating_sub(1),
            1 => self.random.below(needed + 1),
            2 => LONGEST_IMAGE,
            3..=19 => needed + 1 + self.random.below(40),
            _ => needed,
        }
    }

    /// Runs the image, and the tree without it, on an input.
    fn run(&mut self, compiled: &Compiled) -> Result<(), String> {
        check(&compiled.image).map_err(|refusal| format!("the image is {refusal}"))?;
        let input = cases::input(&mut self.random, &compiled.grammar);
        let (answer, slots, meant) = both(compiled, &input, self.held);
        let refused = answer.kind != Numbers::ACCEPTED && answer.kind != Numbers::FAILED;
        self.tally.count_run(&meant, refused);
        if agree(&answer, &slots, &meant, &compiled.tables) {
            return Ok(());
        }
        Err(format!("on the input {} the image gives {answer}, and by its meaning the text gives {meant:?}", hex::write(&input)))
    }
}

/// A run of the image, with its slots, and one of the tree.
fn both<'a>(compiled: &'a Compiled, input: &[u8], held: Held) -> (Numbers, Vec<u32>, Meant<'a>) {
    let mut slots = vec![0; LIMITS.slots()];
    let answer = (held.recognise)(&compiled.image, input, LIMITS, &mut slots);
    (answer, slots, meaning::run(&compiled.productions, input, CAP))
}

/// Whether a run of the image and one of the tree give the same, where both give something.
fn agree(answer: &Numbers, slots: &[u32], meant: &Meant, tables: &[String]) -> bool {
    match meant {
        Meant::GivenUp(GivenUp::Steps | GivenUp::Depth) => true,
        _ if matches!(answer.kind, 12..=14) => true,
        Meant::GivenUp(GivenUp::EmptyRound(at)) => answer.kind == 15 && answer.place as usize == *at,
        Meant::Failed => answer.kind == Numbers::FAILED,
        Meant::Accepted { consumed, symbols } => {
            let table = |name: &str| tables.iter().position(|table| table == name).unwrap_or(usize::MAX);
            let meant = symbols.iter().flat_map(|symbol| [table(symbol.table), symbol.start, symbol.end]);
            answer.kind == Numbers::ACCEPTED
                && answer.consumed as usize == *consumed
                && answer.symbols as usize == symbols.len()
                && slots.iter().take(3 * symbols.len()).map(|slot| *slot as usize).eq(meant)
        }
    }
}

/// One text: what the reader makes of it, and what is held to it. With an input, a run too.
pub fn show(text: &[u8], input: Option<&[u8]>, held: Held) -> Result<(), String> {
    let read = notation::compile(text, None);
    let expected = expected(image_of(&read), LONGEST_IMAGE);
    let got = seen(text, LONGEST_IMAGE, held.compile);
    for (who, seen) in [("reader", &expected), ("library", &got)] {
        println!("{who}: {}", seen.outcome);
        if seen.outcome.number == 0 {
            println!("  {}", hex::write(&seen.memory[..(seen.outcome.length as usize).min(LONGEST_IMAGE)]));
        }
    }
    if let Err(stop) = &read {
        let why = Why::ALL.iter().find(|(why, _)| *why == stop.why);
        println!("by the reader {}", why.map_or("", |(_, name)| name));
    }
    same(&got, &expected)?;
    if let (Ok(compiled), Some(input)) = (&read, input) {
        let (answer, slots, meant) = both(compiled, input, held);
        println!("the image gives {answer}, with the slots {:?}", &slots[..3 * answer.symbols as usize]);
        println!("by its meaning the text gives {meant:?}");
        if !agree(&answer, &slots, &meant, &compiled.tables) {
            return Err("they differ".into());
        }
    }
    println!("they agree");
    Ok(())
}
