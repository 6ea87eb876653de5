//! locate PLANFILE TASKS P0 P1 ..: questions a stored plan, without its set: does a box hold the state in which task 0 has done P0 actions, task 1 P1, and so on?
//! Give a position for each of the TASKS tasks, no more and no fewer, and - for a plan on standard input. The same program in C is `c/locate.c`, which says how a
//! plan may be stored and how the two forms are told apart; both print the same.
//!
//! Exit status: 0; 1 for a refusal, which is printed: that of the question, or one by the printer that the file has in the place of a plan; 2 with a line on
//! standard error if the arguments or the file's lines are wrong, the file can't be read, or standard output not written. (A standard output that was closed
//! before the start isn't noticed here: Rust opens it anew, on nothing.)

use arbiter::{sys, BoxKind, Location, Plan, Positions, Refusal, Refused};
use std::ffi::{OsStr, OsString};
use std::fs::File;
use std::io::{stdin, stdout, Read, Write};
use std::process::ExitCode;

const USAGE: &str = "usage: locate PLANFILE TASKS P0 P1 .., with - for a plan on standard input";

/// Digits of a word in text.
const DIGITS: usize = 8;

/// Bytes of a stored word.
const WORD_BYTES: usize = 4;

/// Far more than any plan of an analysis has, and an end for files that have none.
const MAX_BYTES: u64 = 64 * 1024 * 1024;

/// What ends the program with status 2: a line for standard error.
type Stopped = String;

// --- The arguments ---

/// A number in decimal digits, at most usize::MAX, and what stands behind it; none where no digit stands.
fn digits(text: &str) -> Option<(usize, &str)> {
    let end = text.find(|character: char| !character.is_ascii_digit()).unwrap_or(text.len());
    let (number, behind) = text.split_at(end);
    let add = |sum: usize, digit: u8| sum.checked_mul(10)?.checked_add(usize::from(digit - b'0'));
    (end > 0).then(|| (number.bytes().try_fold(0, add).unwrap_or(usize::MAX), behind))
}

/// The number, if the argument is one and nothing else.
fn number(argument: &OsStr) -> Option<usize> {
    match digits(argument.to_str()?)? {
        (number, "") => Some(number),
        _ => None,
    }
}

fn positions(tasks: usize, arguments: &[OsString]) -> Result<Positions, Stopped> {
    if arguments.len() != tasks {
        return Err(format!("a position is needed for each task: TASKS is {tasks}, and the positions are {}", arguments.len()));
    }
    let mut positions = [0; sys::MAX_TASKS];
    for (task, argument) in arguments.iter().enumerate() {
        let position = number(argument).and_then(|number| u8::try_from(number).ok());
        positions[task] = position.ok_or(format!("P{task} isn't a position: a number from 0 to {}", u8::MAX))?;
    }
    Ok(positions)
}

// --- The plan ---

/// What a plan file has.
enum Stored {
    /// A plan's words, and whether they stood in text: then the word with index i is line i + 1, else it starts at byte 4 * i.
    Words { words: Vec<u32>, in_text: bool },
    /// What the printer prints for a set that it refuses: the number and the place.
    Refusal(u32, u32),
}

/// The system's own words for why a file can't be read.
fn reason(error: std::io::Error) -> Stopped {
    let text = error.to_string();
    format!("can't read the plan file: {}", text.split(" (os error").next().unwrap_or(&text))
}

fn bytes_in(path: &OsStr) -> Result<Vec<u8>, Stopped> {
    let mut bytes = Vec::new();
    let read = if path == "-" {
        stdin().take(MAX_BYTES + 1).read_to_end(&mut bytes)
    } else {
        File::open(path).and_then(|file| file.take(MAX_BYTES + 1).read_to_end(&mut bytes))
    };
    read.map_err(reason)?;
    if bytes.len() as u64 > MAX_BYTES {
        return Err("the plan file is longer than any plan: over 64 MiB".to_string());
    }
    Ok(bytes)
}

/// The file as text, if every byte in it is a printable ASCII character, a tab or a line's end. No plan in stored words is.
fn text_of(bytes: &[u8]) -> Option<&str> {
    let is_text = bytes.iter().all(|byte| matches!(byte, b'\t' | b'\n' | b'\r' | b' '..=b'~'));
    std::str::from_utf8(bytes).ok().filter(|_| is_text)
}

/// Number and place of the printer's refusal, 'refused N at P' alone, neither number over 32 bits.
fn refusal_in(text: &str) -> Option<(u32, u32)> {
    let (number, behind) = digits(text.strip_prefix("refused ")?)?;
    let (place, behind) = digits(behind.strip_prefix(" at ")?)?;
    let alone = behind.bytes().all(|byte| matches!(byte, b'\r' | b'\n'));
    Some((number.try_into().ok()?, place.try_into().ok()?)).filter(|_| alone)
}

/// The word of a line.
fn word_of(line: &str) -> Option<u32> {
    let line = line.strip_suffix('\r').unwrap_or(line);
    let capitals = line.len() == DIGITS && line.bytes().all(|digit| matches!(digit, b'0'..=b'9' | b'A'..=b'F'));
    u32::from_str_radix(line, 16).ok().filter(|_| capitals)
}

fn words_of_text(text: &str) -> Result<Vec<u32>, Stopped> {
    let complaint = |index: usize| format!("line {} of the plan file isn't a word: eight hexadecimal digits, letters as capitals", index + 1);
    text.split_terminator('\n').enumerate().map(|(index, line)| word_of(line).ok_or_else(|| complaint(index))).collect()
}

fn words_of_bytes(bytes: &[u8]) -> Result<Vec<u32>, Stopped> {
    if bytes.len() % WORD_BYTES != 0 {
        return Err(format!("the plan file is neither text nor stored words, four bytes each: it has {} bytes", bytes.len()));
    }
    Ok(bytes.chunks_exact(WORD_BYTES).map(|word| u32::from_le_bytes([word[0], word[1], word[2], word[3]])).collect())
}

fn stored_in(path: &OsStr) -> Result<Stored, Stopped> {
    let bytes = bytes_in(path)?;
    match text_of(&bytes) {
        None => Ok(Stored::Words { words: words_of_bytes(&bytes)?, in_text: false }),
        Some(text) => match refusal_in(text) {
            Some((number, place)) => Ok(Stored::Refusal(number, place)),
            None if text.starts_with("refused") => {
                Err("the plan file begins as the printer's refusal of a set does, but isn't 'refused N at P' alone".to_string())
            }
            None => Ok(Stored::Words { words: words_of_text(text)?, in_text: true }),
        },
    }
}

// --- The answer ---

/// Where a word stands, for people.
fn place_of(index: usize, in_text: bool) -> String {
    if in_text {
        format!("word {index} (line {})", index + 1)
    } else {
        format!("word {index} (byte {})", WORD_BYTES * index)
    }
}

fn is_forbidden(kind: BoxKind) -> bool {
    matches!(kind, BoxKind::Forbidden { .. })
}

fn told_box(plan: Plan, index: usize, positions: Positions, in_text: bool) -> String {
    let plan_box = plan.box_at(index).expect("a box starts where the library says that one does");
    // How many boxes of its kind these words have.
    let count = |words| Plan::new(words).boxes().filter(|other| is_forbidden(other.kind) == is_forbidden(plan_box.kind)).count();
    let (kind, what) = match plan_box.kind {
        BoxKind::Forbidden { device } => ("forbidden", format!("device {device} would have more units held than it has")),
        BoxKind::Unsafe => ("unsafe", "the tasks can no longer all finish".to_string()),
    };
    let (number, all, place) = (count(&plan.words()[..index]) + 1, count(plan.words()), place_of(index, in_text));
    let mut told = format!("in {kind} box {number} of {all}, which starts at {place}: {what}\n");
    for (task, (side, position)) in plan_box.sides().zip(positions).enumerate() {
        told += &format!("task {task}: position {position}, the box has {} to {}\n", side.start(), side.end());
    }
    told
}

fn told_refusal(refused: Refused, words: &[u32], in_text: bool) -> String {
    let word = match (refused.refusal, words.get(refused.place)) {
        (Refusal::OutsideLayout, Some(word)) => format!("{} is {word:08X}\n", place_of(refused.place, in_text)),
        (Refusal::OutsideLayout, None) => {
            let words = words.len();
            format!("it ends after {words} word{}, without END\n", if words == 1 { "" } else { "s" })
        }
        _ => String::new(),
    };
    format!("{refused}\n{word}")
}

/// The printer's refusal, which may be of a version that has more of them.
fn told_refusal_of_set(number: u32, place: u32) -> String {
    let refusal = u8::try_from(number).ok().and_then(|number| Refusal::try_from(number).ok());
    let why = refusal.map_or("no refusal has this number", Refusal::text);
    format!("the file has no plan, but the printer's refusal of a set\nrefused {number} at {place}: {why}\n")
}

/// What is printed, and the status.
fn answered(arguments: &[OsString]) -> Result<(String, u8), Stopped> {
    if arguments == ["--help"] {
        return Ok((format!("{USAGE}\n"), 0));
    }
    let [path, tasks, rest @ ..] = arguments else {
        return Err(USAGE.to_string());
    };
    let tasks = number(tasks).ok_or("TASKS isn't a number: how many tasks the plan is for, 1 to 8")?;
    // Any other task count is for the library to refuse, whatever the positions.
    let positions = if (1..=sys::MAX_TASKS).contains(&tasks) { positions(tasks, rest)? } else { [0; sys::MAX_TASKS] };
    let (words, in_text) = match stored_in(path)? {
        Stored::Refusal(number, place) => return Ok((told_refusal_of_set(number, place), 1)),
        Stored::Words { words, in_text } => (words, in_text),
    };
    let plan = Plan::new(&words);
    Ok(match plan.locate(positions, tasks) {
        Ok(Location::Forbidden { index } | Location::Unsafe { index }) => (told_box(plan, index, positions, in_text), 0),
        Ok(Location::Neither) => ("in no box: by this plan the tasks can still all finish, if none is past its last action\n".to_string(), 0),
        Err(refused) => (told_refusal(refused, &words, in_text), 1),
    })
}

fn stop(why: &str) -> ExitCode {
    eprintln!("locate: {why}");
    ExitCode::from(2)
}

fn main() -> ExitCode {
    let arguments: Vec<OsString> = std::env::args_os().skip(1).collect();
    match answered(&arguments) {
        Err(why) => stop(&why),
        // println! would panic where standard output can't be written.
        Ok((told, status)) => match stdout().write_all(told.as_bytes()).and_then(|()| stdout().flush()) {
            Ok(()) => ExitCode::from(status),
            Err(_) => stop("can't write standard output"),
        },
    }
}
