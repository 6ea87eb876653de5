//! serve SETFILE [SHARE WINDOW]: reads a set (four bytes a word, lowest first), analyses it, serves rounds of bids until every task is finished, starts
//! anew and prints the route from the start. Each bid brings SHARE and WINDOW; without them both are 255, and no share is ever spent. At last it tries
//! these settings and others for a turn in which task 0 bids twice as often. The same program in C is `c/serve.c`, in Python `python/serve.py`; all print
//! the same.
//!
//! Exit status: 0; 1 if a call was refused, with the refusal as the last line; 2 if the arguments are wrong, the file can't be read or standard output not written.

use arbiter::{words_of, Analysed, BidAnswer, BoxKind, Refused, Service, Settings};
use std::ffi::{OsStr, OsString};
use std::io::{stdout, Write};
use std::process::ExitCode;

const USAGE: &str = "usage: serve SETFILE [SHARE WINDOW]";

/// The number in an argument of decimal digits, at most u32::MAX: what isn't 1 to 255 is for the library to refuse, and must not be cut to what is.
fn number(argument: &OsStr) -> Option<u32> {
    let text = argument.to_str()?;
    let add = |sum: u32, digit: u8| sum.saturating_mul(10).saturating_add(u32::from(digit - b'0'));
    (!text.is_empty() && text.bytes().all(|byte| byte.is_ascii_digit())).then(|| text.bytes().fold(0, add))
}

/// The settings that the arguments behind the set file say.
fn settings(arguments: &[OsString]) -> Result<Settings, &'static str> {
    match arguments {
        [] => Ok(Settings::OFF),
        [share, window] => {
            let share = number(share).ok_or("SHARE isn't a number: 1 to 255")?;
            let window = number(window).ok_or("WINDOW isn't a number: 1 to 255")?;
            Ok(Settings::new(share, window))
        }
        _ => Err(USAGE),
    }
}

/// What the set and its plan have, in numbers, and how much of the grid is unsafe.
fn described(analysed: &Analysed) -> String {
    let set = analysed.set();
    let plan = analysed.plan();
    let boxes = plan.boxes().count();
    let unsafe_boxes = plan.boxes().filter(|plan_box| plan_box.kind == BoxKind::Unsafe).count();
    let of_set = format!("words: {}, devices: {}, tasks: {}, states: {}", set.words().len(), set.devices(), set.tasks(), set.states());
    let of_plan = format!("forbidden boxes: {}, unsafe boxes: {unsafe_boxes}", boxes - unsafe_boxes);
    let dead = format!("dead states: {} reached, {} not", plan.dead_states().count(), plan.unreached_states().count());
    format!("{of_set}\n{of_plan}, {dead}\nunsafe: {}\n", analysed.per_thousand())
}

/// One bid of every task, each told; whether all of them were finished already.
fn all_finished(service: &mut Service, settings: Settings, round: usize, told: &mut String) -> Result<bool, Refused> {
    let mut all = true;
    for task in 0..service.analysed().set().tasks() {
        let answer = service.bid(task, settings)?;
        *told += &format!("round {round}, task {task}: {answer}\n");
        all &= answer == BidAnswer::Finished;
    }
    Ok(all)
}

/// A trial of these settings: task 0, then every task in turn, for as many rounds as there may be, since it stops once every task is finished.
fn tried(analysed: &Analysed, settings: Settings) -> Result<String, Refused> {
    let tasks = analysed.set().tasks();
    let order: Vec<u8> = [0].into_iter().chain(0..tasks as u8).collect();
    let trial = analysed.trial(&order, u16::MAX, settings)?;
    let Settings { share, window } = settings;
    let mut told = format!("trial with share {share}, window {window}: {} bids, {} of them answered finished\n", trial.made, trial.finished);
    for (task, row) in trial.rows.iter().enumerate().take(tasks) {
        told += &format!("trial, task {task}: {row}\n");
    }
    Ok(told)
}

fn serve(bytes: &[u8], settings: Settings, told: &mut String) -> Result<(), Refused> {
    let analysed = Analysed::new(words_of(bytes)?)?;
    *told += &described(&analysed);
    *told += &format!("share: {}, window: {}\n", settings.share, settings.window);

    let mut service = Service::start(analysed);
    let mut round = 1;
    while !all_finished(&mut service, settings, round, told)? {
        round += 1;
    }
    *told += &format!("grants: {}\n", service.record().grants());

    service.again()?;
    *told += "again: every task is at its start\nroute:";
    for task in service.route()? {
        *told += &format!(" {task}");
    }
    *told += "\n";

    let analysed = service.analysed();
    *told += &tried(analysed, settings)?;
    // A claim and a release each, and room for them in the window.
    *told += &tried(analysed, Settings::new(2, 2 * analysed.set().tasks() as u32))?;
    Ok(())
}

fn stop(why: &str) -> ExitCode {
    eprintln!("serve: {why}");
    ExitCode::from(2)
}

fn main() -> ExitCode {
    let arguments: Vec<OsString> = std::env::args_os().skip(1).collect();
    let [path, rest @ ..] = &arguments[..] else {
        return stop(USAGE);
    };
    let settings = match settings(rest) {
        Ok(settings) => settings,
        Err(why) => return stop(why),
    };
    let bytes = match std::fs::read(path) {
        Ok(bytes) => bytes,
        Err(why) => return stop(&format!("can't read the set file: {why}")),
    };
    let mut told = String::new();
    let status = match serve(&bytes, settings, &mut told) {
        Ok(()) => ExitCode::SUCCESS,
        Err(refused) => {
            told += &format!("{refused}\n");
            ExitCode::from(1)
        }
    };
    // println! would panic where standard output can't be written.
    match stdout().write_all(told.as_bytes()).and_then(|()| stdout().flush()) {
        Ok(()) => status,
        Err(why) => stop(&format!("can't write standard output: {why}")),
    }
}
