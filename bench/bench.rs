// The proved library beside the yardstick, in one run on the same input: the best time of each, and whether they agree; and the stack that the library's calls
// take. bench/run builds and runs it. It prints lines with tabs between, which bench/tables.py and bench/growth.py turn into the tables of docs/PERFORMANCE.md:
//
//     bench calls FILE..      for each set and call: set, words, call, answer, and nanoseconds of both; for sets of eight tasks that all have actions also for bids
//                             whose shares are spent
//     bench questions FILE..  for each set's plan and some states: set, tasks, plan words, where the state lies, answer, and nanoseconds of both
//     bench cleanings FILE..  for each set, which may have devices that no task claims: set, words, words that go, answer, and nanoseconds of both
//     bench trials FILE..     for each set file NAME.set, with what the trial is lent beside it in NAME.trial: set, tasks, bids, how many of them were answered Granted, Busy,
//                             Held, Share spent and Finished, and nanoseconds of both
//     bench growth FILE..     for each set file FAMILY-SIZE.set: family, size, states, plan words, and nanoseconds of both analyses
//     bench stack FILE..      for each call: its name, and the most bytes of stack that it took on any of the sets
//
// The two take turns, and the best of many turns counts: what else the machine does meanwhile only ever adds to a time. A turn is a batch of calls, as many as
// take long enough for the clock. Where code lies in memory moves a time by up to a tenth, so bench/run builds the benchmark several times, with SHIFT from 0 on,
// and bench/best.py takes the best of all: each build has 16 bytes more in front of the library's code. The builds run one after the other, so a minute in which the
// machine is slow spoils no best time either.
#[allow(dead_code)]
#[path = "baseline.rs"]
mod baseline;
#[allow(dead_code)]
#[path = "../hosts/rust/src/sys.rs"]
mod sys;

use baseline::Settings;
use std::arch::{asm, global_asm};
use std::hint::black_box;
use std::time::Instant;
use sys::{Analysis, Answer};

const UNWRITTEN: u8 = 0xFF; // fills a map slice before the analysis, as hosts do
const MAP: usize = 65536; // bytes: fits every set
const PLAN: usize = 400_000; // more words than any plan has
const SHORT_PLAN: usize = 64;
const TURNS: u128 = 250; // milliseconds that the two take turns for
const LONG: u128 = 1000; // milliseconds after which calls that take long have no further turn
const NO_SHARES: Settings = Settings { share: 255, window: 255 };
const SHARES: Settings = Settings { share: 1, window: 8 };

// A piece of code that is never run, 16 bytes longer for each step of SHIFT, a digit.
const SHIFT: usize = 16 * (env!("SHIFT").as_bytes()[0] - b'0') as usize + 1;
global_asm!(".section .text.shift,\"ax\",@progbits", "shift:", ".fill {shift}, 1, 0x90", ".text", shift = const SHIFT);
extern "C" {
    fn shift();
}

// --- The yardstick's answers in the library's form, to compare them ---

fn plain(kind: u32, value: u64) -> Answer {
    Answer { kind, refusal: 0, value }
}

fn refused(refusal: baseline::Refusal) -> Answer {
    Answer { kind: sys::REFUSED, refusal: refusal.number, value: refusal.place }
}

fn of_bid(answer: Result<baseline::Bid, baseline::Refusal>) -> Answer {
    match answer {
        Ok(baseline::Bid::Granted) => plain(sys::GRANTED, 0),
        Ok(baseline::Bid::Finished) => plain(sys::FINISHED, 0),
        Ok(baseline::Bid::Busy(device)) => plain(sys::BUSY, device as u64),
        Ok(baseline::Bid::Held(rank)) => plain(sys::HELD, rank as u64),
        Ok(baseline::Bid::ShareSpent) => plain(sys::SHARE_SPENT, 0),
        Err(refusal) => refused(refusal),
    }
}

fn of_length(kind: u32, answer: Result<usize, baseline::Refusal>) -> Answer {
    answer.map_or_else(refused, |length| plain(kind, length as u64))
}

fn of_analysis(answer: Result<baseline::Planned, baseline::Refusal>) -> Analysis {
    match answer {
        Ok(baseline::Planned { words, quotient, remainder }) => Analysis { answer: plain(sys::PLANNED, words as u64), quotient, remainder },
        Err(refusal) => Analysis { answer: refused(refusal), quotient: 0, remainder: 0 },
    }
}

fn of_question(answer: Result<baseline::Located, baseline::Refusal>) -> Answer {
    match answer {
        Ok(baseline::Located::Forbidden(index)) => plain(sys::IN_FORBIDDEN_BOX, index as u64),
        Ok(baseline::Located::Unsafe(index)) => plain(sys::IN_UNSAFE_BOX, index as u64),
        Ok(baseline::Located::Neither) => plain(sys::IN_NO_BOX, 0),
        Err(refusal) => refused(refusal),
    }
}

fn of_trial(answer: Result<baseline::Tried, baseline::Refusal>) -> sys::Trial {
    let told = |answer: Answer, counted: baseline::Tried| {
        let rows = counted.rows.map(|row| sys::Tally { granted: row.granted, busy: row.busy, held: row.held, share_spent: row.share_spent });
        sys::Trial { answer, rows, finished: counted.finished }
    };
    match answer {
        Ok(tried) => told(plain(sys::TRIED, tried.made as u64), tried),
        Err(refusal) => told(refused(refusal), baseline::Tried::default()),
    }
}

fn text(answer: &Answer) -> String {
    match answer.kind {
        sys::REFUSED => format!("refused {}", answer.refusal),
        sys::ACCEPTED => "accepted".to_string(),
        sys::PLANNED => format!("{} word{}", answer.value, if answer.value == 1 { "" } else { "s" }),
        sys::ROUTED => format!("{} steps", answer.value),
        sys::IN_FORBIDDEN_BOX => format!("forbidden, word {}", answer.value),
        sys::IN_UNSAFE_BOX => format!("unsafe, word {}", answer.value),
        sys::IN_NO_BOX => "neither".to_string(),
        sys::CLEANED => format!("{} words", answer.value),
        sys::GRANTED => "granted".to_string(),
        sys::SHARE_SPENT => "share spent".to_string(),
        _ => "restarted".to_string(),
    }
}

fn other_record(record: &sys::Record) -> baseline::Record {
    baseline::Record { positions: record.positions, grants: record.grants, counts: record.counts }
}

fn record_of(record: &baseline::Record) -> sys::Record {
    sys::Record { positions: record.positions, grants: record.grants, counts: record.counts }
}

// --- The library's calls on slices ---

fn read(words: &[u32]) -> Answer {
    unsafe { sys::arbiter_read(words.as_ptr(), words.len()) }
}

fn analyse(words: &[u32], map: &mut [u8], plan: &mut [u32]) -> Analysis {
    unsafe { sys::arbiter_analyse(words.as_ptr(), words.len(), map.as_mut_ptr(), map.len(), plan.as_mut_ptr(), plan.len()) }
}

fn bid(record: &mut sys::Record, words: &[u32], map: &[u8], task: usize, settings: Settings) -> Answer {
    let Settings { share, window } = settings;
    unsafe { sys::arbiter_bid(record, words.as_ptr(), words.len(), map.as_ptr(), map.len(), task, share, window) }
}

fn again(record: &mut sys::Record, words: &[u32]) -> Answer {
    unsafe { sys::arbiter_again(record, words.as_ptr(), words.len()) }
}

fn route(record: sys::Record, words: &[u32], map: &[u8], slice: &mut [u8]) -> Answer {
    unsafe { sys::arbiter_route(record, words.as_ptr(), words.len(), map.as_ptr(), map.len(), slice.as_mut_ptr(), slice.len()) }
}

fn locate(state: sys::State, plan: &[u32], tasks: usize) -> Answer {
    unsafe { sys::arbiter_locate(state, plan.as_ptr(), plan.len(), tasks) }
}

fn clean(words: &[u32], slice: &mut [u32]) -> Answer {
    unsafe { sys::arbiter_clean(words.as_ptr(), words.len(), slice.as_mut_ptr(), slice.len()) }
}

fn trial(words: &[u32], map: &[u8], order: &[u8], rounds: u16, settings: Settings) -> sys::Trial {
    let Settings { share, window } = settings;
    unsafe { sys::arbiter_trial(words.as_ptr(), words.len(), map.as_ptr(), map.len(), order.as_ptr(), order.len(), rounds, share, window) }
}

// --- Timing ---

/// Nanoseconds of one call of each.
type Times = (f64, f64);

/// Both in turn, best of many.
fn best_of(mut proved: impl FnMut(), mut yardstick: impl FnMut()) -> Times {
    let time = |batch: u32, call: &mut dyn FnMut(u32)| -> f64 {
        let began = Instant::now();
        call(batch);
        began.elapsed().as_nanos() as f64 / batch as f64
    };
    let mut proved = |batch: u32| (0..batch).for_each(|_| proved());
    let mut yardstick = |batch: u32| (0..batch).for_each(|_| yardstick());
    // The clock itself takes some 30 ns: a batch of 30 µs drowns that.
    let once = time(3, &mut yardstick).min(time(3, &mut yardstick)).max(1.0);
    let batch = (30_000.0 / once).ceil().clamp(1.0, 10_000.0) as u32;
    let (mut best, mut other_best) = (f64::MAX, f64::MAX);
    let began = Instant::now();
    let mut turns = 0;
    // Thirty turns at least; five where thirty would take too long, as they would for millions of bids.
    while turns < 5 || began.elapsed().as_millis() < if turns < 30 { LONG } else { TURNS } {
        best = best.min(time(batch, &mut proved));
        other_best = other_best.min(time(batch, &mut yardstick));
        turns += 1;
    }
    (best, other_best)
}

/// A call on a set: what stands in its line before the times, and the best times.
struct Line {
    text: String,
    times: Times,
}

struct Row<'a> {
    set: &'a str,
    words: &'a [u32],
}

impl Row<'_> {
    fn line(&self, call: &str, answer: &str, times: Times, agree: bool) -> Line {
        if !agree {
            // A wrong answer's time is worth nothing.
            eprintln!("bench: {}, {call}: the two differ", self.set);
            std::process::exit(1);
        }
        Line { text: format!("{}\t{}\t{call}\t{answer}", self.set, self.words.len()), times }
    }

    fn read(&self) -> Line {
        let words = self.words;
        let answer = read(words);
        let other = baseline::read(words).map_or_else(refused, |set| plain(sys::ACCEPTED, set.grid as u64));
        let times = best_of(
            || {
                let _ = black_box(read(black_box(words)));
            },
            || {
                black_box(baseline::read(black_box(words))).ok();
            },
        );
        self.line("read", &text(&answer), times, answer == other)
    }

    fn analyse(&self, room: usize) -> Line {
        let (answer, agree, times) = analyses(self.words, room);
        self.line(if room == PLAN { "analyse" } else { "analyse, slice of 64 words" }, &text(&answer), times, agree)
    }

    /// A list of bids, the same for both, from this record; the time is that of one bid on average. A refused set has one bid.
    fn bids(&self, call: &str, map: &[u8], start: sys::Record, tasks: &[usize], settings: Settings) -> Line {
        let words = self.words;
        let mut record = start;
        let mut other = other_record(&start);
        let mut agree = true;
        let mut granted = 0;
        let mut last = plain(0, 0);
        for &task in tasks {
            last = bid(&mut record, words, map, task, settings);
            agree &= last == of_bid(baseline::bid(&mut other, words, map, task, settings)) && other == other_record(&record);
            granted += usize::from(last.kind == sys::GRANTED);
        }
        let (proved, yardstick) = best_of(
            || {
                let mut record = start;
                for &task in black_box(tasks) {
                    let _ = black_box(bid(&mut record, black_box(words), map, task, black_box(settings)));
                }
            },
            || {
                let mut record = other_record(&start);
                for &task in black_box(tasks) {
                    black_box(baseline::bid(&mut record, black_box(words), map, task, black_box(settings))).ok();
                }
            },
        );
        let each = tasks.len() as f64;
        // A single bid tells its answer.
        let answers = if tasks.len() == 1 { text(&last) } else { format!("{granted} granted, {} not yet", tasks.len() - granted) };
        self.line(call, &answers, (proved / each, yardstick / each), agree)
    }

    /// Where shares are spent, on a set of eight tasks that all have actions: a list of bids from the start to the end with a share of 1; a bid that is answered Share
    /// spent for the sake of the last task, which alone can go on; and one that is granted although its share is spent, since the others wait for a device.
    fn shared_bids(&self, map: &[u8], set: &baseline::Set) -> Vec<Line> {
        let fresh = unsafe { sys::arbiter_fresh() };
        let (tasks, _) = bids_to_the_end(self.words, map, set, SHARES);
        // All tasks between the first and the last go to their ends, which uses a window up; then the first makes one step.
        let between: Vec<usize> = (1..set.tasks - 1).flat_map(|task| vec![task; set.len[task] as usize]).collect();
        let window = between.len() as u32;
        let alone = self.after(map, self.after(map, fresh, &between, Settings { share: window, window }), &[0], Settings { share: 1, window });
        let round: Vec<usize> = (0..set.tasks).collect();
        vec![
            self.bids("bid, share 1 of 8", map, fresh, &tasks, SHARES),
            self.bids("bid, share spent", map, alone, &[0], Settings { share: 1, window }),
            self.bids("bid, granted past its share", map, self.after(map, fresh, &round, SHARES), &[0], SHARES),
        ]
    }

    /// The record after these bids.
    fn after(&self, map: &[u8], mut record: sys::Record, tasks: &[usize], settings: Settings) -> sys::Record {
        for &task in tasks {
            let _ = bid(&mut record, self.words, map, task, settings);
        }
        record
    }

    fn again(&self, end: sys::Record) -> Line {
        let words = self.words;
        let mut record = end;
        let mut other = other_record(&end);
        let answer = again(&mut record, words);
        let other_answer = baseline::again(&mut other, words).map_or_else(refused, |()| plain(sys::RESTARTED, 0));
        let agree = answer == other_answer && other == other_record(&record);
        let times = best_of(
            || {
                let mut record = black_box(end);
                let _ = black_box(again(&mut record, black_box(words)));
                black_box(&record);
            },
            || {
                let mut record = black_box(other_record(&end));
                black_box(baseline::again(&mut record, black_box(words))).ok();
                black_box(&record);
            },
        );
        self.line("again", &text(&answer), times, agree)
    }

    fn route(&self, map: &[u8], actions: usize) -> Line {
        let words = self.words;
        let fresh = unsafe { sys::arbiter_fresh() };
        let other_fresh = other_record(&fresh);
        let (mut slice, mut other_slice) = (vec![0u8; actions], vec![0u8; actions]);
        let answer = route(fresh, words, map, &mut slice);
        let other = of_length(sys::ROUTED, baseline::route(&other_fresh, words, map, &mut other_slice));
        let agree = answer == other && slice == other_slice;
        let times = best_of(
            || {
                let _ = black_box(route(fresh, black_box(words), map, &mut slice));
            },
            || {
                black_box(baseline::route(&other_fresh, black_box(words), map, &mut other_slice)).ok();
            },
        );
        self.line("route", &text(&answer), times, agree)
    }
}

/// Both analyses into slices of their own: the answer, whether they agree, and the times.
fn analyses(words: &[u32], room: usize) -> (Answer, bool, Times) {
    let (mut map, mut other_map) = (vec![UNWRITTEN; MAP], vec![UNWRITTEN; MAP]);
    let (mut plan, mut other_plan) = (vec![0u32; room], vec![0u32; room]);
    let analysis = analyse(words, &mut map, &mut plan);
    let other = of_analysis(baseline::analyse(words, &mut other_map, &mut other_plan));
    let agree = analysis == other && map == other_map && plan == other_plan;
    let times = best_of(
        || {
            let _ = black_box(analyse(black_box(words), &mut map, &mut plan));
        },
        || {
            black_box(baseline::analyse(black_box(words), &mut other_map, &mut other_plan)).ok();
        },
    );
    (analysis.answer, agree, times)
}

/// Bids that bring every task to its end, the tasks in turn, and the record after them. A finished task isn't asked for again, as in service.
fn bids_to_the_end(words: &[u32], map: &[u8], set: &baseline::Set, settings: Settings) -> (Vec<usize>, baseline::Record) {
    let mut record = baseline::Record { positions: [0; 8], grants: 0, counts: [0; 8] };
    let mut tasks = Vec::new();
    while record.positions != set.len {
        for task in 0..set.tasks {
            if record.positions[task] < set.len[task] {
                baseline::bid(&mut record, words, map, task, settings).unwrap();
                tasks.push(task);
            }
        }
    }
    (tasks, record)
}

fn words_in(file: &str) -> Vec<u32> {
    let bytes = std::fs::read(file).unwrap();
    bytes.chunks(4).map(|c| u32::from_le_bytes([c[0], c[1], c[2], c[3]])).collect()
}

fn name_of(file: &str) -> &str {
    file.rsplit('/').next().unwrap().trim_end_matches(".set")
}

/// The map of a set, the tasks of bids that bring it to its end and the record there; of a refused set a map that nobody wrote, one bid and a fresh record.
fn service(words: &[u32]) -> (Vec<u8>, Vec<usize>, sys::Record) {
    let mut map = vec![UNWRITTEN; MAP];
    let mut plan = vec![0u32; PLAN];
    if analyse(words, &mut map, &mut plan).answer.kind != sys::PLANNED {
        return (map, vec![0], unsafe { sys::arbiter_fresh() });
    }
    let (tasks, end) = bids_to_the_end(words, &map, &baseline::read(words).unwrap(), NO_SHARES);
    (map, tasks, record_of(&end))
}

/// Every call on one set.
fn lines_of(file: &str) -> Vec<Line> {
    let words = words_in(file);
    let row = Row { set: name_of(file), words: &words };
    let (map, tasks, end) = service(&words);
    let fresh = unsafe { sys::arbiter_fresh() };
    let mut lines = vec![row.analyse(PLAN), row.analyse(SHORT_PLAN), row.read(), row.bids("bid", &map, fresh, &tasks, NO_SHARES)];
    if let Ok(set) = baseline::read(&words) {
        lines.push(row.again(end));
        lines.push(row.route(&map, set.len.iter().map(|&len| len as usize).sum()));
        if set.len.iter().all(|&len| len > 0) {
            lines.extend(row.shared_bids(&map, &set));
        }
    }
    lines
}

/// The plan of a set and its task count; of a refused set no words and one task.
fn stored_plan(words: &[u32]) -> (Vec<u32>, usize) {
    let (mut map, mut plan) = (vec![UNWRITTEN; MAP], vec![0u32; PLAN]);
    let answer = analyse(words, &mut map, &mut plan).answer;
    plan.truncate(if answer.kind == sys::PLANNED { answer.value as usize } else { 0 });
    (plan, baseline::read(words).map_or(1, |set| set.tasks))
}

/// States to ask a plan at, by where they lie: the start, which is in no box, and the corners of the highest positions of the first and of the last box. The last of the
/// forbidden boxes may share its corner with an earlier one, which the answer then tells; an unsafe box doesn't.
fn states_to_ask(plan: &[u32], tasks: usize) -> Vec<(&'static str, sys::State)> {
    let heads: Vec<usize> = (0..plan.len()).filter(|&at| matches!(plan[at] >> 28, sys::FORBIDDEN_BOX | sys::UNSAFE_BOX)).collect();
    let corner = |head: usize| {
        let mut positions = [0; sys::MAX_TASKS];
        for (position, &side) in positions.iter_mut().zip(&plan[head + 1..head + 1 + tasks]) {
            *position = side as u8;
        }
        sys::State { positions }
    };
    let mut states = vec![("in no box", sys::State { positions: [0; sys::MAX_TASKS] })];
    if let (Some(&first), Some(&last)) = (heads.first(), heads.last()) {
        states.push(("in the first box", corner(first)));
        states.push(("in the last box", corner(last)));
    }
    states
}

/// Questions to the plan of one set.
fn questions_on(file: &str) -> Vec<Line> {
    let words = words_in(file);
    let (plan, tasks) = stored_plan(&words);
    let (set, plan) = (name_of(file), &plan[..]);
    let mut lines = Vec::new();
    for (place, state) in states_to_ask(plan, tasks) {
        let answer = locate(state, plan, tasks);
        assert!(answer == of_question(baseline::locate(&state.positions, plan, tasks)), "bench: {set}, {place}: the two differ");
        let times = best_of(
            || {
                let _ = black_box(locate(black_box(state), black_box(plan), tasks));
            },
            || {
                black_box(baseline::locate(&black_box(state).positions, black_box(plan), tasks)).ok();
            },
        );
        lines.push(Line { text: format!("{set}\t{tasks}\t{}\t{place}\t{}", plan.len(), text(&answer)), times });
    }
    lines
}

/// One set cleaned, into a slice as long as the set and into one that is too short for any.
fn cleanings_of(file: &str) -> Vec<Line> {
    let words = &words_in(file)[..];
    let set = name_of(file);
    let line = |name: String, room: usize| {
        let (mut slice, mut other) = (vec![u32::MAX; room], vec![u32::MAX; room]);
        let answer = clean(words, &mut slice);
        let agree = answer == of_length(sys::CLEANED, baseline::clean(words, &mut other)) && slice == other;
        assert!(agree, "bench: {name}, cleaned: the two differ");
        let times = best_of(
            || {
                let _ = black_box(clean(black_box(words), &mut slice));
            },
            || {
                black_box(baseline::clean(black_box(words), &mut other)).ok();
            },
        );
        let go = if answer.kind == sys::CLEANED { (words.len() - answer.value as usize).to_string() } else { String::new() };
        Line { text: format!("{name}\t{}\t{go}\t{}", words.len(), text(&answer)), times }
    };
    vec![line(set.to_string(), words.len()), line(format!("{set}, slice of one word"), 1)]
}

/// What a trial is lent beside the set and its map, from a file: the rounds in two bytes, lowest first, share, window, and then the order.
fn lent_in(file: &str) -> (Vec<u8>, u16, Settings) {
    let bytes = std::fs::read(file).unwrap();
    let settings = Settings { share: bytes[2] as u32, window: bytes[3] as u32 };
    (bytes[4..].to_vec(), u16::from_le_bytes([bytes[0], bytes[1]]), settings)
}

/// A trial on one set.
fn trials_on(file: &str) -> Vec<Line> {
    let words = &words_in(file)[..];
    let (order, rounds, settings) = lent_in(&format!("{}.trial", file.trim_end_matches(".set")));
    let (map, ..) = service(words);
    let (set, order, map) = (name_of(file), &order[..], &map[..]);
    let told = trial(words, map, order, rounds, settings);
    assert!(told == of_trial(baseline::trial(words, map, order, rounds, settings)), "bench: {set}, tried: the two differ");
    assert_eq!(told.answer.kind, sys::TRIED, "bench: {set}: the trial is refused");
    let times = best_of(
        || {
            let _ = black_box(trial(black_box(words), map, black_box(order), rounds, black_box(settings)));
        },
        || {
            black_box(baseline::trial(black_box(words), map, black_box(order), rounds, black_box(settings))).ok();
        },
    );
    let all = |tally: fn(&sys::Tally) -> u32| told.rows.iter().map(tally).sum::<u32>();
    let (granted, busy, held, spent) = (all(|row| row.granted), all(|row| row.busy), all(|row| row.held), all(|row| row.share_spent));
    let tasks = baseline::read(words).unwrap().tasks;
    vec![Line { text: format!("{set}\t{tasks}\t{}\t{granted}\t{busy}\t{held}\t{spent}\t{}", told.answer.value, told.finished), times }]
}

/// The lines that each file has.
fn print_lines(files: &[String], lines: impl Fn(&str) -> Vec<Line>) {
    for Line { text, times: (proved, yardstick) } in files.iter().flat_map(|file| lines(file)) {
        println!("{text}\t{proved:.2}\t{yardstick:.2}");
    }
}

fn growth_of(file: &str) -> Vec<Line> {
    let words = words_in(file);
    let (answer, agree, times) = analyses(&words, PLAN);
    assert!(agree, "{file}: the two differ");
    let (family, size) = name_of(file).rsplit_once('-').unwrap();
    let states = baseline::read(&words).unwrap().grid;
    vec![Line { text: format!("{family}\t{}\t{states}\t{}", size.trim_start_matches('0'), answer.value), times }]
}

// --- Stack ---

const STACK: usize = 1 << 20; // of the thread that everything runs in
const PAINTED: usize = STACK - (128 << 10); // bytes below a call that are looked at; what stands above it takes far less than the rest
const PAINT: u64 = 0xA5A5_A5A5_A5A5_A5A5;

/// The bytes of stack that a call takes, its return address among them: down to the lowest one below this frame that has lost its paint.
#[inline(never)]
fn stack_of<T>(call: impl FnOnce() -> T) -> usize {
    let top: usize;
    // Nothing lives below the stack pointer here: without `nostack` the compiler keeps nothing there.
    unsafe {
        asm!("mov {top}, rsp", "lea rdi, [rsp - {painted}]", "mov rcx, {words}", "rep stosq", top = out(reg) top, painted = const PAINTED, words = const PAINTED / 8,
             in("rax") PAINT, out("rdi") _, out("rcx") _);
    }
    let answer = call();
    let mut lowest = top - PAINTED;
    while lowest < top && unsafe { (lowest as *const u64).read_volatile() } == PAINT {
        lowest += 8;
    }
    let _ = black_box(answer);
    assert!(lowest > top - PAINTED, "the call took all of the stack that is looked at");
    top - lowest
}

fn stack(files: &[String]) {
    let names = ["arbiter_analyse", "arbiter_read", "arbiter_bid", "arbiter_again", "arbiter_route", "arbiter_locate", "arbiter_clean", "arbiter_trial"];
    let mut most = [0; 8];
    for file in files {
        let words = &words_in(file)[..];
        let (map, tasks, end) = service(words);
        let mut taken = |call: usize, bytes: usize| most[call] = bytes.max(most[call]);
        for room in [PLAN, SHORT_PLAN] {
            let (mut map, mut plan) = (vec![UNWRITTEN; MAP], vec![0u32; room]);
            taken(0, stack_of(|| analyse(words, &mut map, &mut plan)));
        }
        taken(1, stack_of(|| read(words)));
        let record = unsafe { sys::arbiter_fresh() };
        let mut steps = vec![0u8; words.len()];
        taken(4, stack_of(|| route(record, words, &map, &mut steps)));
        for settings in [NO_SHARES, SHARES] {
            let mut record = record;
            for &task in &tasks {
                taken(2, stack_of(|| bid(&mut record, words, &map, task, settings)));
            }
        }
        let order: Vec<u8> = (0..baseline::read(words).map_or(1, |set| set.tasks as u8)).collect();
        for settings in [NO_SHARES, SHARES] {
            taken(7, stack_of(|| trial(words, &map, &order, words.len() as u16, settings)));
        }
        let mut record = end;
        taken(3, stack_of(|| again(&mut record, words)));
        let (plan, tasks) = stored_plan(words);
        for (_, state) in states_to_ask(&plan, tasks) {
            taken(5, stack_of(|| locate(state, &plan, tasks)));
        }
        for room in [words.len(), 1] {
            let mut slice = vec![0u32; room];
            taken(6, stack_of(|| clean(words, &mut slice)));
        }
    }
    for (name, bytes) in names.iter().zip(most) {
        println!("{name}\t{bytes}");
    }
}

fn main() {
    // Another version's structs could be laid out otherwise.
    assert_eq!(unsafe { sys::arbiter_version() }, sys::VERSION, "the library's version");
    black_box(shift as *const ());
    let run = || {
        let arguments: Vec<String> = std::env::args().skip(1).collect();
        match arguments[0].as_str() {
            "growth" => print_lines(&arguments[1..], growth_of),
            "questions" => print_lines(&arguments[1..], questions_on),
            "cleanings" => print_lines(&arguments[1..], cleanings_of),
            "trials" => print_lines(&arguments[1..], trials_on),
            "stack" => stack(&arguments[1..]),
            _ => print_lines(&arguments[1..], lines_of),
        }
    };
    std::thread::Builder::new().stack_size(STACK).spawn(run).unwrap().join().unwrap();
}
