//! One record through very many bids and agains, as in service, with settings that are kept: the grant number held to a count of the grants, the counts of the window to
//! another, and the state and every answer to the reference, at every call.

use crate::cases;
use crate::checker::{laid_out, laid_out_analysis, lent_record, record_of};
use crate::random::Random;
use crate::reference::{Analysis, Answer, Record, Settings, Worked};
use arbiter::plain::NOT_ANALYSED;
use arbiter::sys;

/// What a run is made with. An again follows whenever all tasks are finished, so that a turn has as many grants as the set has actions.
pub struct Run {
    pub words: Vec<u32>,
    pub settings: Settings,
    pub seed: u64,
    pub bids: u64,
    /// The grant number of the record at first, which is a fresh one otherwise.
    pub first_grants: u32,
}

#[derive(Default)]
pub struct Done {
    pub bids: u64,
    pub grants: u64,
    pub spent: u64,
    pub agains: u64,
    /// How many windows were used up.
    pub windows: u64,
    /// How often the grant number passed 4,294,967,295.
    pub wraps: u64,
}

/// The calls on one record, which the library and the reference have each for itself.
struct Service<'a> {
    run: &'a Run,
    worked: &'a Worked,
    map: Vec<u8>,
    record: sys::Record,
    expected: Record,
    done: Done,
    /// The grants since the last window was used up, or the last again.
    in_window: u32,
}

impl Run {
    pub fn done(&self) -> Result<Done, String> {
        let worked = Worked::new(&self.words);
        let set = worked.set.as_ref().unwrap();
        let mut service = Service::new(self, &worked)?;
        let mut random = Random::new(self.seed, self.bids);
        let tasks = set.tasks.len();
        while service.done.bids < self.bids {
            // Now and then a number that no task has, and an again that comes too early.
            let draw = random.next();
            service.bid(if draw % 64 == 0 { cases::task(&mut random, tasks) } else { (draw >> 32) as usize % tasks })?;
            if worked.map[set.rank(&service.record.positions)] != 0 {
                return Err(format!("after bid {} the state {:?} isn't open", service.done.bids, service.record.positions));
            }
            if service.record.positions == set.end() || draw % 1024 == 1 {
                service.again()?;
            }
        }
        service.end()
    }
}

impl Service<'_> {
    fn new<'a>(run: &'a Run, worked: &'a Worked) -> Result<Service<'a>, String> {
        let words = &run.words;
        let (mut map, mut plan) = (vec![NOT_ANALYSED; worked.map.len()], vec![0u32; worked.plan.len()]);
        let analysis = unsafe { sys::arbiter_analyse(words.as_ptr(), words.len(), map.as_mut_ptr(), map.len(), plan.as_mut_ptr(), plan.len()) };
        let expected = Analysis { answer: Answer::Planned(worked.plan.len() as u64), parts: worked.parts };
        if analysis != laid_out_analysis(expected) || map != worked.map || plan != worked.plan {
            return Err(format!("the set is analysed wrongly: {analysis:?}"));
        }
        let mut record = unsafe { sys::arbiter_fresh() };
        if record != lent_record(Record::FRESH) {
            return Err(format!("a fresh record is {record:?}"));
        }
        record.grants = run.first_grants;
        Ok(Service { run, worked, map, record, expected: record_of(record), done: Done::default(), in_window: 0 })
    }

    fn bid(&mut self, task: usize) -> Result<(), String> {
        let (words, map, settings) = (&self.run.words, &self.map, self.run.settings);
        let record = &mut self.record;
        let library = unsafe { sys::arbiter_bid(record, words.as_ptr(), words.len(), map.as_ptr(), map.len(), task, settings.share, settings.window) };
        let reference = self.worked.bid(&self.worked.map, &mut self.expected, task, settings);
        self.done.bids += 1;
        self.done.spent += u64::from(library.kind == sys::SHARE_SPENT);
        if library.kind == sys::GRANTED {
            self.done.grants += 1;
            self.in_window += 1;
            if self.in_window == settings.window {
                self.in_window = 0;
                self.done.windows += 1;
            }
        }
        self.check("bid", task, library, reference)
    }

    fn again(&mut self) -> Result<(), String> {
        let words = &self.run.words;
        let library = unsafe { sys::arbiter_again(&mut self.record, words.as_ptr(), words.len()) };
        let reference = self.worked.again(&mut self.expected);
        if library.kind == sys::RESTARTED {
            self.done.agains += 1;
            self.in_window = 0;
        }
        self.check("again", 0, library, reference)
    }

    fn check(&self, call: &str, task: usize, library: sys::Answer, reference: Answer) -> Result<(), String> {
        // Apart from the reference: what was there at first and every grant since, modulo 4,294,967,296; and the grants of the window.
        let counted = ((self.run.first_grants as u64 + self.done.grants) & 0xFFFF_FFFF) as u32;
        let record = record_of(self.record);
        if library != laid_out(reference) || record != self.expected || record.grants != counted || record.window_grants() != self.in_window {
            return Err(format!(
                "with {:?}, after {} bids: {call} {task} answers {library:?} and leaves {record:?}; expected {reference:?} and {:?}, {counted} grants counted, {} in the window",
                self.run.settings, self.done.bids, self.expected, self.in_window
            ));
        }
        Ok(())
    }

    fn end(mut self) -> Result<Done, String> {
        self.done.wraps = (self.run.first_grants as u64 + self.done.grants) >> 32;
        if self.map != self.worked.map {
            return Err("the lent map has changed".to_string());
        }
        Ok(self.done)
    }
}
