//! How many cases were compared, and how they ended.

use crate::call::{Buffers, LibraryCall};
use crate::wanted;
use fikrem::raw;
use reference::stored::NEW;
use std::collections::BTreeMap;
use std::time::Instant;

/// The refusals have the numbers 1 to 16.
const NUMBERS: usize = 16;
/// Those of a stored ledger itself.
const OF_LEDGER: [usize; 5] = [1, 2, 3, 9, 13];

/// Compares calls and counts them.
pub struct Tally {
    section: &'static str,
    started: Instant,
    cases_before: u64,
    cases: u64,
    /// By the result's number: 0 done, otherwise the refusal's.
    results: [u64; NUMBERS + 1],
    /// Those of them that are of the stored ledger itself.
    of_ledger: [u64; NUMBERS + 1],
    /// By accept's answer: for no joining, joined, small and ended, without an opening and with one.
    answers: [[u64; 2]; 4],
    /// Clearings that remove no scheme, a part of them and all.
    clearings: [u64; 3],
    /// Moves that are done, to the new form and back.
    moves: [u64; 2],
    /// Accepts of the lists of calls that named a scheme that was cleared.
    pub joinings_of_cleared: u64,
    calls: BTreeMap<&'static str, u64>,
}

impl Default for Tally {
    fn default() -> Tally {
        let started = Instant::now();
        let none = [0; NUMBERS + 1];
        Tally {
            section: "",
            started,
            cases_before: 0,
            cases: 0,
            results: none,
            of_ledger: none,
            answers: [[0; 2]; 4],
            clearings: [0; 3],
            moves: [0; 2],
            joinings_of_cleared: 0,
            calls: BTreeMap::new(),
        }
    }
}

impl Tally {
    /// Runs one section and prints its cases and time.
    pub fn section(&mut self, name: &'static str, run: impl FnOnce(&mut Tally)) {
        (self.section, self.started, self.cases_before) = (name, Instant::now(), self.cases);
        run(self);
        let (cases, seconds) = (self.cases - self.cases_before, self.started.elapsed().as_secs_f64());
        println!("{name}: {cases} cases in {seconds:.1} s");
    }

    /// The call on both sides with roomy buffers; the result, and what they hold after it.
    pub fn compare(&mut self, call: &LibraryCall) -> (u64, Buffers) {
        self.compare_on(call, Buffers::roomy())
    }

    /// The call on both sides with these buffers; the result, and what they hold after it.
    pub fn compare_on(&mut self, call: &LibraryCall, before: Buffers) -> (u64, Buffers) {
        let (mut seen, mut wanted) = (before.clone(), before.clone());
        let result = call.run(&mut seen);
        let wanted_result = wanted::run(call, &mut wanted);
        let difference = if result != wanted_result {
            Some(format!("the result is {result}, wanted {wanted_result}"))
        } else if result != 0 {
            seen.difference(&before)
        } else {
            seen.difference(&wanted)
        };
        if let Some(difference) = difference {
            let case = self.cases - self.cases_before;
            panic!("{}, case {case}, {}: {difference}\n{call:?}", self.section, call.name());
        }
        self.count(call, result, &seen);
        (result, seen)
    }

    /// Counts a call that both sides agree on.
    pub fn count(&mut self, call: &LibraryCall, result: u64, seen: &Buffers) {
        let number = raw::number(result) as usize;
        self.cases += 1;
        *self.calls.entry(call.name()).or_default() += 1;
        self.results[number] += 1;
        if raw::of_ledger(result) == 1 {
            self.of_ledger[number] += 1;
        }
        if result == raw::DONE {
            self.count_done(call, &seen.answer);
        }
    }

    /// Counts the course that a call took.
    fn count_done(&mut self, call: &LibraryCall, answer: &[u64]) {
        match call {
            LibraryCall::Accept { .. } => {
                let opened = usize::from(answer[raw::OPENED_SCHEME] > 0);
                self.answers[answer[raw::JOINING] as usize][opened] += 1;
            }
            LibraryCall::Clear { stored, .. } => {
                let written = answer[raw::WRITTEN] as usize;
                let removed = written < stored.len();
                self.clearings[usize::from(removed) + usize::from(removed && written == NEW.length(0, 0))] += 1;
            }
            LibraryCall::MoveToNew { .. } => self.moves[0] += 1,
            LibraryCall::MoveBack { .. } => self.moves[1] += 1,
            _ => {}
        }
    }

    /// Prints the counts; fails where a refusal or an answer was never met.
    pub fn finish(&self) {
        println!("{} cases: {:?}", self.cases, self.calls);
        println!("done {}", self.results[0]);
        for (number, times) in self.results.iter().enumerate().skip(1) {
            println!("refusal {number}: {times}, of the stored ledger itself {}", self.of_ledger[number]);
        }
        for (name, [alone, opened]) in ["no joining", "joined", "small", "ended"].iter().zip(self.answers) {
            println!("{name}: {alone}, and a scheme opened: {opened}");
        }
        println!("clearings that remove nothing, a part and all: {:?}", self.clearings);
        println!("moved to the new form and back: {:?}", self.moves);
        println!("accepts in lists that named a cleared scheme: {}", self.joinings_of_cleared);
        assert!(self.results.iter().all(|&times| times > 0), "a refusal was never met");
        for (number, &times) in self.of_ledger.iter().enumerate() {
            assert_eq!(times > 0, OF_LEDGER.contains(&number), "refusal {number} of the stored ledger");
        }
        assert!(self.results[9] > self.of_ledger[9], "accept was never refused by 9");
        assert!(self.answers.iter().flatten().all(|&times| times > 0), "a pair of answers was never met");
        let courses = self.clearings.iter().chain(&self.moves).chain([&self.joinings_of_cleared]);
        assert!(courses.copied().all(|times| times > 0), "a course of clearing or moving was never met");
    }
}
