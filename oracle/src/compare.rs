//! Whole runs: random episodes and exhaustive words through two ports, and the shrinking of what differs.

use crate::call::Call;
use crate::exhaustive::{self, Start, LETTERS};
use crate::generate::Generator;
use crate::harness::{Harness, Made};
use crate::port::Port;
use crate::tally::Tally;
use std::any::Any;
use std::fmt;
use std::panic::{catch_unwind, AssertUnwindSafe};
use std::time::{Duration, Instant};

/// When a random run ends: at the first limit reached.
pub struct Limits {
    pub calls: u64,
    pub time: Duration,
}

/// The calls that lead to a difference, and what it is.
pub struct Difference {
    pub origin: String,
    pub calls: Vec<Call>,
    pub what: String,
}

impl fmt::Display for Difference {
    fn fmt(&self, f: &mut fmt::Formatter<'_>) -> fmt::Result {
        writeln!(f, "DIFFERENCE ({})", self.origin)?;
        for (n, call) in self.calls.iter().enumerate() {
            writeln!(f, "  {:>3}. {call:x?}", n + 1)?;
        }
        write!(f, "{}", self.what)
    }
}

/// Two ports, the calls made so far, and their tally.
struct Run<'t, A: Port, B: Port> {
    harness: Harness<A, B>,
    calls: Vec<Call>,
    tally: &'t mut Tally,
}

impl<'t, A: Port, B: Port> Run<'t, A, B> {
    fn new(in_domain: bool, tally: &'t mut Tally) -> Self {
        Self { harness: Harness::new(in_domain), calls: Vec::new(), tally }
    }

    fn make(&mut self, call: Call) -> Result<(), String> {
        let outcome = attempt(&mut self.harness, &call);
        self.calls.push(call);
        match outcome? {
            None => self.tally.passed += 1,
            Some(made) => {
                let call = self.calls.last().expect("just pushed");
                self.tally.note(call, &made.answer, made.before.as_ref(), self.harness.state());
            }
        }
        Ok(())
    }

    fn episode(&mut self, mut generator: Generator) -> Result<(), String> {
        for _ in 0..generator.length() {
            let call = match self.harness.state() {
                Some(state) => generator.next(state, self.harness.fragmenters()),
                None => generator.first(),
            };
            self.make(call)?;
        }
        Ok(())
    }

    fn word(&mut self, start: &Start, letters: &[usize]) -> Result<(), String> {
        for call in &start.calls {
            self.make(call.clone())?;
        }
        for letter in letters {
            let call = exhaustive::call(*letter, self.harness.state().expect("a stack"));
            self.make(call)?;
        }
        Ok(())
    }

    fn difference(self, what: String, origin: String, in_domain: bool) -> Difference {
        let calls = shrink(self.calls, |calls| replay::<A, B>(calls, in_domain).is_some());
        let what = replay::<A, B>(&calls, in_domain).unwrap_or(what);
        Difference { origin, calls, what }
    }
}

/// Episode number n has seed + n as its own seed, so that it can be run alone.
pub fn random<A: Port, B: Port>(
    in_domain: bool,
    seed: u64,
    limits: &Limits,
    tally: &mut Tally,
) -> Result<u64, Difference> {
    let begun = Instant::now();
    let mut episodes = 0;
    while tally.calls < limits.calls && begun.elapsed() < limits.time {
        let seed = seed.wrapping_add(episodes);
        let mut run = Run::<A, B>::new(in_domain, tally);
        if let Err(what) = run.episode(Generator::new(seed, !in_domain)) {
            return Err(run.difference(what, format!("seed {seed}"), in_domain));
        }
        episodes += 1;
    }
    Ok(episodes)
}

/// Every word of `depth` letters from every start.
pub fn words<A: Port, B: Port>(in_domain: bool, depth: u32, tally: &mut Tally) -> Result<u64, Difference> {
    let mut count = 0;
    for start in &exhaustive::starts() {
        let depth = depth.saturating_sub(start.shorter);
        for number in 0..LETTERS.pow(depth) {
            let letters = spelled(number, depth);
            let mut run = Run::<A, B>::new(in_domain, tally);
            if let Err(what) = run.word(start, &letters) {
                let origin = format!("{}, then letters {letters:?}", start.name);
                return Err(run.difference(what, origin, in_domain));
            }
            count += 1;
        }
    }
    Ok(count)
}

fn spelled(mut number: usize, depth: u32) -> Vec<usize> {
    let letter = |_| {
        let letter = number % LETTERS;
        number /= LETTERS;
        letter
    };
    (0..depth).map(letter).collect()
}

/// A panic counts as a difference.
fn attempt<A: Port, B: Port>(harness: &mut Harness<A, B>, call: &Call) -> Result<Option<Made>, String> {
    catch_unwind(AssertUnwindSafe(|| harness.apply(call))).unwrap_or_else(|panic| Err(panicked(panic)))
}

fn panicked(panic: Box<dyn Any + Send>) -> String {
    let text = panic.downcast_ref::<String>().map(String::as_str).or(panic.downcast_ref::<&str>().copied());
    format!("panicked: {}", text.unwrap_or("without a word"))
}

/// What differs first, if anything.
fn replay<A: Port, B: Port>(calls: &[Call], in_domain: bool) -> Option<String> {
    let mut harness = Harness::<A, B>::new(in_domain);
    calls.iter().find_map(|call| attempt(&mut harness, call).err())
}

/// Leaves out runs of calls, ever shorter ones, as long as a difference stays; and again until none can go.
fn shrink(calls: Vec<Call>, differs: impl Fn(&[Call]) -> bool) -> Vec<Call> {
    let mut fewer = calls.clone();
    let mut width = calls.len() / 2;
    while width > 0 {
        fewer = without_runs(fewer, width, &differs);
        width /= 2;
    }
    if fewer.len() < calls.len() {
        shrink(fewer, differs)
    } else {
        fewer
    }
}

fn without_runs(mut calls: Vec<Call>, width: usize, differs: &impl Fn(&[Call]) -> bool) -> Vec<Call> {
    let mut from = 0;
    while from < calls.len() {
        let mut fewer = calls.clone();
        fewer.drain(from..calls.len().min(from + width));
        if differs(&fewer) {
            calls = fewer;
        } else {
            from += width;
        }
    }
    calls
}
