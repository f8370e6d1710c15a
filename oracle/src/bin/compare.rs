//! Compares two ports; README.md says how.

#[cfg(board)]
use oracle::board::Board;
use oracle::compare::{random, words, Difference, Limits};
use oracle::cover::{OUTSIDE, RARE};
use oracle::model::Model;
use oracle::original::Original;
use oracle::port::Port;
use oracle::tally::Tally;
use std::process::ExitCode;
use std::time::Duration;

const USAGE: &str = "\
usage: compare REFERENCE SUBJECT [--seed N] [--calls N] [--seconds N] [--least N] [--words DEPTH]
  original model   the original against the model, within the domain of equality
  original board   the original against the proved port, within the domain of equality
  model board      the model against the proved port, all calls
  model model      the model against itself, all calls: shows what the calls cover
  --seed N         the first episode's seed (1)
  --calls N        stop after so many random calls (1000000, or no limit with --seconds)
  --seconds N      stop after so many seconds of random calls
  --least N        fail below so many calls, or where what such a run must reach (cover.rs) was never reached
  --words DEPTH    no random calls: all sequences of DEPTH letters from every start";

#[derive(Default)]
struct Options {
    ports: Vec<String>,
    seed: Option<u64>,
    calls: Option<u64>,
    seconds: Option<u64>,
    least: Option<u64>,
    words: Option<u64>,
}

fn options() -> Option<Options> {
    let mut options = Options::default();
    let mut args = std::env::args().skip(1);
    while let Some(arg) = args.next() {
        let place = match arg.as_str() {
            "--seed" => &mut options.seed,
            "--calls" => &mut options.calls,
            "--seconds" => &mut options.seconds,
            "--least" => &mut options.least,
            "--words" => &mut options.words,
            _ => {
                options.ports.push(arg);
                continue;
            }
        };
        *place = Some(args.next()?.parse().ok()?);
    }
    Some(options)
}

impl Options {
    fn limits(&self) -> Limits {
        let calls = if self.seconds.is_some() { u64::MAX } else { 1_000_000 };
        Limits { calls: self.calls.unwrap_or(calls), time: self.seconds.map_or(Duration::MAX, Duration::from_secs) }
    }

    /// What was run, in words.
    fn run<A: Port, B: Port>(&self, in_domain: bool, tally: &mut Tally) -> Result<String, Difference> {
        if let Some(depth) = self.words {
            let count = words::<A, B>(in_domain, depth as u32, tally)?;
            return Ok(format!("{count} sequences of {depth} letters"));
        }
        let seed = self.seed.unwrap_or(1);
        let episodes = random::<A, B>(in_domain, seed, &self.limits(), tally)?;
        Ok(format!("{episodes} episodes from seed {seed}"))
    }

    #[cfg(board)]
    fn run_board<A: Port>(&self, in_domain: bool, tally: &mut Tally) -> Result<String, Difference> {
        self.run::<A, Board>(in_domain, tally)
    }

    #[cfg(not(board))]
    fn run_board<A: Port>(&self, _: bool, _: &mut Tally) -> Result<String, Difference> {
        eprintln!("compare: {}", oracle::NO_BOARD);
        std::process::exit(2)
    }

    fn run_ports(&self, tally: &mut Tally) -> Option<Result<String, Difference>> {
        let ports: Vec<&str> = self.ports.iter().map(String::as_str).collect();
        match ports[..] {
            ["original", "model"] => Some(self.run::<Original, Model>(true, tally)),
            ["model", "model"] => Some(self.run::<Model, Model>(false, tally)),
            ["original", "board"] => Some(self.run_board::<Original>(true, tally)),
            ["model", "board"] => Some(self.run_board::<Model>(false, tally)),
            _ => None,
        }
    }

    /// What a run without a difference lacks of what was asked of it.
    fn lack(&self, tally: &Tally) -> Option<String> {
        let least = self.least?;
        let outside: &[&str] = if self.ports[0] == "original" { &OUTSIDE } else { &[] };
        let missing = tally.missing(&[&RARE, outside]);
        if tally.calls < least {
            return Some(format!(
                "TOO FEW: {} calls compared without a difference, at least {least} are asked",
                tally.calls
            ));
        }
        (!missing.is_empty()).then(|| format!("NEVER REACHED in {} calls: {}", tally.calls, missing.join("; ")))
    }
}

fn main() -> ExitCode {
    std::panic::set_hook(Box::new(|_| {}));
    let mut tally = Tally::default();
    let options = options();
    let Some(result) = options.as_ref().and_then(|o| o.run_ports(&mut tally)) else {
        eprintln!("{USAGE}");
        return ExitCode::from(2);
    };
    let lack = options.and_then(|o| o.lack(&tally));
    print!("{tally}");
    let missing = tally.missing(&[]);
    if !missing.is_empty() {
        println!("\nnever: {}", missing.join("; "));
    }
    match result {
        Ok(_) if lack.is_some() => {
            println!("\n{}", lack.unwrap_or_default());
            ExitCode::FAILURE
        }
        Ok(ran) => {
            println!("\n{ran}: {} calls compared, {} passed over, no difference", tally.calls, tally.passed);
            ExitCode::SUCCESS
        }
        Err(difference) => {
            println!("\n{difference}\nafter {} calls without a difference", tally.calls);
            ExitCode::FAILURE
        }
    }
}
