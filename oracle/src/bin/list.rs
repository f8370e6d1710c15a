//! Makes, prints and replays the stored list of calls; README.md says how.

#[cfg(board)]
use oracle::board::Board;
use oracle::list::{self, Part, Record};
use oracle::make::Maker;
use oracle::model::Model;
use oracle::port::Port;
use oracle::replay::{Follower, Player};
use std::panic::{catch_unwind, AssertUnwindSafe};
use std::process::ExitCode;

const USAGE: &str = "\
usage: list FILE [SEED]            makes the list
       list --print FILE           prints it
       list --replay FILE PORT     replays it on original, model or board";
const SEED: u64 = 1;
/// How many records a list has: after the least it ends once all is covered.
const LEAST: usize = 6_000;
const MOST: usize = 8_000;
const MOST_BYTES: usize = 1_000_000;

fn make(file: &str, seed: u64) -> Result<ExitCode, String> {
    let mut maker = Maker::default();
    maker.figures();
    maker.rare();
    let mut episodes = 0;
    while maker.records.len() < LEAST || (maker.records.len() < MOST && !maker.missing().is_empty()) {
        maker.episode(seed + episodes, episodes % 2 == 1);
        episodes += 1;
    }
    let missing = maker.missing();
    let bytes = list::write(&maker.records);
    let count = maker.records.len();
    if !missing.is_empty() || bytes.len() > MOST_BYTES {
        return Err(format!("{count} records, {} bytes, never: {}", bytes.len(), missing.join("; ")));
    }
    std::fs::write(file, &bytes).map_err(|e| e.to_string())?;
    println!("{}", maker.tally);
    let by_model = count - maker.by_original;
    println!(
        "{count} records, {} bytes: figures and {episodes} episodes from seed {seed}; {} answers are the original's, {by_model} the model's",
        bytes.len(),
        maker.by_original
    );
    Ok(ExitCode::SUCCESS)
}

fn read(file: &str) -> Result<Vec<Record>, String> {
    let bytes = std::fs::read(file).map_err(|e| format!("{file}: {e}"))?;
    list::read(&bytes).ok_or_else(|| format!("{file} is no list"))
}

fn print(file: &str) -> Result<ExitCode, String> {
    for (n, record) in read(file)?.iter().enumerate() {
        println!("{:>5}. {record}", n + 1);
    }
    Ok(ExitCode::SUCCESS)
}

/// Plays each record; `play` gives none where the port passes it over. A panic is a difference.
fn replay(file: &str, mut play: impl FnMut(&Record) -> Option<Part>) -> Result<ExitCode, String> {
    let records = read(file)?;
    let mut passed = 0;
    for (n, record) in records.iter().enumerate() {
        let played = catch_unwind(AssertUnwindSafe(|| play(record)));
        match played {
            Ok(None) => passed += 1,
            Ok(Some(outcome)) if outcome == record.outcome => {}
            other => {
                println!("DIFFERENCE at record {}: {record}", n + 1);
                let Ok(Some(outcome)) = other else { return said("panicked") };
                return said(&format!("the port says {}{outcome}", outcome.lead));
            }
        }
    }
    println!("{} records replayed, {passed} passed over, no difference", records.len() - passed);
    Ok(ExitCode::SUCCESS)
}

fn said(what: &str) -> Result<ExitCode, String> {
    println!("{what}");
    Ok(ExitCode::FAILURE)
}

fn replay_on<P: Port>(file: &str) -> Result<ExitCode, String> {
    let mut player = Player::<P>::default();
    replay(file, |record| Some(player.perform(&record.request).1))
}

fn replay_original(file: &str) -> Result<ExitCode, String> {
    let mut follower = Follower::default();
    replay(file, |record| follower.follow(&record.request, &record.outcome))
}

#[cfg(board)]
fn replay_board(file: &str) -> Result<ExitCode, String> {
    replay_on::<Board>(file)
}

#[cfg(not(board))]
fn replay_board(_: &str) -> Result<ExitCode, String> {
    Err(oracle::NO_BOARD.to_string())
}

fn run() -> Result<ExitCode, String> {
    let args: Vec<String> = std::env::args().skip(1).collect();
    let args: Vec<&str> = args.iter().map(String::as_str).collect();
    match args[..] {
        ["--print", file] => print(file),
        ["--replay", file, "board"] => replay_board(file),
        ["--replay", file, "model"] => replay_on::<Model>(file),
        ["--replay", file, "original"] => replay_original(file),
        [file] if !file.starts_with('-') => make(file, SEED),
        [file, seed] if !file.starts_with('-') => make(file, seed.parse().map_err(|_| USAGE)?),
        _ => Err(USAGE.to_string()),
    }
}

fn main() -> ExitCode {
    std::panic::set_hook(Box::new(|panic| eprintln!("{panic}")));
    run().unwrap_or_else(|why| {
        eprintln!("{why}");
        ExitCode::from(2)
    })
}
