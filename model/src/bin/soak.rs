//! Random rolls and volumes of many benches, with new seeds until the time is over: `soak SECONDS`; or one kept roll again:
//! `soak roll FILE`.
use model::history::roll::text;
use model::proved::{roll_entry, roll_text};
use model::rolls::compare::{compare, first_difference, from_hex, Difference};
use model::rolls::entries::{self, Met};
use model::rolls::tally::Tally;
use model::volume::run_seed;
use std::process::ExitCode;
use std::time::{Duration, Instant, SystemTime, UNIX_EPOCH};

const USAGE: &str = "usage: soak SECONDS (a whole number from 1), or soak roll FILE (a roll in hex, as a difference leaves it)";
/// Seconds between two progress lines.
const PROGRESS: u64 = 5;
/// A volume takes as long as some dozen rolls: one of every so many seeds has one.
const VOLUME_EVERY: u64 = 16;

fn main() -> ExitCode {
    let arguments: Vec<String> = std::env::args().skip(1).collect();
    let done = match arguments.iter().map(String::as_str).collect::<Vec<_>>()[..] {
        ["roll", file] => again(file),
        [seconds] => match seconds.parse() {
            Ok(seconds) if seconds > 0 => Ok(Soak::default().run(Duration::from_secs(seconds))),
            _ => Err(format!("`{seconds}` is no number of seconds\n{USAGE}")),
        },
        _ => Err(USAGE.to_string()),
    };
    match done {
        Ok(true) => ExitCode::SUCCESS,
        Ok(false) => ExitCode::FAILURE,
        Err(message) => {
            eprintln!("soak: {message}");
            ExitCode::from(2)
        }
    }
}

/// One kept roll again; whether the texts agree.
fn again(file: &str) -> Result<bool, String> {
    let hex = std::fs::read_to_string(file).map_err(|error| format!("{file}: {error}"))?;
    let roll = from_hex(&hex).ok_or_else(|| format!("{file}: not in hex"))?;
    let difference = first_difference(&text(&roll), &roll_text(&roll));
    match &difference {
        None => println!("{file}: the texts agree"),
        Some(line) => println!(
            "{file}, line {}: model `{}`, proved `{}`",
            line.number, line.model, line.other
        ),
    }
    Ok(difference.is_none())
}

#[derive(Default)]
struct Soak {
    tally: Tally,
    rolls: u64,
    lines: usize,
    volumes: u64,
    entries: Met,
    /// Rolls whose texts or entries differ, and volumes with a fault.
    wrong: u64,
}

impl Soak {
    /// Goes on until the time is over; whether all agreed and every row was met.
    fn run(mut self, time: Duration) -> bool {
        let first = new_seed();
        println!("from seed {first}");
        let start = Instant::now();
        let mut next_line = Duration::from_secs(PROGRESS);
        for seed in first.. {
            self.try_roll(seed);
            self.try_entries(seed);
            if seed % VOLUME_EVERY == 0 {
                self.try_volume(seed);
            }
            if start.elapsed() >= next_line {
                self.progress(start);
                next_line = start.elapsed() + Duration::from_secs(PROGRESS);
            }
            if start.elapsed() >= time {
                break;
            }
        }
        self.progress(start);
        print!("{}", self.tally);
        let missing = self.tally.missing();
        missing.iter().for_each(|row| println!("never met: {row}"));
        self.wrong == 0 && missing.is_empty()
    }

    fn try_roll(&mut self, seed: u64) {
        self.rolls += 1;
        match compare(seed, &mut self.tally, roll_text) {
            Ok(lines) => self.lines += lines,
            Err(difference) => {
                self.wrong += 1;
                report(&difference);
            }
        }
    }

    fn try_entries(&mut self, seed: u64) {
        let proved = |moment: &entries::Moment, entry| roll_entry(moment.roll, moment.calls, entry);
        if let Err(unlike) = entries::compare(seed, &mut self.entries, proved) {
            self.wrong += 1;
            println!("DIFFERENCE {unlike}");
        }
    }

    fn try_volume(&mut self, seed: u64) {
        self.volumes += 1;
        if let Some(fault) = run_seed(seed).fault() {
            self.wrong += 1;
            println!("FAULT {fault}");
        }
    }

    fn progress(&self, start: Instant) {
        println!(
            "{:6} s: {} rolls, {} lines compared, {} entries found, {} volumes, {} wrong",
            start.elapsed().as_secs(),
            self.rolls,
            self.lines,
            self.entries.found,
            self.volumes,
            self.wrong
        );
    }
}

fn report(difference: &Difference) {
    println!("DIFFERENCE {difference}");
    match difference.keep() {
        Ok(file) => println!("  its roll: {}", file.display()),
        Err(error) => println!("  its roll could not be kept: {error}"),
    }
}

/// Another start each time, far from the fixed seeds of the tests.
fn new_seed() -> u64 {
    let since = SystemTime::now().duration_since(UNIX_EPOCH).unwrap_or_default();
    (since.as_nanos() as u64) & 0x0FFF_FFFF_FFFF_0000
}
