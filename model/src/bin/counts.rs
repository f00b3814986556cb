//! Instructions of the proved code and of the record implementation on the rolls of the benchmark. Unlike times they do not depend on
//! what else the machine does. Counted by valgrind's callgrind, which runs this program as a child: `counts`, and for the child
//! `counts SIDE CASE RUNS`.
use model::bench_cases::{rolls_of_acts, whole_rolls, Case};
use model::{proved, record};
use std::hint::black_box;
use std::process::{Command, ExitCode, Stdio};

/// A child runs a case so often, and so often more in a second count: the difference is free of what a child does besides.
const RUNS: u32 = 2;
const MORE_RUNS: u32 = 8;

type WriteText = fn(&[u8], &mut [u8]) -> usize;

const SIDES: [(&str, WriteText); 2] = [("proved", proved::write_roll_text), ("rust", record::write_roll_text)];

/// Every roll, in the order of the table; those of acts with and without the acts.
fn rolls() -> Vec<Case> {
    let acts = rolls_of_acts().into_iter().flat_map(|case| [case.with, case.without]);
    whole_rolls().into_iter().chain(acts).collect()
}

/// What the child does. The text is written once before, so that both counts start alike.
fn run(side: &str, case: &str, runs: &str) -> Result<(), String> {
    let (_, write) = SIDES.into_iter().find(|(name, _)| *name == side).ok_or("no such side")?;
    let number: usize = case.parse().map_err(|_| "no number of a case")?;
    let runs: u32 = runs.parse().map_err(|_| "no number of runs")?;
    let case = rolls().into_iter().nth(number).ok_or("no such case")?;
    let mut text = vec![0; proved::LEAST_BUFFER];
    write(&case.roll, &mut text);
    for _ in 0..runs {
        black_box(write(black_box(&case.roll), black_box(&mut text)));
    }
    Ok(())
}

/// The count in what callgrind says at the end.
fn collected(said: &str) -> Option<u64> {
    let line = said.lines().find(|line| line.contains("Collected :"))?;
    line.rsplit(' ').next()?.parse().ok()
}

fn count_child(side: &str, case: usize, runs: u32) -> Result<u64, String> {
    let program = std::env::current_exe().map_err(|error| format!("this program is not found: {error}"))?;
    let child = Command::new("valgrind")
        .args(["--tool=callgrind", "--callgrind-out-file=/dev/null"])
        .arg(program)
        .args([side, &case.to_string(), &runs.to_string()])
        .stdout(Stdio::null())
        .output()
        .map_err(|error| format!("valgrind, which counts the instructions, does not start: {error}"))?;
    let said = String::from_utf8_lossy(&child.stderr);
    match collected(&said) {
        Some(count) if child.status.success() => Ok(count),
        _ => Err(format!("valgrind gave no count:\n{said}")),
    }
}

/// The instructions of one run of a case.
fn count(side: &str, case: usize) -> Result<f64, String> {
    let fewer = count_child(side, case, RUNS)?;
    let more = count_child(side, case, RUNS + MORE_RUNS)?;
    Ok((more as f64 - fewer as f64) / f64::from(MORE_RUNS))
}

fn counts(case: usize) -> Result<[f64; 2], String> {
    Ok([count(SIDES[0].0, case)?, count(SIDES[1].0, case)?])
}

/// Prints a row; its ratio.
fn print_row(name: &str, parts: usize, [proved, rust]: [f64; 2]) -> f64 {
    let each = |count: f64| count / parts as f64;
    let ratio = proved / rust;
    println!(
        "{name:<50} {parts:>6} {:>11.1} {:>11.1} {ratio:>8.3}",
        each(proved),
        each(rust)
    );
    ratio
}

fn print_table() -> Result<(), String> {
    println!("proved / Rust: instructions for an event of the roll, or for an act, counted by callgrind.\n");
    println!("{:<50} {:>6} {:>11} {:>11} {:>8}", "case", "count", "proved", "Rust", "ratio");
    let mut highest = (0.0, String::new());
    let mut row = |name: String, parts: usize, both: [f64; 2]| {
        let ratio = print_row(&name, parts, both);
        if ratio > highest.0 {
            highest = (ratio, name);
        }
    };
    let whole = whole_rolls();
    for (place, case) in whole.iter().enumerate() {
        row(case.name.to_owned(), case.events, counts(place)?);
    }
    for (number, case) in rolls_of_acts().iter().enumerate() {
        let place = whole.len() + 2 * number;
        let (with, without) = (counts(place)?, counts(place + 1)?);
        row(format!("{}: the roll", case.with.name), case.with.events, with);
        let alone = [with[0] - without[0], with[1] - without[1]];
        row(format!("{}: the acts alone", case.with.name), case.acts, alone);
    }
    println!("\nhighest ratio: {:.3} ({})", highest.0, highest.1);
    Ok(())
}

fn main() -> ExitCode {
    let arguments: Vec<String> = std::env::args().skip(1).collect();
    let done = match arguments.iter().map(String::as_str).collect::<Vec<_>>()[..] {
        [] => print_table(),
        [side, case, runs] => run(side, case, runs),
        _ => Err("usage: counts".to_owned()),
    };
    match done {
        Ok(()) => ExitCode::SUCCESS,
        Err(message) => {
            eprintln!("counts: {message}");
            ExitCode::from(2)
        }
    }
}

#[cfg(test)]
mod tests {
    use super::*;

    #[test]
    fn the_count_in_what_callgrind_says() {
        let said = "==7== Events    : Ir\n==7== Collected : 12345\n==7== \n==7== I   refs:      12,345\n";
        assert_eq!((collected(said), collected("==7== I   refs: 1\n")), (Some(12345), None));
    }

    #[test]
    fn a_child_runs_every_roll_of_both_sides() {
        for case in 0..rolls().len() {
            assert_eq!(run("proved", &case.to_string(), "1"), Ok(()));
            assert_eq!(run("rust", &case.to_string(), "0"), Ok(()));
        }
        assert!(run("proved", "99", "1").is_err() && run("other", "0", "1").is_err() && run("rust", "0", "x").is_err());
    }
}
