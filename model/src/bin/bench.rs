//! The proved code against the record implementation, on the same rolls in one run. docs/BENCHMARK.md explains the table.
use model::bench_cases::{rolls_of_acts, whole_rolls, ActsCase, Case};
use model::{proved, record};
use std::hint::black_box;
use std::time::{Duration, Instant};

const REPEATS: usize = 15;

/// A repeat is made of slices, in which the contenders take turns, and its time is that of the median slice: what else the
/// machine does meanwhile falls on all of them, or on slices that do not count.
const SLICES: usize = 11;
const LEAST_SLICE: Duration = Duration::from_micros(2_500);

type WriteText = fn(&[u8], &mut [u8]) -> usize;

/// One implementation on one roll: how often to run it in a slice, and the time of a run in nanoseconds, repeat by repeat.
struct Timed<'a> {
    write: WriteText,
    roll: &'a [u8],
    runs: u32,
    times: Vec<f64>,
}

impl<'a> Timed<'a> {
    fn new(write: WriteText, roll: &'a [u8], text: &mut [u8]) -> Timed<'a> {
        let mut timed = Timed {
            write,
            roll,
            runs: 1,
            times: Vec::new(),
        };
        while timed.slice(text) < LEAST_SLICE {
            timed.runs *= 2;
        }
        timed
    }

    fn slice(&self, text: &mut [u8]) -> Duration {
        let start = Instant::now();
        for _ in 0..self.runs {
            black_box((self.write)(black_box(self.roll), black_box(&mut *text)));
        }
        start.elapsed()
    }
}

/// Times all of them, repeat by repeat; every other slice in reverse, so that each goes first as often as last.
fn interleave(all: &mut [Timed], text: &mut [u8]) {
    for _ in 0..REPEATS {
        let mut slices = vec![Vec::new(); all.len()];
        for slice in 0..SLICES {
            for turn in 0..all.len() {
                let place = if slice % 2 == 0 { turn } else { all.len() - 1 - turn };
                let time = all[place].slice(text).as_nanos() as f64;
                slices[place].push(time / f64::from(all[place].runs));
            }
        }
        for (timed, slices) in all.iter_mut().zip(slices) {
            timed.times.push(Spread::of(slices.into_iter()).median);
        }
    }
}

/// What the repeats gave. The quartiles tell how far they scatter without a single repeat that was disturbed.
#[derive(Clone, Copy, Debug, PartialEq)]
struct Spread {
    lowest: f64,
    lower_quartile: f64,
    median: f64,
    upper_quartile: f64,
    highest: f64,
}

impl Spread {
    fn of(values: impl Iterator<Item = f64>) -> Spread {
        let mut sorted: Vec<f64> = values.collect();
        sorted.sort_by(f64::total_cmp);
        let at = |quarter: usize| sorted[quarter * (sorted.len() - 1) / 4];
        Spread {
            lowest: at(0),
            lower_quartile: at(1),
            median: at(2),
            upper_quartile: at(3),
            highest: at(4),
        }
    }

    /// Differences lost in the noise: one repeat saw none, or half of the repeats scatter over more than half of their median.
    fn is_noise(self) -> bool {
        self.lowest <= 0.0 || self.upper_quartile - self.lower_quartile > self.median / 2.0
    }
}

/// A row of the table: times for each event or act, and the ratio, unless it is lost in the noise.
struct Row {
    name: String,
    parts: usize,
    proved: Spread,
    rust: Spread,
    ratio: Option<Spread>,
}

impl Row {
    /// The row of times taken repeat by repeat, which are divided pair by pair.
    fn of(name: String, parts: usize, proved: &[f64], rust: &[f64]) -> Row {
        let spread = |times: &[f64]| Spread::of(times.iter().map(|time| time / parts as f64));
        let ratio = Spread::of(proved.iter().zip(rust).map(|(p, r)| p / r));
        Row {
            name,
            parts,
            proved: spread(proved),
            rust: spread(rust),
            ratio: Some(ratio),
        }
    }

    fn print(&self) {
        print!(
            "{:<50} {:>6} {:>11.1} {:>11.1}",
            self.name, self.parts, self.proved.median, self.rust.median
        );
        match self.ratio {
            Some(ratio) => println!(" {:>8.2} {:>8.2} to {:.2}", ratio.median, ratio.lowest, ratio.highest),
            None => println!("  too small against the noise to be measured"),
        }
    }
}

fn assert_same_text(case: &Case) {
    let same = proved::roll_text(&case.roll) == record::roll::roll_text(&case.roll);
    assert!(same, "the two texts differ for: {}", case.name);
}

fn whole_row(case: &Case, text: &mut [u8]) -> Row {
    assert_same_text(case);
    let mut all =
        [proved::write_roll_text, record::write_roll_text].map(|write: WriteText| Timed::new(write, &case.roll, text));
    interleave(&mut all, text);
    Row::of(case.name.to_owned(), case.events, &all[0].times, &all[1].times)
}

/// The roll as a whole, and its acts alone: what it takes longer than without them.
fn acts_rows(case: &ActsCase, text: &mut [u8]) -> [Row; 2] {
    [&case.with, &case.without].into_iter().for_each(assert_same_text);
    let rolls = [&case.with.roll, &case.without.roll];
    let writers: [WriteText; 2] = [proved::write_roll_text, record::write_roll_text];
    let pairs = writers.into_iter().flat_map(|write| rolls.map(|roll| (write, roll)));
    let mut all: Vec<Timed> = pairs.map(|(write, roll)| Timed::new(write, roll, text)).collect();
    interleave(&mut all, text);
    let difference =
        |with: usize| -> Vec<f64> { all[with].times.iter().zip(&all[with + 1].times).map(|(w, o)| w - o).collect() };
    let (proved, rust) = (difference(0), difference(2));
    let mut alone = Row::of(format!("{}: the acts alone", case.with.name), case.acts, &proved, &rust);
    if alone.proved.is_noise() || alone.rust.is_noise() {
        alone.ratio = None;
    }
    [
        Row::of(
            format!("{}: the roll", case.with.name),
            case.with.events,
            &all[0].times,
            &all[2].times,
        ),
        alone,
    ]
}

fn print_heading() {
    let least = (LEAST_SLICE * SLICES as u32).as_millis();
    println!("proved / Rust: {REPEATS} interleaved repeats of at least {least} ms each; median, lowest to highest.");
    println!("One lent text buffer, reused by both and not cleared between runs; both are warm.");
    println!("ns: the median for an event of the roll, or for an act.\n");
    println!(
        "{:<50} {:>6} {:>11} {:>11} {:>8} {:>8}",
        "case", "count", "proved ns", "Rust ns", "ratio", "spread"
    );
}

fn main() {
    print_heading();
    let mut text = vec![0; proved::LEAST_BUFFER];
    let mut rows: Vec<Row> = Vec::new();
    for case in whole_rolls() {
        rows.push(whole_row(&case, &mut text));
        rows[rows.len() - 1].print();
    }
    for case in rolls_of_acts() {
        let measured = acts_rows(&case, &mut text);
        measured.iter().for_each(Row::print);
        rows.extend(measured);
    }
    let ratios = rows.iter().filter_map(|row| row.ratio.map(|ratio| (ratio.median, &row.name)));
    if let Some((ratio, name)) = ratios.max_by(|one, other| one.0.total_cmp(&other.0)) {
        println!("\nhighest ratio: {ratio:.2} ({name})");
    }
}

#[cfg(test)]
mod tests {
    use super::*;

    #[test]
    fn the_spread_of_fifteen_values() {
        let spread = Spread::of((1..=15).rev().map(f64::from));
        let expected = Spread {
            lowest: 1.0,
            lower_quartile: 4.0,
            median: 8.0,
            upper_quartile: 11.0,
            highest: 15.0,
        };
        assert_eq!(spread, expected);
        assert!(spread.is_noise());
        assert!(!Spread::of((1..=15).map(|value| 100.0 + f64::from(value))).is_noise());
        assert!(Spread::of((0..15).map(f64::from)).is_noise());
    }
}
