//! Entries looked up after some of a roll's calls: the model's answer against another one.
use super::random::Random;
use super::Generator;
use crate::history::bench::Bench;
use crate::history::entries::{find, totals, Found};
use crate::history::message::{Block, Log};
use crate::history::roll::{read_roll, Roll};
use std::fmt;

/// The most moments of a roll at which entries are looked up.
const MOST_MOMENTS: usize = 4;

/// What a look-up gives: an entry or a refusal's number, and nothing where there is no roll of so many calls.
pub type Answer = Option<Result<Found, u8>>;

/// A roll after so many of its calls, with the decided log that stands then and the one decided last; none, where it is no roll.
pub struct Moment<'a> {
    pub roll: &'a [u8],
    pub calls: usize,
    pub logs: Option<(Log, Log)>,
}

/// How many look-ups came to what: a run that found nothing, or refused nothing, has tried nothing.
#[derive(Default, Debug)]
pub struct Met {
    pub found: usize,
    pub refused: usize,
    pub no_roll: usize,
    /// Found in a log with a block of count 0, and with one of the highest count.
    pub with_none: usize,
    pub with_most: usize,
}

/// A look-up that is answered in two ways.
#[derive(Debug)]
pub struct Unlike {
    pub seed: u64,
    pub calls: usize,
    pub entry: u32,
    pub model: Answer,
    pub other: Answer,
}

/// Entry numbers to ask a log for: at both sides of each of its totals, the first number of all and the last.
pub fn edges(log: &[Block]) -> Vec<u32> {
    let mut edges: Vec<u32> = totals(log)
        .iter()
        .flat_map(|&total| [total.saturating_sub(1), total, total + 1])
        .collect();
    edges.extend([0, 1, u32::MAX - 1, u32::MAX]);
    edges.sort_unstable();
    edges.dedup();
    edges
}

/// Makes the roll of a seed, looks entries up at some of its moments, and holds the model's answers against the other ones.
pub fn compare(seed: u64, met: &mut Met, other: impl Fn(&Moment, u32) -> Answer) -> Result<(), Unlike> {
    let bytes = Generator::of(seed).roll(seed);
    for moment in moments(seed, &bytes) {
        let numbers = moment
            .logs
            .as_ref()
            .map_or(vec![0, u32::MAX], |(standing, _)| edges(standing));
        for entry in numbers {
            let model = moment.logs.as_ref().map(|(standing, _)| find(standing, entry));
            let other = other(&moment, entry);
            if model != other {
                return Err(Unlike {
                    seed,
                    calls: moment.calls,
                    entry,
                    model,
                    other,
                });
            }
            met.count(&moment, model);
        }
    }
    Ok(())
}

/// Some of a roll's moments: after all calls, one call too late, and where what stands has just changed or is about to.
fn moments(seed: u64, bytes: &[u8]) -> Vec<Moment<'_>> {
    let moment = |calls, logs| Moment {
        roll: bytes,
        calls,
        logs,
    };
    let Ok(roll) = read_roll(bytes) else {
        return vec![moment(0, None)];
    };
    let mut all = logs_by_calls(&roll);
    let late = moment(all.len(), None);
    let changes: Vec<usize> = (1..all.len()).filter(|&calls| all[calls].0 != all[calls - 1].0).collect();
    let mut numbers: Vec<usize> = changes.iter().flat_map(|&calls| [calls - 1, calls]).collect();
    let random = &mut Random::new(seed, 99);
    numbers.push(random.below(all.len()));
    random.shuffle(&mut numbers);
    numbers.truncate(MOST_MOMENTS);
    numbers.push(all.len() - 1);
    numbers.sort_unstable();
    numbers.dedup();
    let taken = numbers
        .into_iter()
        .map(|calls| moment(calls, Some(std::mem::take(&mut all[calls]))));
    taken.chain([late]).collect()
}

/// The decided log that stands and the one decided last, after no call, after one, and so on.
fn logs_by_calls(roll: &Roll) -> Vec<(Log, Log)> {
    let mut bench = Bench::open(roll.n, roll.own).expect("a roll opens a bench");
    let mut all = vec![(vec![], vec![])];
    for call in &roll.calls {
        bench.call(call);
        let last = bench.decisions().last().map_or(vec![], |(_, log)| log.clone());
        all.push((bench.decided(), last));
    }
    all
}

impl Met {
    fn count(&mut self, moment: &Moment, answer: Answer) {
        let has = |count: u16| {
            let (standing, _) = moment.logs.as_ref()?;
            standing.iter().find(|block| block.count == count)
        };
        match answer {
            None => self.no_roll += 1,
            Some(Err(_)) => self.refused += 1,
            Some(Ok(_)) => {
                self.found += 1;
                self.with_none += usize::from(has(0).is_some());
                self.with_most += usize::from(has(u16::MAX).is_some());
            }
        }
    }
}

impl fmt::Display for Unlike {
    fn fmt(&self, out: &mut fmt::Formatter) -> fmt::Result {
        let Unlike {
            seed,
            calls,
            entry,
            model,
            other,
        } = self;
        let generator = Generator::of(*seed);
        write!(
            out,
            "{generator:?} seed {seed}, entry {entry} after {calls} calls: model {model:?}, other {other:?}"
        )
    }
}

#[cfg(test)]
mod tests {
    use super::*;

    /// A wrong look-up in the log that stands and the log decided last.
    type Wrong = fn(&Log, &Log, u32) -> Result<(usize, u32), u8>;

    /// The entry by the least total that is above the number, by these tests.
    fn by(log: &Log, entry: u32, above: fn(u32, u32) -> bool) -> Result<(usize, u32), u8> {
        let totals = totals(log);
        let block = totals.iter().position(|&total| above(total, entry)).ok_or(23)?;
        let before = block.checked_sub(1).map_or(0, |last| totals[last]);
        Ok((block, entry.saturating_sub(before)))
    }

    const RIGHT: Wrong = |standing, _, entry| by(standing, entry, |total, entry| entry < total);

    const WRONG: [(&str, Wrong); 8] = [
        ("a number equal to the total is in the block", |standing, _, entry| {
            by(standing, entry, |total, entry| entry <= total)
        }),
        ("totals before the block and not through it", |standing, _, entry| {
            let mut shifted = standing.clone();
            shifted.insert(0, Block { name: 1, count: 0 });
            by(&shifted, entry, |total, entry| entry < total)
        }),
        ("in the log decided last", |_, last, entry| RIGHT(last, last, entry)),
        ("23 one number late", |standing, last, entry| {
            RIGHT(standing, last, entry).or_else(|number| RIGHT(standing, last, entry.wrapping_sub(1)).or(Err(number)))
        }),
        ("inside from 1", |standing, last, entry| {
            RIGHT(standing, last, entry).map(|(block, inside)| (block, inside + 1))
        }),
        ("blocks of count zero not counted", |standing, last, entry| {
            let held: Log = standing.iter().filter(|block| block.count > 0).copied().collect();
            RIGHT(&held, last, entry)
        }),
        ("blocks of count zero hold one entry", |standing, last, entry| {
            let mut filled = standing.clone();
            filled.iter_mut().for_each(|block| block.count = block.count.max(1));
            RIGHT(&filled, last, entry)
        }),
        ("totals of sixteen bits", |standing, _, entry| {
            by(standing, entry, |total, entry| entry < total % 65_536)
        }),
    ];

    fn compare_with(seed: u64, met: &mut Met, look_up: Wrong) -> Result<(), Unlike> {
        compare(seed, met, |moment, entry| {
            let (standing, last) = moment.logs.as_ref()?;
            let found = look_up(standing, last, entry);
            Some(found.map(|(block, inside)| Found {
                block: block as u8,
                inside: inside as u16,
            }))
        })
    }

    #[test]
    fn each_wrong_look_up_would_be_seen() {
        for (name, wrong) in WRONG {
            let seen = (0..200).filter(|&seed| compare_with(seed, &mut Met::default(), wrong).is_err());
            let times = seen.count();
            println!("{name}: seen {times} times in 200 seeds");
            assert!(times > 0, "{name}");
        }
    }

    #[test]
    fn a_right_look_up_is_alike_and_every_kind_of_answer_is_met() {
        let mut met = Met::default();
        for seed in 0..200 {
            assert!(compare_with(seed, &mut met, RIGHT).is_ok(), "{seed}");
        }
        println!("{met:?}");
        assert!(met.found > 2_000 && met.refused > 1_000 && met.no_roll > 200, "{met:?}");
        assert!(met.with_none > 500 && met.with_most > 500, "{met:?}");
    }

    #[test]
    fn edges_are_asked_from_both_sides() {
        let log: Log = [0, 5, 0, 7].map(|count| Block { name: 1, count }).to_vec();
        assert_eq!(edges(&[]), [0, 1, u32::MAX - 1, u32::MAX]);
        assert_eq!(edges(&log), [0, 1, 4, 5, 6, 11, 12, 13, u32::MAX - 1, u32::MAX]);
    }
}
