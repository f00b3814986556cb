//! The record implementation against the model over random rolls: the text, and after every call the totals and the look-ups.
use model::history::bench::{Bench, Call, Reply};
use model::history::entries::{entries_in, totals};
use model::history::message::Block;
use model::history::roll::{read_roll, text, Roll};
use model::record::roll::roll_text;
use model::record::{self, Desk};
use model::rolls::entries::edges;
use model::rolls::Generator;

/// How many seeds a run tries.
const SEEDS: u64 = 800;

/// What the lent list of totals holds before anything is written: whatever stood there.
const FREE: u32 = 0x5A5A_5A5A;

/// Makes a call; its refusal, if it is refused.
fn refusal_of(desk: &mut Desk, call: &Call) -> Option<u8> {
    match call {
        Call::Begin(beat) => desk.begin(*beat).err(),
        Call::Receive(bytes) => desk.receive(bytes).err(),
        Call::Act { block, priority } => {
            let offered = record::Block {
                name: block.name,
                count: block.count,
            };
            desk.act(offered, *priority).err()
        }
    }
}

/// What was met: a run that found nothing, or refused nothing, has tried nothing.
#[derive(Default, Debug)]
struct Met {
    found: usize,
    refused: usize,
    zero_counts: usize,
    highest_counts: usize,
    extended: usize,
    parted: usize,
}

impl Met {
    /// Makes every call of a roll on both, and looks entries up on both after each.
    fn follow(&mut self, roll: &Roll) {
        let mut desk = Desk::open(roll.n, roll.own, FREE).expect("numbers in range");
        let mut bench = Bench::open(roll.n, roll.own).expect("numbers in range");
        self.look_up(&desk, &bench, &edges(&[]));
        for call in &roll.calls {
            let (old, written) = (bench.standing().0.len(), desk.totals.clone());
            let reply = bench.call(call);
            let refusal = if let Reply::Refused(number) = reply {
                Some(number)
            } else {
                None
            };
            assert_eq!(refusal_of(&mut desk, call), refusal);
            let (log, parted) = bench.standing();
            assert_eq!(desk.totals[..log.len()], totals(log));
            assert_eq!(
                (&desk.totals[..old], &desk.totals[log.len()..]),
                (&written[..old], &written[log.len()..])
            );
            self.count(log, old, parted);
            let total = entries_in(log);
            let last = [0, total.saturating_sub(1), total, u32::MAX];
            let numbers = if log.len() > old { edges(log) } else { last.to_vec() };
            self.look_up(&desk, &bench, &numbers);
        }
    }

    /// Looks these numbers up on both: at every edge where the log is new, at the last where it stands as before.
    fn look_up(&mut self, desk: &Desk, bench: &Bench, numbers: &[u32]) {
        for &entry in numbers {
            let found = bench.find(entry).map(|found| (found.block, found.inside));
            assert_eq!(desk.find(entry), found, "entry {entry}");
            match found {
                Ok(_) => self.found += 1,
                Err(_) => self.refused += 1,
            }
        }
    }

    fn count(&mut self, log: &[Block], old: usize, parted: bool) {
        let has = |count: u16| usize::from(log[old..].iter().any(|block| block.count == count));
        self.zero_counts += has(0);
        self.highest_counts += has(u16::MAX);
        self.extended += usize::from(old > 0 && log.len() > old);
        self.parted += usize::from(parted && log.len() > old);
    }
}

#[test]
fn record_and_model_answer_the_same_and_find_the_same_after_every_call() {
    let mut met = Met::default();
    for seed in 0..SEEDS {
        let bytes = Generator::of(seed).roll(seed);
        assert!(roll_text(&bytes) == text(&bytes), "seed {seed}");
        if let Ok(roll) = read_roll(&bytes) {
            met.follow(&roll);
        }
    }
    println!("{met:?}");
    let many = SEEDS as usize;
    assert!(met.found > 50 * many && met.refused > 50 * many, "{met:?}");
    assert!(
        met.zero_counts > many / 10 && met.highest_counts > many / 10 && met.extended > many,
        "{met:?}"
    );
    assert!(met.parted > 0, "{met:?}");
}
