//! Tests: the totals of the decided log as a cause of 9, what acts write of them, and entries by their numbers.
use super::lists::DECIDED_PLACE;
use super::*;

const NONE: Block = Block { name: 0, count: 0 };

/// What the list of totals holds where nothing was written.
const FREE: u32 = 0xA5A5_A5A5;

impl Desk {
    /// Bench 1 of 4.
    fn one() -> Desk {
        Desk::open(4, 1, FREE).unwrap()
    }

    /// With a decided log of these counts and names that are all 5, and its totals.
    fn decided(counts: &[u16]) -> Desk {
        let mut desk = Desk::one();
        desk.bench.decided = counts.len() as u8;
        let mut total = 0;
        for (place, &count) in counts.iter().enumerate() {
            total += u32::from(count);
            desk.names[DECIDED_PLACE + place] = 5;
            desk.counts[DECIDED_PLACE + place] = count;
            desk.totals[place] = total;
        }
        desk
    }

    /// Hears benches 0, 2 and 3 vote for these blocks in a view, two views after the last, and decides.
    fn decide(&mut self, view: u32, log: &[Block]) {
        self.begin(4 * view + 2).unwrap();
        for sender in [0, 2, 3] {
            assert_eq!(self.receive(&log_bytes(sender, view, log)), Ok(Word::First));
        }
        self.act(NONE, 0).unwrap();
        self.begin(4 * view + 6).unwrap();
        self.act(NONE, 0).unwrap();
    }
}

fn log(blocks: &[(u64, u16)]) -> Vec<Block> {
    blocks.iter().map(|&(name, count)| Block { name, count }).collect()
}

#[test]
fn wrong_totals_are_nine_after_eight_and_before_the_rest() {
    for place in 0..4 {
        for wrong in [1, 65_536, u32::MAX] {
            let mut desk = Desk::decided(&[2, 0, 65_535, 3]);
            desk.totals[place] = desk.totals[place].wrapping_add(wrong);
            let before = desk.clone();
            assert_eq!(desk.begin(LAST_BEAT + 1), Err(9), "and not 10");
            assert_eq!(desk.receive(&[]), Err(9), "and not 22");
            assert_eq!(desk.act(NONE, 0), Err(9), "and not 22");
            desk.out.pop();
            assert_eq!(desk.act(NONE, 0), Err(9), "and not 11");
            assert_eq!(desk.find(u32::MAX), Err(9), "and not 23");
            desk.names.pop();
            assert_eq!(
                (desk.begin(0), desk.receive(&[]), desk.act(NONE, 0), desk.find(0)),
                (Err(8), Err(8), Err(8), Err(8))
            );
            assert_eq!(
                (desk.bench, desk.counts, desk.totals),
                (before.bench, before.counts, before.totals)
            );
        }
    }
}

#[test]
fn what_stands_past_the_decided_length_is_free() {
    for blocks in [0, 1, 3, 63, 64] {
        let mut desk = Desk::decided(&vec![1; blocks]);
        assert_eq!((desk.begin(0), desk.find(0).is_ok()), (Ok(()), blocks > 0));
        desk.totals.push(9);
        desk.counts[DECIDED_PLACE + blocks..].fill(7);
        assert_eq!((desk.receive(&[]), desk.act(NONE, 0)), (Err(1), Ok(Made::Nothing)));
    }
}

#[test]
fn an_act_writes_totals_where_a_decision_extends_and_past_the_old_length_alone() {
    let mut desk = Desk::one();
    let totals = |desk: &Desk, written: &[u32]| {
        let (front, rest) = desk.totals.split_at(written.len());
        front == written && rest.iter().all(|&total| total == FREE)
    };
    desk.decide(0, &log(&[]));
    assert!(totals(&desk, &[]), "the empty log");
    desk.decide(2, &log(&[(5, 3), (6, 0)]));
    assert!(totals(&desk, &[3, 3]));
    desk.decide(4, &log(&[(5, 3)]));
    assert!(totals(&desk, &[3, 3]), "a prefix");
    desk.decide(6, &log(&[(5, 3), (6, 0)]));
    assert!(totals(&desk, &[3, 3]), "the same");
    desk.decide(8, &log(&[(5, 3), (6, 1), (7, 9)]));
    assert!(totals(&desk, &[3, 3]) && desk.bench.parted, "a conflict");
    desk.decide(10, &log(&[(5, 3), (6, 0), (7, 65_535), (8, 0), (9, 1)]));
    assert!(totals(&desk, &[3, 3, 65_538, 65_538, 65_539]));
    let most: Vec<Block> = [
        &log(&[(5, 3), (6, 0), (7, 65_535), (8, 0), (9, 1)])[..],
        &[Block { name: 1, count: 2 }; 59],
    ]
    .concat();
    desk.decide(12, &most);
    assert_eq!(
        (desk.totals[4], desk.totals[5], desk.totals[63]),
        (65_539, 65_541, 65_539 + 118)
    );
}

#[test]
fn entries_are_found_by_the_totals() {
    let found = |counts: &[u16], entry| Desk::decided(counts).find(entry);
    assert_eq!((found(&[], 0), found(&[], u32::MAX)), (Err(23), Err(23)));
    assert_eq!((found(&[0; 64], 0), found(&[0; 64], u32::MAX)), (Err(23), Err(23)));
    let counts = [0, 2, 0, 0, 1, 0];
    assert_eq!(
        [0, 1, 2, 3].map(|entry| found(&counts, entry)),
        [Ok((1, 0)), Ok((1, 1)), Ok((4, 0)), Err(23)]
    );
    let most = [65_535; 64];
    assert_eq!(
        [0, 65_534, 65_535].map(|entry| found(&most, entry)),
        [Ok((0, 0)), Ok((0, 65_534)), Ok((1, 0))]
    );
    assert_eq!(
        [4_194_239, 4_194_240].map(|entry| found(&most, entry)),
        [Ok((63, 65_534)), Err(23)]
    );
}

#[test]
fn an_entry_is_found_at_any_time_and_parted_too() {
    let mut desk = Desk::decided(&[1]);
    desk.bench.parted = true;
    assert_eq!(desk.find(0), Ok((0, 0)), "no beat begun");
    desk.begin(3).unwrap();
    assert_eq!((desk.find(0), desk.find(1)), (Ok((0, 0)), Err(23)), "in a gathering");
    assert_eq!(desk.act(NONE, 0), Ok(Made::Nothing));
    assert_eq!(desk.find(0), Ok((0, 0)));
}
