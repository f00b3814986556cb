//! The proved look-up of an entry by its number, after some of a roll's calls, against the model over random rolls.
use model::history::bench::Call;
use model::history::entries::Found;
use model::history::message::Block;
use model::history::roll::{read_roll, write_roll};
use model::proved::{roll_entry, write_roll_entry, LEAST_FOUND};
use model::rolls::entries::{compare, Met};
use model::rolls::Generator;

/// How many seeds a run tries.
const SEEDS: u64 = 800;

#[test]
fn model_and_proved_look_up_agree_and_every_kind_of_answer_is_met() {
    let mut met = Met::default();
    for seed in 0..SEEDS {
        if let Err(unlike) = compare(seed, &mut met, |moment, entry| roll_entry(moment.roll, moment.calls, entry)) {
            panic!("{unlike}");
        }
    }
    println!("{met:?}");
    let many = SEEDS as usize;
    assert!(
        met.found > 10 * many && met.refused > 5 * many && met.no_roll > many,
        "{met:?}"
    );
    assert!(met.with_none > many && met.with_most > many, "{met:?}");
}

/// A roll of one bench that decides a block of these counts in each view, from the first on.
fn deciding(counts: &[u16]) -> Vec<u8> {
    let offered = |beat: usize| match counts.get(beat / 4) {
        Some(&count) if beat.is_multiple_of(4) => Block {
            name: 1 + beat as u64,
            count,
        },
        _ => Block { name: 0, count: 0 },
    };
    let act = |block| Call::Act { block, priority: 9 };
    let beats = 0..4 * counts.len() + 3;
    let calls: Vec<Call> = beats
        .flat_map(|beat| [Call::Begin(beat as u32), act(offered(beat))])
        .collect();
    write_roll(1, 0, &calls)
}

/// An entry after all calls of a roll.
fn last(roll: &[u8], entry: u32) -> Result<(u8, u16), u8> {
    let calls = read_roll(roll).expect("a roll").calls.len();
    let found = roll_entry(roll, calls, entry).expect("as many calls as there are");
    found.map(|found| (found.block, found.inside))
}

#[test]
fn entries_at_every_edge_of_a_decided_log() {
    let roll = deciding(&[0, 0, 2, 0, 65_535, 1, 0]);
    let at = |entry| last(&roll, entry);
    assert_eq!([0, 1, 2].map(at), [Ok((2, 0)), Ok((2, 1)), Ok((4, 0))]);
    assert_eq!([65_536, 65_537].map(at), [Ok((4, 65_534)), Ok((5, 0))]);
    assert_eq!([65_538, 65_539, u32::MAX].map(at), [Err(23); 3]);
    assert_eq!([0, u32::MAX].map(|entry| last(&deciding(&[0, 0, 0]), entry)), [Err(23); 2]);
    assert_eq!([0, u32::MAX].map(|entry| last(&deciding(&[]), entry)), [Err(23); 2]);
}

#[test]
fn sixty_four_blocks_of_the_highest_count() {
    let roll = deciding(&[65_535; 64]);
    for block in 0..64 {
        let first = 65_535 * u32::from(block);
        assert_eq!(
            (last(&roll, first), last(&roll, first + 65_534)),
            (Ok((block, 0)), Ok((block, 65_534)))
        );
    }
    assert_eq!([4_194_240, 4_194_241, u32::MAX].map(|entry| last(&roll, entry)), [Err(23); 3]);
}

#[test]
fn what_stands_after_so_many_calls_is_asked() {
    let roll = deciding(&[3, 2]);
    let at = |calls, entry| roll_entry(&roll, calls, entry);
    let found = |block, inside| Some(Ok(Found { block, inside }));
    let (first, second) = (14, 22);
    assert_eq!((at(0, 0), at(first - 1, 0)), (Some(Err(23)), Some(Err(23))));
    assert_eq!(
        (at(first, 0), at(first, 2), at(first, 3)),
        (found(0, 0), found(0, 2), Some(Err(23)))
    );
    assert_eq!(
        (at(second - 1, 3), at(second, 3), at(second, 4)),
        (Some(Err(23)), found(1, 0), found(1, 1))
    );
    assert_eq!(
        (at(second, 5), at(second + 1, 0), at(usize::MAX, 0)),
        (Some(Err(23)), None, None)
    );
}

/// The buffer after a look-up, with the number that it gave.
fn written(roll: &[u8], calls: usize, entry: u32, room: usize) -> (usize, Vec<u8>) {
    let mut found = vec![0xA5; room];
    (write_roll_entry(roll, calls, entry, &mut found), found)
}

#[test]
fn bytes_past_those_written_are_left_as_they_were() {
    let roll = deciding(&[0, 300]);
    for more in [0, 1, 100] {
        let rest = vec![0xA5; more];
        let expected = |front: &[u8]| [front, &rest].concat();
        let room = LEAST_FOUND + more;
        assert_eq!(written(&roll, 22, 299, room), (3, expected(&[1, 43, 1])));
        assert_eq!(written(&roll, 22, 300, room), (1, expected(&[23, 0xA5, 0xA5])));
        assert_eq!(written(&roll, 23, 299, room), (0, expected(&[0xA5; 3])));
    }
}

#[test]
fn a_buffer_too_small_is_left_as_it_was() {
    let mut rolls: Vec<Vec<u8>> = (0..32).map(|seed| Generator::of(seed).roll(seed)).collect();
    rolls.extend([vec![], vec![1, 0, 0, 0], deciding(&[3])]);
    for roll in rolls {
        let calls = read_roll(&roll).map_or(0, |roll| roll.calls.len());
        for entry in [0, 1, u32::MAX] {
            for room in 0..LEAST_FOUND {
                assert_eq!(written(&roll, calls, entry, room), (0, vec![0xA5; room]));
            }
        }
    }
}

#[test]
fn bytes_that_are_no_roll_and_benches_that_do_not_open_give_nothing() {
    let roll = deciding(&[3]);
    let nothing = (0, vec![0xA5; LEAST_FOUND]);
    let asked = |roll: &[u8]| [0, 14].map(|calls| written(roll, calls, 0, LEAST_FOUND));
    assert_eq!(asked(&roll), [(1, vec![23, 0xA5, 0xA5]), (3, vec![0, 0, 0])]);
    for end in 0..roll.len() {
        assert_eq!(asked(&roll[..end]), [nothing.clone(), nothing.clone()], "cut at {end}");
    }
    let with = |place: usize, byte: u8| {
        let mut other = roll.clone();
        other[place] = byte;
        other
    };
    for (place, byte) in [
        (0, 0),
        (0, 33),
        (0, 255),
        (1, 1),
        (2, 13),
        (2, 15),
        (3, 5),
        (4, 0),
        (4, 4),
        (5, 1),
        (6, 3),
    ] {
        assert_eq!(
            asked(&with(place, byte)),
            [nothing.clone(), nothing.clone()],
            "{byte} at {place}"
        );
    }
    assert_eq!(
        asked(&[&roll[..], &[0]].concat()),
        [nothing.clone(), nothing.clone()],
        "a byte too many"
    );
    assert_eq!(asked(&with(0, 2)), asked(&roll), "another number of benches");
}
