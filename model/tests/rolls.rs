//! The proved roll function against the model over a fixed set of random rolls.
use model::history::bench::Rules;
use model::history::roll::{text, text_under, write_events, MOST_EVENTS};
use model::proved::{roll_text, write_roll_text, LEAST_BUFFER};
use model::rolls::compare::{compare, Difference};
use model::rolls::tally::Tally;
use model::rolls::Generator;

/// How many seeds a run tries.
const SEEDS: u64 = 24_000;
/// How many seeds a mistake is looked for in.
const SEEDS_FOR_MISTAKES: u64 = 400;

fn told(difference: &Difference) -> String {
    let kept = difference
        .keep()
        .map_or_else(|error| error.to_string(), |file| file.display().to_string());
    format!("{difference}\nits roll: {kept}")
}

#[test]
fn model_and_proved_text_agree_and_every_row_is_met() {
    let mut tally = Tally::default();
    for seed in 0..SEEDS {
        if let Err(difference) = compare(seed, &mut tally, roll_text) {
            panic!("{}", told(&difference));
        }
    }
    assert!(tally.missing().is_empty(), "{tally}");
}

#[test]
fn each_mistake_would_be_seen() {
    for rules in Rules::MISTAKES {
        let mut tally = Tally::default();
        let seen = (0..SEEDS_FOR_MISTAKES).filter(|&seed| compare(seed, &mut tally, |roll| text_under(rules, roll)).is_err());
        let times = seen.count();
        println!("{rules:?}: seen {times} times in {SEEDS_FOR_MISTAKES} seeds");
        assert!(times > 0, "{rules:?}");
    }
}

#[test]
fn a_text_cut_lengthened_or_altered_would_be_seen() {
    let seen = |change: fn(&mut Vec<u8>)| {
        let other = |roll: &[u8]| {
            let mut text = text(roll);
            change(&mut text);
            text
        };
        (0..50).all(|seed| compare(seed, &mut Tally::default(), other).is_err())
    };
    assert!(seen(|text| text.truncate(text.len() - 1)));
    assert!(seen(|text| text.push(b'\n')));
    assert!(seen(|text| text[0] ^= 1));
    assert!(!seen(|_| ()));
}

#[test]
fn a_seed_gives_its_roll_again() {
    for generator in Generator::ALL {
        assert!((0..50).all(|seed| generator.roll(seed) == generator.roll(seed)));
        assert!((0..50).any(|seed| generator.roll(seed) != generator.roll(seed + 1)));
    }
}

/// Rolls of each generator, a good one and a bad one among them.
fn some_rolls() -> Vec<Vec<u8>> {
    let mut rolls: Vec<Vec<u8>> = (0..32).map(|seed| Generator::of(seed).roll(seed)).collect();
    rolls.extend([vec![], vec![1, 0, 0, 0]]);
    rolls
}

#[test]
fn a_buffer_too_small_is_left_as_it_was() {
    for roll in some_rolls() {
        for length in [0, 1, 100, LEAST_BUFFER - 1] {
            let mut buffer = vec![0xA5; length];
            assert_eq!(write_roll_text(&roll, &mut buffer), 0);
            assert!(buffer.iter().all(|&byte| byte == 0xA5));
        }
    }
}

#[test]
fn bytes_past_the_text_are_left_as_they_were() {
    for roll in some_rolls() {
        let expected = text(&roll);
        for room in [0, 1, 5_000] {
            let mut buffer = vec![0xA5; LEAST_BUFFER + room];
            assert_eq!(write_roll_text(&roll, &mut buffer), expected.len());
            assert_eq!(buffer[..expected.len()], expected);
            assert!(buffer[expected.len()..].iter().all(|&byte| byte == 0xA5));
        }
    }
}

#[test]
fn a_long_text_fits() {
    let roll = write_events(32, 31, &vec![(1, vec![255; 4]); MOST_EVENTS]);
    let expected = format!("bench 31 of 32\n{}", "begin 4294967295 10\n".repeat(MOST_EVENTS));
    assert!(expected.len() <= LEAST_BUFFER);
    assert_eq!(roll_text(&roll), expected.as_bytes());
}
