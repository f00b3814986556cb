//! That cells and heads say what they say in the order that the legend tells.
use super::seen::Seen;
use super::stories::{self, small};
use crate::sketch::picture::mark::Sign;
use crate::sketch::picture::panel::Panel;
use crate::sketch::picture::rows::Who;
use std::collections::BTreeSet;

/// The place of a mark in a rule-keeper's cell by the legend's words.
fn place(sign: Sign) -> usize {
    let order: [&[Sign]; 12] = [
        &[Sign::Asleep, Sign::Begins],
        &[Sign::Comes],
        &[Sign::Equivocator, Sign::Aside, Sign::Refused],
        &[Sign::Passes],
        &[Sign::Grade],
        &[Sign::Lock],
        &[Sign::Vote, Sign::NoVote, Sign::Proposal],
        &[Sign::Decision, Sign::Conflict],
        &[Sign::Stands, Sign::Parted],
        &[Sign::Snapshot],
        &[Sign::Lost, Sign::Sent],
        &[Sign::Breach],
    ];
    let place = order.iter().position(|signs| signs.contains(&sign));
    place.unwrap_or_else(|| panic!("{sign:?} has no place in a rule-keeper's cell"))
}

#[test]
fn the_marks_of_a_cell_stand_in_the_legends_order() {
    let mut followed = BTreeSet::new();
    for (name, story) in stories::all() {
        let beats = story.runs[0].benches[0].beats.len();
        for panel in story.runs.iter().map(|run| Panel::new(&story, run, beats)) {
            let rows = panel.rows.iter().filter(|row| matches!(row.who, Who::Keeper(_)));
            for cell in rows.flat_map(|row| &row.cells) {
                let places: Vec<usize> = cell.iter().map(|mark| place(mark.sign)).collect();
                assert!(places.is_sorted(), "{name}: {cell:?}");
                followed.extend(places.windows(2).map(|pair| (pair[0], pair[1])));
            }
        }
    }
    for (one, other) in [
        (Sign::Lock, Sign::Vote),
        (Sign::Grade, Sign::Decision),
        (Sign::Snapshot, Sign::Breach),
    ] {
        let pair = (place(one), place(other));
        assert!(followed.contains(&pair), "in no cell {other:?} follows on {one:?}");
    }
}

#[test]
fn the_head_of_view_0_has_nothing_to_decide() {
    let seen = Seen::of(&small());
    let heads = ["decide, and", "take snapshot one", "take snapshot two"].map(|words| seen.count(words));
    assert_eq!(heads, [2, 3, 2], "at beats 6 and 10; 2, 6 and 10; 3 and 7");
}
