//! What the paper's rules give on a list that was made under a mistake.
use super::keeper::Keeper;
use crate::history::bench::{Bench, Reply};

/// The number of the first call whose answer, made message or decision is another under the paper's rules, and a word on it.
pub fn first_difference(keeper: &Keeper) -> Option<(usize, &'static str)> {
    let mut bench = Bench::open(keeper.n, keeper.own).expect("the same numbers opened before");
    keeper.list.iter().enumerate().find_map(|(place, entry)| {
        let before = bench.decisions().len();
        let reply = bench.call(&entry.call);
        let decided = bench.decisions()[before..].last().map(|(_, log)| log);
        if reply != entry.reply {
            let word = if matches!(reply, Reply::Acted(_)) {
                "made message"
            } else {
                "answer"
            };
            return Some((place, word));
        }
        (decided != entry.decided.as_ref()).then_some((place, "decision"))
    })
}
