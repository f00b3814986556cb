//! What a sketch is about.
use super::sheet::Sheet;
use super::words::{counted, numbers, rules, span};
use crate::sketch::schedule::Schedule;

pub fn tell(sheet: &mut Sheet, schedule: &Schedule) {
    if !schedule.title.is_empty() {
        sheet.say(0, &schedule.title);
        sheet.gap();
    }
    let (first, last) = (schedule.first_beat, schedule.last_beat);
    sheet.say(
        0,
        &format!("{}. {}", counted(schedule.n.into(), "bench", "benches"), people(schedule)),
    );
    sheet.say(0, &format!("{}.", span("Beat", first, last)));
    if let Some(mistake) = schedule.mistake {
        let said = format!("Told twice: by the rules, and with the mistake \"{}\".", rules(mistake));
        sheet.say(0, &said);
    }
    sheet.gap();
    for saying in KEY {
        sheet.say(0, saying);
    }
}

/// What a reader must know of the lines.
const KEY: [&str; 3] = [
    "[5 6*3] is a log: block 5 with one entry, then block 6 with three; [] is the empty log. LOG v0 of 1 [5] is bench 1's vote \
     in view 0 for that log. GA 0 is the agreement of view 0: who voted for what, as one bench has heard it.",
    "In view v a bench may propose at beat 4v, votes at 4v+1, decides by GA v-1 at 4v+2 and takes snapshot one of GA v there, \
     and takes snapshot two of GA v at 4v+3.",
    "What is said of a beat stands in its order: what the bench takes, who counts then, and what its act does.",
];

fn people(schedule: &Schedule) -> String {
    let breakers: Vec<u8> = (0..schedule.n).filter(|own| !schedule.keepers.contains(own)).collect();
    let verb = |these: &[u8], one: &'static str, more: &'static str| if these.len() == 1 { one } else { more };
    if breakers.is_empty() {
        return format!("All keep the rules: {}.", numbers(&schedule.keepers));
    }
    let keep = verb(&schedule.keepers, "keeps", "keep");
    let break_them = verb(&breakers, "breaks", "break");
    let (keepers, breakers) = (numbers(&schedule.keepers), numbers(&breakers));
    format!("{keepers} {keep} the rules; {breakers} {break_them} them.")
}
