//! A story in plain lines: who took what, who counted, what was read, made and decided, and whether the promise is kept.
mod act;
mod bench;
mod grade;
mod head;
mod outcome;
mod premises;
mod sheet;
#[cfg(test)]
mod tests;
mod vote;
mod words;

pub use outcome::on_demand_three;

use super::story::{Run, Story};
use crate::history::bench::Rules;
use sheet::Sheet;

/// The whole story.
pub fn tell(story: &Story) -> String {
    let mut sheet = Sheet::default();
    head::tell(&mut sheet, &story.schedule);
    for run in &story.runs {
        sheet.gap();
        sheet.banner(&heading(run));
        sheet.gap();
        for bench in &run.benches {
            bench::tell(&mut sheet, &story.schedule, run.rules, bench);
            sheet.gap();
        }
        premises::tell(&mut sheet, &story.schedule, run);
        sheet.gap();
        outcome::tell(&mut sheet, run);
        tell_idle(&mut sheet, story, run);
    }
    if story.runs.len() == 2 {
        sheet.gap();
        outcome::tell_both(&mut sheet, story);
    }
    sheet.text
}

/// The verdict of each run.
pub fn verdict(story: &Story) -> String {
    let mut sheet = Sheet::default();
    for run in &story.runs {
        sheet.say(0, &heading(run));
        for saying in outcome::verdict(run) {
            sheet.say(2, &saying);
        }
        tell_idle(&mut sheet, story, run);
    }
    sheet.text
}

/// The sketch's lines that did nothing in the run by the rules.
fn tell_idle(sheet: &mut Sheet, story: &Story, run: &Run) {
    if run.rules != Rules::Paper {
        return;
    }
    for fate in story.idle() {
        let line = words::fate(fate);
        sheet.say(2, &format!("This line of the sketch met no message and did nothing: {line}"));
    }
}

fn heading(run: &Run) -> String {
    match run.rules {
        Rules::Paper => "By the rules, in the proved code".to_string(),
        mistake => format!("With the mistake \"{}\", in the model", words::rules(mistake)),
    }
}
