//! What a sketch says so far.
use super::cursor::{joined, Cursor};
use super::fault::{quoted, Fault};
use super::lists::{Benches, Item, Scope};
use super::meets::{Own, Viewed};
use super::needs::{Deed, Need};
use super::words::Word;
use crate::history::bench::Rules;
use crate::sketch::schedule::{Fate, Offer, Schedule, Tell};
use crate::volume::schedule::Presence;
use std::collections::BTreeMap;

#[derive(Default)]
pub struct Draft {
    pub title: String,
    /// 0 until it is said.
    pub n: u8,
    /// All, if none are said.
    pub keepers: Option<Vec<u8>>,
    /// The first and the last beat.
    pub span: Option<(u32, u32)>,
    pub mistake: Option<Rules>,
    /// What is said of a rule-keeper and a beat; else it is awake.
    pub presence: BTreeMap<(u8, u32), Presence>,
    pub offers: Vec<Offer>,
    pub tells: Vec<Tell>,
    pub fates: Vec<Fate>,
    /// What must hold when all lines are read.
    needs: Vec<Need>,
    /// The views of which the sketch must have beats.
    pub views: Vec<Viewed>,
    /// The lines that only a forged message can meet.
    pub own: Vec<Own>,
    /// Where each statement stands that is said once.
    said: BTreeMap<String, usize>,
    /// The first line that names a bench.
    names_bench: Option<usize>,
}

impl Draft {
    /// Notes a statement that is said once.
    pub fn once(&mut self, word: &Word) -> Result<(), Fault> {
        match self.said.insert(word.text.clone(), word.line) {
            None => Ok(()),
            Some(line) => Err(Fault::at(
                word,
                format!("another statement ({} is said in line {line} already)", quoted(&word.text)),
            )),
        }
    }

    /// Notes that this line names a bench, after which it is too late to say who keeps the rules.
    pub fn note_bench(&mut self, line: usize) {
        self.names_bench.get_or_insert(line);
    }

    pub fn names_bench(&self) -> Option<usize> {
        self.names_bench
    }

    pub fn benches(&self) -> Scope {
        Scope::benches(self.n)
    }

    /// The beats that can be named, if they are said by now.
    pub fn beats(&self, cursor: &mut Cursor) -> Result<Scope, Fault> {
        match self.span {
            Some((first, last)) => Ok(Scope::beats(first, last)),
            None => Err(cursor.fault("'beats A-B' in an earlier line (it comes before any line that names a beat)")),
        }
    }

    pub fn keepers(&self) -> Vec<u8> {
        self.keepers.clone().unwrap_or_else(|| (0..self.n).collect())
    }

    /// The rule-keepers where one of them must stand: `a rule-keeper, 0 to 2 or 4`.
    pub fn rule_keeper(&self) -> String {
        let keepers = self.keepers();
        let run = |run: &[u8]| match run {
            [first, .., last] => format!("{first} to {last}"),
            _ => run.iter().map(u8::to_string).collect(),
        };
        let runs: Vec<String> = keepers.chunk_by(|one, next| one + 1 == *next).map(run).collect();
        format!("a rule-keeper, {}", joined(&runs))
    }

    /// The benches that a message can be handed to.
    pub fn receivers(&self) -> Scope {
        Scope::receivers(self.n, &self.keepers(), self.rule_keeper())
    }

    fn keeps_rules(&self, bench: u8) -> bool {
        self.keepers().contains(&bench)
    }

    /// The rule-keeper that the item names.
    pub fn keeper(&self, item: &Item) -> Result<u8, Fault> {
        let bench = item.bench();
        match self.keeps_rules(bench) {
            true => Ok(bench),
            false => Err(Fault::at(
                &item.word,
                format!("{} (bench {bench} breaks the rules)", self.rule_keeper()),
            )),
        }
    }

    /// The rule-breaker that the item names.
    pub fn breaker(&self, item: &Item) -> Result<u8, Fault> {
        let bench = item.bench();
        let note = match self.keepers {
            Some(_) => "",
            None => ", as all do where 'keepers' is not said",
        };
        match self.keeps_rules(bench) {
            false => Ok(bench),
            true => Err(Fault::at(
                &item.word,
                format!("a rule-breaker (bench {bench} keeps the rules{note})"),
            )),
        }
    }

    /// The benches of a list, all of which keep the rules.
    pub fn keepers_of(&self, list: Benches) -> Result<Vec<Item>, Fault> {
        let items = match list {
            Benches::Listed(items) => items,
            Benches::All(word) => {
                let item = |bench: u8| Item {
                    number: u32::from(bench),
                    word: word.clone(),
                };
                self.keepers().into_iter().map(item).collect()
            }
        };
        for item in &items {
            self.keeper(item)?;
        }
        Ok(items)
    }

    /// Notes what the bench must do at the beat, by lines before this one or after it.
    pub fn need(&mut self, deed: Deed, bench: u8, beat: u32, word: Word) {
        self.needs.push(Need { deed, bench, beat, word });
    }

    fn presence(&self, bench: u8, beat: u32) -> Presence {
        self.presence.get(&(bench, beat)).copied().unwrap_or(Presence::Awake)
    }

    /// The needs that are not met.
    pub fn unmet(&self) -> impl Iterator<Item = Fault> + '_ {
        let needs = self.needs.iter();
        let needs = needs.filter_map(|need| need.unmet_by(self.presence(need.bench, need.beat)));
        let views = self.views.iter().zip(self.span.into_iter().cycle());
        needs.chain(views.filter_map(|(view, span)| view.missed_by(span)))
    }

    /// The lines that nothing can meet, since no line forges what they speak of.
    pub fn unforged(&self) -> Vec<Fault> {
        self.own.iter().filter_map(|own| own.unforged_by(&self.tells)).collect()
    }

    /// The schedule, all needs being met; or the statement that is missing.
    pub fn schedule(self) -> Result<Schedule, &'static str> {
        if self.n == 0 {
            return Err("'benches N', which every sketch has");
        }
        let (first_beat, last_beat) = self.span.ok_or("'beats A-B', which every sketch has")?;
        let keepers = self.keepers();
        let row = |&bench: &u8| (first_beat..=last_beat).map(|beat| self.presence(bench, beat)).collect();
        let presence = keepers.iter().map(row).collect();
        let begins = |tell: &Tell, bench: u8| self.presence(bench, tell.beat) != Presence::Skips;
        let gathered = |tell: &Tell| tell.to.iter().copied().filter(|&bench| begins(tell, bench)).collect();
        let tells = self.tells.iter().map(|tell| Tell {
            to: gathered(tell),
            ..tell.clone()
        });
        Ok(Schedule {
            n: self.n,
            keepers,
            first_beat,
            last_beat,
            mistake: self.mistake,
            presence,
            tells: tells.collect(),
            title: self.title,
            offers: self.offers,
            fates: self.fates,
        })
    }
}
