//! The model as a machine, under the paper's rules or a mistake.
use super::Machine;
use crate::history::bench::{Bench, Call, Reply, Rules};
use crate::history::message::{Log, LAST_VIEW};
use crate::history::roll;
use crate::sketch::page::Page;
use crate::sketch::story::Agreement;
use crate::volume::reading::log_window_is_open;

pub struct Model {
    bench: Bench,
    text: String,
    decided: Option<Log>,
}

impl Model {
    /// A fresh bench, or refusal 7.
    pub fn open(rules: Rules, n: u8, own: u8) -> Result<Model, u8> {
        let bench = Bench::open_under(rules, n, own)?;
        Ok(Model {
            text: roll::first_line(&bench),
            bench,
            decided: None,
        })
    }

    /// GA v as it was heard, unless there is nothing of it.
    fn agreement(&self, view: u32) -> Option<Agreement> {
        let heard = self.bench.heard(view);
        let snapshot = |number| Some(self.bench.snapshot(view, number)?.into_keys().collect());
        let agreement = Agreement {
            view,
            voters: heard
                .voters()
                .into_iter()
                .map(|(sender, log)| (sender, log.to_vec()))
                .collect(),
            equivocators: heard.equivocators(),
            one: snapshot(1),
            two: snapshot(2),
        };
        let is_there = !heard.logs.is_empty() || agreement.one.is_some() || agreement.two.is_some();
        is_there.then_some(agreement)
    }
}

impl Machine for Model {
    fn call(&mut self, call: &Call) -> Reply {
        let before = self.bench.decisions().len();
        let reply = self.bench.call(call);
        self.decided = self.bench.decisions()[before..].last().map(|(_, log)| log.clone());
        self.text += &roll::line(call, &reply, &self.bench);
        reply
    }

    fn decided(&self) -> Option<Log> {
        self.decided.clone()
    }

    fn standing(&self) -> (Log, bool) {
        let (log, parted) = self.bench.standing();
        (log.to_vec(), parted)
    }

    fn text(&self) -> &str {
        &self.text
    }

    fn page(&self) -> Page {
        let beat = self.bench.beat().unwrap_or(0);
        let views = [(beat / 4).checked_sub(1), Some(beat / 4)].into_iter().flatten();
        let open = views.filter(|&view| view <= LAST_VIEW && log_window_is_open(view, beat));
        let (decided, parted) = self.standing();
        Page {
            agreements: open.filter_map(|view| self.agreement(view)).collect(),
            reading: self.bench.reading(),
            decided,
            parted,
        }
    }
}
