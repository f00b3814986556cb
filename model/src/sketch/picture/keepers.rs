//! The rows of the rule-keepers: for each beat, what comes, what is learned, what the act does, what is missed.
use super::astray::{comes, missed, passes, Astray};
use super::conflict::Conflicts;
use super::gathered::{self, Shown};
use super::mark::{Cell, Here, Mark, Sign};
use super::premises::{at_bench, Note};
use super::rows::{Row, Who};
use super::{acted, layout};
use crate::sketch::schedule::Schedule;
use crate::sketch::story::{BeatRun, BenchRun, Run};
use crate::volume::schedule::Presence;

/// What the cells are made from.
pub struct Source<'a> {
    pub schedule: &'a Schedule,
    pub run: &'a Run,
    pub astray: &'a [Astray<'a>],
    pub notes: &'a [Note],
}

impl Source<'_> {
    /// The rows, each with a cell for every column.
    pub fn rows(&self, columns: usize) -> Vec<Row> {
        let conflicts = Conflicts::of(self.run);
        let benches = self.run.benches.iter();
        benches.map(|bench| self.row(bench, &conflicts, columns)).collect()
    }

    fn row(&self, bench: &BenchRun, conflicts: &Conflicts, columns: usize) -> Row {
        let mut presence = vec![Presence::Skips; columns];
        let mut cells = vec![Cell::new(); columns];
        let (mut shown, mut parted) = (Shown::new(), false);
        for beat in &bench.beats {
            let Some(column) = layout::column(self.schedule, beat.beat) else {
                continue;
            };
            let (own, here) = (
                bench.own,
                Here {
                    own: bench.own,
                    beat: beat.beat,
                },
            );
            presence[column] = beat.presence;
            let cell = &mut cells[column];
            cell.extend(absent(here, beat));
            cell.extend(comes(self.schedule, own, beat));
            cell.extend(gathered::marks(here, beat, &mut shown));
            cell.extend(passes(self.astray, here));
            if let Some(act) = &beat.act {
                cell.extend(acted::marks(here, act, conflicts, parted));
                parted |= act.parted;
            }
            cell.extend(missed(self.astray, here));
            cell.extend(at_bench(self.notes, here));
        }
        let who = Who::Keeper(bench.own);
        Row { who, presence, cells }
    }
}

/// The word for a bench that is not awake.
fn absent(here: Here, beat: &BeatRun) -> Option<Mark> {
    match beat.presence {
        Presence::Skips => Some(here.mark(Sign::Asleep, "asleep", "asleep")),
        Presence::Begins => Some(here.mark(Sign::Begins, "begins only", "begins the beat and does not act")),
        Presence::Awake => None,
    }
}
