//! What the act of a rule-keeper reads, makes, decides and stores.
use super::conflict::Conflicts;
use super::mark::{Cell, Here, Mark, Sign};
use super::words::{around, kind, log, message, priority, set, set_within};
use crate::history::message::{Kind, Log, Message};
use crate::sketch::story::{Act, GradeRead, Snapshot};

/// The marks of an act; `was_parted` says whether the bench bore the mark before it.
pub fn marks(here: Here, act: &Act, conflicts: &Conflicts, was_parted: bool) -> Cell {
    let mut cell: Cell = grade(here, &act.grade).into_iter().collect();
    cell.extend(made(here, act));
    cell.extend(decided(here, act, conflicts));
    if act.parted && !was_parted {
        let whole = format!(
            "a decision is in conflict with the standing decided log {}",
            log(&act.standing)
        );
        cell.push(here.mark(Sign::Parted, "PARTED", &whole));
    }
    cell.extend(act.snapshot.as_ref().map(|taken| snapshot(here, taken)));
    cell
}

fn grade(here: Here, read: &GradeRead) -> Option<Mark> {
    let GradeRead::Read {
        grade,
        view,
        snapped,
        log: graded,
        supporters,
        senders,
    } = read
    else {
        return None;
    };
    let room = Sign::Grade.room();
    let (text, found) = match (snapped, graded) {
        (false, _) => (
            format!("g{grade} no snapshot"),
            "not read, its snapshot was not taken".to_string(),
        ),
        (true, None) => {
            let found = format!("no log has it, {supporters} of {senders} senders support the empty log");
            (format!("g{grade} none {supporters}/{senders}"), found)
        }
        (true, Some(graded)) => {
            let found = format!(
                "the longest log with it is {}, {supporters} of {senders} senders support it",
                log(graded)
            );
            (
                around(&format!("g{grade} "), graded, &format!(" {supporters}/{senders}"), room),
                found,
            )
        }
    };
    Some(here.mark(Sign::Grade, &text, &format!("grade {grade} of GA {view}: {found}")))
}

/// The message made; at the beat of the vote, also that there is none, or first the lock where the vote is for another log.
fn made(here: Here, act: &Act) -> Cell {
    let Some(made) = &act.made else {
        let voting = matches!(act.grade, GradeRead::Read { grade: 1, .. });
        return voting
            .then(|| here.mark(Sign::NoVote, "no vote", "makes no LOG"))
            .into_iter()
            .collect();
    };
    let sign = match made.kind {
        Kind::Log => Sign::Vote,
        Kind::Proposal => Sign::Proposal,
    };
    let text = around(&format!("{} ", kind(made.kind)), &made.log, &priority(made), sign.room());
    let lock = other_lock(act, made).map(|lock| {
        let whole = format!("its lock is {}, its vote is for {}", log(lock), log(&made.log));
        here.mark(Sign::Lock, &around("lock ", lock, "", Sign::Lock.room()), &whole)
    });
    let made = here.mark(sign, &text, &format!("makes the {}", message(made)));
    lock.into_iter().chain([made]).collect()
}

/// The lock, where the vote is for another log.
fn other_lock<'a>(act: &'a Act, made: &Message) -> Option<&'a Log> {
    match &act.grade {
        GradeRead::Read {
            grade: 1,
            log: Some(lock),
            ..
        } if made.kind == Kind::Log && *lock != made.log => Some(lock),
        _ => None,
    }
}

fn decided(here: Here, act: &Act, conflicts: &Conflicts) -> Cell {
    let Some(decided) = &act.decided else { return vec![] };
    let (sign, more) = match conflicts.has(decided) {
        true => (Sign::Conflict, ", which conflicts with another decided log"),
        false => (Sign::Decision, ""),
    };
    let text = around("DECIDES ", decided, "", sign.room());
    let mut cell = vec![here.mark(sign, &text, &format!("decides {}{more}", log(decided)))];
    if *decided != act.standing {
        let text = around("stands ", &act.standing, "", Sign::Stands.room());
        cell.push(here.mark(Sign::Stands, &text, &format!("the decided log {} stands", log(&act.standing))));
    }
    cell
}

fn snapshot(here: Here, taken: &Snapshot) -> Mark {
    let number = match taken.number {
        1 => "one".to_string(),
        2 => "two".to_string(),
        other => other.to_string(),
    };
    let whole = format!("takes snapshot {number} of GA {}: {}", taken.view, set(&taken.senders));
    let senders = set_within(&taken.senders, Sign::Snapshot.room().saturating_sub(number.len() + 1));
    here.mark(Sign::Snapshot, &format!("{number} {senders}"), &whole)
}
