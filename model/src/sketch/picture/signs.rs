//! What each mark says, in words, and what stands in its sample.
use super::mark::Sign;

/// The text of the mark in the legend.
pub fn sample(sign: Sign) -> &'static str {
    match sign {
        Sign::Proposal => "P [5] p9",
        Sign::Vote => "LOG [5 6]",
        Sign::NoVote => "no vote",
        Sign::Lock => "lock [5]",
        Sign::Grade => "g2 [5] 3/4",
        Sign::Snapshot => "one {0,1,2}",
        Sign::Decision | Sign::Conflict => "DECIDES [5]",
        Sign::Stands => "stands [5 6]",
        Sign::Parted => "PARTED",
        Sign::Equivocator => "E {3} v0",
        Sign::Aside => "aside {3}",
        Sign::Refused => "refused 21",
        Sign::Told(_) => "LOG [7] v0",
        Sign::Forged => "forged as bench 1",
        Sign::Nobody => "to nobody",
        Sign::Lost => "lost LOG [5] of 0",
        Sign::Sent => "sent LOG [5] of 0",
        Sign::Comes => "comes LOG [5] of 0",
        Sign::Passes => "passes on LOG [5] of 3",
        Sign::Counted => "3 to 1: {0,1,2}",
        Sign::Breach => "BREACH 1",
        Sign::Awake | Sign::Begins | Sign::Asleep | Sign::Stories => "",
    }
}

/// The entry of the mark in the legend.
pub fn words(sign: Sign) -> &'static str {
    match sign {
        Sign::Awake => "awake: the bench begins the beat and acts in it",
        Sign::Begins => "begins the beat and is handed messages, but does not act: it is not awake",
        Sign::Asleep => "asleep: neither begins the beat nor acts",
        Sign::Proposal => "makes a PROPOSAL of this log, here with priority 9 (1 if none is written)",
        Sign::Vote => "votes: makes a LOG of this view with this log",
        Sign::NoVote => "acts at the beat of the vote and has no lock, so makes no LOG",
        Sign::Lock => "its lock, where the vote below it is for another log",
        Sign::Grade => GRADE,
        Sign::Snapshot => "takes snapshot one (or two) of this view: those heard so far with one log each",
        Sign::Decision => "decides this log",
        Sign::Conflict => CONFLICT,
        Sign::Stands => "the decided log that stands, where it is not the one decided now",
        Sign::Parted => "its decisions are in conflict with each other: from now on it bears the mark parted",
        Sign::Equivocator => EQUIVOCATOR,
        Sign::Aside => "two different PROPOSALs of bench 3 in this view: they are set aside",
        Sign::Refused => "a message handed over is refused, by this number",
        Sign::Told(_) => TOLD,
        Sign::Stories => STORIES,
        Sign::Forged => "the message bears a number that is not its teller's",
        Sign::Nobody => "nobody is handed it: none of those named begins the beat",
        Sign::Lost => "a message sent in this beat, where the broken line starts, never reaches the bench at the cross",
        Sign::Sent => SENT,
        Sign::Comes => "here it reaches the bench",
        Sign::Passes => "passes on a LOG of bench 3: from here the broken line leads to those who do not get it as by default",
        Sign::Counted => COUNTED,
        Sign::Breach => "a premise fails here: the note of this number below the rows says which",
    }
}

const GRADE: &str =
    "the grade that the act reads, of the view before: here grade 2, the longest log with it is [5], and 3 of 4 \
    senders heard support it; 'none': no log has it, and so many support the empty log; 'no snapshot': the one it needs was \
    not taken; in view 0 there is no grade to read";

const CONFLICT: &str = "decides a log that conflicts with another decided log: neither starts with the other; the thick line \
    joins the first two that do";

const EQUIVOCATOR: &str = "from now on it knows bench 3 as an equivocator: two different LOGs of view 0 under that number (of \
    this view where none is written)";

const TOLD: &str =
    "a rule-breaker hands a message (a LOG, or P, a PROPOSAL; v0: of view 0, else of this view) to the benches at \
    the arrowheads of its line; a white arrowhead: refused there";

const STORIES: &str = "two stories (1), (2): different messages of one kind under one number in one view; the number tells \
    which story it is; hatching and line are those of the first, the second, any further one";

const SENT: &str =
    "a message to this bench: sent here, where the broken line starts, and comes at the beat that the sketch says";

const COUNTED: &str = "the rule-keepers that count towards the majority of the view, 0, 1 and 2 (awake at its vote and at \
    snapshot two before it), to the rule-breakers: they must be more";
