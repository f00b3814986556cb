//! The bench: its list of what happened, the calls, and what follows from the list (document 01, Four calls and Calendar of acts;
//! document 02, request 1).
use super::agreement::{Agreement, Count, Voters};
use super::entries::{self, Found};
use super::message::{is_prefix, Block, Kind, Log, Message, LAST_VIEW, MOST_BLOCKS};
use std::collections::HashMap;

/// The last beat.
pub const LAST_BEAT: u32 = 4_000_006;
/// The most benches.
pub const MOST_BENCHES: u8 = 32;

/// A call on an open bench; an offered block of name 0 is no block.
#[derive(Clone, PartialEq, Eq, Debug)]
pub enum Call {
    Begin(u32),
    Receive(Vec<u8>),
    Act { block: Block, priority: u64 },
}

/// What Receive says of a message that it takes.
#[derive(Clone, Copy, PartialEq, Eq, Debug)]
pub enum Word {
    First,
    Second,
    Known,
}

/// What a call gives back.
#[derive(Clone, PartialEq, Eq, Debug)]
pub enum Reply {
    Begun,
    Took(Word),
    Acted(Option<Message>),
    Refused(u8),
}

/// The paper's rules, or one of the six mistakes of document 01, What the winter redrawing kept finding, in their order there.
#[derive(Clone, Copy, PartialEq, Eq, Debug)]
pub enum Rules {
    Paper,
    EquivocatorsUnheard,
    MajorityOfAll,
    HalfIsEnough,
    SnapshotsSwapped,
    SnapshotJudges,
    VoteWithoutLock,
}

impl Rules {
    /// The six mistakes.
    pub const MISTAKES: [Rules; 6] = [
        Rules::EquivocatorsUnheard,
        Rules::MajorityOfAll,
        Rules::HalfIsEnough,
        Rules::SnapshotsSwapped,
        Rules::SnapshotJudges,
        Rules::VoteWithoutLock,
    ];

    /// The snapshot that grade 1 or 2 is read with: the earlier one serves the later grade, but for one of the mistakes.
    pub fn snapshot_for(self, grade: u8) -> u8 {
        if self == Rules::SnapshotsSwapped {
            grade
        } else {
            3 - grade
        }
    }
}

/// One entry of the list: a call that was not refused, with the beat it fell in.
struct Event {
    beat: u32,
    what: What,
}

enum What {
    Began,
    Took(Message),
    Acted(Option<Message>),
}

/// A bench as the list of what happened to it.
pub struct Bench {
    rules: Rules,
    n: u8,
    own: u8,
    events: Vec<Event>,
    /// Where in the list the messages of each view stand: an index, so that an act need not read the whole list.
    places: HashMap<u32, Vec<usize>>,
    decisions: Vec<(u32, Log)>,
}

impl Bench {
    /// A fresh bench, or refusal 7.
    pub fn open(n: u8, own: u8) -> Result<Bench, u8> {
        Bench::open_under(Rules::Paper, n, own)
    }

    /// A fresh bench that keeps the paper's rules or makes one mistake.
    pub fn open_under(rules: Rules, n: u8, own: u8) -> Result<Bench, u8> {
        if !(1..=MOST_BENCHES).contains(&n) || own >= n {
            return Err(7);
        }
        Ok(Bench {
            rules,
            n,
            own,
            events: vec![],
            places: HashMap::new(),
            decisions: vec![],
        })
    }

    /// One call. The outgoing buffer is always large enough and there is no record to be beyond its limits, so that 8, 9 and 11
    /// never arise.
    pub fn call(&mut self, call: &Call) -> Reply {
        match call {
            Call::Begin(beat) => self.begin(*beat),
            Call::Receive(bytes) => self.receive(bytes),
            Call::Act { block, priority } => self.act(*block, *priority),
        }
    }

    /// The entry of this number in the decided log that stands, or refusal 23: at any time, and nothing changes.
    pub fn find(&self, entry: u32) -> Result<Found, u8> {
        entries::find(self.standing().0, entry)
    }

    /// The decided log that stands.
    pub fn decided(&self) -> Log {
        self.standing().0.to_vec()
    }

    /// Whether a decision was ever in conflict with the decided log standing then.
    pub fn parted(&self) -> bool {
        self.standing().1
    }

    /// Every grade 2 log decided, with its beat, even where it changed nothing.
    pub fn decisions(&self) -> &[(u32, Log)] {
        &self.decisions
    }

    /// Whether it began this beat and acted in it, neither call refused.
    pub fn is_awake_at(&self, beat: u32) -> bool {
        self.act_at(beat).is_some()
    }

    /// The beat last begun.
    pub fn beat(&self) -> Option<u32> {
        self.events.last().map(|event| event.beat)
    }

    /// The number of benches.
    pub fn n(&self) -> u8 {
        self.n
    }

    /// Its own number.
    pub fn own(&self) -> u8 {
        self.own
    }

    /// GA v by what was taken or made so far.
    pub fn heard(&self, view: u32) -> Agreement<'_> {
        self.agreement(view, self.events.len())
    }

    /// Snapshot one or two of GA v, if it was taken.
    pub fn snapshot(&self, view: u32, number: u8) -> Option<Voters<'_>> {
        let place = self.act_at(4 * view + 1 + u32::from(number))?;
        (view <= LAST_VIEW).then(|| self.agreement(view, place).voters())
    }

    /// What an act at the beat last begun reads, whether or not it may act: of the agreement before, or the empty log as the
    /// candidate and the lock of view 0.
    pub fn reading(&self) -> Count {
        let beat = self.beat().unwrap_or(0);
        let (before, grade) = ((beat / 4).checked_sub(1), (beat % 4) as u8);
        let view = match before {
            Some(view) if grade < 3 => view,
            _ => {
                let log = (before.is_none() && grade < 2).then(Vec::new);
                return Count { log, ..Count::default() };
            }
        };
        let count = |counted: &Voters| self.heard(view).count(self.rules, self.n, counted);
        match self.counted(view, grade) {
            Some(counted) => count(&counted),
            None => Count {
                log: None,
                ..count(&Voters::new())
            },
        }
    }

    fn begin(&mut self, beat: u32) -> Reply {
        if beat > LAST_BEAT {
            return Reply::Refused(10);
        }
        if self.beat().is_some_and(|last| beat <= last) {
            return Reply::Refused(20);
        }
        self.events.push(Event { beat, what: What::Began });
        Reply::Begun
    }

    fn receive(&mut self, bytes: &[u8]) -> Reply {
        let Some(beat) = self.gathering() else {
            return Reply::Refused(22);
        };
        let message = match Message::read(self.n, bytes) {
            Ok(message) => message,
            Err(refusal) => return Reply::Refused(refusal),
        };
        if !is_open(message.kind, message.view, beat) {
            return Reply::Refused(21);
        }
        let word = self.word(&message);
        self.places.entry(message.view).or_default().push(self.events.len());
        self.events.push(Event {
            beat,
            what: What::Took(message),
        });
        Reply::Took(word)
    }

    fn act(&mut self, block: Block, priority: u64) -> Reply {
        let Some(beat) = self.gathering() else {
            return Reply::Refused(22);
        };
        let view = beat / 4;
        let made = match beat % 4 {
            0 if view <= LAST_VIEW => self.proposal(view, block, priority),
            1 if view <= LAST_VIEW => self.vote(view),
            _ => None,
        };
        if beat % 4 == 2 && view > 0 {
            let decided = self.grade(view - 1, 2);
            self.decisions.extend(decided.map(|log| (beat, log)));
        }
        if let Some(message) = &made {
            self.places.entry(message.view).or_default().push(self.events.len());
        }
        self.events.push(Event {
            beat,
            what: What::Acted(made.clone()),
        });
        Reply::Acted(made)
    }

    /// The beat of the gathering under way: from a Begin to the next Act.
    fn gathering(&self) -> Option<u32> {
        let last = self.events.last()?;
        match last.what {
            What::Acted(_) => None,
            What::Began | What::Took(_) => Some(last.beat),
        }
    }

    /// First, second or known, from what of the same kind, view and sender was taken or made before.
    fn word(&self, message: &Message) -> Word {
        let mut before = self.messages(message.kind, message.view, self.events.len());
        before.retain(|earlier| earlier.sender == message.sender);
        let Some(first) = before.first() else {
            return Word::First;
        };
        if !differ(first, message) || before.iter().any(|earlier| differ(first, earlier)) {
            return Word::Known;
        }
        Word::Second
    }

    /// The messages of one kind and view taken or made before this place of the list.
    fn messages(&self, kind: Kind, view: u32, before: usize) -> Vec<&Message> {
        let places = self.places.get(&view).map_or(&[][..], Vec::as_slice);
        let events = places
            .iter()
            .filter(|&&place| place < before)
            .map(|&place| &self.events[place]);
        let messages = events.filter_map(|event| match &event.what {
            What::Took(message) | What::Acted(Some(message)) => Some(message),
            What::Began | What::Acted(None) => None,
        });
        messages.filter(|message| message.kind == kind).collect()
    }

    /// Where in the list the act of this beat stands. Beats only rise along the list.
    fn act_at(&self, beat: u32) -> Option<usize> {
        let late = self.events.partition_point(|event| event.beat <= beat);
        let last = late.checked_sub(1)?;
        let event = &self.events[last];
        (event.beat == beat && matches!(event.what, What::Acted(_))).then_some(last)
    }

    /// GA v by the LOGs before this place of the list.
    fn agreement(&self, view: u32, before: usize) -> Agreement<'_> {
        Agreement {
            logs: self.messages(Kind::Log, view, before),
        }
    }

    /// The longest log with this grade of GA v, or none.
    fn grade(&self, view: u32, grade: u8) -> Option<Log> {
        let counted = self.counted(view, grade)?;
        self.heard(view).count(self.rules, self.n, &counted).log
    }

    /// Whoever may support in this grade of GA v, unless it needs a snapshot that was not taken.
    fn counted(&self, view: u32, grade: u8) -> Option<Voters<'_>> {
        let heard = self.heard(view);
        if grade == 0 {
            return Some(heard.voters());
        }
        let snapshot = self.snapshot(view, self.rules.snapshot_for(grade))?;
        Some(heard.counted_within(self.rules, &snapshot))
    }

    /// The PROPOSAL of an act at 4v.
    fn proposal(&self, view: u32, block: Block, priority: u64) -> Option<Message> {
        let mut log = if view == 0 { vec![] } else { self.grade(view - 1, 0)? };
        if block.name == 0 || log.len() >= MOST_BLOCKS {
            return None;
        }
        log.push(block);
        Some(Message {
            kind: Kind::Proposal,
            sender: self.own,
            view,
            priority,
            log,
        })
    }

    /// The LOG of an act at 4v+1: the vote.
    fn vote(&self, view: u32) -> Option<Message> {
        let lock = if view == 0 { vec![] } else { self.grade(view - 1, 1)? };
        let log = self.top_proposal(view, &lock).unwrap_or(lock);
        Some(Message {
            kind: Kind::Log,
            sender: self.own,
            view,
            priority: 0,
            log,
        })
    }

    /// The log of the proposal of highest priority that extends the lock and is not set aside, the lower number's on a tie.
    fn top_proposal(&self, view: u32, lock: &[Block]) -> Option<Log> {
        let filed = self.messages(Kind::Proposal, view, self.events.len());
        let set_aside = |sender: u8| {
            let mut theirs = filed.iter().filter(|message| message.sender == sender);
            let first = theirs.next();
            theirs.any(|message| first.is_some_and(|first| differ(first, message)))
        };
        let free = self.rules == Rules::VoteWithoutLock;
        let fit = |message: &&&Message| (free || is_prefix(lock, &message.log)) && !set_aside(message.sender);
        let top = filed
            .iter()
            .filter(fit)
            .min_by_key(|message| (u64::MAX - message.priority, message.sender));
        top.map(|message| message.log.clone())
    }

    /// The decided log that stands and the parted mark, by replaying the decisions.
    pub fn standing(&self) -> (&[Block], bool) {
        let (mut decided, mut parted): (&[Block], bool) = (&[], false);
        for (_, log) in &self.decisions {
            if is_prefix(decided, log) {
                decided = log;
            } else if !is_prefix(log, decided) {
                parted = true;
            }
        }
        (decided, parted)
    }
}

/// Whether two messages of one kind, view and sender are two: another log, or another priority.
fn differ(one: &Message, other: &Message) -> bool {
    one.log != other.log || one.priority != other.priority
}

/// The windows: LOGs of view v at beats 4v+1 to 4v+6, PROPOSALs at 4v and 4v+1.
fn is_open(kind: Kind, view: u32, beat: u32) -> bool {
    match kind {
        Kind::Log => (4 * view + 1..=4 * view + 6).contains(&beat),
        Kind::Proposal => (4 * view..=4 * view + 1).contains(&beat),
    }
}
