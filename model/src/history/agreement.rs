//! Counting in one agreement, GA v (a graded agreement): from the LOGs (votes) of one view taken or made so far to the longest
//! log with a grade (document 01, Counting in one agreement).
use super::bench::Rules;
use super::message::{is_prefix, Block, Log, Message};
use std::collections::{BTreeMap, BTreeSet};

/// Senders with the log of each.
pub type Voters<'a> = BTreeMap<u8, &'a [Block]>;

/// What is read of an agreement.
#[derive(Clone, PartialEq, Eq, Default, Debug)]
pub struct Count {
    /// The longest log with the grade.
    pub log: Option<Log>,
    /// How many support it; where there is none, how many support the empty log.
    pub supporters: usize,
    /// What a majority is a majority of: |S|, but for two of the mistakes.
    pub senders: usize,
}

/// The LOGs of one view that count so far.
pub struct Agreement<'a> {
    pub logs: Vec<&'a Message>,
}

impl<'a> Agreement<'a> {
    /// S: whoever sent one of these LOGs.
    pub fn senders(&self) -> BTreeSet<u8> {
        self.logs.iter().map(|message| message.sender).collect()
    }

    /// E: whoever sent two different logs.
    pub fn equivocators(&self) -> BTreeSet<u8> {
        let mut first: Voters = BTreeMap::new();
        let mut twofold = BTreeSet::new();
        for message in &self.logs {
            if *first.entry(message.sender).or_insert(&message.log) != message.log.as_slice() {
                twofold.insert(message.sender);
            }
        }
        twofold
    }

    /// V: S without E, each with its one log. At the act of a snapshot's beat this is the snapshot.
    pub fn voters(&self) -> Voters<'a> {
        let equivocators = self.equivocators();
        let heard = self.logs.iter().filter(|message| !equivocators.contains(&message.sender));
        heard.map(|message| (message.sender, message.log.as_slice())).collect()
    }

    /// Whoever may support in grades 1 and 2, each with its log.
    pub fn counted_within(&self, rules: Rules, snapshot: &Voters<'a>) -> Voters<'a> {
        let mut counted = if rules == Rules::SnapshotJudges {
            snapshot.clone()
        } else {
            self.voters()
        };
        counted.retain(|sender, _| snapshot.contains_key(sender));
        counted
    }

    /// The longest log that a majority of `counted` supports, with its count.
    pub fn count(&self, rules: Rules, n: u8, counted: &Voters) -> Count {
        let log = self.longest(rules, n, counted);
        let supported = log.as_deref().unwrap_or_default();
        Count {
            supporters: counted.values().filter(|theirs| is_prefix(supported, theirs)).count(),
            senders: self.whole(rules, n),
            log,
        }
    }

    /// The longest log that a majority of `counted` supports: every prefix of every log sent is tried, the empty one too.
    fn longest(&self, rules: Rules, n: u8, counted: &Voters) -> Option<Log> {
        let whole = self.whole(rules, n);
        let majority = |log: &[Block]| {
            let twice = 2 * counted.values().filter(|theirs| is_prefix(log, theirs)).count();
            twice > whole || (rules == Rules::HalfIsEnough && twice == whole)
        };
        let sent: BTreeSet<&[Block]> = self.logs.iter().map(|message| message.log.as_slice()).collect();
        let of_length = |length: usize| {
            sent.iter()
                .filter(move |log| log.len() >= length)
                .map(move |log| &log[..length])
        };
        let most = sent.iter().map(|log| log.len()).max().unwrap_or(0);
        let longest = (1..=most).rev().flat_map(of_length).find(|log| majority(log));
        longest.map(<[Block]>::to_vec).or_else(|| majority(&[]).then(Vec::new))
    }

    /// What a majority is a majority of: |S|, but for two of the mistakes.
    fn whole(&self, rules: Rules, n: u8) -> usize {
        match rules {
            Rules::EquivocatorsUnheard => self.voters().len(),
            Rules::MajorityOfAll => usize::from(n),
            _ => self.senders().len(),
        }
    }
}
