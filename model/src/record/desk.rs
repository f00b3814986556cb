//! A bench in lent lists and with an outgoing buffer of its own.
use super::{Bench, Block, Made, Refusal, Word, LEAST_LENT, LEAST_TOTALS, MOST_BYTES};

#[derive(Clone, PartialEq, Debug)]
pub struct Desk {
    pub bench: Bench,
    pub names: Vec<u64>,
    pub counts: Vec<u16>,
    pub totals: Vec<u32>,
    pub out: Vec<u8>,
}

impl Desk {
    /// As Open gives it, each list as long as it must be; each total holds `free` at first, which no call may read.
    pub fn open(n: u8, own: u8, free: u32) -> Result<Desk, Refusal> {
        let (names, counts, totals) = (vec![0; LEAST_LENT], vec![0; LEAST_LENT], vec![free; LEAST_TOTALS]);
        let bench = Bench::open(n, own, &names, &counts, &totals)?;
        let out = vec![0; MOST_BYTES];
        Ok(Desk {
            bench,
            names,
            counts,
            totals,
            out,
        })
    }

    pub fn begin(&mut self, beat: u32) -> Result<(), Refusal> {
        self.bench.begin(&self.names, &self.counts, &self.totals, beat)
    }

    pub fn receive(&mut self, bytes: &[u8]) -> Result<Word, Refusal> {
        self.bench.receive(&mut self.names, &mut self.counts, &self.totals, bytes)
    }

    pub fn act(&mut self, offered: Block, priority: u64) -> Result<Made, Refusal> {
        let Desk {
            bench,
            names,
            counts,
            totals,
            out,
        } = self;
        bench.act(names, counts, totals, out, offered, priority)
    }

    /// The place of the entry's block, and its place inside that.
    pub fn find(&self, entry: u32) -> Result<(u8, u16), Refusal> {
        let found = self.bench.find(&self.names, &self.counts, &self.totals, entry)?;
        Ok((found.block, found.inside))
    }
}
