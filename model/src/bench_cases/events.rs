//! A roll put together event by event.
use crate::record::Block;

const MOST_ROLL: usize = 65_536;

#[derive(Clone, Default)]
pub struct Events {
    marks: Vec<u8>,
    bodies: Vec<u8>,
}

impl Events {
    pub fn new() -> Events {
        Events::default()
    }

    fn event(&mut self, kind: u8, body: &[u8]) {
        self.marks.extend([kind, 0]);
        self.marks.extend((body.len() as u16).to_le_bytes());
        self.bodies.extend(body);
    }

    pub fn begin(&mut self, beat: u32) {
        self.event(1, &beat.to_le_bytes());
    }

    pub fn receive(&mut self, message: &[u8]) {
        self.event(2, message);
    }

    pub fn act(&mut self, offered: Block, priority: u64) {
        let mut body = offered.name.to_le_bytes().to_vec();
        body.extend(priority.to_le_bytes());
        body.extend(offered.count.to_le_bytes());
        self.event(3, &body);
    }

    /// An act without an offered block.
    pub fn act_alone(&mut self) {
        self.act(Block { name: 0, count: 0 }, 0);
    }

    pub fn count(&self) -> usize {
        self.marks.len() / 4
    }

    /// Room for one more event with a body of this length.
    pub fn has_room(&self, body: usize) -> bool {
        self.count() < 1_024 && 8 + self.marks.len() + self.bodies.len() + body <= MOST_ROLL
    }

    /// The roll of these events, of bench `own` of n.
    pub fn roll(&self, n: u8, own: u8) -> Vec<u8> {
        let mut roll = vec![n, own];
        roll.extend((self.count() as u16).to_le_bytes());
        roll.extend(&self.marks);
        roll.extend(&self.bodies);
        roll
    }
}
