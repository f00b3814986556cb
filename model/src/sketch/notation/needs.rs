//! What must hold of who is awake, whatever the order of the lines.
use super::fault::Fault;
use super::words::Word;
use crate::volume::schedule::Presence;

/// What a bench must do at a beat, and the word that asks for it.
pub struct Need {
    pub deed: Deed,
    pub bench: u8,
    pub beat: u32,
    pub word: Word,
}

#[derive(Clone, Copy)]
pub enum Deed {
    BeAwake,
    Begin,
}

impl Need {
    /// The fault, where the bench does something else.
    pub fn unmet_by(&self, presence: Presence) -> Option<Fault> {
        let Need { bench, beat, .. } = self;
        let expected = match (self.deed, presence) {
            (_, Presence::Awake) | (Deed::Begin, Presence::Begins) => return None,
            (Deed::Begin, Presence::Skips) => {
                let why = format!("bench {bench} does not begin beat {beat}, so nothing can be handed to it then");
                format!("a bench that begins beat {beat} ({why})")
            }
            (Deed::BeAwake, Presence::Skips) => format!("a beat at which bench {bench} is awake (it sleeps at beat {beat})"),
            (Deed::BeAwake, Presence::Begins) => {
                format!("a beat at which bench {bench} is awake (it begins beat {beat} and does not act in it)")
            }
        };
        Some(Fault::at(&self.word, expected))
    }
}
