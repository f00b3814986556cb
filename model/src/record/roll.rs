//! The roll: its form, judged whole, and its run.
use super::bench::Bench;
use super::lists::{Block, LEAST_LENT};
use super::message::MOST_BYTES;
use super::text::Text;
use super::totals::LEAST_TOTALS;
use crate::proved::LEAST_BUFFER;

const MOST_ROLL: usize = 65_536;
const MOST_EVENTS: usize = 1_024;
const BEGIN: u8 = 1;
const RECEIVE: u8 = 2;
const ACT: u8 = 3;

/// A roll of the right form.
struct Roll<'a> {
    n: u8,
    own: u8,
    /// the kind, a zero, and the body's length in two bytes
    marks: &'a [[u8; 4]],
    bodies: &'a [u8],
}

fn body_length(mark: &[u8; 4]) -> usize {
    u16::from_le_bytes([mark[2], mark[3]]) as usize
}

fn is_mark(mark: &[u8; 4]) -> bool {
    let length = body_length(mark);
    let fits = match mark[0] {
        BEGIN => length == 4,
        RECEIVE => length <= MOST_BYTES,
        ACT => length == 18,
        _ => false,
    };
    fits && mark[1] == 0
}

impl<'a> Roll<'a> {
    fn read(bytes: &'a [u8]) -> Option<Roll<'a>> {
        let (&[n, own, low, high], rest) = bytes.split_first_chunk()?;
        let events = u16::from_le_bytes([low, high]) as usize;
        if bytes.len() > MOST_ROLL || events > MOST_EVENTS {
            return None;
        }
        let (marks, bodies) = rest.split_at_checked(4 * events)?;
        let marks = marks.as_chunks().0;
        let fits = marks.iter().all(is_mark) && marks.iter().map(body_length).sum::<usize>() == bodies.len();
        fits.then_some(Roll { n, own, marks, bodies })
    }
}

/// What an event works on beside its bench.
struct Desk {
    names: [u64; LEAST_LENT],
    counts: [u16; LEAST_LENT],
    totals: [u32; LEAST_TOTALS],
    out: [u8; MOST_BYTES],
}

/// Runs one event and prints its line. The form of the roll has fixed the lengths of begin's and act's bodies.
fn run_event(bench: &mut Bench, desk: &mut Desk, kind: u8, body: &[u8], text: &mut Text) {
    match (kind, body) {
        (BEGIN, &[b0, b1, b2, b3]) => {
            let beat = u32::from_le_bytes([b0, b1, b2, b3]);
            text.begin(beat, bench.begin(&desk.names, &desk.counts, &desk.totals, beat));
        }
        (ACT, &[n0, n1, n2, n3, n4, n5, n6, n7, p0, p1, p2, p3, p4, p5, p6, p7, c0, c1]) => {
            let name = u64::from_le_bytes([n0, n1, n2, n3, n4, n5, n6, n7]);
            let priority = u64::from_le_bytes([p0, p1, p2, p3, p4, p5, p6, p7]);
            let offered = Block {
                name,
                count: u16::from_le_bytes([c0, c1]),
            };
            let Desk {
                names,
                counts,
                totals,
                out,
            } = desk;
            let made = bench.act(names, counts, totals, out, offered, priority);
            text.act(made, bench.decided, bench.parted);
        }
        _ => text.take(bench.receive(&mut desk.names, &mut desk.counts, &desk.totals, body)),
    }
}

/// Runs the roll. None, and nothing printed, where Open refuses.
fn run(roll: &Roll, text: &mut Text) -> Option<()> {
    let mut desk = Desk {
        names: [0; LEAST_LENT],
        counts: [0; LEAST_LENT],
        totals: [0; LEAST_TOTALS],
        out: [0; MOST_BYTES],
    };
    let mut bench = Bench::open(roll.n, roll.own, &desk.names, &desk.counts, &desk.totals).ok()?;
    text.bench(roll.own, roll.n);
    let mut bodies = roll.bodies;
    for mark in roll.marks {
        let (body, rest) = bodies.split_at(body_length(mark));
        bodies = rest;
        run_event(&mut bench, &mut desk, mark[0], body, text);
    }
    Some(())
}

/// The text of a roll, into a lent buffer; how many bytes it has. A buffer under `LEAST_BUFFER` bytes gives 0 and stays as it was.
pub fn write_roll_text(roll: &[u8], text: &mut [u8]) -> usize {
    if text.len() < LEAST_BUFFER {
        return 0;
    }
    let mut text = Text::new(text);
    if Roll::read(roll).and_then(|roll| run(&roll, &mut text)).is_none() {
        text.put(b"roll ?\n");
    }
    text.len()
}

/// The text of a roll.
pub fn roll_text(roll: &[u8]) -> Vec<u8> {
    let mut text = vec![0; LEAST_BUFFER];
    let length = write_roll_text(roll, &mut text);
    text.truncate(length);
    text
}
