//! The proved functions of a roll, through the static library. Nothing checks these declarations against the Rattle source, so
//! they are the only ones there are.
use crate::history::entries::Found;

extern "C" {
    fn cervakho_roll_text(roll: *const u8, roll_len: usize, text: *mut u8, text_len: usize) -> usize;
    fn cervakho_roll_made(roll: *const u8, roll_len: usize, event: usize, out: *mut u8, out_len: usize) -> usize;
    fn cervakho_roll_entry(
        roll: *const u8,
        roll_len: usize,
        calls: usize,
        entry: u32,
        found: *mut u8,
        found_len: usize,
    ) -> usize;
    fn cervakho_roll_page(
        roll: *const u8,
        roll_len: usize,
        calls: usize,
        names: *mut u64,
        names_len: usize,
        counts: *mut u16,
        counts_len: usize,
        page: *mut u8,
        page_len: usize,
    ) -> usize;
}

/// The bytes that the function asks of the text buffer: as many as the longest roll has. No text is as long.
pub const LEAST_BUFFER: usize = 65_536;
/// The bytes that an act asks of its outgoing buffer: as many as the longest message has.
pub const LEAST_OUT: usize = 656;
/// The places that a bench asks of each lent list.
pub const LEAST_LENT: usize = 6_208;
/// The bytes that a look-up asks of its buffer: the block's place, and the place inside it in two bytes.
pub const LEAST_FOUND: usize = 3;
/// The bytes of a page.
pub const PAGE_LENGTH: usize = 337;

/// The text of a roll, into a lent buffer; how many bytes it has. A buffer under
/// `LEAST_BUFFER` bytes gives 0 and stays as it was.
pub fn write_roll_text(roll: &[u8], text: &mut [u8]) -> usize {
    // SAFETY: both slices are valid for their lengths; the function is proved to stay inside them for every roll and buffer.
    unsafe { cervakho_roll_text(roll.as_ptr(), roll.len(), text.as_mut_ptr(), text.len()) }
}

/// The text of a roll.
pub fn roll_text(roll: &[u8]) -> Vec<u8> {
    let mut text = vec![0; LEAST_BUFFER];
    let length = write_roll_text(roll, &mut text);
    text.truncate(length);
    text
}

/// The bytes of the message that event number `event` of a roll, an act, made; none, if it made none.
pub fn roll_made(roll: &[u8], event: usize) -> Option<Vec<u8>> {
    let mut out = vec![0; LEAST_OUT];
    // SAFETY: both slices are valid for their lengths; the function is proved to stay inside them for every roll and buffer.
    let length = unsafe { cervakho_roll_made(roll.as_ptr(), roll.len(), event, out.as_mut_ptr(), out.len()) };
    out.truncate(length);
    (length > 0).then_some(out)
}

/// The entry of a number after the first calls of a roll, into a lent buffer: 3, and the block's place and the place inside it,
/// lowest byte first; or 1, and the refusal's number; or 0, and nothing is written, where the buffer is under `LEAST_FOUND` bytes,
/// the roll is none or it has fewer calls.
pub fn write_roll_entry(roll: &[u8], calls: usize, entry: u32, found: &mut [u8]) -> usize {
    // SAFETY: both slices are valid for their lengths; the function is proved to stay inside them for every roll and buffer.
    unsafe { cervakho_roll_entry(roll.as_ptr(), roll.len(), calls, entry, found.as_mut_ptr(), found.len()) }
}

/// The entry of a number after the first calls of a roll, or the refusal's number; none, if the roll is none or has fewer calls.
pub fn roll_entry(roll: &[u8], calls: usize, entry: u32) -> Option<Result<Found, u8>> {
    let mut found = [0; LEAST_FOUND];
    let length = write_roll_entry(roll, calls, entry, &mut found);
    let [block, low, high] = found;
    match length {
        1 => Some(Err(block)),
        LEAST_FOUND => Some(Ok(Found {
            block,
            inside: u16::from_le_bytes([low, high]),
        })),
        _ => None,
    }
}

/// What a bench holds: its lent lists, and its record as a page.
pub struct Held {
    pub names: Vec<u64>,
    pub counts: Vec<u16>,
    /// Two agreements of 166 bytes each, the even view's first: view (4 bytes), whether snapshots one and two were taken, 32 log
    /// lengths, and V, E and both snapshots by 32 flags each. Then 5 bytes of what an act now would read: whether there is a
    /// log, the sender at whose place it stands, its blocks, its supporters, the senders.
    pub page: Vec<u8>,
}

/// What the bench of a roll holds after the first calls; none, if the roll is none or has fewer calls.
pub fn roll_page(roll: &[u8], calls: usize) -> Option<Held> {
    let mut held = Held {
        names: vec![0; LEAST_LENT],
        counts: vec![0; LEAST_LENT],
        page: vec![0; PAGE_LENGTH],
    };
    let Held { names, counts, page } = &mut held;
    // SAFETY: all slices are valid for their lengths; the function is proved to stay inside them whatever they hold.
    let length = unsafe {
        cervakho_roll_page(
            roll.as_ptr(),
            roll.len(),
            calls,
            names.as_mut_ptr(),
            names.len(),
            counts.as_mut_ptr(),
            counts.len(),
            page.as_mut_ptr(),
            page.len(),
        )
    };
    (length == PAGE_LENGTH).then_some(held)
}
