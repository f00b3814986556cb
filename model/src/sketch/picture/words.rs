//! Logs, sets and messages in few characters, and text cut or broken to the room there is.
use crate::history::message::{Block, Kind, Message};
use crate::sketch::words::{block, ranges};
pub use crate::sketch::words::{counted, log};

/// How many characters wide text is; what is not plain ASCII is reckoned twice as wide, but for the ellipsis.
pub fn width(text: &str) -> usize {
    text.chars()
        .map(|letter| if letter.is_ascii() || letter == '…' { 1 } else { 2 })
        .sum()
}

/// The text, or its start and an ellipsis where it is wider than the room.
pub fn cut(text: &str, room: usize) -> String {
    if width(text) <= room {
        return text.to_string();
    }
    let mut start = String::new();
    for letter in text.chars() {
        if width(&start) + width(letter.encode_utf8(&mut [0; 4])) + 1 > room {
            break;
        }
        start.push(letter);
    }
    start + "…"
}

/// The text in lines no wider than the room, broken at spaces, and inside a word only where it is wider than a line.
pub fn wrap(text: &str, room: usize) -> Vec<String> {
    let mut lines = vec![String::new()];
    for word in text.split_whitespace() {
        for (place, piece) in pieces(word, room).into_iter().enumerate() {
            let line = lines.last_mut().expect("there is a line from the start on");
            let gap = usize::from(!line.is_empty());
            if place == 0 && width(line) + gap + width(&piece) <= room {
                line.push_str(&" "[..gap]);
                line.push_str(&piece);
            } else {
                lines.push(piece);
            }
        }
    }
    lines.retain(|line| !line.is_empty());
    lines
}

fn pieces(word: &str, room: usize) -> Vec<String> {
    let mut pieces = vec![String::new()];
    for letter in word.chars() {
        let piece = pieces.last_mut().expect("there is a piece from the start on");
        if !piece.is_empty() && width(piece) + width(letter.encode_utf8(&mut [0; 4])) > room {
            pieces.push(letter.to_string());
        } else {
            piece.push(letter);
        }
    }
    pieces
}

/// A log in the room there is. A long one keeps its newest blocks, for logs differ at their ends, and its oldest if it can.
pub fn log_within(blocks: &[Block], room: usize) -> String {
    let whole = log(blocks);
    if width(&whole) <= room {
        return whole;
    }
    let names: Vec<String> = blocks.iter().map(block).collect();
    let newest = |kept: usize| names[names.len() - kept..].join(" ");
    let with_oldest = (1..names.len().saturating_sub(1))
        .rev()
        .map(|kept| format!("[{} … {}]", names[0], newest(kept)));
    let without = (1..names.len()).rev().map(|kept| format!("[… {}]", newest(kept)));
    let mut shorter = with_oldest.chain(without);
    shorter.find(|text| width(text) <= room).unwrap_or_else(|| cut(&whole, room))
}

/// Words around a log, in the room there is: the log gives way, and what follows it only where no log would leave it room.
pub fn around(before: &str, blocks: &[Block], after: &str, room: usize) -> String {
    let left = match room.saturating_sub(width(before) + width(after)) {
        0 => 4,
        left => left,
    };
    cut(&format!("{before}{}{after}", log_within(blocks, left)), room)
}

/// Bench numbers, ascending, in braces; four or more in a row by the first and the last.
pub fn set<'a>(numbers: impl IntoIterator<Item = &'a u8>) -> String {
    set_within(numbers, usize::MAX)
}

/// The same in the room there is.
pub fn set_within<'a>(numbers: impl IntoIterator<Item = &'a u8>, room: usize) -> String {
    let numbers = numbers.into_iter().map(|&number| usize::from(number));
    format!("{{{}}}", list_within(numbers, room.saturating_sub(2)))
}

/// Numbers, ascending, with four or more in a row by the first and the last; cut between two of them where there is no room for
/// all.
pub fn list_within(numbers: impl IntoIterator<Item = usize>, room: usize) -> String {
    let rows = ranges(numbers);
    let whole = rows.join(",");
    if width(&whole) <= room {
        return whole;
    }
    let starts = (1..rows.len()).rev().map(|kept| format!("{},…", rows[..kept].join(",")));
    starts
        .into_iter()
        .find(|start| width(start) <= room)
        .unwrap_or("…".to_string())
}

/// A message's kind as marks have it: the rules have V for a set of senders.
pub fn kind(kind: Kind) -> &'static str {
    match kind {
        Kind::Log => "LOG",
        Kind::Proposal => "P",
    }
}

/// A proposal's priority, where it is not 1.
pub fn priority(message: &Message) -> String {
    match (message.kind, message.priority) {
        (Kind::Log, _) | (Kind::Proposal, 1) => String::new(),
        (Kind::Proposal, priority) => format!(" p{priority}"),
    }
}

/// The view of something, where it is not the view of the beat.
pub fn of_view(view: u32, beat: u32) -> String {
    match beat / 4 == view {
        true => String::new(),
        false => format!(" v{view}"),
    }
}

/// A message whole.
pub fn message(message: &Message) -> String {
    let Message { kind, sender, view, .. } = message;
    let log = log(&message.log);
    match kind {
        Kind::Log => format!("LOG {log} of view {view}, of bench {sender}"),
        Kind::Proposal => format!(
            "PROPOSAL {log} of view {view}, of bench {sender}, priority {}",
            message.priority
        ),
    }
}

#[cfg(test)]
mod tests {
    use super::*;

    fn blocks(names: &[u64]) -> Vec<Block> {
        names.iter().map(|&name| Block { name, count: 1 }).collect()
    }

    #[test]
    fn text_is_cut_to_its_room() {
        assert_eq!(
            [cut("abcd", 4), cut("abcde", 4), cut("ab", 1), cut("", 0)],
            ["abcd", "abc…", "…", ""]
        );
        assert_eq!([cut("話話", 4), cut("話話話", 4)], ["話話", "話…"], "reckoned twice as wide");
    }

    #[test]
    fn text_is_broken_at_spaces_and_in_words_too_wide_for_a_line() {
        assert_eq!(wrap("one two  three", 7), ["one two", "three"]);
        assert_eq!(wrap("abcdefgh ij", 3), ["abc", "def", "gh", "ij"]);
        assert_eq!(wrap("  ", 3), [""; 0]);
    }

    #[test]
    fn a_log_has_names_and_the_counts_that_are_not_one() {
        let mut log_of_two = blocks(&[5, 6]);
        log_of_two[1].count = 3;
        assert_eq!([log(&log_of_two), log(&[])], ["[5 6*3]", "[]"]);
    }

    #[test]
    fn a_long_log_keeps_its_newest_blocks_and_its_oldest_if_it_can() {
        let long = blocks(&[10, 11, 12, 13]);
        let within = |room: usize| log_within(&long, room);
        assert_eq!(
            [13, 12, 10, 9].map(within),
            ["[10 11 12 13]", "[10 … 12 13]", "[10 … 13]", "[10 … 13]"]
        );
        assert_eq!([8, 6, 5].map(within), ["[… 13]", "[… 13]", "[10 …"]);
        assert_eq!(log_within(&blocks(&[1234567]), 5), "[123…");
        assert_eq!(around("P ", &long, " of 3", 14), "P [… 13] of 3");
    }

    #[test]
    fn words_after_a_log_are_whole_where_they_have_room() {
        let within = |room: usize| around("lost LOG ", &blocks(&[12, 13]), " of 31", room);
        assert_eq!(
            [22, 21, 18, 16].map(within),
            [
                "lost LOG [12 13] of 31",
                "lost LOG [… 13] of 31",
                "lost LOG [1… of 31",
                "lost LOG … of 31"
            ]
        );
        assert_eq!(around("P ", &blocks(&[77]), " p1234567890", 12), "P [77] p123…");
    }

    #[test]
    fn a_list_is_cut_between_two_numbers() {
        let within = |room: usize| list_within([1, 12, 13, 20, 21, 22, 23], room);
        assert_eq!(
            [13, 12, 9, 8, 4, 3, 1].map(within),
            ["1,12,13,20-23", "1,12,13,…", "1,12,13,…", "1,12,…", "1,…", "1,…", "…"]
        );
        assert_eq!(set_within(&[1, 12, 14], 8), "{1,12,…}");
    }

    #[test]
    fn four_numbers_in_a_row_are_a_range() {
        let of = |numbers: &[u8]| set(numbers);
        assert_eq!([of(&[]), of(&[0, 1, 2]), of(&[0, 1, 2, 3])], ["{}", "{0,1,2}", "{0-3}"]);
        assert_eq!(of(&[0, 2, 3, 4, 5, 7, 8]), "{0,2-5,7,8}");
    }

    #[test]
    fn the_view_is_written_where_it_is_not_that_of_the_beat() {
        assert_eq!([of_view(1, 4), of_view(1, 7), of_view(1, 8)], ["", "", " v1"]);
    }
}
