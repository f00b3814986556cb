//! A document as blocks, as far as the checks tell them apart.

#[derive(Debug, Clone, Copy, PartialEq, Eq)]
pub enum Kind {
    /// with its level
    Heading(usize),
    Paragraph,
    Item,
    /// of a table: the row of titles, the rule below it, any other row
    Titles,
    Rule,
    Row,
    Fence,
    /// a line that is an HTML comment
    Comment,
}

/// A block: its first line (from 1) and its text, without the marks of a heading, an item or a fence.
#[derive(Debug, Clone, PartialEq, Eq)]
pub struct Block {
    pub kind: Kind,
    pub line: usize,
    pub text: String,
}

impl Block {
    /// The line at which a byte of the text stands. A fence's text starts a line below its mark.
    pub fn line_at(&self, place: usize) -> usize {
        self.line + self.text[..place].matches('\n').count() + usize::from(self.kind == Kind::Fence)
    }
}

/// The blocks in their order; blank lines part them and are in none.
pub fn blocks(text: &str) -> Vec<Block> {
    let mut reader = Reader::default();
    for (index, line) in text.lines().enumerate() {
        reader.take(index + 1, line);
    }
    reader.blocks
}

#[derive(Default)]
struct Reader {
    blocks: Vec<Block>,
    fence: Option<Fence>,
    /// the last block goes on with the next line of plain text
    going_on: bool,
}

/// An open fence: its mark, and how far it is indented.
struct Fence {
    mark: String,
    indent: usize,
}

impl Reader {
    fn take(&mut self, line: usize, text: &str) {
        if let Some(fence) = self.fence.take() {
            self.take_fenced(fence, text);
            return;
        }
        let bare = text.trim();
        if let Some(mark) = fence_mark(bare) {
            self.fence = Some(Fence {
                mark: mark.to_string(),
                indent: text.len() - text.trim_start().len(),
            });
            self.start(Kind::Fence, line, "");
            self.going_on = false;
        } else if bare.is_empty() {
            self.going_on = false;
        } else {
            self.take_text(line, bare);
        }
    }

    fn take_fenced(&mut self, fence: Fence, text: &str) {
        let bare = text.trim();
        if bare.len() >= fence.mark.len() && bare.chars().all(|c| fence.mark.starts_with(c)) {
            return;
        }
        let blank = text.len() - text.trim_start().len();
        if let Some(block) = self.blocks.last_mut() {
            block.text += &text[blank.min(fence.indent)..];
            block.text.push('\n');
        }
        self.fence = Some(fence);
    }

    fn take_text(&mut self, line: usize, bare: &str) {
        if let Some((level, title)) = heading(bare) {
            self.start(Kind::Heading(level), line, title);
            self.going_on = false;
        } else if bare.starts_with("<!--") && bare.ends_with("-->") {
            self.start(Kind::Comment, line, bare);
            self.going_on = false;
        } else if bare.starts_with('|') {
            self.take_row(line, bare);
        } else if let Some(rest) = self.item(bare) {
            self.start(Kind::Item, line, rest);
        } else if let (true, Some(block)) = (self.going_on, self.blocks.last_mut()) {
            block.text.push('\n');
            block.text += bare;
        } else {
            self.start(Kind::Paragraph, line, bare);
        }
    }

    fn take_row(&mut self, line: usize, bare: &str) {
        let is_rule = bare.contains('-') && bare.chars().all(|c| "|-: ".contains(c));
        if let (true, Some(above)) = (is_rule, self.blocks.last_mut()) {
            if above.kind == Kind::Row {
                above.kind = Kind::Titles;
            }
        }
        self.start(if is_rule { Kind::Rule } else { Kind::Row }, line, bare);
        self.going_on = false;
    }

    /// The text of a list item that starts here. A number within a paragraph starts one only if it is 1.
    fn item<'a>(&self, bare: &'a str) -> Option<&'a str> {
        let (mark, rest) = bare.split_once(' ')?;
        if matches!(mark, "-" | "*" | "+") {
            return Some(rest.trim_start());
        }
        let number = mark.strip_suffix(['.', ')'])?;
        let is_number = !number.is_empty() && number.chars().all(|c| c.is_ascii_digit());
        let in_paragraph = self.going_on && self.blocks.last().is_some_and(|block| block.kind == Kind::Paragraph);
        (is_number && (!in_paragraph || number == "1")).then(|| rest.trim_start())
    }

    fn start(&mut self, kind: Kind, line: usize, text: &str) {
        self.blocks.push(Block {
            kind,
            line,
            text: text.to_string(),
        });
        self.going_on = true;
    }
}

/// The mark of a line that opens a fence.
fn fence_mark(bare: &str) -> Option<&str> {
    let first = bare.chars().next().filter(|c| "`~".contains(*c))?;
    let length = bare.chars().take_while(|&c| c == first).count();
    let is_span = first == '`' && bare[length..].contains('`');
    (length >= 3 && !is_span).then(|| &bare[..length])
}

fn heading(bare: &str) -> Option<(usize, &str)> {
    let level = bare.chars().take_while(|&c| c == '#').count();
    let title = bare[level..].strip_prefix(' ')?;
    (1..=6).contains(&level).then(|| (level, title.trim()))
}

/// The cells of a table row, the outer bars aside.
pub fn cells(row: &str) -> Vec<&str> {
    let row = row.strip_prefix('|').unwrap_or(row);
    let row = row.strip_suffix('|').unwrap_or(row);
    let mut cells = vec![];
    let mut from = 0;
    for (place, _) in row.match_indices('|') {
        if !row[..place].ends_with('\\') {
            cells.push(row[from..place].trim());
            from = place + 1;
        }
    }
    cells.push(row[from..].trim());
    cells
}
