//! Lines of text, wrapped.

/// The most columns of a line, where its words allow it.
const WIDTH: usize = 100;

/// What is written so far.
#[derive(Default)]
pub struct Sheet {
    pub text: String,
}

impl Sheet {
    /// An empty line.
    pub fn gap(&mut self) {
        self.text.push('\n');
    }

    /// A heading between rules.
    pub fn banner(&mut self, heading: &str) {
        let rule = "=".repeat(heading.chars().count().min(WIDTH));
        self.text += &format!("{rule}\n{heading}\n{rule}\n");
    }

    /// One saying, this far in; where it is too long for a line, the next lines hang two columns further.
    pub fn say(&mut self, indent: usize, saying: &str) {
        let mut line = " ".repeat(indent);
        let mut is_fresh = true;
        for word in words(saying, WIDTH - indent - 2) {
            if !is_fresh && line.chars().count() + 1 + word.chars().count() > WIDTH {
                self.text += &line;
                self.gap();
                line = " ".repeat(indent + 2);
                is_fresh = true;
            }
            if !is_fresh {
                line.push(' ');
            }
            line += &word;
            is_fresh = false;
        }
        self.text += line.trim_end();
        self.gap();
    }
}

/// The pieces that a line may be broken between: a log in brackets is one, unless it has no room in a line.
fn words(saying: &str, room: usize) -> Vec<String> {
    let mut pieces: Vec<String> = vec![];
    let mut is_inside = false;
    for word in saying.split(' ') {
        match pieces.last_mut() {
            Some(piece) if is_inside => *piece += &format!(" {word}"),
            _ => pieces.push(word.to_string()),
        }
        if let Some(place) = word.rfind(['[', ']']) {
            is_inside = word[place..].starts_with('[');
        }
    }
    let cut = |piece: String| match piece.chars().count() > room {
        true => piece.split(' ').map(str::to_string).collect(),
        false => vec![piece],
    };
    pieces.into_iter().flat_map(cut).collect()
}

#[cfg(test)]
mod tests {
    use super::*;

    fn said(indent: usize, saying: &str) -> String {
        let mut sheet = Sheet::default();
        sheet.say(indent, saying);
        sheet.text
    }

    #[test]
    fn long_sayings_hang() {
        let ten = "ten chars ".repeat(10);
        assert_eq!(said(0, ten.trim_end()), format!("{}\n", ten.trim_end()));
        let text = said(4, &format!("{ten}end"));
        assert_eq!(
            text,
            format!(
                "    {}\n      chars end\n",
                "ten chars ".repeat(10).trim_end().strip_suffix(" chars").unwrap()
            )
        );
    }

    #[test]
    fn a_log_is_not_broken_if_it_has_room() {
        let text = said(0, &format!("{} [5 6*3 7], end", "x".repeat(90)));
        assert_eq!(text.lines().collect::<Vec<_>>()[1], "  [5 6*3 7], end");
        let long: Vec<String> = (1_000..1_064).map(|name: u64| name.to_string()).collect();
        let text = said(2, &format!("[{}]", long.join(" ")));
        assert!(text.lines().count() > 3 && text.lines().all(|line| line.chars().count() <= WIDTH));
    }
}
