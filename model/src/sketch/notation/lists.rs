//! Lists of benches and of beats.
use super::cursor::Cursor;
use super::fault::Fault;
use super::words::Word;

/// A bench or a beat, with the word that names it: a number, a range or `all`.
#[derive(Clone, Debug)]
pub struct Item {
    pub number: u32,
    pub word: Word,
}

impl Item {
    pub fn bench(&self) -> u8 {
        self.number as u8
    }
}

/// Benches by their numbers, or all of them.
pub enum Benches {
    All(Word),
    Listed(Vec<Item>),
}

impl Benches {
    /// The one bench, where a number alone is given.
    pub fn alone(&self) -> Option<Item> {
        match self {
            Benches::Listed(items) if items.len() == 1 => items.first().cloned(),
            _ => None,
        }
    }
}

/// The numbers that can be listed.
pub struct Scope {
    noun: &'static str,
    first: u32,
    last: u32,
    /// The highest that may stand; those above it are read to be refused by name.
    top: u32,
    expected: String,
}

impl Scope {
    pub fn benches(n: u8) -> Scope {
        let last = u32::from(n.saturating_sub(1));
        Scope {
            noun: "bench",
            first: 0,
            last,
            top: last,
            expected: format!("a bench from 0 to {last}"),
        }
    }

    /// Those of n benches that receive: these rule-keepers, in these words.
    pub fn receivers(n: u8, keepers: &[u8], expected: String) -> Scope {
        Scope {
            top: keepers.iter().max().copied().map_or(0, u32::from),
            expected,
            ..Scope::benches(n)
        }
    }

    pub fn beats(first: u32, last: u32) -> Scope {
        Scope {
            noun: "beat",
            first,
            last,
            top: last,
            expected: format!("a beat from {first} to {last} (the sketch's beats)"),
        }
    }

    /// One number of these.
    pub fn one(&self, cursor: &mut Cursor) -> Result<Item, Fault> {
        let (number, word) = cursor.number(u64::from(self.first)..=u64::from(self.last), &self.expected)?;
        Ok(Item {
            number: number as u32,
            word,
        })
    }

    /// Numbers and ranges, with or without commas.
    pub fn list(&self, cursor: &mut Cursor) -> Result<Vec<Item>, Fault> {
        let mut items: Vec<Item> = vec![];
        loop {
            for item in self.range(cursor)? {
                if items.iter().any(|earlier| earlier.number == item.number) {
                    return Err(Fault::at(&item.word, self.again(item.number)));
                }
                items.push(item);
            }
            let goes_on = cursor.skips(",") || cursor.peek().is_some_and(Word::starts_with_digit);
            if !goes_on {
                cursor.seek(format!("another {}", self.noun));
                return Ok(items);
            }
        }
    }

    /// A number, or a first and a last one.
    fn range(&self, cursor: &mut Cursor) -> Result<Vec<Item>, Fault> {
        let Item { number: first, mut word } = self.one(cursor)?;
        if !cursor.skips("-") {
            return Ok(vec![Item { number: first, word }]);
        }
        let expected = format!("the end of the range, from {first} to {}", self.top.max(first));
        let (last, end) = cursor.number(u64::from(first)..=u64::from(self.last), &expected)?;
        word.text = format!("{}-{}", word.text, end.text);
        let item = |number| Item {
            number,
            word: word.clone(),
        };
        Ok((first..=last as u32).map(item).collect())
    }

    pub fn expected(&self) -> &str {
        &self.expected
    }

    fn again(&self, number: u32) -> String {
        let noun = self.noun;
        format!("another {noun} ({noun} {number} is in this list already)")
    }
}

/// The benches, ascending.
pub fn numbers(items: &[Item]) -> Vec<u8> {
    let mut numbers: Vec<u8> = items.iter().map(Item::bench).collect();
    numbers.sort();
    numbers
}

/// A list of these benches, or `all`.
pub fn benches(cursor: &mut Cursor, scope: &Scope) -> Result<Benches, Fault> {
    if let Some(word) = cursor.peek().filter(|word| word.text == "all").cloned() {
        cursor.take();
        return Ok(Benches::All(word));
    }
    cursor.seek("'all'");
    Ok(Benches::Listed(scope.list(cursor)?))
}
