//! The model's text of a roll against another text of it, byte for byte.
use super::tally::Tally;
use super::Generator;
use crate::history::roll::text;
use std::fmt;
use std::path::PathBuf;

/// Where two texts of one roll part.
#[derive(Debug)]
pub struct Difference {
    pub generator: Generator,
    pub seed: u64,
    pub line: LineDifference,
    pub roll: Vec<u8>,
}

/// The first line in which two texts differ, counted from 1.
#[derive(Debug, PartialEq, Eq)]
pub struct LineDifference {
    pub number: usize,
    pub model: String,
    pub other: String,
}

/// Makes the roll of a seed, counts it, and holds the model's text against the other one; the number of lines.
pub fn compare(seed: u64, tally: &mut Tally, other: impl Fn(&[u8]) -> Vec<u8>) -> Result<usize, Box<Difference>> {
    let generator = Generator::of(seed);
    let roll = generator.roll(seed);
    let model = text(&roll);
    tally.count(&roll, &model);
    match first_difference(&model, &other(&roll)) {
        None => Ok(model.iter().filter(|&&byte| byte == b'\n').count()),
        Some(line) => Err(Box::new(Difference {
            generator,
            seed,
            line,
            roll,
        })),
    }
}

/// The first line that differs, line feeds shown; a text that ends early has an empty line there.
pub fn first_difference(model: &[u8], other: &[u8]) -> Option<LineDifference> {
    if model == other {
        return None;
    }
    let lines = |text: &[u8]| -> Vec<String> {
        text.split_inclusive(|&byte| byte == b'\n')
            .map(|line| line.escape_ascii().to_string())
            .collect()
    };
    let (model, other) = (lines(model), lines(other));
    let line = |text: &[String], place: usize| text.get(place).cloned().unwrap_or_default();
    let place = (0..).find(|&place| line(&model, place) != line(&other, place))?;
    Some(LineDifference {
        number: place + 1,
        model: line(&model, place),
        other: line(&other, place),
    })
}

impl Difference {
    /// Writes the roll in hex beside the build, and says where: `soak roll FILE` runs it again.
    pub fn keep(&self) -> std::io::Result<PathBuf> {
        let folder = PathBuf::from(env!("CARGO_MANIFEST_DIR")).join("target/differences");
        std::fs::create_dir_all(&folder)?;
        let file = folder.join(format!("{:?}-{}.hex", self.generator, self.seed));
        std::fs::write(&file, to_hex(&self.roll))?;
        Ok(file)
    }
}

impl fmt::Display for Difference {
    fn fmt(&self, out: &mut fmt::Formatter) -> fmt::Result {
        let Difference {
            generator, seed, line, ..
        } = self;
        write!(
            out,
            "{generator:?} seed {seed}, line {}: model `{}`, other `{}`",
            line.number, line.model, line.other
        )
    }
}

pub fn to_hex(bytes: &[u8]) -> String {
    bytes.iter().map(|byte| format!("{byte:02x}")).collect()
}

/// The bytes of a hex writing; spaces and line ends are skipped.
pub fn from_hex(hex: &str) -> Option<Vec<u8>> {
    let digits: Vec<u8> = hex
        .chars()
        .filter(|letter| !letter.is_whitespace())
        .map(|letter| Some(letter.to_digit(16)? as u8))
        .collect::<Option<_>>()?;
    let (pairs, rest) = digits.as_chunks::<2>();
    rest.is_empty()
        .then(|| pairs.iter().map(|[high, low]| high << 4 | low).collect())
}

#[cfg(test)]
mod tests {
    use super::*;

    #[test]
    fn the_first_line_that_differs_is_shown() {
        let shown = |number, model: &str, other: &str| {
            Some(LineDifference {
                number,
                model: model.into(),
                other: other.into(),
            })
        };
        assert_eq!(first_difference(b"a\nb\n", b"a\nb\n"), None);
        assert_eq!(first_difference(b"a\nb\n", b"a\nc\n"), shown(2, "b\\n", "c\\n"));
        assert_eq!(first_difference(b"a\nb\n", b"a\nb"), shown(2, "b\\n", "b"));
        assert_eq!(first_difference(b"a\n", b"a\nb\n"), shown(2, "", "b\\n"));
        assert_eq!(first_difference(b"a\n", b""), shown(1, "a\\n", ""));
    }

    #[test]
    fn hex_reads_back() {
        let bytes: Vec<u8> = (0..=255).collect();
        assert_eq!(from_hex(&to_hex(&bytes)), Some(bytes));
        assert_eq!(from_hex("0a 1\nf"), Some(vec![10, 31]));
        assert_eq!((from_hex("0a1"), from_hex("zz")), (None, None));
    }
}
