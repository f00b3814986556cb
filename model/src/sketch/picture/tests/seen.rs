//! What is seen of a picture.
use super::xml::{elements, Element};
use crate::sketch::picture::draw;
use crate::sketch::story::Story;

pub struct Seen {
    pub elements: Vec<Element>,
}

impl Seen {
    pub fn of(story: &Story) -> Seen {
        let elements = elements(&draw(story)).expect("well formed");
        Seen { elements }
    }

    fn inside(&self, name: &'static str) -> impl Iterator<Item = &str> {
        let named = self.elements.iter().filter(move |element| element.name == name);
        named.map(|element| element.text.as_str())
    }

    pub fn texts(&self) -> impl Iterator<Item = &str> {
        self.inside("text")
    }

    /// What is shown when something is pointed at.
    pub fn titles(&self) -> impl Iterator<Item = &str> {
        self.inside("title")
    }

    /// How many texts begin with these words.
    pub fn count(&self, words: &str) -> usize {
        self.texts().filter(|text| text.starts_with(words)).count()
    }

    /// The elements of this name with these attributes.
    pub fn drawn(&self, name: &str, attributes: &[(&str, &str)]) -> Vec<&Element> {
        let named = self.elements.iter().filter(|element| element.name == name);
        named
            .filter(|element| attributes.iter().all(|(key, value)| element.is(key, value)))
            .collect()
    }
}
