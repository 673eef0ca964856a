//! Texts as the numbers that the library knows them by: 0 is the empty text.
use std::collections::HashMap;

pub(crate) struct Texts {
    numbers: HashMap<String, u64>,
    texts: Vec<String>,
}

impl Texts {
    pub(crate) fn new() -> Texts {
        Texts { numbers: HashMap::from([(String::new(), 0)]), texts: vec![String::new()] }
    }

    pub(crate) fn number(&mut self, text: &str) -> u64 {
        if let Some(&n) = self.numbers.get(text) {
            return n;
        }
        let n = self.texts.len() as u64;
        self.texts.push(text.to_owned());
        self.numbers.insert(text.to_owned(), n);
        n
    }

    pub(crate) fn text(&self, number: u64) -> &str {
        &self.texts[number as usize]
    }

    pub(crate) fn count(&self) -> usize {
        self.texts.len()
    }

    /// Forgets the texts that came after there were `count`: those of an update that was not accepted.
    pub(crate) fn forget_after(&mut self, count: usize) {
        for text in self.texts.drain(count..) {
            self.numbers.remove(&text);
        }
    }
}
