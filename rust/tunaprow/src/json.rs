//! A writer of jobs: objects, lists and numbers, without spaces.

use std::fmt::Write;

/// Writes a list of numbers.
pub fn push_numbers(text: &mut String, numbers: &[u64]) {
    push_list(text, numbers, |text, number| {
        write!(text, "{number}").expect("a String takes all text");
    });
}

/// Writes a list, each item by a function.
pub fn push_list<T>(text: &mut String, items: &[T], mut push: impl FnMut(&mut String, &T)) {
    text.push('[');
    for (i, item) in items.iter().enumerate() {
        if i > 0 {
            text.push(',');
        }
        push(text, item);
    }
    text.push(']');
}

/// An object that is being written, member by member. The names are this package's own, and need no escapes.
pub struct Object<'a> {
    text: &'a mut String,
    is_empty: bool,
}

impl<'a> Object<'a> {
    pub fn open(text: &'a mut String) -> Object<'a> {
        text.push('{');
        Object { text, is_empty: true }
    }

    /// Begins a member, whose value is then written to the text.
    pub fn member(&mut self, name: &str) -> &mut String {
        let comma = if self.is_empty { "" } else { "," };
        self.is_empty = false;
        write!(self.text, "{comma}\"{name}\":").expect("a String takes all text");
        self.text
    }

    pub fn word(&mut self, name: &str, word: &str) -> &mut Self {
        write!(self.member(name), "\"{word}\"").expect("a String takes all text");
        self
    }

    pub fn number(&mut self, name: &str, number: u64) -> &mut Self {
        write!(self.member(name), "{number}").expect("a String takes all text");
        self
    }

    pub fn numbers(&mut self, name: &str, numbers: &[u64]) -> &mut Self {
        push_numbers(self.member(name), numbers);
        self
    }

    pub fn close(self) {
        self.text.push('}');
    }
}
