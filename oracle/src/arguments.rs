//! Reads a command's options and files, for the programs here.

use std::ops::Range;

pub struct Arguments {
    left: Vec<String>,
}

impl Arguments {
    pub fn new(left: Vec<String>) -> Self {
        Arguments { left }
    }

    /// Whether the option stands there; it is taken out.
    pub fn flag(&mut self, name: &str) -> bool {
        let at = self.left.iter().position(|a| a == name);
        at.map(|at| self.left.remove(at)).is_some()
    }

    /// The word after the option; both are taken out.
    pub fn value(&mut self, name: &str) -> Result<Option<String>, String> {
        let Some(at) = self.left.iter().position(|a| a == name) else {
            return Ok(None);
        };
        self.left.remove(at);
        if at == self.left.len() {
            return Err(format!("{name} wants a value"));
        }
        Ok(Some(self.left.remove(at)))
    }

    pub fn wanted(&mut self, name: &str) -> Result<String, String> {
        self.value(name)?.ok_or(format!("{name} is missing"))
    }

    pub fn number(&mut self, name: &str) -> Result<Option<u64>, String> {
        let Some(text) = self.value(name)? else {
            return Ok(None);
        };
        let number = text.parse();
        number
            .map(Some)
            .map_err(|_| format!("{name} wants a whole number, not '{text}'"))
    }

    /// Seeds as `A..B`, B not included.
    pub fn seeds(&mut self) -> Result<Option<Range<u64>>, String> {
        let Some(text) = self.value("--seeds")? else {
            return Ok(None);
        };
        let parsed = text.split_once("..").and_then(|(from, to)| {
            let (from, to): (u64, u64) = (from.parse().ok()?, to.parse().ok()?);
            (from < to).then_some(from..to)
        });
        parsed
            .map(Some)
            .ok_or(format!("--seeds wants A..B with A below B, not '{text}'"))
    }

    /// What is left: files or words. An option that nobody asked for is an error.
    pub fn rest(self) -> Result<Vec<String>, String> {
        match self.left.iter().find(|a| a.starts_with('-')) {
            Some(unknown) => Err(format!("unknown option {unknown}")),
            None => Ok(self.left),
        }
    }

    /// The only word left.
    pub fn only(self, what: &str) -> Result<String, String> {
        let mut rest = self.rest()?;
        match (rest.pop(), rest.is_empty()) {
            (Some(word), true) => Ok(word),
            _ => Err(format!("wanted: one {what}")),
        }
    }

    pub fn nothing_more(self) -> Result<(), String> {
        match self.rest()?.first() {
            Some(word) => Err(format!("unexpected '{word}'")),
            None => Ok(()),
        }
    }
}

pub fn read_file(path: &str) -> Result<Vec<u8>, String> {
    std::fs::read(path).map_err(|e| format!("{path}: {e}"))
}

pub fn write_file(path: &str, bytes: &[u8]) -> Result<(), String> {
    std::fs::write(path, bytes).map_err(|e| format!("{path}: {e}"))
}
