//! Scripts of the mode `unsync` without durations, and their text.

/// Least limit at which the port's new keys wait in a window. The original has none.
pub const WINDOWED: u64 = 100;

/// A script, and settings of its run on the original.
#[derive(Clone)]
pub struct Script {
    /// Maximum capacity.
    pub max: Option<u64>,
    /// True if each insert has a weight.
    pub weighed: bool,
    /// Initial capacity of the original's cache. It isn't in the text of the script, and no reply may depend on it.
    pub initial: Option<usize>,
    /// True if `drop-if` removes the original's entries key by key, when that avoids the wrong weight that a predicate leaves.
    pub by_key: bool,
    pub lines: Vec<Line>,
}

/// A call and its moment, which has no effect on a cache without durations.
#[derive(Clone)]
pub struct Line {
    pub moment: u64,
    pub call: Call,
}

/// A call to the cache.
#[derive(Clone)]
pub enum Call {
    Get(u64),
    Has(u64),
    Insert { key: u64, text: String, weight: u32 },
    Invalidate(u64),
    Clear,
    DropIf(String),
    Count,
    Weight,
    Iter,
    Policy,
}

impl Script {
    /// Returns `true` if the limit has a window, so that the script is compared with the model.
    pub fn has_window(&self) -> bool {
        self.max.is_some_and(|max| max >= WINDOWED)
    }

    /// Returns the text of the script, as the port reads it.
    pub fn words(&self) -> String {
        let mut words = self.first_line();
        words.push('\n');
        for line in &self.lines {
            words.push_str(&self.line_words(line));
            words.push('\n');
        }
        words
    }

    fn first_line(&self) -> String {
        let max = self.max.map_or(String::new(), |max| format!(" max {max}"));
        let weighed = if self.weighed { " weighed" } else { "" };
        format!("unsync{max}{weighed}")
    }

    fn line_words(&self, line: &Line) -> String {
        format!("{} {}", line.moment, self.call_words(&line.call))
    }

    fn call_words(&self, call: &Call) -> String {
        match call {
            Call::Get(key) => format!("get {key}"),
            Call::Has(key) => format!("has {key}"),
            Call::Insert { key, text, weight } if self.weighed => format!("insert {key} {text} {weight}"),
            Call::Insert { key, text, .. } => format!("insert {key} {text}"),
            Call::Invalidate(key) => format!("invalidate {key}"),
            Call::Clear => "clear".to_string(),
            Call::DropIf(text) => format!("drop-if {text}"),
            Call::Count => "count".to_string(),
            Call::Weight => "weight".to_string(),
            Call::Iter => "iter".to_string(),
            Call::Policy => "policy".to_string(),
        }
    }
}
