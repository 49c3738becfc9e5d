//! The distinct keys of a trace, each with a number.

use crate::memory::{extend, filled, push, OutOfMemory};
use crate::random::spread;

const EMPTY: u32 = u32::MAX;

/// A key of a trace.
#[derive(Clone, Copy, Debug, PartialEq, Eq)]
pub enum Key<'a> {
    Number(u64),
    Text(&'a [u8]),
}

/// The distinct keys, numbered from 0 on in the order of their first requests.
///
/// They are numbers as long as each key read is one, and texts from the first other key on. A hash
/// table of their numbers finds them.
pub struct Keys {
    distinct: Distinct,
    slots: Vec<u32>,
}

enum Distinct {
    Numbers(Vec<u64>),
    Texts(Texts),
}

/// Texts, one after another.
#[derive(Default)]
struct Texts {
    bytes: Vec<u8>,
    ends: Vec<usize>,
}

impl Texts {
    fn push(&mut self, text: &[u8]) -> Result<(), OutOfMemory> {
        extend(&mut self.bytes, text)?;
        push(&mut self.ends, self.bytes.len())
    }

    fn get(&self, number: usize) -> &[u8] {
        let start = if number == 0 {
            0
        } else {
            self.ends[number - 1]
        };
        &self.bytes[start..self.ends[number]]
    }
}

impl Keys {
    /// Creates the keys of an empty trace.
    pub fn new() -> Result<Keys, OutOfMemory> {
        Ok(Keys {
            distinct: Distinct::Numbers(Vec::new()),
            slots: filled(1024, EMPTY)?,
        })
    }

    /// Returns the number of distinct keys.
    pub fn len(&self) -> usize {
        match &self.distinct {
            Distinct::Numbers(numbers) => numbers.len(),
            Distinct::Texts(texts) => texts.ends.len(),
        }
    }

    /// Returns `true` if there is no key.
    pub fn is_empty(&self) -> bool {
        self.len() == 0
    }

    /// Returns `true` if all keys are numbers.
    pub fn are_numbers(&self) -> bool {
        matches!(self.distinct, Distinct::Numbers(_))
    }

    /// Returns the key of this number.
    pub fn get(&self, number: u32) -> Key<'_> {
        match &self.distinct {
            Distinct::Numbers(numbers) => Key::Number(numbers[number as usize]),
            Distinct::Texts(texts) => Key::Text(texts.get(number as usize)),
        }
    }

    /// Returns the bytes that a key takes in a cache of bytes: 8 for a number.
    pub fn length(&self, number: u32) -> usize {
        match self.get(number) {
            Key::Number(_) => 8,
            Key::Text(text) => text.len(),
        }
    }

    /// Returns the bytes of all distinct keys.
    pub fn total_length(&self) -> usize {
        match &self.distinct {
            Distinct::Numbers(numbers) => numbers.len().saturating_mul(8),
            Distinct::Texts(texts) => texts.bytes.len(),
        }
    }

    /// Returns the number of the key that a field spells, which gets one if it is new.
    pub fn number_of(&mut self, field: &[u8]) -> Result<u32, OutOfMemory> {
        if self.are_numbers() {
            match number(field) {
                Some(number) => return self.number_of_key(Key::Number(number)),
                None => self.spell()?,
            }
        }
        self.number_of_key(Key::Text(field))
    }

    /// Returns the number of a key that is a number, which gets one if it is new.
    pub fn number_of_number(&mut self, number: u64) -> Result<u32, OutOfMemory> {
        self.number_of_key(Key::Number(number))
    }

    fn number_of_key(&mut self, key: Key) -> Result<u32, OutOfMemory> {
        let slot = self.slot(key);
        if self.slots[slot] != EMPTY {
            return Ok(self.slots[slot]);
        }
        let number = u32::try_from(self.len()).map_err(|_| OutOfMemory)?;
        if number == EMPTY {
            return Err(OutOfMemory);
        }
        match (&mut self.distinct, key) {
            (Distinct::Numbers(numbers), Key::Number(number)) => push(numbers, number)?,
            (Distinct::Texts(texts), Key::Text(text)) => texts.push(text)?,
            (Distinct::Texts(texts), Key::Number(number)) => {
                texts.push(number.to_string().as_bytes())?
            }
            (Distinct::Numbers(_), Key::Text(_)) => {
                unreachable!("texts come after the numbers are spelled")
            }
        }
        self.slots[slot] = number;
        if self.len() * 2 > self.slots.len() {
            self.index(self.slots.len() * 2)?;
        }
        Ok(number)
    }

    /// Returns the slot of a key, or the free one for it. At least half of the slots are free.
    fn slot(&self, key: Key) -> usize {
        let mask = self.slots.len() - 1;
        let mut slot = hash(key) as usize & mask;
        while self.slots[slot] != EMPTY && self.get(self.slots[slot]) != key {
            slot = (slot + 1) & mask;
        }
        slot
    }

    /// Turns the numbers into the texts that spelled them.
    fn spell(&mut self) -> Result<(), OutOfMemory> {
        if let Distinct::Numbers(numbers) = &self.distinct {
            let mut texts = Texts::default();
            for number in numbers {
                texts.push(number.to_string().as_bytes())?;
            }
            self.distinct = Distinct::Texts(texts);
        }
        self.index(self.slots.len())
    }

    /// Indexes all keys in a new table of `count` slots, a power of two.
    fn index(&mut self, count: usize) -> Result<(), OutOfMemory> {
        self.slots = filled(count, EMPTY)?;
        for number in 0..self.len() as u32 {
            let slot = self.slot(self.get(number));
            self.slots[slot] = number;
        }
        Ok(())
    }
}

/// Returns the number that a field spells, if no other text spells it: no sign, no leading zero.
fn number(field: &[u8]) -> Option<u64> {
    if field.len() > 1 && field[0] == b'0' {
        return None;
    }
    decimal(field)
}

/// Returns the number of a field of decimal digits.
pub fn decimal(field: &[u8]) -> Option<u64> {
    if field.is_empty() {
        return None;
    }
    field.iter().try_fold(0u64, |number, digit| {
        let digit = digit.wrapping_sub(b'0');
        if digit > 9 {
            return None;
        }
        number.checked_mul(10)?.checked_add(u64::from(digit))
    })
}

fn hash(key: Key) -> u64 {
    match key {
        Key::Number(number) => spread(number),
        Key::Text(text) => text.chunks(8).fold(text.len() as u64, |hash, chunk| {
            let mut word = [0; 8];
            word[..chunk.len()].copy_from_slice(chunk);
            spread(hash ^ u64::from_le_bytes(word))
        }),
    }
}

#[cfg(test)]
mod tests {
    use super::*;

    #[test]
    fn a_number_has_one_spelling() {
        assert_eq!(number(b"0"), Some(0));
        assert_eq!(number(b"18446744073709551615"), Some(u64::MAX));
        for other in [
            "",
            "00",
            "07",
            "+7",
            "-7",
            "7 ",
            "18446744073709551616",
            "a",
        ] {
            assert_eq!(number(other.as_bytes()), None, "{other}");
        }
        assert_eq!(decimal(b"007"), Some(7));
    }

    #[test]
    fn keys_are_numbered_by_their_first_requests() {
        let mut keys = Keys::new().unwrap();
        let numbers = ["9", "4", "9", "5"].map(|field| keys.number_of(field.as_bytes()).unwrap());
        assert_eq!(numbers, [0, 1, 0, 2]);
        assert_eq!(
            (keys.len(), keys.total_length(), keys.length(2)),
            (3, 24, 8)
        );
        assert!(keys.are_numbers());
        assert_eq!(keys.get(1), Key::Number(4));
    }

    #[test]
    fn numbers_before_a_text_keep_their_places() {
        let mut keys = Keys::new().unwrap();
        let fields = ["12", "7", "07", "user", "7", "12", "07", "user"];
        let numbers = fields.map(|field| keys.number_of(field.as_bytes()).unwrap());
        assert_eq!(numbers, [0, 1, 2, 3, 1, 0, 2, 3]);
        assert!(!keys.are_numbers());
        assert_eq!(keys.get(2), Key::Text(b"07"));
        assert_eq!((keys.len(), keys.total_length(), keys.length(3)), (4, 9, 4));
    }

    #[test]
    fn many_keys_stay_distinct() {
        for suffix in ["", "th"] {
            let mut keys = Keys::new().unwrap();
            for round in 0..2 {
                for number in 0..5000u32 {
                    let field = format!("{}{suffix}", u64::from(number) << 40);
                    assert_eq!(
                        keys.number_of(field.as_bytes()),
                        Ok(number),
                        "round {round}"
                    );
                }
            }
        }
    }
}
