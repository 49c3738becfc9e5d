//! The entries of a typed cache: keys and values in slots, and the proved cache of numbers, which
//! decides which of them stay.
//!
//! The proved cache maps a number to a slot. The number of a key is its hash. If another key in the
//! table has that number, the key gets the next one of a fixed sequence, and is listed in
//! `displaced`. So each key has a number of its own, whatever the hashes are.
//!
//! In a weighed cache the upper half of the number's value is the entry's weight, and the lower half
//! its slot.
//!
//! A table calls no code of the user but `==` of keys and a predicate, before it changes an entry or
//! where it can undo the change, and the change of a value that it has found. It drops no key and no
//! value: what leaves is in `left`, or is returned. So its owner can release a lock first.

use crate::clock::nanoseconds;
use crate::error::{BuildError, OutOfMemory, TimedInsertError};
use crate::handle::{Cause, Handle, Inserted, Numbers, Removed, Statistics};
use crate::limits::Limits;
use std::borrow::Borrow;
use std::collections::{HashMap, VecDeque};
use std::mem;
use std::panic::{catch_unwind, resume_unwind, AssertUnwindSafe};
use std::time::Duration;

/// The largest queue of the library's removed entries. A call removes at most 100 entries by their
/// time to live, 100 of each of three lists by their time to idle, 100 above the capacity, and a few
/// for a new entry. Only a heavy new entry may evict more than are queued: then `find_lost` finds them.
const MOST_LEFT: u64 = 1024;

/// The entries of a cache.
pub(crate) struct Table<K, V> {
    numbers: Handle<Numbers>,
    slots: Vec<Slot<K, V>>,
    /// The first of the free slots.
    free: Option<u32>,
    /// By hash, the numbers and slots of the entries whose number isn't their hash.
    displaced: HashMap<u64, Vec<(u64, u32)>>,
    /// The entries that left, in this order, until the owner takes them.
    pub(crate) left: VecDeque<Left<K, V>>,
    expires: bool,
    has_time_to_idle: bool,
    is_weighed: bool,
    is_adaptive: bool,
    capacity: u64,
}

/// The weight, the time to live and the moment of a write.
#[derive(Clone, Copy)]
pub(crate) struct Write {
    /// What it weighs, in a weighed cache.
    pub(crate) weight: u32,
    /// Its own time to live, if it has one.
    pub(crate) own: Option<Duration>,
    pub(crate) now: u64,
}

enum Slot<K, V> {
    Filled(Filled<K, V>),
    /// A free slot, and the next one.
    Free(Option<u32>),
}

struct Filled<K, V> {
    key: K,
    value: V,
    number: u64,
    /// The key's hash, if that isn't the number.
    displaced_from: Option<u64>,
}

/// An entry that left.
pub(crate) struct Left<K, V> {
    pub(crate) key: K,
    pub(crate) value: V,
    pub(crate) cause: Cause,
}

impl<K, V> Left<K, V> {
    /// Returns a new entry that was not admitted.
    pub(crate) fn rejected(key: K, value: V) -> Left<K, V> {
        let cause = Cause::Rejected;
        Left { key, value, cause }
    }

    /// Returns the old value of an entry, with the key of the insert that replaced it.
    pub(crate) fn replaced(key: K, value: V) -> Left<K, V> {
        let cause = Cause::Replaced;
        Left { key, value, cause }
    }
}

/// The result of an insert.
pub(crate) enum Done<K, V> {
    /// The new entry is in this slot.
    New(u32),
    /// The key's entry in this slot has the new value. The new key and the old value are given back.
    Replaced(u32, K, V),
    /// The new entry was not admitted.
    Rejected(K, V),
}

/// The place of a key.
enum Found {
    Here {
        number: u64,
        slot: u32,
    },
    /// The key has no unexpired entry. No unexpired entry has this number, the first such of the
    /// key's sequence.
    Nowhere {
        number: u64,
    },
}

impl Found {
    fn number(&self) -> u64 {
        match self {
            Found::Here { number, .. } | Found::Nowhere { number } => *number,
        }
    }
}

/// Returns the number after this one in a sequence. The step is odd, so a sequence has all numbers.
fn next_number(number: u64) -> u64 {
    number.wrapping_add(0x9E37_79B9_7F4A_7C15)
}

impl<K, V> Table<K, V> {
    pub(crate) fn open(limits: &Limits) -> Result<Table<K, V>, BuildError> {
        let mut settings = limits.settings()?;
        // All entries, the new one and the old value of an update. Those of weight 0 have no limit.
        let most = match limits.is_weighed {
            true => MOST_LEFT,
            false => settings.capacity.saturating_add(2).min(MOST_LEFT),
        };
        settings.removed_room = most as usize;
        let mut slots = Vec::new();
        if settings.initial_capacity > 0 {
            // A new entry is stored before another one leaves for it.
            let most = settings.initial_capacity.saturating_add(1);
            slots.try_reserve_exact(most).map_err(OutOfMemory::from)?;
        }
        Ok(Table {
            numbers: Handle::<Numbers>::open(&settings)?,
            slots,
            free: None,
            displaced: HashMap::new(),
            left: VecDeque::new(),
            expires: limits.has_duration(),
            has_time_to_idle: limits.time_to_idle.is_some(),
            is_weighed: limits.is_weighed,
            is_adaptive: settings.is_adaptive,
            capacity: settings.capacity,
        })
    }

    /// Looks up the key, which counts as an access, and returns its slot.
    pub(crate) fn get<Q>(&mut self, key: &Q, hash: u64, now: u64) -> Option<u32>
    where
        K: Borrow<Q>,
        Q: Eq + ?Sized,
    {
        if self.has_time_to_idle || !self.displaced.is_empty() {
            return self.get_found(key, hash, now);
        }
        // Each entry's number is its hash. Once in 2^64 times another key's entry has this hash. It is
        // used then, which changes its place, but no deadline.
        let slot = self.numbers.get(hash, now);
        self.drain_removed();
        let slot = slot? as u32;
        self.has(slot, key).then_some(slot)
    }

    /// Looks up the key, as `get` does, and finds its number first.
    fn get_found<Q>(&mut self, key: &Q, hash: u64, now: u64) -> Option<u32>
    where
        K: Borrow<Q>,
        Q: Eq + ?Sized,
    {
        let number = self.find(key, hash, now).number();
        let slot = self.numbers.get(number, now);
        self.drain_removed();
        slot.map(|slot| slot as u32)
    }

    /// Looks up the key, which doesn't count as an access, and returns its slot.
    pub(crate) fn peek<Q>(&self, key: &Q, hash: u64, now: u64) -> Option<u32>
    where
        K: Borrow<Q>,
        Q: Eq + ?Sized,
    {
        match self.find(key, hash, now) {
            Found::Here { slot, .. } => Some(slot),
            Found::Nowhere { .. } => None,
        }
    }

    /// Returns `true` if the key has an unexpired entry, and removes expired ones.
    pub(crate) fn contains<Q>(&mut self, key: &Q, hash: u64, now: u64) -> bool
    where
        K: Borrow<Q>,
        Q: Eq + ?Sized,
    {
        let number = self.find(key, hash, now).number();
        let found = self.numbers.contains(number, now);
        self.drain_removed();
        found
    }

    /// Inserts the entry, and takes it out of the option. If memory is refused, or if a comparison of
    /// keys panics, it stays there.
    pub(crate) fn insert(
        &mut self,
        entry: &mut Option<(K, V)>,
        hash: u64,
        write: Write,
    ) -> Result<Done<K, V>, TimedInsertError>
    where
        K: Eq,
    {
        if !self.expires && !self.is_weighed && self.displaced.is_empty() {
            return self.insert_at_hash(entry, hash, write);
        }
        self.insert_found(entry, hash, write)
    }

    /// Inserts the entry, as `insert` does, and finds the number of its key first.
    fn insert_found(
        &mut self,
        entry: &mut Option<(K, V)>,
        hash: u64,
        write: Write,
    ) -> Result<Done<K, V>, TimedInsertError>
    where
        K: Eq,
    {
        let found = match &*entry {
            Some((key, _)) => self.find(key, hash, write.now),
            None => unreachable!("there is an entry to insert"),
        };
        match found {
            Found::Here { number, slot } if self.settle(number, write.now) => {
                self.update(entry, number, slot, write)
            }
            Found::Here { number, .. } | Found::Nowhere { number } => {
                self.insert_new(entry, number, hash, write)
            }
        }
    }

    /// Inserts the entry, as `insert` does, in a cache without durations and weights where each entry's
    /// number is its hash: what leaves for it tells whether the number had an entry.
    fn insert_at_hash(
        &mut self,
        entry: &mut Option<(K, V)>,
        hash: u64,
        write: Write,
    ) -> Result<Done<K, V>, TimedInsertError>
    where
        K: Eq,
    {
        let slot = self.place(entry, hash, hash)?;
        match self.put(hash, slot, write) {
            Ok(Inserted::Stored) => {}
            Ok(Inserted::Rejected) => {
                self.drain();
                let filled = self.vacate(slot);
                return Ok(Done::Rejected(filled.key, filled.value));
            }
            Err(error) => {
                let filled = self.vacate(slot);
                *entry = Some((filled.key, filled.value));
                return Err(error);
            }
        }
        let mut old = None;
        while let Some(removed) = self.numbers.drain() {
            match removed.cause {
                Cause::Replaced => old = Some(removed.value as u32),
                cause => self.take_out(removed.value as u32, cause),
            }
            // Where the window's share is fixed, one entry leaves at most.
            if !self.is_adaptive {
                break;
            }
        }
        match old {
            Some(old) => self.replace_at_hash(entry, hash, write, old, slot),
            None => Ok(Done::New(slot)),
        }
    }

    /// Ends an insert into a new slot under a number whose entry is in an old one. If that has another
    /// key, it gets its number back, as it does if a comparison panics.
    fn replace_at_hash(
        &mut self,
        entry: &mut Option<(K, V)>,
        hash: u64,
        write: Write,
        old: u32,
        slot: u32,
    ) -> Result<Done<K, V>, TimedInsertError>
    where
        K: Eq,
    {
        let is_same = || self.pair(old).0 == self.pair(slot).0;
        let is_same = catch_unwind(AssertUnwindSafe(is_same));
        if let Ok(true) = is_same {
            let replaced = self.vacate(old);
            let key = mem::replace(&mut self.filled_mut(slot).key, replaced.key);
            return Ok(Done::Replaced(slot, key, replaced.value));
        }
        // There is capacity, so this is not refused.
        let _ = self.put(hash, old, write);
        self.drain_one();
        let filled = self.vacate(slot);
        *entry = Some((filled.key, filled.value));
        match is_same {
            Ok(_) => self.insert_found(entry, hash, write),
            Err(panic) => resume_unwind(panic),
        }
    }

    fn update(
        &mut self,
        entry: &mut Option<(K, V)>,
        number: u64,
        slot: u32,
        write: Write,
    ) -> Result<Done<K, V>, TimedInsertError> {
        self.put(number, slot, write)?;
        let (key, value) = taken(entry);
        let old = mem::replace(&mut self.filled_mut(slot).value, value);
        self.drain();
        Ok(Done::Replaced(slot, key, old))
    }

    fn insert_new(
        &mut self,
        entry: &mut Option<(K, V)>,
        number: u64,
        hash: u64,
        write: Write,
    ) -> Result<Done<K, V>, TimedInsertError> {
        let slot = self.place(entry, number, hash)?;
        let inserted = self.put(number, slot, write);
        let done = match inserted {
            Ok(Inserted::Stored) => Ok(Done::New(slot)),
            Ok(Inserted::Rejected) => {
                let filled = self.vacate(slot);
                Ok(Done::Rejected(filled.key, filled.value))
            }
            Err(error) => {
                let filled = self.vacate(slot);
                *entry = Some((filled.key, filled.value));
                Err(error)
            }
        };
        self.drain();
        done
    }

    /// Evicts what is above the capacity, so that a write of an entry does not evict that entry first.
    /// Returns `false` if it was evicted. Only in a weighed cache entries can be above the capacity.
    fn settle(&mut self, number: u64, now: u64) -> bool {
        while self.is_weighed && self.numbers.weighted_size() > self.capacity {
            let is_there = self.numbers.contains(number, now);
            self.drain();
            if !is_there {
                return false;
            }
        }
        true
    }

    /// Inserts a slot under its number.
    fn put(&self, number: u64, slot: u32, write: Write) -> Result<Inserted, TimedInsertError> {
        let value = u64::from(write.weight) << 32 | u64::from(slot);
        match write.own {
            None => Ok(self.numbers.insert(number, value, write.now)?),
            Some(own) => self
                .numbers
                .insert_for(number, value, nanoseconds(own), write.now),
        }
    }

    /// Changes the value of the key's entry, and returns `true`, or `false` if the key has no unexpired
    /// entry. It is a write and an access, as an insert of the changed value. The change returns what
    /// the entry weighs then.
    pub(crate) fn modify<Q>(
        &mut self,
        key: &Q,
        hash: u64,
        now: u64,
        change: impl FnOnce(&K, &mut V) -> u32,
    ) -> Result<bool, TimedInsertError>
    where
        K: Borrow<Q>,
        Q: Eq + ?Sized,
    {
        let (number, slot) = match self.find(key, hash, now) {
            Found::Here { number, slot } => (number, slot),
            Found::Nowhere { .. } => return Ok(false),
        };
        if !self.settle(number, now) {
            return Ok(false);
        }
        let Filled { key, value, .. } = self.filled_mut(slot);
        let weight = change(key, value);
        let own = None;
        self.put(number, slot, Write { weight, own, now })?;
        self.drain();
        Ok(true)
    }

    /// Removes the entry of the key, and returns it unless it is expired.
    pub(crate) fn remove<Q>(&mut self, key: &Q, hash: u64, now: u64) -> Option<(K, V)>
    where
        K: Borrow<Q>,
        Q: Eq + ?Sized,
    {
        let number = self.find(key, hash, now).number();
        let slot = self.numbers.remove(number, now);
        let removed = slot.map(|slot| self.vacate(slot as u32));
        self.drain();
        removed.map(|filled| (filled.key, filled.value))
    }

    /// Removes the entry of the key, which leaves.
    pub(crate) fn invalidate<Q>(&mut self, key: &Q, hash: u64, now: u64)
    where
        K: Borrow<Q>,
        Q: Eq + ?Sized,
    {
        let number = self.find(key, hash, now).number();
        self.numbers.invalidate(number, now);
        self.drain();
    }

    /// Removes the entries for which the predicate returns `true`. It is asked for all entries first.
    pub(crate) fn invalidate_if(&mut self, mut predicate: impl FnMut(&K, &V) -> bool, now: u64) {
        let filled = self.slots.iter().filter_map(Slot::filled);
        let chosen = filled.filter(|filled| predicate(&filled.key, &filled.value));
        let numbers: Vec<u64> = chosen.map(|filled| filled.number).collect();
        for number in numbers {
            self.numbers.invalidate(number, now);
            self.drain();
        }
    }

    /// Removes all expired entries, also those behind unexpired ones.
    pub(crate) fn remove_expired(&mut self, now: u64) {
        if !self.expires {
            return;
        }
        let filled = self.slots.iter().filter_map(Slot::filled);
        let expired = filled.filter(|filled| self.numbers.peek(filled.number, now).is_none());
        // The queue may be too short for all of them at once.
        let numbers: Vec<u64> = expired.map(|filled| filled.number).collect();
        for number in numbers {
            self.numbers.invalidate(number, now);
            self.drain();
        }
    }

    /// Removes all entries.
    pub(crate) fn clear(&mut self) {
        self.numbers.clear();
        // The queue may be too short for all of them.
        while self.numbers.drain().is_some() {}
        self.displaced.clear();
        self.free = None;
        for slot in self.slots.drain(..) {
            if let Slot::Filled(Filled { key, value, .. }) = slot {
                let cause = Cause::Explicit;
                self.left.push_back(Left { key, value, cause });
            }
        }
    }

    /// Returns the slots of the unexpired entries, in the order of a walk.
    pub(crate) fn walk(&self, now: u64) -> Vec<u32> {
        let mut slots = Vec::with_capacity(self.len());
        self.numbers.begin_walk();
        while let Some((_, slot)) = self.numbers.step(now) {
            slots.push(slot as u32);
        }
        slots
    }

    /// Returns the key and the value of a filled slot.
    pub(crate) fn pair(&self, slot: u32) -> (&K, &V) {
        match self.slots[slot as usize].filled() {
            Some(filled) => (&filled.key, &filled.value),
            None => unreachable!("an entry is in a filled slot"),
        }
    }

    pub(crate) fn len(&self) -> usize {
        // A cache has at most 2,000,000,000 entries.
        self.numbers.len() as usize
    }

    pub(crate) fn weighted_size(&self) -> u64 {
        self.numbers.weighted_size()
    }

    pub(crate) fn window_capacity(&self) -> u64 {
        self.numbers.window_capacity()
    }

    /// Returns the counts. None of the entries that left is lost, whatever the library's queue had.
    pub(crate) fn statistics(&self) -> Statistics {
        Statistics {
            lost: 0,
            ..self.numbers.statistics()
        }
    }

    /// Finds the key, which doesn't count as an access.
    fn find<Q>(&self, key: &Q, hash: u64, now: u64) -> Found
    where
        K: Borrow<Q>,
        Q: Eq + ?Sized,
    {
        match self.numbers.peek(hash, now) {
            Some(slot) if self.has(slot as u32, key) => Found::Here {
                number: hash,
                slot: slot as u32,
            },
            None if self.displaced.is_empty() => Found::Nowhere { number: hash },
            _ => self.find_displaced(key, hash, now),
        }
    }

    #[cold]
    fn find_displaced<Q>(&self, key: &Q, hash: u64, now: u64) -> Found
    where
        K: Borrow<Q>,
        Q: Eq + ?Sized,
    {
        let displaced = self.displaced.get(&hash).into_iter().flatten();
        for &(number, slot) in displaced {
            if self.has(slot, key) {
                // An expired entry keeps its number, so that its key never has two entries.
                return match self.numbers.peek(number, now) {
                    Some(_) => Found::Here { number, slot },
                    None => Found::Nowhere { number },
                };
            }
        }
        let mut number = hash;
        while self.numbers.peek(number, now).is_some() {
            number = next_number(number);
        }
        Found::Nowhere { number }
    }

    /// Returns `true` if the slot has the entry of this key.
    fn has<Q>(&self, slot: u32, key: &Q) -> bool
    where
        K: Borrow<Q>,
        Q: Eq + ?Sized,
    {
        self.pair(slot).0.borrow() == key
    }

    fn filled_mut(&mut self, slot: u32) -> &mut Filled<K, V> {
        match &mut self.slots[slot as usize] {
            Slot::Filled(filled) => filled,
            Slot::Free(_) => unreachable!("an entry is in a filled slot"),
        }
    }

    /// Moves the entry into a free slot, if memory isn't refused.
    fn place(
        &mut self,
        entry: &mut Option<(K, V)>,
        number: u64,
        hash: u64,
    ) -> Result<u32, OutOfMemory> {
        if self.free.is_none() {
            self.slots.try_reserve(1)?;
            self.slots.push(Slot::Free(None));
            self.free = Some((self.slots.len() - 1) as u32);
        }
        let slot = match self.free {
            Some(slot) => slot,
            None => unreachable!("a slot is free"),
        };
        let (key, value) = taken(entry);
        let displaced_from = (number != hash).then_some(hash);
        let filled = Slot::Filled(Filled {
            key,
            value,
            number,
            displaced_from,
        });
        if let Slot::Free(next) = mem::replace(&mut self.slots[slot as usize], filled) {
            self.free = next;
        }
        if displaced_from.is_some() {
            self.displaced.entry(hash).or_default().push((number, slot));
        }
        Ok(slot)
    }

    /// Takes an entry out of its slot.
    fn vacate(&mut self, slot: u32) -> Filled<K, V> {
        let free = Slot::Free(self.free);
        match mem::replace(&mut self.slots[slot as usize], free) {
            Slot::Filled(filled) => {
                self.free = Some(slot);
                if let Some(hash) = filled.displaced_from {
                    self.forget(hash, slot);
                }
                filled
            }
            Slot::Free(_) => unreachable!("an entry is in a filled slot"),
        }
    }

    /// Takes an entry off the list of those whose number isn't their hash.
    #[cold]
    fn forget(&mut self, hash: u64, slot: u32) {
        if let Some(numbers) = self.displaced.get_mut(&hash) {
            numbers.retain(|(_, other)| *other != slot);
            if numbers.is_empty() {
                self.displaced.remove(&hash);
            }
        }
    }

    /// Drains what a call removed that only removes expired entries and those above the capacity.
    fn drain_removed(&mut self) {
        if self.expires || self.is_weighed {
            self.drain();
        }
    }

    /// Moves the entries that the proved cache has removed out of their slots.
    fn drain(&mut self) {
        let drained = self.drain_queue();
        if drained >= MOST_LEFT && self.is_weighed {
            self.find_lost();
        }
    }

    /// Moves the entries of the queue out of their slots, and counts them.
    fn drain_queue(&mut self) -> u64 {
        let mut drained = 0;
        while self.drain_one() {
            drained += 1;
        }
        drained
    }

    /// Takes what left next out of its slot, and returns `false` if there is none.
    fn drain_one(&mut self) -> bool {
        let Removed { value, cause, .. } = match self.numbers.drain() {
            Some(removed) => removed,
            None => return false,
        };
        // The caller of an update has the old value, and that of an insert the rejected entry.
        if !matches!(cause, Cause::Replaced | Cause::Rejected) {
            self.take_out(value as u32, cause);
        }
        true
    }

    /// Moves an entry that left out of its slot.
    fn take_out(&mut self, slot: u32, cause: Cause) {
        let Filled { key, value, .. } = self.vacate(slot);
        self.left.push_back(Left { key, value, cause });
    }

    /// Moves the entries out of their slots that left when the queue was full. They were evicted: what
    /// leaves for another cause in the same call is queued before.
    #[cold]
    fn find_lost(&mut self) {
        for slot in 0..self.slots.len() as u32 {
            let number = match self.slots[slot as usize].filled() {
                Some(filled) => filled.number,
                None => continue,
            };
            // At moment 0 no entry is expired, but one with a time to live of 0 of its own.
            match self.numbers.peek(number, 0) {
                Some(value) if value as u32 == slot => continue,
                Some(_) => {}
                None => {
                    self.numbers.invalidate(number, 0);
                    self.drain_queue();
                }
            }
            if self.slots[slot as usize].filled().is_some() {
                self.take_out(slot, Cause::Size);
            }
        }
    }
}

impl<K, V> Slot<K, V> {
    fn filled(&self) -> Option<&Filled<K, V>> {
        match self {
            Slot::Filled(filled) => Some(filled),
            Slot::Free(_) => None,
        }
    }
}

/// Takes the entry of an insert.
pub(crate) fn taken<K, V>(entry: &mut Option<(K, V)>) -> (K, V) {
    match entry.take() {
        Some(entry) => entry,
        None => unreachable!("there is an entry to insert"),
    }
}

#[cfg(test)]
mod tests {
    use super::*;
    use std::collections::HashSet;

    impl Table<u64, u64> {
        /// Checks that each entry has a slot and a number of its own, and each other slot is free.
        fn check(&self) {
            let filled = self.slots.iter().filter_map(Slot::filled);
            let filled: Vec<&Filled<u64, u64>> = filled.collect();
            assert_eq!(filled.len(), self.len());
            let numbers: HashSet<u64> = filled.iter().map(|filled| filled.number).collect();
            assert_eq!(numbers.len(), filled.len());
            let mut free = 0;
            let mut next = self.free;
            while let Some(slot) = next {
                free += 1;
                next = match self.slots[slot as usize] {
                    Slot::Free(next) => next,
                    Slot::Filled(_) => panic!("slot {slot} is free and filled"),
                };
            }
            assert_eq!(free + filled.len(), self.slots.len());
            self.check_displaced();
        }

        /// Checks that the list has the entries whose number isn't their hash, and no others.
        fn check_displaced(&self) {
            let mut listed = Vec::new();
            for (hash, numbers) in &self.displaced {
                assert!(!numbers.is_empty());
                listed.extend(numbers.iter().map(|(number, slot)| (*hash, *number, *slot)));
            }
            let mut displaced = Vec::new();
            for (at, slot) in self.slots.iter().enumerate() {
                if let Some((hash, filled)) = slot
                    .filled()
                    .and_then(|filled| Some((filled.displaced_from?, filled)))
                {
                    assert_ne!(hash, filled.number);
                    displaced.push((hash, filled.number, at as u32));
                }
            }
            listed.sort_unstable();
            displaced.sort_unstable();
            assert_eq!(listed, displaced);
        }
    }

    fn limits(max_capacity: u64, expires: bool) -> Limits {
        Limits {
            max_capacity: Some(max_capacity),
            time_to_live: expires.then(|| Duration::from_nanos(300)),
            time_to_idle: expires.then(|| Duration::from_nanos(200)),
            ..Limits::default()
        }
    }

    /// A write of a value, which is weighed in a weighed cache.
    fn at(value: u64, now: u64) -> Write {
        let weight = (value % 7) as u32;
        Write {
            weight,
            own: None,
            now,
        }
    }

    /// Makes a pseudorandom call on a key.
    fn call(table: &mut Table<u64, u64>, random: u64, key: u64, hash: u64, now: u64) {
        match random % 16 {
            0..=7 => drop(table.insert(&mut Some((key, random)), hash, at(random, now))),
            8 => drop(table.remove(&key, hash, now)),
            9 => table.invalidate(&key, hash, now),
            10 if random % 90 == 0 => table.clear(),
            11 if random % 9 == 0 => table.invalidate_if(|other, _| other % 5 == key % 5, now),
            12 => drop(table.contains(&key, hash, now)),
            _ => drop(table.get(&key, hash, now)),
        }
    }

    #[test]
    fn each_entry_has_a_slot_and_a_number_of_its_own() {
        let mut most_displaced = 0;
        for seed in 0..40u64 {
            let capacity = [1, 5, 50, 100][seed as usize % 4];
            let divisor = [1, 2, 3, 7, 40][seed as usize % 5];
            let expires = seed % 3 == 0;
            let mut limits = limits(capacity, expires);
            limits.is_weighed = seed % 5 == 4;
            let mut table = Table::open(&limits).unwrap();
            let (mut random, mut now) = (seed + 1, 0);
            for _ in 0..1500 {
                // Pseudorandom numbers, by xorshift.
                random ^= random << 13;
                random ^= random >> 7;
                random ^= random << 17;
                let mixed = random >> 20;
                now += mixed % 3;
                let moment = if mixed % 19 == 0 { now / 2 } else { now };
                let key = (mixed >> 8) % 150;
                call(&mut table, mixed >> 16, key, key % divisor, moment);
                table.left.clear();
                table.check();
                most_displaced = most_displaced.max(table.displaced.len());
            }
            // The slots of entries that left are filled again.
            assert!(expires || limits.is_weighed || table.slots.len() as u64 <= capacity + 1);
        }
        assert!(most_displaced > 5);
    }

    #[test]
    fn all_entries_may_leave_in_a_call() {
        let mut short = limits(60, true);
        short.time_to_live = Some(Duration::from_nanos(1));
        let mut table = Table::open(&short).unwrap();
        for key in 0..50 {
            assert!(table.insert(&mut Some((key, key)), key, at(key, 0)).is_ok());
        }
        assert_eq!(table.get(&0, 0, 1), None);
        assert_eq!((table.left.len(), table.len()), (50, 0));
        table.check();
    }

    #[test]
    fn entries_that_the_queue_lost_leave_too() {
        let mut limits = limits(5000, true);
        limits.is_weighed = true;
        let mut table = Table::open(&limits).unwrap();
        for key in 0..1500 {
            let insert = table.insert(&mut Some((key, key)), key, at(1, 0));
            assert!(insert.is_ok());
        }
        // All leave in a call. Then an entry comes back, one that is expired at once, and one of
        // another key that has the number of an entry that was lost.
        table.numbers.clear();
        let slot = table.place(&mut Some((9999, 0)), 1402, 1402).unwrap();
        assert!(table.put(1400, 1400, at(1, 0)).is_ok());
        assert!(table.put(1402, slot, at(1, 0)).is_ok());
        let own = Some(Duration::ZERO);
        assert!(table.put(1403, 1403, Write { own, ..at(1, 0) }).is_ok());
        table.drain();
        table.check();
        assert_eq!(
            (table.len(), table.pair(1400), table.pair(slot)),
            (2, (&1400, &1400), (&9999, &0))
        );
        let causes = table.left.iter().map(|left| left.cause);
        let queued = causes.clone().filter(|cause| *cause == Cause::Explicit);
        assert_eq!(queued.count() as u64, MOST_LEFT);
        assert_eq!(causes.filter(|cause| *cause == Cause::Expired).count(), 1);
        let mut keys: Vec<u64> = table.left.iter().map(|left| left.key).collect();
        keys.sort_unstable();
        let gone: Vec<u64> = (0..1500).filter(|key| *key != 1400).collect();
        assert_eq!(keys, gone);
    }

    #[test]
    fn memory_is_reserved_for_the_initial_capacity() {
        for initial_capacity in [1, 70] {
            let mut limits = limits(100, false);
            limits.initial_capacity = initial_capacity;
            let mut table = Table::open(&limits).unwrap();
            let reserved = table.slots.capacity();
            assert!(reserved > initial_capacity && reserved < initial_capacity + 20);
            for key in 0..initial_capacity as u64 {
                assert!(table.insert(&mut Some((key, key)), key, at(key, 0)).is_ok());
            }
            assert_eq!(table.slots.capacity(), reserved);
            table.clear();
            assert_eq!(table.slots.capacity(), reserved);
        }
    }
}
