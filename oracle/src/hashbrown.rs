//! A plain stand-in for the one type of the `hashbrown` crate that the compared code uses.
//!
//! Entries lie in buckets by their whole hash. A search looks only at the entries that were stored under the
//! hash it is given, oldest first, and asks the caller which of them is meant.

use std::collections::HashMap;

pub struct HashTable<T> {
    buckets: HashMap<u64, Vec<T>>,
}

impl<T> Default for HashTable<T> {
    fn default() -> Self {
        Self {
            buckets: HashMap::new(),
        }
    }
}

pub struct OccupiedEntry<'a, T> {
    bucket: &'a mut Vec<T>,
    place: usize,
}

impl<T> OccupiedEntry<'_, T> {
    pub fn remove(self) -> T {
        self.bucket.remove(self.place)
    }
}

pub struct AbsentEntry;

impl<T> HashTable<T> {
    pub fn find(&self, hash: u64, mut is_meant: impl FnMut(&T) -> bool) -> Option<&T> {
        self.buckets
            .get(&hash)?
            .iter()
            .find(|entry| is_meant(entry))
    }

    pub fn find_entry(
        &mut self,
        hash: u64,
        is_meant: impl FnMut(&T) -> bool,
    ) -> Result<OccupiedEntry<'_, T>, AbsentEntry> {
        let bucket = self.buckets.get_mut(&hash).ok_or(AbsentEntry)?;
        let place = bucket.iter().position(is_meant).ok_or(AbsentEntry)?;
        Ok(OccupiedEntry { bucket, place })
    }

    pub fn insert_unique(&mut self, hash: u64, entry: T, _rehash: impl Fn(&T) -> u64) {
        self.buckets.entry(hash).or_default().push(entry);
    }

    pub fn clear(&mut self) {
        self.buckets.clear();
    }
}
