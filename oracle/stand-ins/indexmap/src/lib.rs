//! Stand-in: a map that keeps the order of insertion. Inserting under an old key keeps its place.

pub mod map {
    use std::collections::HashMap;
    use std::hash::{BuildHasher, Hash};

    #[derive(Clone, Debug)]
    pub struct IndexMap<K, V, S> {
        entries: Vec<(K, V)>,
        /// Where each key stands among the entries.
        places: HashMap<K, usize, S>,
    }

    impl<K, V, S: Default> Default for IndexMap<K, V, S> {
        fn default() -> Self {
            IndexMap {
                entries: Vec::new(),
                places: HashMap::default(),
            }
        }
    }

    impl<K: Clone + Eq + Hash, V, S: BuildHasher> IndexMap<K, V, S> {
        /// One entry needs no hash.
        fn place(&self, key: &K) -> Option<usize> {
            match &self.entries[..] {
                [] => None,
                [(only, _)] => (only == key).then_some(0),
                _ => self.places.get(key).copied(),
            }
        }

        pub fn len(&self) -> usize {
            self.entries.len()
        }

        pub fn is_empty(&self) -> bool {
            self.entries.is_empty()
        }

        pub fn iter(&self) -> impl Iterator<Item = (&K, &V)> {
            self.entries.iter().map(|(k, v)| (k, v))
        }

        pub fn get(&self, key: &K) -> Option<&V> {
            self.place(key).map(|at| &self.entries[at].1)
        }

        pub fn insert(&mut self, key: K, value: V) -> Option<V> {
            match self.place(&key) {
                Some(at) => Some(std::mem::replace(&mut self.entries[at].1, value)),
                None => {
                    self.push(key, value);
                    None
                }
            }
        }

        /// A key that is not there yet.
        fn push(&mut self, key: K, value: V) -> &mut V {
            self.places.insert(key.clone(), self.entries.len());
            self.entries.push((key, value));
            &mut self.entries.last_mut().expect("just pushed").1
        }

        pub fn entry(&mut self, key: K) -> Entry<'_, K, V, S> {
            match self.place(&key) {
                Some(index) => Entry::Occupied(OccupiedEntry {
                    entries: &mut self.entries,
                    index,
                }),
                None => Entry::Vacant(VacantEntry { map: self, key }),
            }
        }
    }

    impl<K, V, S> IntoIterator for IndexMap<K, V, S> {
        type Item = (K, V);
        type IntoIter = std::vec::IntoIter<(K, V)>;

        fn into_iter(self) -> Self::IntoIter {
            self.entries.into_iter()
        }
    }

    pub enum Entry<'a, K, V, S> {
        Occupied(OccupiedEntry<'a, K, V>),
        Vacant(VacantEntry<'a, K, V, S>),
    }

    pub struct OccupiedEntry<'a, K, V> {
        entries: &'a mut Vec<(K, V)>,
        index: usize,
    }

    impl<K, V> OccupiedEntry<'_, K, V> {
        pub fn get(&self) -> &V {
            &self.entries[self.index].1
        }

        pub fn get_mut(&mut self) -> &mut V {
            &mut self.entries[self.index].1
        }

        pub fn index(&self) -> usize {
            self.index
        }
    }

    pub struct VacantEntry<'a, K, V, S> {
        map: &'a mut IndexMap<K, V, S>,
        key: K,
    }

    impl<'a, K: Clone + Eq + Hash, V, S: BuildHasher> VacantEntry<'a, K, V, S> {
        pub fn index(&self) -> usize {
            self.map.entries.len()
        }

        pub fn insert(self, value: V) -> &'a mut V {
            self.map.push(self.key, value)
        }
    }
}

pub use map::IndexMap;
