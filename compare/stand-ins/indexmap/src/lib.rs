//! Stand-in for `indexmap`: a list of pairs in the order of insertion, searched from the front.

use std::borrow::Borrow;
use std::ops::Index;

#[derive(Clone, Debug)]
pub struct IndexMap<K, V>(Vec<(K, V)>);

impl<K, V> IndexMap<K, V> {
    pub fn new() -> Self {
        IndexMap(Vec::new())
    }

    pub fn is_empty(&self) -> bool {
        self.0.is_empty()
    }

    pub fn len(&self) -> usize {
        self.0.len()
    }

    pub fn iter(&self) -> impl Iterator<Item = (&K, &V)> {
        self.0.iter().map(|(key, value)| (key, value))
    }

    pub fn keys(&self) -> impl Iterator<Item = &K> {
        self.0.iter().map(|(key, _)| key)
    }

    pub fn values(&self) -> impl Iterator<Item = &V> {
        self.0.iter().map(|(_, value)| value)
    }

    pub fn truncate(&mut self, len: usize) {
        self.0.truncate(len)
    }

    pub fn get<Q: ?Sized + Eq>(&self, key: &Q) -> Option<&V>
    where
        K: Borrow<Q>,
    {
        self.0
            .iter()
            .find(|(own, _)| own.borrow() == key)
            .map(|(_, value)| value)
    }

    pub fn insert(&mut self, key: K, value: V) -> Option<V>
    where
        K: Eq,
    {
        for (own, old) in &mut self.0 {
            if *own == key {
                return Some(std::mem::replace(old, value));
            }
        }
        self.0.push((key, value));
        None
    }
}

impl<K, V> Default for IndexMap<K, V> {
    fn default() -> Self {
        IndexMap::new()
    }
}

impl<K: Borrow<Q>, V, Q: ?Sized + Eq> Index<&Q> for IndexMap<K, V> {
    type Output = V;
    fn index(&self, key: &Q) -> &V {
        self.get(key).expect("the key is in the map")
    }
}

impl<K: Eq, V> FromIterator<(K, V)> for IndexMap<K, V> {
    fn from_iter<I: IntoIterator<Item = (K, V)>>(pairs: I) -> Self {
        let mut map = IndexMap::new();
        for (key, value) in pairs {
            map.insert(key, value);
        }
        map
    }
}

impl<K, V> IntoIterator for IndexMap<K, V> {
    type Item = (K, V);
    type IntoIter = std::vec::IntoIter<(K, V)>;
    fn into_iter(self) -> Self::IntoIter {
        self.0.into_iter()
    }
}
