//! A map that keeps insertion order: an overwrite keeps its place, and a record that is removed
//! and put back goes last. It has the methods of `HashMap` that the source calls, and remembers
//! how many records it held whenever one was added.

#[derive(Clone)]
pub struct HashMap<K, V> {
    rows: Vec<(K, V)>,
    held: Vec<usize>,
}

impl<K: PartialEq, V> HashMap<K, V> {
    pub fn new() -> Self {
        Self { rows: Vec::new(), held: Vec::new() }
    }

    pub fn insert(&mut self, k: K, v: V) {
        match self.rows.iter_mut().find(|r| r.0 == k) {
            Some(row) => row.1 = v,
            None => {
                self.held.push(self.rows.len());
                self.rows.push((k, v));
            }
        }
    }

    pub fn remove(&mut self, k: &K) -> Option<V> {
        let at = self.rows.iter().position(|r| r.0 == *k)?;
        Some(self.rows.remove(at).1)
    }

    pub fn clear(&mut self) {
        self.rows.clear();
    }

    pub fn get(&self, k: &K) -> Option<&V> {
        self.iter().find(|r| r.0 == k).map(|r| r.1)
    }

    pub fn get_mut(&mut self, k: &K) -> Option<&mut V> {
        self.rows.iter_mut().find(|r| r.0 == *k).map(|r| &mut r.1)
    }

    pub fn contains_key(&self, k: &K) -> bool {
        self.get(k).is_some()
    }

    pub fn iter(&self) -> impl Iterator<Item = (&K, &V)> {
        self.rows.iter().map(|(k, v)| (k, v))
    }

    pub fn values(&self) -> impl Iterator<Item = &V> {
        self.rows.iter().map(|(_, v)| v)
    }

    /// Forgets what was added before: a call begins.
    pub fn begin(&mut self) {
        self.held.clear();
    }

    /// Whether a record was added since `begin` where `room` of them stood already.
    pub fn passed(&self, room: usize) -> bool {
        self.held.iter().any(|&n| n >= room)
    }
}
