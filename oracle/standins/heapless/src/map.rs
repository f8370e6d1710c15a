use core::fmt;
use core::hash::{Hash, Hasher};

/// Up to `N` (a power of two) entries, found by linear probing from the key's hash.
pub struct FnvIndexMap<K, V, const N: usize> {
    places: [Option<(K, V)>; N],
}

struct Fnv(u64);

impl Hasher for Fnv {
    fn write(&mut self, bytes: &[u8]) {
        for byte in bytes {
            self.0 = (self.0 ^ u64::from(*byte)).wrapping_mul(0x0100_0000_01b3);
        }
    }

    fn finish(&self) -> u64 {
        self.0
    }
}

impl<K, V, const N: usize> Default for FnvIndexMap<K, V, N> {
    fn default() -> Self {
        Self { places: [const { None }; N] }
    }
}

impl<K: Eq + Hash, V, const N: usize> FnvIndexMap<K, V, N> {
    const MASK: usize = {
        assert!(N.is_power_of_two());
        N - 1
    };

    /// Replaces the value of a key that stands; hands both back when the key is new and the map full.
    pub fn insert(&mut self, key: K, value: V) -> Result<Option<V>, (K, V)> {
        match self.place(&key) {
            Some(at) => Ok(self.places[at].replace((key, value)).map(|(_, old)| old)),
            None => Err((key, value)),
        }
    }

    pub fn get(&self, key: &K) -> Option<&V> {
        self.places[self.place(key)?].as_ref().map(|(_, value)| value)
    }

    pub fn get_mut(&mut self, key: &K) -> Option<&mut V> {
        let at = self.place(key)?;
        self.places[at].as_mut().map(|(_, value)| value)
    }

    pub fn remove(&mut self, key: &K) -> Option<V> {
        let at = self.place(key)?;
        let (_, value) = self.places[at].take()?;
        self.close_gap(at);
        Some(value)
    }

    pub fn retain(&mut self, mut keep: impl FnMut(&K, &mut V) -> bool) {
        let mut old = core::mem::take(self);
        for (key, mut value) in old.places.iter_mut().filter_map(Option::take) {
            if keep(&key, &mut value) {
                // As many places as before, so there is room.
                let _ = self.insert(key, value);
            }
        }
    }

    pub fn keys(&self) -> impl Iterator<Item = &K> {
        self.iter().map(|(key, _)| key)
    }

    pub fn iter(&self) -> impl Iterator<Item = (&K, &V)> {
        self.places.iter().flatten().map(|(key, value)| (key, value))
    }

    fn home(key: &K) -> usize {
        let mut hasher = Fnv(0xcbf2_9ce4_8422_2325);
        key.hash(&mut hasher);
        hasher.finish() as usize & Self::MASK
    }

    /// Where the key stands, else the first free place on its way, else none: the map is full of others.
    fn place(&self, key: &K) -> Option<usize> {
        let home = Self::home(key);
        (0..N).map(|step| (home + step) & Self::MASK).find(|at| match &self.places[*at] {
            None => true,
            Some((other, _)) => other == key,
        })
    }

    /// Moves later entries down so that no entry stands past a free place on its way.
    fn close_gap(&mut self, gap: usize) {
        for step in 1..N {
            let at = (gap + step) & Self::MASK;
            let Some((key, _)) = &self.places[at] else { return };
            let way = at.wrapping_sub(Self::home(key)) & Self::MASK;
            if way >= step {
                self.places[gap] = self.places[at].take();
                return self.close_gap(at);
            }
        }
    }
}

impl<K: fmt::Debug + Eq + Hash, V: fmt::Debug, const N: usize> fmt::Debug for FnvIndexMap<K, V, N> {
    fn fmt(&self, f: &mut fmt::Formatter<'_>) -> fmt::Result {
        f.debug_map().entries(self.iter()).finish()
    }
}
