//! Lists of keys.

/// A list of keys, as [`build`](crate::build) and [`Function::answers`](crate::Function::answers) take it: their bytes one after another, and
/// where each ends.
///
/// ```
/// use cmph::Keys;
///
/// let mut keys: Keys = "ant\nbee\n".lines().collect();
/// keys.push(b"cat");
/// assert_eq!(keys.bytes(), b"antbeecat");
/// assert_eq!(keys.ends(), [3, 6, 9]);
/// assert_eq!(keys.get(1), Some(&b"bee"[..]));
/// ```
#[derive(Clone, Debug, Default, PartialEq, Eq)]
pub struct Keys {
    bytes: Vec<u8>,
    ends: Vec<u64>,
}

impl Keys {
    /// A list without keys.
    pub const fn new() -> Keys {
        Keys {
            bytes: Vec::new(),
            ends: Vec::new(),
        }
    }

    /// Adds a key.
    pub fn push(&mut self, key: &[u8]) {
        self.bytes.extend_from_slice(key);
        self.ends.push(self.bytes.len() as u64);
    }

    /// The bytes of all keys, one after another.
    pub fn bytes(&self) -> &[u8] {
        &self.bytes
    }

    /// Where each key ends in the bytes.
    pub fn ends(&self) -> &[u64] {
        &self.ends
    }

    /// How many keys there are.
    pub fn len(&self) -> usize {
        self.ends.len()
    }

    /// Whether there are no keys.
    pub fn is_empty(&self) -> bool {
        self.ends.is_empty()
    }

    /// The key of an index, from 0, or none if there are not that many.
    pub fn get(&self, index: usize) -> Option<&[u8]> {
        let end = *self.ends.get(index)? as usize;
        let begin = match index {
            0 => 0,
            _ => self.ends[index - 1] as usize,
        };
        Some(&self.bytes[begin..end])
    }

    /// The keys in their order.
    pub fn iter(&self) -> impl Iterator<Item = &[u8]> {
        (0..self.len()).filter_map(|index| self.get(index))
    }
}

impl<K: AsRef<[u8]>> Extend<K> for Keys {
    fn extend<I: IntoIterator<Item = K>>(&mut self, keys: I) {
        for key in keys {
            self.push(key.as_ref());
        }
    }
}

impl<K: AsRef<[u8]>> FromIterator<K> for Keys {
    fn from_iter<I: IntoIterator<Item = K>>(keys: I) -> Keys {
        let mut made = Keys::new();
        made.extend(keys);
        made
    }
}
