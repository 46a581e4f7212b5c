//! An answer buffer in the middle of bytes that no call may touch.

/// How many bytes are looked at in front of the buffer, and how many behind it.
const AROUND: usize = 64;

#[derive(PartialEq)]
pub struct Buffer(Vec<u8>);

/// The byte that stands at an index before a call: no two neighbours are equal, and none is 0.
fn pattern(at: usize) -> u8 {
    (at * 37 % 251 + 1) as u8
}

impl Buffer {
    /// A buffer of so many bytes.
    pub fn new(room: usize) -> Buffer {
        Buffer((0..AROUND + room + AROUND).map(pattern).collect())
    }

    /// What a call is lent.
    pub fn lent(&mut self) -> &mut [u8] {
        let end = self.0.len() - AROUND;
        &mut self.0[AROUND..end]
    }

    /// Its first bytes, if it has so many.
    pub fn first(&self, count: usize) -> Option<&[u8]> {
        self.0[AROUND..self.0.len() - AROUND].get(..count)
    }

    /// Whether its first bytes are these, and all others, also around it, are as they were.
    pub fn is(&self, written: &[u8]) -> bool {
        let behind = AROUND + written.len();
        self.first(written.len()) == Some(written)
            && (0..AROUND).chain(behind..self.0.len()).all(|at| self.0[at] == pattern(at))
    }
}
