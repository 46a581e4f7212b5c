//! Automata (01's books) and dashed strings (its masks): their records, their text, and the normal form.

use std::fmt;

const SIGNS: &[u8; 64] = b"+-0123456789ABCDEFGHIJKLMNOPQRSTUVWXYZabcdefghijklmnopqrstuvwxyz";

/// One letter number a byte, as the entries take a code.
pub type Word = Vec<u8>;

/// At least `lower` and at most `upper` letters of `set`, which has bit c for letter c.
#[derive(Clone, Copy, Default, PartialEq)]
pub struct Block {
    pub set: u64,
    pub lower: usize,
    pub upper: usize,
}

impl Block {
    pub fn letters(self) -> impl Iterator<Item = u8> {
        letters(self.set)
    }

    /// How many letters its optional part may have.
    pub fn optional(self) -> usize {
        self.upper - self.lower
    }

    /// It spells the empty row alone, so that the normal form drops it.
    pub fn is_idle(self) -> bool {
        self.upper == 0 || self.set == 0 && self.lower == 0
    }

    /// How many rows it spells.
    fn rows(self) -> u64 {
        let of_length = |n: usize| u64::from(self.set.count_ones()).saturating_pow(n as u32);
        (self.lower..=self.upper).fold(0, |sum, n| sum.saturating_add(of_length(n)))
    }
}

pub fn letters(set: u64) -> impl Iterator<Item = u8> {
    (0..64).filter(move |c| set >> c & 1 == 1)
}

/// How many cuts a mask of these blocks has, where a block that spells nothing is passed over.
pub fn cuts(blocks: &[Block]) -> u64 {
    blocks.iter().fold(1, |product, block| product.saturating_mul(block.rows().max(1)))
}

/// The normal form: drops, then joins.
pub fn normal_form(blocks: &[Block]) -> Vec<Block> {
    let mut joined: Vec<Block> = Vec::new();
    for block in blocks.iter().filter(|block| !block.is_idle()) {
        match joined.last_mut() {
            Some(last) if last.set == block.set => {
                last.lower += block.lower;
                last.upper += block.upper;
            }
            _ => joined.push(*block),
        }
    }
    joined
}

/// No block is idle, and no two neighbours have equal sets.
pub fn is_normal(blocks: &[Block]) -> bool {
    !blocks.iter().any(|block| block.is_idle()) && !has_equal_neighbours(blocks)
}

pub fn has_equal_neighbours(blocks: &[Block]) -> bool {
    blocks.windows(2).any(|pair| pair[0].set == pair[1].set)
}

/// The mask record of these blocks.
pub fn mask_record(blocks: &[Block]) -> Vec<u8> {
    let two = |number: usize| (number as u16).to_le_bytes();
    let mut record = [two(6 + 12 * blocks.len()), two(2), two(blocks.len())].concat();
    for block in blocks {
        record.extend(block.set.to_le_bytes());
        record.extend(two(block.lower));
        record.extend(two(block.upper));
    }
    record
}

/// The blocks of a mask record, if these bytes are one.
pub fn read_mask(record: &[u8]) -> Option<Vec<Block>> {
    let two = |bytes: &[u8]| usize::from(bytes[0]) + 256 * usize::from(bytes[1]);
    if record.len() < 6 || two(record) != record.len() || two(&record[2..]) != 2 || record.len() != 6 + 12 * two(&record[4..]) {
        return None;
    }
    let set = |bytes: &[u8]| (0..8).map(|i| u64::from(bytes[i]) << (8 * i)).sum();
    let read = |bytes: &[u8]| Block { set: set(bytes), lower: two(&bytes[8..]), upper: two(&bytes[10..]) };
    let blocks: Vec<Block> = record[6..].chunks(12).map(read).collect();
    blocks.iter().all(|block| block.lower <= block.upper).then_some(blocks)
}

/// A deterministic automaton. `None` is the dead state, to which no move leads.
pub struct Automaton {
    pub letters: usize,
    pub start: usize,
    pub accepting: Vec<bool>,
    /// For each state, its moves by letter 0, 1 ...
    pub moves: Vec<Vec<Option<usize>>>,
}

impl Automaton {
    pub fn states(&self) -> usize {
        self.moves.len()
    }

    pub fn next(&self, state: Option<usize>, letter: u8) -> Option<usize> {
        self.moves[state?][usize::from(letter)]
    }

    /// The states that a word leads through, the start first.
    pub fn run(&self, word: &[u8]) -> Vec<Option<usize>> {
        let mut states = vec![Some(self.start)];
        for letter in word {
            states.push(self.next(states[states.len() - 1], *letter));
        }
        states
    }

    pub fn accepts(&self, word: &[u8]) -> bool {
        self.run(word)[word.len()].is_some_and(|state| self.accepting[state])
    }

    /// The book record.
    pub fn record(&self) -> Vec<u8> {
        let length = (15 + self.states() * self.letters) as u16;
        let mut record = [length.to_le_bytes(), 1u16.to_le_bytes()].concat();
        record.extend([self.states() as u8, self.letters as u8, self.start as u8]);
        let bits = (0..self.states()).map(|state| u64::from(self.accepting[state]) << state);
        record.extend(bits.sum::<u64>().to_le_bytes());
        record.extend(self.moves.iter().flatten().map(|to| to.map_or(255, |state| state as u8)));
        record
    }
}

/// The signs of a word's letters.
pub fn text(word: &[u8]) -> String {
    word.iter().map(|letter| SIGNS[usize::from(*letter)] as char).collect()
}

// Both are printed as the tool tools/records reads them.

impl fmt::Display for Automaton {
    fn fmt(&self, f: &mut fmt::Formatter) -> fmt::Result {
        write!(f, "book {} {}\nstart {}\naccept", self.states(), self.letters, self.start)?;
        for state in (0..self.states()).filter(|state| self.accepting[*state]) {
            write!(f, " {state}")?;
        }
        for (state, moves) in self.moves.iter().enumerate() {
            for (letter, to) in moves.iter().enumerate().filter_map(|(letter, to)| Some((letter, (*to)?))) {
                write!(f, "\n{state} {} {to}", SIGNS[letter] as char)?;
            }
        }
        Ok(())
    }
}

impl fmt::Display for Block {
    fn fmt(&self, f: &mut fmt::Formatter) -> fmt::Result {
        let signs = text(&self.letters().collect::<Vec<u8>>());
        write!(f, "{{{signs}}} {}-{}", self.lower, self.upper)
    }
}
