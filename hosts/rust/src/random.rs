//! Random books and masks, small enough that every code can be spelled out in every cut. A case is made from its seed alone.

use crate::form::{cuts, letters, Automaton, Block, Word};

/// The most letters that a code of a mask may have.
const LONGEST: usize = 1024;

/// Splitmix.
pub struct Random(u64);

impl Random {
    pub fn new(seed: u64) -> Random {
        Random(seed)
    }

    fn number(&mut self) -> u64 {
        self.0 = self.0.wrapping_add(0x9E37_79B9_7F4A_7C15);
        let mixed = (self.0 ^ self.0 >> 30).wrapping_mul(0xBF58_476D_1CE4_E5B9);
        let mixed = (mixed ^ mixed >> 27).wrapping_mul(0x94D0_49BB_1331_11EB);
        mixed ^ mixed >> 31
    }

    pub fn below(&mut self, n: usize) -> usize {
        (self.number() % n as u64) as usize
    }

    fn one_in(&mut self, n: usize) -> bool {
        self.below(n) == 0
    }

    fn one_of<T: Copy>(&mut self, from: &[T]) -> T {
        from[self.below(from.len())]
    }

    /// Few states and letters, or the most; moves all there, or few; all states accepting, or one, some or none.
    pub fn automaton(&mut self) -> Automaton {
        let states = if self.one_in(12) { 63 } else { 1 + self.below(9) };
        let count = if self.one_in(12) { 64 } else { self.one_of(&[1, 2, 3, 3, 4, 4, 5]) };
        let gaps = self.one_of(&[0, 0, 1, 1, 2, 3]); // in five moves
        let start = self.below(states);
        let (chance, alone) = (self.one_of(&[0, 1, 2, 3, 3, 4]), self.below(states));
        let accepting = (0..states).map(|state| if chance == 0 { state == alone } else { self.below(4) < chance });
        let accepting = accepting.collect();
        let far = if self.one_in(2) { states.min(2) } else { states }; // how far a move may lead
        let mut to = |state| (self.below(5) >= gaps).then(|| (state + 1 + self.below(far)) % states);
        let moves = (0..states).map(|state| (0..count).map(|_| to(state)).collect()).collect();
        Automaton { letters: count, start, accepting, moves }
    }

    /// Up to four letters of the book, often its last.
    fn pool(&mut self, automaton: &Automaton) -> u64 {
        let first = if self.one_in(2) { automaton.letters - 1 } else { 0 };
        (0..3).fold(1 << first, |set, _| set | 1 << self.below(automaton.letters))
    }

    /// A set of letters of the pool: none, one, all, or any.
    fn set(&mut self, pool: u64) -> u64 {
        match self.below(24) {
            0 => 0,
            1..=4 => self.one_letter(pool),
            5..=11 => pool,
            _ => pool & self.number(),
        }
    }

    fn one_letter(&mut self, pool: u64) -> u64 {
        1 << self.one_of(&letters(pool).collect::<Vec<u8>>())
    }

    /// A mask for the book, mostly of small bounds, with at most some thousand cuts.
    pub fn mask(&mut self, automaton: &Automaton) -> Vec<Block> {
        match self.below(1000) {
            0 => self.blocks(automaton, 3, LONGEST, 1100),
            1..=50 => self.blocks(automaton, 4, 50, 2000),
            51..=100 => self.blocks(automaton, 8, 6, 3000),
            _ => self.blocks(automaton, 5, 3, 500),
        }
    }

    /// Fewer blocks than `most`, each of at most `longest` letters, that together have at most `limit` cuts. Bounds above 8
    /// are those of blocks with one letter.
    fn blocks(&mut self, automaton: &Automaton, most: usize, longest: usize, limit: u64) -> Vec<Block> {
        let pool = self.pool(automaton);
        let count = if self.one_in(30) { 0 } else { 1 + self.below(most - 1) };
        let mut mask: Vec<Block> = Vec::new();
        for _ in 0..count {
            let set = if longest > 8 { self.one_letter(pool) } else { self.set(pool) };
            let set = if !mask.is_empty() && self.one_in(6) { self.one_of(&mask).set } else { set };
            let left = LONGEST - mask.iter().map(|block| block.upper).sum::<usize>();
            let upper = self.below(longest + 1).min(left);
            let lower = if self.one_in(3) { upper } else { self.below(upper + 1) };
            mask.push(Block { set, lower, upper });
            while cuts(&mask) > limit {
                let last = mask.last_mut().expect("a block was pushed");
                last.upper -= 1;
                last.lower = last.lower.min(last.upper);
            }
        }
        mask
    }

    /// A word of the book's letters: a code of a mask with a letter put in, taken out or changed, or any.
    pub fn word(&mut self, automaton: &Automaton, codes: &[&Word]) -> Word {
        let letter = self.below(automaton.letters) as u8;
        if codes.is_empty() || self.one_in(4) {
            let length = if self.one_in(20) { self.below(LONGEST + 1) } else { self.below(8) };
            return (0..length).map(|_| self.below(automaton.letters) as u8).collect();
        }
        let mut word = self.one_of(codes).clone();
        let at = self.below(word.len() + 1);
        match self.below(3) {
            0 if word.len() < LONGEST => word.insert(at, letter),
            1 if at < word.len() => word[at] = letter,
            _ if at < word.len() => {
                word.remove(at);
            }
            _ => {}
        }
        word
    }
}
