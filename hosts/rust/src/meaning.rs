//! What a book and a mask mean: every code of the mask in every cut, each run through the book from its start. Nothing here
//! goes from one set of states to the next, as the passes do: what is known of states is where those runs stood.

use crate::form::{Automaton, Block, Word};
use std::collections::BTreeMap;

/// Calls `each` with every code of the mask, in every cut: the word, and where each block's piece of it ends.
pub fn each_cut(mask: &[Block], each: &mut impl FnMut(&[u8], &[usize])) {
    spell(mask, &mut Vec::new(), &mut Vec::new(), each);
}

/// Goes on from a word whose pieces end at `ends`, the block in hand having the letters behind the last of these.
fn spell(mask: &[Block], word: &mut Word, ends: &mut Vec<usize>, each: &mut impl FnMut(&[u8], &[usize])) {
    let Some(block) = mask.get(ends.len()) else {
        return each(word, ends);
    };
    let taken = word.len() - ends.last().unwrap_or(&0);
    if taken >= block.lower {
        ends.push(word.len());
        spell(mask, word, ends, each);
        ends.pop();
    }
    if taken < block.upper {
        for letter in block.letters() {
            word.push(letter);
            spell(mask, word, ends, each);
            word.pop();
        }
    }
}

/// What the cuts show of one block.
pub struct Shown {
    /// For each mandatory place, the letters that some legal code, in some cut, has there.
    pub places: Vec<u64>,
    /// The letters that some legal code, in some cut, has in the optional part.
    pub optional: u64,
    /// The fewest letters that a legal code, in a cut, has in the optional part.
    pub fewest: usize,
    /// 01's R: the states in which some code stands, in some cut, behind the mandatory places and any letters of the
    /// optional part.
    reached: Vec<bool>,
    /// 01's E: the states in which some legal code stands, in some cut, behind the block.
    ended: Vec<bool>,
}

impl Shown {
    fn new(block: &Block, states: usize) -> Shown {
        let (places, reached, ended) = (vec![0; block.lower], vec![false; states], vec![false; states]);
        Shown { places, optional: 0, fewest: usize::MAX, reached, ended }
    }

    /// Takes in the piece of a cut, with the states before, between and behind its letters.
    fn see(&mut self, piece: &[u8], states: &[Option<usize>], legal: bool) {
        let lower = self.places.len();
        for state in states[lower..].iter().flatten() {
            self.reached[*state] = true;
        }
        if !legal {
            return;
        }
        for (place, letter) in self.places.iter_mut().zip(piece) {
            *place |= 1 << letter;
        }
        for letter in &piece[lower..] {
            self.optional |= 1 << letter;
        }
        self.fewest = self.fewest.min(piece.len() - lower);
        if let Some(state) = states[piece.len()] {
            self.ended[state] = true;
        }
    }

    /// The letters that stay in the optional part, by the words of step 4: c stays if some move by c goes from a state of R to
    /// a state q of R with b(q) + 1 <= u - l.
    pub fn staying(&self, automaton: &Automaton, block: &Block) -> u64 {
        let room = block.optional();
        let reached = |state: &usize| self.reached[*state];
        let stays = |letter: &u8| {
            let mut states = (0..automaton.states()).filter(reached);
            room > 0 && states.any(|state| self.goes_on(automaton, block, state, *letter, room - 1))
        };
        block.letters().filter(stays).fold(0, |set, letter| set | 1 << letter)
    }

    /// Whether the move by the letter goes to a state q of R with b(q) at most `most`.
    fn goes_on(&self, automaton: &Automaton, block: &Block, state: usize, letter: u8, most: usize) -> bool {
        let next = automaton.next(Some(state), letter);
        next.is_some_and(|q| self.reached[q] && self.leads(automaton, block, q, most))
    }

    /// Whether b(q) is at most `most`: that many letters of the block, or fewer, lead from q to E, passing only states of R.
    fn leads(&self, automaton: &Automaton, block: &Block, q: usize, most: usize) -> bool {
        self.ended[q] || most > 0 && block.letters().any(|letter| self.goes_on(automaton, block, q, letter, most - 1))
    }
}

pub struct Meaning {
    pub cuts: usize,
    /// Every code of the mask, and whether it is legal.
    pub codes: BTreeMap<Word, bool>,
    pub legal: usize,
    pub blocks: Vec<Shown>,
}

impl Meaning {
    pub fn of(automaton: &Automaton, mask: &[Block]) -> Meaning {
        let mut blocks: Vec<Shown> = mask.iter().map(|block| Shown::new(block, automaton.states())).collect();
        let mut codes = BTreeMap::new();
        let mut cuts = 0;
        each_cut(mask, &mut |word, ends| {
            cuts += 1;
            let states = automaton.run(word);
            let legal = automaton.accepts(word);
            let mut begin = 0;
            for (shown, end) in blocks.iter_mut().zip(ends) {
                shown.see(&word[begin..*end], &states[begin..=*end], legal);
                begin = *end;
            }
            codes.insert(word.to_vec(), legal);
        });
        let legal = codes.values().filter(|legal| **legal).count();
        Meaning { cuts, codes, legal, blocks }
    }
}
