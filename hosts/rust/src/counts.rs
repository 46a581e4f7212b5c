//! Counts what the cases were, so that the check can't come to check nothing: it fails where a kind of them is too seldom.

use crate::check::{Case, Narrowed, ALL, NONE, ONE, SOME};
use crate::form::{has_equal_neighbours, Automaton, Block, Word};

/// Every kind, and in how many cases it must arise at least.
const KINDS: [(&str, usize); 38] = [
    ("a book of one letter", 1_000),
    ("a book of 64 letters", 500),
    ("a book of 63 states", 500),
    ("a missing move", 5_000),
    ("no missing move", 2_000),
    ("an unreachable state", 2_000),
    ("a reachable state from which nothing is accepted", 1_000),
    ("no accepting state", 500),
    ("a mask of no blocks", 200),
    ("an empty set and l = 0", 500),
    ("an empty set and l > 0", 1_000),
    ("an upper bound of 0", 1_000),
    ("a lower bound of 0", 2_000),
    ("an upper bound above 30", 200),
    ("an upper bound above 255", 10),
    ("neighbours with equal sets", 1_000),
    ("neighbours with equal sets once what is between is dropped", 100),
    ("a mask without a code", 1_000),
    ("a code with several cuts", 1_000),
    ("a code that greedy matching misses", 1_000),
    ("the empty code", 1_000),
    ("the empty code among others, and legal", 500),
    ("verdict none", 2_000),
    ("verdict none, and a code", 2_000),
    ("verdict all", 2_000),
    ("verdict all, and several codes", 1_000),
    ("verdict one", 500),
    ("verdict some", 2_000),
    ("a mandatory place that lost a letter", 1_000),
    ("a mandatory place that lost a letter and kept several", 500),
    ("such a place behind the first block", 200),
    ("an optional part that lost a letter", 500),
    ("an optional part with a letter that no legal code has there", 100),
    ("an optional part with a raised lower bound", 200),
    ("a narrowed mask that is narrowed further", 100),
    ("a word that the mask does not spell", 5_000),
    ("a word that the book accepts and the mask does not spell", 5_000),
    ("a word longer than every code", 5_000),
];

/// Sums over all cases.
#[derive(Default)]
struct Sums {
    cuts: usize,
    codes: usize,
    legal: usize,
    places: usize,
    words: usize,
}

pub struct Counts {
    sums: Sums,
    kinds: [usize; KINDS.len()],
}

impl Counts {
    pub fn new() -> Counts {
        Counts { sums: Sums::default(), kinds: [0; KINDS.len()] }
    }

    /// Counts a case: what narrow answered, what it answered when its answer was narrowed again, and the other words tried.
    pub fn add(&mut self, case: &Case, narrowed: &Narrowed, again: Option<&Narrowed>, words: &[Word]) {
        self.sums.cuts += case.meaning.cuts;
        self.sums.codes += case.meaning.codes.len();
        self.sums.legal += case.meaning.legal;
        self.sums.places += narrowed.list.len();
        self.sums.words += words.len();
        self.book(case.automaton);
        self.mask(case.mask);
        self.codes(case);
        self.verdict(narrowed.verdict, case.meaning.codes.len());
        self.words(case, words);
        if let Some(again) = again {
            self.places(case);
            self.optional_parts(case, &narrowed.list);
            self.count("a narrowed mask that is narrowed further", again.mask != narrowed.mask);
        }
    }

    /// Prints the counts, and gives how many kinds were too seldom.
    pub fn end(&self) -> usize {
        let Sums { cuts, codes, legal, places, words } = self.sums;
        println!("{codes} codes in {cuts} cuts, {legal} legal; {places} places asked for; {words} other words tried");
        let mut failed = 0;
        for ((kind, least), count) in KINDS.iter().zip(self.kinds) {
            println!("{count:7} cases with {kind}");
            if count < *least {
                println!("FAILED {kind}: under {least} cases");
                failed += 1;
            }
        }
        failed
    }

    /// Counts the case in hand for a kind, if it is of it.
    fn count(&mut self, kind: &str, is_of_it: bool) {
        let at = KINDS.iter().position(|(name, _)| *name == kind).expect("a kind that is listed");
        self.kinds[at] += usize::from(is_of_it);
    }

    fn book(&mut self, automaton: &Automaton) {
        let gap = automaton.moves.iter().flatten().any(Option::is_none);
        let reached = spread(automaton, |state| state == automaton.start, |from, to, marked| marked[to] |= marked[from]);
        let alive = spread(automaton, |state| automaton.accepting[state], |from, to, marked| marked[from] |= marked[to]);
        self.count("a book of one letter", automaton.letters == 1);
        self.count("a book of 64 letters", automaton.letters == 64);
        self.count("a book of 63 states", automaton.states() == 63);
        self.count("a missing move", gap);
        self.count("no missing move", !gap);
        self.count("an unreachable state", reached.contains(&false));
        let stuck = reached.iter().zip(&alive).any(|(reached, alive)| *reached && !alive);
        self.count("a reachable state from which nothing is accepted", stuck);
        self.count("no accepting state", !automaton.accepting.contains(&true));
    }

    fn mask(&mut self, mask: &[Block]) {
        let mut some = |kind, is_of_it: fn(&Block) -> bool| self.count(kind, mask.iter().any(is_of_it));
        some("an empty set and l = 0", |block| block.set == 0 && block.lower == 0 && block.upper > 0);
        some("an empty set and l > 0", |block| block.set == 0 && block.lower > 0);
        some("an upper bound of 0", |block| block.upper == 0);
        some("a lower bound of 0", |block| block.lower == 0 && block.upper > 0);
        some("an upper bound above 30", |block| block.upper > 30);
        some("an upper bound above 255", |block| block.upper > 255);
        self.count("a mask of no blocks", mask.is_empty());
        let equal = has_equal_neighbours(mask);
        self.count("neighbours with equal sets", equal);
        let kept: Vec<Block> = mask.iter().filter(|block| !block.is_idle()).copied().collect();
        let closer = !equal && has_equal_neighbours(&kept);
        self.count("neighbours with equal sets once what is between is dropped", closer);
    }

    fn codes(&mut self, case: &Case) {
        let codes = &case.meaning.codes;
        self.count("a mask without a code", codes.is_empty());
        self.count("a code with several cuts", case.meaning.cuts > codes.len());
        self.count("a code that greedy matching misses", codes.keys().any(|word| !greedy(case.mask, word)));
        let empty = codes.get(&Vec::new());
        self.count("the empty code", empty.is_some());
        self.count("the empty code among others, and legal", codes.len() > 1 && empty == Some(&true));
    }

    fn verdict(&mut self, verdict: u32, codes: usize) {
        self.count("verdict none", verdict == NONE);
        self.count("verdict none, and a code", verdict == NONE && codes > 0);
        self.count("verdict all", verdict == ALL);
        self.count("verdict all, and several codes", verdict == ALL && codes > 1);
        self.count("verdict one", verdict == ONE);
        self.count("verdict some", verdict == SOME);
    }

    fn places(&mut self, case: &Case) {
        let (mut lost, mut several, mut behind) = (false, false, false);
        for (i, (block, shown)) in case.blocks().enumerate() {
            for set in shown.places.iter().filter(|set| **set != block.set) {
                lost = true;
                several |= set.count_ones() > 1;
                behind |= set.count_ones() > 1 && i > 0;
            }
        }
        self.count("a mandatory place that lost a letter", lost);
        self.count("a mandatory place that lost a letter and kept several", several);
        self.count("such a place behind the first block", behind);
    }

    fn optional_parts(&mut self, case: &Case, list: &[Block]) {
        let (mut lost, mut more, mut raised) = (false, false, false);
        let mut entries = list.iter();
        for (block, shown) in case.blocks() {
            let entry = entries.nth(block.lower).expect("the optional part stands behind the places");
            lost |= block.optional() > 0 && entry.set != block.set;
            more |= entry.set != shown.optional;
            raised |= entry.lower > 0;
        }
        self.count("an optional part that lost a letter", lost);
        self.count("an optional part with a letter that no legal code has there", more);
        self.count("an optional part with a raised lower bound", raised);
    }

    fn words(&mut self, case: &Case, words: &[Word]) {
        let codes = &case.meaning.codes;
        let longest = case.mask.iter().map(|block| block.upper).sum();
        let others: Vec<&Word> = words.iter().filter(|word| !codes.contains_key(*word)).collect();
        self.count("a word that the mask does not spell", !others.is_empty());
        let accepted = others.iter().any(|word| case.automaton.accepts(word));
        self.count("a word that the book accepts and the mask does not spell", accepted);
        self.count("a word longer than every code", words.iter().any(|word| word.len() > longest));
    }
}

/// Marks states to which, or from which, moves lead from the first ones.
fn spread(automaton: &Automaton, first: impl Fn(usize) -> bool, pass: impl Fn(usize, usize, &mut [bool])) -> Vec<bool> {
    let mut marked: Vec<bool> = (0..automaton.states()).map(first).collect();
    for _ in 0..automaton.states() {
        for (from, moves) in automaton.moves.iter().enumerate() {
            moves.iter().flatten().for_each(|to| pass(from, *to, &mut marked));
        }
    }
    marked
}

/// Whether the blocks match the word when each takes as many letters as it can.
fn greedy(mask: &[Block], word: &[u8]) -> bool {
    let mut left = word;
    mask.iter().all(|block| {
        let taken = left.iter().take(block.upper).take_while(|letter| block.set >> **letter & 1 == 1).count();
        left = &left[taken..];
        taken >= block.lower
    }) && left.is_empty()
}
