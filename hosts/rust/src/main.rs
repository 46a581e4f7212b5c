//! The enumerating check: a host in Rust that holds what the C entries answer to the meaning alone. For random small books and
//! masks it spells out every code of the mask in every cut, runs each through the book, and holds every clause of demand 3, of
//! place, tidy and try to that. It shares no code with the product and does not go by the passes.
//!
//! In its names an automaton is document 01's book, and a word is a code.
//!
//!     enumerate           every case; the last line is 'N passed, 0 failed', where a case is a book and a mask
//!     enumerate SEED      the case of this seed alone

mod buffer;
mod check;
mod counts;
mod entries;
mod form;
mod meaning;
mod random;

use check::{Broken, Case, NONE};
use counts::Counts;
use form::{Automaton, Block, Word};
use random::Random;
use std::process::ExitCode;

const CASES: u64 = 20_000;

/// How many words are tried in each case beside the codes of the mask.
const OTHER_WORDS: usize = 8;

/// How many failures are named.
const NAMED: usize = 10;

/// Holds all that the entries answer for a book and a mask to what these mean, and counts the case.
fn hold_all(automaton: &Automaton, mask: &[Block], random: &mut Random, counts: &mut Counts) -> Result<(), Broken> {
    let case = Case::new(automaton, mask);
    let narrowed = case.narrow().map_err(|clause| format!("narrow: {clause}"))?;
    let again = match narrowed.verdict {
        NONE => None,
        _ => Some(Case::new(automaton, &narrowed.mask).narrow().map_err(|clause| format!("narrow, again: {clause}"))?),
    };
    case.tidy().map_err(|clause| format!("tidy: {clause}"))?;
    let codes: Vec<&Word> = case.meaning.codes.keys().collect();
    let others: Vec<Word> = (0..OTHER_WORDS).map(|_| random.word(automaton, &codes)).collect();
    for word in codes.into_iter().chain(&others) {
        case.try_word(word).map_err(|clause| format!("try: {clause}"))?;
    }
    counts.add(&case, &narrowed, again.as_ref(), &others);
    Ok(())
}

/// A book and a mask as tools/records reads them.
fn text(automaton: &Automaton, mask: &[Block]) -> String {
    let blocks: String = mask.iter().map(|block| format!("\n{block}")).collect();
    format!("{automaton}\nmask{blocks}")
}

fn main() -> ExitCode {
    let alone: Option<u64> = std::env::args().nth(1).map(|seed| seed.parse().expect("a seed is a number"));
    let (mut counts, mut passed, mut failed) = (Counts::new(), 0, 0);
    let mut shortest: Option<String> = None;
    for seed in alone.map_or(1..=CASES, |seed| seed..=seed) {
        let mut random = Random::new(seed);
        let automaton = random.automaton();
        let mask = random.mask(&automaton);
        let Err(clause) = hold_all(&automaton, &mask, &mut random, &mut counts) else {
            passed += 1;
            continue;
        };
        failed += 1;
        let said = format!("FAILED seed {seed}: {clause}");
        if failed <= NAMED {
            println!("{said}");
        }
        let said = format!("{said}\n{}", text(&automaton, &mask));
        shortest = shortest.filter(|other| other.len() <= said.len()).or(Some(said));
    }
    if let Some(said) = shortest {
        println!("the shortest that failed:\n{said}");
    }
    if alone.is_none() {
        failed += counts.end();
    }
    println!("{passed} passed, {failed} failed");
    ExitCode::from(u8::from(failed > 0))
}
