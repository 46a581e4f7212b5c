//! Holds what the entries answer to what a book and a mask mean.

use crate::buffer::Buffer;
use crate::entries::{self, ListBlock};
use crate::form::{cuts, is_normal, mask_record, normal_form, read_mask, text, Automaton, Block, Word};
use crate::meaning::{each_cut, Meaning, Shown};
use std::collections::BTreeSet;

/// In a buffer of so many bytes every answer has room.
const ROOM: usize = 6 + 12 * 1024;

pub const NONE: u32 = 1;
pub const ALL: u32 = 2;
pub const ONE: u32 = 3;
pub const SOME: u32 = 4;

/// Says which clause does not hold.
pub type Broken = String;

fn hold(holds: bool, clause: &str) -> Result<(), Broken> {
    holds.then_some(()).ok_or_else(|| clause.to_string())
}

/// Calls each entry on a buffer of its own; gives their numbers and what all these buffers then are.
fn call_each<E: Copy>(entries: &[E], room: usize, call: impl Fn(E, &mut [u8]) -> u32) -> Result<(Vec<u32>, Buffer), Broken> {
    let mut buffer = Buffer::new(room);
    let mut numbers = vec![call(entries[0], buffer.lent())];
    for entry in &entries[1..] {
        let mut other = Buffer::new(room);
        numbers.push(call(*entry, other.lent()));
        hold(other == buffer, "each call does the whole operation, its writing included")?;
    }
    Ok((numbers, buffer))
}

/// What an operation answers and writes: the entries' numbers, of which the refusal is the first and the bytes written the
/// last, and the bytes. It must be so in every buffer that has room for these, and 10 in others.
fn answered<E: Copy>(entries: &[E], call: impl Fn(E, &mut [u8]) -> u32) -> Result<(Vec<u32>, Vec<u8>), Broken> {
    let (numbers, buffer) = call_each(entries, ROOM, &call)?;
    hold(numbers[0] == 0, "what passes the checks is not refused")?;
    let need = numbers[numbers.len() - 1] as usize;
    let written = buffer.first(need).ok_or("no more bytes are written than there is room for")?;
    hold(buffer.is(written), "bytes outside the record keep their contents")?;
    for room in [need, need + 1, need + 40] {
        let (again, buffer) = call_each(entries, room, &call)?;
        hold(again == numbers && buffer.is(written), "every buffer that has room gets the same answer, and no other byte")?;
    }
    for room in [need.saturating_sub(1), need / 2, 0].into_iter().filter(|room| *room < need) {
        let (refused, buffer) = call_each(entries, room, &call)?;
        hold(refused[0] == 10, "10 where the buffer is shorter than the answer")?;
        hold(refused[1..].iter().all(|number| *number == 0), "the other numbers of a refused call are 0")?;
        hold(buffer.is(&[]), "a refusal touches no byte")?;
    }
    Ok((numbers, written.to_vec()))
}

/// What narrow answered: the verdict, the narrowed list, and the narrowed mask, which for none has no blocks.
pub struct Narrowed {
    pub verdict: u32,
    pub list: Vec<Block>,
    pub mask: Vec<Block>,
}

/// A book and a mask, what they mean, and their records.
pub struct Case<'a> {
    pub automaton: &'a Automaton,
    pub mask: &'a [Block],
    pub meaning: Meaning,
    book_record: Vec<u8>,
    mask_record: Vec<u8>,
}

impl Case<'_> {
    pub fn new<'a>(automaton: &'a Automaton, mask: &'a [Block]) -> Case<'a> {
        let meaning = Meaning::of(automaton, mask);
        Case { automaton, mask, meaning, book_record: automaton.record(), mask_record: mask_record(mask) }
    }

    /// The blocks of the mask, and what the cuts show of each.
    pub fn blocks(&self) -> impl Iterator<Item = (&Block, &Shown)> {
        self.mask.iter().zip(&self.meaning.blocks)
    }

    /// The codes of a mask that an answer is. It has no more cuts than the mask has, so that all can be spelled out.
    fn codes_of(&self, answer: &[Block]) -> Result<BTreeSet<Word>, Broken> {
        hold(cuts(answer) <= cuts(self.mask), "the answer has no more cuts than the mask")?;
        let mut codes = BTreeSet::new();
        each_cut(answer, &mut |word, _| {
            codes.insert(word.to_vec());
        });
        Ok(codes)
    }

    /// Demand 3, clause by clause, of what narrow, given the record or the list, and place answer.
    pub fn narrow(&self) -> Result<Narrowed, Broken> {
        let call = |entry, out: &mut [u8]| entries::narrow(entry, &self.book_record, &self.mask_record, out);
        let answer = answered(&entries::NARROW, call)?;
        let of_list = self.narrow_list().map_err(|clause| format!("from a list: {clause}"))?;
        hold(of_list == answer, "the list of the mask's blocks gets the same answer")?;
        let (numbers, written) = answer;
        let (verdict, legal) = (numbers[1], self.meaning.legal);
        hold((verdict == NONE) == (legal == 0), "none exactly when no code of the mask is legal")?;
        let all = legal > 0 && legal == self.meaning.codes.len();
        hold((verdict == ALL) == all, "all exactly when it has a code and all are legal")?;
        if verdict == NONE {
            hold(written.is_empty(), "none writes nothing")?;
            return Ok(Narrowed { verdict, list: self.places()?, mask: Vec::new() });
        }
        let mask = read_mask(&written).ok_or("what is written is a mask record")?;
        let codes = self.codes_of(&mask)?;
        let mut legal_codes = self.meaning.codes.iter().filter(|(_, legal)| **legal).map(|(word, _)| word);
        hold(legal_codes.all(|word| codes.contains(word)), "every legal code is still spelled")?;
        hold(codes.iter().all(|word| self.meaning.codes.contains_key(word)), "nothing new is spelled")?;
        let list = self.places()?;
        hold(is_normal(&mask), "the narrowed mask is in normal form")?;
        hold(mask == normal_form(&list), "the narrowed mask is the normal form of what place returns")?;
        let one = mask.iter().all(|block| block.set.count_ones() == 1 && block.lower == block.upper);
        let other = if one { ONE } else { SOME };
        hold(all || verdict == other, "one exactly when each block has one letter and l = u, else some")?;
        Ok(Narrowed { verdict, list, mask })
    }

    /// What the entries that take a list answer and write.
    fn narrow_list(&self) -> Result<(Vec<u32>, Vec<u8>), Broken> {
        let listed = |block: &Block| ListBlock { set: block.set, lower: block.lower as u16, upper: block.upper as u16 };
        let list: Vec<ListBlock> = self.mask.iter().map(listed).collect();
        answered(&entries::LIST, |entry, out| entries::narrow_list(entry, &self.book_record, &list, out))
    }

    /// What place returns, block by block, for places 1 to l and then 0, each held to the meaning.
    fn places(&self) -> Result<Vec<Block>, Broken> {
        let mut list = Vec::new();
        for (i, (block, shown)) in self.blocks().enumerate() {
            for place in (1..=block.lower).chain([0]) {
                let entry = self.place(i + 1, place)?;
                let held = match place {
                    _ if self.meaning.legal == 0 => hold(entry == Block::default(), "for none the empty set and bounds 0, 0"),
                    0 => self.hold_optional(block, shown, &entry),
                    _ => hold_mandatory(shown.places[place - 1], &entry),
                };
                held.map_err(|clause| format!("place {place} of block {}, {entry}: {clause}", i + 1))?;
                list.push(entry);
            }
        }
        Ok(list)
    }

    fn place(&self, block: usize, place: usize) -> Result<Block, Broken> {
        let numbers = entries::PLACE.map(|entry| entries::place(entry, &self.book_record, &self.mask_record, block, place));
        let set = entries::place(entries::PLACE_SET, &self.book_record, &self.mask_record, block, place);
        hold(numbers[0] == 0, "a place that the mask has is not refused")?;
        Ok(Block { set, lower: numbers[1] as usize, upper: numbers[2] as usize })
    }

    /// The bounds follow from the legal codes. Letters may stay that no legal code has there: step 4 says which.
    fn hold_optional(&self, block: &Block, shown: &Shown, entry: &Block) -> Result<(), Broken> {
        hold(shown.optional & !entry.set == 0, "a letter that some legal code, in some cut, has in the optional part stays")?;
        hold(entry.set == shown.staying(self.automaton, block), "the letters of the optional part are those of step 4")?;
        hold(entry.lower == shown.fewest, "its lower bound is the fewest letters that a legal code, in a cut, has there")?;
        hold(entry.upper == block.optional(), "its upper bound is u - l")
    }

    /// What tidy writes is the normal form and spells the same codes.
    pub fn tidy(&self) -> Result<(), Broken> {
        let (_, written) = answered(&entries::TIDY, |entry, out| entries::tidy(entry, &self.mask_record, out))?;
        let tidied = read_mask(&written).ok_or("what is written is a mask record")?;
        hold(is_normal(&tidied), "the tidied mask is in normal form")?;
        hold(self.codes_of(&tidied)?.iter().eq(self.meaning.codes.keys()), "it spells exactly the codes of the mask")?;
        hold(tidied == normal_form(self.mask), "blocks are dropped, then joined")
    }

    /// The two answers of try.
    pub fn try_word(&self, word: &[u8]) -> Result<(), Broken> {
        let numbers = entries::TRY.map(|entry| entries::try_word(entry, &self.book_record, &self.mask_record, word));
        let spelled = self.meaning.codes.contains_key(word);
        hold(numbers[0] == 0, "a code of the book's letters is not refused")
            .and(hold(numbers[1] == u32::from(spelled), "yes exactly when the mask spells the code"))
            .and(hold(numbers[2] == u32::from(self.automaton.accepts(word)), "yes exactly when the book accepts the code"))
            .map_err(|clause| format!("code '{}': {clause}", text(word)))
    }
}

fn hold_mandatory(legal: u64, entry: &Block) -> Result<(), Broken> {
    hold(entry.set == legal, "a letter stands in a mandatory place exactly when some legal code, in some cut, has it there")?;
    hold((entry.lower, entry.upper) == (1, 1), "a mandatory place has bounds 1, 1")
}
