//! The fifteen entries of include/fekhvina.h, called on slices.

/// An entry that takes a book, a mask and an answer buffer.
pub type Narrow = unsafe extern "C" fn(*const u8, usize, *const u8, usize, *mut u8, usize) -> u32;

/// A block in a list, as the header's struct fekhvina_block.
#[repr(C)]
pub struct ListBlock {
    pub set: u64,
    pub lower: u16,
    pub upper: u16,
}

/// An entry that takes a book, a list of blocks and an answer buffer.
pub type List = unsafe extern "C" fn(*const u8, usize, *const ListBlock, usize, *mut u8, usize) -> u32;

/// An entry that takes a mask and an answer buffer.
pub type Tidy = unsafe extern "C" fn(*const u8, usize, *mut u8, usize) -> u32;

/// An entry that takes a book, a mask and a code.
pub type Try = unsafe extern "C" fn(*const u8, usize, *const u8, usize, *const u8, usize) -> u32;

/// An entry that takes a book, a mask, a block number and a place; T is u64 for the set, u32 for the others.
pub type Place<T> = unsafe extern "C" fn(*const u8, usize, *const u8, usize, u32, u32) -> T;

type Bytes = *const u8;
type Blocks = *const ListBlock;

extern "C" {
    fn fekhvina_narrow_refusal(book: Bytes, book_len: usize, mask: Bytes, mask_len: usize, out: *mut u8, out_len: usize)
        -> u32;
    fn fekhvina_narrow_verdict(book: Bytes, book_len: usize, mask: Bytes, mask_len: usize, out: *mut u8, out_len: usize)
        -> u32;
    fn fekhvina_narrow_bytes(book: Bytes, book_len: usize, mask: Bytes, mask_len: usize, out: *mut u8, out_len: usize) -> u32;
    fn fekhvina_narrow_list_refusal(book: Bytes, book_len: usize, list: Blocks, n: usize, out: *mut u8, out_len: usize) -> u32;
    fn fekhvina_narrow_list_verdict(book: Bytes, book_len: usize, list: Blocks, n: usize, out: *mut u8, out_len: usize) -> u32;
    fn fekhvina_narrow_list_bytes(book: Bytes, book_len: usize, list: Blocks, n: usize, out: *mut u8, out_len: usize) -> u32;
    fn fekhvina_tidy_refusal(mask: Bytes, mask_len: usize, out: *mut u8, out_len: usize) -> u32;
    fn fekhvina_tidy_bytes(mask: Bytes, mask_len: usize, out: *mut u8, out_len: usize) -> u32;
    fn fekhvina_place_refusal(book: Bytes, book_len: usize, mask: Bytes, mask_len: usize, block: u32, place: u32) -> u32;
    fn fekhvina_place_set(book: Bytes, book_len: usize, mask: Bytes, mask_len: usize, block: u32, place: u32) -> u64;
    fn fekhvina_place_lower(book: Bytes, book_len: usize, mask: Bytes, mask_len: usize, block: u32, place: u32) -> u32;
    fn fekhvina_place_upper(book: Bytes, book_len: usize, mask: Bytes, mask_len: usize, block: u32, place: u32) -> u32;
    fn fekhvina_try_refusal(book: Bytes, book_len: usize, mask: Bytes, mask_len: usize, code: Bytes, code_len: usize) -> u32;
    fn fekhvina_try_mask(book: Bytes, book_len: usize, mask: Bytes, mask_len: usize, code: Bytes, code_len: usize) -> u32;
    fn fekhvina_try_book(book: Bytes, book_len: usize, mask: Bytes, mask_len: usize, code: Bytes, code_len: usize) -> u32;
}

/// Refusal, verdict, bytes.
pub const NARROW: [Narrow; 3] = [fekhvina_narrow_refusal, fekhvina_narrow_verdict, fekhvina_narrow_bytes];

/// Refusal, verdict, bytes.
pub const LIST: [List; 3] = [fekhvina_narrow_list_refusal, fekhvina_narrow_list_verdict, fekhvina_narrow_list_bytes];

/// Refusal, bytes.
pub const TIDY: [Tidy; 2] = [fekhvina_tidy_refusal, fekhvina_tidy_bytes];

/// Refusal, lower bound, upper bound.
pub const PLACE: [Place<u32>; 3] = [fekhvina_place_refusal, fekhvina_place_lower, fekhvina_place_upper];

pub const PLACE_SET: Place<u64> = fekhvina_place_set;

/// Refusal, whether the mask spells the code, whether the book accepts it.
pub const TRY: [Try; 3] = [fekhvina_try_refusal, fekhvina_try_mask, fekhvina_try_book];

// The header asks of a host only that slices are valid and aligned and that the answer buffer overlaps no other: Rust's slices
// are so.

pub fn narrow(entry: Narrow, book: &[u8], mask: &[u8], out: &mut [u8]) -> u32 {
    unsafe { entry(book.as_ptr(), book.len(), mask.as_ptr(), mask.len(), out.as_mut_ptr(), out.len()) }
}

pub fn narrow_list(entry: List, book: &[u8], list: &[ListBlock], out: &mut [u8]) -> u32 {
    unsafe { entry(book.as_ptr(), book.len(), list.as_ptr(), list.len(), out.as_mut_ptr(), out.len()) }
}

pub fn tidy(entry: Tidy, mask: &[u8], out: &mut [u8]) -> u32 {
    unsafe { entry(mask.as_ptr(), mask.len(), out.as_mut_ptr(), out.len()) }
}

pub fn place<T>(entry: Place<T>, book: &[u8], mask: &[u8], block: usize, place: usize) -> T {
    unsafe { entry(book.as_ptr(), book.len(), mask.as_ptr(), mask.len(), block as u32, place as u32) }
}

pub fn try_word(entry: Try, book: &[u8], mask: &[u8], word: &[u8]) -> u32 {
    unsafe { entry(book.as_ptr(), book.len(), mask.as_ptr(), mask.len(), word.as_ptr(), word.len()) }
}
