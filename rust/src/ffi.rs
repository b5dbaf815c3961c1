//! The C interface (include/lomuveran.h). A slice crosses as a pointer and a length.

use crate::Refusal;

#[repr(C)]
pub struct Answer {
    pub number: usize,
    pub place: usize,
    pub count: usize,
}

impl Answer {
    /// The count of an accepted call.
    pub fn count(self) -> Result<usize, Refusal> {
        match self.number {
            0 => Ok(self.count),
            question => Err(Refusal { question, place: self.place }),
        }
    }
}

#[repr(C)]
pub struct Number {
    pub answer: Answer,
    pub value: usize,
    pub next: usize,
}

#[repr(C)]
pub struct Drawn {
    pub answer: Answer,
    pub used: usize,
}

#[repr(C)]
pub struct Report {
    pub answer: Answer,
    pub count: usize,
    pub least: i64,
    pub greatest: i64,
    pub sum: i64,
    pub mean: i64,
    pub remainder: i64,
}

#[repr(C)]
pub struct Record {
    pub answer: Answer,
    pub fixed: usize,
}

impl Record {
    /// The number of the record that an accepted call gives.
    pub fn fixed(self) -> Result<usize, Refusal> {
        self.answer.count().map(|_| self.fixed)
    }
}

/// Set, in either wiring.
pub type Set = unsafe extern "C" fn(*const u16, usize, *mut u8, usize, *mut u16, usize) -> Answer;
/// Mix or return, in either wiring.
pub type Move = unsafe extern "C" fn(usize, usize, *mut u8, usize, *const u8, usize, *mut u16, usize) -> Answer;
/// The converter, from either wiring.
pub type Convert = unsafe extern "C" fn(usize, *const u8, usize, *mut u8, usize) -> Answer;

extern "C" {
    pub fn lomuveran_switches(n: usize) -> Answer;
    pub fn lomuveran_entries(n: usize) -> Answer;
    pub fn lomuveran_control_bits(
        order: *const u16,
        order_len: usize,
        bits: *mut u8,
        bit_count: usize,
        log: *mut u16,
        log_words: usize,
    ) -> Answer;
    pub fn lomuveran_apply(
        n: usize,
        width: usize,
        blocks: *mut u8,
        block_bytes: usize,
        bits: *const u8,
        bit_count: usize,
        log: *mut u16,
        log_words: usize,
    ) -> Answer;
    pub fn lomuveran_apply_inverse(
        n: usize,
        width: usize,
        blocks: *mut u8,
        block_bytes: usize,
        bits: *const u8,
        bit_count: usize,
        log: *mut u16,
        log_words: usize,
    ) -> Answer;
    pub fn lomuveran_shuffle(n: usize, words: *const u32, word_count: usize, out: *mut u16, out_len: usize) -> Drawn;
    pub fn lomuveran_ranked_order(
        n: usize,
        r: usize,
        order: *mut u16,
        order_len: usize,
        bits: *mut u8,
        bit_count: usize,
        log: *mut u16,
        log_words: usize,
    ) -> Answer;
    pub fn lomuveran_neighbour_control_bits(
        order: *const u16,
        order_len: usize,
        bits: *mut u8,
        bit_count: usize,
        log: *mut u16,
        log_words: usize,
    ) -> Answer;
    pub fn lomuveran_neighbour_apply(
        n: usize,
        width: usize,
        blocks: *mut u8,
        block_bytes: usize,
        bits: *const u8,
        bit_count: usize,
        log: *mut u16,
        log_words: usize,
    ) -> Answer;
    pub fn lomuveran_neighbour_apply_inverse(
        n: usize,
        width: usize,
        blocks: *mut u8,
        block_bytes: usize,
        bits: *const u8,
        bit_count: usize,
        log: *mut u16,
        log_words: usize,
    ) -> Answer;
    pub fn lomuveran_to_neighbour(n: usize, given: *const u8, given_count: usize, out: *mut u8, out_count: usize) -> Answer;
    pub fn lomuveran_to_paper(n: usize, given: *const u8, given_count: usize, out: *mut u8, out_count: usize) -> Answer;
    pub fn lomuveran_write_sheet(n: usize, bits: *const u8, bit_count: usize, out: *mut u8, out_len: usize) -> Answer;
    pub fn lomuveran_read_sheet(input: *const u8, input_len: usize, bits: *mut u8, bit_count: usize) -> Answer;
    pub fn lomuveran_read_number(input: *const u8, input_len: usize, at: usize) -> Number;
    pub fn lomuveran_gauge_report(n: usize, width: usize, blocks: *const u8, block_bytes: usize, gauge: u16) -> Report;
    pub fn lomuveran_permutation_identity(entries: *mut u16, len: usize) -> Record;
    pub fn lomuveran_permutation_from_list(list: *const u16, len: usize) -> Record;
    pub fn lomuveran_permutation_exchange(entries: *mut u16, len: usize, fixed: usize, i: usize, j: usize) -> Record;
    pub fn lomuveran_permutation_combine(
        first: *mut u16,
        first_len: usize,
        first_fixed: usize,
        second: *const u16,
        second_len: usize,
        second_fixed: usize,
    ) -> Record;
    pub fn lomuveran_permutation_inverse(entries: *mut u16, len: usize, fixed: usize) -> Record;
    pub fn lomuveran_permutation_fixed_points(entries: *const u16, len: usize, fixed: usize) -> Answer;
}
