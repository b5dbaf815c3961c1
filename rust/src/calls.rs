//! The calls as they are: numbers and lent slices. A refused call leaves every lent slice as it was.

use crate::{ffi, Refusal};

// Set, mix or return, and the converter, in either wiring.

fn set(call: ffi::Set, order: &[u16], bits: &mut [u8], log: &mut [u16]) -> Result<usize, Refusal> {
    // SAFETY: each pointer goes with its slice's length, and the borrows keep the slices apart. The same holds below.
    unsafe { call(order.as_ptr(), order.len(), bits.as_mut_ptr(), bits.len(), log.as_mut_ptr(), log.len()) }.count()
}

fn moved(call: ffi::Move, n: usize, width: usize, blocks: &mut [u8], bits: &[u8], log: &mut [u16]) -> Result<usize, Refusal> {
    let (to, filled) = (blocks.as_mut_ptr(), blocks.len());
    // SAFETY: as above.
    unsafe { call(n, width, to, filled, bits.as_ptr(), bits.len(), log.as_mut_ptr(), log.len()) }.count()
}

fn converted(call: ffi::Convert, n: usize, given: &[u8], out: &mut [u8]) -> Result<usize, Refusal> {
    // SAFETY: as above.
    unsafe { call(n, given.as_ptr(), given.len(), out.as_mut_ptr(), out.len()) }.count()
}

/// How many switches n places have, and so how many bits a setting.
///
/// ```
/// assert_eq!(lomuveran::switches(9), Ok(21));
/// assert_eq!(lomuveran::switches(1025).unwrap_err().question, 1);
/// ```
pub fn switches(n: usize) -> Result<usize, Refusal> {
    // SAFETY: no memory is lent.
    unsafe { ffi::lomuveran_switches(n) }.count()
}

/// How many entries [`control_bits`] logs for n places; each is the four words of an [`Entry`](crate::Entry). [`apply`] and
/// [`apply_inverse`] log one entry for each switch.
///
/// ```
/// assert_eq!(lomuveran::entries(9), Ok(56));
/// ```
pub fn entries(n: usize) -> Result<usize, Refusal> {
    // SAFETY: no memory is lent.
    unsafe { ffi::lomuveran_entries(n) }.count()
}

/// The canonical setting of an order, a byte to a bit: `order[i]` is the place to which the block at place i goes. `bits` has
/// exactly as many bytes as there are switches. Questions 1, 4, 5, 6. Gives the number of entries logged.
///
/// ```
/// let (mut bits, mut log) = ([0; 3], [0; 44]);
/// assert_eq!(lomuveran::control_bits(&[1, 2, 0], &mut bits, &mut log), Ok(11));
/// assert_eq!(bits, [0, 1, 1]);
/// ```
pub fn control_bits(order: &[u16], bits: &mut [u8], log: &mut [u16]) -> Result<usize, Refusal> {
    set(ffi::lomuveran_control_bits, order, bits, log)
}

/// Moves n blocks of `width` bytes through the network, in place. Questions 1, 2, 3, 4, 5, 7. Gives the number of entries
/// logged.
///
/// ```
/// let (mut blocks, mut log) = (*b"abc", [0; 12]);
/// assert_eq!(lomuveran::apply(3, 1, &mut blocks, &[0, 1, 1], &mut log), Ok(3));
/// assert_eq!(&blocks, b"cab");
/// assert_eq!(log, [7, 0, 2, 0, 7, 0, 1, 1, 7, 0, 2, 2]);
/// ```
pub fn apply(n: usize, width: usize, blocks: &mut [u8], bits: &[u8], log: &mut [u16]) -> Result<usize, Refusal> {
    moved(ffi::lomuveran_apply, n, width, blocks, bits, log)
}

/// Moves them back. As [`apply`].
///
/// ```
/// let (mut blocks, mut log) = (*b"cab", [0; 12]);
/// assert_eq!(lomuveran::apply_inverse(3, 1, &mut blocks, &[0, 1, 1], &mut log), Ok(3));
/// assert_eq!(&blocks, b"abc");
/// assert_eq!(log, [7, 0, 2, 2, 7, 0, 1, 1, 7, 0, 2, 0]);
/// ```
pub fn apply_inverse(n: usize, width: usize, blocks: &mut [u8], bits: &[u8], log: &mut [u16]) -> Result<usize, Refusal> {
    moved(ffi::lomuveran_apply_inverse, n, width, blocks, bits, log)
}

/// What [`shuffle`] drew.
#[derive(Clone, Copy, Debug, PartialEq, Eq, Hash)]
pub struct Drawn {
    /// The places of the order: so many entries of `out` were written.
    pub count: usize,
    /// The words used, skipped ones included: another draw begins behind them.
    pub used: usize,
}

/// An order of n places from random words, over the front of `out`. Each place takes a word. With d places left, a word at or
/// above the largest multiple of d that doesn't exceed 2^32 is skipped and the next one tried, so that each of the d remainders
/// comes from equally many words. Any number of words may be lent: fewer than n never do, n + 64 do but for a chance below
/// 2^-1000. Refused by 18, nothing was drawn: lend the same words with more behind them. Questions 1, 13, 18.
///
/// ```
/// let mut order = [0; 3];
/// assert_eq!(lomuveran::shuffle(3, &[2, 1, 0], &mut order), Ok(lomuveran::Drawn { count: 3, used: 3 }));
/// assert_eq!(order, [2, 0, 1]);
/// let skipped = lomuveran::shuffle(3, &[u32::MAX, 2, 1, 0, 9], &mut order).unwrap();
/// assert_eq!((skipped.used, order), (4, [2, 0, 1]));
/// assert_eq!(lomuveran::shuffle(3, &[u32::MAX, 2, 1], &mut order).unwrap_err().question, 18);
/// ```
pub fn shuffle(n: usize, words: &[u32], out: &mut [u16]) -> Result<Drawn, Refusal> {
    // SAFETY: as above.
    let drawn = unsafe { ffi::lomuveran_shuffle(n, words.as_ptr(), words.len(), out.as_mut_ptr(), out.len()) };
    drawn.answer.count().map(|count| Drawn { count, used: drawn.used })
}

/// Of all orders of n places, at most [`MAX_LISTED`](crate::MAX_LISTED), in dictionary order, n! of them, the one of number r,
/// counted from 0, over the front of `order`; its setting and the log as [`control_bits`] leaves them. r is as secret as the
/// order. Questions 17, 14, 13, 4, 5. Gives the number of entries logged.
///
/// ```
/// let (mut order, mut bits, mut log) = ([9; 4], [0; 3], [0; 44]);
/// assert_eq!(lomuveran::ranked_order(3, 3, &mut order, &mut bits, &mut log), Ok(11));
/// assert_eq!(order, [1, 2, 0, 9]);
/// assert_eq!(bits, [0, 1, 1]);
/// assert_eq!(lomuveran::ranked_order(3, 6, &mut order, &mut bits, &mut log).unwrap_err().question, 14);
/// ```
pub fn ranked_order(n: usize, r: usize, order: &mut [u16], bits: &mut [u8], log: &mut [u16]) -> Result<usize, Refusal> {
    // SAFETY: as above.
    unsafe {
        ffi::lomuveran_ranked_order(
            n,
            r,
            order.as_mut_ptr(),
            order.len(),
            bits.as_mut_ptr(),
            bits.len(),
            log.as_mut_ptr(),
            log.len(),
        )
    }
    .count()
}

/// [`control_bits`] in the neighbour wiring: that of the bought archive, whose switches join neighbours. Questions and log as
/// there. A setting does not say which wiring it is of: [`NeighbourSetting`](crate::NeighbourSetting) keeps them apart.
///
/// ```
/// let (mut bits, mut log) = ([0; 3], [0; 44]);
/// assert_eq!(lomuveran::neighbour_control_bits(&[1, 2, 0], &mut bits, &mut log), Ok(11));
/// assert_eq!(bits, [1, 1, 0]);
/// ```
pub fn neighbour_control_bits(order: &[u16], bits: &mut [u8], log: &mut [u16]) -> Result<usize, Refusal> {
    set(ffi::lomuveran_neighbour_control_bits, order, bits, log)
}

/// [`apply`] in the neighbour wiring.
///
/// ```
/// let (mut blocks, mut log) = (*b"abc", [0; 12]);
/// assert_eq!(lomuveran::neighbour_apply(3, 1, &mut blocks, &[1, 1, 0], &mut log), Ok(3));
/// assert_eq!(&blocks, b"cab");
/// assert_eq!(log, [7, 0, 1, 0, 7, 0, 2, 1, 7, 0, 1, 2]);
/// ```
pub fn neighbour_apply(n: usize, width: usize, blocks: &mut [u8], bits: &[u8], log: &mut [u16]) -> Result<usize, Refusal> {
    moved(ffi::lomuveran_neighbour_apply, n, width, blocks, bits, log)
}

/// [`apply_inverse`] in the neighbour wiring.
///
/// ```
/// let (mut blocks, mut log) = (*b"cab", [0; 12]);
/// assert_eq!(lomuveran::neighbour_apply_inverse(3, 1, &mut blocks, &[1, 1, 0], &mut log), Ok(3));
/// assert_eq!(&blocks, b"abc");
/// ```
pub fn neighbour_apply_inverse(
    n: usize,
    width: usize,
    blocks: &mut [u8],
    bits: &[u8],
    log: &mut [u16],
) -> Result<usize, Refusal> {
    moved(ffi::lomuveran_neighbour_apply_inverse, n, width, blocks, bits, log)
}

/// From a setting of the paper's wiring the neighbour wiring's canonical setting of the same order, over all of `out`. Any bits
/// are taken, canonical or not; `given` and `out` have exactly as many bytes as there are switches. Questions 1, 4 of `given`,
/// 4 of `out`, 7. Keeps no log and gives 0.
///
/// ```
/// let mut out = [0; 3];
/// assert_eq!(lomuveran::to_neighbour(3, &[0, 1, 1], &mut out), Ok(0));
/// assert_eq!(out, [1, 1, 0]);
/// ```
pub fn to_neighbour(n: usize, given: &[u8], out: &mut [u8]) -> Result<usize, Refusal> {
    converted(ffi::lomuveran_to_neighbour, n, given, out)
}

/// The other way: from a setting of the neighbour wiring. As [`to_neighbour`].
///
/// ```
/// let mut out = [0; 3];
/// assert_eq!(lomuveran::to_paper(3, &[1, 1, 0], &mut out), Ok(0));
/// assert_eq!(out, [0, 1, 1]);
/// ```
pub fn to_paper(n: usize, given: &[u8], out: &mut [u8]) -> Result<usize, Refusal> {
    converted(ffi::lomuveran_to_paper, n, given, out)
}

/// The sheet of a setting, over the front of `out`. Questions 1, 4, 7, 13. Gives the number of bytes written.
///
/// ```
/// let mut out = [0; lomuveran::MAX_SHEET];
/// let count = lomuveran::write_sheet(3, &[0, 1, 1], &mut out).unwrap();
/// assert_eq!(out[..count], [1, 3, 6]);
/// ```
pub fn write_sheet(n: usize, bits: &[u8], out: &mut [u8]) -> Result<usize, Refusal> {
    // SAFETY: as above.
    unsafe { ffi::lomuveran_write_sheet(n, bits.as_ptr(), bits.len(), out.as_mut_ptr(), out.len()) }.count()
}

/// The setting of a sheet, over the front of `bits`. Questions 8, 9, 10; 8, 9, 1; 4; 8, 9 of each number; 11, 12. Gives n.
///
/// ```
/// let mut bits = [9; 4];
/// assert_eq!(lomuveran::read_sheet(&[1, 3, 6], &mut bits), Ok(3));
/// assert_eq!(bits, [0, 1, 1, 9]);
/// ```
pub fn read_sheet(input: &[u8], bits: &mut [u8]) -> Result<usize, Refusal> {
    // SAFETY: as above.
    unsafe { ffi::lomuveran_read_sheet(input.as_ptr(), input.len(), bits.as_mut_ptr(), bits.len()) }.count()
}

/// A number of a sheet, and the place after it.
#[derive(Clone, Copy, Debug, PartialEq, Eq)]
pub struct Number {
    /// The number.
    pub value: usize,
    /// The place after it.
    pub next: usize,
}

/// The number of one or two bytes at a place of the input. Questions 8, 9.
///
/// ```
/// let number = lomuveran::read_number(&[1, 0x88, 0x2f], 1).unwrap();
/// assert_eq!((number.value, number.next), (6024, 3));
/// ```
pub fn read_number(input: &[u8], at: usize) -> Result<Number, Refusal> {
    // SAFETY: as above.
    let ffi::Number { answer, value, next } = unsafe { ffi::lomuveran_read_number(input.as_ptr(), input.len(), at) };
    answer.count().map(|_| Number { value, next })
}

/// What the readings of a gauge come to, in microstrain. All six are 0 where there is none.
#[derive(Clone, Copy, Debug, Default, PartialEq, Eq)]
pub struct Figures {
    /// How many readings there are.
    pub count: usize,
    /// The least of them.
    pub least: i64,
    /// The greatest.
    pub greatest: i64,
    /// Their sum.
    pub sum: i64,
    /// The sum divided by the count, rounded towards minus infinity.
    pub mean: i64,
    /// What the sum has beyond the mean times the count.
    pub remainder: i64,
}

/// The figures of a gauge in n blocks as they lie, mixed or at home. A block is 6 bytes: a gauge number of 16 bits and a reading
/// in microstrain of 32 bits with a sign, low byte first in both. Questions 1, 2 (is the width 6?), 3.
///
/// ```
/// // gauge 7 reads -1, gauge 513 reads 2, gauge 7 reads -2
/// let blocks = [7, 0, 255, 255, 255, 255, 1, 2, 2, 0, 0, 0, 7, 0, 254, 255, 255, 255];
/// let figures = lomuveran::gauge_report(3, 6, &blocks, 7).unwrap();
/// assert_eq!((figures.count, figures.least, figures.greatest), (2, -2, -1));
/// assert_eq!((figures.sum, figures.mean, figures.remainder), (-3, -2, 1));
/// assert_eq!(lomuveran::gauge_report(3, 6, &blocks, 8), Ok(lomuveran::Figures::default()));
/// ```
pub fn gauge_report(n: usize, width: usize, blocks: &[u8], gauge: u16) -> Result<Figures, Refusal> {
    // SAFETY: as above.
    let report = unsafe { ffi::lomuveran_gauge_report(n, width, blocks.as_ptr(), blocks.len(), gauge) };
    let ffi::Report { answer, count, least, greatest, sum, mean, remainder } = report;
    answer.count().map(|_| Figures { count, least, greatest, sum, mean, remainder })
}
