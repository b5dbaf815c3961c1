//! What the tests share: a second, plainly written computation of every outcome (`plain`), logs replayed (`replay`), buffers with
//! guards, numbers that look random, and the count of what was compared.
#![allow(dead_code)] // each test program uses a part

pub mod plain;
pub mod replay;

use lomuveran::Refusal;
use plain::{Neighbour, Paper, Wiring};
use std::{collections::BTreeSet, fmt::Debug};

/// A count, or the question and the place of the refusal.
pub type Outcome = Result<usize, (usize, usize)>;

pub fn seen(result: Result<usize, Refusal>) -> Outcome {
    result.map_err(|refusal| (refusal.question, refusal.place))
}

pub type Set = fn(&[u16], &mut [u8], &mut [u16]) -> Result<usize, Refusal>;
pub type Move = fn(usize, usize, &mut [u8], &[u8], &mut [u16]) -> Result<usize, Refusal>;

/// The library's set, and its mix and return, in a wiring.
pub fn calls(wiring: Wiring) -> (Set, [Move; 2]) {
    match wiring {
        Paper => (lomuveran::control_bits, [lomuveran::apply, lomuveran::apply_inverse]),
        Neighbour => (lomuveran::neighbour_control_bits, [lomuveran::neighbour_apply, lomuveran::neighbour_apply_inverse]),
    }
}

/// Compares; counts what was compared, and keeps which questions refused (0: none did).
#[derive(Default)]
pub struct Tally(usize, BTreeSet<usize>);

impl Tally {
    #[track_caller]
    pub fn same<T: PartialEq + Debug>(&mut self, is: T, must: T, of: impl Debug) {
        self.0 += 1;
        assert!(is == must, "{of:?}:\n   is {is:?}\n must {must:?}");
    }

    #[track_caller]
    pub fn outcome(&mut self, is: Outcome, must: Outcome, of: impl Debug) {
        self.same(is, must, of);
        self.1.insert(must.map_or_else(|refused| refused.0, |_| 0));
    }

    pub fn say(&self, what: &str) {
        assert!(self.0 > 0, "nothing was compared");
        println!("compared {} {what}", self.0);
    }

    /// Every one of these questions must have refused a call, and no other.
    pub fn say_questions(&self, what: &str, questions: &[usize]) {
        assert!(self.1.iter().eq(questions), "refusals seen: {:?}, not {questions:?}", self.1);
        self.say(&format!("{what}; accepted, and refused by {:?}", &questions[1..]));
    }
}

const GUARD: usize = 64;

/// A part of a larger buffer: what lies before and behind it must stay as it is.
pub struct Lent<T>(Vec<T>, Vec<T>);

impl<T: Copy + PartialEq + Debug> Lent<T> {
    /// `items` between guards made by `guard`, which must differ from item to item as far as T allows.
    pub fn new(items: &[T], guard: impl Fn(usize) -> T) -> Lent<T> {
        let mut all: Vec<T> = (0..GUARD).map(&guard).collect();
        all.extend_from_slice(items);
        all.extend((GUARD..2 * GUARD).map(&guard));
        Lent(all.clone(), all)
    }

    pub fn part(&mut self) -> &mut [T] {
        let end = self.0.len() - GUARD;
        &mut self.0[GUARD..end]
    }

    /// The whole buffer is as it was lent, but for `written` over the front of the part.
    #[track_caller]
    pub fn check(&self, tally: &mut Tally, written: &[T], of: impl Debug) {
        let mut must = self.1.clone();
        must[GUARD..GUARD + written.len()].copy_from_slice(written);
        tally.same(&self.0, &must, of);
    }
}

pub fn bytes(items: &[u8]) -> Lent<u8> {
    Lent::new(items, |i| (i * 37 + 11) as u8)
}

pub fn words(items: &[u16]) -> Lent<u16> {
    Lent::new(items, |i| (i * 4099 + 257) as u16)
}

/// SplitMix64.
pub struct Random(pub u64);

impl Random {
    pub fn word(&mut self) -> u64 {
        self.0 = self.0.wrapping_add(0x9e37_79b9_7f4a_7c15);
        let z = (self.0 ^ (self.0 >> 30)).wrapping_mul(0xbf58_476d_1ce4_e5b9);
        let z = (z ^ (z >> 27)).wrapping_mul(0x94d0_49bb_1331_11eb);
        z ^ (z >> 31)
    }

    pub fn below(&mut self, n: usize) -> usize {
        (self.word() % n as u64) as usize
    }

    pub fn bytes(&mut self, n: usize) -> Vec<u8> {
        (0..n).map(|_| self.word() as u8).collect()
    }

    pub fn words(&mut self, n: usize) -> Vec<u16> {
        (0..n).map(|_| self.word() as u16).collect()
    }

    pub fn order(&mut self, n: usize) -> Vec<u16> {
        let mut order: Vec<u16> = (0..n as u16).collect();
        for i in (1..n).rev() {
            order.swap(i, self.below(i + 1));
        }
        order
    }

    /// One of the sizes at which a network changes its shape, or any up to 1,024.
    pub fn size(&mut self) -> usize {
        match self.below(4) {
            0 => self.below(20),
            1 => (1usize << self.below(11)).saturating_add_signed(self.below(3) as isize - 1).min(1024),
            _ => self.below(1025),
        }
    }
}

/// Every order of n places.
pub fn all_orders(n: usize) -> Vec<Vec<u16>> {
    let mut orders = vec![vec![]];
    for k in 0..n as u16 {
        let longer = orders
            .iter()
            .flat_map(|order: &Vec<u16>| (0..=order.len()).map(move |at| [&order[..at], &[k], &order[at..]].concat()));
        orders = longer.collect();
    }
    orders
}
