//! Logs replayed from any entry on: what is done follows from the state that is left there and from the words of the entries, no
//! matter which came before. The steps are the scope document's.

use super::plain::{networks, switches, Entry, Wiring};
use std::collections::BTreeMap;

/// The switches of a log of mix or return on the blocks, each under the bit that its entry names.
pub fn moved(log: &[Entry], bits: &[u8], width: usize, blocks: &mut [u8]) {
    for [kind, lower, upper, bit] in log {
        assert_eq!(*kind, 7);
        let (low, high) = blocks.split_at_mut(*upper as usize * width);
        if bits[*bit as usize] == 1 {
            low[*lower as usize * width..][..width].swap_with_slice(&mut high[..width]);
        }
    }
}

/// The setter's hidden table, and the bits.
pub struct Table {
    wiring: Wiring,
    networks: BTreeMap<(u16, u16), Vec<usize>>, // by start and size
    values: Vec<usize>,
    trails: Vec<usize>,
    marks: Vec<bool>,
    pub bits: Vec<u8>,
    f: usize,
    c: usize,
    g: usize,
    s: usize,
}

impl Table {
    pub fn new(wiring: Wiring, order: &[u16]) -> Table {
        let n = order.len();
        let named = networks(wiring, n).into_iter().map(|places| ((places[0] as u16, places.len() as u16), places));
        Table {
            wiring,
            networks: named.collect(),
            values: order.iter().map(|v| *v as usize).collect(),
            trails: vec![0; n],
            marks: vec![false; n],
            bits: vec![0; switches(wiring, n).len()],
            f: 0,
            c: 0,
            g: 0,
            s: 0,
        }
    }

    pub fn run(&mut self, log: &[Entry]) {
        for [kind, start, size, bit] in log {
            let places = self.networks[&(*start, *size)].clone();
            self.step(*kind, &places, *bit as usize);
        }
    }

    fn step(&mut self, kind: u16, places: &[usize], bit: usize) {
        let (wiring, m, k) = (self.wiring, places.len(), places.len().div_ceil(2));
        match kind {
            1 => {
                if !self.marks.contains(&true) {
                    (self.f, self.c) = (wiring.place(k, k - 1, true), wiring.place(k, k - 1, true));
                }
                self.g = places.get(self.f).map_or(m, |place| self.values[*place]);
            }
            2 => {
                let associate = self.other(k, self.g);
                self.s = places.iter().position(|place| self.values[*place] == associate).unwrap_or(m);
            }
            3 => self.mark(k, bit),
            4 => {
                self.act(places, bit, k - 1);
                self.marks.fill(false);
            }
            5 => places.iter().for_each(|place| {
                let (pair, top) = wiring.pair(k, self.values[*place]);
                self.values[*place] = pair;
                self.trails[*place] = 2 * self.trails[*place] + !top as usize;
            }),
            6 => self.leave(places, bit + switches(wiring, m).len() - (m - k)),
            _ => panic!("kind {kind} is none of set"),
        }
    }

    fn other(&self, k: usize, x: usize) -> usize {
        let (pair, top) = self.wiring.pair(k, x);
        self.wiring.place(k, pair, !top)
    }

    fn mark(&mut self, k: usize, bit: usize) {
        let (pair, top) = self.wiring.pair(k, self.s);
        if pair < k - 1 {
            self.bits[bit + pair] = top as u8;
        }
        self.marks[pair] = true;
        self.f = self.other(k, self.s);
        let unmarked = self.marks[..k].iter().position(|mark| !mark);
        if let (true, Some(low)) = (self.f == self.c, unmarked) {
            (self.f, self.c) = (self.wiring.place(k, low, true), self.wiring.place(k, low, true));
        }
    }

    /// The first switches of a layer, whose bits begin at `bit`.
    fn act(&mut self, places: &[usize], bit: usize, count: usize) {
        let k = places.len().div_ceil(2);
        for pair in (0..count).filter(|pair| self.bits[bit + pair] == 1) {
            let [a, b] = [true, false].map(|top| places[self.wiring.place(k, pair, top)]);
            self.values.swap(a, b);
            self.trails.swap(a, b);
        }
    }

    /// Step 6, whose output bits begin at `bit`.
    fn leave(&mut self, places: &[usize], bit: usize) {
        let (m, k) = (places.len(), places.len().div_ceil(2));
        for pair in 0..m - k {
            self.bits[bit + pair] = (self.trails[places[self.wiring.place(k, pair, true)]] % 2) as u8;
        }
        self.act(places, bit, m - k);
        for place in places {
            self.values[*place] = self.wiring.place(k, self.values[*place], self.trails[*place] % 2 == 0);
            self.trails[*place] /= 2;
        }
    }
}
