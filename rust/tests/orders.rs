//! Set, mix and return in both wirings against the second computation: outcomes, bits, blocks and logs, and all that lies around
//! them. Each log is also replayed from a drawn entry on.

mod common;

use common::plain::{self, Neighbour, Paper, Wiring};
use common::{all_orders, bytes, calls, replay, seen, words, Random, Tally};

/// The calls of a wiring on drawn memory, and what was compared.
struct Trial {
    wiring: Wiring,
    tally: Tally,
    random: Random,
}

fn trials(seed: u64) -> [Trial; 2] {
    [Paper, Neighbour].map(|wiring| Trial { wiring, tally: Tally::default(), random: Random(seed) })
}

impl Trial {
    /// One call of set. The buffers begin with other contents. Gives what is in the log.
    fn set(&mut self, order: &[u16], bits: usize, log: usize) -> Vec<u16> {
        let Trial { wiring, tally, random } = self;
        let must = plain::set(*wiring, order, bits, log);
        let (mut lent_bits, mut lent_log) = (bytes(&random.bytes(bits)), words(&random.words(log)));
        let mut lent_order = words(order);
        let (set, _) = calls(*wiring);
        let of = (*wiring, order);
        tally.outcome(seen(set(lent_order.part(), lent_bits.part(), lent_log.part())), plain::outcome(&must, |m| m.0), of);
        let (_, bits, log) = must.unwrap_or_default();
        lent_bits.check(tally, &bits, of);
        lent_log.check(tally, &log, of);
        lent_order.check(tally, &[], of);
        lent_log.part().to_vec()
    }

    /// The log of set replayed from a drawn entry on, over what the own entries before it leave.
    fn replays_set(&mut self, order: &[u16], log: &[u16]) {
        let Trial { wiring, tally, random } = self;
        let own = plain::set_entries(*wiring, order.len());
        let middle = random.below(own.len() + 1);
        let mut table = replay::Table::new(*wiring, order);
        table.run(&own[..middle]);
        table.run(&log.as_chunks().0[middle..]);
        tally.same(table.bits, plain::setting(*wiring, order), (*wiring, order, middle));
    }

    /// The log of mix, or of the return, replayed likewise on the blocks as they were: they end as the call left them.
    fn replays_move(&mut self, back: bool, n: usize, bits: &[u8], log: &[u16], [was, left]: [&[u8]; 2]) {
        let Trial { wiring, tally, random } = self;
        let (width, own) = (was.len() / n.max(1), plain::move_entries(*wiring, back, n));
        let middle = random.below(own.len() + 1);
        let mut blocks = was.to_vec();
        replay::moved(&own[..middle], bits, width, &mut blocks);
        replay::moved(&log.as_chunks().0[middle..], bits, width, &mut blocks);
        tally.same(&blocks[..], left, (*wiring, back, n, width, middle));
    }

    /// One call of mix and one of return, on the same memory.
    fn mix(&mut self, n: usize, width: usize, filled: usize, bits: &[u8], log: usize) {
        let Trial { wiring, tally, random } = self;
        for (back, call) in calls(*wiring).1.into_iter().enumerate() {
            let blocks = random.bytes(filled);
            let must = plain::mix(*wiring, back == 1, n, width, &blocks, bits, log);
            let (mut lent_blocks, mut lent_log) = (bytes(&blocks), words(&random.words(log)));
            let is = call(n, width, lent_blocks.part(), bits, lent_log.part());
            let of = (*wiring, back, n, width, filled, bits.len(), log);
            tally.outcome(seen(is), plain::outcome(&must, |m| m.0), of);
            let (_, blocks, log) = must.unwrap_or_default();
            lent_blocks.check(tally, &blocks, of);
            lent_log.check(tally, &log, of);
        }
    }

    /// An order carried whole: set, mixed as the order says, returned; and each of the logs replayed.
    fn carries(&mut self, order: &[u16], width: usize) {
        let (n, (w, e)) = (order.len(), counts(order.len()));
        let log = self.set(order, w, 4 * e);
        self.replays_set(order, &log);
        let of = (self.wiring, order);
        let bits = plain::setting(self.wiring, order);
        self.tally.same(&plain::carried(self.wiring, n, &bits)[..], order, "the second setter");
        let home = self.random.bytes(n * width);
        let mixed = plain::scattered(order, width, &home);
        let mut moved = bytes(&home);
        for (back, call) in calls(self.wiring).1.into_iter().enumerate() {
            let ends = if back == 1 { [&mixed[..], &home] } else { [&home[..], &mixed] };
            let log = &mut vec![0; 4 * w];
            self.tally.same(seen(call(n, width, moved.part(), &bits, log)), Ok(w), of);
            moved.check(&mut self.tally, ends[1], of);
            self.replays_move(back == 1, n, &bits, log, ends);
        }
    }

    fn say(&self, what: &str) {
        self.tally.say(&format!("outcomes and buffers of {what}, {:?} wiring", self.wiring));
    }
}

/// The switches and the setter's entries of n places, in either wiring.
fn counts(n: usize) -> (usize, usize) {
    (plain::switches(Paper, n).len(), plain::set_entries(Paper, n).len())
}

#[test]
fn every_order_of_up_to_eight_places() {
    for mut trial in trials(1) {
        for n in 0..9 {
            all_orders(n).iter().for_each(|order| trial.carries(order, 1));
        }
        trial.say("every order of up to 8 places");
    }
}

#[test]
fn every_setting_of_up_to_six_places() {
    for mut trial in trials(2) {
        for n in 0..7 {
            let (w, _) = counts(n);
            for number in 0..1usize << w {
                let bits: Vec<u8> = (0..w).map(|i| (number >> i & 1) as u8).collect();
                trial.mix(n, 2, 2 * n, &bits, 4 * w + number % 2);
            }
        }
        trial.say("every setting of up to 6 places");
    }
}

#[test]
fn orders_of_every_size() {
    for mut trial in trials(3) {
        for n in (0..=1024).step_by(3).chain([1, 2, 1021, 1022, 1023, 1024, 1024]) {
            let order = trial.random.order(n);
            let width = 1 + trial.random.below(if n < 100 { 256 } else { 24 });
            trial.carries(&order, width);
        }
        trial.carries(&(0..1024).collect::<Vec<u16>>(), 256);
        trial.carries(&(0..1024).rev().collect::<Vec<u16>>(), 256);
        trial.say("orders of 0 to 1,024 places");
    }
}

#[test]
fn refused_settings() {
    for mut trial in trials(4) {
        for round in 0..600 {
            let random = &mut trial.random;
            let n = if round % 10 == 0 { 1025 + random.below(2000) } else { random.size() };
            let (w, e) = counts(n.min(1024));
            let mut order = random.order(n);
            for _ in 0..random.below(4) {
                let at = random.below(n + 1).min(n.saturating_sub(1));
                let bad = if random.below(2) == 0 { random.below(n + 1) as u16 } else { random.word() as u16 };
                order.get_mut(at).into_iter().for_each(|x| *x = bad);
            }
            let bits = w.saturating_add_signed([0, 0, 0, 1, -1][random.below(5)]);
            let log = [4 * e, 4 * e, 4 * e + 1, 4 * e + 50, (4 * e).saturating_sub(1), 3 * e][random.below(6)];
            trial.set(&order, bits, log);
        }
        trial.tally.say_questions(&format!("outcomes and buffers of set, {:?} wiring", trial.wiring), &[0, 1, 4, 5, 6]);
    }
}

#[test]
fn refused_mixings() {
    for mut trial in trials(5) {
        for round in 0..600 {
            let random = &mut trial.random;
            let n = if round % 10 == 0 { 1025 + random.below(2000) } else { random.size() };
            let (w, _) = counts(n.min(1024));
            let mut bits: Vec<u8> = (0..w).map(|_| random.below(2) as u8).collect();
            for _ in 0..random.below(3) {
                let at = random.below(w + 1).min(w.saturating_sub(1));
                bits.get_mut(at).into_iter().for_each(|bit| *bit = random.word() as u8);
            }
            bits.resize(w.saturating_add_signed([0, 0, 0, 1, -1][random.below(5)]), 0);
            let width = [1, 2, 3, 7, 8, 16, 33, 256, 0, 257][random.below(10)];
            let filled = (n.min(1100) * width).saturating_add_signed([0, 0, 0, 1, -1][random.below(5)]);
            let log = [4 * w, 4 * w, 4 * w + 1, 4 * w + 50, (4 * w).saturating_sub(1), 3 * w][random.below(6)];
            trial.mix(n, width, filled, &bits, log);
        }
        for n in [usize::MAX, usize::MAX / 2 + 1, 1 << 32, 1025] {
            trial.mix(n, 1, 0, &[], 0);
            trial.mix(0, n, 0, &[], 0);
        }
        let what = format!("outcomes and buffers of mix and return, {:?} wiring", trial.wiring);
        trial.tally.say_questions(&what, &[0, 1, 2, 3, 4, 5, 7]);
    }
}
