//! The neighbour wiring and the converter: the values of the request, conversions of every small setting and of drawn ones against
//! the second computation, refusals, and the owned settings.

mod common;

use common::plain::{self, Neighbour, Paper, Wiring};
use common::{all_orders, bytes, calls, seen, Random, Tally};
use lomuveran::{Entry, NeighbourSetting, Permutation, Setting};

/// The converter's calls from a wiring, on drawn memory, and what was compared.
struct Trial {
    from: Wiring,
    tally: Tally,
    random: Random,
}

fn trials(seed: u64) -> [Trial; 2] {
    [Paper, Neighbour].map(|from| Trial { from, tally: Tally::default(), random: Random(seed) })
}

impl Trial {
    /// One call. The bits to be written begin with other contents.
    fn convert(&mut self, from: Wiring, n: usize, given: &[u8], room: usize) -> Vec<u8> {
        let Trial { tally, random, .. } = self;
        let must = plain::convert(from, n, given, room);
        let (mut lent_given, mut out) = (bytes(given), bytes(&random.bytes(room)));
        let call = if from == Paper { lomuveran::to_neighbour } else { lomuveran::to_paper };
        let of = (from, n, given, room);
        tally.outcome(seen(call(n, lent_given.part(), out.part())), plain::outcome(&must, |_| 0), of);
        out.check(tally, must.as_ref().map_or(&[], |bits| &bits[..]), of);
        lent_given.check(tally, &[], of);
        out.part().to_vec()
    }

    /// Mixing by the given bits in one wiring and by the converted ones in the other leaves the same blocks.
    fn moves_alike(&mut self, n: usize, width: usize, given: &[u8], converted: &[u8]) {
        let blocks = self.random.bytes(n * width);
        let left = [(self.from, given), (self.from.other(), converted)].map(|(wiring, bits)| {
            let mut blocks = blocks.clone();
            calls(wiring).1[0](n, width, &mut blocks, bits, &mut vec![0; 4 * bits.len()]).unwrap();
            blocks
        });
        self.tally.same(&left[0], &left[1], (self.from, n, width, given));
    }

    /// Converted, and back: the first setting again exactly where it is the canonical one of its order. Whether it was.
    fn there_and_back(&mut self, n: usize, width: usize, given: &[u8]) -> bool {
        let from = self.from;
        let there = self.convert(from, n, given, given.len());
        self.moves_alike(n, width, given, &there);
        let back = self.convert(from.other(), n, &there, there.len());
        self.tally.same(&back, &plain::setting(from, &plain::carried(from, n, given)), (from, n, given));
        back == given
    }
}

fn digits(bits: &[u8]) -> String {
    bits.iter().map(|bit| char::from(b'0' + bit)).collect()
}

fn drawn_bits(random: &mut Random, n: usize) -> Vec<u8> {
    (0..plain::switches(Paper, n).len()).map(|_| random.below(2) as u8).collect()
}

#[test]
fn values_of_the_request() {
    let cases: [(&[u16], &str); 7] = [
        (&[1, 0], "1"),
        (&[1, 2, 0], "110"),
        (&[1, 3, 0, 2], "11001"),
        (&[1, 2, 3, 4, 0], "11110000"),
        (&[6, 2, 3, 7, 5, 1, 8, 0, 4], "001011111110001101100"),
        (&[0, 2, 1, 3, 4], "01000101"), // with the highest pair straight it would be 10001010
        (&[0, 3, 2, 1, 4], "00000100"),
    ];
    let mut tally = Tally::default();
    for (order, must) in cases {
        let setting = NeighbourSetting::control_bits(&Permutation::from_list(order).unwrap());
        tally.same(digits(setting.bits()), must.to_string(), order);
        tally.same(digits(&plain::setting(Neighbour, order)), must.to_string(), order);
    }
    let logs: [(usize, &[Entry]); 2] = [
        (3, &[[7, 0, 1, 0], [7, 0, 2, 1], [7, 0, 1, 2]]),
        (4, &[[7, 0, 1, 0], [7, 0, 2, 1], [7, 1, 3, 2], [7, 0, 1, 3], [7, 2, 3, 4]]),
    ];
    for (n, must) in logs {
        let setting = NeighbourSetting::from_bits(n, &vec![0; must.len()]).unwrap();
        tally.same(&setting.apply(1, &mut vec![0; n]).unwrap()[..], must, n);
    }
    let order = Permutation::from_list(cases[4].0).unwrap();
    let (setting, log) = NeighbourSetting::control_bits_logged(&order);
    let halved: Vec<_> = log.iter().filter(|entry| entry[0] == 5).map(|entry| (entry[1], entry[2], entry[3])).collect();
    let must = [(0, 9, 0), (0, 5, 4), (0, 3, 6), (0, 2, 7), (2, 2, 9), (1, 4, 12), (1, 2, 13), (3, 2, 14)];
    tally.same(&halved[..], &must, "the networks of 9 places");
    let mut blocks = *b"abcdefghi";
    setting.apply(1, &mut blocks).unwrap();
    tally.same(&blocks, b"hfbcieadg", "case h");
    tally.say("values of the request");
}

#[test]
fn every_setting_of_up_to_six_places() {
    for mut trial in trials(51) {
        let (mut settings, mut canonical) = (0, 0);
        for n in 0..7 {
            let w = plain::switches(Paper, n).len();
            for number in 0..1usize << w {
                let bits: Vec<u8> = (0..w).map(|i| (number >> i & 1) as u8).collect();
                settings += 1;
                canonical += trial.there_and_back(n, 1 + number % 3, &bits) as usize;
            }
        }
        trial.tally.same((settings, canonical), (2348, 874), "settings, and those that are canonical");
        trial.tally.say(&format!("conversions of every setting of up to 6 places, from the {:?} wiring", trial.from));
    }
}

#[test]
fn settings_of_every_size() {
    for mut trial in trials(52) {
        for n in (0..=1024).step_by(7).chain([1, 2, 511, 512, 513, 1022, 1023, 1024]) {
            let bits = drawn_bits(&mut trial.random, n);
            let width = 1 + trial.random.below(24);
            let came_back = trial.there_and_back(n, width, &bits);
            trial.tally.same(came_back && n > 100, false, (n, "drawn bits are not canonical"));
            let set = plain::setting(trial.from, &trial.random.order(n));
            let came_back = trial.there_and_back(n, width, &set);
            trial.tally.same(came_back, true, (n, "canonical bits come back"));
        }
        trial.tally.say(&format!("conversions of settings of 0 to 1,024 places, from the {:?} wiring", trial.from));
    }
}

/// Good and bad numbers for each question, all with all.
#[test]
fn refused_conversions() {
    for mut trial in trials(53) {
        for n in [0, 1, 2, 3, 5, 9, 33, 1000, 1024, 1025, 1 << 16, 1 << 32, usize::MAX] {
            let good = drawn_bits(&mut trial.random, n.min(1024));
            let due = good.len();
            for given in [due, due + 1, due.saturating_sub(1), 0] {
                for room in [due, due + 1, due.saturating_sub(1), 0] {
                    for bad in [0, 1, 2] {
                        let mut bits = good.clone();
                        bits.resize(given, 0);
                        for _ in 0..bad {
                            let at = trial.random.below(given + 1);
                            bits.get_mut(at).into_iter().for_each(|bit| *bit = trial.random.word() as u8);
                        }
                        trial.convert(trial.from, n, &bits, room);
                    }
                }
            }
        }
        let what = format!("outcomes and buffers of the converter from the {:?} wiring", trial.from);
        trial.tally.say_questions(&what, &[0, 1, 4, 7]);
    }
}

/// The owned values of an order: its settings in both wirings, and what each becomes in the other.
fn owned(tally: &mut Tally, random: &mut Random, order: &[u16]) {
    let n = order.len();
    let permutation = Permutation::from_list(order).unwrap();
    let (setting, log) = NeighbourSetting::control_bits_logged(&permutation);
    tally.same((setting.places(), setting.bits()), (n, &plain::setting(Neighbour, order)[..]), order);
    tally.same(&log, &plain::set_entries(Neighbour, n), order);
    tally.same(&setting, &NeighbourSetting::control_bits(&permutation), order);
    tally.same(&setting, &NeighbourSetting::from_bits(n, setting.bits()).unwrap(), order);
    let ours = Setting::control_bits(&permutation);
    tally.same(&setting.to_paper(), &ours, order);
    tally.same(&ours.to_neighbour(), &setting, order);
    let width = 1 + random.below(9);
    let home = random.bytes(n * width);
    let mut blocks = home.clone();
    tally.same(&setting.apply(width, &mut blocks).unwrap(), &plain::move_entries(Neighbour, false, n), order);
    tally.same(&blocks, &plain::scattered(order, width, &home), order);
    tally.same(&setting.apply_inverse(width, &mut blocks).unwrap(), &plain::move_entries(Neighbour, true, n), order);
    tally.same(&blocks, &home, order);
}

#[test]
fn owned_settings() {
    let (mut tally, mut random) = (Tally::default(), Random(54));
    for n in 0..7 {
        all_orders(n).iter().for_each(|order| owned(&mut tally, &mut random, order));
    }
    for n in [7, 8, 9, 16, 17, 100, 128, 513, 1000, 1023, 1024] {
        let order = random.order(n);
        owned(&mut tally, &mut random, &order);
    }
    tally.say("orders' settings in the neighbour wiring and in the paper's");
}

#[test]
fn owned_settings_refused() {
    let mut tally = Tally::default();
    let bits = [1, 1, 0];
    let setting = NeighbourSetting::from_bits(3, &bits).unwrap();
    for (n, bits, must) in [(1025, &bits[..], (1, 0)), (4, &bits[..], (4, 0)), (3, &[0, 1, 2][..], (7, 2))] {
        tally.same(seen(NeighbourSetting::from_bits(n, bits).map(|_| 0)), Err(must), (n, bits));
    }
    for (width, filled, must) in [(0, 0, (2, 0)), (257, 771, (2, 0)), (2, 5, (3, 0))] {
        let mut blocks = vec![7; filled];
        tally.same(seen(setting.apply(width, &mut blocks).map(|_| 0)), Err(must), (width, filled));
        tally.same(seen(setting.apply_inverse(width, &mut blocks).map(|_| 0)), Err(must), (width, filled));
        tally.same(blocks, vec![7; filled], (width, filled));
    }
    tally.same(format!("{setting:?}"), "NeighbourSetting { places: 3, .. }".to_string(), "no bit is shown");
    tally.say("refusals of the owned settings");
}
