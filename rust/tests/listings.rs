//! Listed orders against an own listing: all orders of a few places, sorted, with the settings and logs of the second setter.

mod common;

use common::{bytes, plain, plain::Paper, seen, words, Random, Tally};
use lomuveran::{Permutation, Setting};

/// One call. `listed` is the own listing of n places; the buffers begin with other contents.
fn rank(tally: &mut Tally, random: &mut Random, listed: &[Vec<u16>], n: usize, r: usize, [list, bits, log]: [usize; 3]) {
    let must = plain::ranked(listed, n, r, list, bits, log);
    let (mut order, mut lent_bits) = (words(&random.words(list)), bytes(&random.bytes(bits)));
    let mut lent_log = words(&random.words(log));
    let of = (n, r, list, bits, log);
    let is = lomuveran::ranked_order(n, r, order.part(), lent_bits.part(), lent_log.part());
    tally.outcome(seen(is), plain::outcome(&must, |m| m.1 .0), of);
    let (written, (_, bits, log)) = must.unwrap_or_default();
    order.check(tally, &written, of);
    lent_bits.check(tally, &bits, of);
    lent_log.check(tally, &log, of);
}

/// The entries of the order's list, the bits and the words of the log that n places need.
fn needs(n: usize) -> [usize; 3] {
    [n, plain::switches(Paper, n).len(), 4 * plain::set_entries(Paper, n).len()]
}

#[test]
fn every_listed_order() {
    let (mut tally, mut random) = (Tally::default(), Random(41));
    for n in 0..=lomuveran::MAX_LISTED {
        let listed = plain::listing(n);
        let [list, bits, log] = needs(n);
        for r in 0..listed.len() {
            rank(&mut tally, &mut random, &listed, n, r, [list, bits, log]);
            let more = [list + 1 + random.below(9), bits, log + random.below(99)];
            rank(&mut tally, &mut random, &listed, n, r, more);
        }
    }
    tally.say("outcomes and buffers of every listed order");
}

/// The owned values: each order is as if it came from the list, its setting is that of set, and it carries blocks there and back.
#[test]
fn orders_with_their_settings() {
    let (mut tally, mut random) = (Tally::default(), Random(42));
    for n in 0..=lomuveran::MAX_LISTED {
        let listed = plain::listing(n);
        for (r, list) in listed.iter().enumerate() {
            let (order, setting) = Permutation::ranked(n, r).unwrap();
            tally.same(order.entries(), &list[..], (n, r));
            tally.same(order.fixed_points(), plain::at_home(list), (n, r));
            tally.same(&order, &Permutation::from_list(list).unwrap(), (n, r));
            tally.same(&setting, &Setting::control_bits(&order), (n, r));
            tally.same((setting.places(), setting.bits()), (n, &plain::setting(Paper, list)[..]), (n, r));
            let width = 1 + random.below(9);
            let home = random.bytes(n * width);
            let mut blocks = home.clone();
            setting.apply(width, &mut blocks).unwrap();
            tally.same(&blocks, &plain::scattered(list, width, &home), (n, r));
            setting.apply_inverse(width, &mut blocks).unwrap();
            tally.same(&blocks, &home, (n, r));
        }
        for r in [listed.len(), listed.len() + 1, 65536, 1 << 32, usize::MAX] {
            tally.same(seen(Permutation::ranked(n, r).map(|_| 0)), Err((14, 0)), (n, r));
        }
    }
    for n in [7, 8, 1024, 1025, 65536, usize::MAX] {
        for r in [0, 1, 5039, 5040, usize::MAX] {
            tally.same(seen(Permutation::ranked(n, r).map(|_| 0)), Err((17, 0)), (n, r));
        }
    }
    tally.say("listed orders with their settings");
}

/// Good and bad numbers for each question, all with all.
#[test]
fn refused_listings() {
    let (mut tally, mut random) = (Tally::default(), Random(43));
    for n in (0..10).chain([1024, 1025, 1 << 16, 1 << 32, usize::MAX]) {
        let listed = plain::listing(n.min(6));
        let most = listed.len();
        let [list, bits, log] = needs(n.min(1024));
        for r in [0, most - 1, most, most + 1, 720, 5040, 65536, 65536 + most - 1, 1 << 32, usize::MAX] {
            for list in [list, list + 2, list.saturating_sub(1), 0] {
                for bits in [bits, bits + 1, bits.saturating_sub(1)] {
                    for log in [log, log + 5, log.saturating_sub(1), log / 4 * 3, 0] {
                        rank(&mut tally, &mut random, &listed, n, r, [list, bits, log]);
                    }
                }
            }
        }
    }
    tally.say_questions("outcomes and buffers of listed orders", &[0, 4, 5, 13, 14, 17]);
}
