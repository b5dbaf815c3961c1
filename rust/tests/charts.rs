//! The figures of gauges against the second computation: blocks at home, mixed and returned, drawn and extreme, and refusals.

mod common;

use common::{bytes, plain, plain::Paper, seen, Random, Tally};
use std::collections::BTreeSet;

/// One call.
fn report(tally: &mut Tally, n: usize, width: usize, blocks: &[u8], gauge: u16) {
    let must = plain::report(n, width, blocks, gauge);
    let mut lent = bytes(blocks);
    let is = lomuveran::gauge_report(n, width, lent.part(), gauge);
    let of = (n, width, blocks.len(), gauge);
    tally.outcome(seen(is.map(|_| 0)), plain::outcome(&must, |_| 0), of);
    let six = is.map(|f| [f.count as i128, f.least.into(), f.greatest.into(), f.sum.into(), f.mean.into(), f.remainder.into()]);
    tally.same(six.ok(), must.ok(), of);
    lent.check(tally, &[], of);
}

/// Blocks with few gauges or with many, and with readings of one kind.
fn drawn(random: &mut Random, n: usize) -> Vec<u8> {
    let (gauges, kind, base) = ([1, 2, 5, 300, 65536][random.below(5)], random.below(5), random.word() as i32);
    let mut blocks = vec![];
    for _ in 0..n {
        let gauge = (random.below(gauges) * 65535 / (gauges - 1).max(1)) as u16; // from 0 to 65,535
        let reading = match kind {
            0 => random.word() as i32,
            1 => [i32::MIN, i32::MIN + 1, -1, 0, 1, i32::MAX - 1, i32::MAX][random.below(7)],
            2 => [i32::MIN, i32::MAX][random.below(2)],
            3 => random.below(5) as i32 - 2, // sums just above and below 0
            _ => base,
        };
        blocks.extend(gauge.to_le_bytes());
        blocks.extend(reading.to_le_bytes());
    }
    blocks
}

/// Every gauge that the blocks have, or some where there are many, and some that they may not have.
fn asked(random: &mut Random, blocks: &[u8]) -> BTreeSet<u16> {
    let mut gauges: Vec<u16> = blocks.chunks(6).map(|block| u16::from_le_bytes([block[0], block[1]])).collect();
    gauges.sort();
    gauges.dedup();
    while gauges.len() > 40 {
        gauges.swap_remove(random.below(gauges.len()));
    }
    let near: Vec<u16> = gauges.iter().take(3).flat_map(|gauge| [gauge.swap_bytes(), gauge.wrapping_add(1)]).collect();
    gauges.into_iter().chain(near).chain([0, 65535, random.word() as u16]).collect()
}

#[test]
fn blocks_at_home_and_extreme() {
    let (mut tally, mut random) = (Tally::default(), Random(31));
    let sizes: Vec<usize> = (0..1200).map(|_| random.size()).collect();
    for n in (0..12).chain([1023, 1024, 1024, 1024]).chain(sizes) {
        let blocks = drawn(&mut random, n);
        asked(&mut random, &blocks).into_iter().for_each(|gauge| report(&mut tally, n, 6, &blocks, gauge));
    }
    for reading in [i32::MIN, -1, 0, 1, i32::MAX] {
        let blocks = [&[9, 0], &reading.to_le_bytes()[..]].concat().repeat(1024);
        (0..=1024).for_each(|n| report(&mut tally, n, 6, &blocks[..6 * n], 9));
    }
    tally.say("outcomes of reports on drawn and extreme blocks");
}

/// The same report from the mixed blocks, and from the returned ones, under any setting.
#[test]
fn mixed_and_returned() {
    let (mut tally, mut random) = (Tally::default(), Random(32));
    for _ in 0..250 {
        let n = random.size();
        let home = drawn(&mut random, n);
        let gauges = asked(&mut random, &home);
        let must: Vec<_> = gauges.iter().map(|gauge| lomuveran::gauge_report(n, 6, &home, *gauge)).collect();
        for _ in 0..3 {
            let bits: Vec<u8> = plain::switches(Paper, n).iter().map(|_| random.below(2) as u8).collect();
            let (mut blocks, mut log) = (home.clone(), vec![0; 4 * bits.len()]);
            for call in [lomuveran::apply, lomuveran::apply, lomuveran::apply_inverse, lomuveran::apply_inverse] {
                call(n, 6, &mut blocks, &bits, &mut log).unwrap();
                let is: Vec<_> = gauges.iter().map(|gauge| lomuveran::gauge_report(n, 6, &blocks, *gauge)).collect();
                is.iter().zip(&must).for_each(|(is, must)| tally.same(is, must, n));
                report(&mut tally, n, 6, &blocks, random.word() as u16);
            }
            tally.same(&blocks, &home, n);
        }
    }
    tally.say("reports of mixed and of returned blocks");
}

#[test]
fn refused() {
    let (mut tally, mut random) = (Tally::default(), Random(33));
    let numbers = [0, 1, 2, 5, 6, 7, 9, 1023, 1024, 1025, 1026, 5000, 1 << 32, usize::MAX / 6 + 1, usize::MAX];
    for n in numbers {
        for width in numbers {
            let filled = n.saturating_mul(width);
            for bytes in [0, 6, filled, filled.saturating_sub(1), filled.saturating_add(1)].map(|bytes| bytes.min(7000)) {
                let (blocks, gauge) = (random.bytes(bytes), random.below(3) as u16);
                report(&mut tally, n, width, &blocks, gauge);
            }
        }
    }
    for bytes in 0..=6150 {
        let blocks = drawn(&mut random, bytes / 6 + 1);
        for n in [bytes / 6, bytes.div_ceil(6)] {
            report(&mut tally, n, 6, &blocks[..bytes], 0);
        }
    }
    tally.say_questions("outcomes of reports", &[0, 1, 2, 3]);
}
