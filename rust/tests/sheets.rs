//! Sheets and numbers against the second computation, valid and damaged.

mod common;

use common::{bytes, plain, plain::Paper, seen, Random, Tally};
use lomuveran::Setting;

fn write(tally: &mut Tally, random: &mut Random, n: usize, bits: &[u8], room: usize) {
    let must = plain::write(n, bits, room);
    let mut out = bytes(&random.bytes(room));
    tally.outcome(seen(lomuveran::write_sheet(n, bits, out.part())), plain::outcome(&must, Vec::len), (n, bits, room));
    out.check(tally, &must.unwrap_or_default(), (n, bits, room));
}

fn read(tally: &mut Tally, random: &mut Random, input: &[u8], room: usize) {
    let must = plain::read(input, room);
    let mut bits = bytes(&random.bytes(room));
    let mut lent = bytes(input);
    tally.outcome(seen(lomuveran::read_sheet(lent.part(), bits.part())), plain::outcome(&must, |m| m.0), (input, room));
    lent.check(tally, &[], input);
    bits.check(tally, &must.unwrap_or_default().1, (input, room));
}

/// A setting of all zeros, all ones, or a mixture: their sheets differ in length.
fn setting(random: &mut Random, n: usize) -> Vec<u8> {
    let kind = random.below(4);
    let bit = |random: &mut Random| match kind {
        0 | 1 => kind as u8,
        _ => random.below(2) as u8,
    };
    (0..plain::switches(Paper, n).len()).map(|_| bit(random)).collect()
}

#[test]
fn written() {
    let (mut tally, mut random) = (Tally::default(), Random(11));
    for round in 0..800 {
        let n = if round % 20 == 0 { 1025 + random.below(100) } else { random.size() };
        let mut bits = setting(&mut random, n.min(1024));
        if random.below(4) == 0 && !bits.is_empty() {
            let at = random.below(bits.len());
            bits[at] = random.word() as u8;
        }
        if random.below(8) == 0 {
            bits.resize(bits.len().saturating_add_signed([1, -1][random.below(2)]), 0);
        }
        let long = plain::write(n, &bits, usize::MAX).map_or(9, |sheet| sheet.len());
        let room = long.saturating_add_signed([0, 1, 30, -1][random.below(4)]);
        write(&mut tally, &mut random, n, &bits, room);
    }
    tally.say_questions("outcomes and buffers of write sheet", &[0, 1, 4, 7, 13]);
}

#[test]
fn read_back_and_damaged() {
    let (mut tally, mut random) = (Tally::default(), Random(12));
    for _ in 0..500 {
        let n = random.size();
        let bits = setting(&mut random, n);
        let sheet = plain::write(n, &bits, usize::MAX).unwrap();
        let room = bits.len();
        for (input, room) in [(&sheet[..], room), (&sheet, room + 9), (&sheet, room.saturating_sub(1))] {
            read(&mut tally, &mut random, input, room);
        }
        for _ in 0..12 {
            let mut damaged = sheet.clone();
            let at = random.below(damaged.len());
            match random.below(5) {
                0 => damaged.truncate(at),
                1 => damaged.insert(at, random.word() as u8),
                2 => drop(damaged.remove(at)),
                3 => damaged.extend(random.bytes(1)),
                _ => damaged[at] ^= 1 << random.below(8),
            }
            read(&mut tally, &mut random, &damaged, 9217);
        }
    }
    tally.say_questions("outcomes and buffers of read sheet", &[0, 1, 4, 8, 9, 10, 11, 12]);
}

#[test]
fn short_inputs_all() {
    let (mut tally, mut random) = (Tally::default(), Random(13));
    let bytes: Vec<u8> = vec![0, 1, 2, 3, 5, 9, 127, 128, 129, 136, 255];
    let mut inputs: Vec<Vec<u8>> = vec![vec![]];
    for _ in 0..4 {
        let longer = inputs.iter().flat_map(|input| bytes.iter().map(move |byte| [&input[..], &[*byte]].concat()));
        inputs = longer.chain([vec![]]).collect();
        inputs.iter().for_each(|input| read(&mut tally, &mut random, input, 5));
        inputs.iter().for_each(|input| read(&mut tally, &mut random, &[&[1], &input[..]].concat(), 9217));
    }
    tally.say("outcomes and buffers of read sheet on all short inputs");
}

#[test]
fn numbers() {
    let mut tally = Tally::default();
    for low in 0..=255 {
        for high in 0..=255 {
            for input in [&[][..], &[low], &[low, high], &[high, low, high]] {
                for at in [0, 1, 2, 3, usize::MAX] {
                    let is = lomuveran::read_number(input, at).map(|r| (r.value, r.next)).map_err(|r| (r.question, r.place));
                    tally.same(is, plain::number(input, at), (input, at));
                }
            }
        }
    }
    tally.say("readings of a number");
}

#[test]
fn settings_own_their_sheets() {
    let (mut tally, mut random) = (Tally::default(), Random(14));
    for _ in 0..200 {
        let n = random.size();
        let bits = setting(&mut random, n);
        let made = Setting::from_bits(n, &bits).unwrap();
        tally.same(Ok(made.write_sheet()), plain::write(n, &bits, usize::MAX), n);
        let back = Setting::read_sheet(&made.write_sheet()).unwrap();
        tally.same((back.places(), back.bits()), (n, &bits[..]), n);
        let mut blocks = random.bytes(n * 3);
        let must = plain::scattered(&plain::carried(Paper, n, &bits), 3, &blocks);
        let before = blocks.clone();
        tally.same(back.apply(3, &mut blocks).unwrap().len(), bits.len(), n);
        tally.same(&blocks, &must, n);
        back.apply_inverse(3, &mut blocks).unwrap();
        tally.same(&blocks, &before, n);
        tally.same(back.apply(3, &mut random.bytes(n * 3 + 1)).unwrap_err().question, 3, n);
        tally.same(format!("{back:?}"), format!("Setting {{ places: {n}, .. }}"), n);
    }
    tally.say("settings with their sheets");
}
