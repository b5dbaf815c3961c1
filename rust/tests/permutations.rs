//! Permutations, draws and counts against the second computation. `Permutation` holds only what was accepted, so the refusals
//! of damaged lists are asked through `from_list`; the C test asks them of every call.

mod common;

use common::{all_orders, plain, plain::Paper, seen, words, Random, Tally};
use lomuveran::{Permutation, Refusal};

/// The entries, and the number that goes with them.
type Listed = Result<(Vec<u16>, usize), (usize, usize)>;

fn list(result: Result<Permutation, Refusal>) -> Listed {
    result.map(|p| (p.entries().to_vec(), p.fixed_points())).map_err(|refusal| (refusal.question, refusal.place))
}

fn must(list: Result<Vec<u16>, (usize, usize)>) -> Listed {
    list.map(|entries| (entries.clone(), plain::at_home(&entries)))
}

fn calls(tally: &mut Tally, random: &mut Random, a: &[u16], b: &[u16]) {
    let (p, q) = (Permutation::from_list(a).unwrap(), Permutation::from_list(b).unwrap());
    tally.same(list(Ok(p.clone())), must(Ok(a.to_vec())), a);
    tally.same(list(p.combine(&q)), must(plain::combine(a, b)), (a, b));
    tally.same(list(Ok(p.inverse())), must(Ok(plain::inverse(a))), a);
    let (i, j) = (random.below(a.len() + 2), random.below(a.len() + 2));
    let mut changed = p.clone();
    let is = changed.exchange(i, j).map(|()| changed.clone());
    let wanted = plain::exchange(a, i, j);
    tally.same(list(Ok(changed)), must(Ok(wanted.clone().unwrap_or(a.to_vec()))), (a, i, j));
    tally.same(list(is), must(wanted), (a, i, j));
}

#[test]
fn every_pair_of_up_to_five_places() {
    let (mut tally, mut random) = (Tally::default(), Random(21));
    for n in 0..6 {
        let orders = all_orders(n);
        for a in &orders {
            orders.iter().for_each(|b| calls(&mut tally, &mut random, a, b));
        }
    }
    tally.say("permutations of every pair of up to 5 places");
}

#[test]
fn of_every_size() {
    let (mut tally, mut random) = (Tally::default(), Random(22));
    for _ in 0..400 {
        let n = random.size();
        let m = if random.below(4) == 0 { random.size() } else { n };
        let (a, b) = (random.order(n), random.order(m));
        calls(&mut tally, &mut random, &a, &b);
    }
    for n in (0..=1030).chain([65536, usize::MAX]) {
        let wanted = if n <= 1024 { Ok((0..n as u16).collect()) } else { Err((1, 0)) };
        tally.same(list(Permutation::identity(n)), must(wanted), n);
    }
    tally.say("permutations of up to 1,024 places");
}

/// An operation on the permutation, and on the list that it must hold. The second of a combination is mostly the identity but for
/// a few exchanges, so that many entries stay home.
fn step(random: &mut Random, p: &mut Permutation, order: &mut Vec<u16>) {
    let n = order.len();
    let two = (random.below(n + 1), random.below(n + 1));
    match random.below(4) {
        0 | 1 => {
            if let Ok(exchanged) = plain::exchange(order, two.0, two.1) {
                *order = exchanged;
                p.exchange(two.0, two.1).unwrap();
            } else {
                assert_eq!(p.exchange(two.0, two.1).map_err(|refusal| refusal.question), Err(14));
            }
        }
        2 => {
            *order = plain::inverse(order);
            *p = p.inverse();
        }
        _ => {
            let mut second = if random.below(3) == 0 { random.order(n) } else { (0..n as u16).collect() };
            (0..3).for_each(|k| second = plain::exchange(&second, k, two.0).unwrap_or(second.clone()));
            *order = plain::combine(order, &second).unwrap();
            *p = p.combine(&Permutation::from_list(&second).unwrap()).unwrap();
        }
    }
}

#[test]
fn chains() {
    let (mut tally, mut random) = (Tally::default(), Random(25));
    for n in [0, 1, 2, 5, 6, 100, 1023, 1024] {
        for start in 0..4 {
            let given: Vec<u32> = (0..n + 64).map(|_| random.word() as u32).collect();
            let mut p = match start {
                0 => Permutation::identity(n).unwrap(),
                1 => Permutation::shuffle(n, &given).unwrap(),
                _ => Permutation::from_list(&random.order(n)).unwrap(),
            };
            let mut order = p.entries().to_vec();
            for k in 0..50 {
                step(&mut random, &mut p, &mut order);
                tally.same(list(Ok(p.clone())), must(Ok(order.clone())), (n, start, k));
                tally.same(&p, &Permutation::from_list(&order).unwrap(), (n, start, k));
            }
        }
    }
    tally.say("permutations along chains of operations");
}

#[test]
fn lists_valid_and_damaged() {
    let (mut tally, mut random) = (Tally::default(), Random(23));
    for number in 0..5usize.pow(5) {
        let all: Vec<u16> = (0..5).map(|i| (number / 5usize.pow(i) % 5) as u16).collect();
        for n in 0..6 {
            tally.same(
                list(Permutation::from_list(&all[..n])),
                must(plain::record(&all[..n]).map(|()| all[..n].to_vec())),
                &all[..n],
            );
        }
    }
    for _ in 0..400 {
        let n = random.size() + random.below(3);
        let mut order = random.order(n);
        if n > 0 {
            let at = random.below(n);
            order[at] = random.below(n + 2) as u16;
        }
        tally.same(list(Permutation::from_list(&order)), must(plain::record(&order).map(|()| order.clone())), &order);
    }
    tally.say("lists, valid and damaged");
}

#[test]
fn draws() {
    let (mut tally, mut random) = (Tally::default(), Random(24));
    for _ in 0..600 {
        let n = random.size() + random.below(3);
        let large = [0, 1, 1, 8][random.below(4)]; // so many of eight words are among the largest
        let count = (n + n * large / 6).saturating_add_signed([0, 0, 1, -1, 70][random.below(5)]);
        let given: Vec<u32> = (0..count).map(|_| word(&mut random, large)).collect();
        let room = n.saturating_add_signed([0, 1, 40, -1][random.below(4)]);
        let drawn = plain::shuffle(n, &given, room);
        let mut out = words(&random.words(room));
        let is = lomuveran::shuffle(n, &given, out.part());
        tally.outcome(seen(is.map(|drawn| drawn.count)), plain::outcome(&drawn, |(order, _)| order.len()), (n, room));
        tally.same(is.map_or(0, |drawn| drawn.used), drawn.as_ref().map_or(0, |(_, used)| *used), (n, room));
        out.check(&mut tally, &drawn.unwrap_or_default().0, (n, room));
        tally.same(list(Permutation::shuffle(n, &given)), must(plain::shuffle(n, &given, usize::MAX).map(|drawn| drawn.0)), n);
    }
    tally.say_questions("outcomes and buffers of draws", &[0, 1, 13, 18]);
}

/// A word; `large` of eight are among the 1,100 largest, which are skipped at some turns.
fn word(random: &mut Random, large: usize) -> u32 {
    if random.below(8) < large {
        u32::MAX - random.below(1100) as u32
    } else {
        random.word() as u32
    }
}

/// With d places left, the words around the limit: the last one that is taken, and the first that is skipped.
#[test]
fn limits() {
    let mut tally = Tally::default();
    let mut out = [0; 1024];
    for d in 1..=1024u64 {
        let limit = (1u64 << 32) / d * d;
        let used = |words: &[u32], out: &mut [u16; 1024]| lomuveran::shuffle(d as usize, words, out).map(|drawn| drawn.used);
        let mut first = [0; 1025];
        first[0] = (limit - 1) as u32;
        tally.same(used(&first, &mut out), Ok(d as usize), d);
        tally.same(out[0], d as u16 - 1, d);
        if limit < 1 << 32 {
            first[0] = limit as u32;
            tally.same(used(&first, &mut out), Ok(d as usize + 1), d);
            first[0] = u32::MAX;
            tally.same(used(&first, &mut out), Ok(d as usize + 1), d);
        }
    }
    tally.say("words around the limits of every number of places");
}

#[test]
fn counts() {
    let mut tally = Tally::default();
    for n in 0..=1024 {
        tally.same(seen(lomuveran::switches(n)), Ok(plain::switches(Paper, n).len()), n);
        tally.same(seen(lomuveran::entries(n)), Ok(plain::set_entries(Paper, n).len()), n);
    }
    for n in [1025, 1026, 65536, 1 << 32, usize::MAX] {
        tally.same(seen(lomuveran::switches(n)), Err((1, 0)), n);
        tally.same(seen(lomuveran::entries(n)), Err((1, 0)), n);
    }
    let full = |n| plain::write(n, &vec![1; plain::switches(Paper, n).len()], usize::MAX).unwrap();
    let longest = (0..=1024).map(|n| full(n).len()).max();
    tally.same(longest, Some(lomuveran::MAX_SHEET), "the longest sheet");
    tally.same(seen(lomuveran::switches(1024)), Ok(lomuveran::MAX_SWITCHES), "the most switches");
    tally.same(seen(lomuveran::entries(1024)), Ok(lomuveran::MAX_ENTRIES), "the most entries");
    tally.say("counts");
}

#[test]
fn each_question_has_a_text() {
    let mut tally = Tally::default();
    let asked = (1..=18).filter(|question| *question != 16);
    let texts: std::collections::HashSet<&str> = asked.map(|question| Refusal { question, place: 0 }.text()).collect();
    tally.same(texts.len(), 17, "texts");
    for question in [0, 16, 19] {
        tally.same(texts.contains(Refusal { question, place: 0 }.text()), false, question);
    }
    tally.say("texts of the questions");
}
