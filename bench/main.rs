//! Times the library beside other ways of doing the same (peers.rs), interleaved: in each round every way runs a batch, and a
//! ratio is the median of the rounds' own ratios, which the machine's load moves least. See bench/run.
mod peers;
use peers::Answer;
use std::time::Instant;

#[repr(C)]
struct CAnswer(usize, usize, usize);
#[link(name = "capi", kind = "static")]
unsafe extern "C" {
    fn lomuveran_control_bits(o: *const u16, n: usize, b: *mut u8, bn: usize, l: *mut u16, ln: usize) -> CAnswer;
    fn lomuveran_apply(n: usize, w: usize, x: *mut u8, xn: usize, b: *const u8, bn: usize, l: *mut u16, ln: usize) -> CAnswer;
    fn lomuveran_apply_inverse(
        n: usize,
        w: usize,
        x: *mut u8,
        xn: usize,
        b: *const u8,
        bn: usize,
        l: *mut u16,
        ln: usize,
    ) -> CAnswer;
}
fn lib_set(o: &[u16], b: &mut [u8], l: &mut [u16]) -> Answer {
    let r = unsafe { lomuveran_control_bits(o.as_ptr(), o.len(), b.as_mut_ptr(), b.len(), l.as_mut_ptr(), l.len()) };
    [r.0, r.1, r.2]
}
fn lib_apply<const BACK: bool>(n: usize, w: usize, x: &mut [u8], b: &[u8], l: &mut [u16]) -> Answer {
    let f = if BACK { lomuveran_apply_inverse } else { lomuveran_apply };
    let r = unsafe { f(n, w, x.as_mut_ptr(), x.len(), b.as_ptr(), b.len(), l.as_mut_ptr(), l.len()) };
    [r.0, r.1, r.2]
}

fn median(mut v: Vec<f64>) -> f64 {
    v.sort_by(f64::total_cmp);
    v[v.len() / 2]
}
/// The times of each way, in microseconds, one for each round.
fn time(ways: &mut [(&str, Box<dyn FnMut() + '_>)]) -> Vec<Vec<f64>> {
    const ROUNDS: usize = 61;
    let mut times = vec![vec![]; ways.len()];
    let batch: Vec<usize> = ways
        .iter_mut()
        .map(|(_, f)| {
            f();
            let t = Instant::now();
            f();
            (300.0 / (t.elapsed().as_secs_f64() * 1e6)).clamp(1.0, 3000.0) as usize
        })
        .collect();
    for round in 0..ROUNDS {
        for i in 0..ways.len() {
            let i = (i + round) % ways.len();
            let t = Instant::now();
            for _ in 0..batch[i] {
                ways[i].1();
            }
            times[i].push(t.elapsed().as_secs_f64() * 1e6 / batch[i] as f64);
        }
    }
    times
}
fn ratio(a: &[f64], b: &[f64]) -> f64 {
    median(a.iter().zip(b).map(|(x, y)| x / y).collect())
}

/// Median times of mix, return, tuned mix, tuned return, bitonic, scatter, set, set in Rust; and the table's rows.
fn measure(n: usize, width: usize) -> ([f64; 8], String, String) {
    let mut seed = 7u64;
    let mut next = move || {
        seed = seed.wrapping_mul(6364136223846793005).wrapping_add(1442695040888963407);
        (seed >> 33) as usize
    };
    let mut order: Vec<u16> = (0..n as u16).collect();
    (0..n).for_each(|i| order.swap(i, i + next() % (n - i)));
    let x: Vec<u8> = (0..n * width).map(|_| next() as u8).collect();
    let (w, e) = (peers::switches(n), peers::entries(n));
    // every way gives the same, log and all
    let (mut bits, mut b2, mut l, mut l2) = (vec![9; w], vec![8; w], vec![9; 4 * e], vec![8; 4 * e]);
    assert_eq!(lib_set(&order, &mut bits, &mut l), peers::set(&order, &mut b2, &mut l2));
    assert!(bits == b2 && l == l2);
    let (mut y, mut z, mut s, mut t) = (x.clone(), x.clone(), x.clone(), x.clone());
    let (mut l, mut l2) = (vec![9; 4 * w], vec![8; 4 * w]);
    assert_eq!(lib_apply::<false>(n, width, &mut y, &bits, &mut l), peers::apply::<false>(n, width, &mut z, &bits, &mut l2));
    peers::scatter(&order, width, &x, &mut s);
    peers::bitonic(width, &mut order.clone(), &mut t);
    assert!(y == z && l == l2 && y == s && y == t);
    assert_eq!(lib_apply::<true>(n, width, &mut y, &bits, &mut l), peers::apply::<true>(n, width, &mut z, &bits, &mut l2));
    assert!(y == z && l == l2 && y == x);

    let (mut p, mut q, mut r, mut u) = (x.clone(), x.clone(), x.clone(), x.clone());
    let mut logs = vec![vec![0u16; 4 * e.max(w)]; 6];
    let [la, lb, lc, ld, le, lf] = &mut logs[..] else { unreachable!() };
    let (mut sa, mut sb) = (bits.clone(), bits.clone());
    let mut keys = order.clone();
    let times = time(&mut [
        ("mix", Box::new(|| assert!(lib_apply::<false>(n, width, &mut p, &bits, la)[0] == 0))),
        ("return", Box::new(|| assert!(lib_apply::<true>(n, width, &mut q, &bits, lb)[0] == 0))),
        ("tuned mix", Box::new(|| assert!(peers::apply::<false>(n, width, &mut r, &bits, lc)[0] == 0))),
        ("tuned return", Box::new(|| assert!(peers::apply::<true>(n, width, &mut u, &bits, ld)[0] == 0))),
        (
            "bitonic",
            Box::new(|| {
                keys.copy_from_slice(&order);
                peers::bitonic(width, &mut keys, &mut t)
            }),
        ),
        ("scatter", Box::new(|| peers::scatter(std::hint::black_box(&order), width, &x, &mut s))),
        ("set", Box::new(|| assert!(lib_set(&order, &mut sa, le)[0] == 0))),
        ("set in Rust", Box::new(|| assert!(peers::set(&order, &mut sb, lf)[0] == 0))),
    ]);
    let m: [f64; 8] = std::array::from_fn(|i| median(times[i].clone()));
    let of = |a: usize, b: usize| ratio(&times[a], &times[b]);
    let row = format!(
        "| {n} × {width} | {:.2} | {:.2} | {:.2} | {:.2} | {:.2} | {:.1} | {:.1} |",
        m[0],
        m[1],
        of(0, 2),
        of(1, 3),
        of(1, 0),
        of(4, 0),
        of(0, 5)
    );
    (m, row, format!("| {n} | {:.1} | {:.2} | {:.1} |", m[6], of(6, 7), of(6, 0)))
}

/// Time against n, both logarithmic: a line for each name.
fn plot(points: &[(usize, [f64; 8])], width: usize) -> String {
    let px = |n: f64| 70.0 + (n / 16.0).log2() / 6.0 * 430.0;
    let py = |us: f64| 330.0 - (us / 0.01).log10() / 5.0 * 290.0;
    let mut s = String::from(
        "<svg xmlns=\"http://www.w3.org/2000/svg\" viewBox=\"0 0 640 380\" font-family=\"sans-serif\" font-size=\"12\">\n<rect width=\"640\" height=\"380\" fill=\"#fff\"/>\n",
    );
    for d in 0..=5 {
        let us = 0.01 * 10f64.powi(d);
        s += &format!(
            "<path d=\"M70 {y:.1}H500\" stroke=\"#ddd\"/><text x=\"62\" y=\"{t:.1}\" text-anchor=\"end\">{us} µs</text>\n",
            y = py(us),
            t = py(us) + 4.0
        );
    }
    for (n, _) in points {
        s += &format!(
            "<path d=\"M{x:.1} 40V330\" stroke=\"#eee\"/><text x=\"{x:.1}\" y=\"346\" text-anchor=\"middle\">{n}</text>\n",
            x = px(*n as f64)
        );
    }
    s += &format!(
        "<text x=\"285\" y=\"368\" text-anchor=\"middle\">places</text><text x=\"70\" y=\"24\">time of one call, blocks of {width} bytes</text>\n"
    );
    let lines = [
        (6, "set", "#a33", ""),
        (7, "set, Rust sweeps", "#a33", "4 3"),
        (4, "bitonic shuffle", "#777", ""),
        (0, "mix", "#06a", ""),
        (2, "mix, tuned Rust", "#06a", "4 3"),
        (5, "scatter", "#2a2", ""),
    ];
    let mut labels: Vec<(f64, usize)> =
        lines.iter().enumerate().map(|(j, l)| (py(points[points.len() - 1].1[l.0]), j)).collect();
    labels.sort_by(|a, b| a.0.total_cmp(&b.0));
    for i in 1..labels.len() {
        labels[i].0 = labels[i].0.max(labels[i - 1].0 + 14.0);
    }
    for (y, j) in labels {
        let (i, name, color, dash) = lines[j];
        let p: Vec<String> = points.iter().map(|(n, t)| format!("{:.1},{:.1}", px(*n as f64), py(t[i]))).collect();
        s += &format!(
            "<polyline points=\"{}\" fill=\"none\" stroke=\"{color}\" stroke-width=\"2\" stroke-dasharray=\"{dash}\"/><text x=\"506\" y=\"{:.1}\" fill=\"{color}\">{name}</text>\n",
            p.join(" "),
            y + 4.0
        );
    }
    s + "</svg>\n"
}

fn main() {
    let mut sets = vec![];
    println!(
        "| places × width | mix, µs | return, µs | mix / tuned Rust | return / tuned Rust | return / mix | bitonic / mix | mix / scatter |\n|---|---|---|---|---|---|---|---|"
    );
    for n in [16, 128, 1024] {
        for width in [6, 8, 16, 64, 256] {
            let (_, row, set) = measure(n, width);
            println!("{row}");
            sets.extend((width == 64).then_some(set));
        }
    }
    println!(
        "\n| places | set, µs | set / the same sweeps in Rust | set / mix at width 64 |\n|---|---|---|---|\n{}",
        sets.join("\n")
    );
    if let Some(file) = std::env::args().nth(1) {
        let points: Vec<_> = (4..=10).map(|l| (1 << l, measure(1 << l, 64).0)).collect();
        std::fs::write(file, plot(&points, 64)).unwrap();
    }
}
