//! The port and the Rust on the same gates, interleaved in one process: microseconds a gate, the best of some rounds.
//! `shipped` is the Rust with its own `hypot`. `rooted` is the Rust with each square root and complex size taken by the
//! port's functions, so that what they cost is seen. `oracle`, with complex size correctly rounded, is run once and not
//! timed: the port and `rooted` must discard the weight that it discards, to the bit. Then the port's layers of pairs, each in
//! one call, beside the same gates in a call each.
use num_complex::Complex64;
use oracle::mps::access as oracle_rust;
use rooted::mps::access as rooted_rust;
use shipped::mps::access as shipped_rust;
use std::hint::black_box;
use std::time::Instant;

unsafe extern "C" {
    fn jondwave_root(x: f64) -> f64;
    fn jondwave_norm(re: f64, im: f64) -> f64;
    fn jondwave_gates(
        n: usize, d: usize, eps: f64, clamp: f64, g: *const u8, gl: usize, p: *const u8, pl: usize, x: *const f64, xl: usize, layers: usize,
        s: *mut f64, sl: usize, w: *mut f64, wl: usize,
    ) -> f64;
}

const EPSILON: f64 = 1e-12;
const CLAMP: f64 = 1e-30;

type Gate = [[Complex64; 4]; 4];
type Circuit = Vec<(usize, usize, Gate)>;

struct Rng(u64);
impl Rng {
    // splitmix64
    fn bits(&mut self) -> u64 {
        self.0 = self.0.wrapping_add(0x9E3779B97F4A7C15);
        let mut z = self.0;
        z = (z ^ (z >> 30)).wrapping_mul(0xBF58476D1CE4E5B9);
        z = (z ^ (z >> 27)).wrapping_mul(0x94D049BB133111EB);
        z ^ (z >> 31)
    }
    fn below(&mut self, n: usize) -> usize {
        (self.bits() % n as u64) as usize
    }
    fn real(&mut self) -> f64 {
        (self.bits() >> 11) as f64 / (1u64 << 53) as f64 * 2.0 - 1.0
    }
    fn normal(&mut self) -> f64 {
        self.real() + self.real() + self.real()
    }
}

/// The q of a random matrix's QR factoring.
fn unitary(r: &mut Rng) -> Gate {
    let a: Vec<Complex64> = (0..16).map(|_| Complex64::new(r.normal(), r.normal())).collect();
    let (q, _, k) = oracle_rust::qr(&a, 4, 4);
    assert!(k == 4);
    std::array::from_fn(|i| std::array::from_fn(|j| q[j * 4 + i]))
}

/// One nonzero entry in each row and column: 1, -1, i or -i.
fn permutation(r: &mut Rng) -> Gate {
    let units = [(1.0, 0.0), (-1.0, 0.0), (0.0, 1.0), (0.0, -1.0)];
    let mut p = [0usize, 1, 2, 3];
    for i in (1..4).rev() {
        p.swap(i, r.below(i + 1));
    }
    let mut g = [[Complex64::new(0.0, 0.0); 4]; 4];
    for (c, &row) in p.iter().enumerate() {
        let (re, im) = units[r.below(4)];
        g[row][c] = Complex64::new(re, im);
    }
    g
}

fn brickwork(n: usize, layers: usize) -> Circuit {
    let mut r = Rng(7);
    let mut g = Vec::new();
    for l in 0..layers {
        for k in (l % 2..n - 1).step_by(2) {
            g.push((k, k + 1, unitary(&mut r)));
        }
    }
    g
}

fn shuffled(n: usize, gates: usize) -> Circuit {
    let mut r = Rng(9);
    (0..gates)
        .map(|_| {
            let p = r.below(n);
            let q = (p + 1 + r.below(n - 1)) % n;
            (p, q, permutation(&mut r))
        })
        .collect()
}

/// The circuit as gate records.
fn records(gates: &Circuit) -> Vec<u8> {
    let mut o = Vec::new();
    for (a, b, g) in gates {
        o.extend_from_slice(&[4, 1, 2, 0, *a as u8, *b as u8]);
        for z in g.iter().flatten() {
            o.extend_from_slice(&z.re.to_bits().to_le_bytes());
            o.extend_from_slice(&z.im.to_bits().to_le_bytes());
        }
    }
    o
}

/// The circuit as layers hold it: two bytes a pair, and 32 numbers a pair.
fn layers_of(gates: &Circuit) -> (Vec<u8>, Vec<f64>) {
    let pairs = gates.iter().flat_map(|(a, b, _)| [*a as u8, *b as u8]).collect();
    let numbers = gates.iter().flat_map(|(_, _, g)| g.as_flattened()).flat_map(|z| [z.re, z.im]).collect();
    (pairs, numbers)
}

/// What the port's calls are lent.
struct Lent {
    store: Vec<f64>,
    work: Vec<f64>,
}
impl Lent {
    fn new(n: usize, d: usize) -> Lent {
        Lent { store: vec![0.0; 4 * n * d * d], work: vec![0.0; 80 * d * d + 16 * d] }
    }
    /// Gate records on a fresh chain, then layers, of which each has as many pairs.
    fn by_port(&mut self, n: usize, d: usize, gates: &[u8], pairs: &[u8], numbers: &[f64], layers: usize) -> f64 {
        let (s, w) = (&mut self.store, &mut self.work);
        unsafe {
            jondwave_gates(
                n, d, EPSILON, CLAMP, gates.as_ptr(), gates.len(), pairs.as_ptr(), pairs.len(), numbers.as_ptr(), numbers.len(), layers,
                s.as_mut_ptr(), s.len(), w.as_mut_ptr(), w.len(),
            )
        }
    }
}

macro_rules! runs {
    ($name:ident, $rust:ident) => {
        #[inline(never)]
        #[unsafe(no_mangle)]
        fn $name(n: usize, d: usize, gates: &Circuit) -> f64 {
            let lent = $rust::Lent { store: usize::MAX, work: usize::MAX, start_needs_work: false, raw_panic: false };
            let mut ch = $rust::Chain::start(n, d, 63, EPSILON, CLAMP, lent).ok().unwrap();
            for (a, b, g) in gates {
                assert!(matches!(ch.gate(*a, *b, g), $rust::Answer::Done));
            }
            ch.discarded()
        }
    };
}
runs!(by_rust, shipped_rust);
runs!(by_rooted, rooted_rust);
runs!(by_oracle, oracle_rust);

fn timed(best: &mut f64, run: impl FnOnce() -> f64) -> u64 {
    let t = Instant::now();
    let x = run();
    *best = best.min(t.elapsed().as_secs_f64());
    x.to_bits()
}

/// Nanoseconds a call on numbers of 20 exponents, the best of 300 rounds: where each call waits for the one before, and apart.
fn nanoseconds(f: impl Fn(f64, f64) -> f64) -> (f64, f64) {
    let mut r = Rng(11);
    let mut drawn = || (1.0 + r.real().abs()) * 2f64.powi(r.below(20) as i32 - 10);
    let xs: Vec<(f64, f64)> = (0..4096).map(|_| (drawn(), drawn())).collect();
    let (mut waits, mut apart) = (f64::MAX, f64::MAX);
    for _ in 0..300 {
        timed(&mut waits, || black_box(xs.iter().fold(0.0, |last, &(x, y)| f(x + 1e-30 * last, y))));
        timed(&mut apart, || black_box(xs.iter().fold(0.0, |sum, &(x, y)| sum + f(x, y))));
    }
    (waits * 1e9 / 4096.0, apart * 1e9 / 4096.0)
}

fn roots_and_sizes() {
    println!("\n{:>22} {:>10} {:>10} {:>10} {:>10}", "ns a call", "port waits", "machine's", "port apart", "machine's");
    let root = [nanoseconds(|x, _| unsafe { jondwave_root(x) }), nanoseconds(|x, _| x.sqrt())];
    let size = [nanoseconds(|x, y| unsafe { jondwave_norm(x, y) }), nanoseconds(|x, y| x.hypot(y))];
    for (name, [port, machine]) in [("root", root), ("size", size)] {
        println!("{name:>22} {:>10.1} {:>10.1} {:>10.1} {:>10.1}", port.0, machine.0, port.1, machine.1);
    }
}

/// Layers that name every qubit, each in one call, and their gates in a call each: microseconds a gate.
fn layers(rounds: usize) {
    const LAYERS: usize = 20;
    println!("\n{:>22} {:>6} {:>10} {:>10} {:>7}", "layers", "pairs", "by gates", "by layers", "ratio");
    for (n, d) in [(4, 1), (16, 1), (64, 1), (4, 2), (16, 2), (4, 8), (16, 8)] {
        for far in [false, true] {
            let mut r = Rng(13);
            let mut gates = Circuit::new();
            let mut qubits: Vec<usize> = (0..n).collect();
            for _ in 0..LAYERS {
                for i in (1..n).rev().filter(|_| far) {
                    qubits.swap(i, r.below(i + 1));
                }
                gates.extend(qubits.chunks(2).map(|q| (q[0], q[1], if d == 1 { permutation(&mut r) } else { unitary(&mut r) })));
            }
            let (bytes, (pairs, numbers)) = (records(&gates), layers_of(&gates));
            let (mut one, mut other) = (Lent::new(n, d), Lent::new(n, d));
            let (mut by_gates, mut by_layers) = (f64::MAX, f64::MAX);
            for _ in 0..20 * rounds {
                let x = timed(&mut by_gates, || one.by_port(n, d, &bytes, &[], &[], 0));
                let y = timed(&mut by_layers, || other.by_port(n, d, &[], &pairs, &numbers, LAYERS));
                let same = one.store.iter().zip(&other.store).all(|(a, b)| a.to_bits() == b.to_bits());
                assert!(x == y && same, "a layer leaves what its gates do not");
            }
            let name = format!("{} n {n} D {d}", if far { "any pairs" } else { "neighbours" });
            let c = 1e6 / gates.len() as f64;
            println!("{name:>22} {:>6} {:>10.3} {:>10.3} {:>7.3}", n / 2, by_gates * c, by_layers * c, by_layers / by_gates);
        }
    }
}

fn main() {
    let mut args = std::env::args().skip(1);
    let rounds: usize = args.next().map_or(5, |x| x.parse().unwrap());
    let only: Option<String> = args.next();
    if only.as_deref() == Some("layers") {
        return layers(rounds);
    }
    let mut cases: Vec<(String, usize, usize, Circuit)> = Vec::new();
    for (d, layers) in [(2, 400), (4, 120), (8, 40), (16, 16), (32, 12), (64, 13)] {
        cases.push((format!("brickwork n 16 D {d}"), 16, d, brickwork(16, layers)));
    }
    for (n, layers) in [(8, 80), (32, 20), (64, 10)] {
        cases.push((format!("brickwork n {n} D 8"), n, 8, brickwork(n, layers)));
    }
    for n in [16, 32, 64] {
        cases.push((format!("permutation n {n} D 1"), n, 1, shuffled(n, 2000)));
    }
    println!("{:>22} {:>6} {:>10} {:>10} {:>7} {:>14} {:>7}", "circuit", "gates", "port", "Rust", "ratio", "Rust, our root", "ratio");
    for (name, n, d, gates) in &cases {
        if only.as_ref().is_some_and(|o| !name.contains(o.as_str())) {
            continue;
        }
        let bytes = records(gates);
        let mut lent = Lent::new(*n, *d);
        let (mut port, mut rust, mut rooted) = (f64::MAX, f64::MAX, f64::MAX);
        let want = by_oracle(*n, *d, gates).to_bits();
        for _ in 0..rounds {
            let x = timed(&mut port, || lent.by_port(*n, *d, &bytes, &[], &[], 0));
            timed(&mut rust, || by_rust(*n, *d, gates));
            let y = timed(&mut rooted, || by_rooted(*n, *d, gates));
            assert!(x == want && y == want, "discarded weights differ");
        }
        let c = 1e6 / gates.len() as f64;
        println!(
            "{:>22} {:>6} {:>10.2} {:>10.2} {:>7.2} {:>14.2} {:>7.2}",
            name, gates.len(), port * c, rust * c, port / rust, rooted * c, port / rooted
        );
    }
    if only.is_none() {
        roots_and_sizes();
        layers(rounds);
    }
}
