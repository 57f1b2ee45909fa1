//! Reads the words that the harness over the port reads (its own text says which), makes the same calls on the
//! extracted Rust, and writes after each call: answer, record, then of each site whether the call rewrote it and
//! its numbers, then the environment that the call wrote, then of its cuts how many it stored, how many it made again, and
//! of the last stored one whether it was made again, its values and how many of them it keeps (0, no values and 0 where
//! there is none). Refusals 3, 2, 4 and 5 are document 01's, tried in that order.
use num_complex::Complex64;
use oracle::gates::Gate;
use oracle::mps::access::{Answer, Chain, Gate4, Lent, State};
use oracle::surround::{Cuts, NanSingularValue, begin_cuts, take_cuts};
use std::io::{Read, Write};

struct Words {
    bytes: Vec<u8>,
    at: usize,
}
impl Words {
    fn word(&mut self) -> u64 {
        if self.at + 8 > self.bytes.len() {
            return 0;
        }
        self.at += 8;
        u64::from_le_bytes(self.bytes[self.at - 8..self.at].try_into().unwrap())
    }
    fn size(&mut self) -> usize {
        self.word() as usize
    }
    fn number(&mut self) -> f64 {
        f64::from_bits(self.word())
    }
    fn numbers(&mut self) -> Vec<f64> {
        let len = self.size();
        let mut v = Vec::new();
        while v.len() < len {
            let count = self.size();
            let x = self.number();
            v.resize(v.len() + count, x);
        }
        v
    }
    fn list(&mut self) -> Vec<usize> {
        (0..64).map(|_| self.size()).collect()
    }
}

/// The chain record as it was handed over.
#[derive(Clone)]
struct Record {
    n: usize,
    d: usize,
    exponent: usize,
    epsilon: f64,
    clamp: f64,
    bl: Vec<usize>,
    br: Vec<usize>,
    l2s: Vec<usize>,
    s2l: Vec<usize>,
    flags: Vec<usize>,
    center: Option<usize>,
    high: usize,
    discarded: f64,
    by_bond: [f64; 63],
}
fn unit(x: f64) -> bool {
    x >= 0.0 && x < 1.0
}
impl Record {
    fn zero() -> Record {
        let z = vec![0; 64];
        Record {
            n: 0, d: 0, exponent: 0, epsilon: 0.0, clamp: 0.0, bl: z.clone(), br: z.clone(), l2s: z.clone(),
            s2l: z.clone(), flags: z, center: None, high: 0, discarded: 0.0, by_bond: [0.0; 63],
        }
    }
    fn read(w: &mut Words) -> Record {
        Record {
            n: w.size(), d: w.size(), exponent: w.size(), epsilon: w.number(), clamp: w.number(), bl: w.list(),
            br: w.list(), l2s: w.list(), s2l: w.list(), flags: w.list(), center: w.size().checked_sub(1),
            high: w.size(), discarded: w.number(), by_bond: std::array::from_fn(|_| w.number()),
        }
    }
    /// Document 01, "A record is sound if", with the exponents of W9, and W6: the figures past the last bond are +0.
    fn sound(&self) -> bool {
        let n = self.n;
        let ranges = (1..=64).contains(&n) && (1..=128).contains(&self.d) && self.exponent <= 255 && unit(self.epsilon) && unit(self.clamp);
        ranges
            && self.bl[0] == 1
            && self.br[n - 1] == 1
            && (0..n - 1).all(|i| self.br[i] == self.bl[i + 1])
            && (0..n).all(|i| self.bl[i] >= 1 && self.br[i] >= 1 && self.bl[i] <= self.high && self.br[i] <= self.high)
            && self.high <= self.d
            && (0..n).all(|i| self.l2s[i] < n && self.s2l[i] < n && self.s2l[self.l2s[i]] == i && self.l2s[self.s2l[i]] == i)
            && self.center.is_none_or(|c| c < n)
            && (n..64).all(|i| self.bl[i] == 0 && self.br[i] == 0 && self.l2s[i] == 0 && self.s2l[i] == 0)
            && (n - 1..63).all(|i| self.by_bond[i].to_bits() == 0)
    }
    fn chain(&self, store: &[f64], lent: Lent) -> Chain {
        let slot = 4 * self.d * self.d;
        let data = (0..self.n)
            .map(|k| {
                (0..2 * self.bl[k] * self.br[k])
                    .map(|i| Complex64::new(store[k * slot + 2 * i], store[k * slot + 2 * i + 1]))
                    .collect()
            })
            .collect();
        let s = State {
            bonds: (0..self.n).map(|k| (self.bl[k], self.br[k])).collect(),
            logical_to_site: self.l2s[..self.n].to_vec(),
            site_to_logical: self.s2l[..self.n].to_vec(),
            flags: self.flags.iter().map(|&b| b != 0).collect(),
            center: self.center,
            high: self.high,
            discarded: self.discarded,
            by_bond: self.by_bond,
            data,
        };
        Chain::load(self.n, self.d, self.exponent, self.epsilon, self.clamp, lent, &s)
    }
    fn of(c: &Chain) -> Record {
        let s = c.state();
        let pad = |v: Vec<usize>| v.into_iter().chain(std::iter::repeat(0)).take(64).collect::<Vec<_>>();
        Record {
            n: s.bonds.len(), d: c.d, exponent: c.exponent, epsilon: c.epsilon(), clamp: c.clamp,
            bl: pad(s.bonds.iter().map(|b| b.0).collect()), br: pad(s.bonds.iter().map(|b| b.1).collect()),
            l2s: pad(s.logical_to_site), s2l: pad(s.site_to_logical),
            flags: s.flags.iter().map(|&b| b as usize).collect(), center: s.center, high: s.high, discarded: s.discarded,
            by_bond: s.by_bond,
        }
    }
}

struct Out(Vec<u8>);
impl Out {
    fn word(&mut self, x: u64) {
        self.0.extend_from_slice(&x.to_le_bytes());
    }
    fn number(&mut self, x: f64) {
        self.word(bits(x));
    }
    fn record(&mut self, r: &Record) {
        for x in [r.n, r.d, r.exponent] {
            self.word(x as u64);
        }
        self.number(r.epsilon);
        self.number(r.clamp);
        for l in [&r.bl, &r.br, &r.l2s, &r.s2l, &r.flags] {
            for &x in l {
                self.word(x as u64);
            }
        }
        self.word(r.center.map_or(0, |c| c as u64 + 1));
        self.word(r.high as u64);
        self.number(r.discarded);
        for x in r.by_bond {
            self.number(x);
        }
    }
    fn complexes(&mut self, v: &[Complex64]) {
        self.numbers(&v.iter().flat_map(|z| [z.re, z.im]).collect::<Vec<_>>());
    }
    fn numbers(&mut self, v: &[f64]) {
        let w: Vec<u64> = v.iter().map(|&x| bits(x)).collect();
        self.word(w.len() as u64);
        let mut at = 0;
        while at < w.len() {
            let n = w[at..].iter().take_while(|&&x| x == w[at]).count();
            self.word(n as u64);
            self.word(w[at]);
            at += n;
        }
    }
    fn cuts(&mut self, c: &Cuts) {
        self.word(c.stored as u64);
        self.word(c.retries as u64);
        self.word(c.again as u64);
        self.numbers(&c.values);
        self.word(c.kept as u64);
    }
}
fn bits(x: f64) -> u64 {
    if x.is_nan() { 0x7ff8_0000_0000_0000 } else { x.to_bits() }
}

/// What one call gives: the answer's two words, the sites that it rewrote, the environment, its cuts.
struct Given {
    answer: (u64, u64),
    rewritten: Vec<bool>,
    env: Vec<Complex64>,
    cuts: Cuts,
}
fn refused(k: u64) -> Given {
    Given { answer: (0, k), rewritten: Vec::new(), env: Vec::new(), cuts: Cuts::default() }
}

enum Call {
    Gate(usize, usize, Gate4),
    Project(usize, bool),
    Measure(usize, usize, f64),
    Reset(usize, f64),
    Left(usize, usize),
    Right(usize, usize),
}

fn read_call(kind: u64, w: &mut Words) -> Call {
    match kind {
        2 => {
            let (q0, q1) = (w.size(), w.size());
            let mut g: Gate4 = [[Complex64::new(0.0, 0.0); 4]; 4];
            for z in g.iter_mut().flatten() {
                *z = Complex64::new(w.number(), w.number());
            }
            Call::Gate(q0, q1, g)
        }
        3 => {
            let (q0, q1) = (w.size(), w.size());
            let g = match w.word() {
                0 => Gate::Swap,
                1 => Gate::Cx,
                _ => Gate::Cz,
            };
            Call::Gate(q0, q1, g.matrix_4x4())
        }
        4 => Call::Project(w.size(), w.word() != 0),
        5 => Call::Measure(w.size(), w.size(), w.number()),
        6 => Call::Reset(w.size(), w.number()),
        7 => Call::Left(w.size(), w.size()),
        8 => Call::Right(w.size(), w.size()),
        _ => panic!("kind {kind}"),
    }
}

fn run(c: &mut Chain, call: &Call) -> (Answer, Vec<Complex64>) {
    let walk = |e: Result<Vec<Complex64>, u8>| match e {
        Ok(v) => (Answer::Done, v),
        Err(k) => (Answer::Refused(k), Vec::new()),
    };
    match call {
        Call::Gate(q0, q1, g) => (c.gate(*q0, *q1, g), Vec::new()),
        Call::Project(q, bit) => (c.project(*q, *bit), Vec::new()),
        Call::Measure(q, flag, draw) => (c.measure(*q, *flag, *draw), Vec::new()),
        Call::Reset(q, draw) => (c.reset(*q, *draw), Vec::new()),
        Call::Left(from, site) => walk(c.left_env(*from, *site)),
        Call::Right(site, to) => walk(c.right_env(*site, *to)),
    }
}

/// The call on c. A marked copy goes through the same call and says which sites were rewritten.
fn made(c: &mut Chain, call: &Call) -> Given {
    let before = c.copy();
    let mut marked = c.copy();
    begin_cuts();
    let (a, env) = run(c, call);
    let cuts = take_cuts();
    if matches!(call, Call::Left(..) | Call::Right(..)) {
        return match a {
            Answer::Refused(k) => refused(k as u64),
            _ => Given { answer: (5, (env.len() as f64).sqrt() as u64), rewritten: vec![false; c.bonds().len()], env, cuts },
        };
    }
    marked.mark();
    run(&mut marked, call);
    let mut rewritten = marked.rewritten();
    let mut answer = match a {
        Answer::Refused(k) => (0, k as u64),
        Answer::Done => (1, 0),
        Answer::Weight(w) => (2, bits(w)),
        Answer::Bit(b) => (4, b as u64),
    };
    if answer.0 != 0 {
        // Which outcome was kept, and whether its weight, undivided, is at most the clamp.
        let kept = match call {
            Call::Project(q, bit) => Some((*q, before.weights(*q)[*bit as usize])),
            Call::Measure(q, _, draw) | Call::Reset(q, draw) => {
                let w = before.weights(*q);
                Some((*q, w[before.outcome(*draw, w)]))
            }
            _ => None,
        };
        if let Some((q, w)) = kept {
            let nothing = w <= before.clamp;
            if !nothing {
                rewritten[before.site_of(q)] = true;
            }
            if nothing && matches!(call, Call::Project(..)) {
                assert!(answer.1 == 0, "Nothing where the Rust returns no 0.0");
                answer = (3, 0);
            }
        }
    }
    Given { answer, rewritten, env, cuts }
}

fn main() {
    let usual = std::panic::take_hook();
    std::panic::set_hook(Box::new(move |p| {
        if !p.payload().is::<NanSingularValue>() {
            usual(p);
        }
    }));
    let mut w = Words { bytes: Vec::new(), at: 0 };
    std::io::stdin().read_to_end(&mut w.bytes).unwrap();
    let mut out = Out(Vec::new());
    let mut record = Record::zero();
    let mut chain: Option<Chain> = None;
    let mut store: Vec<f64> = Vec::new();
    let (mut work, mut result) = (0, 0);
    loop {
        let kind = w.word();
        let lent = Lent { store: store.len(), work, start_needs_work: false, raw_panic: false };
        let given = match kind {
            0 => break,
            10 => {
                record = Record::read(&mut w);
                chain = None;
                continue;
            }
            11 => {
                store = w.numbers();
                chain = None;
                continue;
            }
            12 => {
                work = w.numbers().len();
                if let Some(c) = &mut chain {
                    c.lent.work = work;
                }
                continue;
            }
            13 => {
                result = w.numbers().len();
                continue;
            }
            1 => {
                let (n, d, epsilon, clamp, exponent) = (w.size(), w.size(), w.number(), w.number(), w.size());
                match Chain::start(n, d, exponent, epsilon, clamp, lent) {
                    Ok(c) => {
                        record = Record::of(&c);
                        chain = Some(c);
                        Given { answer: (1, 0), rewritten: vec![true; n], env: Vec::new(), cuts: Cuts::default() }
                    }
                    Err(k) => {
                        record = Record::zero();
                        chain = None;
                        refused(k as u64)
                    }
                }
            }
            _ => {
                let call = read_call(kind, &mut w);
                let walk = matches!(call, Call::Left(..) | Call::Right(..));
                let (n, d) = (record.n, record.d);
                if !record.sound() {
                    refused(3)
                } else if store.len() < 4 * n * d * d || work < 80 * d * d + 16 * d || (walk && result < 2 * d * d) {
                    refused(2)
                } else {
                    let c = chain.get_or_insert_with(|| record.chain(&store, lent));
                    let g = made(c, &call);
                    record = Record::of(c);
                    assert!(record.sound(), "record unsound");
                    g
                }
            }
        };
        out.word(given.answer.0);
        out.word(given.answer.1);
        out.record(&record);
        match &chain {
            Some(c) => {
                let s = c.state();
                out.word(s.data.len() as u64);
                for (k, v) in s.data.iter().enumerate() {
                    out.word(given.rewritten.get(k).copied().unwrap_or(false) as u64);
                    out.complexes(v);
                }
            }
            None => out.word(0),
        }
        out.complexes(&given.env);
        out.cuts(&given.cuts);
    }
    std::io::stdout().write_all(&out.0).unwrap();
}
