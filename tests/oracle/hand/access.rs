//! The public calls of document 01 over the extracted chain, with their refusals.
//! A child module of `mps`, so that it reaches the private fields.
use super::svd::{ThinQr, svd_jacobi};
use super::*;
use crate::error::PrismError;
use crate::limits::Limit;
use crate::surround::{NanSingularValue, Shares, begin_shares, take_shares};
use std::fmt::Write;
use std::panic::{AssertUnwindSafe, catch_unwind, resume_unwind};

pub type Gate4 = [[Complex64; 4]; 4];

#[derive(Clone, Copy)]
pub struct Lent {
    pub store: usize,
    pub work: usize,
    /// the reading "start is refused by 2 for a short work slice too" (not document 01's)
    pub start_needs_work: bool,
    /// every panic of the Rust counts as 7 (with the NaN check off)
    pub raw_panic: bool,
}

pub struct Chain {
    pub b: MpsBackend,
    pub d: usize,
    pub exponent: usize,
    pub clamp: f64,
    pub lent: Lent,
    /// the weight discarded at each bond, that between k and k + 1 at k (document 02, W6)
    pub by_bond: [f64; 63],
}

pub enum Answer {
    Refused(u8),
    Done,
    Weight(f64),
    Bit(u8),
}

fn work_needed(d: usize) -> usize {
    80 * d * d + 16 * d
}

impl Chain {
    pub fn start(
        n: usize,
        d: usize,
        exponent: usize,
        epsilon: f64,
        clamp: f64,
        lent: Lent,
    ) -> std::result::Result<Chain, u8> {
        let unit = |x: f64| x >= 0.0 && x < 1.0;
        if !(1..=64).contains(&n)
            || !(1..=128).contains(&d)
            || exponent > 255
            || !unit(epsilon)
            || !unit(clamp)
        {
            return Err(1);
        }
        if lent.store < 4 * n * d * d {
            return Err(2);
        }
        if lent.start_needs_work && lent.work < work_needed(d) {
            return Err(2);
        }
        // W9: above 63 the Rust is asked at 63
        let limits = ResolvedLimits { mps_workspace_qubits: Limit { value: exponent.min(63) } };
        let mut b = MpsBackend::with_limits(0, d, &limits);
        b.set_svd_epsilon(epsilon);
        b.init(n, 64).unwrap();
        crate::backend::set_norm_clamp_min(clamp);
        Ok(Chain { b, d, exponent, clamp, lent, by_bond: [0.0; 63] })
    }

    fn short(&self) -> bool {
        self.lent.work < work_needed(self.d) || self.lent.store < 4 * self.b.num_qubits * self.d * self.d
    }

    /// To each bond's figure the shares of its cuts, in their order.
    fn add_shares(&mut self, shares: Shares) {
        for (k, share) in shares.added {
            self.by_bond[k] += share;
        }
    }

    pub fn gate(&mut self, q0: usize, q1: usize, g: &Gate4) -> Answer {
        crate::backend::set_norm_clamp_min(self.clamp);
        let n = self.b.num_qubits;
        if self.short() {
            return Answer::Refused(2);
        }
        if q0 >= n || q1 >= n || q0 == q1 {
            return Answer::Refused(4);
        }
        if !g.iter().flatten().all(|z| z.re.is_finite() && z.im.is_finite()) {
            return Answer::Refused(5);
        }
        let b = &mut self.b;
        begin_shares();
        let ran = catch_unwind(AssertUnwindSafe(|| b.apply_two_qubit_gate(g, q0, q1)));
        self.add_shares(take_shares());
        match ran {
            Ok(Ok(())) => Answer::Done,
            Ok(Err(PrismError::Workspace(_))) => Answer::Refused(6),
            Err(p) => {
                if self.lent.raw_panic || p.is::<NanSingularValue>() {
                    Answer::Refused(7)
                } else {
                    resume_unwind(p)
                }
            }
        }
    }

    pub fn project(&mut self, q: usize, bit: bool) -> Answer {
        crate::backend::set_norm_clamp_min(self.clamp);
        if self.short() {
            return Answer::Refused(2);
        }
        if q >= self.b.num_qubits {
            return Answer::Refused(4);
        }
        Answer::Weight(self.b.project_z_outcome(q, bit))
    }

    pub fn measure(&mut self, q: usize, flag: usize, draw: f64) -> Answer {
        crate::backend::set_norm_clamp_min(self.clamp);
        if self.short() {
            return Answer::Refused(2);
        }
        if q >= self.b.num_qubits || flag > 63 {
            return Answer::Refused(4);
        }
        if !(draw >= 0.0 && draw < 1.0) {
            return Answer::Refused(5);
        }
        self.b.rng.0 = draw;
        let site = self.b.site_for_logical(q);
        self.b.apply_measure(site, flag);
        Answer::Bit(self.b.classical_bits[flag] as u8)
    }

    pub fn reset(&mut self, q: usize, draw: f64) -> Answer {
        crate::backend::set_norm_clamp_min(self.clamp);
        if self.short() {
            return Answer::Refused(2);
        }
        if q >= self.b.num_qubits {
            return Answer::Refused(4);
        }
        if !(draw >= 0.0 && draw < 1.0) {
            return Answer::Refused(5);
        }
        self.b.rng.0 = draw;
        let site = self.b.site_for_logical(q);
        self.b.apply_reset(site);
        Answer::Done
    }

    pub fn left_env(&self, from: usize, site: usize) -> std::result::Result<Vec<Complex64>, u8> {
        let n = self.b.num_qubits;
        if from >= n || site > n {
            return Err(4);
        }
        Ok(self.b.compute_left_env(from, site))
    }

    pub fn right_env(&self, site: usize, to: usize) -> std::result::Result<Vec<Complex64>, u8> {
        let n = self.b.num_qubits;
        if to >= n || site > n {
            return Err(4);
        }
        Ok(self.b.compute_right_env(site, to))
    }

    pub fn labels(&self) -> &[usize] {
        &self.b.site_to_logical
    }
    pub fn bonds(&self) -> Vec<usize> {
        self.b.sites.iter().map(|s| s.bond_right).collect()
    }
    pub fn discarded(&self) -> f64 {
        self.b.truncation_discarded
    }
    pub fn center(&self) -> Option<usize> {
        self.b.center
    }
    pub fn workspace_of(&self, left: usize) -> usize {
        let (a, b) = (&self.b.sites[left], &self.b.sites[left + 1]);
        20 * a.bond_left * b.bond_right + 2 * a.bond_right * b.bond_right
    }

    /// Is the record sound in the sense of documents 01 and 02 (held after every call)?
    pub fn sound(&self) -> bool {
        let b = &self.b;
        let n = b.num_qubits;
        let s = &b.sites;
        s.len() == n
            && s[0].bond_left == 1
            && s[n - 1].bond_right == 1
            && (0..n - 1).all(|i| s[i].bond_right == s[i + 1].bond_left)
            && s.iter().all(|t| {
                (1..=b.bond_high_water).contains(&t.bond_left)
                    && (1..=b.bond_high_water).contains(&t.bond_right)
                    && t.data.len() == 2 * t.bond_left * t.bond_right
            })
            && b.bond_high_water <= self.d
            && (0..n).all(|i| b.site_to_logical[b.logical_to_site[i]] == i)
            && b.center.is_none_or(|c| c < n)
            && self.by_bond[n - 1..].iter().all(|x| x.to_bits() == 0)
    }

    pub fn dump(&self) -> String {
        let b = &self.b;
        let mut o = String::new();
        let flags = (0..64).fold(0u64, |f, k| f | (b.classical_bits[k] as u64) << k);
        let c = b.center.map_or("-".to_string(), |c| c.to_string());
        let _ = writeln!(
            o,
            "# n {} D {} center {} high {} discarded {} flags {:016X}",
            b.num_qubits, self.d, c, b.bond_high_water, hex(b.truncation_discarded), flags
        );
        let _ = write!(o, "# qubits by site");
        for q in &b.site_to_logical {
            let _ = write!(o, " {q}");
        }
        let _ = write!(o, "\n# discarded by bond");
        for &x in &self.by_bond[..b.num_qubits - 1] {
            let _ = write!(o, " {}", hex(x));
        }
        let _ = writeln!(o);
        for (i, t) in b.sites.iter().enumerate() {
            let _ = write!(o, "# site {} bonds {} {} :", i, t.bond_left, t.bond_right);
            for z in &t.data {
                let _ = write!(o, " {} {}", hex(z.re), hex(z.im));
            }
            let _ = writeln!(o);
        }
        o
    }

    fn dump_left(&self, o: &mut String, from: usize, site: usize) {
        let _ = write!(o, "# left {from} {site} :");
        for z in self.left_env(from, site).unwrap() {
            let _ = write!(o, " {} {}", hex(z.re), hex(z.im));
        }
        let _ = writeln!(o);
    }

    fn dump_right(&self, o: &mut String, site: usize, to: usize) {
        let _ = write!(o, "# right {site} {to} :");
        for z in self.right_env(site, to).unwrap() {
            let _ = write!(o, " {} {}", hex(z.re), hex(z.im));
        }
        let _ = writeln!(o);
    }

    pub fn dump_envs(&self) -> String {
        let n = self.b.num_qubits;
        let mut o = String::new();
        for a in 0..n {
            for s in 0..=n {
                self.dump_left(&mut o, a, s);
                self.dump_right(&mut o, s, a);
            }
        }
        o
    }

    /// The walks from the chain's two ends alone.
    pub fn dump_ends(&self) -> String {
        let n = self.b.num_qubits;
        let mut o = String::new();
        for s in 0..=n {
            self.dump_left(&mut o, 0, s);
            self.dump_right(&mut o, s, n - 1);
        }
        o
    }
}

// ---- whole states in and out, for oracle_calls

/// A whole state, as the chain record and the sites' numbers give it.
#[derive(Clone)]
pub struct State {
    pub bonds: Vec<(usize, usize)>,
    pub logical_to_site: Vec<usize>,
    pub site_to_logical: Vec<usize>,
    pub flags: Vec<bool>,
    pub center: Option<usize>,
    pub high: usize,
    pub discarded: f64,
    pub by_bond: [f64; 63],
    pub data: Vec<Vec<Complex64>>,
}

impl Chain {
    pub fn load(n: usize, d: usize, exponent: usize, epsilon: f64, clamp: f64, lent: Lent, s: &State) -> Chain {
        let mut c = Chain::start(n, d, exponent, epsilon, clamp, Lent { store: usize::MAX, ..lent }).ok().unwrap();
        c.lent = lent;
        c.b.sites = (0..n)
            .map(|k| SiteTensor { bond_left: s.bonds[k].0, bond_right: s.bonds[k].1, data: s.data[k].clone() })
            .collect();
        c.b.logical_to_site = s.logical_to_site.clone();
        c.b.site_to_logical = s.site_to_logical.clone();
        c.b.classical_bits = s.flags.clone();
        c.b.center = s.center;
        c.b.bond_high_water = s.high;
        c.b.truncation_discarded = s.discarded;
        c.by_bond = s.by_bond;
        c
    }

    pub fn state(&self) -> State {
        let b = &self.b;
        State {
            bonds: b.sites.iter().map(|t| (t.bond_left, t.bond_right)).collect(),
            logical_to_site: b.logical_to_site.clone(),
            site_to_logical: b.site_to_logical.clone(),
            flags: b.classical_bits.clone(),
            center: b.center,
            high: b.bond_high_water,
            discarded: b.truncation_discarded,
            by_bond: self.by_bond,
            data: b.sites.iter().map(|t| t.data.clone()).collect(),
        }
    }

    pub fn epsilon(&self) -> f64 {
        self.b.svd_epsilon
    }

    /// Another chain with the same state, nothing shared.
    pub fn copy(&self) -> Chain {
        Chain::load(self.b.num_qubits, self.d, self.exponent, self.b.svd_epsilon, self.clamp, self.lent, &self.state())
    }

    /// One number too many behind each site's data. A site that is rewritten loses it, as `resize` and `clear` do.
    pub fn mark(&mut self) {
        for t in &mut self.b.sites {
            t.data.push(Complex64::new(f64::NAN, 7.0));
        }
    }

    /// The sites whose data was set anew since `mark`.
    pub fn rewritten(&self) -> Vec<bool> {
        self.b.sites.iter().map(|t| t.data.len() == 2 * t.bond_left * t.bond_right).collect()
    }

    /// The two Born weights of qubit q as the Rust finds them, and where the centre then is; on a copy.
    pub fn weights(&self, q: usize) -> [f64; 2] {
        let mut c = self.copy();
        let site = c.b.site_for_logical(q);
        c.b.born_weights(site)
    }

    /// The outcome that the Rust draws from these weights; on a copy.
    pub fn outcome(&self, draw: f64, weights: [f64; 2]) -> usize {
        let mut c = self.copy();
        c.b.rng.0 = draw;
        c.b.draw_outcome(weights)
    }

    pub fn site_of(&self, q: usize) -> usize {
        self.b.site_for_logical(q)
    }
}

pub fn hex(x: f64) -> String {
    if x.is_nan() { "7FF8000000000000".into() } else { format!("{:016X}", x.to_bits()) }
}

// ---- kernels, for the marked examples
pub fn qr(a: &[Complex64], rows: usize, cols: usize) -> (Vec<Complex64>, Vec<Complex64>, usize) {
    let mut t = ThinQr::default();
    t.factorize(a, rows, cols);
    (t.q[..rows * t.rank].to_vec(), t.r[..t.rank * cols].to_vec(), t.rank)
}
pub fn rank(s: &[f64], eps: f64, d: usize) -> usize {
    truncated_svd_rank(s, eps, d)
}
pub fn resolvable(s: &[f64], chi: usize) -> bool {
    discards_resolvable_weight(s, chi)
}
pub fn rank_of_cut(a: usize, b: usize, c: usize) -> u128 {
    cut_rank(a, b, c)
}
pub fn swapped(g: &Gate4) -> Gate4 {
    swap_gate_qubits(g)
}
pub fn truncation(s: &[f64], chi: usize) -> f64 {
    let limits = ResolvedLimits { mps_workspace_qubits: Limit { value: 63 } };
    let mut b = MpsBackend::with_limits(0, 1, &limits);
    b.record_truncation(s, chi);
    b.truncation_discarded
}
pub fn jacobi(a: &[Complex64], m: usize, n: usize) -> SvdResult {
    svd_jacobi(a, m, n)
}
