//! Compares the proved functions of crates/arith, linked as a static library, with code written here
//! from the definitions: the cube root over big integers, the loss delay over u128, and Rust's own
//! float operations and casts. Prints the counts and exits with 1 on any difference.
use std::hint::black_box;
use std::time::Instant;

extern "C" {
    fn skavvilet_cube_root(x: f64) -> f64;
    fn skavvilet_cube_root_refusal(x: f64) -> u8;
    fn skavvilet_rounded_product(ns: u64, spurious: bool) -> u64;
    fn skavvilet_truncated(x: f64) -> u64;
    fn skavvilet_seconds_of(ns: u64) -> f64;
}

const LIMIT: u64 = (1 << 53) - 1;

/// A natural number, its lowest 32 bits first, with no zeros at its end.
#[derive(Clone, PartialEq, Eq)]
struct Big(Vec<u32>);

impl Big {
    fn new(mut n: u64) -> Big {
        let mut words = Vec::new();
        while n > 0 {
            words.push(n as u32);
            n >>= 32;
        }
        Big(words)
    }

    fn times(&self, other: &Big) -> Big {
        let mut out = vec![0u32; self.0.len() + other.0.len() + 1];
        for (i, &a) in self.0.iter().enumerate() {
            let mut carry = 0u64;
            for (j, &b) in other.0.iter().enumerate() {
                let t = out[i + j] as u64 + a as u64 * b as u64 + carry;
                out[i + j] = t as u32;
                carry = t >> 32;
            }
            out[i + other.0.len()] = carry as u32;
        }
        while out.last() == Some(&0) {
            out.pop();
        }
        Big(out)
    }

    fn shifted(&self, bits: u32) -> Big {
        let mut power = vec![0u32; (bits / 32) as usize];
        power.push(1 << (bits % 32));
        self.times(&Big(power))
    }

    fn at_most(&self, other: &Big) -> bool {
        if self.0.len() != other.0.len() {
            return self.0.len() < other.0.len();
        }
        self.0.iter().rev().le(other.0.iter().rev())
    }
}

/// The digits and the exponent of a finite float from 0 on: n * 2^e.
fn parts(x: f64) -> (u64, i32) {
    let field = (x.to_bits() >> 52) as i32;
    let digits = x.to_bits() & ((1 << 52) - 1);
    if field == 0 { (digits, -1074) } else { (digits | 1 << 52, field - 1075) }
}

/// Whether the exact cube of r is at most x.
fn cube_at_most(r: f64, x: f64) -> bool {
    let (n, f) = parts(r);
    let (m, e) = parts(x);
    let digits = Big::new(n);
    let cube = digits.times(&digits).times(&digits);
    let low = e.min(3 * f);
    cube.shifted((3 * f - low) as u32).at_most(&Big::new(m).shifted((e - low) as u32))
}

/// The root by its definition, and the refusal's number: from any guess, up while the next float's
/// cube is at most x, down while this one's is not.
fn root(x: f64) -> (f64, u8) {
    if x == 0.0 {
        return (0.0, 0);
    }
    if !(x >= 2f64.powi(-60) && x <= 2f64.powi(40)) {
        return (0.0, 2);
    }
    let mut r = x.cbrt();
    while cube_at_most(r.next_up(), x) {
        r = r.next_up();
    }
    while !cube_at_most(r, x) {
        r = r.next_down();
    }
    (r, 0)
}

/// The delay by its definition, and 0 where it is refused.
fn delay(ns: u64, spurious: bool) -> u64 {
    let (num, den) = if spurious { (5u128, 4u128) } else { (9, 8) };
    let product = num * ns as u128;
    let nearest = product / den + if 2 * (product % den) >= den { 1 } else { 0 };
    if nearest > LIMIT as u128 { 0 } else { nearest as u64 }
}

/// splitmix64
struct Chance(u64);

impl Chance {
    fn next(&mut self) -> u64 {
        self.0 = self.0.wrapping_add(0x9e37_79b9_7f4a_7c15);
        let a = (self.0 ^ (self.0 >> 30)).wrapping_mul(0xbf58_476d_1ce4_e5b9);
        let b = (a ^ (a >> 27)).wrapping_mul(0x94d0_49bb_1331_11eb);
        b ^ (b >> 31)
    }

    fn below(&mut self, n: u64) -> u64 {
        self.next() % n
    }

    /// A float from lo on and below hi, all patterns alike.
    fn float(&mut self, lo: f64, hi: f64) -> f64 {
        f64::from_bits(lo.to_bits() + self.below(hi.to_bits() - lo.to_bits()))
    }
}

fn near(all: &mut Vec<f64>, x: f64) {
    all.extend([x.next_down(), x, x.next_up()]);
}

fn root_arguments(chance: &mut Chance) -> Vec<f64> {
    let (least, greatest) = (2f64.powi(-60), 2f64.powi(40));
    let mut all = Vec::new();
    let odd = [0.0, -0.0, f64::NAN, -f64::NAN, f64::INFINITY, f64::NEG_INFINITY, f64::MAX, f64::MIN];
    all.extend(odd);
    all.extend([f64::MIN_POSITIVE, 5e-324, -5e-324, -1.0, -8.0, -least, -greatest]);
    for e in -1074..1024 {
        near(&mut all, 2f64.powi(e));
    }
    // Perfect cubes, with their neighbours: 208,063 is the largest whole number whose cube has 53 digits.
    for n in 1..=2000u64 {
        near(&mut all, (n * n * n) as f64);
    }
    for _ in 0..40_000 {
        let n = 1 + chance.below(208_063);
        let cube = (n * n * n) as f64;
        near(&mut all, cube * 2f64.powi(3 * (chance.below(40) as i32 - 38)));
    }
    // Just about the cubes of floats with all their digits in use.
    for _ in 0..40_000 {
        let r = chance.float(2f64.powi(-20), 2f64.powi(13) * 1.25);
        near(&mut all, r * r * r);
    }
    for _ in 0..150_000 {
        all.push(chance.float(least, greatest));
    }
    for _ in 0..20_000 {
        all.push(f64::from_bits(chance.next()));
    }
    all
}

fn span_arguments(chance: &mut Chance) -> Vec<u64> {
    let mut all: Vec<u64> = (0..4096).collect();
    let edges = [LIMIT, LIMIT / 9 * 8, LIMIT / 5 * 4, 1 << 32, 1_000_000_000, 333_000_000, u64::MAX - 2000];
    for edge in edges {
        all.extend(edge.saturating_sub(2000)..=edge + 2000.min(u64::MAX - edge));
    }
    for _ in 0..200_000 {
        let bits = chance.below(64);
        all.push(chance.next() >> bits);
    }
    all
}

fn float_arguments(chance: &mut Chance) -> Vec<f64> {
    let mut all = vec![f64::NAN, f64::INFINITY, f64::NEG_INFINITY, 0.0, -0.0, -0.5, -1.0, f64::MAX, f64::MIN];
    for e in -3..70 {
        near(&mut all, 2f64.powi(e));
        near(&mut all, -2f64.powi(e));
    }
    for _ in 0..100_000 {
        all.push(chance.float(0.25, 2f64.powi(66)));
        all.push(f64::from_bits(chance.next()));
    }
    all
}

/// Prints a count line and answers how many bits differ.
fn compared(what: &str, count: usize, bits: u32) -> u32 {
    println!("{what}: {count} arguments, {bits} differing bits");
    bits
}

fn main() {
    let mut chance = Chance(0x736b_6176_7669_6c65);
    let mut wrong = 0;

    let all = root_arguments(&mut chance);
    let mut bits = 0;
    for &x in &all {
        let (r, refusal) = root(x);
        let ours = unsafe { skavvilet_cube_root(x) };
        let number = unsafe { skavvilet_cube_root_refusal(x) };
        let apart = (r.to_bits() ^ ours.to_bits()).count_ones() + (refusal ^ number).count_ones();
        if apart > 0 && bits == 0 {
            println!("root of {:#018x}: {ours:e} {number}, and not {r:e} {refusal}", x.to_bits());
        }
        bits += apart;
    }
    wrong += compared("cube root", all.len(), bits);

    let all = span_arguments(&mut chance);
    let mut bits = 0;
    for &ns in &all {
        for spurious in [false, true] {
            bits += (delay(ns, spurious) ^ unsafe { skavvilet_rounded_product(ns, spurious) }).count_ones();
        }
    }
    wrong += compared("loss delay, 9/8 and 5/4", all.len(), bits);
    let mut bits = 0;
    for &ns in &all {
        let seconds = (ns / 1_000_000_000) as f64 + (ns % 1_000_000_000) as f64 / 1e9;
        bits += (seconds.to_bits() ^ unsafe { skavvilet_seconds_of(ns) }.to_bits()).count_ones();
    }
    wrong += compared("seconds", all.len(), bits);

    let all = float_arguments(&mut chance);
    let mut bits = 0;
    for &x in &all {
        bits += (x as usize as u64 ^ unsafe { skavvilet_truncated(x) }).count_ones();
    }
    wrong += compared("truncation", all.len(), bits);

    let timed: Vec<f64> = (0..100_000).map(|_| chance.float(2f64.powi(-60), 2f64.powi(40))).collect();
    let mut least = u128::MAX;
    for _ in 0..5 {
        let began = Instant::now();
        for &x in &timed {
            black_box(unsafe { skavvilet_cube_root(black_box(x)) });
        }
        least = least.min(began.elapsed().as_nanos() / timed.len() as u128);
    }
    println!("{least} ns a cube root, the least of 5 runs over {} arguments", timed.len());
    if wrong > 0 {
        std::process::exit(1);
    }
}
