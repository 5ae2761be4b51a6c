//! Stored vectors: inputs for the crate `leafcases` and what it prints for them, from `exact`
//! alone.
use crate::compare::bits;
use crate::inputs::leaves::{self, step};
use crate::inputs::near_ties;
use crate::inputs::random::Random;
use crate::truth::angle::{Sine, third_angle};
use crate::truth::exact;
use std::fs;
use std::path::Path;

const SEED: u64 = 401;
/// How many middles are tried for each of the hard cases.
const TRIED: usize = 250_000;

/// A letter for the leaf, its double and its power; a leaf that takes no double, or no power, has a
/// 0 there.
#[derive(Clone, Copy)]
pub struct Record {
    pub leaf: u8,
    pub x: f64,
    pub k: i32,
}

impl Record {
    /// 14 bytes: the letter, x lowest byte first, the sign of k, its size lowest byte first.
    pub fn bytes(&self) -> Vec<u8> {
        let sign = if self.k < 0 { b'-' } else { b'+' };
        let mut all = vec![self.leaf];
        all.extend(self.x.to_le_bytes());
        all.push(sign);
        all.extend(self.k.unsigned_abs().to_le_bytes());
        all
    }

    /// The line that `leafcases` prints for it.
    pub fn line(&self) -> String {
        let Record { leaf, x, k } = *self;
        let hex = |x: f64| format!("{:016X}", bits(x));
        let of_x = |name: &str, r: f64| format!("{name} {} {}", hex(x), hex(r));
        let pair = |name: &str, sine| {
            let (c, s) = third_angle(sine, x);
            format!("{name} {} {} {}", hex(x), hex(c), hex(s))
        };
        match leaf {
            b's' => of_x("sqrt", exact::sqrt(x)),
            b'c' => of_x("cbrt", exact::cbrt(x)),
            b'l' => of_x("log2", exact::log2(x)),
            b'a' => pair("third", Sine::OfRounded),
            b'b' => pair("exact", Sine::OfExact),
            b'd' => format!("ldexp {} {k} {}", hex(x), hex(exact::ldexp(x, k))),
            b'e' => format!("exponent {} {}", hex(x), exact::exponent(x)),
            _ => format!("pow2 {k} {}", hex(exact::pow2(k))),
        }
    }
}

fn of(leaf: u8, inputs: impl IntoIterator<Item = f64>) -> Vec<Record> {
    inputs.into_iter().map(|x| Record { leaf, x, k: 0 }).collect()
}

fn square_roots(r: &mut Random) -> Vec<Record> {
    let mut x = leaves::edges();
    x.extend(near_ties::sqrt_ties(200).into_iter().take(12));
    x.extend(near_ties::sqrt(r, TRIED, 4));
    x.extend(leaves::neighbours([4.0, 9.0, 2f64.powi(-1022)], 1));
    of(b's', x)
}

fn cube_roots(r: &mut Random) -> Vec<Record> {
    let mut x = leaves::edges();
    x.extend(near_ties::cbrt(r, TRIED, 16));
    x.extend(leaves::neighbours([8.0, -27.0], 1));
    of(b'c', x)
}

/// The edges of v: ±0, ±1 and their neighbours, and tiny ones.
fn third_edges() -> Vec<f64> {
    let mut v = vec![0.0, -0.0, 0.5, -0.5, 2.0, f64::NAN, f64::INFINITY, f64::NEG_INFINITY];
    v.extend((-6..=2).flat_map(|s| [step(1.0, s), step(-1.0, s)]));
    v.extend([1, 2, 1 << 51, (1 << 52) - 1, 1 << 52].map(f64::from_bits));
    v.extend([-60, -54, -53, -52, -30, -1].map(|k| -exact::ldexp(1.0, k)));
    v
}

/// The middles about v = 0 and elsewhere.
fn thirds(r: &mut Random) -> Vec<Record> {
    let mut v = third_edges();
    v.extend(leaves::third_middles_at_zero(2));
    v.extend(near_ties::third(r, TRIED, 16));
    of(b'a', v)
}

/// Of 100,000,000 values of v from -1 to 1, those whose s of the exact c lies nearest a middle of two
/// doubles: from within 2^-85 of it, by its size, to within 2^-75.
const HARD: [u64; 20] = [
    0xBFE1_5715_F7CF_1D70,
    0x3FBF_02B3_871E_B3D0,
    0xBFCC_9654_C82A_6A68,
    0xBFD3_C123_E1D6_EE54,
    0x3FDA_DC3B_4537_F8D4,
    0xBFCF_DFDE_AC92_7F90,
    0x3FEC_6244_C2B7_224C,
    0x3FC7_9C9C_D532_D9E8,
    0x3FBC_DA40_906B_2DD0,
    0xBFD6_5881_236E_BB20,
    0xBFE3_FF99_534C_F296,
    0xBFD2_2D15_DBFF_7A08,
    0xBF73_E342_324A_DA00,
    0x3FD6_B398_BC54_8198,
    0x3FE8_28DB_5277_3652,
    0x3FB0_6BC7_F9B6_30E0,
    0xBFEE_0DF0_DC64_4090,
    0x3FE1_0557_C2D2_B928,
    0x3FED_0D85_40B1_FBA8,
    0xBFE2_BAE6_1F47_FDB4,
];

/// With s of the exact c: just below 1, where c is 1 or nearly; about 0, where s is a half or
/// nearly; and the hard ones.
fn exact_thirds(_: &mut Random) -> Vec<Record> {
    let mut v = third_edges();
    v.extend((-20..-6).map(|s| step(1.0, s)));
    v.extend([-50, -45, -40, -30, -20, -10].map(|k| 1.0 - exact::ldexp(1.0, k)));
    v.extend((-56..=-50).flat_map(|k| [exact::ldexp(1.0, k), -exact::ldexp(1.5, k)]));
    v.extend([1, 2, 1 << 51, (1 << 52) - 1, 1 << 52].map(|n| -f64::from_bits(n)));
    v.extend(leaves::third_middles_at_zero(2));
    v.extend(HARD.map(f64::from_bits));
    of(b'b', v)
}

/// L at thresholds and just below, at 1 and 3, and at the edges.
fn logarithms(r: &mut Random) -> Vec<Record> {
    let mut x = vec![3.0, f64::from_bits(0x8000_0000_0000_0001), -1.0, -0.0, f64::NEG_INFINITY];
    x.extend(leaves::edges().into_iter().filter(|x| x.is_sign_positive()));
    for n in [0, 1, 2, 63, 127, 128, 149, 150, 191, 254, 255] {
        let t = exact::thresholds()[n];
        let k = r.below(2046) as i32 - 1074;
        x.extend([t - 1, t].map(|t| exact::nearest(t, k)));
        x.extend([0, 1].map(|up| exact::nearest((t >> 40) + up, -1074)));
    }
    of(b'l', x)
}

/// Powers at the ends of the Rust's steps, results about 2^-1022, and results that are rounded
/// twice.
fn scales(r: &mut Random) -> Vec<Record> {
    let mut all = vec![(0x3E1A_6C40_0000_0001, -1031)];
    let ends = [0, 1, -1, 1000, -1000, 1001, -1001, 2001, -2001, 2147483647, -2147483647];
    all.extend(ends.map(|k| (0x3FF8_0000_0000_0001, k)));
    let edges =
        [0, 1 << 63, 1, 0x8000_0000_0000_0001, 0x000F_FFFF_FFFF_FFFF, 0x7FEF_FFFF_FFFF_FFFF];
    all.extend(edges.map(|x| (x, -1)));
    all.extend(edges.map(|x| (x, 2098)));
    let others = [0x7FF0_0000_0000_0000, 0xFFF0_0000_0000_0000, 0x7FF8_0000_0000_0000];
    all.extend(others.map(|x| (x, -3000)));
    all.extend((-1076..=-1070).map(|k| (0x3FF8_0000_0000_0000, k)));
    all.extend((1022..=1025).map(|k| (0x3FEF_FFFF_FFFF_FFFF, k)));
    let given = all.into_iter().map(|(x, k)| (f64::from_bits(x), k));
    let record = |(x, k)| Record { leaf: b'd', x, k };
    given.chain(rounded_twice(r, 36)).map(record).collect()
}

/// x and k whose chain of products ends elsewhere than one product would.
fn rounded_twice(r: &mut Random, n: usize) -> Vec<(f64, i32)> {
    let mut all = Vec::new();
    while all.len() < n {
        let (x, place) = (r.bits(), -1025 - r.below(48) as i32);
        let k = place - exact::exponent(x);
        let once = exact::digits(x).map(|d| exact::nearest(d.w, d.k + k));
        if k < -1000 && once.is_some_and(|once| once != exact::ldexp(x, k).abs()) {
            all.push((x, k));
        }
    }
    all
}

fn exponents(r: &mut Random) -> Vec<Record> {
    let mut x = leaves::edges();
    x.extend((0..20).map(|_| r.subnormal()));
    of(b'e', x)
}

fn powers(r: &mut Random) -> Vec<Record> {
    let mut k: Vec<i32> = (-1025..=-1020).chain(1020..=1026).chain(-3..=3).collect();
    k.extend([-1075, -1074, -1000, 1000, 2098, -2098, 2147483647, -2147483647]);
    k.extend((0..50).map(|_| r.below(2046) as i32 - 1022));
    let record = |k| Record { leaf: b'p', x: 0.0, k };
    k.into_iter().map(record).collect()
}

/// All records, the same at every call.
pub fn leaves() -> Vec<Record> {
    let mut r = Random::new(SEED);
    let kinds =
        [square_roots, cube_roots, thirds, logarithms, scales, exponents, powers, exact_thirds];
    kinds.into_iter().flat_map(|kind| kind(&mut r)).collect()
}

/// Writes DIR/data/leaves and DIR/stdout, and says how many records.
pub fn write_leaves(dir: &Path) -> std::io::Result<usize> {
    let records = leaves();
    let data: Vec<u8> = records.iter().flat_map(Record::bytes).collect();
    let lines: String = records.iter().map(|r| r.line() + "\n").collect();
    fs::create_dir_all(dir.join("data"))?;
    fs::write(dir.join("data/leaves"), data)?;
    fs::write(dir.join("stdout"), lines)?;
    Ok(records.len())
}
