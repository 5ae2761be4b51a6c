//! Rust's methods on f64 as document 01 has them ('Reference build'), where Rust itself leaves the
//! answer open.

/// The smaller: of two zeros with unlike signs the first; a NaN is passed over.
pub fn min(x: f64, y: f64) -> f64 {
    if y < x || x.is_nan() { y } else { x }
}

/// The larger: of two zeros with unlike signs the first; a NaN is passed over.
pub fn max(x: f64, y: f64) -> f64 {
    if x < y || x.is_nan() { y } else { x }
}

/// lo for an x below it, then hi for what is above it; a NaN stays.
pub fn clamp(x: f64, lo: f64, hi: f64) -> f64 {
    let y = if x < lo { lo } else { x };
    if hi < y { hi } else { y }
}

/// v, v·v, (v·v)·v, (v·v)·(v·v) for n from 1 to 4; 1 for 0, and NaN above 4, which nothing asks
/// for.
pub fn powi(v: f64, n: u32) -> f64 {
    match n {
        0 => 1.0,
        1 => v,
        2 => v * v,
        3 => (v * v) * v,
        4 => (v * v) * (v * v),
        _ => f64::NAN,
    }
}

/// Whether x is at most y in the order -inf .. -0, +0 .. inf, NaN, where all NaNs count as one.
pub fn total_le(x: f64, y: f64) -> bool {
    let one = |v: f64| if v.is_nan() { f64::NAN.abs() } else { v };
    one(x).total_cmp(&one(y)).is_le()
}

/// x rounded down, plus 8192, clipped to 0 ..= 16383; 0 for a NaN.
pub fn floor(x: f64) -> u64 {
    (x.floor() + 8192.0).clamp(0.0, 16383.0) as u64
}
