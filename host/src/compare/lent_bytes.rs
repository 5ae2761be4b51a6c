//! Answers in lent bytes: stored whole, or not at all.

/// Calls `export` with up to eight bytes more than those it is to be `handed`, and with room for
/// up to 200 bytes. It stores `size` bytes and says so where there are enough of both, and else
/// stores nothing and says 0; it alters no other byte. A size of 0 is an answer that is never
/// stored.
pub fn whole_or_nothing(
    name: &str,
    handed: usize,
    size: usize,
    export: impl Fn(&[u8], &mut [u8]) -> u64,
) {
    let doubles = (1..).flat_map(|i| (i as f64).to_le_bytes());
    let from: Vec<u8> = doubles.take(handed + 8).collect();
    let before: Vec<u8> = (0..200).map(|i| i as u8 ^ 0x5A).collect();
    let lengths = (0..=from.len()).map(|n| (n, 200));
    for (n, room) in lengths.chain((0..=200).map(|room| (handed, room))) {
        let mut out = before.clone();
        let said = export(&from[..n], &mut out[..room]);
        let stored = if n >= handed && room >= size { size } else { 0 };
        assert_eq!(said, stored as u64, "{name}: {n} bytes, room for {room}");
        assert_eq!(out[stored..], before[stored..], "{name}: {n} bytes, room for {room}");
    }
}
