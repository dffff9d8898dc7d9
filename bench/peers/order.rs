//! The order of keys, which the store and all peers have alike, and what they all do with figures.

/// Each number below `count` once, in an order that jumps about, with multipliers of its own for each seed, so that no
/// order runs along another one.
pub fn shuffled(count: u64, seed: u64) -> impl Iterator<Item = u64> {
    let mask = count.next_power_of_two() - 1;
    let odd = seed.wrapping_mul(0xD6E8_FEB8_6659_FD92) | 1;
    let mix = move |i: u64| {
        let a = i.wrapping_mul(odd) & mask;
        let b = (a ^ (a >> 9)).wrapping_mul(0x85EB_CA6B ^ seed.wrapping_mul(0x2C1B_3C6C)) & mask;
        let c = (b ^ (b >> 7)).wrapping_mul(odd ^ 0x9E37_79B8) & mask;
        let d = (c ^ (c >> 11)).wrapping_mul(0xC2B2_AE35 ^ seed.wrapping_mul(0x1656_67B0)) & mask;
        d ^ (d >> 8)
    };
    (0..=mask).map(mix).filter(move |x| *x < count)
}

/// Prints one figure.
pub fn show(who: &str, operation: &str, figure: f64) {
    println!("{who} {operation} {figure:.1}");
}
