//! A friend whose keys all begin their search at one place of `indexmap`'s table: hostile_keys ENTRIES BITS
//!     rustc -O bench/hostile_keys.rs && ./hostile_keys 200000 15 >friend.csv
//! BITS is that of the table's groups, of which it has at least ENTRIES divided by 9: 15 for 200,000, 17 for 1,000,000.
use std::io::{BufWriter, Write};

// The hash of an i64 by `FoldHasher`, whose seed is fixed, in the 32 bits that the table takes of it.
fn hash(key: u64) -> u32 {
    let product = (0x243f_6a88_85a3_08d3 ^ key) as u128 * (0x9e37_79b9_7f4a_7c15u64 ^ 16) as u128;
    let folded = product as u64 ^ (product >> 64) as u64;
    (folded ^ (folded >> 32)) as u32
}

fn main() -> std::io::Result<()> {
    let words: Vec<usize> = std::env::args().skip(1).map(|word| word.parse().expect("a number")).collect();
    let [entries, bits] = words[..] else { panic!("hostile_keys ENTRIES BITS") };
    let mut out = BufWriter::new(std::io::stdout().lock());
    writeln!(out, "k:int,run:int")?;
    let keys = (1u64..).filter(|key| hash(*key) & ((1 << bits) - 1) == 0);
    for (entry, key) in keys.take(entries).enumerate() {
        writeln!(out, "{},{entry}", key as i64)?;
    }
    Ok(())
}
