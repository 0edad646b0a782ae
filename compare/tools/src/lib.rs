//! What the commands share: the bench jobs, the fixed list, the program, and printing.

pub mod bench_jobs;
pub mod colliding;
pub mod doubling;
pub mod fixed_list;
pub mod index_model;
pub mod print;
pub mod program;

/// Words as bytes, little-endian.
pub fn to_bytes(words: &[u32]) -> Vec<u8> {
    words.iter().flat_map(|word| word.to_le_bytes()).collect()
}

/// Bytes as words; what is left over is dropped.
pub fn to_words(bytes: &[u8]) -> Vec<u32> {
    bytes
        .chunks_exact(4)
        .map(|word| u32::from_le_bytes(word.try_into().expect("four bytes")))
        .collect()
}
