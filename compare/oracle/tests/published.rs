//! The published files are as published, and what is compiled is their text.

const PROOF_CHECKER: &str = include_str!("../egglog/proof_checker.rs");
const PROOF_FORMAT: &str = include_str!("../egglog/proof_format.rs");
const TERMDAG: &str = include_str!("../egglog/termdag.rs");
const LICENSE: &str = include_str!("../egglog/LICENSE");

const COMPILED_TERMDAG: &str = include_str!("../src/termdag.rs");
const COMPILED_PROOFS: &str = include_str!("../src/proofs/mod.rs");

const FINGERPRINTS: [u64; 4] = [
    0xa766_0c32_81d0_11db,
    0x0667_950b_e330_47ee,
    0x5d15_bc22_87e8_0fae,
    0xc1bb_b98e_983b_5dbc,
];

/// FNV-1a, 64 bits.
fn fingerprint(text: &str) -> u64 {
    text.bytes().fold(0xcbf2_9ce4_8422_2325, |hash, byte| {
        (hash ^ u64::from(byte)).wrapping_mul(0x0100_0000_01b3)
    })
}

#[test]
fn published_files_are_unchanged() {
    let expected = [
        (PROOF_CHECKER, 52_662, FINGERPRINTS[0]),
        (PROOF_FORMAT, 36_491, FINGERPRINTS[1]),
        (TERMDAG, 18_852, FINGERPRINTS[2]),
        (LICENSE, 1_069, FINGERPRINTS[3]),
    ];
    for (text, bytes, hash) in expected {
        assert_eq!(text.len(), bytes);
        assert_eq!(fingerprint(text), hash, "{:#x}", fingerprint(text));
    }
}

/// The texts between the marks of the compiled `termdag.rs`.
fn extracts() -> Vec<&'static str> {
    COMPILED_TERMDAG
        .split("// published: begin\n")
        .skip(1)
        .map(|rest| rest.split("// published: end").next().expect("a text"))
        .map(|extract| extract.trim_end_matches(' '))
        .collect()
}

#[test]
fn extracts_of_termdag_are_word_for_word() {
    let extracts = extracts();
    assert_eq!(extracts.len(), 6);
    for extract in &extracts {
        assert!(TERMDAG.contains(extract), "not published: {extract}");
    }
}

#[test]
fn everything_named_by_document_01_is_extracted() {
    let all = extracts().concat();
    for item in [
        "pub type TermId",
        "pub enum Term ",
        "pub struct TermDag ",
        "pub fn get(",
        "pub fn app(",
        "pub fn lit(",
        "fn add_node(",
    ] {
        assert!(all.contains(item), "not extracted: {item}");
    }
}

#[test]
fn proof_checker_and_proof_format_are_compiled_whole() {
    assert!(COMPILED_PROOFS.contains("#[path = \"../../egglog/proof_checker.rs\"]"));
    assert!(COMPILED_PROOFS.contains("include!(\"../../egglog/proof_format.rs\");"));
}
