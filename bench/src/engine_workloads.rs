//! The workloads of what engines do with the calls, each at two sizes.

use crate::workloads::*;

/// Patterns that match at each position in the workloads of sets.
const PATTERNS_OF_A_MATCH: u32 = 8;
const MATCHES: u32 = 512;

/// These workloads, in the order in which they are measured.
pub fn all() -> Vec<Workload> {
    let mut all = vec![];
    let mut add = |name: &str, kernel: u32, data: Vec<u8>, param: u64, ops: u64| {
        let name = name.to_string();
        all.push(Workload { name, kernel, data, param, ops, less: None });
    };
    let newline = 0x0Au64 << 32;
    let sizes = [("64k", 64 * KIB), ("1m", KIB * KIB)];

    // Where assertions hold. `\b` of Unicode isn't measured over binary bytes, where the two sides differ:
    // docs/DIFFERENCES.md.
    let texts: [(&str, fn(usize) -> Vec<u8>); 3] =
        [("ascii", ascii), ("mixed", mixed), ("binary", binary)];
    for (text_name, text) in texts {
        for (i, look) in [(8, "word_unicode"), (6, "word_ascii"), (2, "start_lf")] {
            if text_name == "binary" && look == "word_unicode" {
                continue;
            }
            for (size_name, size) in sizes {
                let name = format!("scan_{look}_{text_name}_{size_name}");
                add(&name, SCAN, text(size), newline | 1 << i, size as u64 + 1);
            }
        }
    }

    // The steps of an automaton of 64 states.
    for (size_name, size) in sizes {
        let data = ranges(20, &ascii(size));
        add(&format!("class_steps_{size_name}"), STEPS, data, 64, size as u64);
    }

    for patterns in [10, 100] {
        let name = format!("classes_of_patterns_{patterns}");
        add(&name, PATTERN_CLASSES, ranges_of_patterns(patterns), 0x0A, 1);
    }

    for matches in [1000, 100_000] {
        let data = group_lists(1, 3);
        add(&format!("captures_of_matches_{matches}"), MATCH_CAPTURES, data, matches, matches);
    }

    for capacity in [64, 1000] {
        let data = patterns_of_matches(capacity);
        let (param, ops) = (u64::from(capacity), u64::from(MATCHES));
        add(&format!("pset_of_matches_{capacity}"), MATCH_SETS, data, param, ops);
    }
    all
}

/// How many assertions there are, their numbers, and pairs of first and last byte: six ranges for each pattern, and an
/// assertion for each second one.
fn ranges_of_patterns(patterns: u8) -> Vec<u8> {
    let mut numbers = Numbers(u64::from(patterns));
    let looks: Vec<u8> = (0..patterns / 2).map(|_| numbers.below(18) as u8).collect();
    let mut data = vec![patterns / 2];
    data.extend(looks);
    for _ in 0..6 * u32::from(patterns) {
        let first = numbers.below(0x80) as u8;
        data.extend([first, first + numbers.below(26) as u8]);
    }
    data
}

/// How many patterns a match has, and the patterns of each match.
fn patterns_of_matches(capacity: u32) -> Vec<u8> {
    let mut numbers = Numbers(u64::from(capacity));
    let count = PATTERNS_OF_A_MATCH * MATCHES;
    let patterns = (0..count).map(|_| numbers.below(u64::from(capacity)) as u32);
    le_bytes([PATTERNS_OF_A_MATCH].into_iter().chain(patterns))
}
