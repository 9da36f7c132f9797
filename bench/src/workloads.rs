//! The workloads of the benchmark: their inputs, and what a kernel does with them.
//!
//! Nothing here names a library. Each side has one function of the type `Kernel`; what a kernel does in
//! a repetition, and what it adds to the sum, is said at its function in the crate rsc_kernels.

use crate::engine_workloads;

/// Kernel number, input bytes and their length, a parameter, repetitions; answers a
/// sum (wrapping, 64 bits) over all repetitions. What has to be made first is made
/// once, before the repetitions.
pub type Kernel = unsafe extern "C" fn(u32, *const u8, usize, u64, u64) -> u64;

pub const WORD_BYTES: u32 = 1;
pub const DECODE: u32 = 2;
pub const DECODE_LAST: u32 = 3;
pub const CHAR_BOUNDARIES: u32 = 4;
pub const HAYSTACK_TEXT: u32 = 5;
pub const BYTE_TEXT: u32 = 6;
pub const SMALL_NEW: u32 = 7;
pub const PATTERN_ITER: u32 = 8;
pub const BYTE_CLASSES: u32 = 10;
pub const CLASSES_OF_RANGES: u32 = 11;
pub const CLASSES_OF: u32 = 12;
pub const MAP_GET: u32 = 13;
pub const MAP_ITER: u32 = 14;
pub const MAP_REPS: u32 = 15;
pub const MAP_ELEMS: u32 = 16;
pub const MAP_ELEMS_ALL: u32 = 17;
pub const BYTESET_CONTAINS: u32 = 18;
pub const BYTESET_ITER: u32 = 19;
pub const BYTESET_RANGES: u32 = 20;
pub const LOOK_AT: u32 = 30;
pub const SET_AT: u32 = 31;
pub const LOOKSET_UNION: u32 = 32;
pub const LOOKSET_ITER: u32 = 33;
pub const HOLDING: u32 = 34;
pub const PSET_FILL: u32 = 40;
pub const PSET_CLEAR: u32 = 41;
pub const PSET_AGAIN: u32 = 42;
pub const PSET_CONTAINS: u32 = 43;
pub const PSET_ITER: u32 = 44;
pub const PSET_ITER_BACK: u32 = 45;
pub const PSET_FILL_FIRST: u32 = 46;
pub const PSET_TRY: u32 = 47;
pub const GI_NEW: u32 = 50;
pub const GI_TO_INDEX: u32 = 51;
pub const GI_TO_NAME: u32 = 52;
pub const GI_SLOT: u32 = 53;
pub const GI_CLONE: u32 = 54;
pub const GI_ALL_NAMES: u32 = 55;
pub const GI_PATTERN_NAMES: u32 = 56;
pub const GI_REFUSED: u32 = 57;
pub const CAPS_ALL: u32 = 60;
pub const CAPS_GET: u32 = 61;
pub const CAPS_BY_NAME: u32 = 62;
pub const CAPS_ITER: u32 = 63;
pub const CAPS_EXTRACT: u32 = 64;
pub const CAPS_EXTRACT_BYTES: u32 = 65;
pub const CAPS_CLEAR: u32 = 66;
pub const CAPS_CLONE: u32 = 67;
pub const CAPS_SET_GROUP: u32 = 68;
pub const CAPS_SET_SLOTS: u32 = 69;
pub const SCAN: u32 = 70;
pub const STEPS: u32 = 71;
pub const PATTERN_CLASSES: u32 = 72;
pub const MATCH_CAPTURES: u32 = 73;
pub const MATCH_SETS: u32 = 74;

/// What the index of a transition is multiplied by to choose a state.
#[allow(dead_code)]
pub const SPREAD: u64 = 0x9E37_79B9_7F4A_7C15;

pub struct Workload {
    pub name: String,
    pub kernel: u32,
    pub data: Vec<u8>,
    pub param: u64,
    /// Operations in one repetition.
    pub ops: u64,
    /// A kernel on the same data whose time for a repetition is taken off.
    pub less: Option<u32>,
}

pub const LOOK_NAMES: [&str; 18] = [
    "start",
    "end",
    "start_lf",
    "end_lf",
    "start_crlf",
    "end_crlf",
    "word_ascii",
    "word_ascii_negate",
    "word_unicode",
    "word_unicode_negate",
    "word_start_ascii",
    "word_end_ascii",
    "word_start_unicode",
    "word_end_unicode",
    "word_start_half_ascii",
    "word_end_half_ascii",
    "word_start_half_unicode",
    "word_end_half_unicode",
];

pub const KIB: usize = 1024;

/// A plain generator of numbers (splitmix64), the same everywhere.
pub struct Numbers(pub u64);

impl Numbers {
    pub fn next(&mut self) -> u64 {
        self.0 = self.0.wrapping_add(0x9E37_79B9_7F4A_7C15);
        let mut z = self.0;
        z = (z ^ (z >> 30)).wrapping_mul(0xBF58_476D_1CE4_E5B9);
        z = (z ^ (z >> 27)).wrapping_mul(0x94D0_49BB_1331_11EB);
        z ^ (z >> 31)
    }

    pub fn below(&mut self, n: u64) -> u64 {
        self.next() % n
    }

    pub fn pick<T: Copy>(&mut self, items: &[T]) -> T {
        items[self.below(items.len() as u64) as usize]
    }
}

// Texts: whole pieces until `len` bytes are reached, filled up with spaces.

fn text(len: usize, seed: u64, mut piece: impl FnMut(&mut Numbers) -> String) -> Vec<u8> {
    let mut numbers = Numbers(seed);
    let mut text = String::new();
    loop {
        let piece = piece(&mut numbers);
        if text.len() + piece.len() > len {
            break;
        }
        text.push_str(&piece);
    }
    while text.len() < len {
        text.push(' ');
    }
    text.into_bytes()
}

const ENGLISH: [&str; 24] = [
    "the", "search", "of", "a", "haystack", "begins", "at", "each", "position", "and", "ends",
    "where", "no", "state", "is", "left", "to", "visit", "x86_64", "don", "t", "1973", "lines",
    "Boundary",
];
const GAPS: [&str; 12] = [" ", " ", " ", " ", " ", " ", " ", ", ", ". ", "\n", "; ", " - "];

/// Prose of ASCII words.
pub fn ascii(len: usize) -> Vec<u8> {
    text(len, 1, |n| format!("{}{}", n.pick(&ENGLISH), n.pick(&GAPS)))
}

fn run_of(n: &mut Numbers, first: u32, count: u64) -> String {
    let letters = 1 + n.below(7);
    (0..letters).filter_map(|_| char::from_u32(first + n.below(count) as u32)).collect()
}

/// Words of ASCII, Cyrillic, Chinese and mathematical letters, and some symbols.
pub fn mixed(len: usize) -> Vec<u8> {
    text(len, 2, |n| {
        let piece = match n.below(8) {
            0..=2 => n.pick(&ENGLISH).to_string(),
            3 | 4 => run_of(n, 0x430, 32),
            5 => run_of(n, 0x4E00, 512),
            6 => run_of(n, 0x1D41A, 26),
            _ => n.pick(&["\u{2014}", "\u{20AC}", "\u{2603}", "\u{1F600}"]).to_string(),
        };
        format!("{piece}{}", n.pick(&GAPS))
    })
}

/// Characters of one encoded length, with nothing between.
fn letters(len: usize, first: u32, count: u64) -> Vec<u8> {
    text(len, 3, |n| {
        let c = char::from_u32(first + n.below(count) as u32).expect("no surrogate");
        c.to_string()
    })
}

/// Bytes that begin no encoding: continuations, and bytes that are never in UTF-8.
fn invalid(len: usize) -> Vec<u8> {
    let mut numbers = Numbers(4);
    let never = [0xC0, 0xC1, 0xF5, 0xF8, 0xFE, 0xFF];
    let byte = |n: &mut Numbers| match n.below(4) {
        0 => n.pick(&never),
        _ => 0x80 + n.below(64) as u8,
    };
    (0..len).map(|_| byte(&mut numbers)).collect()
}

pub fn binary(len: usize) -> Vec<u8> {
    let mut numbers = Numbers(5);
    (0..len).map(|_| numbers.next() as u8).collect()
}

/// The same with a question mark for each character past ASCII but for letters of old scripts: the two sides' tables of
/// Unicode are of different versions, and a text shows an unassigned character as an escape.
fn binary_of_old_letters(len: usize) -> Vec<u8> {
    let is_kept =
        |c: char| matches!(c, '\0'..='\x7F' | '\u{C0}'..='\u{FF}' | '\u{400}'..='\u{45F}');
    let mut text = vec![];
    for chunk in binary(len).utf8_chunks() {
        let kept = chunk.valid().chars().map(|c| if is_kept(c) { c } else { '?' });
        text.extend(kept.collect::<String>().bytes());
        text.extend(chunk.invalid());
    }
    text
}

/// How many steps a pass over characters takes: one a character, and one for each byte
/// that is in none.
fn steps(data: &[u8]) -> u64 {
    let steps = |valid: &str, invalid: &[u8]| valid.chars().count() + invalid.len();
    data.utf8_chunks().map(|c| steps(c.valid(), c.invalid()) as u64).sum()
}

// Byte ranges: a count, that many pairs of first and last byte, then a haystack.

pub fn ranges(count: u8, haystack: &[u8]) -> Vec<u8> {
    let mut numbers = Numbers(u64::from(count));
    let mut data = vec![count];
    for _ in 0..count {
        let first = numbers.next() as u8;
        let width = if count > 100 { 4 } else { 12 };
        data.extend([first, first.saturating_add(numbers.below(width) as u8)]);
    }
    data.extend(haystack);
    data
}

/// Every byte its own range, as far as a count of one byte goes (byte FF has none).
fn singles(haystack: &[u8]) -> Vec<u8> {
    let mut data = vec![255];
    data.extend((0..255).flat_map(|b: u8| [b, b]));
    data.extend(haystack);
    data
}

/// Numbers of 32 bits, little-endian.
pub fn le_bytes(numbers: impl IntoIterator<Item = u32>) -> Vec<u8> {
    numbers.into_iter().flat_map(u32::to_le_bytes).collect()
}

/// A count, that many members in mixed order, then queries of which half or fewer hit.
fn pattern_set(capacity: u32, members: u32) -> Vec<u8> {
    let mut numbers = Numbers(u64::from(capacity + members));
    let mut all: Vec<u32> = (0..capacity).collect();
    for i in (1..all.len()).rev() {
        all.swap(i, numbers.below(i as u64 + 1) as usize);
    }
    let queries = (0..QUERIES).map(|_| numbers.below(u64::from(capacity)) as u32 * 11 / 10);
    let queries: Vec<u32> = queries.collect();
    le_bytes([members].into_iter().chain(all.into_iter().take(members as usize)).chain(queries))
}

const QUERIES: u64 = 4096;

/// How many pattern sets are filled in turn.
pub const SETS: usize = 8;

/// Group lists as rsc_bench reads them: patterns with `;` between, groups with `,`,
/// `-` unnamed.
pub fn group_lists(patterns: usize, named: usize) -> Vec<u8> {
    let pattern = |p: usize| {
        let names: String = (0..named).map(|g| format!(",name_{}_{g}", p % 7)).collect();
        format!("-{names}")
    };
    let patterns: Vec<String> = (0..patterns).map(pattern).collect();
    patterns.join(";").into_bytes()
}

/// One pattern whose groups after the first have these names.
fn one_pattern(names: impl Iterator<Item = String>) -> String {
    let names: String = names.map(|name| format!(",{name}")).collect();
    format!("-{names}")
}

/// Names of a thousand bytes that differ in the last one alone.
fn names_of_1000_bytes() -> impl Iterator<Item = String> {
    let shared = "x".repeat(999);
    ('0'..='z').filter(|&last| last != ';').map(move |last| format!("{shared}{last}"))
}

/// The first names of seven bytes that the port's table of `named` names has on one slot, by the
/// hash of the toolchain's library.
fn names_on_one_slot(named: usize) -> impl Iterator<Item = String> {
    const MULTIPLIER: u64 = 0x9E37_79B9_7F4A_7C15;
    let slots = 2 * named.next_power_of_two() as u64;
    let slot = move |name: &str| {
        let four = |at: usize| u32::from_le_bytes(name.as_bytes()[at..at + 4].try_into().unwrap());
        let read = u64::from(four(0)) | u64::from(four(3)) << 32;
        let (a, b) = (0x243F_6A88_85A3_08D3 ^ read, MULTIPLIER ^ (2 * 7));
        let product = u128::from(a) * u128::from(b);
        (product as u64 ^ (product >> 64) as u64) % slots
    };
    (0u32..).map(|i| format!("n{i:06x}")).filter(move |name| slot(name) == 0).take(named)
}

/// All workloads, in the order in which they are measured.
pub fn all() -> Vec<Workload> {
    let mut all = vec![];
    let mut add = |name: &str, kernel: u32, data: &[u8], param: u64, ops: u64| {
        let (name, data) = (name.to_string(), data.to_vec());
        all.push(Workload { name, kernel, data, param, ops, less: None });
    };
    let mib = KIB * KIB;

    // rsc_primitives
    let mut numbers = Numbers(7);
    let indices: Vec<u8> = (0..4096)
        .map(|i| if i % 16 == 0 { numbers.next() } else { numbers.below(1 << 31) })
        .flat_map(u64::to_le_bytes)
        .collect();
    add("small_index_new", SMALL_NEW, &indices, 0, 4096);
    add("pattern_id_iter", PATTERN_ITER, &[], 100_000, 100_000);
    let texts = [
        ("ascii", ascii(mib)),
        ("2byte", letters(mib, 0x430, 32)),
        ("3byte", letters(mib, 0x4E00, 512)),
        ("4byte", letters(mib, 0x1D41A, 26)),
        ("mixed", mixed(mib)),
        ("invalid", invalid(mib)),
        ("binary", binary(mib)),
    ];
    for (name, text) in &texts {
        add(&format!("decode_{name}"), DECODE, text, 0, steps(text));
    }
    // Not over the binary text, where the two sides' `decode_last` differ: docs/DIFFERENCES.md.
    for (name, text) in &texts[..6] {
        add(&format!("decode_last_{name}"), DECODE_LAST, text, 0, steps(text));
    }
    add("is_boundary_mixed", CHAR_BOUNDARIES, &mixed(mib), 0, mib as u64 + 1);
    add("is_word_byte", WORD_BYTES, &ascii(mib), 0, mib as u64);
    let every: Vec<u8> = (0..=255).collect();
    add("byte_text", BYTE_TEXT, &every, 0, 256);
    let texts = [
        ("ascii", ascii(64 * KIB)),
        ("mixed", mixed(64 * KIB)),
        ("binary", binary_of_old_letters(64 * KIB)),
    ];
    for (name, text) in texts {
        add(&format!("haystack_text_{name}"), HAYSTACK_TEXT, &text, 0, text.len() as u64);
    }

    // rsc_alphabet
    let hay = ascii(mib);
    let maps = [("20", ranges(20, &[])), ("200", ranges(200, &[])), ("255", singles(&[]))];
    for (name, map) in &maps {
        add(&format!("byte_classes_{name}"), BYTE_CLASSES, map, 0, 1);
        add(&format!("classes_of_ranges_{name}"), CLASSES_OF_RANGES, map, 0, 1);
    }
    add("classes_of_6_looks", CLASSES_OF, &[0, 2, 3, 4, 6, 9], 0x0A, 1);
    add("map_get", MAP_GET, &ranges(20, &hay), 0, mib as u64);
    for (name, map) in &maps {
        add(&format!("map_iter_{name}"), MAP_ITER, map, 0, 1);
        add(&format!("map_representatives_{name}"), MAP_REPS, map, 0, 1);
        add(&format!("map_elements_{name}"), MAP_ELEMS, map, 3, 1);
        add(&format!("map_elements_all_{name}"), MAP_ELEMS_ALL, map, 0, 1);
    }
    add("byteset_contains", BYTESET_CONTAINS, &ranges(20, &hay), 0, mib as u64);
    for (name, map) in &maps {
        add(&format!("byteset_iter_{name}"), BYTESET_ITER, map, 0, 1);
        add(&format!("byteset_iter_ranges_{name}"), BYTESET_RANGES, map, 0, 1);
    }

    // rsc_look
    let positions = 64 * KIB as u64 + 1;
    let newline = 0x0Au64 << 32;
    for (text_name, text) in [("ascii", ascii(64 * KIB)), ("mixed", mixed(64 * KIB))] {
        for (i, look) in LOOK_NAMES.iter().enumerate() {
            let name = format!("matches_{look}_{text_name}");
            add(&name, LOOK_AT, &text, newline | 1 << i, positions);
        }
        // StartLF, EndLF, WordAscii, WordUnicode; WordAsciiNegate, WordUnicodeNegate,
        // WordStartHalfAscii, WordEndHalfUnicode.
        for (name, set) in [("early", 4 | 8 | 64 | 256), ("late", 128 | 512 | 16384 | 131072)] {
            let name = format!("matches_set_4_{name}_{text_name}");
            add(&name, SET_AT, &text, newline | set, positions);
        }
        add(&format!("holding_{text_name}"), HOLDING, &text, newline, positions);
    }
    let mut numbers = Numbers(8);
    let sets: Vec<u32> = (0..4096).map(|_| numbers.below(1 << 18) as u32).collect();
    let members = sets.iter().map(|s| u64::from(s.count_ones())).sum();
    add("lookset_union", LOOKSET_UNION, &le_bytes(sets.iter().copied()), 0, 4095);
    add("lookset_iter", LOOKSET_ITER, &le_bytes(sets), 0, members);

    // rsc_search
    for capacity in [64u32, 65, 1000, 4096, 100_000] {
        for (name, members) in [("sparse", (capacity / 100).max(1)), ("dense", capacity)] {
            let data = pattern_set(capacity, members);
            let (param, size) = (u64::from(capacity), u64::from(members));
            let mut add = |call: &str, kernel: u32, ops: u64, less: Option<u32>| {
                let name = format!("pset_{call}_{capacity}_{name}");
                all.push(Workload { name, kernel, data: data.clone(), param, ops, less });
            };
            if members == capacity {
                add("insert", PSET_FILL, size, Some(PSET_FILL_FIRST));
                add("try_insert_in_turn", PSET_TRY, size * SETS as u64, None);
            }
            add("insert_again", PSET_AGAIN, size, None);
            add("contains", PSET_CONTAINS, QUERIES, None);
            add("iter", PSET_ITER, 1, None);
            add("iter_back", PSET_ITER_BACK, 1, None);
            add("clear", PSET_CLEAR, 1, None);
        }
    }

    // rsc_captures
    for (name, patterns, named) in
        [("1x3", 1, 3), ("1x1000", 1, 1000), ("1000x3", 1000, 3), ("1x20000", 1, 20_000)]
    {
        let data = group_lists(patterns, named);
        let names = (patterns * named) as u64;
        let groups = names + patterns as u64;
        let own = named as u64 + 1;
        let mut add = |call: &str, kernel: u32, ops: u64| {
            let (name, data) = (format!("{call}_{name}"), data.clone());
            all.push(Workload { name, kernel, data, param: 0, ops, less: None });
        };
        add("group_info_new", GI_NEW, 1);
        add("group_info_to_index", GI_TO_INDEX, names);
        add("group_info_to_name", GI_TO_NAME, groups);
        add("group_info_slot", GI_SLOT, groups);
        add("group_info_clone", GI_CLONE, 1);
        add("group_info_all_names", GI_ALL_NAMES, groups);
        add("group_info_pattern_names", GI_PATTERN_NAMES, groups);
        add("captures_all", CAPS_ALL, 1);
        add("captures_clone", CAPS_CLONE, 1);
        add("captures_clear", CAPS_CLEAR, 1);
        add("captures_get_group", CAPS_GET, own);
        add("captures_get_group_by_name", CAPS_BY_NAME, own - 1);
        add("captures_iter", CAPS_ITER, own);
        add("captures_set_group", CAPS_SET_GROUP, own);
        add("captures_set_slots", CAPS_SET_SLOTS, own);
        add("captures_extract_3", CAPS_EXTRACT, 1);
        add("captures_extract_bytes_3", CAPS_EXTRACT_BYTES, 1);
    }

    // rsc_captures: lists that cost most, and lists that are refused
    let mut add = |name: &str, kernel: u32, data: &str, ops: u64| {
        let (name, data) = (name.to_string(), data.as_bytes().to_vec());
        all.push(Workload { name, kernel, data, param: 0, ops, less: None });
    };
    let name = |g: usize| format!("name_0_{g}");
    let many = one_pattern((0..20_000).map(name));
    let long = one_pattern(names_of_1000_bytes());
    let one_slot = one_pattern(names_on_one_slot(1000));
    let patterns = String::from_utf8(group_lists(1000, 1)).unwrap();
    add("group_info_new_1000x1", GI_NEW, &patterns, 1);
    add("group_info_new_names_of_1000_bytes", GI_NEW, &long, 1);
    add("group_info_new_names_on_one_slot", GI_NEW, &one_slot, 1);
    add("group_info_to_index_names_on_one_slot", GI_TO_INDEX, &one_slot, 1000);
    // The last pattern has a name where it may have none.
    let mut add = |name: &str, list: &str| add(name, GI_REFUSED, list, 1);
    add("group_info_refused_1000x1", &format!("{patterns};x"));
    add("group_info_refused_names_of_1000_bytes", &format!("{long};x"));
    add("group_info_refused_names_on_one_slot", &format!("{one_slot};x"));
    add("group_info_refused_1x20000", &format!("{many};x"));
    add("group_info_refused_1x20000_first_used_twice", &format!("{many},name_0_0"));
    add("group_info_refused_1x20000_last_used_twice", &format!("{many},name_0_19999"));
    add("group_info_refused_1x20000_used_twice_and_x", &format!("{many},name_0_10000;x"));
    let very_many = one_pattern((0..200_000).map(name));
    add("group_info_refused_1x200000", &format!("{very_many};x"));

    all.extend(engine_workloads::all());
    all
}
