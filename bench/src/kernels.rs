//! The kernels of the workloads over the original.

use std::fmt::Write;
use std::hint::black_box;

use crate::engine;
use crate::util::alphabet::{ByteClassSet, ByteClasses, ByteSet, Unit};
use crate::util::captures::{Captures, GroupInfo};
use crate::util::escape::{DebugByte, DebugHaystack};
use crate::util::look::{Look, LookMatcher, LookSet};
use crate::util::primitives::{NonMaxUsize, PatternID, SmallIndex};
use crate::util::search::PatternSet;
use crate::util::utf8;
use crate::workloads::*;

/// What `CAPS_EXTRACT` and `CAPS_EXTRACT_BYTES` cut.
const EXTRACT_HAYSTACK: &str = "0123456789abcdef";

/// Of the type `Kernel`.
///
/// # Safety
///
/// `data` points to `len` bytes.
pub unsafe extern "C" fn original(
    kernel: u32,
    data: *const u8,
    len: usize,
    param: u64,
    reps: u64,
) -> u64 {
    // An empty list of bytes may come with any pointer.
    let data = if len == 0 { &[] } else { unsafe { std::slice::from_raw_parts(data, len) } };
    match kernel {
        WORD_BYTES..=PATTERN_ITER => primitives(kernel, data, param, reps),
        BYTE_CLASSES..=BYTESET_RANGES => alphabet(kernel, data, param, reps),
        LOOK_AT..=HOLDING => look(kernel, data, param, reps),
        PSET_FILL..=PSET_TRY => pattern_set(kernel, data, param, reps),
        GI_NEW..=CAPS_SET_SLOTS => captures(kernel, data, reps),
        _ => engine::run(kernel, data, param, reps),
    }
}

/// The sum of what `step` answers, `reps` times.
pub fn repeat(reps: u64, mut step: impl FnMut() -> u64) -> u64 {
    (0..reps).fold(0, |sum: u64, _| sum.wrapping_add(black_box(step())))
}

fn primitives(kernel: u32, data: &[u8], param: u64, reps: u64) -> u64 {
    match kernel {
        WORD_BYTES => repeat(reps, || {
            let data = black_box(data);
            data.iter().filter(|&&b| utf8::is_word_byte(b)).count() as u64
        }),
        DECODE => repeat(reps, || {
            let (mut rest, mut sum) = (black_box(data), 0);
            while let Some(found) = utf8::decode(rest) {
                let (number, size) = seen(found);
                sum += number;
                rest = &rest[size..];
            }
            sum
        }),
        DECODE_LAST => repeat(reps, || {
            let (mut rest, mut sum) = (black_box(data), 0);
            while let Some(found) = utf8::decode_last(rest) {
                let (number, size) = seen(found);
                sum += number;
                rest = &rest[..rest.len() - size];
            }
            sum
        }),
        CHAR_BOUNDARIES => repeat(reps, || {
            let data = black_box(data);
            (0..=data.len()).filter(|&i| utf8::is_boundary(data, i)).count() as u64
        }),
        HAYSTACK_TEXT => repeat(reps, || {
            let mut text = String::new();
            write!(text, "{:?}", DebugHaystack(black_box(data))).unwrap();
            text.len() as u64
        }),
        BYTE_TEXT => repeat(reps, || {
            let length = |&b: &u8| {
                let mut text = String::new();
                write!(text, "{:?}", DebugByte(b)).unwrap();
                text.len() as u64
            };
            black_box(data).iter().map(length).sum()
        }),
        SMALL_NEW => {
            let numbers: Vec<usize> = data
                .chunks_exact(8)
                .map(|n| u64::from_le_bytes(n.try_into().unwrap()) as usize)
                .collect();
            repeat(reps, || {
                let made = |&n: &usize| match SmallIndex::new(n) {
                    Ok(index) => index.as_u64(),
                    Err(err) => err.attempted() & 0xFF,
                };
                black_box(&numbers).iter().map(made).sum()
            })
        }
        _ => repeat(reps, || {
            let step = |sum: u64, id: PatternID| sum.rotate_left(1) ^ id.as_u64();
            PatternID::iter(black_box(param) as usize).fold(0, step)
        }),
    }
}

fn seen(found: Result<char, u8>) -> (u64, usize) {
    match found {
        Ok(c) => (u64::from(u32::from(c)), c.len_utf8()),
        Err(b) => (u64::from(b), 1),
    }
}

/// Ranges and what is behind them.
pub fn ranges(data: &[u8]) -> (Vec<(u8, u8)>, &[u8]) {
    let (pairs, rest) = data[1..].split_at(2 * usize::from(data[0]));
    (pairs.chunks_exact(2).map(|p| (p[0], p[1])).collect(), rest)
}

fn alphabet(kernel: u32, data: &[u8], param: u64, reps: u64) -> u64 {
    if kernel == CLASSES_OF {
        let looks: Vec<Look> = data.iter().filter_map(|&i| Look::from_repr(1 << i)).collect();
        return repeat(reps, || last(&classes_of(param as u8, black_box(&looks))));
    }
    let (ranges, rest) = ranges(data);
    let mut boundaries = ByteClassSet::empty();
    let mut members = ByteSet::empty();
    for &(start, end) in &ranges {
        boundaries.set_range(start, end);
        (start..=end).for_each(|b| members.add(b));
    }
    let classes = boundaries.byte_classes();
    match kernel {
        BYTE_CLASSES => repeat(reps, || last(&black_box(&boundaries).byte_classes())),
        CLASSES_OF_RANGES => repeat(reps, || last(&classes_of_ranges(black_box(&ranges)))),
        MAP_GET => repeat(reps, || {
            let classes = black_box(&classes);
            black_box(rest).iter().map(|&b| u64::from(classes.get(b))).sum()
        }),
        MAP_ITER => repeat(reps, || sum_of_units(black_box(&classes).iter())),
        MAP_REPS => repeat(reps, || sum_of_units(black_box(&classes).representatives(..))),
        MAP_ELEMS => {
            let class = Unit::u8(param as u8);
            repeat(reps, || sum_of_units(black_box(&classes).elements(class)))
        }
        MAP_ELEMS_ALL => repeat(reps, || {
            let classes = black_box(&classes);
            classes.iter().map(|class| sum_of_units(classes.elements(class))).sum()
        }),
        BYTESET_CONTAINS => repeat(reps, || {
            let members = black_box(&members);
            black_box(rest).iter().filter(|&&b| members.contains(b)).count() as u64
        }),
        BYTESET_ITER => repeat(reps, || black_box(&members).iter().map(u64::from).sum()),
        _ => repeat(reps, || {
            let ranges = black_box(&members).iter_ranges();
            ranges.map(|(start, end)| u64::from(start) + u64::from(end)).sum()
        }),
    }
}

fn sum_of_units(units: impl Iterator<Item = Unit>) -> u64 {
    units.map(|unit| unit.as_usize() as u64).sum()
}

fn classes_of_ranges(ranges: &[(u8, u8)]) -> ByteClasses {
    let mut set = ByteClassSet::empty();
    for &(start, end) in ranges {
        set.set_range(start, end);
    }
    set.byte_classes()
}

fn classes_of(line_terminator: u8, looks: &[Look]) -> ByteClasses {
    let matcher = matcher(line_terminator);
    let mut set = ByteClassSet::empty();
    for &look in looks {
        matcher.add_to_byteset(look, &mut set);
    }
    set.byte_classes()
}

pub fn last(classes: &ByteClasses) -> u64 {
    let classes = black_box(classes);
    u64::from(classes.get(b'a')) + u64::from(classes.get(255))
}

pub fn matcher(line_terminator: u8) -> LookMatcher {
    let mut matcher = LookMatcher::new();
    matcher.set_line_terminator(line_terminator);
    matcher
}

fn look(kernel: u32, data: &[u8], param: u64, reps: u64) -> u64 {
    let (bits, matcher) = (param as u32, matcher((param >> 32) as u8));
    let sets = || -> Vec<LookSet> {
        let set = |b: &[u8]| LookSet { bits: u32::from_le_bytes(b.try_into().unwrap()) };
        data.chunks_exact(4).map(set).collect()
    };
    match kernel {
        LOOK_AT => {
            let look = Look::from_repr(bits).unwrap();
            repeat(reps, || {
                let (look, h) = (black_box(look), black_box(data));
                (0..=h.len()).filter(|&at| matcher.matches(look, h, at)).count() as u64
            })
        }
        SET_AT => repeat(reps, || {
            let (set, h) = (black_box(LookSet { bits }), black_box(data));
            (0..=h.len()).filter(|&at| matcher.matches_set(set, h, at)).count() as u64
        }),
        // The original has no call for it, so it asks each assertion.
        HOLDING => repeat(reps, || {
            let h = black_box(data);
            let all: Vec<Look> = (0..18).filter_map(|i| Look::from_repr(1 << i)).collect();
            let holding = |at| {
                let looks = all.iter().filter(|&&look| matcher.matches(look, h, at));
                looks.fold(LookSet::empty(), |set, &look| set.insert(look))
            };
            (0..=h.len()).map(|at| u64::from(holding(at).bits)).sum()
        }),
        LOOKSET_UNION => {
            let sets = sets();
            repeat(reps, || {
                black_box(&sets).windows(2).map(|w| u64::from(w[0].union(w[1]).bits)).sum()
            })
        }
        _ => {
            let sets = sets();
            repeat(reps, || {
                let looks = black_box(&sets).iter().flat_map(|s| s.iter());
                looks.map(|l| u64::from(l.as_repr())).sum()
            })
        }
    }
}

fn fill_in_turn(members: &[PatternID], capacity: usize, reps: u64) -> u64 {
    let mut sets: Vec<PatternSet> = (0..SETS).map(|_| PatternSet::new(capacity)).collect();
    repeat(reps, || {
        let sets = black_box(&mut sets);
        let mut new = 0;
        for &pid in black_box(members) {
            for set in sets.iter_mut() {
                new += u64::from(set.try_insert(pid).unwrap_or(false));
            }
        }
        sets.iter_mut().for_each(PatternSet::clear);
        new
    })
}

fn pattern_set(kernel: u32, data: &[u8], param: u64, reps: u64) -> u64 {
    let numbers: Vec<usize> =
        data.chunks_exact(4).map(|w| u32::from_le_bytes(w.try_into().unwrap()) as usize).collect();
    let pids: Vec<PatternID> = numbers[1..].iter().map(|&n| PatternID::must(n)).collect();
    let (members, queries) = pids.split_at(numbers[0]);
    if kernel == PSET_TRY {
        return fill_in_turn(members, param as usize, reps);
    }
    let mut set = PatternSet::new(param as usize);
    if !matches!(kernel, PSET_FILL | PSET_CLEAR | PSET_FILL_FIRST) {
        members.iter().for_each(|&pid| _ = set.insert(pid));
    }
    match kernel {
        PSET_FILL => repeat(reps, || {
            let new = black_box(members).iter().filter(|&&pid| set.insert(pid)).count();
            let sum = new + set.len();
            black_box(&mut set).clear();
            sum as u64
        }),
        PSET_FILL_FIRST => repeat(reps, || {
            let new = black_box(&members[..1]).iter().filter(|&&pid| set.insert(pid)).count();
            let sum = new + set.len();
            black_box(&mut set).clear();
            sum as u64
        }),
        PSET_CLEAR => repeat(reps, || {
            let new = set.insert(black_box(members)[0]);
            black_box(&mut set).clear();
            u64::from(new)
        }),
        PSET_AGAIN => repeat(reps, || {
            black_box(members).iter().filter(|&&pid| !set.insert(pid)).count() as u64
        }),
        PSET_CONTAINS => repeat(reps, || {
            let set = black_box(&set);
            black_box(queries).iter().filter(|&&pid| set.contains(pid)).count() as u64
        }),
        PSET_ITER => repeat(reps, || black_box(&set).iter().map(|pid| pid.as_u64()).sum()),
        _ => repeat(reps, || black_box(&set).iter().rev().map(|pid| pid.as_u64()).sum()),
    }
}

/// The groups of each pattern by their names.
pub fn lists_of(data: &[u8]) -> Vec<Vec<Option<&str>>> {
    let text = std::str::from_utf8(data).unwrap();
    let name = |group| if group == "-" { None } else { Some(group) };
    text.split(';').map(|pattern| pattern.split(',').map(name).collect()).collect()
}

fn captures(kernel: u32, data: &[u8], reps: u64) -> u64 {
    let lists = lists_of(data);
    let try_make = |lists: &[Vec<Option<&str>>]| {
        GroupInfo::new(lists.iter().map(|groups| groups.iter().copied()))
    };
    if kernel == GI_REFUSED {
        return repeat(reps, || match try_make(black_box(&lists)) {
            Ok(info) => info.slot_len() as u64,
            Err(err) => err.to_string().len() as u64,
        });
    }
    let make = |lists: &[Vec<Option<&str>>]| try_make(lists).unwrap();
    if kernel == GI_NEW {
        return repeat(reps, || make(black_box(&lists)).slot_len() as u64);
    }
    let info = make(&lists);
    if kernel < CAPS_ALL {
        return group_info(kernel, &lists, &info, reps);
    }
    let first = PatternID::ZERO;
    let mut caps = Captures::all(info.clone());
    caps.set_pattern(Some(first));
    for g in 0..lists[0].len() {
        let (start, end) = info.slots(first, g).unwrap();
        caps.slots_mut()[start] = NonMaxUsize::new(g % 8);
        caps.slots_mut()[end] = NonMaxUsize::new(g % 8 + 1);
    }
    match kernel {
        CAPS_ALL => repeat(reps, || {
            let caps = Captures::all(black_box(&info).clone());
            black_box(&caps).slots().len() as u64
        }),
        CAPS_CLONE => repeat(reps, || {
            let clone = black_box(&caps).clone();
            black_box(&clone).slots().len() as u64
        }),
        CAPS_CLEAR => repeat(reps, || {
            caps.set_pattern(Some(first));
            caps.slots_mut()[0] = NonMaxUsize::new(1);
            black_box(&mut caps).clear();
            u64::from(caps.is_match())
        }),
        CAPS_GET => repeat(reps, || {
            let caps = black_box(&caps);
            let spans = (0..lists[0].len()).filter_map(|g| caps.get_group(g));
            spans.map(|s| (s.start + s.end) as u64).sum()
        }),
        CAPS_BY_NAME => repeat(reps, || {
            let caps = black_box(&caps);
            let names = lists[0].iter().flatten();
            let spans = names.filter_map(|name| caps.get_group_by_name(black_box(name)));
            spans.map(|s| (s.start + s.end) as u64).sum()
        }),
        CAPS_ITER => repeat(reps, || {
            let spans = black_box(&caps).iter().flatten();
            spans.map(|s| (s.start + s.end) as u64).sum()
        }),
        // The original has no call for a group's span, so both write its slots.
        CAPS_SET_GROUP | CAPS_SET_SLOTS => repeat(reps, || {
            let caps = black_box(&mut caps);
            let mut written = 0;
            for g in 0..lists[0].len() {
                if let Some((start, end)) = caps.group_info().slots(first, g) {
                    caps.slots_mut()[start] = NonMaxUsize::new(g % 8);
                    caps.slots_mut()[end] = NonMaxUsize::new(g % 8 + 1);
                    written += 1;
                }
            }
            written
        }),
        CAPS_EXTRACT => repeat(reps, || {
            let (whole, groups) = black_box(&caps).extract::<3>(black_box(EXTRACT_HAYSTACK));
            let bytes = |s: &str| u64::from(s.as_bytes()[0]);
            bytes(whole) + groups.iter().map(|g| bytes(g)).sum::<u64>()
        }),
        _ => repeat(reps, || {
            let haystack = black_box(EXTRACT_HAYSTACK).as_bytes();
            let (whole, groups) = black_box(&caps).extract_bytes::<3>(haystack);
            u64::from(whole[0]) + groups.iter().map(|g| u64::from(g[0])).sum::<u64>()
        }),
    }
}

fn group_info(kernel: u32, lists: &[Vec<Option<&str>>], info: &GroupInfo, reps: u64) -> u64 {
    let groups: Vec<(PatternID, usize)> = lists
        .iter()
        .enumerate()
        .flat_map(|(p, groups)| (0..groups.len()).map(move |g| (PatternID::must(p), g)))
        .collect();
    let names: Vec<(PatternID, &str)> =
        groups.iter().filter_map(|&(pid, g)| Some((pid, lists[pid.as_usize()][g]?))).collect();
    let length = |name: Option<&str>| name.map_or(0, |name| name.len() as u64);
    match kernel {
        GI_TO_INDEX => repeat(reps, || {
            let info = black_box(info);
            let index = |&(pid, name): &(PatternID, &str)| info.to_index(pid, name);
            names.iter().filter_map(index).map(|g| g as u64).sum()
        }),
        GI_TO_NAME => repeat(reps, || {
            let info = black_box(info);
            groups.iter().map(|&(pid, g)| length(info.to_name(pid, g))).sum()
        }),
        GI_SLOT => repeat(reps, || {
            let info = black_box(info);
            groups.iter().filter_map(|&(pid, g)| info.slot(pid, g)).map(|s| s as u64).sum()
        }),
        GI_CLONE => repeat(reps, || {
            let clone = black_box(info).clone();
            black_box(&clone).pattern_len() as u64
        }),
        GI_ALL_NAMES => repeat(reps, || {
            let all = black_box(info).all_names();
            all.map(|(_, g, name)| g as u64 + length(name)).sum()
        }),
        _ => repeat(reps, || {
            let info = black_box(info);
            let names = |p| info.pattern_names(PatternID::must(p)).map(length).sum::<u64>();
            (0..lists.len()).map(names).sum()
        }),
    }
}
