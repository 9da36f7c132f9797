//! The kernels of what engines do, over the original.

use std::hint::black_box;

use crate::kernels::{last, lists_of, matcher, ranges, repeat};
use crate::util::alphabet::{ByteClassSet, ByteClasses};
use crate::util::captures::{Captures, GroupInfo};
use crate::util::look::Look;
use crate::util::primitives::{NonMaxUsize, PatternID};
use crate::util::search::PatternSet;
use crate::workloads::*;

/// The sum of a kernel of this kind.
pub fn run(kernel: u32, data: &[u8], param: u64, reps: u64) -> u64 {
    match kernel {
        SCAN => scan(data, param, reps),
        STEPS => steps(data, param, reps),
        PATTERN_CLASSES => classes_of_patterns(data, param, reps),
        MATCH_CAPTURES => captures_of_matches(data, param, reps),
        _ => sets_of_matches(data, param, reps),
    }
}

fn scan(data: &[u8], param: u64, reps: u64) -> u64 {
    let look = Look::from_repr(param as u32).unwrap();
    let matcher = matcher((param >> 32) as u8);
    repeat(reps, || {
        let (look, h) = (black_box(look), black_box(data));
        (0..=h.len()).filter(|&at| matcher.matches(look, h, at)).map(|at| at as u64).sum()
    })
}

fn steps(data: &[u8], param: u64, reps: u64) -> u64 {
    let (ranges, haystack) = ranges(data);
    let mut boundaries = ByteClassSet::empty();
    ranges.iter().for_each(|&(start, end)| boundaries.set_range(start, end));
    let classes = boundaries.byte_classes();
    let table = transitions(param, &classes);
    repeat(reps, || {
        let (classes, table) = (black_box(&classes), black_box(&table[..]));
        let mut state = 0;
        for &byte in black_box(haystack) {
            state = table[state as usize + usize::from(classes.get(byte))];
        }
        u64::from(state)
    })
}

/// A row for each state, whose entries say where the next row begins.
fn transitions(states: u64, classes: &ByteClasses) -> Vec<u32> {
    let stride2 = classes.stride2();
    let next = |index: u64| (index.wrapping_mul(SPREAD) >> 32) % states;
    (0..states << stride2).map(|index| (next(index) << stride2) as u32).collect()
}

fn classes_of_patterns(data: &[u8], param: u64, reps: u64) -> u64 {
    let (numbers, pairs) = data[1..].split_at(usize::from(data[0]));
    let looks: Vec<Look> = numbers.iter().filter_map(|&i| Look::from_repr(1 << i)).collect();
    let ranges: Vec<(u8, u8)> = pairs.chunks_exact(2).map(|p| (p[0], p[1])).collect();
    let matcher = matcher(param as u8);
    repeat(reps, || {
        let mut set = ByteClassSet::empty();
        black_box(&ranges).iter().for_each(|&(start, end)| set.set_range(start, end));
        black_box(&looks).iter().for_each(|&look| matcher.add_to_byteset(look, &mut set));
        last(&set.byte_classes())
    })
}

fn captures_of_matches(data: &[u8], param: u64, reps: u64) -> u64 {
    let lists = lists_of(data);
    let info = GroupInfo::new(lists.iter().map(|groups| groups.iter().copied())).unwrap();
    let names: Vec<&str> = lists[0].iter().copied().flatten().collect();
    let mut caps = Captures::all(info);
    repeat(reps, || {
        let mut sum = 0;
        for at in 0..black_box(param) as usize {
            caps.clear();
            caps.set_pattern(Some(PatternID::ZERO));
            for (i, slot) in caps.slots_mut().iter_mut().enumerate() {
                *slot = NonMaxUsize::new(at.wrapping_add(i));
            }
            for name in black_box(&names) {
                if let Some(span) = caps.get_group_by_name(name) {
                    sum += (span.start + span.end) as u64;
                }
            }
        }
        sum
    })
}

fn sets_of_matches(data: &[u8], param: u64, reps: u64) -> u64 {
    let number = |bytes: &[u8]| u32::from_le_bytes(bytes.try_into().unwrap()) as usize;
    let numbers: Vec<usize> = data.chunks_exact(4).map(number).collect();
    let pids: Vec<PatternID> = numbers[1..].iter().map(|&n| PatternID::must(n)).collect();
    let mut set = PatternSet::new(param as usize);
    repeat(reps, || {
        let mut sum = 0;
        for matched in black_box(&pids).chunks(numbers[0]) {
            set.clear();
            matched.iter().for_each(|&pid| _ = set.try_insert(pid));
            sum += set.iter().map(|pid| pid.as_u64()).sum::<u64>();
        }
        sum
    })
}
