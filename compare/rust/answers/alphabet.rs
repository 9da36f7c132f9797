//! Units, byte sets, class sets, class maps.

use crate::tokens::*;
use crate::util::alphabet::{ByteClassSet, ByteClasses, ByteSet};
use crate::util::look::{Look, LookMatcher};

fn set_of(bytes: &[u8]) -> ByteSet {
    let mut set = ByteSet::empty();
    for &b in bytes {
        set.add(b);
    }
    set
}

/// A class map: a base, and after a colon the pairs of a byte and its class that
/// are set after it.
fn map(s: &str) -> Read<ByteClasses> {
    let (base, changes) = s.split_once(':').unwrap_or((s, "-"));
    let mut classes = match base {
        "empty" => ByteClasses::empty(),
        "singletons" => ByteClasses::singletons(),
        "default" => ByteClasses::default(),
        _ => {
            let given: [u8; 256] = bytes(base)?.try_into().map_err(|_| Bad)?;
            let mut classes = ByteClasses::empty();
            for (b, &class) in given.iter().enumerate() {
                classes.set(b as u8, class);
            }
            classes
        }
    };
    for (b, class) in pairs(changes)? {
        classes.set(b, class);
    }
    Ok(classes)
}

fn show_map(classes: &ByteClasses) -> String {
    (0..=255).map(|b| format!("{:02x}", classes.get(b))).collect()
}

/// The classes of some bytes.
fn classes_at(classes: &ByteClasses, at: &[u8]) -> String {
    hex(&at.iter().map(|&b| classes.get(b)).collect::<Vec<u8>>())
}

/// The classes after `set_range` of each pair.
fn classes_of_ranges(ranges: &[(u8, u8)]) -> ByteClasses {
    let mut set = ByteClassSet::empty();
    for &(start, end) in ranges {
        set.set_range(start, end);
    }
    set.byte_classes()
}

/// The classes after `add_to_byteset` of each assertion.
fn classes_of(terminator: u8, looks: &[Look]) -> ByteClasses {
    let mut matcher = LookMatcher::new();
    matcher.set_line_terminator(terminator);
    let mut set = ByteClassSet::empty();
    for &look in looks {
        matcher.add_to_byteset(look, &mut set);
    }
    set.byte_classes()
}

fn rising_pairs(s: &str) -> Read<Vec<(u8, u8)>> {
    let pairs = pairs(s)?;
    if pairs.iter().any(|(start, end)| start > end) {
        return Err(Bad);
    }
    Ok(pairs)
}

fn byteset(ops: &[&str]) -> Read<String> {
    let mut set = ByteSet::default();
    let mut answers = vec![];
    for op in ops {
        let (op, rest) = op.split_at_checked(1).ok_or(Bad)?;
        match op {
            "a" => set.add(byte(rest)?),
            "r" => set.remove(byte(rest)?),
            "c" => answers.push(show_truth(set.contains(byte(rest)?)).to_string()),
            "R" => {
                let (start, end) = pair(rest, false)?;
                answers.push(show_truth(set.contains_range(start, end)).to_string());
            }
            "i" => answers.push(iterated(set.iter(), ",", |b| format!("{b:02x}"))),
            "g" => answers.push(iterated(set.iter_ranges(), ",", |(start, end)| {
                format!("{start:02x}-{end:02x}")
            })),
            "e" => answers.push(show_truth(set.is_empty()).to_string()),
            _ => return Err(Bad),
        }
    }
    Ok(join(answers, " "))
}

fn classset(terminator: u8, ops: &[&str]) -> Read<String> {
    let mut matcher = LookMatcher::new();
    matcher.set_line_terminator(terminator);
    let mut set = ByteClassSet::default();
    for op in ops {
        let (op, rest) = op.split_at_checked(1).ok_or(Bad)?;
        match op {
            "r" => {
                let (start, end) = pair(rest, true)?;
                set.set_range(start, end);
            }
            "s" => set.add_set(&set_of(&bytes(rest)?)),
            "l" => matcher.add_to_byteset(look(rest)?, &mut set),
            _ => return Err(Bad),
        }
    }
    Ok(show_map(&set.clone().byte_classes()))
}

pub fn answer(name: &str, port: bool, args: &[&str]) -> Read<String> {
    match (name, port, args) {
        ("unit", false, [u]) => {
            let u = unit(u)?;
            Ok(format!(
                "{} {} {} {} {} {:?}",
                show_option(u.as_u8()),
                show_option(u.as_eoi()),
                u.as_usize(),
                show_truth(u.is_eoi()),
                show_truth(u.is_word_byte()),
                u
            ))
        }
        ("unit_is_byte", false, [u, b]) => Ok(show_truth(unit(u)?.is_byte(byte(b)?)).to_string()),
        ("unit_cmp", false, [u, v]) => Ok(compare(unit(u)?, unit(v)?)),
        ("byteset", false, ops) => byteset(ops),
        ("byteset_eq", false, [a, b]) => {
            Ok(show_truth(set_of(&bytes(a)?) == set_of(&bytes(b)?)).to_string())
        }
        ("classset", false, [terminator, ops @ ..]) => classset(byte(terminator)?, ops),
        ("ranges", false, [ranges]) => Ok(show_map(&classes_of_ranges(&rising_pairs(ranges)?))),
        ("classes_of", false, [terminator, looks]) => {
            Ok(show_map(&classes_of(byte(terminator)?, &list(looks, ',', look)?)))
        }
        ("ranges_at", false, [ranges, at]) => {
            Ok(classes_at(&classes_of_ranges(&rising_pairs(ranges)?), &bytes(at)?))
        }
        ("classes_at", false, [terminator, looks, at]) => {
            let looks = list(looks, ',', look)?;
            Ok(classes_at(&classes_of(byte(terminator)?, &looks), &bytes(at)?))
        }
        ("map_get", false, [m]) => Ok(show_map(&map(m)?)),
        ("map_info", false, [m]) => {
            let classes = map(m)?;
            Ok(format!(
                "{} {} {} {}",
                classes.alphabet_len(),
                classes.stride2(),
                show_truth(classes.is_singleton()),
                show_unit(classes.eoi())
            ))
        }
        ("map_unit", false, [m, u]) => Ok(map(m)?.get_by_unit(unit(u)?).to_string()),
        ("map_iter", false, [m]) => Ok(iterated(map(m)?.iter(), " ", show_unit)),
        ("map_reps", false, [m, start, end]) => {
            let range = (bound(start, byte)?, bound(end, byte)?);
            Ok(iterated(map(m)?.representatives(range), " ", show_unit))
        }
        ("map_elems", false, [m, u]) => Ok(iterated(map(m)?.elements(unit(u)?), " ", show_unit)),
        ("map_debug", false, [m]) => Ok(format!("{:?}", map(m)?)),
        _ => Err(Bad),
    }
}
