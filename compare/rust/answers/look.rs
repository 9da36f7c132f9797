//! Assertions, their sets, the matcher.

use crate::stated;
use crate::tokens::*;
use crate::util::look::{Look, LookMatcher, LookSet, UnicodeWordBoundaryError};

fn matcher(terminator: u8) -> LookMatcher {
    let mut matcher = LookMatcher::new();
    matcher.set_line_terminator(terminator);
    matcher
}

/// One of the eighteen calls by assertion.
fn named_call(matcher: &LookMatcher, look: Look, haystack: &[u8], at: usize) -> bool {
    match look {
        Look::Start => matcher.is_start(haystack, at),
        Look::End => matcher.is_end(haystack, at),
        Look::StartLF => matcher.is_start_lf(haystack, at),
        Look::EndLF => matcher.is_end_lf(haystack, at),
        Look::StartCRLF => matcher.is_start_crlf(haystack, at),
        Look::EndCRLF => matcher.is_end_crlf(haystack, at),
        Look::WordAscii => matcher.is_word_ascii(haystack, at),
        Look::WordAsciiNegate => matcher.is_word_ascii_negate(haystack, at),
        Look::WordUnicode => matcher.is_word_unicode(haystack, at).unwrap(),
        Look::WordUnicodeNegate => matcher.is_word_unicode_negate(haystack, at).unwrap(),
        Look::WordStartAscii => matcher.is_word_start_ascii(haystack, at),
        Look::WordEndAscii => matcher.is_word_end_ascii(haystack, at),
        Look::WordStartUnicode => matcher.is_word_start_unicode(haystack, at).unwrap(),
        Look::WordEndUnicode => matcher.is_word_end_unicode(haystack, at).unwrap(),
        Look::WordStartHalfAscii => matcher.is_word_start_half_ascii(haystack, at),
        Look::WordEndHalfAscii => matcher.is_word_end_half_ascii(haystack, at),
        Look::WordStartHalfUnicode => matcher.is_word_start_half_unicode(haystack, at).unwrap(),
        Look::WordEndHalfUnicode => matcher.is_word_end_half_unicode(haystack, at).unwrap(),
    }
}

/// Which assertions hold at a position, as the sum of their representations.
fn mask(holds: impl Fn(Look) -> bool) -> u32 {
    stated::all_looks().filter(|&l| holds(l)).map(|l| l.as_repr()).sum()
}

fn masks(haystack: &[u8], holds: impl Fn(Look, usize) -> bool) -> String {
    join((0..=haystack.len()).map(|at| mask(|look| holds(look, at))), " ")
}

fn set(s: &str) -> Read<LookSet> {
    Ok(LookSet { bits: stated::lookset_from_bits(number(s)?).ok_or(Bad)? })
}

fn position(s: &str, haystack: &[u8]) -> Read<usize> {
    number(s).and_then(|at| if at <= haystack.len() { Ok(at) } else { Err(Bad) })
}

fn show_set(set: LookSet) -> String {
    format!(
        "{} {} {} {} {:?}",
        set.len(),
        show_truth(set.is_empty()),
        show_truths([
            set.contains_anchor(),
            set.contains_anchor_haystack(),
            set.contains_anchor_line(),
            set.contains_anchor_lf(),
            set.contains_anchor_crlf(),
            set.contains_word(),
            set.contains_word_unicode(),
            set.contains_word_ascii(),
        ]),
        iterated(set.iter(), ",", |look| look.as_repr().to_string()),
        set
    )
}

fn lookset_op(op: &str, a: LookSet, arg: &str) -> Read<String> {
    let mut in_place = a;
    let new = match op {
        "insert" => {
            in_place.set_insert(look(arg)?);
            a.insert(look(arg)?)
        }
        "remove" => {
            in_place.set_remove(look(arg)?);
            a.remove(look(arg)?)
        }
        "union" => {
            in_place.set_union(set(arg)?);
            a.union(set(arg)?)
        }
        "intersect" => {
            in_place.set_intersect(set(arg)?);
            a.intersect(set(arg)?)
        }
        "subtract" => {
            in_place.set_subtract(set(arg)?);
            a.subtract(set(arg)?)
        }
        _ => return Err(Bad),
    };
    Ok(format!("{} {}", new.bits, in_place.bits))
}

/// A word predicate: `ascii`, `unicode`, or ranges of code points `LO-HI`.
fn with_word_predicate<T>(spec: &str, f: impl FnOnce(stated::WordPredicate) -> T) -> Read<T> {
    match spec {
        "ascii" => Ok(f(&stated::ascii_word)),
        "unicode" => Ok(f(&stated::unicode_word)),
        _ => {
            let ranges = list(spec, ',', |range| {
                let (low, high) = range.split_once('-').ok_or(Bad)?;
                Ok(number::<u32>(low)?..=number::<u32>(high)?)
            })?;
            Ok(f(&|c| ranges.iter().any(|range| range.contains(&u32::from(c)))))
        }
    }
}

pub fn answer(name: &str, port: bool, args: &[&str]) -> Read<String> {
    match (name, port, args) {
        ("look", false, [n]) => Ok(match Look::from_repr(number(n)?) {
            None => "_".to_string(),
            Some(look) => format!(
                "{} {} {}",
                look.as_repr(),
                look.reversed().as_repr(),
                u32::from(look.as_char())
            ),
        }),
        ("lookset", false, [s]) => Ok(show_set(set(s)?)),
        ("lookset_contains", false, [s, l]) => {
            Ok(show_truth(set(s)?.contains(look(l)?)).to_string())
        }
        ("lookset_op", false, [op, a, arg]) => lookset_op(op, set(a)?, arg),
        ("lookset_eq", false, [a, b]) => Ok(show_truth(set(a)? == set(b)?).to_string()),
        ("lookset_make", _, [kind]) => {
            let made = match (*kind, port) {
                ("empty", false) => LookSet::empty(),
                ("default", false) => LookSet::default(),
                ("full", false) => LookSet::full(),
                ("full", true) => LookSet { bits: (1 << 18) - 1 },
                (l, false) => LookSet::singleton(look(l)?),
                _ => return Err(Bad),
            };
            Ok(format!("{} {}", made.bits, show_set(made)))
        }
        ("lookset_from_bits", true, [n]) => Ok(show_option(stated::lookset_from_bits(number(n)?))),
        ("lookset_available", false, [s]) => {
            Ok(set(s)?.available().map_or("refused", |()| "ok").to_string())
        }
        ("unicode_check", false, []) => {
            Ok(UnicodeWordBoundaryError::check().map_or("refused", |()| "ok").to_string())
        }
        ("matcher", false, [terminator]) => {
            let mut it = LookMatcher::new();
            let before = it.get_line_terminator();
            let after = it.set_line_terminator(byte(terminator)?).get_line_terminator();
            let clone = it.clone().get_line_terminator();
            let default = LookMatcher::default().get_line_terminator();
            Ok(format!("{before:02x} {after:02x} {clone:02x} {default:02x}"))
        }
        ("matches" | "is", _, [terminator, l, haystack, at]) => {
            let (terminator, look, haystack) = (byte(terminator)?, look(l)?, bytes(haystack)?);
            let at = position(at, &haystack)?;
            Ok(show_truth(match (name, port) {
                (_, true) => stated::holds(look, terminator, &stated::unicode_word, &haystack, at),
                ("is", false) => named_call(&matcher(terminator), look, &haystack, at),
                _ => matcher(terminator).matches(look, &haystack, at),
            })
            .to_string())
        }
        ("matches_set", _, [terminator, s, haystack, at]) => {
            let (terminator, set, haystack) = (byte(terminator)?, set(s)?, bytes(haystack)?);
            let at = position(at, &haystack)?;
            Ok(show_truth(matches_set(port, terminator, set, &haystack, at)).to_string())
        }
        ("looks" | "is_all", _, [terminator, haystack]) => {
            let (terminator, haystack) = (byte(terminator)?, bytes(haystack)?);
            let matcher = matcher(terminator);
            Ok(masks(&haystack, |look, at| match (name, port) {
                (_, true) => stated::holds(look, terminator, &stated::unicode_word, &haystack, at),
                ("is_all", false) => named_call(&matcher, look, &haystack, at),
                _ => matcher.matches(look, &haystack, at),
            }))
        }
        ("sets", _, [terminator, s, haystack]) => {
            let (terminator, set, haystack) = (byte(terminator)?, set(s)?, bytes(haystack)?);
            Ok(show_truths(
                (0..=haystack.len()).map(|at| matches_set(port, terminator, set, &haystack, at)),
            ))
        }
        ("looks_with", true, [terminator, spec, haystack]) => {
            let (terminator, haystack) = (byte(terminator)?, bytes(haystack)?);
            with_word_predicate(spec, |accepts| {
                masks(&haystack, |look, at| stated::holds(look, terminator, accepts, &haystack, at))
            })
        }
        _ => Err(Bad),
    }
}

fn matches_set(port: bool, terminator: u8, set: LookSet, haystack: &[u8], at: usize) -> bool {
    if port {
        stated::all_looks()
            .filter(|l| set.bits & l.as_repr() != 0)
            .all(|l| stated::holds(l, terminator, &stated::unicode_word, haystack, at))
    } else {
        matcher(terminator).matches_set(set, haystack, at)
    }
}
