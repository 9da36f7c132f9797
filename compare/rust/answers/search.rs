//! Spans, inputs, matches, errors, pattern sets.

use std::collections::VecDeque;

use crate::stated;
use crate::tokens::*;
use crate::util::primitives::PatternID;
use crate::util::search::*;

fn span(start: &str, end: &str) -> Read<Span> {
    Ok(Span { start: number(start)?, end: number(end)? })
}

/// Refuses what the original would panic at.
fn require(condition: bool) -> Read<()> {
    if condition {
        Ok(())
    } else {
        Err(Bad)
    }
}

fn input_state(input: &Input<'_>) -> String {
    let (span, range) = (input.get_span(), input.get_range());
    join(
        [
            input.start().to_string(),
            input.end().to_string(),
            span.start.to_string(),
            span.end.to_string(),
            range.start.to_string(),
            range.end.to_string(),
            show_mode(input.get_anchored()),
            show_truth(input.get_earliest()).to_string(),
            show_truth(input.is_done()).to_string(),
        ],
        ",",
    )
}

/// One change of an input; capitals are the builders.
fn change<'h>(mut input: Input<'h>, op: &str) -> Read<Input<'h>> {
    let (op, rest) = op.split_at_checked(1).ok_or(Bad)?;
    let fits =
        |span: Span| require(span.end <= input.haystack().len() && span.start <= span.end + 1);
    match op {
        "s" | "S" => {
            let (start, end) = two(rest)?;
            let span = span(start, end)?;
            fits(span)?;
            if op == "S" {
                return Ok(input.span(span));
            }
            input.set_span(span);
        }
        "r" | "R" => {
            use std::ops::Bound::*;
            let (start, end) = two(rest)?;
            let range = (bound(start, number::<usize>)?, bound(end, number::<usize>)?);
            let start = match range.0 {
                Unbounded => 0,
                Included(i) => i,
                Excluded(i) => i.checked_add(1).ok_or(Bad)?,
            };
            let end = match range.1 {
                Unbounded => input.haystack().len(),
                Included(i) => i.checked_add(1).ok_or(Bad)?,
                Excluded(i) => i,
            };
            fits(Span { start, end })?;
            if op == "R" {
                return Ok(input.range(range));
            }
            input.set_range(range);
        }
        "a" => {
            let start = number(rest)?;
            fits(Span { start, end: input.end() })?;
            input.set_start(start);
        }
        "z" => {
            let end = number(rest)?;
            fits(Span { start: input.start(), end })?;
            input.set_end(end);
        }
        "m" => input.set_anchored(mode(rest)?),
        "M" => return Ok(input.anchored(mode(rest)?)),
        "e" => input.set_earliest(truth(rest)?),
        "E" => return Ok(input.earliest(truth(rest)?)),
        _ => return Err(Bad),
    }
    Ok(input)
}

fn match_error(args: &[&str]) -> Read<String> {
    let (made, kind) = match *args {
        ["quit", b, offset] => {
            let (byte, offset) = (byte(b)?, number(offset)?);
            (MatchError::quit(byte, offset), MatchErrorKind::Quit { byte, offset })
        }
        ["gaveup", offset] => {
            let offset = number(offset)?;
            (MatchError::gave_up(offset), MatchErrorKind::GaveUp { offset })
        }
        ["toolong", len] => {
            let len = number(len)?;
            (MatchError::haystack_too_long(len), MatchErrorKind::HaystackTooLong { len })
        }
        ["anchored", m] => {
            let mode = mode(m)?;
            let kind = MatchErrorKind::UnsupportedAnchored { mode };
            (MatchError::unsupported_anchored(mode), kind)
        }
        _ => return Err(Bad),
    };
    let same = made == MatchError::new(kind.clone()) && *made.kind() == kind;
    Ok(format!("{} {}", show_truth(same), made))
}

fn capacity(s: &str) -> Read<usize> {
    let capacity = number(s)?;
    require(capacity <= PatternID::LIMIT)?;
    Ok(capacity)
}

fn pattern_set(cap: &str, members: &str) -> Read<PatternSet> {
    let mut set = PatternSet::new(capacity(cap)?);
    for pid in list(members, ',', pattern)? {
        set.try_insert(pid).map_err(|_| Bad)?;
    }
    Ok(set)
}

/// The steps of an iterator by letters: `f` next, `b` next_back, `h` size_hint, `n` len (own),
/// `c` goes on with a clone. As the port states it, `h` and `n` tell the members left.
fn pattern_iterated(set: &PatternSet, letters: &str, port: bool) -> Read<String> {
    let mut it = set.iter();
    let mut rest: VecDeque<PatternID> = set.iter().collect();
    let mut answers = vec![];
    for letter in letters.chars() {
        let show = |pid: Option<PatternID>| show_option(pid.map(|p| p.as_usize()));
        match (letter, port) {
            ('f', false) => answers.push(show(it.next())),
            ('f', true) => answers.push(show(rest.pop_front())),
            ('b', false) => answers.push(show(it.next_back())),
            ('b', true) => answers.push(show(rest.pop_back())),
            ('h', false) => answers.push(show_hint(it.size_hint())),
            ('h' | 'n', true) => answers.push(rest.len().to_string()),
            ('c', _) => it = it.clone(),
            _ => return Err(Bad),
        }
    }
    Ok(join(answers, ","))
}

fn pattern_set_script(port: bool, cap: &str, ops: &[&str]) -> Read<String> {
    let mut set = PatternSet::new(capacity(cap)?);
    let mut answers = vec![];
    for op in ops {
        let (op, rest) = op.split_at_checked(1).ok_or(Bad)?;
        match op {
            "i" => {
                let pid = pattern(rest)?;
                require(pid.as_usize() < set.capacity())?;
                answers.push(show_truth(set.insert(pid)).to_string());
            }
            "t" => answers.push(match set.try_insert(pattern(rest)?) {
                Ok(new) => show_truth(new).to_string(),
                Err(_) => "!".to_string(),
            }),
            "c" => answers.push(show_truth(set.contains(pattern(rest)?)).to_string()),
            "x" => set.clear(),
            "k" => {
                let clone = set.clone();
                answers.push(show_truth(clone == set).to_string());
                set = clone;
            }
            "q" => answers.push(format!(
                "{}:{}:{}:{}",
                set.len(),
                show_truth(set.is_empty()),
                show_truth(set.is_full()),
                set.capacity()
            )),
            "l" => answers.push(iterated(set.iter(), ",", |p| p.as_usize().to_string())),
            "w" => answers.push(pattern_iterated(&set, rest, port)?),
            _ => return Err(Bad),
        }
    }
    Ok(join(answers, " "))
}

pub fn answer(name: &str, port: bool, args: &[&str]) -> Read<String> {
    match (name, port, args) {
        ("span", false, [start, end]) => {
            let span = span(start, end)?;
            let range = span.range();
            let there = std::ops::Range::<usize>::from(span);
            let back = Span::from(there.clone());
            require(back == span && there == range)?;
            Ok(format!(
                "{} {} {} {} {:?}",
                show_truth(span.is_empty()),
                span.len(),
                range.start,
                range.end,
                span
            ))
        }
        ("span_contains", false, [start, end, o]) => {
            Ok(show_truth(span(start, end)?.contains(number(o)?)).to_string())
        }
        ("span_offset", false, [start, end, n]) => {
            let (span, n) = (span(start, end)?, number::<usize>(n)?);
            require(span.start.checked_add(n).is_some() && span.end.checked_add(n).is_some())?;
            let moved = span.offset(n);
            Ok(format!("{} {}", moved.start, moved.end))
        }
        ("span_eq", false, [a, b, c, d]) => Ok(show_truth(span(a, b)? == span(c, d)?).to_string()),
        ("span_get", true, [start, end, haystack]) => {
            let (span, haystack) = (span(start, end)?, bytes(haystack)?);
            Ok(show_option(stated::cut(&haystack, span.start, span.end).map(hex)))
        }
        ("span_str", true, [start, end, haystack]) => {
            let (span, haystack) = (span(start, end)?, text(haystack)?);
            let cut = stated::cut_text(&haystack, span.start, span.end);
            Ok(show_option(cut.map(|s| hex(s.as_bytes()))))
        }
        ("span_mut", true, [start, end, haystack, b]) => {
            let (span, mut haystack) = (span(start, end)?, bytes(haystack)?);
            Ok(match haystack.get_mut(span.start..span.end) {
                None => "_".to_string(),
                Some(lent) => {
                    lent.fill(byte(b)?);
                    hex(&haystack)
                }
            })
        }
        ("input", false, [haystack, ops @ ..]) => {
            let haystack = bytes(haystack)?;
            let mut input = Input::new(&haystack);
            let mut states = vec![input_state(&input)];
            for op in ops {
                input = change(input.clone(), op)?;
                states.push(input_state(&input));
            }
            Ok(format!("{} {}", join(states, " "), hex(input.haystack())))
        }
        ("input_debug", false, [haystack, ops @ ..]) => {
            let haystack = bytes(haystack)?;
            let mut input = Input::new(&haystack);
            for op in ops {
                input = change(input, op)?;
            }
            Ok(format!("{input:?}"))
        }
        ("input_char_boundary", false, [haystack, i]) => {
            Ok(show_truth(Input::new(&bytes(haystack)?).is_char_boundary(number(i)?)).to_string())
        }
        ("half", false, [p, o]) => {
            let half = HalfMatch::must(pattern(p)?.as_usize(), number(o)?);
            require(half == HalfMatch::new(half.pattern(), half.offset()))?;
            Ok(format!("{} {}", half.pattern().as_usize(), half.offset()))
        }
        ("half_eq", false, [p, o, q, r]) => {
            let a = HalfMatch::new(pattern(p)?, number(o)?);
            let b = HalfMatch::new(pattern(q)?, number(r)?);
            Ok(show_truth(a == b).to_string())
        }
        ("match", false, [p, start, end]) => {
            let (pid, span) = (pattern(p)?, span(start, end)?);
            require(span.start <= span.end)?;
            let m = Match::must(pid.as_usize(), span);
            require(m == Match::new(pid, span))?;
            Ok(format!(
                "{} {} {} {} {} {} {} {} {}",
                m.pattern().as_usize(),
                m.start(),
                m.end(),
                m.range().start,
                m.range().end,
                m.span().start,
                m.span().end,
                show_truth(m.is_empty()),
                m.len()
            ))
        }
        ("match_eq", false, [p, a, b, q, c, d]) => {
            let (one, two) = (span(a, b)?, span(c, d)?);
            require(one.start <= one.end && two.start <= two.end)?;
            let same = Match::new(pattern(p)?, one) == Match::new(pattern(q)?, two);
            Ok(show_truth(same).to_string())
        }
        ("anchored", false, [m]) => {
            let mode = mode(m)?;
            let pid = mode.pattern().map(|p| p.as_usize());
            Ok(format!("{} {}", show_truth(mode.is_anchored()), show_option(pid)))
        }
        ("anchored_eq", false, [m, n]) => Ok(show_truth(mode(m)? == mode(n)?).to_string()),
        ("match_kind", false, [k]) => {
            let kind = match *k {
                "all" => MatchKind::All,
                "leftmost" => MatchKind::LeftmostFirst,
                "default" => MatchKind::default(),
                _ => return Err(Bad),
            };
            let name = if kind == MatchKind::All { "all" } else { "leftmost" };
            Ok(format!("{} {}", show_truth(kind.continue_past_first_match()), name))
        }
        ("match_err", false, args) => match_error(args),
        ("pset", _, [cap, ops @ ..]) => pattern_set_script(port, cap, ops),
        ("pset_err", false, [cap, pid]) => {
            let mut set = PatternSet::new(capacity(cap)?);
            let err = set.try_insert(pattern(pid)?).err().ok_or(Bad)?;
            Ok(err.to_string())
        }
        ("pset_eq", false, [cap, members, other_cap, other_members]) => {
            let (a, b) = (pattern_set(cap, members)?, pattern_set(other_cap, other_members)?);
            Ok(show_truth(a == b).to_string())
        }
        _ => Err(Bad),
    }
}
