//! Group infos and captures.

use crate::stated;
use crate::tokens::*;
use crate::util::captures::{Captures, GroupInfo, GroupInfoError};
use crate::util::primitives::{NonMaxUsize, PatternID};

fn group_info(lists: &Lists) -> Result<GroupInfo, GroupInfoError> {
    GroupInfo::new(lists.iter().map(|groups| groups.iter().map(|name| name.as_ref())))
}

fn counts(info: &GroupInfo) -> String {
    format!(
        "{}:{}:{}:{}:{}",
        info.pattern_len(),
        info.all_group_len(),
        info.slot_len(),
        info.implicit_slot_len(),
        info.explicit_slot_len()
    )
}

/// The first slot of each group, patterns with `;` between.
fn first_slots(lists: &Lists, slot: impl Fn(usize, usize) -> Option<usize>) -> String {
    let patterns = lists
        .iter()
        .enumerate()
        .map(|(p, groups)| join((0..groups.len()).map(|g| show_option(slot(p, g))), ","));
    join(patterns, ";")
}

/// The answer of `groups`.
fn groups(lists: &Lists) -> String {
    match group_info(lists) {
        Err(err) => format!("err {err}"),
        Ok(info) => {
            let slot = |p, g| info.slot(PatternID::must(p), g);
            format!("ok {} {}", counts(&info), first_slots(lists, slot))
        }
    }
}

/// The answer of `limited_port`, as stated.
fn limited(limit: usize, lists: &Lists) -> Read<String> {
    if limit > 2147483646 {
        return Err(Bad);
    }
    if let Some(text) = stated::limited_refusal(limit, lists) {
        return Ok(format!("err {text}"));
    }
    let (patterns, groups) = (lists.len(), lists.iter().map(Vec::len).sum::<usize>());
    let counts =
        format!("{patterns}:{groups}:{}:{}:{}", 2 * groups, 2 * patterns, 2 * (groups - patterns));
    Ok(format!("ok {counts} {}", first_slots(lists, |p, g| stated::slot(lists, p, g))))
}

fn pattern_and_group(s: &str) -> Read<(PatternID, usize)> {
    let (p, g) = two(s)?;
    Ok((pattern(p)?, number(g)?))
}

fn group_info_script(mut info: GroupInfo, ops: &[&str]) -> Read<String> {
    let mut answers = vec![];
    for op in ops {
        let (op, rest) = op.split_at_checked(1).ok_or(Bad)?;
        match op {
            "i" => {
                let (p, name) = two(rest)?;
                answers.push(show_option(info.to_index(pattern(p)?, &text(name)?)));
            }
            "n" => {
                let (pid, g) = pattern_and_group(rest)?;
                answers.push(show_name(info.to_name(pid, g)));
            }
            "s" => {
                let (pid, g) = pattern_and_group(rest)?;
                answers.push(show_option(info.slot(pid, g)));
            }
            "S" => {
                let (pid, g) = pattern_and_group(rest)?;
                let slots = info.slots(pid, g).map(|(a, b)| format!("{a}:{b}"));
                answers.push(show_option(slots));
            }
            "g" => answers.push(info.group_len(pattern(rest)?).to_string()),
            "P" => {
                let names = info.pattern_names(pattern(rest)?);
                let (names, hints) = iterated_with_hints(names, ",", show_name);
                answers.push(format!("{names}/{hints}"));
            }
            "A" => answers.push(iterated(info.all_names(), ",", |(pid, g, name)| {
                format!("{}:{g}:{}", pid.as_usize(), show_name(name))
            })),
            "q" => answers.push(counts(&info)),
            "k" => info = info.clone(),
            _ => return Err(Bad),
        }
    }
    Ok(join(answers, " "))
}

fn offset(s: &str) -> Read<Option<NonMaxUsize>> {
    option(s, |s| NonMaxUsize::new(number(s)?).ok_or(Bad))
}

fn captures(kind: &str, lists: &Lists) -> Read<Captures> {
    let info = group_info(lists).map_err(|_| Bad)?;
    Ok(match kind {
        "all" => Captures::all(info),
        "matches" => Captures::matches(info),
        "empty" => Captures::empty(info),
        _ => return Err(Bad),
    })
}

/// The whole match and the groups of an extraction, with `/` between.
fn show_extracted(extracted: Option<Vec<Vec<u8>>>) -> String {
    show_option(extracted.map(|parts| join(parts.iter().map(|part| hex(part)), "/")))
}

/// An extraction as stated: `None` exactly if too few groups take part or a span doesn't cut
/// the haystack.
fn stated_extract(
    caps: &Captures,
    lists: &Lists,
    n: usize,
    haystack: &[u8],
    as_text: bool,
) -> Read<Option<Vec<Vec<u8>>>> {
    let slots: Vec<Option<usize>> = caps.slots().iter().map(|s| s.map(|s| s.get())).collect();
    let pattern = caps.pattern().map(|pid| pid.as_usize());
    let participating = stated::participating(lists, pattern, &slots);
    if !as_text {
        let cut = |start, end| stated::cut(haystack, start, end).map(|c| c.to_vec());
        return Ok(stated::extract(n, &participating, cut));
    }
    let haystack = std::str::from_utf8(haystack).map_err(|_| Bad)?;
    let cut = |start, end| stated::cut_text(haystack, start, end).map(|c| c.as_bytes().to_vec());
    Ok(stated::extract(n, &participating, cut))
}

fn original_extract(
    caps: &Captures,
    n: usize,
    haystack: &[u8],
    as_text: bool,
) -> Read<Vec<Vec<u8>>> {
    macro_rules! by_number {
        ($($n:literal)*) => {
            match n {
                $($n if as_text => {
                    let haystack = std::str::from_utf8(haystack).map_err(|_| Bad)?;
                    let (whole, groups) = caps.extract::<$n>(haystack);
                    [whole].iter().chain(&groups).map(|s| s.as_bytes().to_vec()).collect()
                })*
                $($n => {
                    let (whole, groups) = caps.extract_bytes::<$n>(haystack);
                    [whole].iter().chain(&groups).map(|s| s.to_vec()).collect()
                })*
                _ => return Err(Bad),
            }
        };
    }
    Ok(by_number!(0 1 2 3 4 5 6 7 8))
}

fn captures_script(
    port: bool,
    kind: &str,
    lists: &Lists,
    ops: &[&str],
) -> Read<(Captures, String)> {
    let mut caps = captures(kind, lists)?;
    let mut answers = vec![];
    for op in ops {
        let (op, rest) = op.split_at_checked(1).ok_or(Bad)?;
        match op {
            "m" => answers.push(show_truth(caps.is_match()).to_string()),
            "p" => answers.push(show_option(caps.pattern().map(|pid| pid.as_usize()))),
            "G" => answers.push(caps.group_info().pattern_len().to_string()),
            "s" => {
                let slots = caps.slots().iter().map(|s| show_option(s.map(|s| s.get())));
                answers.push(join(slots, ","));
            }
            "g" => answers.push(show_span(caps.get_group(number(rest)?))),
            "n" => answers.push(show_span(caps.get_group_by_name(&text(rest)?))),
            "l" => answers.push(caps.group_len().to_string()),
            "i" => {
                let (spans, hints) = iterated_with_hints(caps.iter(), ",", show_span);
                answers.push(format!("{spans}/{hints}"));
            }
            "M" => {
                // Condition: the span has start at most end.
                if caps.get_group(0).is_some_and(|s| s.start > s.end) {
                    return Err(Bad);
                }
                answers
                    .push(show_option(caps.get_match().map(|m| {
                        format!("{}:{}..{}", m.pattern().as_usize(), m.start(), m.end())
                    })));
            }
            "x" | "y" => {
                let (n, haystack) = two(rest)?;
                let (n, haystack, as_text) = (number(n)?, bytes(haystack)?, op == "x");
                let stated = stated_extract(&caps, lists, n, &haystack, as_text)?;
                answers.push(match port {
                    true => show_extracted(stated),
                    // The original would panic where the port answers None.
                    false if stated.is_none() => return Err(Bad),
                    false => show_extracted(Some(original_extract(&caps, n, &haystack, as_text)?)),
                });
            }
            "c" => caps.clear(),
            "=" => caps.set_pattern(option(rest, pattern)?),
            "w" => {
                let (index, value) = two(rest)?;
                let slot = caps.slots_mut().get_mut(number::<usize>(index)?).ok_or(Bad)?;
                *slot = offset(value)?;
            }
            "k" => caps = caps.clone(),
            _ => return Err(Bad),
        }
    }
    Ok((caps, join(answers, " ")))
}

pub fn answer(name: &str, port: bool, args: &[&str]) -> Read<String> {
    match (name, port, args) {
        ("groups", false, [l]) => Ok(groups(&lists(l)?)),
        ("limited", true, [limit, l]) => limited(number(limit)?, &lists(l)?),
        ("gi", false, [l, ops @ ..]) => match group_info(&lists(l)?) {
            Ok(info) => group_info_script(info, ops),
            Err(err) => Ok(format!("err {err}")),
        },
        ("gi_empty", false, ops) => group_info_script(GroupInfo::empty(), ops),
        ("caps", _, [kind, l, ops @ ..]) => Ok(captures_script(port, kind, &lists(l)?, ops)?.1),
        ("caps_debug", false, [kind, l, ops @ ..]) => {
            Ok(format!("{:?}", captures_script(false, kind, &lists(l)?, ops)?.0))
        }
        _ => Err(Bad),
    }
}
