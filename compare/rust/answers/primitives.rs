//! Small indices, UTF-8 at both ends, escapes.

use std::fmt::Write;

use crate::stated;
use crate::tokens::*;
use crate::util::escape::{DebugByte, DebugHaystack};
use crate::util::primitives::*;
use crate::util::utf8;

macro_rules! index_commands {
    ($function:ident, $index:ident, $error:ident) => {
        fn $function(name: &str, args: &[&str]) -> Read<String> {
            let show = |made: Result<$index, $error>| match made {
                Ok(x) => format!("ok {}", x.as_usize()),
                Err(err) => format!("err {} {}", err.attempted(), err),
            };
            match (name, args) {
                ("idx_consts", []) => Ok(format!(
                    "{} {} {} {} {}",
                    $index::MAX.as_usize(),
                    $index::LIMIT,
                    $index::ZERO.as_usize(),
                    $index::SIZE,
                    $index::default().as_usize()
                )),
                ("idx_new", [n]) => Ok(show($index::new(number(n)?))),
                ("idx_from", ["u8", n]) => Ok(show(Ok($index::from(number::<u8>(n)?)))),
                ("idx_from", ["u16", n]) => Ok(show($index::try_from(number::<u16>(n)?))),
                ("idx_from", ["u32", n]) => Ok(show($index::try_from(number::<u32>(n)?))),
                ("idx_from", ["u64", n]) => Ok(show($index::try_from(number::<u64>(n)?))),
                ("idx_from", ["usize", n]) => Ok(show($index::try_from(number::<usize>(n)?))),
                ("idx_from_le", [haystack]) => {
                    let le: [u8; 4] = bytes(haystack)?.try_into().map_err(|_| Bad)?;
                    let ne = u32::from_le_bytes(le).to_ne_bytes();
                    Ok(show($index::from_ne_bytes(ne)))
                }
                ("idx_get", [n]) => {
                    let n: usize = number(n)?;
                    if n > $index::MAX.as_usize() {
                        return Err(Bad);
                    }
                    let x = $index::must(n);
                    let le = u32::from_ne_bytes(x.to_ne_bytes()).to_le_bytes();
                    Ok(format!(
                        "{} {} {} {} {} {} {:?}",
                        x.as_usize(),
                        x.as_u64(),
                        x.as_u32(),
                        x.as_i32(),
                        x.one_more(),
                        hex(&le),
                        x
                    ))
                }
                ("idx_cmp", [a, b]) => {
                    let a = $index::new(number(a)?).map_err(|_| Bad)?;
                    let b = $index::new(number(b)?).map_err(|_| Bad)?;
                    Ok(compare(a, b))
                }
                ("idx_err_eq", [a, b]) => {
                    let a = $index::new(number(a)?).err().ok_or(Bad)?;
                    let b = $index::new(number(b)?).err().ok_or(Bad)?;
                    Ok(show_truth(a == b).to_string())
                }
                _ => Err(Bad),
            }
        }
    };
}

index_commands!(small, SmallIndex, SmallIndexError);
index_commands!(pattern_id, PatternID, PatternIDError);
index_commands!(state, StateID, StateIDError);

/// The first answers of `next`.
fn first(mut it: impl Iterator<Item = usize>, take: usize) -> String {
    join((0..take).map(|_| show_option(it.next())), ",")
}

fn iterated_index(kind: &str, len: usize, take: usize, port: bool) -> Read<String> {
    if len > SmallIndex::LIMIT {
        return Err(Bad);
    }
    match (kind, port) {
        // The original has no such call; the iterator is stated as 0 to len - 1.
        ("small", true) => Ok(first(0..len, take)),
        ("pattern", false) => Ok(first(PatternID::iter(len).map(|x| x.as_usize()), take)),
        ("state", false) => Ok(first(StateID::iter(len).map(|x| x.as_usize()), take)),
        _ => Err(Bad),
    }
}

fn show_decoded(decoded: Option<Result<char, u8>>) -> String {
    match decoded {
        None => "_".to_string(),
        Some(Ok(c)) => format!("ok {}", u32::from(c)),
        Some(Err(b)) => format!("err {b:02x}"),
    }
}

pub fn answer(name: &str, port: bool, args: &[&str]) -> Read<String> {
    match (name, port, args) {
        ("idx_iter", _, [kind, len, take]) => {
            iterated_index(kind, number(len)?, number(take)?, port)
        }
        (_, false, ["small", rest @ ..]) => small(name, rest),
        (_, false, ["pattern", rest @ ..]) => pattern_id(name, rest),
        (_, false, ["state", rest @ ..]) => state(name, rest),
        ("nonmax", false, [n]) => Ok(match NonMaxUsize::new(number(n)?) {
            None => "_".to_string(),
            Some(x) => format!("{} {:?}", x.get(), x),
        }),
        ("nonmax_cmp", false, [a, b]) => {
            let a = NonMaxUsize::new(number(a)?).ok_or(Bad)?;
            let b = NonMaxUsize::new(number(b)?).ok_or(Bad)?;
            Ok(compare(a, b))
        }
        ("decode", false, [haystack]) => Ok(show_decoded(utf8::decode(&bytes(haystack)?))),
        ("decode_last", false, [haystack]) => {
            Ok(show_decoded(utf8::decode_last(&bytes(haystack)?)))
        }
        ("decode_last", true, [haystack]) => {
            Ok(show_decoded(stated::decode_last(&bytes(haystack)?)))
        }
        ("is_boundary", false, [haystack, i]) => {
            Ok(show_truth(utf8::is_boundary(&bytes(haystack)?, number(i)?)).to_string())
        }
        ("char_boundaries", false, [haystack]) => {
            let haystack = bytes(haystack)?;
            Ok(show_truths((0..=haystack.len() + 1).map(|i| utf8::is_boundary(&haystack, i))))
        }
        ("is_word_byte", false, [b]) => Ok(show_truth(utf8::is_word_byte(byte(b)?)).to_string()),
        ("byte_text", false, [b]) => Ok(format!("{:?}", DebugByte(byte(b)?))),
        ("haystack_text", false, [haystack]) => {
            let mut text = String::new();
            write!(text, "{:?}", DebugHaystack(&bytes(haystack)?)).map_err(|_| Bad)?;
            Ok(text)
        }
        _ => Err(Bad),
    }
}
