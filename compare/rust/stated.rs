//! What the port states where it departs from the original or has a call of its own, computed
//! slowly and plainly. Nothing here calls the original but for the types that it answers in.

use crate::tokens::Lists;
use crate::util::look::Look;

/// The encoding of a character, by the arithmetic of RFC 3629.
pub fn enc(c: char) -> Vec<u8> {
    let n = u32::from(c);
    let tail = |shift: u32| (0x80 + (n >> shift) % 64) as u8;
    match n {
        0..0x80 => vec![n as u8],
        0x80..0x800 => vec![(0xC0 + (n >> 6)) as u8, tail(0)],
        0x800..0x10000 => vec![(0xE0 + (n >> 12)) as u8, tail(6), tail(0)],
        _ => vec![(0xF0 + (n >> 18)) as u8, tail(12), tail(6), tail(0)],
    }
}

/// The character whose encoding is all of these bytes.
fn encoded(bytes: &[u8]) -> Option<char> {
    let digits = bytes.iter().skip(1).fold(0u32, |n, b| n * 64 + u32::from(b % 64));
    let first = u32::from(*bytes.first()?);
    let number = match bytes.len() {
        1 => first,
        2 => (first % 32) * 64 + digits,
        3 => (first % 16) * 4096 + digits,
        _ => (first % 8) * 262144 + digits,
    };
    char::from_u32(number).filter(|&c| enc(c) == bytes)
}

/// The character whose encoding begins at `i`.
pub fn begins(haystack: &[u8], i: usize) -> Option<char> {
    (1..=4).filter(|n| i + n <= haystack.len()).find_map(|n| encoded(&haystack[i..i + n]))
}

/// The character whose encoding ends at `i`.
pub fn ends(haystack: &[u8], i: usize) -> Option<char> {
    (1..=4).filter(|&n| n <= i).find_map(|n| encoded(&haystack[i - n..i]))
}

/// The character at the end, else the last byte: an encoding must reach the end.
pub fn decode_last(haystack: &[u8]) -> Option<Result<char, u8>> {
    let last = *haystack.last()?;
    Some(ends(haystack, haystack.len()).ok_or(last))
}

/// What `\w` accepts: any predicate on characters.
pub type WordPredicate<'a> = &'a dyn Fn(char) -> bool;

/// Letters, digits and `_` of ASCII.
pub fn is_word_byte(b: u8) -> bool {
    matches!(b, b'0'..=b'9' | b'A'..=b'Z' | b'_' | b'a'..=b'z')
}

/// The port's `AsciiWord`.
pub fn ascii_word(c: char) -> bool {
    u32::from(c) < 128 && is_word_byte(c as u8)
}

/// The port's `UnicodeWord`, here by the table that the build makes.
pub fn unicode_word(c: char) -> bool {
    regex_syntax::try_is_word_character(c).unwrap_or(false)
}

/// What is on one side of a position.
#[derive(Clone, Copy, PartialEq)]
enum Side {
    None,
    Bad,
    WordCharacter,
    Other,
}

fn side(byte: Option<u8>, c: Option<char>, accepts: WordPredicate) -> Side {
    match (byte, c) {
        (None, _) => Side::None,
        (Some(_), None) => Side::Bad,
        (Some(_), Some(c)) if accepts(c) => Side::WordCharacter,
        (Some(_), Some(_)) => Side::Other,
    }
}

/// Whether an assertion holds at a position, by its neighbours.
pub fn holds(
    look: Look,
    terminator: u8,
    accepts: WordPredicate,
    haystack: &[u8],
    at: usize,
) -> bool {
    let previous = at.checked_sub(1).map(|i| haystack[i]);
    let next = haystack.get(at).copied();
    let (word_previous, word_next) =
        (previous.is_some_and(is_word_byte), next.is_some_and(is_word_byte));
    let before = || side(previous, ends(haystack, at), accepts);
    let after = || side(next, begins(haystack, at), accepts);
    let is_word_character = |s: Side| s == Side::WordCharacter;
    match look {
        Look::Start => previous.is_none(),
        Look::End => next.is_none(),
        Look::StartLF => previous.is_none() || previous == Some(terminator),
        Look::EndLF => next.is_none() || next == Some(terminator),
        Look::StartCRLF => {
            previous.is_none()
                || previous == Some(b'\n')
                || (previous == Some(b'\r') && next != Some(b'\n'))
        }
        Look::EndCRLF => {
            next.is_none()
                || next == Some(b'\r')
                || (next == Some(b'\n') && previous != Some(b'\r'))
        }
        Look::WordAscii => word_previous != word_next,
        Look::WordAsciiNegate => word_previous == word_next,
        Look::WordStartAscii => !word_previous && word_next,
        Look::WordEndAscii => word_previous && !word_next,
        Look::WordStartHalfAscii => !word_previous,
        Look::WordEndHalfAscii => !word_next,
        Look::WordUnicode => is_word_character(before()) != is_word_character(after()),
        Look::WordUnicodeNegate => {
            before() != Side::Bad
                && after() != Side::Bad
                && is_word_character(before()) == is_word_character(after())
        }
        Look::WordStartUnicode => is_word_character(after()) && !is_word_character(before()),
        Look::WordEndUnicode => is_word_character(before()) && !is_word_character(after()),
        Look::WordStartHalfUnicode => matches!(before(), Side::None | Side::Other),
        Look::WordEndHalfUnicode => matches!(after(), Side::None | Side::Other),
    }
}

/// The eighteen.
pub fn all_looks() -> impl Iterator<Item = Look> + Clone {
    (0..18).filter_map(|i| Look::from_repr(1 << i))
}

/// `LookSet::from_bits`: `None` exactly if a bit above the eighteenth is set.
pub fn lookset_from_bits(bits: u32) -> Option<u32> {
    (bits < 1 << 18).then_some(bits)
}

/// The bytes of a span, where it is one of the haystack.
pub fn cut(haystack: &[u8], start: usize, end: usize) -> Option<&[u8]> {
    (start <= end && end <= haystack.len()).then(|| &haystack[start..end])
}

/// The text of a span, whose ends must be character boundaries too.
pub fn cut_text(haystack: &str, start: usize, end: usize) -> Option<&str> {
    let is_char_boundary =
        |i: usize| haystack.as_bytes().get(i).is_none_or(|b| !matches!(b, 0x80..=0xBF));
    let bytes = cut(haystack.as_bytes(), start, end)?;
    if !is_char_boundary(start) || !is_char_boundary(end) {
        return None;
    }
    std::str::from_utf8(bytes).ok()
}

/// The slot of a group: implicit slots first, then the explicit ones by pattern.
pub fn slot(lists: &Lists, p: usize, g: usize) -> Option<usize> {
    if g >= lists.get(p)?.len() {
        return None;
    }
    if g == 0 {
        return Some(2 * p);
    }
    let explicit: usize = lists[..p].iter().map(|groups| groups.len() - 1).sum();
    Some(2 * lists.len() + 2 * explicit + 2 * (g - 1))
}

/// Why `GroupInfo::new_limited` refuses the lists, if it does: they are read by pattern and then by
/// group, and the slots are counted last.
pub fn limited_refusal(limit: usize, lists: &Lists) -> Option<String> {
    let too_many = |p: usize, minimum: usize| {
        format!("too many capture groups (at least {minimum}) were found for pattern {p}")
    };
    let explicit_up_to =
        |p: usize| -> usize { lists[..=p].iter().map(|groups| groups.len() - 1).sum() };
    let mut read = 0;
    for (p, groups) in lists.iter().enumerate() {
        if groups.is_empty() {
            return Some(format!(
                "no capturing groups found for pattern {p} (either all patterns have zero groups or all patterns have at least one group)"
            ));
        }
        if groups[0].is_some() {
            return Some(format!(
                "first capture group (at index 0) for pattern {p} has a name (it must be unnamed)"
            ));
        }
        for (g, name) in groups.iter().enumerate().skip(1) {
            read += 1;
            if 2 * read > limit {
                return Some(too_many(p, g));
            }
            if let Some(name) = name.as_ref().filter(|_| groups[..g].contains(name)) {
                return Some(format!(
                    "duplicate capture group name '{name}' found for pattern {p}"
                ));
            }
        }
    }
    (0..lists.len())
        .find(|&p| 2 * explicit_up_to(p) + 2 * lists.len() > limit)
        .map(|p| too_many(p, lists[p].len()))
}

/// The spans of the groups that take part, as pairs of start and end.
pub fn participating(
    lists: &Lists,
    pattern: Option<usize>,
    slots: &[Option<usize>],
) -> Vec<(usize, usize)> {
    let Some(q) = pattern else { return vec![] };
    let groups = lists.get(q).map_or(0, |groups| groups.len());
    let span = |i: usize| {
        let slot = if lists.len() == 1 { 2 * i } else { slot(lists, q, i)? };
        let set = |slot: usize| slots.get(slot).copied().flatten();
        Some((set(slot)?, set(slot + 1)?))
    };
    (0..groups).filter_map(span).collect()
}

/// The parts of an extraction of `n` groups: the whole match, then the groups.
pub fn extract<T>(
    n: usize,
    participating: &[(usize, usize)],
    cut: impl Fn(usize, usize) -> Option<T>,
) -> Option<Vec<T>> {
    participating.get(..n + 1)?.iter().map(|&(start, end)| cut(start, end)).collect()
}
