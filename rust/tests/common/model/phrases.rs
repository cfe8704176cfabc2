//! Phrases: where a needle first stands in an entry, and the entry from there to its end.
use super::forms::check;
use super::{over_limit, Told};

/// The smallest byte offset where the needle's bytes stand. An empty needle stands at 0.
pub fn first(entry: &[u8], needle: &[u8]) -> Option<usize> {
    (0..=entry.len()).find(|&k| entry[k..].starts_with(needle))
}

/// What a search tells: 2 where either text is over the limit, then 1 with the needle's first damage, then the match; 0 alone is absent.
pub fn find(entry: &[u8], needle: &[u8]) -> Told {
    let longer = entry.len().max(needle.len());
    let mut told = over_limit(longer).unwrap_or_else(|| check(needle));
    if told == [0] {
        told.extend(first(entry, needle));
    }
    told
}

/// The entry from the match to its end; for absent or a refusal, the empty part.
pub fn rest<'a>(entry: &'a [u8], needle: &[u8]) -> &'a [u8] {
    match find(entry, needle)[..] {
        [0, k] => &entry[k..],
        _ => &[],
    }
}
