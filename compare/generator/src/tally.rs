//! How often each of some named things was found.

/// Counts the things that were found, in the order of their counts.
pub fn add(counts: &mut [u64], found: impl IntoIterator<Item = bool>) {
    for (count, found) in counts.iter_mut().zip(found) {
        *count += u64::from(found);
    }
}

/// The things that were never found.
pub fn missing<'a>(names: &'a [&str], counts: &'a [u64]) -> impl Iterator<Item = &'a str> {
    let counts = names.iter().zip(counts);
    counts.filter_map(|(name, count)| (*count == 0).then_some(*name))
}

/// A line for each thing, with some words before it.
pub fn lines(words: &str, names: &[&str], counts: &[u64]) -> String {
    let counts = names.iter().zip(counts);
    let line = |(name, count)| format!("{words} {name}: {count}\n");
    counts.map(line).collect()
}
