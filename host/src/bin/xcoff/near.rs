//! A word that was probably meant.

/// The one of the known words that is nearest, where it is near enough: the beginning of just one, or a letter or two
/// changed, left out, added or exchanged with its neighbour.
pub fn nearest<'a>(word: &str, known: impl Iterator<Item = &'a str>) -> Option<&'a str> {
    let known: Vec<&str> = known.collect();
    let begun: Vec<&&str> = known.iter().filter(|k| k.starts_with(word)).collect();
    if let ([one], true) = (begun.as_slice(), word.len() >= 2) {
        return Some(one);
    }
    let most = if word.len() <= 4 { 1 } else { 2 };
    let near = known.iter().map(|&k| (distance(word, k), k));
    near.filter(|(steps, _)| *steps <= most)
        .min_by_key(|(steps, _)| *steps)
        .map(|(_, k)| k)
}

/// How many letters have to be changed, left out, added, or exchanged with their neighbours.
fn distance(a: &str, b: &str) -> usize {
    let (a, b): (Vec<char>, Vec<char>) = (a.chars().collect(), b.chars().collect());
    let mut rows = vec![(0..=b.len()).collect::<Vec<usize>>()];
    for i in 1..=a.len() {
        let mut row = vec![i];
        for j in 1..=b.len() {
            let changed = rows[i - 1][j - 1] + usize::from(a[i - 1] != b[j - 1]);
            let mut least = changed.min(rows[i - 1][j] + 1).min(row[j - 1] + 1);
            if i > 1 && j > 1 && a[i - 1] == b[j - 2] && a[i - 2] == b[j - 1] {
                least = least.min(rows[i - 2][j - 2] + 1);
            }
            row.push(least);
        }
        rows.push(row);
    }
    rows[a.len()][b.len()]
}
