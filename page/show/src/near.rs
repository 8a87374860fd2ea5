//! Whether one name looks like a slip of the pen for another.

/// The first of the names that is nearest to `name`, where one is near enough. Capital and small letters
/// count as alike here: the rules tell them apart, and people do not.
pub fn nearest(name: &str, names: impl IntoIterator<Item = String>) -> Option<String> {
    let measured =
        names.into_iter().filter(|other| other != name).map(|other| (distance(name, &other), other));
    let near = measured.filter(|(distance, _)| *distance <= allowed(name));
    // of those that are equally near, the first
    near.min_by_key(|(distance, _)| *distance).map(|(_, other)| other)
}

/// How many slips a name may have: short names are other names after one.
fn allowed(name: &str) -> usize {
    match name.len() {
        0..=2 => 0,
        3..=5 => 1,
        _ => 2,
    }
}

/// How many letters are to be put in, taken out, changed or exchanged with their neighbour.
fn distance(a: &str, b: &str) -> usize {
    let [a, b] = [a, b].map(|text| text.to_ascii_lowercase().into_bytes());
    if a.len().abs_diff(b.len()) > 2 {
        return usize::MAX;
    }
    let mut rows: Vec<Vec<usize>> = vec![(0..=b.len()).collect()];
    for i in 1..=a.len() {
        let mut row = vec![i];
        for j in 1..=b.len() {
            let changed = rows[i - 1][j - 1] + usize::from(a[i - 1] != b[j - 1]);
            let exchanged = i > 1 && j > 1 && a[i - 1] == b[j - 2] && a[i - 2] == b[j - 1];
            let exchanged = if exchanged { rows[i - 2][j - 2] + 1 } else { usize::MAX };
            row.push(changed.min(exchanged).min(rows[i - 1][j] + 1).min(row[j - 1] + 1));
        }
        rows.push(row);
    }
    rows[a.len()][b.len()]
}

#[cfg(test)]
mod tests {
    use super::nearest;

    fn of(name: &str, names: &[&str]) -> Option<String> {
        nearest(name, names.iter().map(|name| name.to_string()))
    }

    #[test]
    fn slips_of_the_pen() {
        for (slip, meant) in [
            ("cheif", "chief"),
            ("Limit", "limit"),
            ("limt", "limit"),
            ("limitt", "limit"),
            ("Morfine", "Morphine"),
            ("MORPHINE", "Morphine"),
            ("S", "s"),
        ] {
            assert_eq!(of(slip, &["other", meant]).as_deref(), Some(meant), "{slip}");
        }
    }

    #[test]
    fn other_names() {
        for (name, other) in
            [("a", "b"), ("to", "so"), ("limit", "amount"), ("issued", "issue_all"), ("x", "x")]
        {
            assert_eq!(of(name, &[other]), None, "{name} {other}");
        }
        assert_eq!(of("limit", &[]), None);
    }

    /// The nearest, and of those equally near the first.
    #[test]
    fn ties() {
        assert_eq!(of("lot", &["lost", "lots"]).as_deref(), Some("lost"));
        assert_eq!(of("lot", &["lots", "Lot"]).as_deref(), Some("Lot"));
    }
}
