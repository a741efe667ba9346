//! Cutting a journal down while it still shows a difference.

use crate::journal::Journal;
use std::rc::Rc;

/// Parts of a list are left out, halves first, as long as `fails` holds of what is left.
fn shrink_list<T: Clone>(mut items: Vec<T>, fails: &mut dyn FnMut(&[T]) -> bool) -> Vec<T> {
    let mut size = items.len().div_ceil(2);
    while size > 0 {
        let mut at = 0;
        while at < items.len() {
            let end = (at + size).min(items.len());
            let kept: Vec<T> = [&items[..at], &items[end..]].concat();
            match fails(&kept) {
                true => items = kept,
                false => at = end,
            }
        }
        size = if size == 1 { 0 } else { size.div_ceil(2) };
    }
    items
}

/// A text cut behind each semicolon.
fn pieces(text: &[u8]) -> Vec<Vec<u8>> {
    text.split_inclusive(|&b| b == b';').map(<[u8]>::to_vec).collect()
}

/// Leaves out lines, then parts of the unit texts. `tries` bounds how often `fails` is asked.
pub fn shrink(journal: &Journal, tries: usize, fails: &mut dyn FnMut(&Journal) -> bool) -> Journal {
    let mut left = tries;
    let mut ask = |candidate: &Journal| {
        left = left.saturating_sub(1);
        left > 0 && fails(candidate)
    };
    let mut best = Journal { noisy: false, ..journal.clone() };
    if !ask(&best) {
        best.noisy = journal.noisy;
    }
    let base = best.clone();
    best.lines = shrink_list(best.lines, &mut |lines| ask(&Journal { lines: lines.to_vec(), ..base.clone() }));
    for name in journal.files.keys() {
        let base = best.clone();
        let with = |parts: &[Vec<u8>]| {
            let mut files = base.files.clone();
            files.insert(name.clone(), Rc::new(parts.concat()));
            Journal { files, ..base.clone() }
        };
        let parts = shrink_list(pieces(&base.files[name]), &mut |parts| ask(&with(parts)));
        best = with(&parts);
    }
    best
}

#[cfg(test)]
mod tests {
    use super::*;
    use crate::journal::read_lines;

    #[test]
    fn only_what_matters_is_left() {
        let text: String = (0..40).map(|i| format!("unload {i}\n")).collect();
        let files = [("x".to_string(), Rc::new(b"var a; var b; var c;".to_vec()))].into();
        let journal = Journal { lines: read_lines(&text).unwrap(), files, noisy: true };
        let has = |j: &Journal, line: &str| j.lines.iter().any(|l| l.text == line);
        let small = shrink(&journal, 1000, &mut |j| {
            has(j, "unload 7") && has(j, "unload 33") && j.files["x"].windows(5).any(|w| w == b"var b")
        });
        assert_eq!(small.text(), "unload 7\nunload 33\n");
        assert_eq!(*small.files["x"], b" var b;");
    }
}
