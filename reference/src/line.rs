//! Waiting lines, first in first out, one text for every kind of entry.
//! The first `count` slots hold the entries that wait, in the order in which they joined.

/// Adds an entry at the end; false if every slot is taken.
pub fn push<E>(slots: &mut [E], count: &mut usize, entry: E) -> bool {
    if *count == slots.len() {
        return false;
    }
    slots[*count] = entry;
    *count += 1;
    true
}

pub fn first<E: Copy>(slots: &[E], count: usize) -> Option<E> {
    slots[..count].first().copied()
}

/// Takes the first entry out; the others move up.
pub fn take<E: Copy>(slots: &mut [E], count: &mut usize) -> Option<E> {
    let entry = first(slots, *count)?;
    slots[..*count].rotate_left(1);
    *count -= 1;
    Some(entry)
}

#[cfg(test)]
mod tests {
    use super::*;

    #[test]
    fn first_in_first_out() {
        let mut slots = [0; 3];
        let mut count = 0;
        assert_eq!(take(&mut slots, &mut count), None);
        for entry in [5, 6, 7] {
            assert!(push(&mut slots, &mut count, entry));
        }
        assert!(!push(&mut slots, &mut count, 8));
        assert_eq!(take(&mut slots, &mut count), Some(5));
        assert!(push(&mut slots, &mut count, 8));
        let rest: Vec<i32> = std::iter::from_fn(|| take(&mut slots, &mut count)).collect();
        assert_eq!(rest, [6, 7, 8]);
    }
}
