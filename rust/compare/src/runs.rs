//! The longest run 1, 2, 3, … that can be picked from a list of numbers in its order (02's S-6), told by subsequences and not by the
//! receiver's rule.

/// Whether 1, 2, .., `length` is the longest run.
pub fn is_longest(length: u32, numbers: &[u32]) -> bool {
    can_be_picked(length, numbers) && !can_be_picked(length + 1, numbers)
}

/// Whether 1, 2, .., `length` is a subsequence of the list: each is looked for before the one after it, from the list's end.
fn can_be_picked(length: u32, numbers: &[u32]) -> bool {
    let mut before = numbers;
    (1..=length).rev().all(|number| {
        let place = before.iter().rposition(|other| *other == number);
        before = &before[..place.unwrap_or(0)];
        place.is_some()
    })
}

#[cfg(test)]
mod tests {
    use super::*;

    /// The longest run among all lists that are left when any numbers are taken away.
    fn longest(numbers: &[u32]) -> u32 {
        let picked = |chosen: u32| numbers.iter().enumerate().filter(move |(place, _)| chosen >> place & 1 == 1).map(|(_, number)| *number);
        let is_run = |chosen: &u32| picked(*chosen).eq(1..=chosen.count_ones());
        (0..1 << numbers.len()).filter(is_run).map(u32::count_ones).max().unwrap_or(0)
    }

    #[test]
    fn the_longest_run_of_every_short_list_is_told_and_no_other() {
        for code in 0..4_u32.pow(6) {
            let numbers: Vec<u32> = (0..6).map(|place| code / 4_u32.pow(place) % 4 + 1).collect();
            let told: Vec<u32> = (0..=6).filter(|length| is_longest(*length, &numbers)).collect();
            assert_eq!(told, [longest(&numbers)], "{numbers:?}");
        }
        assert!(is_longest(0, &[]) && !is_longest(1, &[]) && !is_longest(u32::MAX, &[1]));
    }
}
