//! The arguments, and how many random cases they give each section.

use crate::program;
use crate::section::split;

const SEED: u64 = 0x5245_4C41_5900_0001;

/// A number, decimal or hexadecimal after `0x`.
fn number(text: &str) -> Option<u64> {
    let (digits, radix) = match text.strip_prefix("0x") {
        Some(digits) => (digits, 16),
        None => (text, 10),
    };
    let signed = digits.starts_with('+');
    u64::from_str_radix(digits, radix).ok().filter(|_| !signed)
}

/// How many random cases and the seed; where no argument says so, those of the gate.
pub fn read(words: &[&str], gate: u64) -> Option<(u64, u64)> {
    match words {
        [] => Some((gate, SEED)),
        [jobs] => Some((number(jobs)?, SEED)),
        [jobs, seed] => Some((number(jobs)?, number(seed)?)),
        _ => None,
    }
}

/// The random cases of each section, in the shares of the gate. The last section is
/// the program's; what its share has over its bound goes to the first.
pub fn amounts<const SECTIONS: usize>(jobs: u64, gate: [u64; SECTIONS]) -> Vec<u64> {
    let mut amounts = split(jobs, &gate);
    let over = amounts[SECTIONS - 1].saturating_sub(program::MOST);
    amounts[SECTIONS - 1] -= over;
    amounts[0] += over;
    amounts
}

/// Holds the arguments read against values by hand.
fn check_read() {
    let good: [(&[&str], (u64, u64)); 6] = [
        (&[], (7, SEED)),
        (&["0"], (0, SEED)),
        (&["1000000"], (1_000_000, SEED)),
        (&["0xFf", "12"], (255, 12)),
        (&["18446744073709551615", "0x0"], (u64::MAX, 0)),
        (&["3", "0xffffffffffffffff"], (3, u64::MAX)),
    ];
    for (words, due) in good {
        assert_eq!(read(words, 7), Some(due), "arguments {words:?}");
    }
    let over = "18446744073709551616";
    for word in [
        "", "x", "-1", "+1", "1.5", "1e6", " 1", "0x", "0x+1", "ff", over,
    ] {
        assert_eq!(read(&[word], 7), None, "argument {word:?}");
        assert_eq!(read(&["1", word], 7), None, "seed {word:?}");
    }
    assert_eq!(read(&["1", "2", "3"], 7), None, "three arguments");
}

/// Holds the functions above against values by hand: amounts add up to the jobs, and
/// the program has its share within its bound.
pub fn check<const SECTIONS: usize>(gate: [u64; SECTIONS]) {
    check_read();
    let all: u64 = gate.iter().sum();
    assert_eq!(amounts(all, gate), gate, "the shares are the gate's");
    for jobs in [0, 1, 99, all - 1, 2 * all, 1_000_000, 10_000_000, 1 << 63] {
        let amounts = amounts(jobs, gate);
        assert_eq!(amounts.iter().sum::<u64>(), jobs, "{jobs} in all");
        let share = u128::from(jobs) * u128::from(gate[SECTIONS - 1]) / u128::from(all);
        let bounded = share.min(20_000) as u64;
        let beside = amounts[SECTIONS - 1].abs_diff(bounded);
        assert!(beside <= 1, "the program's share of {jobs}");
    }
}
