//! Films and constant rates. The trees of the jobs, which are checked and not used, are
//! any.

use crate::edges::{example_jobs, TREE_Q};
use crate::faults::{one_or_two, with_faults};
use crate::job::{Job, GREATEST_AMOUNT, GREATEST_DELAY, GREATEST_FRAME, MOST_FRAMES, MOST_NODES};
use crate::rng::Rng;
use crate::sending::{Case, Known, Line, LENGTHS, LONGEST_LIST};
use crate::shapes::{at_bounds, valid, SHAPES};
use crate::steady::Film;

const MOST: u64 = u64::MAX;

/// A line without a delay.
const NONE: Line = [13, 0, 0];

/// A job with any tree, mostly a small one, and this film.
fn showing(frames: Vec<u32>, rng: &mut Rng) -> Job {
    let most = if rng.one_in(20) { MOST_NODES } else { 5 };
    let nodes = 2 + rng.index(most - 1);
    let shape = rng.pick(&SHAPES);
    Job::new(valid(shape, nodes, 1, rng).records, frames)
}

fn sum(frames: &[u32]) -> u64 {
    frames.iter().map(|&frame| u64::from(frame)).sum()
}

pub fn mean(frames: &[u32]) -> u64 {
    sum(frames) / frames.len() as u64
}

pub fn largest(frames: &[u32]) -> u64 {
    frames.iter().copied().max().map_or(0, u64::from)
}

/// The rates that matter to a film, and those beside them.
fn marked(frames: &[u32]) -> Vec<u64> {
    let least = Film::new(frames).least_rate();
    let mut rates = vec![0, 1, 2, MOST - 1, MOST, 1 << 63, (1 << 63) + 1, 1 << 32];
    for rate in [mean(frames), largest(frames), least, sum(frames)] {
        rates.extend([rate, rate.saturating_sub(1), rate + 1]);
    }
    rates
}

/// A rate whose product with some slot is small in its 64 low bits alone.
fn running_over(frames: &[u32], rng: &mut Rng) -> u64 {
    let slot = rng.within(2..=frames.len().max(2) as u64);
    MOST / slot + 1 + rng.below(2)
}

/// Any rate: one that matters, one between the least that serves and the largest frame,
/// one that runs over, or any number.
fn any_rate(frames: &[u32], rng: &mut Rng) -> u64 {
    let least = Film::new(frames).least_rate();
    let (mean, largest) = (mean(frames).max(least), largest(frames).max(least));
    match rng.below(8) {
        0..=2 => rng.pick(&marked(frames)),
        3 => rng.within(least..=largest),
        4 => rng.within(least..=mean),
        5 => rng.within(mean / 2..=2 * mean),
        6 => running_over(frames, rng),
        _ => rng.up_to(MOST),
    }
}

/// Up to 8 rates; 1 and 8 of them more often than others.
fn any_rates(frames: &[u32], rng: &mut Rng) -> Vec<u64> {
    let any = rng.within(1..=8);
    let count = rng.pick(&[1, 8, any, any]);
    (0..count).map(|_| any_rate(frames, rng)).collect()
}

/// The rates that matter in calls of 8, the last of them with fewer.
fn all_marked(frames: &[u32], rng: &mut Rng) -> Vec<Case> {
    let mut rates = marked(frames);
    rates.push(running_over(frames, rng));
    let job = showing(frames.to_vec(), rng);
    let call = |rates: &[u64]| Case::new(&job, rates.to_vec());
    rates.chunks(8).map(call).collect()
}

/// A film of one of several forms.
fn any_film(count: usize, rng: &mut Rng) -> Vec<u32> {
    let most = rng.pick(&[3, 12, 1_000, u64::from(GREATEST_FRAME)]);
    let mut film: Vec<u32> = (0..count).map(|_| rng.within(0..=most) as u32).collect();
    let cut = rng.index(count);
    match rng.below(8) {
        // Nothing to play at first, nothing at last, the same always.
        0 => film[..cut].fill(0),
        1 => film[cut..].fill(0),
        2 => film.fill(most as u32),
        // One large frame among small ones.
        3 => film[cut] = GREATEST_FRAME,
        // Large ones at regular distances.
        4 => {
            let apart = 2 + rng.index(12);
            let large = |frame: &mut u32| *frame = frame.saturating_mul(8).min(GREATEST_FRAME);
            film.iter_mut().step_by(apart).for_each(large);
        }
        5 if rng.one_in(4) => film.fill(0),
        _ => {}
    }
    film
}

/// A frame count, mostly small.
fn any_count(rng: &mut Rng) -> usize {
    let most = match rng.below(10) {
        0 => 500,
        1..=3 => 70,
        _ => 12,
    };
    1 + rng.index(most)
}

/// Any film with any rates.
pub fn any(_: u64, rng: &mut Rng) -> Case {
    let count = any_count(rng);
    let film = any_film(count, rng);
    let rates = any_rates(&film, rng);
    Case::new(&showing(film, rng), rates)
}

/// Films small enough for the brute-force search.
pub fn tiny(_: u64, rng: &mut Rng) -> Case {
    let mut left = rng.within(1..=16);
    let mut film = Vec::new();
    for _ in 0..rng.within(1..=6) {
        let frame = rng.within(0..=left);
        film.push(frame as u32);
        left -= frame;
    }
    let top = sum(&film) + 2;
    let mut rates: Vec<u64> = (0..rng.within(1..=4))
        .map(|_| rng.within(0..=top))
        .collect();
    rates.push(any_rate(&film, rng));
    Case::new(&showing(film, rng), rates)
}

/// A job with rates and the line of each.
fn by_hand(job: &Job, lines: &[(u64, Line)]) -> Case {
    let rates = lines.iter().map(|(rate, _)| *rate).collect();
    let lines = lines.iter().map(|(_, line)| *line).collect();
    Case::new(job, rates).knowing(Known::All(lines))
}

/// The document's Tree Q, its film of zeros and its frames at the limit of rate 1, by
/// hand. Tree Q's film has the sums 4, 14, 15: at rate 5 the link has carried 5, 10, 15,
/// so that 14 are there one slot late; with delay 1 most waits at slot 2, 10 less 4.
pub fn examples(_: &mut Rng) -> Vec<Case> {
    let jobs = example_jobs();
    vec![
        by_hand(
            &Job::decode(&TREE_Q),
            &[
                (0, NONE),
                (1, [0, 12, 12]),
                (4, [0, 2, 8]),
                (5, [0, 1, 6]),
                (6, [0, 1, 8]),
                (7, [0, 0, 3]),
                (15, [0, 0, 11]),
                (MOST, [0, 0, 11]),
            ],
        ),
        by_hand(
            &jobs[5],
            &[(1, [0, 4_096, 4_096]), (0, NONE), (4_097, [0; 3])],
        ),
        by_hand(
            &jobs[6],
            &[(1, NONE), (2, [0, 2_048, 4_096]), (4_098, [0; 3])],
        ),
        by_hand(&jobs[7], &[(0, [0; 3]), (1, [0; 3]), (MOST, [0; 3])]),
        by_hand(&jobs[8], &[(0, NONE), (1, [0; 3]), (1 << 63, [0; 3])]),
    ]
}

/// Each film of up to 4 frames of at most 3 bytes, with each rate up to 7 and with those
/// that matter to it.
pub fn every_small(rng: &mut Rng) -> Vec<Case> {
    let mut cases = Vec::new();
    for count in 1..=4 {
        for digits in 0..4_u32.pow(count) {
            let film: Vec<u32> = (0..count).map(|place| digits >> (2 * place) & 3).collect();
            cases.push(Case::new(&showing(film.clone(), rng), (0..8).collect()));
            cases.extend(all_marked(&film, rng));
        }
    }
    cases
}

/// Films that the longest delay just serves, and that it just doesn't: all delays are
/// tried by the search, with the largest memories.
pub fn longest_delays(rng: &mut Rng) -> Vec<Case> {
    let long = |frames: &[u32], rate, line, rng: &mut Rng| Case {
        long: true,
        ..Case::new(&showing(frames.to_vec(), rng), vec![rate]).knowing(Known::All(vec![line]))
    };
    vec![
        long(&[4_097], 1, [0, 4_096, 4_096], rng),
        long(&[4_098], 1, NONE, rng),
        long(&[1, 4_097], 1, [0, 4_096, 4_096], rng),
        long(&[8_194], 2, [0, 4_096, 8_192], rng),
        long(&[0, 8_197], 2, NONE, rng),
    ]
}

/// Films of zeros, of one byte at an end and at the limit, of one frame to all.
pub fn extremes(rng: &mut Rng) -> Vec<Case> {
    let mut cases = Vec::new();
    for count in [1, 2, 3, 8, 500, MOST_FRAMES] {
        for frame in [0, 1, GREATEST_FRAME] {
            cases.extend(all_marked(&vec![frame; count], rng));
        }
        for frame in [1, GREATEST_FRAME] {
            for place in [0, count - 1] {
                let mut film = vec![0; count];
                film[place] = frame;
                cases.extend(all_marked(&film, rng));
            }
        }
    }
    cases
}

/// Every field of the job at its bound, the lines by hand. From T(M) on all of it is there
/// by slot 1, when one frame is played. At the frames' own rate nothing waits; one byte
/// below it all that came in slot 1 does, for a slot. 252,645,135 is the least rate that
/// carries T(M) in 65,536 + 4,096 slots, and most then waits at slot 4,096.
pub fn all_at_bounds(rng: &mut Rng) -> Vec<Case> {
    let lines: [(u64, Line); 8] = [
        (MOST, [0, 0, 17_591_917_543_425]),
        (GREATEST_AMOUNT, [0, 0, 17_591_917_543_425]),
        (17_592_185_978_880, [0, 0, 17_591_917_543_425]),
        (17_592_185_978_879, [0, 0, 17_591_917_543_424]),
        (268_435_455, [0, 0, 0]),
        (268_435_454, [0, 1, 268_435_454]),
        (252_645_135, [0, 4_096, 1_034_834_472_960]),
        (252_645_134, NONE),
    ];
    SHAPES
        .map(|shape| by_hand(&at_bounds(shape, rng), &lines))
        .into()
}

/// Films of about these lengths.
pub fn long(rng: &mut Rng) -> Vec<Case> {
    let mut cases = Vec::new();
    for length in LENGTHS {
        for count in length - 1..=(length + 1).min(MOST_FRAMES) {
            for _ in 0..4 {
                let film = any_film(count, rng);
                let rates: Vec<u64> = (0..8).map(|_| any_rate(&film, rng)).collect();
                cases.push(Case::new(&showing(film, rng), rates));
            }
        }
    }
    cases
}

/// Films with one large frame about these places and nothing after it, at rates for which
/// it settles the delay, and most waits in the slot before it is played.
pub fn one_large(rng: &mut Rng) -> Vec<Case> {
    let mut cases = Vec::new();
    for length in LENGTHS {
        for place in length - 3..(length + 2).min(MOST_FRAMES) {
            let mut film = vec![1_000; place];
            film.push(GREATEST_FRAME);
            let greatest = mean(&film);
            film.resize((2 * length).min(MOST_FRAMES), 0);
            let least = Film::new(&film).least_rate();
            let rates = (0..8).map(|_| rng.within(least..=greatest)).collect();
            cases.push(Case::new(&showing(film, rng), rates));
        }
    }
    cases
}

/// A film whose least delay at the first rate is known: up to one frame it fits with
/// nothing to spare, or with one byte too many. Every other time the delay is one at the
/// limit.
pub fn borderline(i: u64, rng: &mut Rng) -> Case {
    let count = rng.within(1..=8);
    let delay = match i % 2 {
        0 => u64::from(GREATEST_DELAY) - 1 + rng.below(3),
        _ => rng.below(12),
    };
    // So that one frame may have all that is due by then.
    let most = u64::from(GREATEST_FRAME) / (count + delay + 1);
    let highest = rng.pick(&[3, 100, most]).min(most);
    let rate = rng.within(1..=highest);
    let tight = 1 + rng.below(count);
    let over = u64::from(rng.one_in(2));
    let mut film: Vec<u32> = Vec::new();
    for m in 1..=count {
        let frame = match m == tight {
            true => rate * (m + delay) + over - sum(&film),
            false => rng.up_to(rate),
        };
        film.push(frame as u32);
    }
    let mut rates = any_rates(&film, rng);
    rates[0] = rate;
    Case::new(&showing(film, rng), rates).knowing(Known::Delay(delay + over))
}

/// A case with this many rates, of which the number is known.
fn with_count(count: usize, rng: &mut Rng) -> Case {
    let frames = 1 + rng.index(6);
    let film = any_film(frames, rng);
    let rates: Vec<u64> = (0..count).map(|_| any_rate(&film, rng)).collect();
    let number = if (1..=8).contains(&count) { 0 } else { 16 };
    Case {
        number,
        ..Case::new(&showing(film, rng), rates)
    }
}

/// The case with a list of this length.
fn with_list(case: Case, list: usize) -> Case {
    let wrong = case.number == 0 && list != 3 * case.rates.len();
    let number = if wrong { 11 } else { case.number };
    Case {
        list,
        number,
        ..case
    }
}

/// Each count of rates up to 9 with each length up to that of its list, some larger, and
/// counts that are small in their low bits alone.
pub fn counts_and_lists(rng: &mut Rng) -> Vec<Case> {
    let mut cases = Vec::new();
    for count in 0..=9 {
        for list in (0..=LONGEST_LIST + 3).chain([64, 3 * 256 + 3 * count]) {
            for _ in 0..3 {
                cases.push(with_list(with_count(count, rng), list));
            }
        }
    }
    for count in [10, 16, 64, 255, 256, 257, 264, 65_536, 65_537] {
        for list in [0, 3, 24, 3 * count, 3 * count + 1] {
            cases.push(with_list(with_count(count, rng), list));
        }
    }
    cases
}

/// Counts of rates that are not taken.
fn any_wrong_count(rng: &mut Rng) -> usize {
    let more = 10 + rng.index(60);
    rng.pick(&[0, 9, more])
}

/// A length that is not that of the list for so many rates: one short, one over, a line
/// less or more, one or two numbers for each rate, in bytes, none, any.
fn any_wrong_length(count: usize, rng: &mut Rng) -> usize {
    let right = 3 * count;
    let any = rng.index(2 * LONGEST_LIST);
    let mut wrong = vec![0, count, 2 * count, 24, any];
    wrong.extend([right + 1, right + 3, 8 * right]);
    wrong.extend([right.saturating_sub(1), right.saturating_sub(3)]);
    wrong.retain(|&length| length != right);
    rng.pick(&wrong)
}

/// No rate or too many, with a list that fits them or not.
pub fn wrong_count(_: u64, rng: &mut Rng) -> Case {
    let count = any_wrong_count(rng);
    let case = with_count(count, rng);
    match rng.one_in(2) {
        true => case,
        false => with_list(case, any_wrong_length(count, rng)),
    }
}

/// Rates as many as are taken, with a list that doesn't fit them.
pub fn wrong_list(i: u64, rng: &mut Rng) -> Case {
    let count = 1 + i as usize % 8;
    let length = any_wrong_length(count, rng);
    with_list(with_count(count, rng), length)
}

/// Bytes with these faults in place of the case's, the least of which is told.
fn broken(case: Case, numbers: &[u64], rng: &mut Rng) -> Case {
    let job = Job::decode(&case.bytes);
    Case {
        bytes: with_faults(job, numbers, rng),
        number: numbers[0],
        ..case
    }
}

/// Bytes with one fault or two, and any rates and list.
pub fn faulty(i: u64, rng: &mut Rng) -> Case {
    let case = match rng.below(4) {
        0 => wrong_count(i, rng),
        1 => wrong_list(i, rng),
        _ => any(i, rng),
    };
    // Twice as many of 1, as its short strings repeat.
    let numbers = one_or_two(1 + i % 11 % 10, rng);
    broken(case, &numbers, rng)
}

/// Each fault of the bytes, or none, with a count of rates that is taken or not and a
/// list that fits it or not: the first in the order 1 to 10, 16, 11 is told.
pub fn refusals(rng: &mut Rng) -> Vec<Case> {
    let mut cases = Vec::new();
    for first in 0..=10 {
        for count in 0..=10 {
            for wrong in [false, true] {
                let mut case = with_count(count, rng);
                if wrong {
                    let length = any_wrong_length(count, rng);
                    case = with_list(case, length);
                }
                if first > 0 {
                    case = broken(case, &[first], rng);
                }
                cases.push(case);
            }
        }
    }
    cases
}
