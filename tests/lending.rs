//! What is lent to the library. It lies between guards, each on the heap in an
//! allocation of its own.
//!
//! Where the variable `RELAY_TIGHT` is set no guard follows: the lent part then ends
//! where its allocation does, so that a memory checker sees the first item past it.

use std::ops::Range;
use std::sync::OnceLock;

use crate::library::Part;

/// Least number of guards on each side.
const GUARD: usize = 32;

/// Odd, so that its multiples by different words differ.
const FACTOR: u64 = 0x9E37_79B9_7F4A_7C15;

/// Whether the lent parts end where their allocations do.
pub fn tight() -> bool {
    static TIGHT: OnceLock<bool> = OnceLock::new();
    *TIGHT.get_or_init(|| std::env::var_os("RELAY_TIGHT").is_some())
}

/// Items between guards, and all of these as they were before they were lent. The
/// slices are boxed, so that no room is left behind them.
pub struct Lent<T> {
    buffer: Box<[T]>,
    before: Box<[T]>,
    part: Range<usize>,
}

impl<T: Copy + PartialEq> Lent<T> {
    /// `items` between guards that hold `fill`, with `shift` more of them in front.
    fn new(items: &[T], fill: T, shift: usize) -> Self {
        let (front, back) = if tight() { (0, 0) } else { (GUARD, GUARD) };
        let start = front + shift;
        let part = start..start + items.len();
        let mut buffer = vec![fill; part.end + back].into_boxed_slice();
        buffer[part.clone()].copy_from_slice(items);
        Lent {
            before: buffer.clone(),
            buffer,
            part,
        }
    }

    /// The buffer and the part of it that is lent.
    pub fn part(&mut self) -> Part<'_, T> {
        (&mut self.buffer, self.part.clone())
    }

    /// What the lent part holds.
    pub fn held(&self) -> &[T] {
        &self.buffer[self.part.clone()]
    }

    pub fn guards_kept(&self) -> bool {
        let Range { start, end } = self.part;
        self.buffer[..start] == self.before[..start] && self.buffer[end..] == self.before[end..]
    }

    pub fn untouched(&self) -> bool {
        self.buffer == self.before
    }
}

/// What is lent to be read. The guards differ from round to round, of which there
/// are two: an answer that depends on them shows a read outside the part.
impl Lent<u8> {
    /// Bytes, at an alignment that varies.
    pub fn bytes(bytes: &[u8], round: usize) -> Self {
        let shift = (bytes.len() + 5 * round) % 16;
        Lent::new(bytes, [0x00, 0xA5][round], shift)
    }

    /// Bytes to be written over: each is another in the other round.
    pub fn room(length: usize, round: usize) -> Self {
        let byte = |at: usize| (at as u8).wrapping_mul(29) ^ [0x3C, 0xC3][round];
        let bytes: Vec<u8> = (0..length).map(byte).collect();
        Lent::bytes(&bytes, round)
    }
}

impl Lent<u64> {
    pub fn words(words: &[u64], round: usize) -> Self {
        Lent::new(words, [u64::MAX, 1][round], 0)
    }

    /// Words to be written over: distinct, not 0, and other words with another salt.
    pub fn output(length: usize, salt: u64) -> Self {
        let word = |at: usize| ((salt << 32) + at as u64 + 1).wrapping_mul(FACTOR);
        let words: Vec<u64> = (0..length).map(word).collect();
        Lent::new(&words, word(length), 0)
    }
}
