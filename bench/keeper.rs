//! A byte store again, written for speed alone and sharing no code with the library. Each call
//! checks all of it here too. It copies up to two stretches, by a loop over bytes or by the C
//! library's memcpy.
//!
//! A crate of its own, as the compiler would put a call of memcpy in the place of such a loop
//! too. It can't in the library, where nothing tells it that two slices are apart; so loops are
//! held against loops, and the other peer tells what the call would save.
#![no_builtins]

#[repr(C)]
#[derive(Clone, Copy, Debug, PartialEq, Eq)]
pub struct Store {
    pub length: usize,
    pub children: usize,
    pub place: usize,
    pub waiting: [usize; 63],
}

type Copying = fn(&mut [u8], &[u8]);

/// The most that waits for a child, of a store that calls could leave in such a slice.
fn most_waiting(store: &Store, length: usize) -> Option<usize> {
    let (own, absent) = store.waiting.split_at_checked(store.children)?;
    let most = own.iter().fold(0, |most, &waits| most.max(waits));
    let stray = absent.iter().fold(0, |all, &waits| all | waits);
    let within = store.place < length || store.place == 0;
    let moved = store.children == 0 && store.place != 0;
    let sound = store.length == length && within && !moved && most <= length && stray == 0;
    sound.then_some(most)
}

#[inline(always)]
fn append_by(copying: Copying, store: &mut Store, slice: &mut [u8], bytes: &[u8]) -> u64 {
    let length = slice.len();
    let Some(most) = most_waiting(store, length) else {
        return 17;
    };
    if store.children == 0 {
        return 17;
    }
    if bytes.len() > length - most {
        return 18;
    }
    let place = store.place;
    let (one, two) = bytes.split_at(bytes.len().min(length - place));
    copying(&mut slice[place..place + one.len()], one);
    copying(&mut slice[..two.len()], two);
    let next = place + bytes.len();
    store.place = if next >= length { next - length } else { next };
    for waits in &mut store.waiting[..store.children] {
        *waits += bytes.len();
    }
    0
}

#[inline(always)]
fn take_by(
    copying: Copying,
    store: &mut Store,
    slice: &[u8],
    child: usize,
    out: &mut [u8],
) -> u64 {
    let length = slice.len();
    if most_waiting(store, length).is_none() || child >= store.children {
        return 17;
    }
    let waits = store.waiting[child];
    if out.len() > waits {
        return 19;
    }
    let from = match store.place.checked_sub(waits) {
        Some(from) => from,
        None => store.place + length - waits,
    };
    let n = out.len();
    let (one, two) = out.split_at_mut(n.min(length - from));
    copying(one, &slice[from..from + one.len()]);
    copying(two, &slice[..two.len()]);
    store.waiting[child] = waits - n;
    0
}

#[inline(always)]
fn byte_by_byte(to: &mut [u8], from: &[u8]) {
    for (to, from) in to.iter_mut().zip(from) {
        *to = *from;
    }
}

/// Appends bytes.
pub fn append(store: &mut Store, slice: &mut [u8], bytes: &[u8]) -> u64 {
    append_by(byte_by_byte, store, slice, bytes)
}

pub fn append_by_memcpy(store: &mut Store, slice: &mut [u8], bytes: &[u8]) -> u64 {
    append_by(<[u8]>::copy_from_slice, store, slice, bytes)
}

/// Lets a child take bytes.
pub fn take(store: &mut Store, slice: &[u8], child: usize, out: &mut [u8]) -> u64 {
    take_by(byte_by_byte, store, slice, child, out)
}

pub fn take_by_memcpy(store: &mut Store, slice: &[u8], child: usize, out: &mut [u8]) -> u64 {
    take_by(<[u8]>::copy_from_slice, store, slice, child, out)
}
