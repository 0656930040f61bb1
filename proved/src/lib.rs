//! The proved library, for Rust: the functions that it is linked as (raw.rs), with their answers decoded.

mod raw;

/// A refusal, by the documents' number.
#[derive(Clone, Copy, Debug, PartialEq, Eq)]
pub struct Refused(pub u32);

/// A hash or another number below 2^63 comes as it is, none as 2^63, refusal c as 2^63 + c.
#[inline]
fn decoded_found(answer: u64) -> Result<Option<u64>, Refused> {
    const NONE: u64 = 1 << 63;
    if answer < NONE {
        Ok(Some(answer))
    } else if answer == NONE {
        Ok(None)
    } else {
        Err(Refused((answer - NONE) as u32))
    }
}

/// The same, never none.
#[inline]
fn decoded_number(answer: u64) -> Result<u64, Refused> {
    decoded_found(answer).map(|number| number.expect("a number, not none"))
}

/// A call with nothing to say but a refusal says 0.
#[inline]
fn decoded_done(answer: u64) -> Result<(), Refused> {
    decoded_number(answer).map(|number| assert_eq!(number, 0))
}

/// Yes or no comes as 1 or 0.
#[inline]
fn decoded_truth(answer: u64) -> Result<bool, Refused> {
    let yes = decoded_number(answer)?;
    assert!(yes <= 1);
    Ok(yes == 1)
}

/// Two numbers below 2^32 come as first * 2^32 + second.
#[inline]
fn decoded_pair(answer: u64) -> Result<Option<(u32, u32)>, Refused> {
    Ok(decoded_found(answer)?.map(|pair| ((pair >> 32) as u32, pair as u32)))
}

/// A number of 32 bits: a layer's output, a count, a slot.
#[inline]
fn decoded_word(answer: u64) -> Result<u32, Refused> {
    Ok(u32::try_from(decoded_number(answer)?).unwrap())
}

pub fn wrapping_mul(a: u64, b: u64) -> u64 {
    raw::wrapping_mul(a, b)
}

pub fn rotate_right(x: u64, places: u32) -> u64 {
    raw::rotate_right(x, places)
}

pub fn splitmix64(v: u64) -> u64 {
    raw::splitmix64(v)
}

pub fn layer_apply(key: u64, layer: u32, x: u32) -> Result<u32, Refused> {
    decoded_word(raw::layer_apply(key, layer, x))
}

/// The outputs of a layer at 0..n, xored; 12 for an n above its size.
pub fn layer_xors(key: u64, layer: u32, n: u32) -> Result<u32, Refused> {
    decoded_word(raw::layer_xors(key, layer, n))
}

/// The input of a layer whose output is y.
#[inline]
pub fn layer_invert(key: u64, layer: u32, y: u32) -> Result<u32, Refused> {
    decoded_word(raw::layer_invert(key, layer, y))
}

/// The inputs of a layer whose outputs are 0..n, xored.
#[inline]
pub fn input_xors(key: u64, layer: u32, n: u32) -> Result<u32, Refused> {
    decoded_word(raw::input_xors(key, layer, n))
}

/// The state of the i-th sequence.
pub fn seq_builder(state: u64, i: u64) -> u64 {
    raw::seq_builder(state, i)
}

#[inline]
pub fn prev(state: u64, n: u64) -> Result<Option<u64>, Refused> {
    decoded_found(raw::prev(state, n))
}

pub fn into_prev(state: u64, n: u64) -> Result<Option<u64>, Refused> {
    decoded_found(raw::into_prev(state, n))
}

#[inline]
pub fn next(state: u64, n: u64) -> Result<Option<u64>, Refused> {
    decoded_found(raw::next(state, n))
}

/// A step of the falling walk whose n is given; after a hash that is its n.
pub fn falling_next(state: u64, n: u64) -> Result<Option<u64>, Refused> {
    decoded_found(raw::falling_next(state, n))
}

/// A step of the rising walk whose `low` is given: first the n it starts from, after a hash one above that.
pub fn rising_next(state: u64, low: u64) -> Result<Option<u64>, Refused> {
    decoded_found(raw::rising_next(state, low))
}

/// The walk from n down, digested as the oracle does it.
pub fn falling_digest(state: u64, n: u64) -> Result<u64, Refused> {
    decoded_number(raw::falling_digest(state, n))
}

/// The walk from n up, likewise.
pub fn rising_digest(state: u64, n: u64) -> Result<u64, Refused> {
    decoded_number(raw::rising_digest(state, n))
}

/// A new order in the first 18 words lent: the key's low half and high half, n, the fifteen counters.
pub fn order_new(key: u64, n: u32, order: &mut [u32]) -> Result<(), Refused> {
    decoded_done(raw::order_new(key, n, order))
}

/// The next number of an order, or none.
#[inline]
pub fn order_next(order: &mut [u32]) -> Result<Option<u32>, Refused> {
    let answer = raw::order_next(order);
    Ok(decoded_found(answer)?.map(|x| u32::try_from(x).unwrap()))
}

/// The numbers of an order's first `count` calls, digested as the oracle does it.
pub fn order_digest(key: u64, n: u32, count: u32) -> Result<u64, Refused> {
    decoded_number(raw::order_digest(key, n, count))
}

/// The place of a location in the order of 0..n.
#[inline]
pub fn place(key: u64, n: u32, location: u32) -> Result<u32, Refused> {
    decoded_word(raw::place(key, n, location))
}

/// A new reservoir in a list, and in the first six words lent: the key's low half and high half, k, n, the layer, the used
/// length.
#[inline]
pub fn reservoir_new(
    key: u64,
    k: u32,
    n: u32,
    record: &mut [u32],
    list: &mut [u32],
) -> Result<(), Refused> {
    decoded_done(raw::reservoir_new(key, k, n, record, list))
}

/// An admit: the number that comes in and the one that goes out, or none. They come as in * 2^32 + out.
#[inline]
pub fn reservoir_next(record: &mut [u32], list: &mut [u32]) -> Result<Option<(u32, u32)>, Refused> {
    decoded_pair(raw::reservoir_next(record, list))
}

pub fn reservoir_grow_layer(record: &mut [u32], list: &mut [u32]) -> Result<(), Refused> {
    decoded_done(raw::reservoir_grow_layer(record, list))
}

/// The sample, into the first k places of `out`.
pub fn reservoir_sample(record: &[u32], list: &[u32], out: &mut [u32]) -> Result<(), Refused> {
    decoded_done(raw::reservoir_sample(record, list, out))
}

/// Whether a record fits its list: refusal 12's test, as 1 or 0.
#[inline]
pub fn reservoir_fits(record: &[u32], list: &[u32]) -> Result<bool, Refused> {
    decoded_truth(raw::reservoir_fits(record, list))
}

/// A new chooser in the first three words lent: the state, n, and k, which is 0.
pub fn chooser_new(state: u64, n: u64, record: &mut [u64]) -> Result<(), Refused> {
    decoded_done(raw::chooser_new(state, n, record))
}

/// A new chooser with k samples, which come into the first k places of a list.
#[inline]
pub fn chooser_new_with_k(
    state: u64,
    k: u64,
    n: u64,
    record: &mut [u64],
    list: &mut [u64],
) -> Result<(), Refused> {
    decoded_done(raw::chooser_new_with_k(state, k, n, record, list))
}

/// The index of the sample that comes in.
pub fn chooser_grow_k(record: &mut [u64], list: &mut [u64]) -> Result<u64, Refused> {
    decoded_number(raw::chooser_grow_k(record, list))
}

/// The sample that comes in, or none.
pub fn chooser_next(record: &mut [u64], list: &mut [u64]) -> Result<Option<u64>, Refused> {
    decoded_found(raw::chooser_next(record, list))
}

/// The index of the sample that comes in.
pub fn chooser_shrink_n(record: &mut [u64], list: &mut [u64]) -> Result<u64, Refused> {
    decoded_number(raw::chooser_shrink_n(record, list))
}

/// Whether a record fits its list: refusal 12's test, as 1 or 0.
pub fn chooser_fits(record: &[u64], list: &[u64]) -> Result<bool, Refused> {
    decoded_truth(raw::chooser_fits(record, list))
}

/// The count after it and the slot. They come as count * 2^32 + slot.
pub fn slots_add(total: u32, table: &mut [u8]) -> Result<(u32, u32), Refused> {
    let answer = raw::slots_add(total, table);
    decoded_number(answer).map(|pair| ((pair >> 32) as u32, pair as u32))
}

/// The count after it.
pub fn slots_remove(slot: u32, total: u32, table: &mut [u8]) -> Result<u32, Refused> {
    decoded_word(raw::slots_remove(slot, total, table))
}

/// How many slots are active.
pub fn slots_len(total: u32, table: &[u8]) -> Result<u32, Refused> {
    decoded_word(raw::slots_len(total, table))
}

pub fn slots_is_empty(total: u32, table: &[u8]) -> Result<bool, Refused> {
    decoded_truth(raw::slots_is_empty(total, table))
}

pub fn slots_is_active(slot: u32, total: u32, table: &[u8]) -> Result<bool, Refused> {
    decoded_truth(raw::slots_is_active(slot, total, table))
}

/// Whether a count fits its table: refusal 12's test, as 1 or 0.
pub fn slots_fits(total: u32, table: &[u8]) -> Result<bool, Refused> {
    decoded_truth(raw::slots_fits(total, table))
}

/// The slot of a state. The scratch is free after it.
#[inline]
pub fn slots_get(
    state: u64,
    total: u32,
    table: &[u8],
    scratch: &mut [u64],
) -> Result<u32, Refused> {
    decoded_word(raw::slots_get(state, total, table, scratch))
}

/// The same without the record's tests: the first active slot among as many of the choice order as the scratch has places.
#[inline]
pub fn first_active(state: u64, total: u32, table: &[u8], scratch: &mut [u64]) -> Option<u32> {
    let answer = raw::first_active(state, total, table, scratch);
    let found = decoded_found(answer).expect("a slot or missing, no refusal");
    found.map(|slot| u32::try_from(slot).unwrap())
}

/// The state of a location under a key.
pub fn location_state(key: u64, location: u32) -> u64 {
    raw::location_state(key, location)
}

/// A new round in a list, and in the first seven words lent: the key's low half and high half, k, n, the layer, the used length,
/// and the slot count, which is 0.
#[inline]
pub fn round_open(
    key: u64,
    k: u32,
    n: u32,
    record: &mut [u32],
    list: &mut [u32],
) -> Result<(), Refused> {
    decoded_done(raw::round_open(key, k, n, record, list))
}

/// The location that comes in and the one that goes out, or none. They come as in * 2^32 + out.
#[inline]
pub fn round_admit(
    record: &mut [u32],
    list: &mut [u32],
    table: &[u8],
) -> Result<Option<(u32, u32)>, Refused> {
    decoded_pair(raw::round_admit(record, list, table))
}

/// The terminal's slot.
#[inline]
pub fn round_join(record: &mut [u32], list: &[u32], table: &mut [u8]) -> Result<u32, Refused> {
    decoded_word(raw::round_join(record, list, table))
}

#[inline]
pub fn round_withdraw(
    slot: u32,
    record: &mut [u32],
    list: &[u32],
    table: &mut [u8],
) -> Result<(), Refused> {
    decoded_done(raw::round_withdraw(slot, record, list, table))
}

/// The sampled locations and their slots, into the first k places of two lists. The scratch is free after it.
#[inline]
pub fn round_plan(
    record: &[u32],
    list: &[u32],
    table: &[u8],
    locations: &mut [u32],
    terminals: &mut [u32],
    scratch: &mut [u64],
) -> Result<(), Refused> {
    decoded_done(raw::round_plan(
        record, list, table, locations, terminals, scratch,
    ))
}

/// Whether a record fits its list and its table: refusal 12's test, as 1 or 0.
#[inline]
pub fn round_fits(record: &[u32], list: &[u32], table: &[u8]) -> Result<bool, Refused> {
    decoded_truth(raw::round_fits(record, list, table))
}

/// An open, calls and the plan after them in one. A call is 0 for an admit, 1 for a join, 2^32 + slot for a withdraw. Each call
/// and then the plan leaves four answers: the refusal's number or 0, how many values there are, and two places for them.
#[allow(clippy::too_many_arguments)]
pub fn round_replay(
    (key, k, n): (u64, u32, u32),
    calls: &[u64],
    list: &mut [u32],
    table: &mut [u8],
    answers: &mut [u32],
    locations: &mut [u32],
    terminals: &mut [u32],
    scratch: &mut [u64],
) -> Result<(), Refused> {
    decoded_done(raw::round_replay(
        key, k, n, calls, list, table, answers, locations, terminals, scratch,
    ))
}
