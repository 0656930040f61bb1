//! The functions of the proved library as they are linked, a slice as its pointer and its length, each with a call that lends it slices.
//! Written by tools/c_functions.

extern "C" {
    fn perillajamb_wrapping_mul(a: u64, b: u64) -> u64;
    fn perillajamb_rotate_right(x: u64, places: u32) -> u64;
    fn perillajamb_splitmix64(v: u64) -> u64;
    fn perillajamb_layer_apply(key: u64, layer: u32, x: u32) -> u64;
    fn perillajamb_layer_xors(key: u64, layer: u32, n: u32) -> u64;
    fn perillajamb_layer_invert(key: u64, layer: u32, y: u32) -> u64;
    fn perillajamb_input_xors(key: u64, layer: u32, n: u32) -> u64;
    fn perillajamb_seq_builder(state: u64, i: u64) -> u64;
    fn perillajamb_prev(state: u64, n: u64) -> u64;
    fn perillajamb_into_prev(state: u64, n: u64) -> u64;
    fn perillajamb_next(state: u64, n: u64) -> u64;
    fn perillajamb_falling_next(state: u64, n: u64) -> u64;
    fn perillajamb_rising_next(state: u64, low: u64) -> u64;
    fn perillajamb_falling_digest(state: u64, n: u64) -> u64;
    fn perillajamb_rising_digest(state: u64, n: u64) -> u64;
    fn perillajamb_chooser_new(state: u64, n: u64, words: *mut u64, words_len: usize) -> u64;
    fn perillajamb_chooser_new_with_k(
        state: u64,
        k: u64,
        n: u64,
        words: *mut u64,
        words_len: usize,
        list: *mut u64,
        list_len: usize,
    ) -> u64;
    fn perillajamb_chooser_grow_k(
        words: *mut u64,
        words_len: usize,
        list: *mut u64,
        list_len: usize,
    ) -> u64;
    fn perillajamb_chooser_next(
        words: *mut u64,
        words_len: usize,
        list: *mut u64,
        list_len: usize,
    ) -> u64;
    fn perillajamb_chooser_shrink_n(
        words: *mut u64,
        words_len: usize,
        list: *mut u64,
        list_len: usize,
    ) -> u64;
    fn perillajamb_chooser_fits(
        words: *const u64,
        words_len: usize,
        list: *const u64,
        list_len: usize,
    ) -> u64;
    fn perillajamb_order_new(key: u64, n: u32, ws: *mut u32, ws_len: usize) -> u64;
    fn perillajamb_order_next(ws: *mut u32, ws_len: usize) -> u64;
    fn perillajamb_place(key: u64, n: u32, location: u32) -> u64;
    fn perillajamb_order_digest(key: u64, n: u32, count: u32) -> u64;
    fn perillajamb_reservoir_new(
        key: u64,
        k: u32,
        n: u32,
        words: *mut u32,
        words_len: usize,
        list: *mut u32,
        list_len: usize,
    ) -> u64;
    fn perillajamb_reservoir_next(
        words: *mut u32,
        words_len: usize,
        list: *mut u32,
        list_len: usize,
    ) -> u64;
    fn perillajamb_reservoir_grow_layer(
        words: *mut u32,
        words_len: usize,
        list: *mut u32,
        list_len: usize,
    ) -> u64;
    fn perillajamb_reservoir_sample(
        words: *const u32,
        words_len: usize,
        list: *const u32,
        list_len: usize,
        out: *mut u32,
        out_len: usize,
    ) -> u64;
    fn perillajamb_reservoir_fits(
        words: *const u32,
        words_len: usize,
        list: *const u32,
        list_len: usize,
    ) -> u64;
    fn perillajamb_round_open(
        key: u64,
        k: u32,
        n: u32,
        words: *mut u32,
        words_len: usize,
        list: *mut u32,
        list_len: usize,
    ) -> u64;
    fn perillajamb_round_admit(
        words: *mut u32,
        words_len: usize,
        list: *mut u32,
        list_len: usize,
        table: *const u8,
        table_len: usize,
    ) -> u64;
    fn perillajamb_round_join(
        words: *mut u32,
        words_len: usize,
        list: *const u32,
        list_len: usize,
        table: *mut u8,
        table_len: usize,
    ) -> u64;
    fn perillajamb_round_withdraw(
        slot: u32,
        words: *mut u32,
        words_len: usize,
        list: *const u32,
        list_len: usize,
        table: *mut u8,
        table_len: usize,
    ) -> u64;
    fn perillajamb_round_plan(
        words: *const u32,
        words_len: usize,
        list: *const u32,
        list_len: usize,
        table: *const u8,
        table_len: usize,
        locations: *mut u32,
        locations_len: usize,
        terminals: *mut u32,
        terminals_len: usize,
        scratch: *mut u64,
        scratch_len: usize,
    ) -> u64;
    fn perillajamb_round_fits(
        words: *const u32,
        words_len: usize,
        list: *const u32,
        list_len: usize,
        table: *const u8,
        table_len: usize,
    ) -> u64;
    fn perillajamb_round_replay(
        key: u64,
        k: u32,
        n: u32,
        calls: *const u64,
        calls_len: usize,
        list: *mut u32,
        list_len: usize,
        table: *mut u8,
        table_len: usize,
        answers: *mut u32,
        answers_len: usize,
        locations: *mut u32,
        locations_len: usize,
        terminals: *mut u32,
        terminals_len: usize,
        scratch: *mut u64,
        scratch_len: usize,
    ) -> u64;
    fn perillajamb_slots_add(total: u32, table: *mut u8, table_len: usize) -> u64;
    fn perillajamb_slots_remove(slot: u32, total: u32, table: *mut u8, table_len: usize) -> u64;
    fn perillajamb_slots_len(total: u32, table: *const u8, table_len: usize) -> u64;
    fn perillajamb_slots_is_empty(total: u32, table: *const u8, table_len: usize) -> u64;
    fn perillajamb_slots_is_active(
        slot: u32,
        total: u32,
        table: *const u8,
        table_len: usize,
    ) -> u64;
    fn perillajamb_slots_fits(total: u32, table: *const u8, table_len: usize) -> u64;
    fn perillajamb_slots_get(
        state: u64,
        total: u32,
        table: *const u8,
        table_len: usize,
        scratch: *mut u64,
        scratch_len: usize,
    ) -> u64;
    fn perillajamb_first_active(
        state: u64,
        total: u32,
        table: *const u8,
        table_len: usize,
        scratch: *mut u64,
        scratch_len: usize,
    ) -> u64;
    fn perillajamb_location_state(key: u64, location: u32) -> u64;
}

#[inline]
pub fn wrapping_mul(a: u64, b: u64) -> u64 {
    unsafe { perillajamb_wrapping_mul(a, b) }
}

#[inline]
pub fn rotate_right(x: u64, places: u32) -> u64 {
    unsafe { perillajamb_rotate_right(x, places) }
}

#[inline]
pub fn splitmix64(v: u64) -> u64 {
    unsafe { perillajamb_splitmix64(v) }
}

#[inline]
pub fn layer_apply(key: u64, layer: u32, x: u32) -> u64 {
    unsafe { perillajamb_layer_apply(key, layer, x) }
}

#[inline]
pub fn layer_xors(key: u64, layer: u32, n: u32) -> u64 {
    unsafe { perillajamb_layer_xors(key, layer, n) }
}

#[inline]
pub fn layer_invert(key: u64, layer: u32, y: u32) -> u64 {
    unsafe { perillajamb_layer_invert(key, layer, y) }
}

#[inline]
pub fn input_xors(key: u64, layer: u32, n: u32) -> u64 {
    unsafe { perillajamb_input_xors(key, layer, n) }
}

#[inline]
pub fn seq_builder(state: u64, i: u64) -> u64 {
    unsafe { perillajamb_seq_builder(state, i) }
}

#[inline]
pub fn prev(state: u64, n: u64) -> u64 {
    unsafe { perillajamb_prev(state, n) }
}

#[inline]
pub fn into_prev(state: u64, n: u64) -> u64 {
    unsafe { perillajamb_into_prev(state, n) }
}

#[inline]
pub fn next(state: u64, n: u64) -> u64 {
    unsafe { perillajamb_next(state, n) }
}

#[inline]
pub fn falling_next(state: u64, n: u64) -> u64 {
    unsafe { perillajamb_falling_next(state, n) }
}

#[inline]
pub fn rising_next(state: u64, low: u64) -> u64 {
    unsafe { perillajamb_rising_next(state, low) }
}

#[inline]
pub fn falling_digest(state: u64, n: u64) -> u64 {
    unsafe { perillajamb_falling_digest(state, n) }
}

#[inline]
pub fn rising_digest(state: u64, n: u64) -> u64 {
    unsafe { perillajamb_rising_digest(state, n) }
}

#[inline]
pub fn chooser_new(state: u64, n: u64, words: &mut [u64]) -> u64 {
    unsafe { perillajamb_chooser_new(state, n, words.as_mut_ptr(), words.len()) }
}

#[inline]
pub fn chooser_new_with_k(state: u64, k: u64, n: u64, words: &mut [u64], list: &mut [u64]) -> u64 {
    unsafe {
        perillajamb_chooser_new_with_k(
            state,
            k,
            n,
            words.as_mut_ptr(),
            words.len(),
            list.as_mut_ptr(),
            list.len(),
        )
    }
}

#[inline]
pub fn chooser_grow_k(words: &mut [u64], list: &mut [u64]) -> u64 {
    unsafe {
        perillajamb_chooser_grow_k(
            words.as_mut_ptr(),
            words.len(),
            list.as_mut_ptr(),
            list.len(),
        )
    }
}

#[inline]
pub fn chooser_next(words: &mut [u64], list: &mut [u64]) -> u64 {
    unsafe {
        perillajamb_chooser_next(
            words.as_mut_ptr(),
            words.len(),
            list.as_mut_ptr(),
            list.len(),
        )
    }
}

#[inline]
pub fn chooser_shrink_n(words: &mut [u64], list: &mut [u64]) -> u64 {
    unsafe {
        perillajamb_chooser_shrink_n(
            words.as_mut_ptr(),
            words.len(),
            list.as_mut_ptr(),
            list.len(),
        )
    }
}

#[inline]
pub fn chooser_fits(words: &[u64], list: &[u64]) -> u64 {
    unsafe { perillajamb_chooser_fits(words.as_ptr(), words.len(), list.as_ptr(), list.len()) }
}

#[inline]
pub fn order_new(key: u64, n: u32, ws: &mut [u32]) -> u64 {
    unsafe { perillajamb_order_new(key, n, ws.as_mut_ptr(), ws.len()) }
}

#[inline]
pub fn order_next(ws: &mut [u32]) -> u64 {
    unsafe { perillajamb_order_next(ws.as_mut_ptr(), ws.len()) }
}

#[inline]
pub fn place(key: u64, n: u32, location: u32) -> u64 {
    unsafe { perillajamb_place(key, n, location) }
}

#[inline]
pub fn order_digest(key: u64, n: u32, count: u32) -> u64 {
    unsafe { perillajamb_order_digest(key, n, count) }
}

#[inline]
pub fn reservoir_new(key: u64, k: u32, n: u32, words: &mut [u32], list: &mut [u32]) -> u64 {
    unsafe {
        perillajamb_reservoir_new(
            key,
            k,
            n,
            words.as_mut_ptr(),
            words.len(),
            list.as_mut_ptr(),
            list.len(),
        )
    }
}

#[inline]
pub fn reservoir_next(words: &mut [u32], list: &mut [u32]) -> u64 {
    unsafe {
        perillajamb_reservoir_next(
            words.as_mut_ptr(),
            words.len(),
            list.as_mut_ptr(),
            list.len(),
        )
    }
}

#[inline]
pub fn reservoir_grow_layer(words: &mut [u32], list: &mut [u32]) -> u64 {
    unsafe {
        perillajamb_reservoir_grow_layer(
            words.as_mut_ptr(),
            words.len(),
            list.as_mut_ptr(),
            list.len(),
        )
    }
}

#[inline]
pub fn reservoir_sample(words: &[u32], list: &[u32], out: &mut [u32]) -> u64 {
    unsafe {
        perillajamb_reservoir_sample(
            words.as_ptr(),
            words.len(),
            list.as_ptr(),
            list.len(),
            out.as_mut_ptr(),
            out.len(),
        )
    }
}

#[inline]
pub fn reservoir_fits(words: &[u32], list: &[u32]) -> u64 {
    unsafe { perillajamb_reservoir_fits(words.as_ptr(), words.len(), list.as_ptr(), list.len()) }
}

#[inline]
pub fn round_open(key: u64, k: u32, n: u32, words: &mut [u32], list: &mut [u32]) -> u64 {
    unsafe {
        perillajamb_round_open(
            key,
            k,
            n,
            words.as_mut_ptr(),
            words.len(),
            list.as_mut_ptr(),
            list.len(),
        )
    }
}

#[inline]
pub fn round_admit(words: &mut [u32], list: &mut [u32], table: &[u8]) -> u64 {
    unsafe {
        perillajamb_round_admit(
            words.as_mut_ptr(),
            words.len(),
            list.as_mut_ptr(),
            list.len(),
            table.as_ptr(),
            table.len(),
        )
    }
}

#[inline]
pub fn round_join(words: &mut [u32], list: &[u32], table: &mut [u8]) -> u64 {
    unsafe {
        perillajamb_round_join(
            words.as_mut_ptr(),
            words.len(),
            list.as_ptr(),
            list.len(),
            table.as_mut_ptr(),
            table.len(),
        )
    }
}

#[inline]
pub fn round_withdraw(slot: u32, words: &mut [u32], list: &[u32], table: &mut [u8]) -> u64 {
    unsafe {
        perillajamb_round_withdraw(
            slot,
            words.as_mut_ptr(),
            words.len(),
            list.as_ptr(),
            list.len(),
            table.as_mut_ptr(),
            table.len(),
        )
    }
}

#[inline]
pub fn round_plan(
    words: &[u32],
    list: &[u32],
    table: &[u8],
    locations: &mut [u32],
    terminals: &mut [u32],
    scratch: &mut [u64],
) -> u64 {
    unsafe {
        perillajamb_round_plan(
            words.as_ptr(),
            words.len(),
            list.as_ptr(),
            list.len(),
            table.as_ptr(),
            table.len(),
            locations.as_mut_ptr(),
            locations.len(),
            terminals.as_mut_ptr(),
            terminals.len(),
            scratch.as_mut_ptr(),
            scratch.len(),
        )
    }
}

#[inline]
pub fn round_fits(words: &[u32], list: &[u32], table: &[u8]) -> u64 {
    unsafe {
        perillajamb_round_fits(
            words.as_ptr(),
            words.len(),
            list.as_ptr(),
            list.len(),
            table.as_ptr(),
            table.len(),
        )
    }
}

#[allow(clippy::too_many_arguments)]
#[inline]
pub fn round_replay(
    key: u64,
    k: u32,
    n: u32,
    calls: &[u64],
    list: &mut [u32],
    table: &mut [u8],
    answers: &mut [u32],
    locations: &mut [u32],
    terminals: &mut [u32],
    scratch: &mut [u64],
) -> u64 {
    unsafe {
        perillajamb_round_replay(
            key,
            k,
            n,
            calls.as_ptr(),
            calls.len(),
            list.as_mut_ptr(),
            list.len(),
            table.as_mut_ptr(),
            table.len(),
            answers.as_mut_ptr(),
            answers.len(),
            locations.as_mut_ptr(),
            locations.len(),
            terminals.as_mut_ptr(),
            terminals.len(),
            scratch.as_mut_ptr(),
            scratch.len(),
        )
    }
}

#[inline]
pub fn slots_add(total: u32, table: &mut [u8]) -> u64 {
    unsafe { perillajamb_slots_add(total, table.as_mut_ptr(), table.len()) }
}

#[inline]
pub fn slots_remove(slot: u32, total: u32, table: &mut [u8]) -> u64 {
    unsafe { perillajamb_slots_remove(slot, total, table.as_mut_ptr(), table.len()) }
}

#[inline]
pub fn slots_len(total: u32, table: &[u8]) -> u64 {
    unsafe { perillajamb_slots_len(total, table.as_ptr(), table.len()) }
}

#[inline]
pub fn slots_is_empty(total: u32, table: &[u8]) -> u64 {
    unsafe { perillajamb_slots_is_empty(total, table.as_ptr(), table.len()) }
}

#[inline]
pub fn slots_is_active(slot: u32, total: u32, table: &[u8]) -> u64 {
    unsafe { perillajamb_slots_is_active(slot, total, table.as_ptr(), table.len()) }
}

#[inline]
pub fn slots_fits(total: u32, table: &[u8]) -> u64 {
    unsafe { perillajamb_slots_fits(total, table.as_ptr(), table.len()) }
}

#[inline]
pub fn slots_get(state: u64, total: u32, table: &[u8], scratch: &mut [u64]) -> u64 {
    unsafe {
        perillajamb_slots_get(
            state,
            total,
            table.as_ptr(),
            table.len(),
            scratch.as_mut_ptr(),
            scratch.len(),
        )
    }
}

#[inline]
pub fn first_active(state: u64, total: u32, table: &[u8], scratch: &mut [u64]) -> u64 {
    unsafe {
        perillajamb_first_active(
            state,
            total,
            table.as_ptr(),
            table.len(),
            scratch.as_mut_ptr(),
            scratch.len(),
        )
    }
}

#[inline]
pub fn location_state(key: u64, location: u32) -> u64 {
    unsafe { perillajamb_location_state(key, location) }
}
