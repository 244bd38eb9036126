//! The six calls as `libstation.a` has them, over slices: the result area is lent too, and the
//! answer is the number, 0 for done. This file holds all of the unsafe code.

#[rustfmt::skip]
mod c {
    extern "C" {
        pub fn killaruna_open(
            state: *mut u64, state_words: usize, shares: *mut u32, share_words: usize,
            cores: u64, result: *mut u64, result_words: usize,
        ) -> u64;
        pub fn killaruna_declare(
            state: *mut u64, state_words: usize, shares: *const u32, share_words: usize,
            period: u64, cost: u64, result: *mut u64, result_words: usize,
        ) -> u64;
        pub fn killaruna_withdraw(
            state: *mut u64, state_words: usize, shares: *const u32, share_words: usize,
            slot: u64, result: *mut u64, result_words: usize,
        ) -> u64;
        pub fn killaruna_release(
            state: *mut u64, state_words: usize, shares: *mut u32, share_words: usize,
            slot: u64, result: *mut u64, result_words: usize,
        ) -> u64;
        pub fn killaruna_advance(
            state: *mut u64, state_words: usize, shares: *mut u32, share_words: usize,
            tick: u64, segments: *mut u64, segment_words: usize,
            result: *mut u64, result_words: usize,
        ) -> u64;
        pub fn killaruna_holder(
            state: *const u64, state_words: usize, shares: *const u32, share_words: usize,
            core: u64, result: *mut u64, result_words: usize,
        ) -> u64;
    }
}

// SAFETY, for each call: every pointer with its length is a whole borrowed slice, so it is not
// null, aligned and as long as said; a `&mut` slice overlaps no other; and the library keeps no
// pointer after the call.

pub fn open(state: &mut [u64], shares: &mut [u32], cores: u64, result: &mut [u64]) -> u64 {
    unsafe {
        c::killaruna_open(
            state.as_mut_ptr(),
            state.len(),
            shares.as_mut_ptr(),
            shares.len(),
            cores,
            result.as_mut_ptr(),
            result.len(),
        )
    }
}

pub fn declare(
    state: &mut [u64],
    shares: &[u32],
    period: u64,
    cost: u64,
    result: &mut [u64],
) -> u64 {
    unsafe {
        c::killaruna_declare(
            state.as_mut_ptr(),
            state.len(),
            shares.as_ptr(),
            shares.len(),
            period,
            cost,
            result.as_mut_ptr(),
            result.len(),
        )
    }
}

pub fn withdraw(state: &mut [u64], shares: &[u32], slot: u64, result: &mut [u64]) -> u64 {
    unsafe {
        c::killaruna_withdraw(
            state.as_mut_ptr(),
            state.len(),
            shares.as_ptr(),
            shares.len(),
            slot,
            result.as_mut_ptr(),
            result.len(),
        )
    }
}

pub fn release(state: &mut [u64], shares: &mut [u32], slot: u64, result: &mut [u64]) -> u64 {
    unsafe {
        c::killaruna_release(
            state.as_mut_ptr(),
            state.len(),
            shares.as_mut_ptr(),
            shares.len(),
            slot,
            result.as_mut_ptr(),
            result.len(),
        )
    }
}

pub fn advance(
    state: &mut [u64],
    shares: &mut [u32],
    tick: u64,
    segments: &mut [u64],
    result: &mut [u64],
) -> u64 {
    unsafe {
        c::killaruna_advance(
            state.as_mut_ptr(),
            state.len(),
            shares.as_mut_ptr(),
            shares.len(),
            tick,
            segments.as_mut_ptr(),
            segments.len(),
            result.as_mut_ptr(),
            result.len(),
        )
    }
}

pub fn holder(state: &[u64], shares: &[u32], core: u64, result: &mut [u64]) -> u64 {
    unsafe {
        c::killaruna_holder(
            state.as_ptr(),
            state.len(),
            shares.as_ptr(),
            shares.len(),
            core,
            result.as_mut_ptr(),
            result.len(),
        )
    }
}
