//! Cutting a slice in two.

/// Cuts a slice of `length` ticks after its first `first_ticks`. `first` holds the
/// whole slice's shares and keeps those of the first part; `second` receives the rest.
///
/// "Slot i gets floor(E(i) d / D) - floor(E(i-1) d / D) in the first part and the
/// rest of its share in the second." Rounding the running sum, and not each share
/// alone, is what keeps both parts within their rates.
pub(crate) fn cut(first: &mut [u32], second: &mut [u32], first_ticks: u64, length: u64) {
    let mut sum = 0;
    let mut given = 0;
    for (share, rest) in first.iter_mut().zip(second) {
        let whole = *share;
        // A share of 0 leaves the running sum, and so its rounding, as they are.
        if whole == 0 {
            *rest = 0;
            continue;
        }
        // In a sound table a slice's shares sum to at most 60,000 ticks times 16,000
        // grains, so neither the sum nor the product overflows.
        sum += u64::from(whole);
        let reached = sum * first_ticks / length;
        *share = (reached - given) as u32;
        *rest = whole - *share;
        given = reached;
    }
}
