//! Sets as bit masks.

/// The members of a set of elements, links or switches, rising.
pub fn bits(set: u128) -> impl Iterator<Item = usize> {
    bits_of_half(set as u64, 0).chain(bits_of_half((set >> 64) as u64, 64))
}

fn bits_of_half(mut half: u64, first: usize) -> impl Iterator<Item = usize> {
    std::iter::from_fn(move || {
        if half == 0 {
            return None;
        }
        let lowest = half.trailing_zeros() as usize;
        half &= half - 1;
        Some(first + lowest)
    })
}
