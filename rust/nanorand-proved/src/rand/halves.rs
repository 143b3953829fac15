#[inline]
pub(crate) fn folded(wide: u128) -> u64 {
    let high = (wide >> 64) as u64;
    let low = (wide & u128::from(u64::MAX)) as u64;
    high ^ low
}
