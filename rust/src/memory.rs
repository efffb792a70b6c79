//! Memory that the system may not have.

/// So many zeros, or none where there is no memory for them.
pub(crate) fn zeros<T: Clone + Default>(count: usize) -> Vec<T> {
    let mut zeros = vec![];
    if zeros.try_reserve_exact(count).is_ok() {
        zeros.resize(count, T::default());
    }
    zeros
}
