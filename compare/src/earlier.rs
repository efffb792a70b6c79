//! The calls on two lists and on two keys of two libraries: ours, and one that was kept from before a change. Both are there only where
//! `make bench EARLIER=..` has named that one; then they are linked under these names (tools/earlier).

/// A call that takes what `fernsponge::intersect_many` takes.
pub type Call = fn(&[u8], &[u32], &[u32], [&mut [u32]; 3], &mut [u64; 3]) -> u64;

/// A call that takes what `fernsponge::compare` takes.
pub type Compare = fn(&[u8], &[u8]) -> u64;

/// Ours, and the earlier one.
#[cfg(not(earlier))]
pub const CALLS: Option<[Call; 2]> = None;
#[cfg(not(earlier))]
pub const COMPARES: Option<[Compare; 2]> = None;

#[cfg(earlier)]
pub const CALLS: Option<[Call; 2]> = Some([ours, earlier]);
#[cfg(earlier)]
pub const COMPARES: Option<[Compare; 2]> = Some([compare_ours, compare_earlier]);

#[cfg(earlier)]
macro_rules! call {
    ($name:ident, $symbol:ident) => {
        fn $name(
            pool: &[u8],
            ours: &[u32],
            theirs: &[u32],
            [shared_out, ours_out, theirs_out]: [&mut [u32]; 3],
            counts: &mut [u64; 3],
        ) -> u64 {
            extern "C" {
                fn $symbol(
                    pool: *const u8,
                    pool_length: usize,
                    ours: *const u32,
                    ours_length: usize,
                    theirs: *const u32,
                    theirs_length: usize,
                    shared_out: *mut u32,
                    shared_out_length: usize,
                    ours_out: *mut u32,
                    ours_out_length: usize,
                    theirs_out: *mut u32,
                    theirs_out_length: usize,
                    counts: &mut [u64; 3],
                ) -> u64;
            }
            // SAFETY: the header's function, with the addresses and lengths of slices that do not overlap
            unsafe {
                $symbol(
                    pool.as_ptr(),
                    pool.len(),
                    ours.as_ptr(),
                    ours.len(),
                    theirs.as_ptr(),
                    theirs.len(),
                    shared_out.as_mut_ptr(),
                    shared_out.len(),
                    ours_out.as_mut_ptr(),
                    ours_out.len(),
                    theirs_out.as_mut_ptr(),
                    theirs_out.len(),
                    counts,
                )
            }
        }
    };
}

#[cfg(earlier)]
call!(ours, ours_intersect_many);
#[cfg(earlier)]
call!(earlier, earlier_intersect_many);

#[cfg(earlier)]
macro_rules! compare {
    ($name:ident, $symbol:ident) => {
        fn $name(a: &[u8], b: &[u8]) -> u64 {
            extern "C" {
                fn $symbol(a: *const u8, a_length: usize, b: *const u8, b_length: usize) -> u64;
            }
            // SAFETY: the header's function, with the addresses and lengths of slices
            unsafe { $symbol(a.as_ptr(), a.len(), b.as_ptr(), b.len()) }
        }
    };
}

#[cfg(earlier)]
compare!(compare_ours, ours_compare);
#[cfg(earlier)]
compare!(compare_earlier, earlier_compare);
