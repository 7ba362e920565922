//! The scans of the lower crate, as libcarts_c.a exports them: for measuring and tests.

use simulator::Search;

unsafe extern "C" {
    fn carts_all_zero(bytes: *const u8, len: usize) -> bool;
    fn carts_is_copy(copy: *const u8, len: usize) -> bool;
    fn carts_all_operations(operations: *const u8, len: usize) -> bool;
    fn carts_search(copy: *const u8, copy_len: usize, title: *const u8, title_len: usize) -> Search;
}

/// Every byte is zero.
#[inline]
pub fn all_zero(bytes: &[u8]) -> bool {
    // SAFETY: pointer and length are of one slice, which is only read.
    unsafe { carts_all_zero(bytes.as_ptr(), bytes.len()) }
}

/// The bytes are those of a copy.
#[inline]
pub fn is_copy(copy: &[u8]) -> bool {
    // SAFETY: pointer and length are of one slice, which is only read.
    unsafe { carts_is_copy(copy.as_ptr(), copy.len()) }
}

/// Each unit is an operation as handed in.
#[inline]
pub fn all_operations(operations: &[u8]) -> bool {
    // SAFETY: pointer and length are of one slice, which is only read.
    unsafe { carts_all_operations(operations.as_ptr(), operations.len()) }
}

/// The title search over a copy.
#[inline]
pub fn search(copy: &[u8], title: &[u8]) -> Search {
    // SAFETY: each pointer comes with its length from one slice, which is only read.
    unsafe { carts_search(copy.as_ptr(), copy.len(), title.as_ptr(), title.len()) }
}
