//! `tidy` of the static library.

mod boundary {
    extern "C" {
        pub fn tidy(text: *const u8, text_len: usize, out: *mut u8, out_len: usize) -> u64;
        #[cfg(feature = "before")]
        pub fn tidy_before(text: *const u8, text_len: usize, out: *mut u8, out_len: usize) -> u64;
    }
}

/// Reads the program `text` and prints it to `out`, as `crate::tidy` does.
#[allow(unsafe_code)]
pub fn tidy(text: &[u8], out: &mut [u8]) -> u64 {
    // SAFETY: both slices live through the call and don't overlap; the library keeps neither.
    unsafe { boundary::tidy(text.as_ptr(), text.len(), out.as_mut_ptr(), out.len()) }
}

/// The same by the library before a change.
#[cfg(feature = "before")]
#[allow(unsafe_code)]
pub fn tidy_before(text: &[u8], out: &mut [u8]) -> u64 {
    // SAFETY: as above.
    unsafe { boundary::tidy_before(text.as_ptr(), text.len(), out.as_mut_ptr(), out.len()) }
}
