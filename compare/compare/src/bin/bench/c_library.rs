//! The C library's `printf("%a")`, into memory, and `strtod`.

use std::ffi::{c_char, c_double, c_int, CStr};
use std::ptr::null_mut;

extern "C" {
    fn snprintf(buffer: *mut c_char, size: usize, format: *const c_char, ...) -> c_int;
    fn strtod(text: *const c_char, end: *mut *mut c_char) -> c_double;
}

/// The text of a float by "%a", with a zero byte behind it; answers its length.
pub fn write_a(x: f64, buffer: &mut [u8; 64]) -> usize {
    // SAFETY: the buffer has 64 bytes, and the format takes one double.
    unsafe { snprintf(buffer.as_mut_ptr().cast(), buffer.len(), c"%a".as_ptr(), x) as usize }
}

pub fn read(text: &CStr) -> f64 {
    // SAFETY: the text ends in a zero byte, and no end is asked for.
    unsafe { strtod(text.as_ptr(), null_mut()) }
}
