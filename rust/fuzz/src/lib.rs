//! What the fuzz targets share. The one unsafe call makes a slice of what libFuzzer gives.

mod inputs;

pub use inputs::{Row, elf, is_part, rows};

use std::slice;

/// Defines what libFuzzer calls with each input. A panic ends the program there, and libFuzzer keeps the input.
#[macro_export]
macro_rules! fuzz_target {
    ($run:expr) => {
        #[no_mangle]
        #[allow(non_snake_case)]
        pub extern "C" fn LLVMFuzzerTestOneInput(data: *const u8, size: usize) -> std::ffi::c_int {
            let run: fn(&[u8]) = $run;
            // SAFETY: libFuzzer's `data` points to `size` bytes, which stay as they are during the call.
            run(unsafe { $crate::input(data, size) });
            0
        }
    };
}

/// The bytes of an input.
///
/// # Safety
///
/// `data` points to `size` bytes, to which nothing writes during the borrow; with size 0 it may be null.
pub unsafe fn input<'a>(data: *const u8, size: usize) -> &'a [u8] {
    // SAFETY: required of the caller.
    if size == 0 { &[] } else { unsafe { slice::from_raw_parts(data, size) } }
}
