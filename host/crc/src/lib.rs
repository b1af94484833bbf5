//! The proved check alone, to be timed and compared with the reference.
//!
//! The track library works out checks by itself and hands none out; no program that reads or writes tracks needs this crate.
#![deny(missing_docs)]

use std::ffi::c_uchar;

extern "C" {
    fn crc_check_of(bytes: *const c_uchar, count: usize) -> u16;
}

/// The check of information bytes, any number of them, as it is stored: the high byte first.
///
/// ```
/// assert_eq!(crc::check_of(&[0x41, 0x42]), [0xBE, 0xBD]);
/// ```
pub fn check_of(information: &[u8]) -> [u8; 2] {
    // SAFETY: the proved function reads these bytes, of any number and value, and keeps none.
    unsafe { crc_check_of(information.as_ptr(), information.len()) }.to_be_bytes()
}
