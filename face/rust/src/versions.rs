//! Which library this is.
use crate::raw;
use std::ffi::{CStr, c_char};

/// The library's version, and whether its engine was proved as it was built: "0.1.0 proved", or "0.1.0 without proof, built from ..".
pub fn version() -> &'static str {
    text(unsafe { raw::fkv_version() })
}

/// The formats of files that the library opens: the 8 bytes that such a file begins with. Any other file is `NotAStore`.
pub fn formats() -> impl Iterator<Item = &'static str> {
    text(unsafe { raw::fkv_formats() }).split(' ')
}

/// What the library says by a text that ends with a 0, stays for good, and is ASCII.
fn text(of_library: *const c_char) -> &'static str {
    let text = unsafe { CStr::from_ptr(of_library) };
    text.to_str().expect("the library's texts are ASCII")
}
