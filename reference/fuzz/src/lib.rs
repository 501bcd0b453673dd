//! The reference listing for C.

/// Writes the listing of a load into the buffer; the count of bytes, or 15.
///
/// # Safety
/// Both pointers are valid for their lengths, and the ranges don't overlap.
#[no_mangle]
pub unsafe extern "C" fn reference_listing(
    load: *const u8,
    load_length: usize,
    out: *mut u8,
    out_length: usize,
) -> usize {
    let load = std::slice::from_raw_parts(load, load_length);
    let out = std::slice::from_raw_parts_mut(out, out_length);
    reference::listing::write_listing(load, out)
}
