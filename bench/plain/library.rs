//! The checker under the C name of the library's, so that one and the same driver calls either of them.

mod checker;

/// What `include/saltreeve.h` and docs/HOST.md say of it.
///
/// # Safety
/// Both pointers must point to as many bytes as their lengths say.
#[no_mangle]
pub unsafe extern "C" fn saltreeve_check(sheet: *const u8, sheet_length: usize, room: *mut u8, room_length: usize) -> i64 {
    let text = checker::check(unsafe { std::slice::from_raw_parts(sheet, sheet_length) });
    if text.len() > room_length {
        return -8;
    }
    unsafe { std::slice::from_raw_parts_mut(room, text.len()) }.copy_from_slice(&text);
    text.len() as i64
}
