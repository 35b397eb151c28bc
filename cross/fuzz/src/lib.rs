//! What libFuzzer calls. A difference between archive and reference ends the process, so that the
//! input is kept.

/// Compares the calls that the bytes stand for.
///
/// # Safety
///
/// `size` bytes at `data` must be readable for the whole call.
#[no_mangle]
pub unsafe extern "C" fn LLVMFuzzerTestOneInput(data: *const u8, size: usize) -> i32 {
    let data = match size {
        0 => &[][..],
        // SAFETY: that is what the caller must see to, and libFuzzer does.
        _ => unsafe { std::slice::from_raw_parts(data, size) },
    };
    if let Err(difference) = compare::one(data) {
        eprint!("{difference}");
        std::process::abort();
    }
    0
}
