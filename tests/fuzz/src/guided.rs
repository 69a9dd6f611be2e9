//! The entry point that libFuzzer calls.

use std::{
    process::abort,
    slice,
    sync::{LazyLock, Mutex},
};

use crate::{
    check::{Checker, EXPORTED, Mismatch},
    input::decode,
    shrink::smallest,
};

static CHECKER: LazyLock<Mutex<Checker>> = LazyLock::new(|| {
    // SAFETY: the function may be called at the end of the process.
    unsafe { atexit(print_counters) };
    Mutex::new(Checker::new(EXPORTED))
});

unsafe extern "C" {
    fn atexit(function: extern "C" fn()) -> i32;
}

/// Checks what the bytes stand for; a mismatch is printed and ends the process.
///
/// # Safety
///
/// `data` points to `size` bytes.
#[allow(non_snake_case)]
#[unsafe(no_mangle)]
pub unsafe extern "C" fn LLVMFuzzerTestOneInput(data: *const u8, size: usize) -> i32 {
    // SAFETY: see above; a slice of no bytes needs a pointer too.
    let bytes = if size == 0 { &[] } else { unsafe { slice::from_raw_parts(data, size) } };
    let (input, mut random) = decode(bytes);
    let mut checker = CHECKER.lock().expect("one thread");
    if let Err(mismatch) = checker.check(&input, &mut random) {
        let Mismatch(text) = smallest(EXPORTED, decode(bytes), mismatch);
        eprint!("mismatch:\n{text}\n{}", checker.counters);
        abort();
    }
    0
}

extern "C" fn print_counters() {
    eprint!("{}", CHECKER.lock().expect("one thread").counters);
}
