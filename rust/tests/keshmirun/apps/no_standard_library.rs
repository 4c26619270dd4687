//! A library for C without the standard library: a second panic handler, which that library has, would end its build.

#![no_std]

/// Whether the engine takes a table, and not one that is cut.
#[no_mangle]
pub extern "C" fn holds() -> bool {
    // one initial node, one action, and the control edge between them
    let table = [0, 15, 1, 2, 1, 1, 255, 0, 0, 2, 255, 0, 0, 0, 0, 1, 0];
    keshmirun::check(&table).is_ok() && keshmirun::check(&table[..16]).is_err()
}

#[panic_handler]
fn panicked(_: &core::panic::PanicInfo) -> ! {
    loop {}
}

/// The core library's tables name it; nothing unwinds here.
#[no_mangle]
pub extern "C" fn rust_eh_personality() {}
