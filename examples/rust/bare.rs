//! A program without `std` and without an allocator: the buffers are statics,
//! as in a terminal's firmware. It judges the sheet of the clerk, asks what the
//! clerk holds, and ends with status 0 if that is the scale and the clerk.
//!
//! wrapper/tests/all/bare.rs has the commands that build it.

#![no_std]
#![no_main]

use core::panic::PanicInfo;
use core::ptr::addr_of_mut;
use lexondar::{authority, verdict, Held, Work};

const CLERK: &[u8] = include_bytes!("../clerk.sheet");

static mut WORK: Work = Work::new();
static mut HELD: Held = Held::new();

#[no_mangle]
pub extern "C" fn main() -> i32 {
    // SAFETY: `main` is called once, and nobody else names the two.
    let (work, held) = unsafe { (&mut *addr_of_mut!(WORK), &mut *addr_of_mut!(HELD)) };
    if verdict(CLERK, work).is_err() {
        return 1;
    }
    match authority(CLERK, 10_000, 2, work, held) {
        Ok([1, 2]) => 0,
        _ => 2,
    }
}

#[panic_handler]
fn stop(_: &PanicInfo) -> ! {
    loop {}
}
