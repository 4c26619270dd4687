//! How much stack a call takes: what lies below is painted before the call, and what of it is then no longer paint was reached.

const DEPTH: usize = 128 * 1024;
/// Left unpainted, for the frames of the painter itself.
const MARGIN: usize = 512;
const PAINT: u8 = 0xa5;

/// The bytes of stack that `call` takes, on a thread of its own.
pub fn taken(call: impl Fn() + Sync) -> usize {
    std::thread::scope(|scope| {
        let painted = std::thread::Builder::new().stack_size(2 * DEPTH).spawn_scoped(scope, || painted(&call));
        painted.expect("a thread").join().expect("the call returns")
    })
}

#[inline(never)]
fn painted(call: &dyn Fn()) -> usize {
    let here = 0_u8;
    let top = std::ptr::addr_of!(here) as usize;
    paint(top);
    call();
    top - lowest(top)
}

#[inline(never)]
fn paint(top: usize) {
    for place in top - DEPTH..top - MARGIN {
        // the thread's own stack, below all that is in use
        unsafe { (place as *mut u8).write_volatile(PAINT) }
    }
}

#[inline(never)]
fn lowest(top: usize) -> usize {
    (top - DEPTH..top - MARGIN).find(|place| unsafe { (*place as *const u8).read_volatile() } != PAINT).unwrap_or(top)
}
