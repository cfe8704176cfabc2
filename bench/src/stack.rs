//! How much stack the calls use: each runs on a stack of ours that is filled before and read afterwards.
use crate::meter::keep;
use crate::{calls, inputs};
use std::ffi::{c_int, c_void};

const SIZE: usize = 1 << 20;
const FILL: u8 = 0xA5;
// below the mark of a running function its own calls may lie
const SLACK: usize = 512;

extern "C" {
    fn pthread_attr_init(attr: *mut u64) -> c_int;
    fn pthread_attr_setstack(attr: *mut u64, stack: *mut c_void, size: usize) -> c_int;
    fn pthread_create(
        thread: *mut usize,
        attr: *const u64,
        start: extern "C" fn(*mut c_void) -> *mut c_void,
        argument: *mut c_void,
    ) -> c_int;
    fn pthread_join(thread: usize, result: *mut *mut c_void) -> c_int;
}

/// What a thread is to run, where its stack begins, and how deep the body went.
struct Errand<'a> {
    body: &'a mut dyn FnMut(),
    bottom: *mut u8,
    depth: usize,
}

extern "C" fn start(errand: *mut c_void) -> *mut c_void {
    let mark = 0u8;
    let here = (&raw const mark).cast_mut();
    // SAFETY: `depth` hands over an errand that lives until the thread is joined; what lies below the slack is unused stack.
    unsafe {
        let errand = &mut *errand.cast::<Errand>();
        let size = here as usize - SLACK - errand.bottom as usize;
        (0..size).for_each(|i| errand.bottom.add(i).write_volatile(FILL));
        (errand.body)();
        let kept = (0..size).take_while(|&i| errand.bottom.add(i).read_volatile() == FILL);
        errand.depth = size + SLACK - kept.count();
    }
    std::ptr::null_mut()
}

/// The most bytes of stack that a body used, counted in steps no finer than the slack; none where no thread could be had.
fn depth(body: &mut dyn FnMut()) -> Option<usize> {
    let mut stack = vec![0u128; SIZE / 16];
    let (mut attr, mut thread) = ([0u64; 16], 0);
    let bottom = stack.as_mut_ptr().cast::<u8>();
    let mut errand = Errand {
        body,
        bottom,
        depth: 0,
    };
    let argument = (&raw mut errand).cast::<c_void>();
    // SAFETY: the attribute is large enough, and stack and errand outlive the thread, which is joined.
    let made = unsafe {
        pthread_attr_init(attr.as_mut_ptr()) == 0
            && pthread_attr_setstack(attr.as_mut_ptr(), bottom.cast(), SIZE) == 0
            && pthread_create(&mut thread, attr.as_ptr(), start, argument) == 0
            && pthread_join(thread, std::ptr::null_mut()) == 0
    };
    made.then_some(errand.depth)
}

/// A call's name, and the bytes of stack that it uses at most.
pub fn of_calls() -> Option<Vec<(&'static str, usize)>> {
    let text = inputs::text(inputs::DAMAGED, 1 << 20);
    // damage would be refused before a page is asked
    let clean = inputs::text(inputs::CYRILLIC, 1 << 20);
    let mut out = vec![0u8; 3 * text.len()];
    let mut units = vec![0u16; text.len()];
    let mut row = vec![0u32; calls::index_size(text.len())];
    Some(vec![
        ("strict check", depth(&mut || keep(calls::check(&text)))?),
        (
            "repair",
            depth(&mut || keep(calls::repair(&text, &mut out)))?,
        ),
        (
            "bytes to units",
            depth(&mut || keep(calls::repair_to_units(&text, &mut units)))?,
        ),
        (
            "8859-5 to bytes",
            depth(&mut || keep(calls::from_page(&text, 5, &mut out)))?,
        ),
        (
            "bytes to 8859-5",
            depth(&mut || keep(calls::to_page(&clean, 5, &mut out)))?,
        ),
        (
            "index build",
            depth(&mut || keep(calls::build(&text, &mut row)))?,
        ),
        (
            "indexed lookup",
            depth(&mut || keep(calls::index_unit(&text, &row, 5_000)))?,
        ),
        (
            "find",
            depth(&mut || keep(calls::find(&text, b"Zellfehler")))?,
        ),
    ])
}
