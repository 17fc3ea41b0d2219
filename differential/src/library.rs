//! The proved library as it is linked: what crates/frame exports, behind safe functions.
//! Each text is handed over in bytes of the caller's. At every call it is looked at that the bytes past the text have not changed, or none
//! of the bytes where the text is too long for them.

extern "C" {
    fn moarduft_report(text: *const u8, text_length: usize, out: *mut u8, out_length: usize) -> usize;
    fn moarduft_console(
        text: *const u8,
        text_length: usize,
        layers: *const u8,
        layers_length: usize,
        script: *const u8,
        script_length: usize,
        out: *mut u8,
        out_length: usize,
    ) -> usize;
    fn moarduft_star_console(
        text: *const u8,
        text_length: usize,
        centre: usize,
        layers: *const u8,
        layers_length: usize,
        script: *const u8,
        script_length: usize,
        out: *mut u8,
        out_length: usize,
    ) -> usize;
    fn moarduft_tally(text: *const u8, text_length: usize, calls: *const u8, calls_length: usize, times: usize) -> u64;
}

/// What the caller's bytes hold before a call.
const BEFORE: u8 = 0xAA;

/// The answer where memory is wanting.
const NO_MEMORY: usize = usize::MAX;

/// The text that a call hands over; `room` is how many bytes it is given at first. Where they are too few, it is called again with enough.
fn handed(room: usize, call: impl Fn(&mut [u8]) -> usize) -> Vec<u8> {
    let mut out = vec![BEFORE; room];
    let mut length = call(&mut out);
    assert!(length != NO_MEMORY, "memory is wanting");
    if length > room {
        assert!(out.iter().all(|&byte| byte == BEFORE), "a text that is too long has been written");
        out = vec![BEFORE; length];
        length = call(&mut out);
        assert!(length == out.len(), "the text has another length");
    }
    assert!(out[length..].iter().all(|&byte| byte == BEFORE), "bytes past the text have been written");
    out.truncate(length);
    out
}

pub fn report(text: &[u8], room: usize) -> Vec<u8> {
    handed(room, |out| unsafe { moarduft_report(text.as_ptr(), text.len(), out.as_mut_ptr(), out.len()) })
}

pub fn console(text: &[u8], layers: &[u8], script: &[u8], room: usize) -> Vec<u8> {
    handed(room, |out| unsafe {
        moarduft_console(text.as_ptr(), text.len(), layers.as_ptr(), layers.len(), script.as_ptr(), script.len(), out.as_mut_ptr(), out.len())
    })
}

pub fn star_console(text: &[u8], centre: usize, layers: &[u8], script: &[u8], room: usize) -> Vec<u8> {
    handed(room, |out| unsafe {
        moarduft_star_console(text.as_ptr(), text.len(), centre, layers.as_ptr(), layers.len(), script.as_ptr(), script.len(), out.as_mut_ptr(), out.len())
    })
}

pub fn tally(text: &[u8], calls: &[u8], times: usize) -> u64 {
    unsafe { moarduft_tally(text.as_ptr(), text.len(), calls.as_ptr(), calls.len(), times) }
}
