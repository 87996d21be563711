//! The engine's two texts, as include/saw_engine.h declares them.

#[link(name = "engine", kind = "static", modifiers = "-bundle")]
extern "C" {
    fn saw_text(text: *const u8, text_len: usize, out: *mut u8, out_len: usize) -> usize;
    fn saw_fold_text(text: *const u8, text_len: usize, out: *mut u8, out_len: usize) -> usize;
}

/// Answers a saw text; gives the number of bytes written.
pub fn saw(text: &[u8], out: &mut [u8]) -> usize {
    // SAFETY: each pointer and length are those of a slice, and `out` is borrowed uniquely.
    unsafe { saw_text(text.as_ptr(), text.len(), out.as_mut_ptr(), out.len()) }
}

/// Answers a fold text; gives the number of bytes written.
pub fn fold(text: &[u8], out: &mut [u8]) -> usize {
    // SAFETY: as above.
    unsafe { saw_fold_text(text.as_ptr(), text.len(), out.as_mut_ptr(), out.len()) }
}
