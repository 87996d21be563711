//! The engine's texts by kind: whole, and in parts.

use differential::text_engine;
use inputs::Text;

#[link(name = "texts_parts", kind = "static")]
extern "C" {
    fn parts_saw_text(
        text: *const u8,
        text_len: usize,
        ends: *const u32,
        ends_len: usize,
        out: *mut u8,
        out_len: usize,
    ) -> usize;
    fn parts_fold_text(
        text: *const u8,
        text_len: usize,
        ends: *const u32,
        ends_len: usize,
        out: *mut u8,
        out_len: usize,
    ) -> usize;
}

/// Answers a text that is handed over whole; gives the number of bytes written.
pub fn whole(kind: Text, text: &[u8], out: &mut [u8]) -> usize {
    match kind {
        Text::Saw => text_engine::saw(text, out),
        Text::Fold => text_engine::fold(text, out),
    }
}

/// Answers a text that is handed over in parts, which end at these places.
pub fn in_parts(kind: Text, text: &[u8], ends: &[u32], out: &mut [u8]) -> usize {
    let function = match kind {
        Text::Saw => parts_saw_text,
        Text::Fold => parts_fold_text,
    };
    // SAFETY: each pointer and length are those of a slice, and `out` is borrowed uniquely.
    unsafe {
        function(
            text.as_ptr(),
            text.len(),
            ends.as_ptr(),
            ends.len(),
            out.as_mut_ptr(),
            out.len(),
        )
    }
}
