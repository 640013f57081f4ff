//! The functions of the archive, the memory of a box, and all `unsafe` of this crate.
#![allow(unsafe_code)]

/// As many bytes as a box has. The library alters them where they stand; its layout has no gaps.
pub const BOX_BYTES: usize = 51_864;

/// The memory of a box. The library's state holds numbers alone, so any bytes are a state.
#[repr(C, align(8))]
#[derive(Clone, PartialEq, Eq)]
pub struct Memory(pub [u8; BOX_BYTES]);

mod c {
    use super::Memory;

    // As include/gate.h declares them.
    extern "C" {
        pub fn gate_replay(
            input: *const u8,
            input_len: usize,
            out: *mut u8,
            out_len: usize,
        ) -> usize;
        pub fn gate_text(text: *const u8, text_len: usize, out: *mut u8, out_len: usize) -> u32;
        pub fn gate_fresh(park: *mut Memory);
        pub fn gate_load(park: *mut Memory, image: *const u8, image_len: usize) -> u64;
        pub fn gate_serve(
            park: *mut Memory,
            record: *const u8,
            record_len: usize,
            out: *mut u8,
            out_len: usize,
        ) -> u64;
    }
}

/// `gate_replay` on slices: the output's length, or one more than `out` has.
pub fn replay(input: &[u8], out: &mut [u8]) -> usize {
    // Sound: both pointers come from slices, so they are not null and have as many bytes as is
    // said; `out` is borrowed alone, so it overlaps nothing; the callee keeps neither pointer.
    unsafe { c::gate_replay(input.as_ptr(), input.len(), out.as_mut_ptr(), out.len()) }
}

/// `gate_text` on slices: the packed answer.
pub fn text(text: &[u8], out: &mut [u8]) -> u32 {
    // Sound: as above.
    unsafe { c::gate_text(text.as_ptr(), text.len(), out.as_mut_ptr(), out.len()) }
}

/// `gate_fresh`: the memory is the fresh state.
pub fn fresh(park: &mut Memory) {
    // Sound: the memory has the size and the alignment of the library's state and is borrowed
    // alone; any bytes are a state before and after; the callee keeps no pointer.
    unsafe { c::gate_fresh(park) }
}

/// `gate_load`: the packed answer.
pub fn load(park: &mut Memory, image: &[u8]) -> u64 {
    // Sound: as above, of the memory and of the slice.
    unsafe { c::gate_load(park, image.as_ptr(), image.len()) }
}

/// `gate_serve`: the packed answer.
pub fn serve(park: &mut Memory, record: &[u8], out: &mut [u8]) -> u64 {
    // Sound: as above; `park` and `out` are both borrowed alone, so they overlap nothing.
    unsafe {
        c::gate_serve(
            park,
            record.as_ptr(),
            record.len(),
            out.as_mut_ptr(),
            out.len(),
        )
    }
}
