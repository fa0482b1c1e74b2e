//! The entries of the archive as they are: the answer's number is returned, and a lent slice of 16 bytes is filled with the value
//! and then the action number, each a little-endian i64. Stepping's action number is always 0. A value slice of another length is
//! answered 11 before everything else, and nothing is written.
#![allow(unsafe_code)]

mod entries {
    // As include/merinovault.h declares them: a slice is a pointer and a length.
    unsafe extern "C" {
        pub fn merinovault_pack(
            sheet: *const u8,
            sheet_len: usize,
            book: *const u8,
            book_len: usize,
            strict: bool,
            contained: bool,
            out: *mut u8,
            out_len: usize,
            value: *mut u8,
            value_len: usize,
        ) -> u32;
        pub fn merinovault_step(
            block: *const u8,
            block_len: usize,
            value: *mut u8,
            value_len: usize,
        ) -> u32;
    }
}

// SAFETY of both calls: an entry asks of its caller what the types of the slices say already. Each pointer and its length are one
// slice, so they are at most isize::MAX bytes that may be read; `&mut` lets the entry write `out` and `value`, keeps them apart
// from each other and from the rest, and keeps other threads off; `&` keeps writers off `sheet`, `book` and `block`. A `bool` is
// C's, true or false. The entries have no other demand, always return, do not unwind and keep no pointer.

/// Packs a sheet into `out`, in the mode of the two flags. The book follows the sheet; only a sheet of edition 3 looks at it.
pub fn pack(
    sheet: &[u8],
    book: &[u8],
    strict: bool,
    contained: bool,
    out: &mut [u8],
    value: &mut [u8],
) -> u32 {
    unsafe {
        entries::merinovault_pack(
            sheet.as_ptr(),
            sheet.len(),
            book.as_ptr(),
            book.len(),
            strict,
            contained,
            out.as_mut_ptr(),
            out.len(),
            value.as_mut_ptr(),
            value.len(),
        )
    }
}

/// Steps through a block.
pub fn step(block: &[u8], value: &mut [u8]) -> u32 {
    unsafe {
        entries::merinovault_step(block.as_ptr(), block.len(), value.as_mut_ptr(), value.len())
    }
}
