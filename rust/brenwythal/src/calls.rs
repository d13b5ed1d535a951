//! The calls of brenwythal.h on lent slices, each as it is: every call but [`least_main_pages`] answers 0 or
//! the number of a refusal.
//!
//! All unsafe code of this crate is here. The header asks four things of the pointers, and every function
//! below takes slices and hands on nothing but their own pointer and length, which gives all four:
//! - a slice points to as many elements as its length says, and is aligned for them;
//! - a slice's pointer is never null, not even that of an empty slice;
//! - a slice that the library writes is borrowed with `&mut`, so it overlaps no other slice of the call;
//! - the library keeps no pointer, so the borrow may end with the call.
//!
//! "There is no other condition: any numbers, lengths, words and bytes may be handed in."
#![allow(unsafe_code)]

mod header {
    // These declarations follow brenwythal.h, one by one and in its order.
    extern "C" {
        pub fn brenwythal_image(
            file: *const u8,
            file_length: usize,
            answer: *mut u32,
            answer_length: usize,
        ) -> u32;
        pub fn brenwythal_least_main_pages(frames: u32) -> u32;
        pub fn brenwythal_load(
            file: *const u8,
            file_length: usize,
            main_memory: *mut u8,
            main_length: usize,
            swap: *mut u8,
            swap_length: usize,
            record: *mut u32,
            record_length: usize,
        ) -> u32;
        pub fn brenwythal_run(
            record: *mut u32,
            record_length: usize,
            main_memory: *mut u8,
            main_length: usize,
            swap: *mut u8,
            swap_length: usize,
            limit: u32,
            answer: *mut u32,
            answer_length: usize,
        ) -> u32;
        pub fn brenwythal_read(
            record: *const u32,
            record_length: usize,
            main_memory: *const u8,
            main_length: usize,
            swap: *const u8,
            swap_length: usize,
            va: u32,
            into: *mut u8,
            into_length: usize,
        ) -> u32;
        pub fn brenwythal_write(
            record: *mut u32,
            record_length: usize,
            main_memory: *mut u8,
            main_length: usize,
            swap: *mut u8,
            swap_length: usize,
            va: u32,
            from: *const u8,
            from_length: usize,
        ) -> u32;
        pub fn brenwythal_view(
            record: *const u32,
            record_length: usize,
            main_memory: *const u8,
            main_length: usize,
            swap: *const u8,
            swap_length: usize,
            page: u32,
            into: *mut u8,
            into_length: usize,
        ) -> u32;
        pub fn brenwythal_reply(record: *mut u32, record_length: usize, reg: u32, value: u32) -> u32;
        pub fn brenwythal_assemble(
            text: *const u8,
            text_length: usize,
            out: *mut u8,
            out_length: usize,
            answer: *mut usize,
            answer_length: usize,
        ) -> u32;
        pub fn brenwythal_list(
            words: *const u8,
            words_length: usize,
            out: *mut u8,
            out_length: usize,
            answer: *mut usize,
            answer_length: usize,
        ) -> u32;
    }
}

/// Fills an answer of 3 words: ptl, start, frames as written.
pub fn image(file: &[u8], answer: &mut [u32]) -> u32 {
    // SAFETY: as the head of this module says.
    unsafe { header::brenwythal_image(file.as_ptr(), file.len(), answer.as_mut_ptr(), answer.len()) }
}

/// The fewest pages of main memory that [`load`] takes for an image with these frames, as [`image`] answered
/// them; 0 where no image has them.
pub fn least_main_pages(frames: u32) -> u32 {
    // SAFETY: as the head of this module says; nothing is lent.
    unsafe { header::brenwythal_least_main_pages(frames) }
}

/// Fills a record of 75 words, and both memories.
pub fn load(file: &[u8], main: &mut [u8], swap: &mut [u8], record: &mut [u32]) -> u32 {
    // SAFETY: as the head of this module says.
    unsafe {
        header::brenwythal_load(
            file.as_ptr(),
            file.len(),
            main.as_mut_ptr(),
            main.len(),
            swap.as_mut_ptr(),
            swap.len(),
            record.as_mut_ptr(),
            record.len(),
        )
    }
}

/// Fills an answer of 5 words: stop, detail, finished, loads, copied.
pub fn run(record: &mut [u32], main: &mut [u8], swap: &mut [u8], limit: u32, answer: &mut [u32]) -> u32 {
    // SAFETY: as the head of this module says.
    unsafe {
        header::brenwythal_run(
            record.as_mut_ptr(),
            record.len(),
            main.as_mut_ptr(),
            main.len(),
            swap.as_mut_ptr(),
            swap.len(),
            limit,
            answer.as_mut_ptr(),
            answer.len(),
        )
    }
}

/// Fills `into` from the guest's memory at `va`.
pub fn read(record: &[u32], main: &[u8], swap: &[u8], va: u32, into: &mut [u8]) -> u32 {
    // SAFETY: as the head of this module says.
    unsafe {
        header::brenwythal_read(
            record.as_ptr(),
            record.len(),
            main.as_ptr(),
            main.len(),
            swap.as_ptr(),
            swap.len(),
            va,
            into.as_mut_ptr(),
            into.len(),
        )
    }
}

/// Writes `from` to the guest's memory at `va`, and marks the frames that get a byte.
pub fn write(record: &mut [u32], main: &mut [u8], swap: &mut [u8], va: u32, from: &[u8]) -> u32 {
    // SAFETY: as the head of this module says.
    unsafe {
        header::brenwythal_write(
            record.as_mut_ptr(),
            record.len(),
            main.as_mut_ptr(),
            main.len(),
            swap.as_mut_ptr(),
            swap.len(),
            va,
            from.as_ptr(),
            from.len(),
        )
    }
}

/// Copies the guest's page into a buffer of 4096 bytes.
pub fn view(record: &[u32], main: &[u8], swap: &[u8], page: u32, into: &mut [u8]) -> u32 {
    // SAFETY: as the head of this module says.
    unsafe {
        header::brenwythal_view(
            record.as_ptr(),
            record.len(),
            main.as_ptr(),
            main.len(),
            swap.as_ptr(),
            swap.len(),
            page,
            into.as_mut_ptr(),
            into.len(),
        )
    }
}

/// Sets register 1 to 31.
pub fn reply(record: &mut [u32], register: u32, value: u32) -> u32 {
    // SAFETY: as the head of this module says.
    unsafe { header::brenwythal_reply(record.as_mut_ptr(), record.len(), register, value) }
}

/// Fills `out` with the words of a text, and an answer of 3 sizes: length, line, column.
pub fn assemble(text: &[u8], out: &mut [u8], answer: &mut [usize]) -> u32 {
    // SAFETY: as the head of this module says.
    unsafe {
        header::brenwythal_assemble(
            text.as_ptr(),
            text.len(),
            out.as_mut_ptr(),
            out.len(),
            answer.as_mut_ptr(),
            answer.len(),
        )
    }
}

/// Fills `out` with the text of words, and an answer of 1 size: length.
pub fn list(words: &[u8], out: &mut [u8], answer: &mut [usize]) -> u32 {
    // SAFETY: as the head of this module says.
    unsafe {
        header::brenwythal_list(
            words.as_ptr(),
            words.len(),
            out.as_mut_ptr(),
            out.len(),
            answer.as_mut_ptr(),
            answer.len(),
        )
    }
}
