//! The calls of brenwythal_plain.h on lent slices, each as it is: every call answers 0 or the number of a refusal.
//!
//! The header asks of the pointers what brenwythal.h asks, and the functions below give it in the same way:
//! each hands on nothing but the pointer and the length of the slices that it takes, as the head of
//! [`calls`](crate::calls) says.
#![allow(unsafe_code)]

mod header {
    // These declarations follow brenwythal_plain.h, one by one and in its order.
    extern "C" {
        pub fn brenwythal_plain_image(
            file: *const u8,
            file_length: usize,
            answer: *mut u32,
            answer_length: usize,
        ) -> u32;
        pub fn brenwythal_plain_load(
            file: *const u8,
            file_length: usize,
            memory: *mut u8,
            memory_length: usize,
            rights: *mut u8,
            rights_length: usize,
            record: *mut u32,
            record_length: usize,
        ) -> u32;
        pub fn brenwythal_plain_run(
            record: *mut u32,
            record_length: usize,
            memory: *mut u8,
            memory_length: usize,
            rights: *const u8,
            rights_length: usize,
            limit: u32,
            answer: *mut u32,
            answer_length: usize,
        ) -> u32;
        pub fn brenwythal_plain_read(
            record: *const u32,
            record_length: usize,
            memory: *const u8,
            memory_length: usize,
            rights: *const u8,
            rights_length: usize,
            va: u32,
            into: *mut u8,
            into_length: usize,
        ) -> u32;
        pub fn brenwythal_plain_write(
            record: *const u32,
            record_length: usize,
            memory: *mut u8,
            memory_length: usize,
            rights: *const u8,
            rights_length: usize,
            va: u32,
            from: *const u8,
            from_length: usize,
        ) -> u32;
        pub fn brenwythal_plain_view(
            record: *const u32,
            record_length: usize,
            memory: *const u8,
            memory_length: usize,
            rights: *const u8,
            rights_length: usize,
            page: u32,
            into: *mut u8,
            into_length: usize,
        ) -> u32;
        pub fn brenwythal_plain_reply(record: *mut u32, record_length: usize, reg: u32, value: u32) -> u32;
    }
}

/// Fills an answer of 3 words: ptl, start, frames as written.
pub fn image(file: &[u8], answer: &mut [u32]) -> u32 {
    // SAFETY: as the head of this module says.
    unsafe { header::brenwythal_plain_image(file.as_ptr(), file.len(), answer.as_mut_ptr(), answer.len()) }
}

/// Fills a record of 35 words, memory and rights.
pub fn load(file: &[u8], memory: &mut [u8], rights: &mut [u8], record: &mut [u32]) -> u32 {
    // SAFETY: as the head of this module says.
    unsafe {
        header::brenwythal_plain_load(
            file.as_ptr(),
            file.len(),
            memory.as_mut_ptr(),
            memory.len(),
            rights.as_mut_ptr(),
            rights.len(),
            record.as_mut_ptr(),
            record.len(),
        )
    }
}

/// Fills an answer of 3 words: stop, detail, finished.
pub fn run(record: &mut [u32], memory: &mut [u8], rights: &[u8], limit: u32, answer: &mut [u32]) -> u32 {
    // SAFETY: as the head of this module says.
    unsafe {
        header::brenwythal_plain_run(
            record.as_mut_ptr(),
            record.len(),
            memory.as_mut_ptr(),
            memory.len(),
            rights.as_ptr(),
            rights.len(),
            limit,
            answer.as_mut_ptr(),
            answer.len(),
        )
    }
}

/// Fills `into` from the guest's memory at `va`.
pub fn read(record: &[u32], memory: &[u8], rights: &[u8], va: u32, into: &mut [u8]) -> u32 {
    // SAFETY: as the head of this module says.
    unsafe {
        header::brenwythal_plain_read(
            record.as_ptr(),
            record.len(),
            memory.as_ptr(),
            memory.len(),
            rights.as_ptr(),
            rights.len(),
            va,
            into.as_mut_ptr(),
            into.len(),
        )
    }
}

/// Writes `from` to the guest's memory at `va`.
pub fn write(record: &[u32], memory: &mut [u8], rights: &[u8], va: u32, from: &[u8]) -> u32 {
    // SAFETY: as the head of this module says.
    unsafe {
        header::brenwythal_plain_write(
            record.as_ptr(),
            record.len(),
            memory.as_mut_ptr(),
            memory.len(),
            rights.as_ptr(),
            rights.len(),
            va,
            from.as_ptr(),
            from.len(),
        )
    }
}

/// Copies the guest's page into a buffer of 4096 bytes.
pub fn view(record: &[u32], memory: &[u8], rights: &[u8], page: u32, into: &mut [u8]) -> u32 {
    // SAFETY: as the head of this module says.
    unsafe {
        header::brenwythal_plain_view(
            record.as_ptr(),
            record.len(),
            memory.as_ptr(),
            memory.len(),
            rights.as_ptr(),
            rights.len(),
            page,
            into.as_mut_ptr(),
            into.len(),
        )
    }
}

/// Sets register 1 to 31.
pub fn reply(record: &mut [u32], register: u32, value: u32) -> u32 {
    // SAFETY: as the head of this module says.
    unsafe { header::brenwythal_plain_reply(record.as_mut_ptr(), record.len(), register, value) }
}
