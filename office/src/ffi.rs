//! The exported calls of the proved library, on lent buffers. `include/order.h` says what each takes and leaves.
//!
//! This is the only unsafe code of the library's side. It is sound because a Rust slice is what the library asks for: its pointer
//! is not null even when it is empty, its length is below 2⁶³, and a `&mut` overlaps nothing else that is lent.
#![allow(unsafe_code)]

mod linked {
    unsafe extern "C" {
        pub fn order_flow(job: *const u8, job_length: usize, out: *mut u8, out_length: usize) -> u32;
        pub fn order_rate(
            job: *const u8,
            job_length: usize,
            cat: *const u8,
            cat_length: usize,
            sizes: *const u8,
            sizes_length: usize,
            out: *mut u8,
            out_length: usize,
        ) -> u32;
        pub fn order_losses(
            job: *const u8,
            job_length: usize,
            cat: *const u8,
            cat_length: usize,
            sizes: *const u8,
            sizes_length: usize,
            out: *mut u8,
            out_length: usize,
        ) -> u32;
        pub fn order_heads(
            job: *const u8,
            job_length: usize,
            losses: *const u8,
            losses_length: usize,
            out: *mut u8,
            out_length: usize,
        ) -> u32;
        pub fn order_choose(
            job: *const u8,
            job_length: usize,
            cat: *const u8,
            cat_length: usize,
            work: *mut u8,
            work_length: usize,
            out: *mut u8,
            out_length: usize,
        ) -> u32;
        pub fn order_duty(job: *const u8, job_length: usize, out: *mut u8, out_length: usize) -> u32;
        pub fn order_meter(
            job: *const u8,
            job_length: usize,
            meters: *const u8,
            meters_length: usize,
            out: *mut u8,
            out_length: usize,
        ) -> u32;
        pub fn order_heat(job: *const u8, job_length: usize, t: u32, loss: u32, out: *mut u8, out_length: usize)
        -> u32;
        pub fn order_copy(job: *const u8, job_length: usize, out: *mut u8, out_length: usize) -> u32;
    }
}

/// Design flows into `out`; 0, or the number of the refusal.
pub fn flow(job: &[u8], out: &mut [u8]) -> u32 {
    // SAFETY: see the top of the file; the library reads `job` and writes inside `out`.
    unsafe { linked::order_flow(job.as_ptr(), job.len(), out.as_mut_ptr(), out.len()) }
}

/// Rating into `out`; 0, or the number of the refusal.
pub fn rate(job: &[u8], cat: &[u8], sizes: &[u8], out: &mut [u8]) -> u32 {
    // SAFETY: see the top of the file; the library reads the first three and writes inside `out`.
    unsafe {
        linked::order_rate(
            job.as_ptr(),
            job.len(),
            cat.as_ptr(),
            cat.len(),
            sizes.as_ptr(),
            sizes.len(),
            out.as_mut_ptr(),
            out.len(),
        )
    }
}

/// Each section's flow, velocity and loss into `out`; 0, or the number of the refusal.
pub fn losses(job: &[u8], cat: &[u8], sizes: &[u8], out: &mut [u8]) -> u32 {
    // SAFETY: see the top of the file; the library reads the first three and writes inside `out`.
    unsafe {
        linked::order_losses(
            job.as_ptr(),
            job.len(),
            cat.as_ptr(),
            cat.len(),
            sizes.as_ptr(),
            sizes.len(),
            out.as_mut_ptr(),
            out.len(),
        )
    }
}

/// Required head, pump head and dictating section with the losses that are given into `out`; 0, or the number of the refusal.
pub fn heads(job: &[u8], losses: &[u8], out: &mut [u8]) -> u32 {
    // SAFETY: see the top of the file; the library reads the first two and writes inside `out`.
    unsafe { linked::order_heads(job.as_ptr(), job.len(), losses.as_ptr(), losses.len(), out.as_mut_ptr(), out.len()) }
}

/// The cheapest suitable sizes into `out`, with the workspace `work`; 0, or the number of the refusal.
pub fn choose(job: &[u8], cat: &[u8], work: &mut [u8], out: &mut [u8]) -> u32 {
    // SAFETY: see the top of the file; the library reads the first two and writes inside `work` and `out`.
    unsafe {
        linked::order_choose(
            job.as_ptr(),
            job.len(),
            cat.as_ptr(),
            cat.len(),
            work.as_mut_ptr(),
            work.len(),
            out.as_mut_ptr(),
            out.len(),
        )
    }
}

/// The house's design flow into `out`; 0, or the number of the refusal.
pub fn duty(job: &[u8], out: &mut [u8]) -> u32 {
    // SAFETY: see the top of the file; the library reads `job` and writes inside `out`.
    unsafe { linked::order_duty(job.as_ptr(), job.len(), out.as_mut_ptr(), out.len()) }
}

/// The meter that wins from a list and the job with its loss into `out`; 0, or the number of the refusal.
pub fn meter(job: &[u8], meters: &[u8], out: &mut [u8]) -> u32 {
    // SAFETY: see the top of the file; the library reads the first two and writes inside `out`.
    unsafe { linked::order_meter(job.as_ptr(), job.len(), meters.as_ptr(), meters.len(), out.as_mut_ptr(), out.len()) }
}

/// The heat flow of the mean hour and of the greatest hour, with cold water of `t` °C and a stated loss in watts, into `out`; 0, or
/// the number of the refusal.
pub fn heat(job: &[u8], t: u32, loss: u32, out: &mut [u8]) -> u32 {
    // SAFETY: see the top of the file; the library reads `job` and writes inside `out`.
    unsafe { linked::order_heat(job.as_ptr(), job.len(), t, loss, out.as_mut_ptr(), out.len()) }
}

/// The record read and written again into `out`; 0, or the number of the refusal.
pub fn copy(job: &[u8], out: &mut [u8]) -> u32 {
    // SAFETY: see the top of the file; the library reads `job` and writes inside `out`.
    unsafe { linked::order_copy(job.as_ptr(), job.len(), out.as_mut_ptr(), out.len()) }
}
