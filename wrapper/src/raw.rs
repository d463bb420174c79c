//! The questions as a terminal calls them: numbers, and buffers of any length.

pub use crate::results::{
    AuthorityResult, Begins, BoundResult, FitResult, FormResult, Four, ReportResult, RunResult,
    VerdictResult,
};

/// The bytes that a text may have.
pub const TEXT_MAX: usize = 65_535;

/// The numbers of the work buffer that are used.
pub const WORK: usize = 32_768;

/// The places of the result buffer that an authority asks for.
pub const AUTHORITY: usize = 256;

/// The holders that a list may have, repeats included.
pub const GROUP: usize = 16;

/// The places of the result buffer that a report asks for: two and 256 for
/// main and for each of 256 objects.
pub const REPORT: usize = 66_306;

/// The bytes of stack that a call takes at the most, but for `memset`'s own.
pub const STACK: usize = 1536;

/// The value of a run that is not done.
pub const NO_VALUE: u32 = 65_535;

extern "C" {
    fn lexondar_fit(
        text: *const u8,
        text_len: usize,
        a: usize,
        b: usize,
        work: *mut u16,
        work_len: usize,
    ) -> FitResult;
    fn lexondar_verdict(
        text: *const u8,
        text_len: usize,
        work: *mut u16,
        work_len: usize,
    ) -> VerdictResult;
    fn lexondar_run(
        text: *const u8,
        text_len: usize,
        budget: u32,
        work: *mut u16,
        work_len: usize,
    ) -> RunResult;
    fn lexondar_authority(
        text: *const u8,
        text_len: usize,
        budget: u32,
        holder: usize,
        work: *mut u16,
        work_len: usize,
        result: *mut u16,
        result_len: usize,
    ) -> AuthorityResult;
    fn lexondar_group(
        text: *const u8,
        text_len: usize,
        budget: u32,
        holders: *const u16,
        holders_len: usize,
        work: *mut u16,
        work_len: usize,
        result: *mut u16,
        result_len: usize,
    ) -> AuthorityResult;
    fn lexondar_report(
        text: *const u8,
        text_len: usize,
        budget: u32,
        work: *mut u16,
        work_len: usize,
        result: *mut u16,
        result_len: usize,
    ) -> ReportResult;
    fn lexondar_form(
        text: *const u8,
        text_len: usize,
        form: usize,
        work: *mut u16,
        work_len: usize,
    ) -> FormResult;
    fn lexondar_bound(
        text: *const u8,
        text_len: usize,
        work: *mut u16,
        work_len: usize,
    ) -> BoundResult;
}

/// Whether row a of the text's sheet fits row b.
pub fn fit(text: &[u8], a: usize, b: usize, work: &mut [u16]) -> FitResult {
    // SAFETY: both slices are valid for the call, and the library keeps
    // neither.
    unsafe {
        lexondar_fit(
            text.as_ptr(),
            text.len(),
            a,
            b,
            work.as_mut_ptr(),
            work.len(),
        )
    }
}

/// The verdict on the text's sheet.
pub fn verdict(text: &[u8], work: &mut [u16]) -> VerdictResult {
    // SAFETY: as above.
    unsafe { lexondar_verdict(text.as_ptr(), text.len(), work.as_mut_ptr(), work.len()) }
}

/// The run of the text's sheet, for at most `budget` steps.
pub fn run(text: &[u8], budget: u32, work: &mut [u16]) -> RunResult {
    // SAFETY: as above.
    unsafe {
        lexondar_run(
            text.as_ptr(),
            text.len(),
            budget,
            work.as_mut_ptr(),
            work.len(),
        )
    }
}

/// The authority of a holder after a run of the text's sheet, for at most
/// `budget` steps: ascending, at the start of the result buffer.
pub fn authority(
    text: &[u8],
    budget: u32,
    holder: usize,
    work: &mut [u16],
    result: &mut [u16],
) -> AuthorityResult {
    // SAFETY: as above; the two buffers are apart.
    unsafe {
        lexondar_authority(
            text.as_ptr(),
            text.len(),
            budget,
            holder,
            work.as_mut_ptr(),
            work.len(),
            result.as_mut_ptr(),
            result.len(),
        )
    }
}

/// What a list of holders holds together after a run of the text's sheet, for
/// at most `budget` steps: ascending, at the start of the result buffer.
pub fn group(
    text: &[u8],
    budget: u32,
    holders: &[u16],
    work: &mut [u16],
    result: &mut [u16],
) -> AuthorityResult {
    // SAFETY: as above.
    unsafe {
        lexondar_group(
            text.as_ptr(),
            text.len(),
            budget,
            holders.as_ptr(),
            holders.len(),
            work.as_mut_ptr(),
            work.len(),
            result.as_mut_ptr(),
            result.len(),
        )
    }
}

/// The run of the text's sheet, for at most `budget` steps, and an entry for
/// main and for every resource object, ascending, at the start of the result
/// buffer: the holder, how many it holds, and which.
pub fn report(text: &[u8], budget: u32, work: &mut [u16], result: &mut [u16]) -> ReportResult {
    // SAFETY: as above.
    unsafe {
        lexondar_report(
            text.as_ptr(),
            text.len(),
            budget,
            work.as_mut_ptr(),
            work.len(),
            result.as_mut_ptr(),
            result.len(),
        )
    }
}

/// Where the lines of a form of the text's sheet stand in the text.
pub fn form(text: &[u8], form: usize, work: &mut [u16]) -> FormResult {
    // SAFETY: as above.
    unsafe {
        lexondar_form(
            text.as_ptr(),
            text.len(),
            form,
            work.as_mut_ptr(),
            work.len(),
        )
    }
}

/// The most steps that a run of the text's sheet can need, if it is sure to
/// finish.
pub fn bound(text: &[u8], work: &mut [u16]) -> BoundResult {
    // SAFETY: as above.
    unsafe { lexondar_bound(text.as_ptr(), text.len(), work.as_mut_ptr(), work.len()) }
}
