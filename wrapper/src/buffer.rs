//! The buffers that the questions take.

use crate::raw;
#[cfg(feature = "alloc")]
use alloc::{boxed::Box, vec};

/// A buffer of N numbers, all 0. It needs no allocator: put it into a `static`,
/// or into a local where the stack has room for it.
#[repr(transparent)]
pub struct Buffer<const N: usize>(pub(crate) [u16; N]);

/// A work buffer, 64 KB. Its content has no influence on any answer, and it is
/// all 0 after each; so one serves any number of calls, one at a time.
pub type Work = Buffer<{ raw::WORK }>;

/// Room for the authority of a holder, or of a group of them: 512 bytes.
pub type Held = Buffer<{ raw::AUTHORITY }>;

/// Room for every holder's authority, 130 KB.
pub type Holders = Buffer<{ raw::REPORT }>;

impl<const N: usize> Buffer<N> {
    /// A buffer in place, also of a `static`.
    pub const fn new() -> Buffer<N> {
        Buffer([0; N])
    }

    /// A buffer on the heap, which never stood on the stack.
    #[cfg(feature = "alloc")]
    pub fn boxed() -> Box<Buffer<N>> {
        let numbers = Box::into_raw(vec![0u16; N].into_boxed_slice());
        // SAFETY: N numbers, which is what a buffer is, layout included.
        unsafe { Box::from_raw(numbers.cast()) }
    }
}

impl<const N: usize> Default for Buffer<N> {
    fn default() -> Buffer<N> {
        Buffer::new()
    }
}
