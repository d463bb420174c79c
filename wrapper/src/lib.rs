//! The proved library with Rust's types: buffers of the right length, an enum
//! of the reasons, and answers that can't be mistaken for refusals.
//!
//! Whatever is asked, nothing panics, and a refusal writes nothing. The crate
//! needs neither `std` nor an allocator; with the feature `alloc` its buffers
//! may also stand on the heap (`Work::boxed()`).
//!
//! ```
//! use lexondar::{verdict, Error, Reason, Work};
//!
//! // A pure row, a form of it, and a main that makes one object.
//! let sheet = b"types=1\ntype=0,0\nforms=1\nform=0,0\nmain=1\nnew=0\n";
//! let mut work = Work::new();
//! assert_eq!(verdict(sheet, &mut work), Ok(()));
//!
//! // Its last line has no byte 10.
//! let torn = &sheet[..sheet.len() - 1];
//! match verdict(torn, &mut work) {
//!     Err(Error::Refused(refusal)) => {
//!         assert_eq!((refusal.reason, refusal.line), (Reason::Malformed, 6));
//!         let words = "refusal 3 (torn line) at line 6: the line is not in the sheet's shape";
//!         assert_eq!(refusal.to_string(), words);
//!     }
//!     other => panic!("{other:?}"),
//! }
//! ```
//!
//! The archive `liblexondar.a` is linked from where the repository's `make`
//! writes it, or from the folder that `LEXONDAR_LIB_DIR` names. In the examples
//! below the sheets are those of the repository's `examples`: `CLERK` a clerk
//! before a scale, `MAKERS` two makers with one valve.

#![no_std]
#![warn(missing_docs)]

#[cfg(feature = "alloc")]
extern crate alloc;

mod answer;
mod buffer;
pub mod raw;
mod refusal;
mod results;

pub use answer::{Entries, Fit, FitWords, Outcome, Run, Walk};
pub use buffer::{Buffer, Held, Holders, Work};
use raw::Begins;
pub use refusal::{Error, Lack, Reason, Refusal, UnknownNumber};

/// The version of this crate; the header's is the same.
pub const VERSION: &str = env!("CARGO_PKG_VERSION");

/// Main's number as a holder.
pub const MAIN: usize = 256;

/// Whether row a of the text's sheet fits row b, what is lacking if not, and
/// how many members of row a the walk along both passed.
///
/// ```
/// # const CLERK: &[u8] = include_bytes!(concat!(env!("CARGO_MANIFEST_DIR"), "/../examples/clerk.sheet"));
/// use lexondar::{fit, Fit, Work};
///
/// let walk = fit(CLERK, 0, 1, &mut Work::new())?;
/// assert_eq!(walk.fit, Fit::Member(1));
/// assert_eq!(walk.fit.words(CLERK, 0, 1).to_string(), "row 1 asks for method 1");
/// # Ok::<(), lexondar::Error>(())
/// ```
pub fn fit(text: &[u8], a: usize, b: usize, work: &mut Work) -> Result<Walk, Error> {
    raw::fit(text, a, b, &mut work.0).try_into()
}

/// The lines of a form of the text's sheet, as they stand in the text: that
/// part of the text itself. Forms count from 0, and the sheet only has to be
/// readable.
///
/// ```
/// # const CLERK: &[u8] = include_bytes!(concat!(env!("CARGO_MANIFEST_DIR"), "/../examples/clerk.sheet"));
/// use lexondar::{form, Work};
///
/// let lines = form(CLERK, 1, &mut Work::new())?;
/// assert_eq!(lines, b"form=1,0\nbody=1\ncopy=1\n");
/// # Ok::<(), lexondar::Error>(())
/// ```
pub fn form<'a>(text: &'a [u8], form: usize, work: &mut Work) -> Result<&'a [u8], Error> {
    let given = raw::form(text, form, &mut work.0);
    given.check()?;
    Ok(&text[given.start..given.start + given.length])
}

/// The verdict on the text's sheet: accepted, or why not.
///
/// ```
/// # const CLERK: &[u8] = include_bytes!(concat!(env!("CARGO_MANIFEST_DIR"), "/../examples/clerk.sheet"));
/// use lexondar::{verdict, Work};
///
/// assert_eq!(verdict(CLERK, &mut Work::new()), Ok(()));
/// ```
pub fn verdict(text: &[u8], work: &mut Work) -> Result<(), Error> {
    raw::verdict(text, &mut work.0).check()
}

/// The run of the text's sheet for at most `budget` steps. It can't be cut
/// short, and takes time in proportion to its steps.
///
/// ```
/// # const CLERK: &[u8] = include_bytes!(concat!(env!("CARGO_MANIFEST_DIR"), "/../examples/clerk.sheet"));
/// use lexondar::{run, Outcome, Work};
///
/// let done = run(CLERK, 10_000, &mut Work::new())?;
/// assert_eq!(done.outcome, Outcome::Done { value: 0 });
/// assert_eq!((done.steps, done.objects), (8, 3));
/// # Ok::<(), lexondar::Error>(())
/// ```
pub fn run(text: &[u8], budget: u32, work: &mut Work) -> Result<Run, Error> {
    raw::run(text, budget, &mut work.0).try_into()
}

/// The most steps that a run of the text's sheet can need, if its bodies call
/// only methods with names below their own. A run with at least that budget is
/// not spent; a full store or a full stack may still end it.
///
/// ```
/// # const CLERK: &[u8] = include_bytes!(concat!(env!("CARGO_MANIFEST_DIR"), "/../examples/clerk.sheet"));
/// use lexondar::{bound, Work};
///
/// assert_eq!(bound(CLERK, &mut Work::new()), Ok(8));
/// ```
pub fn bound(text: &[u8], work: &mut Work) -> Result<u32, Error> {
    let given = raw::bound(text, &mut work.0);
    given.check()?;
    Ok(given.steps)
}

/// The resource objects that a holder holds in the state that the run leaves,
/// ascending. Main is holder 256. A holder holds what it can still use: itself,
/// its fields, those of its kept values that some body of its form names, and,
/// in its frames, the slots that an instruction not yet taken names and a
/// body's last slot until it is returned. Main has only frames, and keeps its
/// own last slot.
///
/// ```
/// # const CLERK: &[u8] = include_bytes!(concat!(env!("CARGO_MANIFEST_DIR"), "/../examples/clerk.sheet"));
/// use lexondar::{authority, Held, Work, MAIN};
///
/// let (mut work, mut held) = (Work::new(), Held::new());
/// // The clerk is object 2, and its scale object 1.
/// assert_eq!(authority(CLERK, 10_000, 2, &mut work, &mut held)?, [1, 2]);
/// assert_eq!(authority(CLERK, 10_000, MAIN, &mut work, &mut held)?, []);
/// # Ok::<(), lexondar::Error>(())
/// ```
pub fn authority<'a>(
    text: &[u8],
    budget: u32,
    holder: usize,
    work: &mut Work,
    held: &'a mut Held,
) -> Result<&'a [u16], Error> {
    let given = raw::authority(text, budget, holder, &mut work.0, &mut held.0);
    given.check()?;
    Ok(&held.0[..given.count as usize])
}

/// The resource objects that a group of holders holds together, ascending:
/// those that at least one of them holds. The order of the list has no
/// influence, and a holder listed twice counts once; over 16 are refused.
///
/// ```
/// # const MAKERS: &[u8] = include_bytes!(concat!(env!("CARGO_MANIFEST_DIR"), "/../examples/makers.sheet"));
/// use lexondar::{group, Held, Work};
///
/// let (mut work, mut held) = (Work::new(), Held::new());
/// assert_eq!(group(MAKERS, 100, &[2, 3], &mut work, &mut held)?, [2, 3, 4, 5]);
/// # Ok::<(), lexondar::Error>(())
/// ```
pub fn group<'a>(
    text: &[u8],
    budget: u32,
    holders: &[u16],
    work: &mut Work,
    held: &'a mut Held,
) -> Result<&'a [u16], Error> {
    let given = raw::group(text, budget, holders, &mut work.0, &mut held.0);
    given.check()?;
    Ok(&held.0[..given.count as usize])
}

/// The run's answer, and every holder with what it holds: main, then the
/// resource objects, ascending.
///
/// ```
/// # const CLERK: &[u8] = include_bytes!(concat!(env!("CARGO_MANIFEST_DIR"), "/../examples/clerk.sheet"));
/// use lexondar::{report, Holders, Work};
///
/// let (mut work, mut room) = (Work::new(), Holders::new());
/// let (run, holders) = report(CLERK, 10_000, &mut work, &mut room)?;
/// assert_eq!(run.steps, 8);
/// let all: [(u16, &[u16]); 3] = [(256, &[]), (1, &[1]), (2, &[1, 2])];
/// assert!(holders.eq(all));
/// # Ok::<(), lexondar::Error>(())
/// ```
pub fn report<'a>(
    text: &[u8],
    budget: u32,
    work: &mut Work,
    holders: &'a mut Holders,
) -> Result<(Run, Entries<'a>), Error> {
    let given = raw::report(text, budget, &mut work.0, &mut holders.0);
    let run = Run::try_from(given)?;
    Ok((run, Entries(&holders.0[..given.count as usize])))
}
