//! That the linked library is of this crate's version. The structs may differ from one version to the next, so that a call with the wrong ones would write
//! where it must not: this is looked at before anything is lent.

use crate::sys;
use core::fmt;

/// Panics unless the linked library is of this crate's version.
///
/// In every version the call takes nothing and answers one number. It costs a few nanoseconds, so every other call is made after one of these, and nothing
/// has to be remembered. A library from before there were versions doesn't link.
pub(crate) fn check() {
    // SAFETY: the call takes nothing.
    let library = unsafe { sys::arbiter_version() };
    assert!(
        library == sys::VERSION,
        "the linked libarbiter.a is version {}, and this crate is for version {}: take both from the same commit",
        Version(library),
        Version(sys::VERSION)
    );
}

/// Prints 10203 as 1.2.3.
struct Version(u32);

impl fmt::Display for Version {
    fn fmt(&self, to: &mut fmt::Formatter<'_>) -> fmt::Result {
        write!(to, "{}.{}.{}", self.0 / 10_000, self.0 / 100 % 100, self.0 % 100)
    }
}
