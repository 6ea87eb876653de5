//! Sets that were stored with devices which no task claims, and are now refused with 24 (`docs/SCOPE.md`, "Cleaner").

use crate::sys;
use crate::words::{claimed_device, kind_of};
#[cfg(feature = "alloc")]
use {
    crate::{plain, Refused},
    alloc::{vec, vec::Vec},
};

/// The set without the devices that no task claims, the others numbered anew: [`plain::clean`] says more. For [`Analysed::new`](crate::Analysed::new), and to be
/// stored in the old set's place; its map is the old set's, and a record goes on with it.
///
/// ```
/// use arbiter::{cleaned, Analysed};
///
/// let stored = [0x10000008, 0x20000000, 0x50000002];
/// assert!(Analysed::new(stored).is_err());
/// let analysed = Analysed::new(cleaned(&stored)?)?;
/// assert_eq!(analysed.set().words(), [0x20000000, 0x50000001]);
/// # Ok::<(), arbiter::Refused>(())
/// ```
///
/// # Errors
///
/// Refusals 1 to 12 and 28, by the rules that had no 24.
///
/// # Panics
///
/// If the linked library isn't the one that belongs to this crate.
#[cfg(feature = "alloc")]
pub fn cleaned(set: &[u32]) -> Result<Vec<u32>, Refused> {
    // A cleaned set has no more words than the set.
    let mut clean = vec![0; set.len()];
    let length = plain::clean(set, &mut clean)?;
    clean.truncate(length);
    Ok(clean)
}

/// Whether some task of a set claims the device, for sets that a cleaning takes: the devices that it keeps, by their old numbers. The new number of one of them is
/// how many of the devices before it are kept too, so a host gives its names for devices their new numbers in this way:
///
/// ```
/// let stored = [0x10000001, 0x10000001, 0x10000001, 0x20000000, 0x30000002, 0x30000000, 0x40000000, 0x40000002, 0x50000008];
/// let names = ["radio", "siren", "pager"];
/// let kept: Vec<&str> = (0..3).filter(|&device| arbiter::is_claimed(&stored, device)).map(|device| names[device]).collect();
/// assert_eq!(kept, ["radio", "pager"]);
/// ```
pub fn is_claimed(set: &[u32], device: usize) -> bool {
    set.iter().any(|&word| kind_of(word) == sys::CLAIM && claimed_device(word) == device)
}
