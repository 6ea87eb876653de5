//! What a bid brings beside its task, and a trial beside its order (`docs/SCOPE.md`, "Fair shares").

use crate::sys;

/// The settings of a bid or a trial: of so many grants, the window, each task has a share, after which others that could go on go first.
///
/// Both are 1 to 255. They are kept as wide as they are given and looked at by the call, so that 256 is refused, with
/// [`BadSetting`](crate::Refusal::BadSetting), and isn't cut to 0.
///
/// A host keeps one for all bids of a service: then rounds of bids bring every task to its end, whatever the two numbers are. `docs/HOSTS.md`, "Share and
/// window", says how to choose them, and how to change the window; [`Analysed::trial`](crate::Analysed::trial) says what they do.
#[derive(Clone, Copy, Debug, PartialEq, Eq, Hash)]
pub struct Settings {
    /// The grants of a window that a task may have while others with share left could go on.
    pub share: u32,
    /// The grants after which the counts of all tasks become 0.
    pub window: u32,
}

impl Settings {
    /// No share is ever spent: bids are answered by set, map and state alone. So it is with every share that isn't less than the window.
    pub const OFF: Settings = Settings::new(sys::MAX_SETTING, sys::MAX_SETTING);

    /// A share of a window.
    pub const fn new(share: u32, window: u32) -> Settings {
        Settings { share, window }
    }
}
