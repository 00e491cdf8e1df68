//! What the tables measure with: the settings of the tree and three windows.

use crate::lent::Window;
use crate::nolthewyr::Settings;

/// Nobody's patience runs out: only in a wait does the clock move on, by a tick.
pub const SETTINGS: Settings = Settings { levels: 12, distance: 2, wait: 1, patience: 100 };
pub const MOST_CLIENTS: usize = 32767;

/// A window and what it is called in the tables.
pub type Named = (&'static str, Window);

pub const LEAF: Named = ("leaf [10, 20)", (10, 20));
pub const INNER: Named = ("inner node [4096, 8192)", (4096, 8192));
pub const TWO: Named = ("leaf and inner node [4090, 8192)", (4090, 8192));
pub const WINDOWS: [Named; 3] = [LEAF, INNER, TWO];
