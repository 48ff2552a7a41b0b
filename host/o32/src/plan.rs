//! Where the arguments of a signature lie.

use crate::PLAN_WORDS;

/// Where one argument of a [`Plan`] lies.
#[repr(C)]
#[derive(Clone, Copy, Debug, Default, PartialEq, Eq, Hash)]
pub struct Placement {
    /// Its kind byte.
    pub kind: u32,
    /// Its offset in the argument area, as if all arguments lay there.
    pub offset: u32,
    /// 12 or 14 if it goes to `$f12` or `$f14`, else 0.
    pub float_register: u32,
}

/// Where all arguments of a signature lie on a device.
///
/// [`make_plan`](crate::make_plan) makes one, and [`fill`](crate::fill) makes
/// images by it. It is a plain struct that may be kept, copied and altered:
/// `fill` compares it whole, and refuses it unless every number is as
/// `make_plan` gives it for the list's signature and the device. The default,
/// all zero, is the plan of no signature.
///
/// A plan doesn't hold its device, nor the place of a marker.
#[repr(C)]
#[derive(Clone, Copy, Debug, Default, PartialEq, Eq, Hash)]
pub struct Plan {
    /// The arguments in their order; those past `count` are zero. The marker is
    /// no argument and has none.
    pub placements: [Placement; 32],
    /// Number of arguments.
    pub count: u32,
    /// Bytes of the argument area.
    pub area: u32,
}

// C takes a plan as words, so nothing may stand between its numbers.
const _: () = assert!(size_of::<Plan>() == PLAN_WORDS * size_of::<u32>());
