//! The exported functions of the proved library, and which library was linked.

use core::fmt;

/// The numbers of an answer, as the library gives them: that of a refusal, its text (1 catalog, 2 statement) and line; or 0
/// and how many cells the plan has.
#[repr(C)]
#[derive(Clone, Copy, Debug, PartialEq, Eq)]
pub struct Outcome {
    /// The refusal's number, or 0 for a plan.
    pub number: u32,
    /// 1 for the catalog, 2 for the statement; 0 for a plan.
    pub text: u32,
    /// The line of the record where it arose, or 0.
    pub line: u32,
    /// How many cells the plan has, or 0.
    pub count: u32,
}

/// Whether a library was linked. None is where the target is not x86-64 Linux, or the file was missing.
pub const AVAILABLE: bool = cfg!(planning);

/// The library that was linked.
#[derive(Clone, Copy, Debug, PartialEq, Eq)]
pub struct Library {
    /// The SHA-256 of its file.
    pub sha256: &'static str,
    /// Whether it is the one in `dist/`, which the gate holds to the one that was proved; else `PLANNER_LIB_DIR` named it.
    pub shipped: bool,
    /// The toolchain that proved and compiled the one in `dist/`; empty for another.
    pub toolchain: &'static str,
}

impl fmt::Display for Library {
    fn fmt(&self, f: &mut fmt::Formatter<'_>) -> fmt::Result {
        if self.shipped {
            write!(f, "dist/libplanner.a, SHA-256 {}, proved by {}", self.sha256, self.toolchain)
        } else {
            write!(f, "libplanner.a of PLANNER_LIB_DIR, SHA-256 {}", self.sha256)
        }
    }
}

/// Why the library cannot be used.
#[derive(Clone, Copy, Debug, PartialEq, Eq)]
#[non_exhaustive]
pub enum Unusable {
    /// None was linked.
    NotLinked,
    /// It writes another layout than this crate reads.
    Layout(u32),
    /// It takes another least area than this crate says.
    AreaLength(usize),
}

impl fmt::Display for Unusable {
    fn fmt(&self, f: &mut fmt::Formatter<'_>) -> fmt::Result {
        match self {
            Unusable::NotLinked => f.write_str("no planner library was linked: it is one for x86-64 Linux"),
            Unusable::Layout(layout) => {
                write!(f, "the linked library writes layout {layout}, and this crate reads {}", crate::LAYOUT)
            }
            Unusable::AreaLength(length) => write!(
                f,
                "the linked library takes {length} numbers at least, and this crate says {}",
                crate::LEAST_AREA
            ),
        }
    }
}

impl core::error::Error for Unusable {}

/// The library that was linked, once its layout and its least area are seen to be those of this crate.
///
/// # Errors
///
/// Where it cannot be used; [`plan`](crate::plan) would panic.
pub fn library() -> Result<Library, Unusable> {
    usable(linked::layout(), linked::area_length())?;
    Ok(Library {
        sha256: env!("PLANNER_LIBRARY_SHA256"),
        shipped: matches!(env!("PLANNER_LIBRARY_SHIPPED").as_bytes(), b"yes"),
        toolchain: env!("PLANNER_LIBRARY_TOOLCHAIN"),
    })
}

/// Whether a library that answers this can be used.
fn usable(layout: Option<u32>, area_length: Option<usize>) -> Result<(), Unusable> {
    match (layout, area_length) {
        (None, _) | (_, None) => Err(Unusable::NotLinked),
        (Some(layout), _) if layout != crate::LAYOUT => Err(Unusable::Layout(layout)),
        (_, Some(length)) if length != crate::LEAST_AREA => Err(Unusable::AreaLength(length)),
        _ => Ok(()),
    }
}

/// The exported entry itself, for whoever wants its numbers: the plan of a statement over a catalog, into the area.
///
/// # Panics
///
/// Where no library was linked.
pub fn planner_plan(catalog: &[u8], statement: &[u8], area: &mut [u32]) -> Outcome {
    linked::plan(catalog, statement, area)
}

#[cfg(planning)]
mod linked {
    use super::Outcome;

    // SAFETY of the declarations: they are those of crates/planner_c/src/lib.rt, a slice as a pointer and a length. The planning
    // entry takes all bytes and numbers, reads and writes no further than the slices, and keeps nothing.
    #[allow(unsafe_code)]
    unsafe extern "C" {
        fn planner_plan(
            catalog: *const u8,
            catalog_length: usize,
            statement: *const u8,
            statement_length: usize,
            area: *mut u32,
            area_length: usize,
        ) -> Outcome;
        safe fn planner_layout() -> u32;
        safe fn planner_area_length() -> usize;
    }

    pub fn layout() -> Option<u32> {
        Some(planner_layout())
    }

    pub fn area_length() -> Option<usize> {
        Some(planner_area_length())
    }

    #[allow(unsafe_code)]
    pub fn plan(catalog: &[u8], statement: &[u8], area: &mut [u32]) -> Outcome {
        // SAFETY: the pointers and lengths are those of slices that live through the call; the area, which is written, is
        // lent to nobody else.
        unsafe {
            planner_plan(
                catalog.as_ptr(),
                catalog.len(),
                statement.as_ptr(),
                statement.len(),
                area.as_mut_ptr(),
                area.len(),
            )
        }
    }
}

#[cfg(not(planning))]
mod linked {
    use super::{Outcome, Unusable};

    pub fn layout() -> Option<u32> {
        None
    }

    pub fn area_length() -> Option<usize> {
        None
    }

    pub fn plan(_: &[u8], _: &[u8], _: &mut [u32]) -> Outcome {
        panic!("{}", Unusable::NotLinked)
    }
}

#[cfg(test)]
mod tests {
    use super::{Unusable, usable};

    #[test]
    fn a_library_of_another_layout_or_area_is_not_used() {
        assert_eq!(usable(Some(1), Some(16_384)), Ok(()));
        assert_eq!(usable(Some(2), Some(16_384)), Err(Unusable::Layout(2)));
        assert_eq!(usable(Some(0), Some(0)), Err(Unusable::Layout(0)));
        assert_eq!(usable(Some(1), Some(16_385)), Err(Unusable::AreaLength(16_385)));
        assert_eq!(usable(Some(1), Some(16_383)), Err(Unusable::AreaLength(16_383)));
        assert_eq!(usable(None, None), Err(Unusable::NotLinked));
    }
}
