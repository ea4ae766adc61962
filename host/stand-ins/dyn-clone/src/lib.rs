//! Stand-in for `dyn-clone`. Planning clones no row iterator; the names only have to resolve.

pub trait DynClone {}

impl<T: Clone> DynClone for T {}

/// Would implement `Clone` for boxed trait objects; here it generates nothing.
#[macro_export]
macro_rules! clone_trait_object {
    ($trait:path) => {};
}
