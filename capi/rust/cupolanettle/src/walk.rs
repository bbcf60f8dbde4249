//! Walks.
use crate::error::Memory;
use crate::library::OpenWalk;
use crate::range::pair;
use crate::value::Value;
use std::fmt;
use std::iter::FusedIterator;

/// A weakly consistent iterator over the rows of a range by rising key: [`Caller::walk`] opens it.
///
/// It reads up to 64 rows at a time, each time at a moment of its own, and takes no seat. It is
/// its caller's, which may write and read meanwhile, and stays in that one's thread.
///
/// It takes its memory when it is opened, so no item is an error.
///
/// ```
/// # use cupolanettle::{Error, Options};
/// # let store = Options::new().keys(1_000).open()?;
/// # let caller = store.caller()?;
/// for key in 0..100 {
///     caller.put(key, key)?;
/// }
/// let mut rows = caller.walk(..)?;
/// assert_eq!(rows.next().transpose()?, Some((0, 0.into())));
/// caller.put(1, 1_000)?; // was read ahead
/// caller.put(99, 1_000)?; // was not
/// assert_eq!(rows.next().transpose()?, Some((1, 1.into())));
/// assert_eq!(rows.last().transpose()?, Some((99, 1_000.into())));
/// # Ok::<(), Error>(())
/// ```
///
/// No other thread may have it:
///
/// ```compile_fail,E0277
/// # use cupolanettle::{Error, Options};
/// # let store = Options::new().keys(1_000).open()?;
/// # let caller = store.caller()?;
/// let rows = caller.walk(..)?;
/// std::thread::scope(|scope| {
///     scope.spawn(move || rows.count());
/// });
/// # Ok::<(), Error>(())
/// ```
///
/// Nor does it outlive its caller:
///
/// ```compile_fail,E0505
/// # use cupolanettle::{Error, Options};
/// # let store = Options::new().keys(1_000).open()?;
/// # let caller = store.caller()?;
/// let rows = caller.walk(..)?;
/// drop(caller);
/// rows.count();
/// # Ok::<(), Error>(())
/// ```
///
/// [`Caller::walk`]: crate::Caller::walk
#[must_use = "a walk reads nothing until it is asked for rows"]
#[doc(alias("Iter", "Iterator", "Cursor"))]
pub struct Walk<'a> {
    open: OpenWalk<'a>,
}

impl<'a> Walk<'a> {
    pub(crate) fn of(open: OpenWalk<'a>) -> Walk<'a> {
        Walk { open }
    }
}

impl Iterator for Walk<'_> {
    type Item = Result<(u64, Value), Memory>;

    #[inline]
    fn next(&mut self) -> Option<Self::Item> {
        self.open.next().as_ref().and_then(pair).map(Ok)
    }
}

impl FusedIterator for Walk<'_> {}

impl fmt::Debug for Walk<'_> {
    fn fmt(&self, f: &mut fmt::Formatter<'_>) -> fmt::Result {
        f.debug_struct("Walk").finish_non_exhaustive()
    }
}
