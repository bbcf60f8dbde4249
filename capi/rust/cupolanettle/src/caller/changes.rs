//! Changes: calls that read a key and write it in one step.
use super::Caller;
use crate::change::{Changed, Kept};
use crate::error::{ChangeError, Refused};
use crate::library::Code;
use crate::value::Value;
use cupolanettle_sys as raw;

/// Changes read a key and write it in one step: no other write of the key comes between.
///
/// They wait as [`put`](Caller::put) does, and are [refused](Refused) as that is. A change that
/// does not fit the value of the key keeps that: it writes nothing, is a read, and answers
/// [`ChangeError::Kept`] with what it found.
impl Caller {
    /// Adds to the word of the key, which counts as 0 if the key has no value. It answers what the
    /// key had and has.
    ///
    /// # Errors
    ///
    /// [`ChangeError::Kept`] where the value has several words, or the sum passes [`u64::MAX`];
    /// [`ChangeError::Refused`]. Nothing was written.
    ///
    /// ```
    /// # use cupolanettle::{Error, Options};
    /// let store = Options::new().keys(1_000).open()?;
    /// let caller = store.caller()?;
    /// caller.add(1, 5)?;
    /// let changed = caller.add(1, 7)?;
    /// assert_eq!(changed.before, Some(5.into()));
    /// assert_eq!(changed.after, Some(12.into()));
    ///
    /// assert!(caller.add(1, u64::MAX).is_err());
    /// assert_eq!(caller.get(1), Some(12.into()));
    /// # Ok::<(), Error>(())
    /// ```
    #[inline]
    #[doc(alias("fetch_add", "increment", "merge"))]
    pub fn add(&self, key: u64, by: u64) -> Result<Changed, ChangeError> {
        self.changed(self.handle.add(key, by))
    }

    /// Writes the value at the key if the key has none.
    ///
    /// # Errors
    ///
    /// [`ChangeError::Kept`] where the key has a value, which it holds; [`ChangeError::Refused`].
    /// Nothing was written.
    ///
    /// ```
    /// # use cupolanettle::{ChangeError, Error, Options};
    /// let store = Options::new().keys(1_000).open()?;
    /// let caller = store.caller()?;
    /// for claim in [10, 11] {
    ///     match caller.put_if_absent(1, claim) {
    ///         Ok(_) => assert_eq!(claim, 10),
    ///         Err(ChangeError::Kept(kept)) => assert_eq!(kept.value, Some(10.into())),
    ///         Err(refused) => return Err(refused.into()),
    ///     }
    /// }
    /// # Ok::<(), Error>(())
    /// ```
    #[inline]
    #[doc(alias("insert_if_absent", "or_insert", "try_insert", "setdefault"))]
    pub fn put_if_absent(&self, key: u64, value: impl Into<Value>) -> Result<Changed, ChangeError> {
        self.replace(key, None, Some(value.into()))
    }

    /// The value of the key; if it has none, it is given that which the function makes.
    ///
    /// It is a [`get`](Caller::get), and, where that finds none, a
    /// [`put_if_absent`](Caller::put_if_absent) of what the function makes. The function is asked
    /// once at most, but **it may be asked in vain**: if another thread gives the key a value
    /// meanwhile, that is answered, and what the function made is dropped. So all who ask for a
    /// key get one value, until it is written or removed.
    ///
    /// The function may call this caller. If it panics, nothing was written, and the caller goes
    /// on as before.
    ///
    /// # Errors
    ///
    /// [`Refused`], as of [`put`](Caller::put), with nothing written.
    ///
    /// ```
    /// # use cupolanettle::{Error, Options};
    /// let store = Options::new().keys(1_000).open()?;
    /// let caller = store.caller()?;
    /// let square = |number| caller.get_or_insert_with(number, || number * number);
    /// assert_eq!(square(7)?, 49.into());
    /// assert_eq!(caller.get(7), Some(49.into()));
    ///
    /// let found = caller.get_or_insert_with(7, || -> u64 { unreachable!("it has a value") })?;
    /// assert_eq!(found, 49.into());
    /// # Ok::<(), Error>(())
    /// ```
    #[doc(alias("or_insert_with", "get_or_create", "compute_if_absent", "entry"))]
    pub fn get_or_insert_with<F, V>(&self, key: u64, function: F) -> Result<Value, Refused>
    where
        F: FnOnce() -> V,
        V: Into<Value>,
    {
        if let Some(value) = self.get(key) {
            return Ok(value);
        }
        let made = function().into();
        match self.put_if_absent(key, made) {
            Ok(_) => Ok(made),
            Err(ChangeError::Kept(kept)) => Ok(kept.value.unwrap_or(made)),
            Err(ChangeError::Refused(refused)) => Err(refused),
        }
    }

    /// Writes the desired value at the key if the key has the expected one. `None` stands for no
    /// value: as the expected one the key is to have none, as the desired one it is removed. The
    /// call reads as [`AtomicU64::compare_exchange`].
    ///
    /// # Errors
    ///
    /// [`ChangeError::Kept`] where the key has another value than the expected one, or one where
    /// none is expected, or none where one is; [`ChangeError::Refused`]. Nothing was written.
    ///
    /// ```
    /// # use cupolanettle::{ChangeError, Error, Options};
    /// let store = Options::new().keys(1_000).open()?;
    /// let caller = store.caller()?;
    /// caller.replace(1, None, Some(10.into()))?;
    /// caller.replace(1, Some(10.into()), Some([11, 12].into()))?;
    ///
    /// let Err(ChangeError::Kept(kept)) = caller.replace(1, Some(10.into()), None) else {
    ///     panic!("the key has another value");
    /// };
    /// assert_eq!(kept.value, Some([11, 12].into()));
    ///
    /// let changed = caller.replace(1, kept.value, None)?;
    /// assert_eq!((changed.before, changed.after), (kept.value, None));
    /// # Ok::<(), Error>(())
    /// ```
    ///
    /// A change that may be given up is a loop of [`get`](Caller::get) and `replace`:
    ///
    /// ```
    /// # use cupolanettle::{Caller, ChangeError, Error, Options};
    /// /// Takes the amount from the account, and answers whether that had as much.
    /// fn withdraw(caller: &Caller, account: u64, amount: u64) -> Result<bool, Error> {
    ///     let mut balance = caller.get(account);
    ///     loop {
    ///         let Some(rest) = balance.and_then(|value| value[0].checked_sub(amount)) else {
    ///             return Ok(false);
    ///         };
    ///         match caller.replace(account, balance, Some(rest.into())) {
    ///             Ok(_) => return Ok(true),
    ///             Err(ChangeError::Kept(kept)) => balance = kept.value,
    ///             Err(refused) => return Err(refused.into()),
    ///         }
    ///     }
    /// }
    /// # let store = Options::new().keys(1_000).open()?;
    /// # let caller = store.caller()?;
    /// # caller.put(1, 10)?;
    /// # assert!(withdraw(&caller, 1, 7)? && !withdraw(&caller, 1, 7)?);
    /// # assert_eq!(caller.get(1), Some(3.into()));
    /// # Ok::<(), Error>(())
    /// ```
    ///
    /// [`AtomicU64::compare_exchange`]: std::sync::atomic::AtomicU64::compare_exchange
    #[inline]
    #[doc(alias("compare_exchange", "compare_and_swap", "compare_and_set", "cas"))]
    pub fn replace(
        &self,
        key: u64,
        expected: Option<Value>,
        desired: Option<Value>,
    ) -> Result<Changed, ChangeError> {
        let (expected, desired) = (Value::raw_of(expected), Value::raw_of(desired));
        self.changed(self.handle.replace(key, &expected, &desired))
    }

    /// Gives the key what the function makes of its value, where `None` stands for no value: the
    /// function is passed `None` for a key that has none, and removes the key by `None`.
    ///
    /// It is a loop of [`get`](Caller::get) and [`replace`](Caller::replace). Where another write
    /// came between, **the function is asked again**, with the new value; its last answer is the
    /// one that is written. It is written even if the key has that value already.
    ///
    /// The function may call this caller, but the loop has no end if it changes this key each
    /// time. If it panics, this call has written nothing, and the caller goes on as before. One
    /// that may give up is a loop of its own, as [`replace`](Caller::replace) shows.
    ///
    /// # Errors
    ///
    /// [`Refused`], as of [`put`](Caller::put), with nothing written. That the key was kept is
    /// none: the function is asked again then.
    ///
    /// ```
    /// # use cupolanettle::{Error, Options, Value};
    /// let store = Options::new().keys(1_000).open()?;
    /// let caller = store.caller()?;
    ///
    /// // The least and the greatest of some numbers.
    /// for number in [5, 3, 9] {
    ///     caller.update(1, |old| match old.as_deref() {
    ///         Some(&[least, greatest]) => Some([number.min(least), number.max(greatest)]),
    ///         _ => Some([number, number]),
    ///     })?;
    /// }
    /// assert_eq!(caller.get(1), Some([3, 9].into()));
    ///
    /// // Removes the key unless its first word is 0.
    /// let changed = caller.update(1, |old| old.filter(|value| value[0] == 0))?;
    /// assert_eq!((changed.before, changed.after), (Some([3, 9].into()), None));
    /// # Ok::<(), Error>(())
    /// ```
    #[doc(alias("alter", "compute", "entry", "fetch_update", "modify"))]
    pub fn update<F, V>(&self, key: u64, mut function: F) -> Result<Changed, Refused>
    where
        F: FnMut(Option<Value>) -> Option<V>,
        V: Into<Value>,
    {
        let mut value = self.get(key);
        loop {
            let desired = function(value).map(Into::into);
            match self.replace(key, value, desired) {
                Ok(changed) => return Ok(changed),
                Err(ChangeError::Kept(kept)) => value = kept.value,
                Err(ChangeError::Refused(refused)) => return Err(refused),
            }
        }
    }

    /// What a change came to. One that keeps the value is a read.
    #[inline]
    fn changed(&self, (code, found): (Code, raw::Changed)) -> Result<Changed, ChangeError> {
        let (before, after) = (Value::from_raw(found.before), Value::from_raw(found.after));
        match code {
            raw::OK => Ok(Changed { time: self.time(), before, after }),
            raw::KEPT => Err(Kept { time: self.time(), value: before }.into()),
            code => Err(Refused::of(code).into()),
        }
    }
}
