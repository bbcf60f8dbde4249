//! Errors as one family: texts, sources, and what `?` makes of them.
use cupolanettle::{
    BadBytes, BadValue, BatchError, ChangeError, CopyError, Error, Kept, Memory, NoSeat, OpenError,
    Options, Refused, RetainError, TryError, Unseen, Value,
};
use std::error::Error as Any;

/// What a change kept.
fn kept() -> Kept {
    let caller = Options::new().keys(100).epoch(4).open().unwrap().caller().unwrap();
    match caller.replace(1, Some(10.into()), None) {
        Err(ChangeError::Kept(kept)) => kept,
        came => panic!("{came:?}"),
    }
}

/// The texts of an error and its sources.
fn chain(error: &dyn Any) -> Vec<String> {
    let mut texts = vec![error.to_string()];
    let mut source = error.source();
    while let Some(error) = source {
        texts.push(error.to_string());
        source = error.source();
    }
    texts
}

#[test]
fn causes_stand_for_themselves() {
    let causes: [Box<dyn Any + Send + Sync>; 10] = [
        Refused::RunFull.into(),
        Refused::Worn.into(),
        kept().into(),
        NoSeat.into(),
        Memory.into(),
        BadValue.into(),
        BadBytes.into(),
        Unseen.into(),
        OpenError::Keys.into(),
        TryError::Raced.into(),
    ];
    for (at, cause) in causes.iter().enumerate() {
        assert_eq!(chain(cause.as_ref()).len(), 1);
        assert!(causes[..at].iter().all(|other| other.to_string() != cause.to_string()));
    }
}

/// What holds a refusal has it as its source, and leaves its text to that.
#[test]
fn refusals_are_sources() {
    for refused in [Refused::RunFull, Refused::VersionsFull, Refused::OwnSnapshot, Refused::Worn] {
        let errors: [Box<dyn Any>; 5] = [
            ChangeError::from(refused).into(),
            BatchError::from(refused).into(),
            TryError::from(refused).into(),
            RetainError::from(refused).into(),
            CopyError::from(refused).into(),
        ];
        for error in errors {
            let source = error.source().unwrap();
            assert_eq!(source.downcast_ref(), Some(&refused));
            assert_eq!(chain(error.as_ref()), [error.to_string(), refused.to_string()]);
            assert!(!error.to_string().contains(&refused.to_string()));
        }
    }
    let kept = kept();
    let error = ChangeError::from(kept);
    assert_eq!(error.source().and_then(|source| source.downcast_ref()), Some(&kept));
    assert_ne!(error.to_string(), kept.to_string());
}

/// Whichever call met it, a cause is one variant of `Error`.
#[test]
fn any_error_is_its_cause() {
    let refused = Refused::VersionsFull;
    let errors: [Error; 6] = [
        refused.into(),
        ChangeError::from(refused).into(),
        BatchError::from(refused).into(),
        TryError::from(refused).into(),
        RetainError::from(refused).into(),
        CopyError::from(refused).into(),
    ];
    for error in errors {
        assert_eq!(error, Error::Refused(refused));
        assert_eq!(chain(&error), [refused.to_string()]);
    }
    let errors: [Error; 5] = [
        Memory.into(),
        OpenError::Memory.into(),
        BatchError::from(Memory).into(),
        RetainError::from(Memory).into(),
        CopyError::from(Memory).into(),
    ];
    for error in errors {
        assert_eq!(error, Error::Memory(Memory));
        assert_eq!(chain(&error), [Memory.to_string()]);
    }
    let kept = kept();
    assert_eq!(Error::from(ChangeError::from(kept)), Error::Kept(kept));
    assert_eq!(Error::from(CopyError::from(NoSeat)), Error::NoSeat(NoSeat));
    let own: [(Error, Error); 7] = [
        (OpenError::Wait.into(), Error::Open(OpenError::Wait)),
        (BatchError::Empty.into(), Error::Batch(BatchError::Empty)),
        (TryError::Full.into(), Error::Try(TryError::Full)),
        (NoSeat.into(), Error::NoSeat(NoSeat)),
        (BadValue.into(), Error::BadValue(BadValue)),
        (BadBytes.into(), Error::BadBytes(BadBytes)),
        (Unseen.into(), Error::Unseen(Unseen)),
    ];
    for (error, wanted) in own {
        assert_eq!(error, wanted);
        assert!(error.source().is_none());
    }
}

/// A variant that a user made holds what `?` would have taken out of it.
#[test]
fn any_error_has_the_source_of_what_it_holds() {
    let error = Error::Batch(BatchError::Refused(Refused::Worn));
    assert_eq!(chain(&error), ["the batch was refused", &Refused::Worn.to_string()]);
    let error = Error::Try(TryError::Refused(Refused::Worn));
    assert_eq!(chain(&error), ["the write was refused", &Refused::Worn.to_string()]);
}

/// `?` takes each into a box, too, from any thread.
#[test]
fn any_error_goes_into_a_box() {
    fn value(words: &[u64]) -> Result<Value, Box<dyn Any + Send + Sync>> {
        let caller = Options::new().keys(100).epoch(4).open()?.caller()?;
        caller.put(1, Value::try_from(words)?)?;
        Ok(caller.get_or_insert_with(1, || 0)?)
    }
    assert_eq!(value(&[7]).unwrap(), 7.into());
    assert_eq!(value(&[]).unwrap_err().downcast_ref(), Some(&BadValue));
}
