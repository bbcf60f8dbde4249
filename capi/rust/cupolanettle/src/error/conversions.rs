//! All of them are errors, with their sources, and `?` turns each into [`Error`].
use super::{
    BadBytes, BadValue, BatchError, BatchIfError, ChangeError, Conflict, CopyError, Error, Memory,
    NoSeat, OpenError, Refused, RetainError, TransactError, TryError, Unseen,
};
use crate::change::Kept;
use crate::conditions::Unmet;

/// It stands for the error that it holds, whose text and source are its own.
impl std::error::Error for Error {
    fn source(&self) -> Option<&(dyn std::error::Error + 'static)> {
        match self {
            Error::Open(error) => error.source(),
            Error::Refused(error) => error.source(),
            Error::Kept(error) => error.source(),
            Error::Unmet(error) => error.source(),
            Error::Conflict(error) => error.source(),
            Error::Batch(error) => error.source(),
            Error::Try(error) => error.source(),
            Error::NoSeat(error) => error.source(),
            Error::Memory(error) => error.source(),
            Error::BadValue(error) => error.source(),
            Error::BadBytes(error) => error.source(),
            Error::Unseen(error) => error.source(),
        }
    }
}

/// Makes each cause an error, and one that `?` turns into [`Error`].
macro_rules! causes {
    ($($error:ident => $variant:ident,)*) => {$(
        impl std::error::Error for $error {}

        impl From<$error> for Error {
            fn from(error: $error) -> Error {
                Error::$variant(error)
            }
        }
    )*};
}

causes! {
    Refused => Refused,
    Kept => Kept,
    Unmet => Unmet,
    Conflict => Conflict,
    NoSeat => NoSeat,
    Memory => Memory,
    BadValue => BadValue,
    BadBytes => BadBytes,
    Unseen => Unseen,
}

impl std::error::Error for OpenError {}

impl std::error::Error for ChangeError {
    fn source(&self) -> Option<&(dyn std::error::Error + 'static)> {
        match self {
            ChangeError::Kept(kept) => Some(kept),
            ChangeError::Refused(refused) => Some(refused),
        }
    }
}

/// Makes each type an error whose source is a refusal, where it holds one.
macro_rules! refusals {
    ($($error:ident,)*) => {$(
        impl std::error::Error for $error {
            fn source(&self) -> Option<&(dyn std::error::Error + 'static)> {
                match self {
                    $error::Refused(refused) => Some(refused),
                    _ => None,
                }
            }
        }

        impl From<Refused> for $error {
            fn from(refused: Refused) -> $error {
                $error::Refused(refused)
            }
        }
    )*};
}

refusals! {
    BatchError,
    TransactError,
    TryError,
    RetainError,
    CopyError,
}

impl std::error::Error for BatchIfError {
    fn source(&self) -> Option<&(dyn std::error::Error + 'static)> {
        match self {
            BatchIfError::Unmet(unmet) => Some(unmet),
            BatchIfError::Refused(refused) => Some(refused),
            _ => None,
        }
    }
}

impl From<Unmet> for BatchIfError {
    fn from(unmet: Unmet) -> BatchIfError {
        BatchIfError::Unmet(unmet)
    }
}

impl From<Refused> for BatchIfError {
    fn from(refused: Refused) -> BatchIfError {
        BatchIfError::Refused(refused)
    }
}

impl From<Memory> for BatchIfError {
    fn from(_: Memory) -> BatchIfError {
        BatchIfError::Memory
    }
}

impl From<BatchIfError> for Error {
    fn from(error: BatchIfError) -> Error {
        match error {
            BatchIfError::Unmet(unmet) => unmet.into(),
            BatchIfError::TooLong => BatchError::TooLong.into(),
            BatchIfError::Memory => Memory.into(),
            BatchIfError::Refused(refused) => refused.into(),
        }
    }
}

impl From<Conflict> for TransactError {
    fn from(_: Conflict) -> TransactError {
        TransactError::Conflict
    }
}

impl From<NoSeat> for TransactError {
    fn from(_: NoSeat) -> TransactError {
        TransactError::NoSeat
    }
}

impl From<Memory> for TransactError {
    fn from(_: Memory) -> TransactError {
        TransactError::Memory
    }
}

impl From<TransactError> for Error {
    fn from(error: TransactError) -> Error {
        match error {
            TransactError::Conflict => Conflict.into(),
            TransactError::TooLong => BatchError::TooLong.into(),
            TransactError::NoSeat => NoSeat.into(),
            TransactError::Memory => Memory.into(),
            TransactError::Refused(refused) => refused.into(),
        }
    }
}

impl From<OpenError> for Error {
    fn from(error: OpenError) -> Error {
        match error {
            OpenError::Memory => Memory.into(),
            own => Error::Open(own),
        }
    }
}

impl From<Memory> for BatchError {
    fn from(_: Memory) -> BatchError {
        BatchError::Memory
    }
}

impl From<BatchError> for Error {
    fn from(error: BatchError) -> Error {
        match error {
            BatchError::Refused(refused) => refused.into(),
            BatchError::Memory => Memory.into(),
            own => Error::Batch(own),
        }
    }
}

impl From<TryError> for Error {
    fn from(error: TryError) -> Error {
        match error {
            TryError::Refused(refused) => refused.into(),
            own => Error::Try(own),
        }
    }
}

impl From<Kept> for ChangeError {
    fn from(kept: Kept) -> ChangeError {
        ChangeError::Kept(kept)
    }
}

impl From<Refused> for ChangeError {
    fn from(refused: Refused) -> ChangeError {
        ChangeError::Refused(refused)
    }
}

impl From<ChangeError> for Error {
    fn from(error: ChangeError) -> Error {
        match error {
            ChangeError::Kept(kept) => kept.into(),
            ChangeError::Refused(refused) => refused.into(),
        }
    }
}

impl From<Memory> for RetainError {
    fn from(_: Memory) -> RetainError {
        RetainError::Memory
    }
}

impl From<NoSeat> for CopyError {
    fn from(_: NoSeat) -> CopyError {
        CopyError::NoSeat
    }
}

impl From<Memory> for CopyError {
    fn from(_: Memory) -> CopyError {
        CopyError::Memory
    }
}

impl From<CopyError> for Error {
    fn from(error: CopyError) -> Error {
        match error {
            CopyError::NoSeat => NoSeat.into(),
            CopyError::Memory => Memory.into(),
            CopyError::Refused(refused) => refused.into(),
        }
    }
}

impl From<RetainError> for Error {
    fn from(error: RetainError) -> Error {
        match error {
            RetainError::Memory => Memory.into(),
            RetainError::Refused(refused) => refused.into(),
        }
    }
}
