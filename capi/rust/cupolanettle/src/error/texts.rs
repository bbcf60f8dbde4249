//! What errors say to people. Those that hold another one leave its text to that, which is their
//! source.
use super::{
    BadBytes, BadValue, BatchError, BatchIfError, ChangeError, Conflict, CopyError, Error, Memory,
    NoSeat, OpenError, Refused, RetainError, TransactError, TryError, Unseen,
};
use crate::change::Kept;
use crate::conditions::Unmet;
use std::fmt;

impl fmt::Display for OpenError {
    fn fmt(&self, f: &mut fmt::Formatter<'_>) -> fmt::Result {
        f.write_str(match self {
            OpenError::Keys => "keys out of range: 1 to 4194304 less six times the epoch and 64",
            OpenError::Versions => {
                "versions out of range: six times the epoch and 64 to 4194304 less the keys"
            }
            OpenError::Epoch => "epoch out of range: 4 to 65536",
            OpenError::Patience => "patience out of range: 0 to 64",
            OpenError::Wait => "wait out of range: 0 to 18446744073709 milliseconds",
            OpenError::Memory => "memory ran out",
            OpenError::NoThread => "no thread for the merger",
            OpenError::Build => "the linked library is of another build",
        })
    }
}

impl fmt::Display for Refused {
    fn fmt(&self, f: &mut fmt::Formatter<'_>) -> fmt::Result {
        f.write_str(match self {
            Refused::RunFull => "more keys have a value than the store was opened for",
            Refused::VersionsFull => "open snapshots keep more versions than there is room for",
            Refused::OwnSnapshot => {
                "the caller's own snapshot keeps more versions than there is room for"
            }
            Refused::Worn => "times have come to their end",
        })
    }
}

impl fmt::Display for Kept {
    fn fmt(&self, f: &mut fmt::Formatter<'_>) -> fmt::Result {
        f.write_str("the change does not fit the value of the key")
    }
}

impl fmt::Display for ChangeError {
    fn fmt(&self, f: &mut fmt::Formatter<'_>) -> fmt::Result {
        f.write_str(match self {
            ChangeError::Kept(_) => "the key kept its value",
            ChangeError::Refused(_) => "the change was refused",
        })
    }
}

impl fmt::Display for BatchError {
    fn fmt(&self, f: &mut fmt::Formatter<'_>) -> fmt::Result {
        match self {
            BatchError::Empty => f.write_str("the batch has no write"),
            BatchError::TooLong => f.write_str("the batch has more writes than an epoch"),
            BatchError::Memory => Memory.fmt(f),
            BatchError::Refused(_) => f.write_str("the batch was refused"),
        }
    }
}

impl fmt::Display for Unmet {
    fn fmt(&self, f: &mut fmt::Formatter<'_>) -> fmt::Result {
        write!(f, "condition {} of the batch does not hold", self.index)
    }
}

impl fmt::Display for BatchIfError {
    fn fmt(&self, f: &mut fmt::Formatter<'_>) -> fmt::Result {
        match self {
            BatchIfError::Unmet(_) => f.write_str("a condition of the batch does not hold"),
            BatchIfError::TooLong => BatchError::TooLong.fmt(f),
            BatchIfError::Memory => Memory.fmt(f),
            BatchIfError::Refused(_) => f.write_str("the batch was refused"),
        }
    }
}

impl fmt::Display for Conflict {
    fn fmt(&self, f: &mut fmt::Formatter<'_>) -> fmt::Result {
        f.write_str("others changed what the transaction read, each time that it ran")
    }
}

impl fmt::Display for TransactError {
    fn fmt(&self, f: &mut fmt::Formatter<'_>) -> fmt::Result {
        match self {
            TransactError::Conflict => Conflict.fmt(f),
            TransactError::TooLong => {
                f.write_str("the transaction writes more keys than an epoch has writes")
            }
            TransactError::NoSeat => NoSeat.fmt(f),
            TransactError::Memory => Memory.fmt(f),
            TransactError::Refused(_) => f.write_str("the transaction was refused"),
        }
    }
}

impl fmt::Display for TryError {
    fn fmt(&self, f: &mut fmt::Formatter<'_>) -> fmt::Result {
        match self {
            TryError::Full => f.write_str("the epoch is full"),
            TryError::Busy => f.write_str("another thread was entering or leaving"),
            TryError::Raced => f.write_str("another write was faster"),
            TryError::Overtaken => f.write_str("a reader cancelled the write"),
            TryError::Refused(_) => f.write_str("the write was refused"),
        }
    }
}

impl fmt::Display for RetainError {
    fn fmt(&self, f: &mut fmt::Formatter<'_>) -> fmt::Result {
        match self {
            RetainError::Memory => Memory.fmt(f),
            RetainError::Refused(_) => f.write_str("a removal was refused"),
        }
    }
}

impl fmt::Display for CopyError {
    fn fmt(&self, f: &mut fmt::Formatter<'_>) -> fmt::Result {
        match self {
            CopyError::NoSeat => NoSeat.fmt(f),
            CopyError::Memory => Memory.fmt(f),
            CopyError::Refused(_) => f.write_str("a write of the copy was refused"),
        }
    }
}

impl fmt::Display for NoSeat {
    fn fmt(&self, f: &mut fmt::Formatter<'_>) -> fmt::Result {
        f.write_str("all seats of the store are taken")
    }
}

impl fmt::Display for Memory {
    fn fmt(&self, f: &mut fmt::Formatter<'_>) -> fmt::Result {
        f.write_str("memory ran out")
    }
}

impl fmt::Display for BadValue {
    fn fmt(&self, f: &mut fmt::Formatter<'_>) -> fmt::Result {
        f.write_str("a value has one to eight words")
    }
}

impl fmt::Display for BadBytes {
    fn fmt(&self, f: &mut fmt::Formatter<'_>) -> fmt::Result {
        f.write_str("a key has up to 8 bytes that do not end with a zero, a value up to 63")
    }
}

impl fmt::Display for Unseen {
    fn fmt(&self, f: &mut fmt::Formatter<'_>) -> fmt::Result {
        f.write_str("the store has not reached this time")
    }
}

impl fmt::Display for Error {
    fn fmt(&self, f: &mut fmt::Formatter<'_>) -> fmt::Result {
        match self {
            Error::Open(error) => error.fmt(f),
            Error::Refused(error) => error.fmt(f),
            Error::Kept(error) => error.fmt(f),
            Error::Unmet(error) => error.fmt(f),
            Error::Conflict(error) => error.fmt(f),
            Error::Batch(error) => error.fmt(f),
            Error::Try(error) => error.fmt(f),
            Error::NoSeat(error) => error.fmt(f),
            Error::Memory(error) => error.fmt(f),
            Error::BadValue(error) => error.fmt(f),
            Error::BadBytes(error) => error.fmt(f),
            Error::Unseen(error) => error.fmt(f),
        }
    }
}
