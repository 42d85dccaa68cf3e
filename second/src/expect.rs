//! What the maker of a case knows of its answer.

use crate::calls::Own;

#[derive(Clone, Copy, Debug, PartialEq, Eq)]
pub struct Expect {
    pub code: u8,
    pub index: Option<u64>,
    /// The whole packed answer, and the bytes that the start of the lent buffer then
    /// has; those behind them stay.
    whole: Option<(u64, &'static [u8])>,
}

impl Expect {
    pub fn of(code: u8, index: Option<u64>) -> Expect {
        Expect { code, index, whole: None }
    }

    pub fn whole(packed: u64, written: &'static [u8]) -> Expect {
        let code = packed as u8;
        let index = if code == 0 { 0 } else { packed >> 8 };
        Expect { code, index: Some(index), whole: Some((packed, written)) }
    }

    /// Of the answer only code and index.
    pub fn without_bytes(self) -> Expect {
        Expect::of(self.code, self.index)
    }

    /// What is otherwise in an answer, if anything is.
    pub fn fault(&self, own: &Own) -> Option<String> {
        let index = self.index.unwrap_or(own.index);
        if (self.code, index) != (own.code, own.index) {
            return Some(format!("expected code {} index {:?}", self.code, self.index));
        }
        let (packed, written) = self.whole?;
        let mut after = own.before.clone();
        after[..written.len()].copy_from_slice(written);
        let same = own.outcome.packed == packed && own.after == after;
        (!same).then(|| format!("expected {packed:x}, and written {written:x?}"))
    }
}
