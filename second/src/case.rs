//! One case is one call with all it is given.

use std::borrow::Cow;

use crate::answer::MOST;
use crate::call::Call;
use crate::expect::Expect;

/// A read-only buffer: some bytes, then zeros up to a length.
#[derive(Clone, Default)]
pub struct Input {
    pub bytes: Vec<u8>,
    pub length: u64,
}

impl Input {
    pub fn of(bytes: Vec<u8>) -> Input {
        let length = bytes.len() as u64;
        Input { bytes, length }
    }

    pub fn longer(bytes: Vec<u8>, length: u64) -> Input {
        assert!(length >= bytes.len() as u64);
        Input { bytes, length }
    }

    /// The whole buffer. Over the limit every rule but the first is never
    /// asked, so one byte over it stands for all greater lengths: of files, of
    /// images, and of patterns too, which are refused long before. Of names there
    /// is no limit, and no case has one over this.
    pub fn whole(&self) -> Cow<'_, [u8]> {
        if self.length == self.bytes.len() as u64 {
            return Cow::Borrowed(&self.bytes);
        }
        let sent = self.bytes.len();
        let mut all = vec![0; (self.length.min(MOST + 1) as usize).max(sent)];
        all[..sent].copy_from_slice(&self.bytes);
        Cow::Owned(all)
    }
}

#[derive(Clone)]
pub struct Case {
    pub call: Call,
    pub file: Input,
    pub image: Input,
    /// The patterns, in one row.
    pub row: Input,
    /// The byte order of the image; calls that take none are not told it.
    pub order: u32,
    /// The base of a load, or the number or place of the block asked for.
    pub number: u64,
    /// Length of the lent buffer and what it holds before.
    pub lent: u64,
    pub fill: u32,
    /// Which buffers lie behind a guard page instead of before one (bits 0 to
    /// 2, and 4 for the patterns), and whether empty buffers are null pointers
    /// (bit 3).
    pub place: u8,
    pub what: String,
    pub expect: Option<Expect>,
}

impl Case {
    pub fn new(call: Call, what: &str) -> Case {
        Case {
            call,
            file: Input::default(),
            image: Input::default(),
            row: Input::default(),
            order: 0,
            number: 0,
            lent: 0,
            fill: 0,
            place: 0,
            what: what.to_string(),
            expect: None,
        }
    }

    pub fn file(mut self, bytes: &[u8]) -> Case {
        self.file = Input::of(bytes.to_vec());
        self
    }

    pub fn image(mut self, bytes: &[u8]) -> Case {
        self.image = Input::of(bytes.to_vec());
        self
    }

    pub fn row(mut self, bytes: &[u8]) -> Case {
        self.row = Input::of(bytes.to_vec());
        self
    }

    pub fn row_input(mut self, input: Input) -> Case {
        self.row = input;
        self
    }

    pub fn file_input(mut self, input: Input) -> Case {
        self.file = input;
        self
    }

    pub fn image_input(mut self, input: Input) -> Case {
        self.image = input;
        self
    }

    pub fn order(mut self, order: u32) -> Case {
        self.order = order;
        self
    }

    pub fn lent(mut self, length: u64) -> Case {
        self.lent = length;
        self
    }

    pub fn filled(mut self, fill: u32) -> Case {
        self.fill = fill;
        self
    }

    /// The base, or the block's number or place.
    pub fn number(mut self, number: u64) -> Case {
        self.number = number;
        self
    }

    pub fn expect(mut self, code: u8) -> Case {
        self.expect = Some(Expect::of(code, None));
        self
    }

    pub fn expect_at(mut self, code: u8, index: u64) -> Case {
        self.expect = Some(Expect::of(code, Some(index)));
        self
    }

    pub fn expect_whole(mut self, packed: u64, written: &'static [u8]) -> Case {
        self.expect = Some(Expect::whole(packed, written));
        self
    }

    pub fn is_big(&self) -> bool {
        self.file.length + self.image.length + self.row.length + self.lent > 200_000
    }
}
