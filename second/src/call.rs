//! The calls by name, by their number on the pipe, and by what they ask.

#[derive(Clone, Copy, Debug, PartialEq, Eq, PartialOrd, Ord)]
pub enum Call {
    Convert,
    List,
    Read,
    Block,
    LoadImage,
    LoadCoff,
    Check,
    Measure,
    /// Both calls for what begins at a place.
    BlockAt,
    /// Those calls from block to block: what they answer goes into the lent buffer.
    Walk,
    Version,
    /// The calls with patterns.
    MeasureWith,
    ConvertWith,
    LoadCoffWith,
    CheckWith,
    /// Whether a pattern takes a name, which stands in the place of the file.
    Takes,
    /// The calls that read an image in a byte order.
    ReadWith,
    BlockWith,
    LoadImageWith,
    BlockAtWith,
    WalkWith,
}

pub const CALLS: [Call; 21] = [
    Call::Convert,
    Call::List,
    Call::Read,
    Call::Block,
    Call::LoadImage,
    Call::LoadCoff,
    Call::Check,
    Call::Measure,
    Call::BlockAt,
    Call::Walk,
    Call::Version,
    Call::MeasureWith,
    Call::ConvertWith,
    Call::LoadCoffWith,
    Call::CheckWith,
    Call::Takes,
    Call::ReadWith,
    Call::BlockWith,
    Call::LoadImageWith,
    Call::BlockAtWith,
    Call::WalkWith,
];

/// Those with patterns.
pub const CALLS_WITH: [Call; 4] = [Call::MeasureWith, Call::ConvertWith, Call::LoadCoffWith, Call::CheckWith];

/// Those with a byte order.
pub const CALLS_IN_ORDER: [Call; 7] = [
    Call::ConvertWith,
    Call::CheckWith,
    Call::ReadWith,
    Call::BlockWith,
    Call::LoadImageWith,
    Call::BlockAtWith,
    Call::WalkWith,
];

impl Call {
    /// The word for `--only` and for the tables.
    pub fn name(self) -> &'static str {
        match self {
            Call::Convert => "convert",
            Call::List => "list",
            Call::Read => "read",
            Call::Block => "block",
            Call::LoadImage => "load-image",
            Call::LoadCoff => "load-coff",
            Call::Check => "check",
            Call::Measure => "measure",
            Call::BlockAt => "block-at",
            Call::Walk => "walk",
            Call::Version => "version",
            Call::MeasureWith => "measure-with",
            Call::ConvertWith => "convert-with",
            Call::LoadCoffWith => "load-coff-with",
            Call::CheckWith => "check-with",
            Call::Takes => "takes",
            Call::ReadWith => "read-with",
            Call::BlockWith => "block-with",
            Call::LoadImageWith => "load-image-with",
            Call::BlockAtWith => "block-at-with",
            Call::WalkWith => "walk-with",
        }
    }

    /// The number in a request to the driver.
    pub fn number(self) -> u64 {
        self as u64 + 1
    }

    /// It takes patterns: rule 17, and 16 of a file.
    pub fn has_patterns(self) -> bool {
        CALLS_WITH.contains(&self)
    }

    /// It takes a byte order: rule 33.
    pub fn has_order(self) -> bool {
        CALLS_IN_ORDER.contains(&self)
    }

    /// Its request to the driver has patterns, or one, and a byte order.
    pub fn has_options(self) -> bool {
        self.has_patterns() || self.has_order() || self == Call::Takes
    }

    /// The call that does the same with a byte order, if there is one; it may be this one.
    pub fn in_order(self) -> Option<Call> {
        CALLS_IN_ORDER.into_iter().find(|call| call.plain() == self.plain())
    }

    /// It reads an image, or looks at a place of it.
    pub fn reads_image(self) -> bool {
        self.asks_image() || matches!(self.plain(), Call::BlockAt | Call::Walk)
    }

    /// The call that does the same without patterns and order.
    pub fn plain(self) -> Call {
        match self {
            Call::MeasureWith => Call::Measure,
            Call::ConvertWith => Call::Convert,
            Call::LoadCoffWith => Call::LoadCoff,
            Call::CheckWith => Call::Check,
            Call::ReadWith => Call::Read,
            Call::BlockWith => Call::Block,
            Call::LoadImageWith => Call::LoadImage,
            Call::BlockAtWith => Call::BlockAt,
            Call::WalkWith => Call::Walk,
            _ => self,
        }
    }

    /// It asks rules 1 to 13 of a file.
    pub fn asks_file(self) -> bool {
        matches!(self.plain(), Call::Convert | Call::List | Call::LoadCoff | Call::Check | Call::Measure)
    }

    /// It asks rules 20 to 27 of an image.
    pub fn asks_image(self) -> bool {
        matches!(self.plain(), Call::Read | Call::Block | Call::LoadImage | Call::Check)
    }
}
