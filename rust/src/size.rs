//! The sets of limits that a call can pick.

/// A set of limits. Labels, starts and types are limited as rules are, and type numbers run below that limit.
#[derive(Clone, Copy, Debug, PartialEq, Eq, Hash)]
#[repr(u32)]
pub enum Size {
    /// 16 rules, 256 nodes, 16 levels; 12,288 working words.
    Small = 0,
    /// 64 rules, 1,024 nodes, 64 levels; 16,384 working words.
    Standard = 1,
    /// 128 rules, 2,048 nodes, 64 levels; 32,768 working words.
    Large = 2,
}

impl Size {
    /// Words that a call of this size needs.
    pub const fn words(self) -> usize {
        match self {
            Size::Small => 12_288,
            Size::Standard => 16_384,
            Size::Large => 32_768,
        }
    }

    /// Bytes that the [`pages`](crate::pages) of a table take at most at this size: 19, 39 or 42 pages. Some tables take as many, and an
    /// output of this many bytes is never too short for pages.
    pub const fn pages_bytes(self) -> usize {
        match self {
            Size::Small => 83_220,
            Size::Standard => 170_820,
            Size::Large => 183_960,
        }
    }

    /// The number by which the archive knows it.
    pub(crate) const fn number(self) -> u32 {
        self as u32
    }
}
