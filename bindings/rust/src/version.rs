use std::fmt;

/// The version of the library that is linked.
#[derive(Clone, Copy, Debug, PartialEq, Eq, PartialOrd, Ord, Hash)]
#[non_exhaustive]
pub struct Version {
    /// Changes where a caller has to change too.
    pub major: u32,
    /// While `major` is 0 this does so.
    pub minor: u32,
    /// Changes with each release that mends something.
    pub patch: u32,
}

impl Version {
    /// From major * 10000 + minor * 100 + patch.
    pub(crate) fn from_number(number: u32) -> Version {
        Version {
            major: number / 10_000,
            minor: number / 100 % 100,
            patch: number % 100,
        }
    }
}

impl fmt::Display for Version {
    fn fmt(&self, formatter: &mut fmt::Formatter<'_>) -> fmt::Result {
        write!(formatter, "{}.{}.{}", self.major, self.minor, self.patch)
    }
}
