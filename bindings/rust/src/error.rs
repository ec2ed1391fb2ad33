use crate::fault::Fault;
use crate::module_info::Position;
use crate::report::FaultReport;
use crate::report_line::{read_report, Line};
use std::fmt;
use std::ops::Range;

/// Why a call has no answer: the fault, and the report on the document.
///
/// Prints as one line that names the fault, its position and what is expected there:
///
/// ```text
/// Syntax at /source at line 1, column 8 (offset 7): expected a quote at the end of the string
/// RangeOutside at /program/range (bytes 0 to 27): expected an end of at most 16, the source's length
/// ```
#[derive(Clone, Debug, PartialEq, Eq)]
pub struct Error {
    fault: Fault,
    /// The report, if there is one: in a vector, since the allocation of a box can't fail.
    report: Vec<Kept>,
}

/// A report as its JSON and as what was read of that.
#[derive(Clone, Debug, PartialEq, Eq)]
struct Kept {
    json: String,
    read: FaultReport,
}

impl Error {
    /// The report is left out if an allocation fails.
    pub(crate) fn new(fault: Fault, report: Option<String>) -> Error {
        let mut kept = Vec::new();
        if let Some(json) = report.filter(|_| kept.try_reserve_exact(1).is_ok()) {
            let read = read_report(fault.clone(), &json);
            kept.extend(read.map(|read| Kept { json, read }));
        }
        Error {
            fault,
            report: kept,
        }
    }

    /// The fault.
    #[must_use]
    pub fn fault(&self) -> &Fault {
        &self.fault
    }

    /// The name of the fault, as the program `modinfo` prints it.
    #[must_use]
    pub fn name(&self) -> &str {
        self.fault.name()
    }

    /// The report on the document or the text. `None` where an allocation failed.
    #[must_use]
    pub fn report(&self) -> Option<&FaultReport> {
        self.report.first().map(|kept| &kept.read)
    }

    /// The JSON of the report, as [`check_json`](crate::check_json) returns it.
    #[must_use]
    pub fn report_json(&self) -> Option<&str> {
        self.report.first().map(|kept| kept.json.as_str())
    }

    /// The JSON Pointer (RFC 6901) of the value with the fault: `/source` for a syntax error. `None` for a document
    /// that isn't JSON or UTF-8.
    #[must_use]
    pub fn pointer(&self) -> Option<&str> {
        self.report()?.pointer.as_deref()
    }

    /// The range in the source that has the fault, in bytes, where a document has one.
    #[must_use]
    pub fn range(&self) -> Option<Range<usize>> {
        let range = self.report()?.range?;
        Some(range.start..range.end)
    }

    /// The offset of the fault in bytes: in the source text for a syntax error, in the document where that isn't JSON
    /// or UTF-8, else where the range begins.
    #[must_use]
    pub fn offset(&self) -> Option<usize> {
        let report = self.report()?;
        let start = report.range.map(|range| range.start);
        report.at.as_ref().map(|place| place.offset).or(start)
    }

    /// The line and the character of the fault, both from zero: in the source text for a syntax error, in the document
    /// where that isn't JSON or UTF-8. `None` for any other fault.
    #[must_use]
    pub fn position(&self) -> Option<Position> {
        let place = self.report()?.at.as_ref()?;
        Some(Position::new(place.line, place.column))
    }

    /// What was expected there, in words that later versions may change.
    #[must_use]
    pub fn expected(&self) -> Option<&str> {
        Some(&self.report()?.expected)
    }
}

impl fmt::Display for Error {
    fn fmt(&self, formatter: &mut fmt::Formatter<'_>) -> fmt::Result {
        match self.report_json() {
            Some(report) => Line(report).fmt(formatter),
            None => self.fault.fmt(formatter),
        }
    }
}

impl std::error::Error for Error {}

/// Without a report.
impl From<Fault> for Error {
    fn from(fault: Fault) -> Error {
        Error::new(fault, None)
    }
}

impl From<Error> for Fault {
    fn from(error: Error) -> Fault {
        error.fault
    }
}
