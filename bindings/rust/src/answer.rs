//! From a call of the library to its answer as a text, or as a value.

use crate::error::Error;
use crate::fault::Fault;
use crate::ffi::{self, Call, Written};
use serde::de::DeserializeOwned;
use serde::Serialize;

/// The answer of a call. With an error, the report that another call returns.
pub fn answer_or_report(call: Call<'_>, check: Call<'_>) -> Result<String, Error> {
    answer(call).map_err(|fault| {
        let report = match fault {
            Fault::OutOfMemory => None,
            _ => answer(check).ok(),
        };
        Error::new(fault, report)
    })
}

/// The answer of a call, without its line feed.
pub fn answer(call: Call<'_>) -> Result<String, Fault> {
    match ffi::run(call) {
        Ok(Written::Answer(line)) => Ok(without_spare_room(text(line))),
        Ok(Written::FaultName(name)) => Err(Fault::from_name(text(name))),
        Err(_) => Err(Fault::OutOfMemory),
    }
}

/// The lines that a call writes.
pub fn lines(call: Call<'_>) -> Result<String, Fault> {
    match ffi::run(call) {
        Ok(Written::Answer(lines)) => Ok(text(lines)),
        Ok(Written::FaultName(_)) | Err(_) => Err(Fault::OutOfMemory),
    }
}

/// The value of an answer. Only a later library writes one that can't be read.
pub fn value<T: DeserializeOwned>(json: &str) -> Result<T, Fault> {
    serde_json::from_str(json).map_err(|error| Fault::Unknown(error.to_string()))
}

/// The JSON of a value.
pub fn json<T: Serialize>(value: &T) -> Result<Vec<u8>, Error> {
    serde_json::to_vec(value).map_err(|error| Fault::Unknown(error.to_string()).into())
}

/// Removes the line feed. The room was as long as the document, so the text is copied where there is memory for it.
fn without_spare_room(mut line: String) -> String {
    line.truncate(line.trim_end_matches('\n').len());
    let mut copy = String::new();
    if copy.try_reserve_exact(line.len()).is_err() {
        return line;
    }
    copy.push_str(&line);
    copy
}

fn text(written: Vec<u8>) -> String {
    String::from_utf8(written).expect("the library writes UTF-8")
}
