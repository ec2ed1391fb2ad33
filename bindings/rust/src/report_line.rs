//! From the JSON of a report with a fault to one line for a person, and to its parts.

use crate::document::ByteRange;
use crate::fault::Fault;
use crate::report::{FaultReport, TextPlace};
use std::fmt::{self, Write};
use std::str::Chars;

/// A report with a fault. Prints as `NAME at PLACE: expected WHAT`. Strings are printed as the report's JSON has
/// them, with their escapes.
pub struct Line<'r>(pub &'r str);

impl fmt::Display for Line<'_> {
    fn fmt(&self, formatter: &mut fmt::Formatter<'_>) -> fmt::Result {
        formatter.write_str(string(self.0, "fault").unwrap_or("Unknown"))?;
        match string(self.0, "pointer") {
            Some("") => formatter.write_str(" in the whole document")?,
            Some(pointer) => write_place(formatter, " at ", pointer)?,
            None => {}
        }
        if let Some(other) = string(self.0, "other") {
            write_place(formatter, " and ", other)?;
        }
        if let Some((start, end)) = range(self.0) {
            write!(formatter, " (bytes {start} to {end})")?;
        }
        if let Some(at) = member(self.0, "at") {
            write_text_place(formatter, at)?;
        }
        let expected = string(self.0, "expected").unwrap_or("something else");
        // Where a syntax error has a message of another form, that follows.
        match expected.strip_prefix("valid syntax: ") {
            Some(message) => write_place(formatter, ": ", message),
            None => write_place(formatter, ": expected ", expected),
        }
    }
}

/// Lines and columns as editors count them, from one. The report counts from zero.
fn write_text_place(formatter: &mut fmt::Formatter<'_>, at: &str) -> fmt::Result {
    let number = |name| member(at, name).and_then(|digits| digits.parse::<u64>().ok());
    if let (Some(line), Some(column), Some(offset)) =
        (number("line"), number("column"), number("offset"))
    {
        write!(
            formatter,
            " at line {}, column {} (offset {offset})",
            line + 1,
            column + 1
        )?;
    }
    Ok(())
}

/// JSON needs no escapes for control characters above U+001F. A terminal does.
fn write_place(formatter: &mut fmt::Formatter<'_>, before: &str, text: &str) -> fmt::Result {
    formatter.write_str(before)?;
    for character in text.chars() {
        if character.is_control() {
            write!(formatter, "{}", character.escape_unicode())?;
        } else {
            formatter.write_char(character)?;
        }
    }
    Ok(())
}

/// The parts of a report with this fault. `None` if an allocation fails: serde's would end the process.
pub fn read_report(fault: Fault, json: &str) -> Option<FaultReport> {
    let text = |name| match string(json, name) {
        Some(escaped) => unescaped(escaped).map(Some),
        None => Some(None),
    };
    Some(FaultReport {
        fault,
        pointer: text("pointer")?,
        other: text("other")?,
        range: range(json).and_then(|(start, end)| {
            Some(ByteRange {
                start: start.parse().ok()?,
                end: end.parse().ok()?,
            })
        }),
        at: member(json, "at").and_then(|at| {
            let number = |name| member(at, name)?.parse().ok();
            Some(TextPlace {
                line: number("line")?,
                column: number("column")?,
                offset: number("offset")?,
            })
        }),
        expected: text("expected")??,
    })
}

/// The text of a JSON string without its quotes. `None` if an allocation fails, or the text is no string of JSON.
fn unescaped(escaped: &str) -> Option<String> {
    let mut text = String::new();
    text.try_reserve_exact(escaped.len()).ok()?;
    let mut rest = escaped.chars();
    while let Some(character) = rest.next() {
        text.push(match character {
            '\\' => escaped_character(&mut rest)?,
            _ => character,
        });
    }
    Some(text)
}

/// The character of an escape, after its backslash.
fn escaped_character(rest: &mut Chars<'_>) -> Option<char> {
    Some(match rest.next()? {
        'b' => '\u{8}',
        'f' => '\u{c}',
        'n' => '\n',
        'r' => '\r',
        't' => '\t',
        'u' => {
            let first = unit(rest)?;
            let is_pair =
                matches!(first, 0xd800..=0xdbff) && rest.next()? == '\\' && rest.next()? == 'u';
            let second = if is_pair { Some(unit(rest)?) } else { None };
            char::decode_utf16([first].into_iter().chain(second))
                .next()?
                .ok()?
        }
        other => other,
    })
}

/// The UTF-16 unit of four hexadecimal digits.
fn unit(rest: &mut Chars<'_>) -> Option<u16> {
    let digits = rest.as_str().get(..4)?;
    *rest = rest.as_str()[4..].chars();
    u16::from_str_radix(digits, 16).ok()
}

fn range(object: &str) -> Option<(&str, &str)> {
    member(object, "range")?
        .strip_prefix('[')?
        .strip_suffix(']')?
        .split_once(',')
}

/// What is between the quotes of a member that is a string.
fn string<'r>(object: &'r str, name: &str) -> Option<&'r str> {
    member(object, name)?.strip_prefix('"')?.strip_suffix('"')
}

/// The JSON of a member's value. The object has no white space between its parts, as the library writes it.
fn member<'r>(object: &'r str, name: &str) -> Option<&'r str> {
    let mut rest = object.strip_prefix('{')?;
    loop {
        let (key, value) = rest.split_at(value_length(rest));
        let value = value.strip_prefix(':')?;
        let (value, after) = value.split_at(value_length(value));
        if key.strip_prefix('"').and_then(|key| key.strip_suffix('"')) == Some(name) {
            return Some(value);
        }
        rest = after.strip_prefix(',')?;
    }
}

/// The length of the JSON value at the front: up to the first `,`, `:`, `]` or `}` that is neither in a string nor
/// in brackets.
fn value_length(json: &str) -> usize {
    let (mut depth, mut in_string, mut is_escaped) = (0, false, false);
    for (at, byte) in json.bytes().enumerate() {
        match byte {
            _ if is_escaped => is_escaped = false,
            b'\\' => is_escaped = true,
            b'"' => in_string = !in_string,
            _ if in_string => {}
            b'[' | b'{' => depth += 1,
            b',' | b':' | b']' | b'}' if depth == 0 => return at,
            b']' | b'}' => depth -= 1,
            _ => {}
        }
    }
    json.len()
}

#[cfg(test)]
mod tests {
    use super::{member, read_report, Line};
    use crate::fault::Fault;
    use crate::report::FaultReport;

    fn line(report: &str) -> String {
        Line(report).to_string()
    }

    #[test]
    fn a_place_in_the_document() {
        let report = r#"{"fault":"RangeOutside","pointer":"/program/range","range":[0,27],"expected":"an end"}"#;
        assert_eq!(
            line(report),
            "RangeOutside at /program/range (bytes 0 to 27): expected an end"
        );
        assert_eq!(
            line(
                r#"{"fault":"CommentsOverlap","pointer":"/b","other":"/a","range":[0,2],"expected":"c"}"#
            ),
            "CommentsOverlap at /b and /a (bytes 0 to 2): expected c"
        );
        assert_eq!(
            line(r#"{"fault":"Tree","pointer":"","expected":"an object"}"#),
            "Tree in the whole document: expected an object"
        );
    }

    #[test]
    fn a_place_in_the_text() {
        assert_eq!(
            line(r#"{"fault":"Json","at":{"line":2,"column":6,"offset":24},"expected":"a value"}"#),
            "Json at line 3, column 7 (offset 24): expected a value"
        );
    }

    #[test]
    fn a_syntax_error() {
        assert_eq!(
            line(
                r#"{"fault":"Syntax","pointer":"/source","at":{"line":0,"column":8,"offset":8},"expected":"an expression"}"#
            ),
            "Syntax at /source at line 1, column 9 (offset 8): expected an expression"
        );
        assert_eq!(
            line(r#"{"fault":"Syntax","pointer":"/source","expected":"valid syntax: it nests too deep"}"#),
            "Syntax at /source: it nests too deep"
        );
    }

    #[test]
    fn strings_keep_their_escapes() {
        assert_eq!(
            line("{\"fault\":\"Tree\",\"pointer\":\"/a\\\"},b\\u001b\\\\\u{9b}\",\"expected\":\"c\"}"),
            "Tree at /a\\\"},b\\u001b\\\\\\u{9b}: expected c"
        );
    }

    /// As serde reads it.
    #[test]
    fn the_parts_of_a_report() {
        for json in [
            r#"{"fault":"RangeOutside","pointer":"/program/range","range":[0,27],"expected":"an end"}"#,
            r#"{"fault":"Json","at":{"line":2,"column":6,"offset":24},"expected":"a value"}"#,
            r#"{"fault":"CommentsOverlap","pointer":"/b","other":"/a\u00e9\ud83d\ude00","range":[0,2],"expected":"c"}"#,
            r#"{"fault":"Tree","pointer":"/\"\\\/\b\f\n\r\té","expected":""}"#,
        ] {
            let wanted: FaultReport = serde_json::from_str(json).expect(json);
            assert_eq!(read_report(wanted.fault.clone(), json), Some(wanted));
        }
        for escaped in ["\\ud83d", "\\udc00", "\\u00e", "\\ud83dx", "\\"] {
            let json =
                format!("{{\"fault\":\"Tree\",\"pointer\":\"{escaped}\",\"expected\":\"\"}}");
            assert_eq!(read_report(Fault::Tree, &json), None, "{json}");
        }
    }

    #[test]
    fn members_of_another_version_are_passed_over() {
        let report = r#"{"new":{"fault":["x",{"y":1}]},"fault":"Tree","pointer":"/a","more":[1,[2]],"expected":"b"}"#;
        assert_eq!(line(report), "Tree at /a: expected b");
        assert_eq!(member(report, "absent"), None);
        assert_eq!(member("", "fault"), None);
    }
}
