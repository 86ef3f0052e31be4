//! Names that aren't UTF-8, as the library is told them.
//!
//! The library's texts are UTF-8. A byte `b` of a name that isn't is told as the private character
//! U+F700 + b, so U+F780 to U+F7FF; and where a name has such a character itself, each of its bytes
//! is. So no two names are told as one.

use std::borrow::Cow;
use std::ffi::OsString;
use std::os::unix::ffi::{OsStrExt, OsStringExt};
use std::path::{Path, PathBuf};
use std::str::from_utf8;

const FIRST: u32 = 0xF700;

fn is_private(c: char) -> bool {
    ('\u{F780}'..='\u{F7FF}').contains(&c)
}

fn private(byte: u8) -> char {
    char::from_u32(FIRST + u32::from(byte)).unwrap_or(char::REPLACEMENT_CHARACTER)
}

/// The text by which the library knows a path of the disk.
pub fn told(path: &Path) -> Cow<'_, [u8]> {
    let bytes = path.as_os_str().as_bytes();
    let is_plain =
        bytes.is_ascii() || from_utf8(bytes).is_ok_and(|text| !text.contains(is_private));
    if is_plain {
        return Cow::Borrowed(bytes);
    }
    let (mut text, mut rest) = (String::new(), bytes);
    while !rest.is_empty() {
        let valid = match from_utf8(rest) {
            Ok(valid) => valid,
            Err(error) => from_utf8(&rest[..error.valid_up_to()]).unwrap_or(""),
        };
        for c in valid.chars() {
            if is_private(c) {
                text.extend(c.encode_utf8(&mut [0; 4]).bytes().map(private));
            } else {
                text.push(c);
            }
        }
        rest = &rest[valid.len()..];
        if let Some((&byte, after)) = rest.split_first() {
            text.push(private(byte));
            rest = after;
        }
    }
    Cow::Owned(text.into_bytes())
}

/// The path of the disk that the library knows by a text.
pub fn of_disk(text: &[u8]) -> PathBuf {
    let mut bytes = Vec::with_capacity(text.len());
    for c in String::from_utf8_lossy(text).chars() {
        if is_private(c) {
            bytes.push((u32::from(c) - FIRST) as u8);
        } else {
            bytes.extend_from_slice(c.encode_utf8(&mut [0; 4]).as_bytes());
        }
    }
    PathBuf::from(OsString::from_vec(bytes))
}

#[cfg(test)]
mod tests {
    use super::{of_disk, told};
    use std::collections::HashSet;
    use std::ffi::OsStr;
    use std::os::unix::ffi::OsStrExt;
    use std::path::Path;

    #[test]
    fn names_are_told_one_to_one() {
        let names: [&[u8]; 11] = [
            b"a",
            b"\xff",
            "\u{f7ff}".as_bytes(),
            b"\xef\x9f",
            b"\xef\x9f\xbf\xbf",
            b"\xc3\xc3\xa9",
            "\u{f77f}\u{f800}\u{e9}".as_bytes(),
            b"\xed\xa0\x80/\xef\x9e\x80\x80",
            b"\xf0\x9f\x98a\xf0\x9f\x98\x80",
            b"\xfe\xff/\xc0\x80",
            b"",
        ];
        let mut texts = HashSet::new();
        for name in names {
            let text = told(Path::new(OsStr::from_bytes(name))).into_owned();
            assert_eq!(of_disk(&text).as_os_str().as_bytes(), name);
            assert!(texts.insert(String::from_utf8(text).expect("UTF-8")));
        }
        assert!(texts.contains("\u{f7ff}") && texts.contains("\u{f7ef}\u{f79f}\u{f7bf}"));
        assert!(texts.contains("\u{f7c3}\u{e9}") && texts.contains("\u{f77f}\u{f800}\u{e9}"));
    }
}
