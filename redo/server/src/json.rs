//! Strings of JSON.

/// Returns bytes as a string in ASCII, as Python's `json` writes what `os.fsdecode` returns: a byte
/// that isn't of UTF-8 is a lone surrogate, from `\udc80` on.
pub fn string(bytes: &[u8]) -> String {
    let mut text = String::from("\"");
    let mut rest = bytes;
    while !rest.is_empty() {
        let length = match std::str::from_utf8(rest) {
            Ok(valid) => valid.len(),
            Err(error) => error.valid_up_to(),
        };
        let (valid, others) = rest.split_at(length);
        String::from_utf8_lossy(valid)
            .chars()
            .for_each(|one| push(one, &mut text));
        if let Some(byte) = others.first() {
            text.push_str(&format!("\\udc{byte:02x}"));
        }
        rest = others.get(1..).unwrap_or_default();
    }
    text.push('"');
    text
}

fn push(one: char, text: &mut String) {
    match one {
        '"' => text.push_str("\\\""),
        '\\' => text.push_str("\\\\"),
        '\n' => text.push_str("\\n"),
        '\r' => text.push_str("\\r"),
        '\t' => text.push_str("\\t"),
        '\u{8}' => text.push_str("\\b"),
        '\u{c}' => text.push_str("\\f"),
        ' '..='~' => text.push(one),
        _ => {
            let mut room = [0; 2];
            for unit in one.encode_utf16(&mut room) {
                text.push_str(&format!("\\u{unit:04x}"));
            }
        }
    }
}

#[cfg(test)]
mod tests {
    use super::*;

    /// What `python3 -c 'import json, os; print(json.dumps(os.fsdecode(..)))'` prints.
    #[test]
    fn strings_are_those_of_python() {
        for (bytes, wanted) in [
            (&b"a b"[..], r#""a b""#),
            (b"\"\\\n\x01\x7f", r#""\"\\\n\u0001\u007f""#),
            ("é😀".as_bytes(), r#""\u00e9\ud83d\ude00""#),
            (b"\xff.c", r#""\udcff.c""#),
        ] {
            assert_eq!(string(bytes), wanted);
        }
    }
}
