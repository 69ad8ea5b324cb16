//! The text of a file: UTF-8, or UTF-16 in either order of bytes, which ETS and some shells write. What is neither is refused,
//! by its name or by the place of the first byte that is no text.

/// The text, without the mark that some editors put in front; or what is wrong, with its place.
pub fn text(bytes: Vec<u8>) -> Result<String, String> {
    let text = match bytes[..] {
        [0xFF, 0xFE, 0, 0, ..] | [0, 0, 0xFE, 0xFF, ..] => {
            return Err("line 1, column 1: UTF-32, which is not read".to_string())
        }
        [0xFF, 0xFE, ..] => wide(&bytes, u16::from_le_bytes)?,
        [0xFE, 0xFF, ..] => wide(&bytes, u16::from_be_bytes)?,
        // without a mark: a text begins with a character below 256, which has a byte of zero
        [1..=255, 0, 1..=255, 0, ..] => wide(&bytes, u16::from_le_bytes)?,
        [0, 1..=255, 0, 1..=255, ..] => wide(&bytes, u16::from_be_bytes)?,
        _ => String::from_utf8(bytes).map_err(|why| {
            let upto = &why.as_bytes()[..why.utf8_error().valid_up_to()];
            placed(&String::from_utf8_lossy(upto), "a byte that is no text")
        })?,
    };
    Ok(text.strip_prefix('\u{feff}').map(str::to_string).unwrap_or(text))
}

fn wide(bytes: &[u8], word: fn([u8; 2]) -> u16) -> Result<String, String> {
    let words = bytes.chunks_exact(2).map(|pair| word([pair[0], pair[1]]));
    let mut text = String::with_capacity(bytes.len() / 2);
    for c in char::decode_utf16(words) {
        match c {
            Ok(c) => text.push(c),
            Err(_) => return Err(placed(&text, "half a character of UTF-16")),
        }
    }
    if bytes.len() % 2 == 1 {
        return Err(placed(&text, "half a character of UTF-16"));
    }
    Ok(text)
}

/// What is wrong behind so much text.
fn placed(upto: &str, what: &str) -> String {
    let upto = upto.strip_prefix('\u{feff}').unwrap_or(upto);
    let line = 1 + upto.matches('\n').count();
    let column = 1 + upto.rsplit('\n').next().unwrap_or("").chars().count();
    format!("line {line}, column {column}: {what}")
}

#[cfg(test)]
mod tests {
    use super::text;

    const TEXT: &str = "<a>\nü 𝄞</a>\n";

    fn wide(text: &str, mark: bool, word: fn(u16) -> [u8; 2]) -> Vec<u8> {
        let mark = if mark { "\u{feff}" } else { "" };
        format!("{mark}{text}").encode_utf16().flat_map(word).collect()
    }

    #[test]
    fn read() {
        let both = [u16::to_le_bytes, u16::to_be_bytes];
        assert_eq!(text(TEXT.into()).unwrap(), TEXT);
        assert_eq!(text(format!("\u{feff}{TEXT}").into()).unwrap(), TEXT);
        for word in both {
            assert_eq!(text(wide(TEXT, true, word)).unwrap(), TEXT);
            assert_eq!(text(wide(TEXT, false, word)).unwrap(), TEXT);
        }
        assert_eq!(text(Vec::new()).unwrap(), "");
    }

    #[test]
    fn refused() {
        let what = |bytes: &[u8]| text(bytes.to_vec()).unwrap_err();
        assert_eq!(what(b"a\n\xC3\xBC\xFF"), "line 2, column 2: a byte that is no text");
        let mut half = wide(TEXT, true, u16::to_le_bytes);
        half.pop();
        assert_eq!(what(&half), "line 2, column 8: half a character of UTF-16");
        let alone = [0xFF, 0xFE, b'a', 0, 0x34, 0xD8, b'b', 0];
        assert_eq!(what(&alone), "line 1, column 2: half a character of UTF-16");
        let wider = [0xFF, 0xFE, 0, 0, b'a', 0, 0, 0];
        assert_eq!(what(&wider), "line 1, column 1: UTF-32, which is not read");
    }
}
