//! Whether the quotes of a saved file are those of RFC 4180. A lenient reader would take a cut file, or text behind a closing quote, for a field.

/// Where the scan stands.
#[derive(Clone, Copy, PartialEq)]
enum State {
    Begin,
    Plain,
    Quoted,
    /// Behind a quote in a quoted field: its end, or the first of two.
    Quote,
}

/// A wrong quote: the line and the column, counted from 1 and from 0, and what is wrong.
pub fn fault(saved: &[u8]) -> Option<(usize, usize, &'static str)> {
    let (mut state, mut line, mut column) = (State::Begin, 1, 0);
    for (at, byte) in saved.iter().enumerate() {
        let ends_line = *byte == b'\n' || (*byte == b'\r' && saved.get(at + 1) != Some(&b'\n'));
        state = match (state, byte) {
            (State::Quoted, b'"') => State::Quote,
            (State::Quoted, _) | (State::Quote, b'"') => State::Quoted,
            (_, b',') => State::Begin,
            (_, b'\r' | b'\n') => State::Begin,
            (State::Begin, b'"') => State::Quoted,
            (State::Plain, b'"') => return Some((line, column, "a quote stands inside a field that is not in quotes")),
            (State::Quote, _) => return Some((line, column, "something stands between a closing quote and the comma")),
            _ => State::Plain,
        };
        if ends_line {
            line += 1;
        }
        if state == State::Begin {
            column = if *byte == b',' { column + 1 } else { 0 };
        }
    }
    (state == State::Quoted).then_some((line, column, "the closing quote is missing, the file may be cut"))
}

#[cfg(test)]
mod tests {
    use super::fault;

    #[test]
    fn quotes_are_in_their_places() {
        for good in ["", "a,b\r\n", "\"a\",b\n", "\"a\"\"b\",\"\"\r\n", ",\"\n\"\n", "\"a\"", "\"\"\"\"", "a\r\"b\""] {
            assert_eq!(fault(good.as_bytes()), None, "{good:?}");
        }
    }

    #[test]
    fn wrong_quotes_have_their_place() {
        let places = [
            ("a\"", 1, 0),
            ("a,b\r\nc,d \"e\"\r\n", 2, 1),
            ("\"a\"b,c", 1, 0),
            ("a,\"b", 1, 1),
            ("a\n\n,,\"b\"\"", 3, 2),
            ("a\r,\" \" ", 2, 1),
        ];
        for (text, line, column) in places {
            let (l, c, _) = fault(text.as_bytes()).unwrap();
            assert_eq!((l, c), (line, column), "{text:?}");
        }
    }
}
