//! The Redis protocol, version 2: requests are read from bytes as they come, and replies are written.

use thiserror::Error;

/// The most bytes of a request's words together.
pub const MOST_REQUEST: usize = 1 << 20;
/// The most bytes of a line.
const MOST_LINE: usize = 64 << 10;
/// The most words of a request.
const MOST_WORDS: i64 = 65_536;

/// Why bytes are no request. The connection is closed after it is told.
#[derive(Clone, Debug, PartialEq, Eq, Error)]
#[error("Protocol error: {0}")]
pub struct ProtocolError(String);

fn error<T>(text: &str) -> Result<T, ProtocolError> {
    Err(ProtocolError(text.into()))
}

/// A request that isn't whole.
#[derive(Debug)]
struct Begun {
    words: Vec<Vec<u8>>,
    /// How many words are still to come.
    left: usize,
    /// How many bytes the next word has, if its head was read.
    length: Option<usize>,
    bytes: usize,
}

/// Reads requests from bytes as they come.
#[derive(Debug, Default)]
pub struct Decoder {
    bytes: Vec<u8>,
    /// Where what isn't read begins.
    start: usize,
    /// Up to where no end of a line is.
    looked: usize,
    begun: Option<Begun>,
}

impl Decoder {
    /// One that was given nothing.
    pub fn new() -> Decoder {
        Decoder::default()
    }

    /// Takes bytes.
    pub fn push(&mut self, bytes: &[u8]) {
        if self.start == self.bytes.len() {
            self.bytes.clear();
            self.start = 0;
        } else if self.start > MOST_LINE {
            self.bytes.drain(..self.start);
            self.start = 0;
        }
        self.looked = self.looked.max(self.start).min(self.bytes.len());
        if self.start == 0 {
            self.looked = 0;
        }
        self.bytes.extend_from_slice(bytes);
    }

    /// How many bytes aren't read yet.
    pub fn waiting(&self) -> usize {
        self.bytes.len() - self.start
    }

    /// The words of the next request, if it is whole: one at least.
    pub fn next_request(&mut self) -> Result<Option<Vec<Vec<u8>>>, ProtocolError> {
        loop {
            if let Some(begun) = self.begun.take() {
                return self.go_on(begun);
            }
            match self.bytes.get(self.start) {
                None => return Ok(None),
                Some(b'*') => {
                    let Some(count) = self.number("too big mbulk count string")? else {
                        return Ok(None);
                    };
                    match count {
                        Some(count) if count <= 0 => continue,
                        Some(count) if count <= MOST_WORDS => {
                            self.begun = Some(Begun {
                                words: Vec::new(),
                                left: count as usize,
                                length: None,
                                bytes: 0,
                            });
                        }
                        _ => return error("invalid multibulk length"),
                    }
                }
                Some(_) => match self.inline()? {
                    None => return Ok(None),
                    Some(words) if words.is_empty() => continue,
                    Some(words) => return Ok(Some(words)),
                },
            }
        }
    }

    /// Where the next line feed is.
    fn line_feed(&mut self) -> Option<usize> {
        let from = self.looked.max(self.start);
        let found = self.bytes[from..].iter().position(|byte| *byte == b'\n');
        self.looked = self.bytes.len();
        let at = from + found?;
        self.looked = at;
        Some(at)
    }

    /// The number behind the first byte of a line; None if the line isn't whole, and a None in it if it is no number.
    fn number(&mut self, too_long: &str) -> Result<Option<Option<i64>>, ProtocolError> {
        let Some(end) = self.line_feed() else {
            return match self.waiting() > MOST_LINE {
                true => error(too_long),
                false => Ok(None),
            };
        };
        let line = &self.bytes[self.start + 1..end.max(self.start + 1)];
        let number = integer(line.strip_suffix(b"\r").unwrap_or(line));
        self.start = end + 1;
        Ok(Some(number))
    }

    /// Reads words of a request whose number of words is known.
    fn go_on(&mut self, mut begun: Begun) -> Result<Option<Vec<Vec<u8>>>, ProtocolError> {
        while begun.left > 0 {
            let length = match begun.length {
                Some(length) => length,
                None => {
                    let Some(length) = self.word_head()? else {
                        self.begun = Some(begun);
                        return Ok(None);
                    };
                    begun.bytes += length;
                    if begun.bytes > MOST_REQUEST {
                        return error("invalid bulk length");
                    }
                    length
                }
            };
            if self.waiting() < length + 2 {
                begun.length = Some(length);
                self.begun = Some(begun);
                return Ok(None);
            }
            let word = self.bytes[self.start..self.start + length].to_vec();
            self.start += length + 2;
            begun.words.push(word);
            begun.length = None;
            begun.left -= 1;
        }
        Ok(Some(begun.words))
    }

    /// How long the next word is, if that is there.
    fn word_head(&mut self) -> Result<Option<usize>, ProtocolError> {
        match self.bytes.get(self.start) {
            None => return Ok(None),
            Some(b'$') => {}
            Some(other) => {
                let shown = char::from(*other);
                return error(&format!("expected '$', got '{shown}'"));
            }
        }
        let Some(length) = self.number("too big bulk count string")? else {
            return Ok(None);
        };
        match length {
            Some(length) if (0..=MOST_REQUEST as i64).contains(&length) => {
                Ok(Some(length as usize))
            }
            _ => error("invalid bulk length"),
        }
    }

    /// The words of a line.
    fn inline(&mut self) -> Result<Option<Vec<Vec<u8>>>, ProtocolError> {
        let end = self.line_feed();
        if end.map_or(self.waiting(), |end| end - self.start) > MOST_LINE {
            return error("too big inline request");
        }
        let Some(end) = end else {
            return Ok(None);
        };
        let line = &self.bytes[self.start..end];
        let words = words_of(line.strip_suffix(b"\r").unwrap_or(line));
        self.start = end + 1;
        match words {
            Some(words) => Ok(Some(words)),
            None => error("unbalanced quotes in request"),
        }
    }
}

/// A whole number as Redis reads it: no plus, no leading zero, no blanks.
pub fn integer(digits: &[u8]) -> Option<i64> {
    let plain = digits.strip_prefix(b"-").unwrap_or(digits);
    let is_plain = match plain {
        [] => false,
        [b'0'] => digits.len() == 1,
        [first, ..] => *first != b'0' && plain.iter().all(u8::is_ascii_digit),
    };
    let text = std::str::from_utf8(digits).ok()?;
    is_plain.then(|| text.parse().ok()).flatten()
}

fn is_blank(byte: u8) -> bool {
    matches!(byte, b' ' | b'\t' | b'\n' | b'\r' | 0x0b | 0x0c | 0)
}

/// The words of a line, as a shell has them: in double quotes with escapes, in single quotes without. None if quotes aren't closed, or
/// something stands right behind them.
fn words_of(line: &[u8]) -> Option<Vec<Vec<u8>>> {
    let mut words = Vec::new();
    let mut at = 0;
    loop {
        while line.get(at).is_some_and(|byte| is_blank(*byte)) {
            at += 1;
        }
        if at == line.len() {
            return Some(words);
        }
        let mut word = Vec::new();
        while let Some(byte) = line.get(at).filter(|byte| !is_blank(**byte)) {
            at = match byte {
                b'"' | b'\'' => quoted(line, at, &mut word)?,
                _ => {
                    word.push(*byte);
                    at + 1
                }
            };
        }
        words.push(word);
    }
}

/// Reads what is quoted from a quote on; where the line goes on behind the closing one.
fn quoted(line: &[u8], begin: usize, word: &mut Vec<u8>) -> Option<usize> {
    let quote = line[begin];
    let mut at = begin + 1;
    loop {
        match (*line.get(at)?, line.get(at + 1)) {
            (b'\\', Some(next)) if quote == b'"' => {
                let (byte, used) = escaped(&line[at..], *next);
                word.push(byte);
                at += used;
            }
            (b'\\', Some(b'\'')) => {
                word.push(b'\'');
                at += 2;
            }
            (byte, next) if byte == quote => {
                return next.is_none_or(|next| is_blank(*next)).then_some(at + 1);
            }
            (byte, _) => {
                word.push(byte);
                at += 1;
            }
        }
    }
}

/// The byte of an escape, and how many bytes it takes.
fn escaped(rest: &[u8], next: u8) -> (u8, usize) {
    if let [_, b'x', high, low, ..] = rest {
        let digit = |byte: u8| char::from(byte).to_digit(16);
        if let (Some(high), Some(low)) = (digit(*high), digit(*low)) {
            return ((high * 16 + low) as u8, 4);
        }
    }
    let byte = match next {
        b'n' => b'\n',
        b'r' => b'\r',
        b't' => b'\t',
        b'b' => 8,
        b'a' => 7,
        other => other,
    };
    (byte, 2)
}

/// Replies, as bytes.
pub mod reply {
    /// A status.
    pub fn status(text: &str) -> Vec<u8> {
        format!("+{text}\r\n").into_bytes()
    }

    /// An error; what would break its line is replaced.
    pub fn error(text: &str) -> Vec<u8> {
        let line: String = text
            .chars()
            .map(|c| if c == '\r' || c == '\n' { ' ' } else { c })
            .collect();
        format!("-{line}\r\n").into_bytes()
    }

    /// A whole number.
    pub fn integer(number: i64) -> Vec<u8> {
        format!(":{number}\r\n").into_bytes()
    }

    /// A string of bytes.
    pub fn bulk(bytes: &[u8]) -> Vec<u8> {
        let mut reply = format!("${}\r\n", bytes.len()).into_bytes();
        reply.extend_from_slice(bytes);
        reply.extend_from_slice(b"\r\n");
        reply
    }

    /// No string.
    pub fn nil() -> Vec<u8> {
        b"$-1\r\n".to_vec()
    }

    /// A string, or none.
    pub fn maybe(bytes: Option<&[u8]>) -> Vec<u8> {
        bytes.map_or_else(nil, bulk)
    }

    /// Replies as one.
    pub fn array<'a>(replies: impl IntoIterator<Item = &'a Vec<u8>>) -> Vec<u8> {
        let mut count = 0;
        let mut all = Vec::new();
        for reply in replies {
            count += 1;
            all.extend_from_slice(reply);
        }
        let mut reply = format!("*{count}\r\n").into_bytes();
        reply.append(&mut all);
        reply
    }

    /// Strings as one.
    pub fn bulks<'a>(strings: impl IntoIterator<Item = &'a [u8]>) -> Vec<u8> {
        let replies: Vec<Vec<u8>> = strings.into_iter().map(bulk).collect();
        array(&replies)
    }
}

#[cfg(test)]
mod tests {
    use super::*;
    use proptest::prelude::*;

    type Read = Result<Vec<Vec<Vec<u8>>>, ProtocolError>;

    /// What is read of bytes that come in pieces.
    fn read(bytes: &[u8], piece: usize) -> Read {
        let mut decoder = Decoder::new();
        let mut requests = Vec::new();
        for piece in bytes.chunks(piece.max(1)) {
            decoder.push(piece);
            while let Some(words) = decoder.next_request()? {
                requests.push(words);
            }
        }
        Ok(requests)
    }

    fn words(line: &[&str]) -> Vec<Vec<u8>> {
        line.iter().map(|word| word.as_bytes().to_vec()).collect()
    }

    #[test]
    fn requests_are_read_in_pieces_of_any_size() {
        let bytes =
            b"*2\r\n$3\r\nGET\r\n$1\r\nk\r\nPING\r\n\r\n*0\r\n*1\r\n$0\r\n\r\nset \"a b\" 'c'\n";
        let requests = vec![
            words(&["GET", "k"]),
            words(&["PING"]),
            words(&[""]),
            words(&["set", "a b", "c"]),
        ];
        for piece in 1..bytes.len() {
            assert_eq!(read(bytes, piece), Ok(requests.clone()), "{piece}");
        }
    }

    #[test]
    fn what_is_no_request_is_told() {
        for (bytes, text) in [
            (&b"*x\r\n"[..], "invalid multibulk length"),
            (b"*65537\r\n", "invalid multibulk length"),
            (b"*1\r\nGET\r\n", "expected '$', got 'G'"),
            (b"*1\r\n$-1\r\n", "invalid bulk length"),
            (b"*1\r\n$1048577\r\n", "invalid bulk length"),
            (b"*1\r\n$01\r\n", "invalid bulk length"),
            (b"set \"a\r\n", "unbalanced quotes in request"),
            (b"set 'a'b\r\n", "unbalanced quotes in request"),
        ] {
            assert_eq!(read(bytes, 3), error(text), "{bytes:?}");
        }
        let long = vec![b'x'; MOST_LINE + 1];
        assert_eq!(read(&long, 1000), error("too big inline request"));
        let long = [b"*".to_vec(), vec![b'1'; MOST_LINE + 1]].concat();
        assert_eq!(read(&long, 1000), error("too big mbulk count string"));
    }

    #[test]
    fn escapes_are_as_in_redis() {
        let line = br#"set "\x41\n\t\"\\\q" 'a\'b\n'"#;
        let known = [&b"set"[..], b"A\n\t\"\\q", b"a'b\\n"];
        assert_eq!(words_of(line), Some(known.map(<[u8]>::to_vec).to_vec()));
    }

    #[test]
    fn numbers_are_as_in_redis() {
        for (digits, number) in [
            ("0", Some(0)),
            ("-1", Some(-1)),
            ("9223372036854775807", Some(i64::MAX)),
            ("-9223372036854775808", Some(i64::MIN)),
            ("9223372036854775808", None),
            ("-0", None),
            ("01", None),
            ("+1", None),
            (" 1", None),
            ("", None),
            ("-", None),
            ("1.0", None),
        ] {
            assert_eq!(integer(digits.as_bytes()), number, "{digits:?}");
        }
    }

    fn request() -> impl Strategy<Value = Vec<Vec<u8>>> {
        prop::collection::vec(prop::collection::vec(any::<u8>(), 0..30), 1..6)
    }

    proptest! {
        #[test]
        fn what_is_written_is_read(requests in prop::collection::vec(request(), 0..5), piece in 1usize..40) {
            let written: Vec<Vec<u8>> = requests.iter().map(|words| reply::bulks(words.iter().map(|word| &word[..]))).collect();
            prop_assert_eq!(read(&written.concat(), piece), Ok(requests));
        }

        #[test]
        fn any_bytes_are_read_the_same_in_any_pieces(bytes in prop::collection::vec(prop::sample::select(&b"*$12\r\n\"'\\x GET"[..]), 0..60), piece in 1usize..10) {
            let (one, other) = (read(&bytes, piece), read(&bytes, 1));
            prop_assert_eq!(one, other);
        }
    }
}
