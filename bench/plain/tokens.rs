//! The tokens of a program text, each with its place.

const MOST_NAME_BYTES: usize = 64;
const MOST_DIGITS: usize = 4;

/// A line and a column in bytes, each counted from 1.
#[derive(Clone, Copy)]
pub struct Place {
    pub line: u32,
    pub column: u32,
}

/// Why a text has no value.
pub struct Fault {
    pub at: Place,
    pub kind: &'static str,
}

pub fn fault<T>(at: Place, kind: &'static str) -> Result<T, Fault> {
    Err(Fault { at, kind })
}

#[derive(Clone, Copy, PartialEq)]
pub enum Kind {
    Name,
    Number,
    Word(Word),
    Sign(Sign),
    End,
}

#[derive(Clone, Copy, PartialEq)]
#[rustfmt::skip]
pub enum Word { Main, Let, Fun, Clean, Assert, Append, Rotate, Reg, True, False, Bool, For, In, Do, Revs }

#[derive(Clone, Copy, PartialEq)]
#[rustfmt::skip]
pub enum Sign {
    OpenRound, CloseRound, OpenSquare, CloseSquare, OpenCurly, CloseCurly, Colon, Semi, Equal, Xor, And, Assign, Arrow,
    Dot, DotDot, Plus, Minus,
}

/// A token: its kind, its place, where it begins in the text, and its length.
#[derive(Clone, Copy)]
pub struct Token {
    pub kind: Kind,
    pub length: u8,
    pub start: u32,
    pub at: Place,
}

/// The tokens of a text and then `End`, or the first place at which it cannot be cut.
pub fn tokens(text: &[u8]) -> Result<Vec<Token>, Fault> {
    let mut tokens = Vec::new();
    let (mut start, mut line, mut line_start) = (0, 1, 0);
    while start < text.len() {
        let rest = &text[start..];
        let at = Place {
            line,
            column: (start - line_start + 1) as u32,
        };
        start += match rest[0] {
            b'\n' => {
                line += 1;
                line_start = start + 1;
                1
            }
            b' ' | b'\t' | b'\r' => 1,
            b'/' if rest.starts_with(b"//") => rest
                .iter()
                .position(|&byte| byte == b'\n')
                .unwrap_or(rest.len()),
            _ => {
                let (kind, length) = token(rest, at)?;
                tokens.push(Token {
                    kind,
                    length: length as u8,
                    start: start as u32,
                    at,
                });
                length
            }
        };
    }
    let at = Place {
        line,
        column: (text.len() - line_start + 1) as u32,
    };
    tokens.push(Token {
        kind: Kind::End,
        length: 0,
        start: text.len() as u32,
        at,
    });
    Ok(tokens)
}

/// The longest token at the front of the text, and its length.
fn token(text: &[u8], at: Place) -> Result<(Kind, usize), Fault> {
    let count = |is_part: fn(&u8) -> bool| text.iter().take_while(|&byte| is_part(byte)).count();
    match text[0] {
        b'A'..=b'Z' | b'a'..=b'z' | b'_' => {
            let length = count(|&byte| byte.is_ascii_alphanumeric() || byte == b'_');
            if length > MOST_NAME_BYTES {
                return fault(at, "LongName");
            }
            let name = &text[..length];
            Ok((word(name).map_or(Kind::Name, Kind::Word), length))
        }
        b'0'..=b'9' => {
            let length = count(u8::is_ascii_digit);
            if length > MOST_DIGITS {
                return fault(at, "LongNumber");
            }
            Ok((Kind::Number, length))
        }
        first => match sign(first, text.get(1)) {
            Some((sign, length)) => Ok((Kind::Sign(sign), length)),
            None => fault(at, "BadByte"),
        },
    }
}

fn word(name: &[u8]) -> Option<Word> {
    Some(match name {
        b"main" => Word::Main,
        b"let" => Word::Let,
        b"fun" => Word::Fun,
        b"clean" => Word::Clean,
        b"assert" => Word::Assert,
        b"append" => Word::Append,
        b"rotate" => Word::Rotate,
        b"reg" => Word::Reg,
        b"true" => Word::True,
        b"false" => Word::False,
        b"bool" => Word::Bool,
        b"for" => Word::For,
        b"in" => Word::In,
        b"do" => Word::Do,
        b"revs" => Word::Revs,
        _ => return None,
    })
}

fn sign(first: u8, second: Option<&u8>) -> Option<(Sign, usize)> {
    let sign = match (first, second) {
        (b'<', Some(b'>')) => return Some((Sign::Xor, 2)),
        (b'<', Some(b'-')) => return Some((Sign::Assign, 2)),
        (b'&', Some(b'&')) => return Some((Sign::And, 2)),
        (b'-', Some(b'>')) => return Some((Sign::Arrow, 2)),
        (b'.', Some(b'.')) => return Some((Sign::DotDot, 2)),
        (b'(', _) => Sign::OpenRound,
        (b')', _) => Sign::CloseRound,
        (b'[', _) => Sign::OpenSquare,
        (b']', _) => Sign::CloseSquare,
        (b'{', _) => Sign::OpenCurly,
        (b'}', _) => Sign::CloseCurly,
        (b':', _) => Sign::Colon,
        (b';', _) => Sign::Semi,
        (b'=', _) => Sign::Equal,
        (b'.', _) => Sign::Dot,
        (b'+', _) => Sign::Plus,
        (b'-', _) => Sign::Minus,
        _ => return None,
    };
    Some((sign, 1))
}
