//! Bytes to lexemes.

/// What stands at one place of a text.
#[derive(Clone, Copy, Debug, PartialEq, Eq)]
pub enum Lexeme<'a> {
    Var,
    Fun,
    Extern,
    Name(&'a [u8]),
    Number(u8),
    Sign(u8),
    /// A run of bytes that is no lexeme.
    Bad,
}

#[derive(Clone, Copy, Debug)]
pub struct Placed<'a> {
    pub lexeme: Lexeme<'a>,
    pub offset: usize,
}

pub const LONGEST_NAME: usize = 24;

pub fn is_blank(b: u8) -> bool {
    matches!(b, 9 | 10 | 13 | 32)
}

pub fn is_letter(b: u8) -> bool {
    b.is_ascii_alphabetic() || b == b'_'
}

pub fn is_sign(b: u8) -> bool {
    b"=&*(),;.".contains(&b)
}

/// 1 and the line ends before an offset.
pub fn line_of(text: &[u8], offset: usize) -> usize {
    1 + text[..offset].iter().filter(|&&b| b == b'\n').count()
}

fn word(run: &[u8]) -> Lexeme<'_> {
    match run {
        b"var" => Lexeme::Var,
        b"fun" => Lexeme::Fun,
        b"extern" => Lexeme::Extern,
        _ if run.len() <= LONGEST_NAME => Lexeme::Name(run),
        _ => Lexeme::Bad,
    }
}

fn number(run: &[u8]) -> Lexeme<'_> {
    match run {
        [d @ b'0'..=b'6'] => Lexeme::Number(d - b'0'),
        _ => Lexeme::Bad,
    }
}

/// How many bytes at the front satisfy a test.
fn run_length(text: &[u8], test: impl Fn(u8) -> bool) -> usize {
    text.iter().take_while(|&&b| test(b)).count()
}

/// The lexemes of a text in order, runs that are none among them.
pub fn lexemes(text: &[u8]) -> Vec<Placed<'_>> {
    let mut found = Vec::new();
    let mut offset = 0;
    while offset < text.len() {
        let rest = &text[offset..];
        let first = rest[0];
        if is_blank(first) {
            offset += 1;
            continue;
        }
        let (lexeme, length) = if is_letter(first) {
            let n = run_length(rest, |b| is_letter(b) || b.is_ascii_digit());
            (word(&rest[..n]), n)
        } else if first.is_ascii_digit() {
            let n = run_length(rest, |b| b.is_ascii_digit());
            (number(&rest[..n]), n)
        } else if is_sign(first) {
            (Lexeme::Sign(first), 1)
        } else {
            (Lexeme::Bad, 1)
        };
        found.push(Placed { lexeme, offset });
        offset += length;
    }
    found
}

#[cfg(test)]
mod tests {
    use super::*;

    fn kinds(text: &[u8]) -> Vec<(Lexeme<'_>, usize)> {
        lexemes(text).iter().map(|p| (p.lexeme, p.offset)).collect()
    }

    #[test]
    fn a_number_may_touch_a_name_behind_it() {
        assert_eq!(kinds(b"6a"), [(Lexeme::Number(6), 0), (Lexeme::Name(b"a"), 1)]);
        assert_eq!(kinds(b"a6"), [(Lexeme::Name(b"a6"), 0)]);
        assert_eq!(kinds(b" 12 7"), [(Lexeme::Bad, 1), (Lexeme::Bad, 4)]);
    }

    #[test]
    fn names_end_at_24_bytes() {
        assert_eq!(kinds(&[b'x'; 24]), [(Lexeme::Name(&[b'x'; 24]), 0)]);
        assert_eq!(kinds(&[b'x'; 25]), [(Lexeme::Bad, 0)]);
        assert_eq!(kinds(b"vars Var"), [(Lexeme::Name(b"vars"), 0), (Lexeme::Name(b"Var"), 5)]);
    }

    #[test]
    fn other_bytes_are_bad_one_by_one() {
        assert_eq!(kinds(b"\x00\xff"), [(Lexeme::Bad, 0), (Lexeme::Bad, 1)]);
        assert_eq!(kinds(b"\t\n\r "), []);
        assert_eq!(kinds(b"\x0b"), [(Lexeme::Bad, 0)]);
    }
}
