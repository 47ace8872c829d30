//! The tokens of a clause text: runs of name bytes, necks (`:-`), and single bytes. Spaces and line ends stand around them;
//! no other byte is layout.

use std::ops::Range;

#[derive(Clone, Copy, Debug, PartialEq)]
pub enum TokenKind {
    /// A run that starts with a small letter.
    Name,
    /// A run that starts with a capital.
    Variable,
    /// `_` by itself.
    Anonymous,
    /// A run that starts with a digit, or a longer one that starts with `_`.
    OtherRun,
    /// `:-`
    Neck,
    Comma,
    /// `(` right after the token before it.
    Open,
    Close,
    /// `.` before a space, a line end or the text's end.
    End,
    /// Any other byte, a `(` after layout and a `.` before anything else among them.
    Other,
}

#[derive(Clone, Debug, PartialEq)]
pub struct Token {
    pub kind: TokenKind,
    pub place: Range<usize>,
}

pub fn is_layout(byte: u8) -> bool {
    byte == b' ' || byte == b'\n'
}

/// Whether a byte belongs to a run.
pub fn is_of_a_run(byte: u8) -> bool {
    byte.is_ascii_alphanumeric() || byte == b'_'
}

pub struct Scanner<'t> {
    pub text: &'t [u8],
    /// Where the last token has ended.
    at: usize,
}

impl<'t> Scanner<'t> {
    pub fn of(text: &'t [u8]) -> Scanner<'t> {
        Scanner { text, at: 0 }
    }

    /// Where the last token has ended; at the text's front before the first.
    pub fn end_of_last(&self) -> usize {
        self.at
    }

    pub fn next_token(&mut self) -> Option<Token> {
        let layout = self.text[self.at..].iter().take_while(|byte| is_layout(**byte)).count();
        let start = self.at + layout;
        let (kind, length) = kind_of(self.text.get(start..)?, layout == 0 && start > 0)?;
        self.at = start + length;
        Some(Token { kind, place: start..self.at })
    }
}

/// The token at the front of what is left, and its length.
fn kind_of(rest: &[u8], is_glued: bool) -> Option<(TokenKind, usize)> {
    let run = rest.iter().take_while(|byte| is_of_a_run(**byte)).count();
    let kind = match (*rest.first()?, rest.get(1)) {
        (b'a'..=b'z', _) => TokenKind::Name,
        (b'A'..=b'Z', _) => TokenKind::Variable,
        (b'_', _) if run == 1 => TokenKind::Anonymous,
        (b'_' | b'0'..=b'9', _) => TokenKind::OtherRun,
        (b':', Some(b'-')) => return Some((TokenKind::Neck, 2)),
        (b',', _) => TokenKind::Comma,
        (b'(', _) if is_glued => TokenKind::Open,
        (b')', _) => TokenKind::Close,
        (b'.', None | Some(b' ' | b'\n')) => TokenKind::End,
        _ => TokenKind::Other,
    };
    Some((kind, run.max(1)))
}

#[cfg(test)]
mod tests {
    use super::*;
    use TokenKind::*;

    fn kinds(text: &[u8]) -> Vec<TokenKind> {
        let mut scanner = Scanner::of(text);
        std::iter::from_fn(|| scanner.next_token()).map(|token| token.kind).collect()
    }

    #[test]
    fn tokens_are_runs_the_neck_and_single_bytes() {
        assert_eq!(kinds(b" p(X,_) :-\nq.\n"), [Name, Open, Variable, Comma, Anonymous, Close, Neck, Name, End]);
        assert_eq!(kinds(b"_a 9a a9_B __ :- :: -"), [OtherRun, OtherRun, Name, OtherRun, Neck, Other, Other, Other]);
        assert_eq!(kinds(b"a.b.c. .\t."), [Name, Other, Name, Other, Name, End, Other, Other, End]);
        assert_eq!(kinds(b"(p (q( ("), [Other, Name, Other, Name, Open, Other]);
        assert_eq!(kinds(b""), []);
        assert_eq!(kinds(b" \n "), []);
    }
}
