//! Clause text read into trees, as 6/14 of document 02 has it: the text is cut into tokens, and each clause is read from
//! them by recursive descent. Nothing is limited here.

/// A term as it was written; a `_` by itself is fresh each time.
#[derive(Clone, Debug, PartialEq)]
pub enum Tree {
    Variable(Vec<u8>),
    Fresh,
    Symbol(Vec<u8>, Vec<Tree>),
}

/// A head or a subgoal.
pub struct Atom {
    pub name: Vec<u8>,
    pub arguments: Vec<Tree>,
}

/// A clause: the head first, then the subgoals.
pub struct Clause {
    pub atoms: Vec<Atom>,
}

#[derive(Clone, Copy, PartialEq)]
enum Kind {
    Name,
    Variable,
    Lone,
    Neck,
    /// A `(` with no layout before it; with layout it can stand nowhere.
    Opening,
    Closing,
    Comma,
    /// A `.` before a space, a line end or the end of the text; any other can stand nowhere.
    End,
    Misplaced,
}

struct Token<'t> {
    kind: Kind,
    start: usize,
    bytes: &'t [u8],
}

fn is_layout(byte: u8) -> bool {
    byte == b' ' || byte == b'\n'
}

fn is_of_run(byte: u8) -> bool {
    byte.is_ascii_alphanumeric() || byte == b'_'
}

/// How many bytes the token has that begins the text, which does not begin with layout.
fn token_length(text: &[u8]) -> usize {
    if text.starts_with(b":-") {
        return 2;
    }
    text.iter().take_while(|byte| is_of_run(**byte)).count().max(1)
}

fn kind_of(text: &[u8], start: usize, end: usize) -> Kind {
    let has_layout_before = start > 0 && is_layout(text[start - 1]);
    let ends_clause = end == text.len() || is_layout(text[end]);
    match &text[start..end] {
        b":-" => Kind::Neck,
        b"_" => Kind::Lone,
        b"(" if !has_layout_before => Kind::Opening,
        b")" => Kind::Closing,
        b"," => Kind::Comma,
        b"." if ends_clause => Kind::End,
        [first, ..] if first.is_ascii_lowercase() => Kind::Name,
        [first, ..] if first.is_ascii_uppercase() => Kind::Variable,
        _ => Kind::Misplaced,
    }
}

fn tokens_of(text: &[u8]) -> Vec<Token<'_>> {
    let (mut tokens, mut start) = (Vec::new(), 0);
    while start < text.len() {
        if is_layout(text[start]) {
            start += 1;
            continue;
        }
        let end = start + token_length(&text[start..]);
        tokens.push(Token { kind: kind_of(text, start, end), start, bytes: &text[start..end] });
        start = end;
    }
    tokens
}

/// The text's tokens, of which so many are read.
pub struct Reader<'t> {
    tokens: Vec<Token<'t>>,
    read: usize,
    text_length: usize,
}

/// The byte of the first token that can't continue the text, or the text's length.
pub struct NotInSubset {
    pub place: usize,
}

impl<'t> Reader<'t> {
    pub fn new(text: &'t [u8]) -> Reader<'t> {
        Reader { tokens: tokens_of(text), read: 0, text_length: text.len() }
    }

    pub fn is_at_end(&self) -> bool {
        self.read == self.tokens.len()
    }

    /// Is the next token one of this kind? Then it is read.
    fn reads(&mut self, kind: Kind) -> bool {
        let found = self.tokens.get(self.read).is_some_and(|token| token.kind == kind);
        self.read += usize::from(found);
        found
    }

    /// The token that was read last.
    fn last(&self) -> Vec<u8> {
        self.tokens[self.read - 1].bytes.to_vec()
    }

    /// Nothing that could stand here does.
    fn refused<T>(&self) -> Result<T, NotInSubset> {
        Err(NotInSubset { place: self.tokens.get(self.read).map_or(self.text_length, |token| token.start) })
    }

    pub fn clause(&mut self) -> Result<Clause, NotInSubset> {
        let mut atoms = vec![self.atom()?];
        if self.reads(Kind::Neck) {
            atoms.push(self.atom()?);
            while self.reads(Kind::Comma) {
                atoms.push(self.atom()?);
            }
        }
        if self.reads(Kind::End) {
            Ok(Clause { atoms })
        } else {
            self.refused()
        }
    }

    fn atom(&mut self) -> Result<Atom, NotInSubset> {
        if !self.reads(Kind::Name) {
            return self.refused();
        }
        let name = self.last();
        Ok(Atom { name, arguments: self.arguments()? })
    }

    /// What stands in the brackets, or nothing where there are none.
    fn arguments(&mut self) -> Result<Vec<Tree>, NotInSubset> {
        if !self.reads(Kind::Opening) {
            return Ok(Vec::new());
        }
        let mut arguments = vec![self.term()?];
        while self.reads(Kind::Comma) {
            arguments.push(self.term()?);
        }
        if self.reads(Kind::Closing) {
            Ok(arguments)
        } else {
            self.refused()
        }
    }

    fn term(&mut self) -> Result<Tree, NotInSubset> {
        if self.reads(Kind::Lone) {
            return Ok(Tree::Fresh);
        }
        if self.reads(Kind::Variable) {
            return Ok(Tree::Variable(self.last()));
        }
        let Atom { name, arguments } = self.atom()?;
        Ok(Tree::Symbol(name, arguments))
    }
}
