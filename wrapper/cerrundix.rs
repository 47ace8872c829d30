//! A safe wrapper over libcerrundix.a, with no dependencies: the answers as enums, the residual by value. `calls` has them
//! as C sees them.

/// The five calls on slices, with the answers as the library gives them: C words, to be taken apart as the header does, or
/// four numbers.
pub mod calls {
    mod library {
        #[repr(C)]
        pub struct Answer {
            pub number: u64,
            pub line: u64,
            pub rule: u64,
            pub claim: u64,
        }

        extern "C" {
            pub fn check(text: *const u8, text_length: usize, area: *mut i64, area_length: usize) -> u64;
            pub fn reserve(text: *const u8, text_length: usize, query: *const u8, query_length: usize) -> u64;
            pub fn measure(term: *const u8, term_length: usize) -> u64;
            pub fn cerrundix_sheet(text: *const u8, text_length: usize, page: *mut u8, page_length: usize) -> Answer;
            pub fn cerrundix_import(text: *const u8, text_length: usize, buffer: *mut u8, buffer_length: usize) -> Answer;
        }
    }

    /// The area changes only for 13, and then only its first 17 numbers.
    pub fn check(text: &[u8], area: &mut [i64]) -> u64 {
        // Safe: both buffers are live for the call and do not overlap, and the library stays within their lengths.
        unsafe { library::check(text.as_ptr(), text.len(), area.as_mut_ptr(), area.len()) }
    }

    pub fn reserve(text: &[u8], query: &[u8]) -> u64 {
        // Safe: both buffers are live for the call, and the library only reads them, within their lengths.
        unsafe { library::reserve(text.as_ptr(), text.len(), query.as_ptr(), query.len()) }
    }

    pub fn measure(term: &[u8]) -> u64 {
        // Safe: the buffer is live for the call, and the library only reads it, within its length.
        unsafe { library::measure(term.as_ptr(), term.len()) }
    }

    pub fn sheet(text: &[u8], page: &mut [u8]) -> [u64; 4] {
        // Safe: as for check.
        let answer = unsafe { library::cerrundix_sheet(text.as_ptr(), text.len(), page.as_mut_ptr(), page.len()) };
        [answer.number, answer.line, answer.rule, answer.claim]
    }

    pub fn import(text: &[u8], buffer: &mut [u8]) -> [u64; 4] {
        // Safe: as for check.
        let answer = unsafe { library::cerrundix_import(text.as_ptr(), text.len(), buffer.as_mut_ptr(), buffer.len()) };
        [answer.number, answer.line, answer.rule, answer.claim]
    }
}

/// The residual of an unjustified claim: its constant, then a coefficient for each variable in order of first occurrence.
pub type Residual = [i64; 17];

#[derive(Debug, PartialEq)]
pub enum Verdict {
    Accepted { lines: u16, rules: u8, multiplier_lines: u16 },
    Unjustified { line: u16, rule: u8, claim: u8, residual: Residual },
    /// Any other refusal: its number, and its line or 0.
    Refused { number: u8, line: u16 },
}

#[derive(Debug, PartialEq)]
pub enum Reservation {
    Bound { size: u64, claim: u8 },
    NoBound,
    Impossible { claim: u8 },
    /// The pack's number (2 to 13, 20 to 22, 24) or the query's (4, 14, 16 to 18; 15 is no longer given).
    Refused { number: u8 },
}

/// The bytes that a rule takes on the sheet, its byte 10 among them.
pub const SHEET_LINE: usize = 65;

/// The bytes of the longest sheet, which is of 64 rules.
pub const SHEET_LIMIT: usize = 64 * SHEET_LINE;

#[derive(Debug, PartialEq)]
pub enum Filing {
    /// The sheet stands at the front of the page, `SHEET_LINE` bytes for each rule. The counts are check's.
    Filed { lines: u64, rules: u64, multiplier_lines: u64 },
    /// The pack is accepted, and the page is shorter than its sheet (23).
    ShortPage,
    /// The pack is refused, with check's numbers: rule and claim are 0 but for 13.
    Refused { number: u64, line: u64, rule: u64, claim: u64 },
}

/// What import has written to the front of the buffer.
#[derive(Debug, PartialEq)]
pub struct Imported {
    pub clauses: u64,
    pub bytes: u64,
}

/// Why import has written nothing.
#[derive(Debug, PartialEq)]
pub enum ImportRefusal {
    /// The text is not in the subset (25). The byte, from 0, where the first token starts that cannot continue it, or the
    /// text's length where it ends inside a clause.
    NotInSubset { byte: u64 },
    /// This clause, from 1, passes a limit of packs (26).
    PastLimit { clause: u64 },
    /// The buffer is shorter than the lines up to and including those of this clause, from 1 (27).
    ShortBuffer { clause: u64 },
    /// Any other four numbers: no answer of this library.
    Unknown([u64; 4]),
}

impl ImportRefusal {
    /// The four numbers of the call.
    pub fn numbers(&self) -> [u64; 4] {
        match *self {
            ImportRefusal::NotInSubset { byte } => [25, byte, 0, 0],
            ImportRefusal::PastLimit { clause } => [26, clause, 0, 0],
            ImportRefusal::ShortBuffer { clause } => [27, clause, 0, 0],
            ImportRefusal::Unknown(numbers) => numbers,
        }
    }
}

impl std::fmt::Display for ImportRefusal {
    fn fmt(&self, formatter: &mut std::fmt::Formatter) -> std::fmt::Result {
        match self {
            ImportRefusal::NotInSubset { byte } => write!(formatter, "refused (25) at byte {}", byte),
            ImportRefusal::PastLimit { clause } => write!(formatter, "refused (26): clause {} passes a limit", clause),
            ImportRefusal::ShortBuffer { clause } => {
                write!(formatter, "refused (27): the buffer is too short for the lines up to clause {}", clause)
            }
            ImportRefusal::Unknown(numbers) => write!(formatter, "no answer of this library: {:?}", numbers),
        }
    }
}

impl std::error::Error for ImportRefusal {}

/// The length of a buffer that is long enough for every text of this length.
pub const fn import_room(text_length: usize) -> usize {
    2 * text_length
}

/// Checks a pack.
pub fn check(pack: &[u8]) -> Verdict {
    let mut residual: Residual = [0; 17];
    let word = calls::check(pack, &mut residual);
    let (number, line, rule, claim) = (word as u8, (word >> 8) as u16, (word >> 24) as u8, word >> 32);
    match number {
        0 => Verdict::Accepted { lines: line, rules: rule, multiplier_lines: claim as u16 },
        13 => Verdict::Unjustified { line, rule, claim: claim as u8, residual },
        _ => Verdict::Refused { number, line },
    }
}

/// Reserves by a pack and a query.
pub fn reserve(pack: &[u8], query: &[u8]) -> Reservation {
    let word = calls::reserve(pack, query);
    let (letter, claim, middle) = (word as u8, (word >> 8) as u8, word >> 16);
    match letter {
        b'B' => Reservation::Bound { size: middle, claim },
        b'N' => Reservation::NoBound,
        b'I' => Reservation::Impossible { claim },
        _ => Reservation::Refused { number: middle as u8 },
    }
}

/// Measures a ground term: its size, or the refusal 4, 11 or 19.
pub fn measure(term: &[u8]) -> Result<u64, u8> {
    let word = calls::measure(term);
    match word as u8 {
        0 => Ok(word >> 8),
        refusal => Err(refusal),
    }
}

/// Writes the sheet of a pack to the front of a page: a line of 64 columns and byte 10 for each rule. The rest of the page
/// stays as it is, and all of it unless the sheet is filed. A page of `SHEET_LIMIT` bytes is long enough for every pack.
pub fn sheet(pack: &[u8], page: &mut [u8]) -> Filing {
    match calls::sheet(pack, page) {
        [0, lines, rules, multiplier_lines] => Filing::Filed { lines, rules, multiplier_lines },
        [23, 0, 0, 0] => Filing::ShortPage,
        [number, line, rule, claim] => Filing::Refused { number, line, rule, claim },
    }
}

/// Writes the lines of a clause text to the front of a buffer: for each clause an `H` line and its `B` lines, each with its
/// byte 10. The rest of the buffer stays as it is, and all of it if the text is refused. A buffer of `import_room` bytes is
/// long enough.
pub fn import(text: &[u8], buffer: &mut [u8]) -> Result<Imported, ImportRefusal> {
    match calls::import(text, buffer) {
        [0, clauses, bytes, 0] => Ok(Imported { clauses, bytes }),
        [25, byte, 0, 0] => Err(ImportRefusal::NotInSubset { byte }),
        [26, clause, 0, 0] => Err(ImportRefusal::PastLimit { clause }),
        [27, clause, 0, 0] => Err(ImportRefusal::ShortBuffer { clause }),
        numbers => Err(ImportRefusal::Unknown(numbers)),
    }
}
