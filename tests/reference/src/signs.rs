//! Document 01's "Bytes and signs": the kind of each byte, the built-in names and the limit; which tables of kinds are
//! accepted, by document 02's request Two; and which bytes fetch parameters.
use crate::arithmetic::Operation;

/// Text, cells and output may each be lent up to this length.
pub const LIMIT: usize = 65_536;

// The kinds. A sign is named by its standard byte, here and wherever the language is described.
pub const PLAIN: u8 = 0;
/// `$` begins a call.
pub const CALL: u8 = 1;
/// `,` separates.
pub const COMMA: u8 = 2;
/// `;` applies.
pub const APPLY: u8 = 3;
/// `~` fetches a parameter.
pub const FETCH: u8 = 4;
/// `<` opens a quotation.
pub const QUOTE: u8 = 5;
/// `>` closes a quotation.
pub const UNQUOTE: u8 = 6;

/// How many entries a table has.
const ENTRIES: usize = 256;

/// What the checks of signs that are lent come to: the table, or the outcome that refuses them.
pub type Checked = Result<Table, u64>;

/// "A table of 256 entries gives each byte its kind, 0 for plain and 1 to 6 for the signs in that order." There is none
/// that is not accepted.
#[derive(Clone, Debug, PartialEq, Eq)]
pub struct Table {
    kinds: [u8; ENTRIES],
}

impl Table {
    /// "`$` begins a call, `,` separates, `;` applies, `~` fetches a parameter, `<` and `>` are quotes."
    pub const STANDARD: Table = Table { kinds: standard() };

    /// The checks of the signs, of which "all three" come "after 2".
    pub fn accepted(lent: &[u8]) -> Checked {
        // "30 where the table is not 256 bytes long or an entry is above 6".
        let kinds = <[u8; ENTRIES]>::try_from(lent).map_err(|_| 30u64)?;
        if kinds.iter().any(|&kind| kind > UNQUOTE) {
            return Err(30);
        }
        // "then 31 where one of the six signs has no byte or several".
        if (CALL..=UNQUOTE).any(|sign| bytes_of(&kinds, sign) != 1) {
            return Err(31);
        }
        // "then 32 where an ASCII letter, a digit, `+`, `-` or `*` is a sign".
        let table = Table { kinds };
        if table.signs().any(never_a_sign) {
            return Err(32);
        }
        Ok(table)
    }

    pub fn kind(&self, byte: u8) -> u8 {
        self.kinds[usize::from(byte)]
    }

    /// The entries, as they are lent.
    pub fn kinds(&self) -> &[u8] {
        &self.kinds
    }

    /// The bytes that are signs.
    fn signs(&self) -> impl Iterator<Item = u8> + '_ {
        (0..=u8::MAX)
            .zip(self.kinds)
            .filter(|&(_, kind)| kind != PLAIN)
            .map(|(byte, _)| byte)
    }

    /// The byte that is a sign of this kind.
    pub fn sign(&self, kind: u8) -> u8 {
        let byte = self.signs().find(|&byte| self.kind(byte) == kind);
        byte.expect("each sign has a byte")
    }
}

const fn standard() -> [u8; ENTRIES] {
    let mut kinds = [PLAIN; ENTRIES];
    kinds[b'$' as usize] = CALL;
    kinds[b',' as usize] = COMMA;
    kinds[b';' as usize] = APPLY;
    kinds[b'~' as usize] = FETCH;
    kinds[b'<' as usize] = QUOTE;
    kinds[b'>' as usize] = UNQUOTE;
    kinds
}

fn bytes_of(kinds: &[u8; ENTRIES], sign: u8) -> usize {
    kinds.iter().filter(|&&kind| kind == sign).count()
}

/// "an ASCII letter, a digit, `+`, `-` or `*`"
fn never_a_sign(byte: u8) -> bool {
    matches!(byte, b'A'..=b'Z' | b'a'..=b'z' | b'0'..=b'9' | b'+' | b'-' | b'*')
}

/// The number of the parameter that `~` fetches in a body, by the byte after it; none for a byte that fetches nothing.
pub type Reading = fn(u8) -> Option<usize>;

/// "`~r` in a body copies parameter r (0 is the name)", by a digit alone: the reading before document 02's request One.
pub fn digit(byte: u8) -> Option<usize> {
    byte.is_ascii_digit().then(|| usize::from(byte - b'0'))
}

/// Document 02: "After `~` in a body, a lower-case letter `a` to `z` fetches parameters 10 to 35."
pub fn digit_or_letter(byte: u8) -> Option<usize> {
    match byte {
        b'a'..=b'z' => Some(10 + usize::from(byte - b'a')),
        _ => digit(byte),
    }
}

#[derive(Clone, Copy, Debug, PartialEq, Eq)]
pub enum BuiltIn {
    Def,
    Val,
    Update,
    Arithmetic(Operation),
    Seq,
    Size,
    If,
    Lock,
}

/// The built-in names, which are fixed byte strings; the last four are those of document 02's requests Four and Nine.
pub const BUILT_INS: [(&[u8], BuiltIn); 12] = [
    (b"DEF", BuiltIn::Def),
    (b"VAL", BuiltIn::Val),
    (b"UPDATE", BuiltIn::Update),
    (b"+", BuiltIn::Arithmetic(Operation::Plus)),
    (b"-", BuiltIn::Arithmetic(Operation::Minus)),
    (b"*", BuiltIn::Arithmetic(Operation::Times)),
    (b"Quot", BuiltIn::Arithmetic(Operation::Quot)),
    (b"Rem", BuiltIn::Arithmetic(Operation::Rem)),
    (b"SEQ", BuiltIn::Seq),
    (b"SIZE", BuiltIn::Size),
    (b"IF", BuiltIn::If),
    (b"LOCK", BuiltIn::Lock),
];

/// "VAL needs one parameter, the others two." By request Four, "SEQ and IF need two parameters, SIZE one", and by request
/// Nine LOCK has 13 "as VAL has".
pub fn parameters_needed(built_in: BuiltIn) -> usize {
    match built_in {
        BuiltIn::Val | BuiltIn::Size | BuiltIn::Lock => 1,
        _ => 2,
    }
}
