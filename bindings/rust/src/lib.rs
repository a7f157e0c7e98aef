//! Kobbeskuim: AArch64's saturating complex vector instructions, as safe calls over the archive.
//!
//! Every call of the archive is proved to meet its contract for every input, to stay inside the memory
//! that it is lent, and to end. A slice hands over its own length, so every argument is good, an empty
//! slice too. No call keeps state but in its [`Stream`], so threads may call at the same time.
//!
//! ```
//! use kobbeskuim::{Family, Fields, Size, encode, file_size, register_mut, run};
//!
//! // SQCADD Z0.B, Z0.B, Z1.B, 90 on (100, 0) and (0, -100): the sum 200 is clamped.
//! let word = encode(&Fields { family: Family::SQCADD, size: Size::B, turns: 1, second: 1, ..Fields::default() })?;
//! let mut file = vec![0; file_size(128)];
//! register_mut(128, &mut file, 0)?[0] = 100;
//! register_mut(128, &mut file, 1)?[1] = -100i8 as u8;
//! let ran = run(128, &mut file, false, &[word]);
//! assert_eq!((ran.ended, ran.done, file[0]), (Ok(()), 1, 127));
//! # Ok::<(), kobbeskuim::Refused>(())
//! ```

#![deny(missing_docs)]

use std::fmt;
use std::ops::Range;

/// The legal vector lengths, in bits.
pub const LENGTHS: [usize; 5] = [128, 256, 512, 1024, 2048];

/// The registers of a file.
pub const REGISTERS: usize = 32;

/// The most words of a program.
pub const WORDS_MAX: usize = 4096;

/// The most words that a listing lists; one more gives its LIMIT line.
pub const LIST_WORDS_MAX: usize = 1_048_576;

/// The most bytes of a trace, 64 KiB, but where it comes as a [`Stream`].
pub const TRACE_MAX: usize = 65_536;

/// The most cases that the contents of a trace may name.
pub const CASES_MAX: usize = 1024;

/// The bytes of the longest line.
pub const LINE_MAX: usize = 47;

/// The bytes of a [`Stream`]'s state.
pub const STREAM_SIZE: usize = 20_544;

/// The bytes of a register file: registers 0 to 31 in order, L/8 bytes each, little-endian, element 0
/// first. Register Vn is the first 16 bytes of Zn.
pub const fn file_size(l: usize) -> usize {
    4 * l
}

/// Declares a type of numbers, each with its name, which `Debug` shows, and its text, for `Display`.
macro_rules! numbers {
    ($(#[$attribute:meta])* $type:ident { $($name:ident = $number:literal: $text:literal,)* }) => {
        $(#[$attribute])*
        #[repr(transparent)]
        #[derive(Clone, Copy, PartialEq, Eq, Hash)]
        pub struct $type(
            /// The library's number.
            pub u32,
        );

        impl $type {
            $(
                #[doc = $text]
                pub const $name: Self = Self($number);
            )*

            /// All that have a name.
            pub const ALL: &[Self] = &[$(Self::$name),*];
        }

        impl fmt::Debug for $type {
            fn fmt(&self, f: &mut fmt::Formatter) -> fmt::Result {
                match self.0 {
                    $($number => f.write_str(stringify!($name)),)*
                    other => write!(f, "{other}"),
                }
            }
        }

        impl fmt::Display for $type {
            fn fmt(&self, f: &mut fmt::Formatter) -> fmt::Result {
                f.pad(match self.0 {
                    $($number => $text,)*
                    _ => "no number of these calls",
                })
            }
        }
    };
}

numbers! {
    /// Why a call refuses. `BAD_FIELDS` and `NO_LINE_ROOM` are for C alone: [`Fields`] and [`Stream`] have their
    /// sizes, and [`line()`] has room. `NOT_A_LINE` is [`NotALine`]'s, which says more.
    Refused {
        BAD_LENGTH = 1: "length not a multiple of 128 from 128 to 2,048",
        BAD_SIZE = 2: "file not 4 x L bytes",
        TOO_LONG = 3: "more than 4,096 words",
        OUTSIDE = 4: "word outside the set",
        RESERVED = 5: "reserved word",
        NO_REGISTER = 6: "register above 31",
        NO_SIZE = 7: "size that the family lacks",
        NO_ROTATION = 8: "rotation that the family lacks",
        REGISTER_LIMIT = 9: "register field above its limit",
        INDEX_LIMIT = 10: "index above its limit",
        NOT_POWER_OF_TWO = 11: "length not a power of two",
        NOT_A_LINE = 12: "not a line",
        NO_LINE_ROOM = 13: "room shorter than the line",
        GROUP_START = 14: "first register not a multiple of its group's two or four",
        BAD_CONTENTS = 15: "contents cut short or not allowed",
        BAD_TOTAL = 16: "trace above 64 KiB or not as long as its contents say",
        NO_CASE = 22: "case not below the number of cases",
        BAD_FIELDS = 32: "fields not 8 numbers, or state not 20,544 bytes",
        NO_OPERATION = 33: "fields that name no operation",
    }
}

impl std::error::Error for Refused {}

numbers! {
    /// A family of instructions; the text is the name in a listing.
    #[derive(Default)]
    Family {
        CADD = 0: "CADD",
        SQCADD = 1: "SQCADD",
        CMLA = 2: "CMLA",
        CMLA_I = 3: "CMLA-I",
        SQRDCMLAH = 4: "SQRDCMLAH",
        SQRDCMLAH_I = 5: "SQRDCMLAH-I",
        SQRDMLAH = 6: "SQRDMLAH",
        SQRDMLSH = 7: "SQRDMLSH",
        SQDMULH = 8: "SQDMULH",
    }
}

numbers! {
    /// The size of an element.
    #[derive(Default)]
    Size {
        B = 0: "8 bits",
        H = 1: "16 bits",
        S = 2: "32 bits",
        D = 3: "64 bits",
    }
}

numbers! {
    /// The lanes of SQRDMLAH and SQRDMLSH.
    #[derive(Default)]
    Form {
        SCALAR = 0: "one lane",
        VECTOR_64 = 1: "64 bits of lanes",
        VECTOR_128 = 2: "128 bits of lanes",
    }
}

/// The registers of SQDMULH's group, in place of lanes. As a number two of them are [`Form::VECTOR_128`], and `Debug`
/// shows that name.
impl Form {
    /// A group of two registers.
    pub const TWO: Self = Self(2);
    /// A group of four registers.
    pub const FOUR: Self = Self(4);
}

/// An operation: eight numbers. What its family does not use is 0.
#[repr(C)] // eight `u32` in a row, as the archive has them
#[derive(Clone, Copy, Debug, Default, PartialEq, Eq, Hash)]
pub struct Fields {
    /// The family.
    pub family: Family,
    /// The size of an element.
    pub size: Size,
    /// The lanes of SQRDMLAH and SQRDMLSH, and the registers of SQDMULH's group.
    pub form: Form,
    /// The rotation in quarter turns, 0 to 3; all but SQRDMLAH, SQRDMLSH and SQDMULH.
    pub turns: u32,
    /// Zdn, Zda or Rd; of a group the first.
    pub destination: u32,
    /// Zn or Rn; CADD, SQCADD and SQDMULH have none, for Zdn is their first source.
    pub first: u32,
    /// Zm or Rm.
    pub second: u32,
    /// CMLA-I, SQRDCMLAH-I, SQRDMLAH and SQRDMLSH only.
    pub index: u32,
}

const FIELDS: usize = size_of::<Fields>() / size_of::<u32>();

// include/kobbeskuim.h says what each call does.
#[link(name = "kobbeskuim", kind = "static")]
unsafe extern "C" {
    fn kob_run(l: usize, file: *mut u8, file_length: usize, qc: bool, words: *const u32, word_count: usize) -> u64;
    safe fn kob_register(l: usize, size: usize, n: usize) -> u64;
    fn kob_decode(word: u32, fields: *mut Fields, length: usize) -> u32;
    fn kob_encode(fields: *const Fields, length: usize) -> u64;
    fn kob_line_write(fields: *const Fields, length: usize, out: *mut u8, room: usize) -> u64;
    fn kob_line_read(line: *const u8, length: usize, fields: *mut Fields, fields_length: usize) -> u64;
    fn kob_list(bytes: *const u8, length: usize, out: *mut u8, room: usize) -> u64;
    fn kob_replay(trace: *const u8, length: usize, n: usize) -> u64;
    fn kob_stream_feed(state: *mut u8, state_length: usize, bytes: *const u8, length: usize) -> u64;
    fn kob_stream_end(state: *mut u8, state_length: usize) -> u32;
}

fn answered<T>(number: u32, value: T) -> Result<T, Refused> {
    if number == 0 { Ok(value) } else { Err(Refused(number)) }
}

/// What a run answers.
#[must_use = "a run can be refused, or end before its last word"]
#[derive(Clone, Copy, Debug, PartialEq, Eq)]
pub struct Ran {
    /// Whether all words were done, or why not. `BAD_LENGTH`, `NOT_POWER_OF_TWO`, `BAD_SIZE`, `TOO_LONG`, the
    /// first that applies: nothing is changed. `OUTSIDE`, `RESERVED`: the file and the flag are as after the
    /// words before that word.
    pub ended: Result<(), Refused>,
    /// The words done.
    pub done: usize,
    /// The saturation flag QC that the run leaves.
    pub qc: bool,
}

/// Runs a program of up to [`WORDS_MAX`] words on a file of [`file_size`] bytes, with the flag QC.
/// SQRDMLAH and SQRDMLSH write Vn, and that makes the rest of Zn zero.
///
/// ```
/// use kobbeskuim::{Ran, Refused, run};
///
/// let mut file = [0; 512];
/// assert_eq!(run(128, &mut file, true, &[]), Ran { ended: Ok(()), done: 0, qc: true });
/// // The second word is outside the set.
/// let ran = run(128, &mut file, false, &[0x4500_D800, 0]);
/// assert_eq!(ran, Ran { ended: Err(Refused::OUTSIDE), done: 1, qc: false });
/// ```
pub fn run(l: usize, file: &mut [u8], qc: bool, words: &[u32]) -> Ran {
    // Safety: both parts are slices, and a `&mut` one overlaps no other.
    let r = unsafe { kob_run(l, file.as_mut_ptr(), file.len(), qc, words.as_ptr(), words.len()) };
    Ran { ended: answered((r & 0xFF) as u32, ()), done: ((r >> 16) & 0xFFFF) as usize, qc: (r >> 8) & 1 == 1 }
}

fn place(l: usize, size: usize, n: usize) -> Result<Range<usize>, Refused> {
    let r = kob_register(l, size, n);
    let start = ((r >> 16) & 0xFF_FFFF) as usize;
    answered((r & 0xFF) as u32, start..start + (r >> 40) as usize)
}

/// The bytes of register n in a file, to be read. The first of `BAD_LENGTH`, `NOT_POWER_OF_TWO`, `BAD_SIZE`
/// and `NO_REGISTER` that applies refuses.
///
/// ```
/// use kobbeskuim::{Refused, register};
///
/// assert_eq!(register(128, &[7; 512], 31), Ok(&[7; 16][..]));
/// assert_eq!(register(128, &[7; 512], 32).unwrap_err().to_string(), "register above 31");
/// ```
pub fn register(l: usize, file: &[u8], n: usize) -> Result<&[u8], Refused> {
    Ok(&file[place(l, file.len(), n)?])
}

/// The bytes of register n in a file, to be changed; else as [`register`].
pub fn register_mut(l: usize, file: &mut [u8], n: usize) -> Result<&mut [u8], Refused> {
    let place = place(l, file.len(), n)?;
    Ok(&mut file[place])
}

/// The fields of a word; `OUTSIDE` or `RESERVED` refuses.
///
/// ```
/// use kobbeskuim::{Family, Refused, Size, decode};
///
/// let fields = decode(0x4541_DCA3)?;
/// assert_eq!((fields.family, fields.size, fields.turns), (Family::SQCADD, Size::H, 3));
/// assert_eq!((fields.destination, fields.second), (3, 5));
/// assert_eq!(decode(0x2F00_F000), Err(Refused::RESERVED));
/// # Ok::<(), Refused>(())
/// ```
pub fn decode(word: u32) -> Result<Fields, Refused> {
    let mut fields = Fields::default();
    // Safety: the part is our own.
    let number = unsafe { kob_decode(word, &raw mut fields, FIELDS) };
    answered(number, fields)
}

/// The word of the operation that the fields name.
///
/// `NO_OPERATION` refuses a family, size, form or turns that there are not, and a field that the family does
/// not use and that is not 0; then the first of `NO_SIZE`, `NO_ROTATION`, `REGISTER_LIMIT`, `GROUP_START` and
/// `INDEX_LIMIT` that applies. The fields of [`decode`] give the word that was decoded.
///
/// ```
/// use kobbeskuim::{Family, Fields, Form, Refused, Size, encode};
///
/// let mut fields = Fields {
///     family: Family::SQRDMLSH,
///     size: Size::H,
///     form: Form::VECTOR_64,
///     turns: 0,
///     destination: 0,
///     first: 1,
///     second: 2,
///     index: 7,
/// };
/// assert_eq!(encode(&fields), Ok(0x2F72_F820));
/// fields.index = 8;
/// assert_eq!(encode(&fields), Err(Refused::INDEX_LIMIT));
/// ```
pub fn encode(fields: &Fields) -> Result<u32, Refused> {
    // Safety: the part is a reference's.
    let r = unsafe { kob_encode(fields, FIELDS) };
    answered(r as u32, (r >> 32) as u32)
}

/// The line of the operation that the fields name: its assembler text, of at most [`LINE_MAX`] bytes, with no line
/// end. Refuses as [`encode`], so each operation that has a word has a line, and no two have the same.
///
/// ```
/// use kobbeskuim::{Refused, decode, line};
///
/// let mut fields = decode(0x44BA_7420)?;
/// assert_eq!(line(&fields)?, "SQRDCMLAH Z0.H, Z1.H, Z2.H[3], #90");
/// fields.index = 4;
/// assert_eq!(line(&fields), Err(Refused::INDEX_LIMIT));
/// # Ok::<(), Refused>(())
/// ```
pub fn line(fields: &Fields) -> Result<String, Refused> {
    let mut out = vec![0; LINE_MAX];
    // Safety: the first part is a reference's, and `out` is new.
    let r = unsafe { kob_line_write(fields, FIELDS, out.as_mut_ptr(), out.len()) };
    answered(r as u32, ())?;
    out.truncate((r >> 32) as usize);
    Ok(String::from_utf8(out).expect("a line is ASCII"))
}

/// A text that is no line, by [`read_line`].
#[derive(Clone, Copy, Debug, PartialEq, Eq, Hash)]
pub struct NotALine {
    /// The length of the longest beginning of the text that some line has. Where it is the text's own, a line was cut
    /// off; else the byte at this place, counted from 0, is the first that no line has there.
    pub reach: usize,
}

impl fmt::Display for NotALine {
    fn fmt(&self, f: &mut fmt::Formatter) -> fmt::Result {
        write!(f, "{} from byte {} on", Refused::NOT_A_LINE, self.reach)
    }
}

impl std::error::Error for NotALine {}

/// The fields of the operation whose line the whole text is. No byte above 127, zero byte or line end belongs to a
/// line.
///
/// ```
/// use kobbeskuim::{NotALine, encode, line, read_line};
///
/// let text = "SQRDMLSH V0.4H, V1.4H, V2.H[7]";
/// let fields = read_line(text)?;
/// assert_eq!((encode(&fields), line(&fields)), (Ok(0x2F72_F820), Ok(text.into())));
/// // The destination, which CADD has as its first source too, is another.
/// assert_eq!(read_line("CADD Z0.B, Z1.B, Z2.B, #90"), Err(NotALine { reach: 12 }));
/// assert_eq!(read_line("CADD Z0.B, ").unwrap_err().to_string(), "not a line from byte 11 on");
/// # Ok::<(), NotALine>(())
/// ```
pub fn read_line(text: impl AsRef<[u8]>) -> Result<Fields, NotALine> {
    let (text, mut fields) = (text.as_ref(), Fields::default());
    // Safety: the first part is a slice, and the other our own.
    let r = unsafe { kob_line_read(text.as_ptr(), text.len(), &raw mut fields, FIELDS) };
    if r == 0 { Ok(fields) } else { Err(NotALine { reach: (r >> 32) as usize }) }
}

/// The listing of all little-endian 4-byte words of a buffer.
///
/// ```
/// let words = [0x4501_D800u32, 0x2F00_F000, 0].map(u32::to_le_bytes);
/// let text = "4501D800 SQCADD\n2F00F000 RESERVED\n00000000 OUTSIDE\nTOTAL 3\n";
/// assert_eq!(kobbeskuim::list(words.as_flattened()), text);
/// ```
pub fn list(bytes: &[u8]) -> String {
    let mut out = vec![0; 21 * (bytes.len() / 4) + 32];
    // Safety: both parts are slices, and `out` is new.
    let length = unsafe { kob_list(bytes.as_ptr(), bytes.len(), out.as_mut_ptr(), out.len()) };
    out.truncate(length as usize);
    String::from_utf8(out).expect("a listing is ASCII")
}

/// What is said of a case of a trace. A place is counted from 0.
#[derive(Clone, Copy, Debug, PartialEq, Eq, Hash)]
pub enum Verdict {
    /// The run leaves the file and the flag that were recorded.
    Agrees,
    /// The first byte of the file that differs; `place / (l / 8)` is its register.
    FileDiffers(usize),
    /// The file agrees, and the flag does not.
    FlagDiffers,
    /// The run stopped at this word, which is outside the set. Nothing was compared.
    Outside(usize),
    /// The run stopped at this word, which is reserved. Nothing was compared.
    Reserved(usize),
    /// QC before or after is neither 0 nor 1, whatever else the case holds.
    BadFlag,
}

impl fmt::Display for Verdict {
    fn fmt(&self, f: &mut fmt::Formatter) -> fmt::Result {
        match self {
            Self::Agrees => f.pad("agrees"),
            Self::FileDiffers(place) => write!(f, "file differs at byte {place}"),
            Self::FlagDiffers => f.pad("flag differs"),
            Self::Outside(word) => write!(f, "stopped at word {word}: {}", Refused::OUTSIDE),
            Self::Reserved(word) => write!(f, "stopped at word {word}: {}", Refused::RESERVED),
            Self::BadFlag => f.pad("flag neither 0 nor 1"),
        }
    }
}

/// The verdict in an answer of `kob_replay` or `kob_stream_feed`. Kind 0 is none.
fn verdict(answer: u64) -> Option<Verdict> {
    let place = ((answer >> 16) & 0xFFFF) as usize;
    Some(match (answer >> 8) & 0xFF {
        0 => return None,
        1 => Verdict::Agrees,
        2 => Verdict::FileDiffers(place),
        3 => Verdict::FlagDiffers,
        4 => Verdict::Outside(place),
        5 => Verdict::Reserved(place),
        17 => Verdict::BadFlag,
        kind => unreachable!("a verdict of kind {kind}"),
    })
}

/// The verdict on case n, counted from 0, of a recorder's trace of up to [`TRACE_MAX`] bytes. The first of
/// `BAD_CONTENTS`, `BAD_TOTAL` and `NO_CASE` that applies refuses; include/kobbeskuim.h says how a trace is made.
///
/// ```
/// use kobbeskuim::{Refused, Verdict, file_size, replay};
///
/// // One case, at 128 bits, of no words, its body at byte 16: QC, the file, QC and the file, all of zeros.
/// let mut trace = [1u32, 128, 0, 16].map(u32::to_le_bytes).concat();
/// trace.resize(16 + 2 * (4 + file_size(128)), 0);
/// assert_eq!(replay(&trace, 0), Ok(Verdict::Agrees));
/// assert_eq!(replay(&trace, 1), Err(Refused::NO_CASE));
/// *trace.last_mut().unwrap() = 1;
/// assert_eq!(replay(&trace, 0), Ok(Verdict::FileDiffers(511)));
/// ```
pub fn replay(trace: &[u8], n: usize) -> Result<Verdict, Refused> {
    // Safety: the part is a slice.
    let r = unsafe { kob_replay(trace.as_ptr(), trace.len(), n) };
    answered((r & 0xFF) as u32, ())?;
    Ok(verdict(r).expect("a case that is there has a verdict"))
}

/// What [`Stream::feed`] tells.
#[derive(Clone, Copy, Debug, PartialEq, Eq, Hash)]
pub enum Told {
    /// No byte of the piece brought anything.
    Nothing,
    /// The verdict on the next case.
    Case(Verdict),
    /// The stream is over: by a refusal, or as [`Stream::end`] answered.
    Over(Result<(), Refused>),
}

/// How many bytes [`Stream::feed`] took, and what it tells.
#[must_use = "what was not taken is to be handed in again, and a verdict is told once"]
#[derive(Clone, Copy, Debug, PartialEq, Eq, Hash)]
pub struct Fed {
    /// The bytes up to and with the one that brought something, else all; 0 where the stream was over. The rest is
    /// to be handed in again.
    pub taken: usize,
    /// What the last of them brought.
    pub told: Told,
}

/// A recorder's trace that comes in pieces, of any size. However it is cut, the verdicts and the end are those of one
/// whole piece, and each verdict is the one that [`replay`] gives the case.
///
/// ```
/// use kobbeskuim::{Refused, Stream, Told, Verdict, file_size};
///
/// // One case, at 128 bits, of no words, its body at byte 16: QC, the file, QC and the file, all of zeros.
/// let mut trace = [1u32, 128, 0, 16].map(u32::to_le_bytes).concat();
/// trace.resize(16 + 2 * (4 + file_size(128)), 0);
///
/// // The verdicts on a trace that comes in these pieces, and how it ends.
/// fn judge<'a>(pieces: impl Iterator<Item = &'a [u8]>) -> (Vec<Verdict>, Result<(), Refused>) {
///     let (mut stream, mut verdicts) = (Stream::new(), vec![]);
///     for mut rest in pieces {
///         while !rest.is_empty() {
///             let fed = stream.feed(rest);
///             match fed.told {
///                 Told::Nothing => {}
///                 Told::Case(verdict) => verdicts.push(verdict),
///                 Told::Over(_) => break,
///             }
///             rest = &rest[fed.taken..];
///         }
///     }
///     (verdicts, stream.end())
/// }
/// assert_eq!(judge(trace.chunks(100)), (vec![Verdict::Agrees], Ok(())));
/// assert_eq!(judge(trace[..1000].chunks(7)), (vec![], Err(Refused::BAD_TOTAL)));
/// ```
#[derive(Clone)]
pub struct Stream {
    state: Box<[u8; STREAM_SIZE]>,
    /// Ended with no refusal: `kob_stream_feed` answers then as while nothing falls due, with no byte taken.
    complete: bool,
}

impl Stream {
    /// Before the first byte.
    pub fn new() -> Self {
        Self { state: Box::new([0; STREAM_SIZE]), complete: false }
    }

    /// Hands in the next bytes, of which there may be none. A verdict falls due with the last byte of its case's body;
    /// `BAD_CONTENTS` with the last byte of the first number of the contents that is not allowed; `BAD_TOTAL` with the
    /// first byte past the last body.
    pub fn feed(&mut self, bytes: &[u8]) -> Fed {
        // Safety: both parts are slices, and the state is this stream's own.
        let r = unsafe { kob_stream_feed(self.state.as_mut_ptr(), STREAM_SIZE, bytes.as_ptr(), bytes.len()) };
        let told = match (answered((r & 0xFF) as u32, ()), verdict(r)) {
            (Err(refused), _) => Told::Over(Err(refused)),
            (Ok(()), Some(verdict)) => Told::Case(verdict),
            (Ok(()), None) if self.complete => Told::Over(Ok(())),
            (Ok(()), None) => Told::Nothing,
        };
        Fed { taken: (r >> 32) as usize, told }
    }

    /// Says that no byte follows. `BAD_CONTENTS` where the contents are not whole, `BAD_TOTAL` where a body is missing
    /// or not whole; after a refusal or an end that same answer.
    pub fn end(&mut self) -> Result<(), Refused> {
        // Safety: the part is a slice, and this stream's own.
        let number = unsafe { kob_stream_end(self.state.as_mut_ptr(), STREAM_SIZE) };
        self.complete = number == 0;
        answered(number, ())
    }
}

impl Default for Stream {
    fn default() -> Self {
        Self::new()
    }
}

impl fmt::Debug for Stream {
    fn fmt(&self, f: &mut fmt::Formatter) -> fmt::Result {
        f.debug_struct("Stream").field("complete", &self.complete).finish_non_exhaustive()
    }
}
