//! What is wrong with a file, a text or a call.
#![forbid(unsafe_code)]

use std::alloc::{handle_alloc_error, Layout};
use std::error;
use std::fmt;
use std::io;
use std::path::{Path, PathBuf};

use crate::ffi;
use crate::pattern::Role;

/// An enum of reasons, with their numbers and names.
macro_rules! reasons {
    ($(#[$about:meta])* $reasons:ident { $($(#[$doc:meta])* $name:ident = $number:ident,)* }) => {
        $(#[$about])*
        #[derive(Debug, Clone, Copy, PartialEq, Eq, PartialOrd, Ord, Hash)]
        #[non_exhaustive]
        #[repr(u32)]
        pub enum $reasons {
            $($(#[$doc])* $name = ffi::$number,)*
        }

        impl $reasons {
            /// Its number in the documents and in `hdt.h`.
            pub const fn number(self) -> u32 {
                self as u32
            }

            /// Its name in the documents.
            pub const fn name(self) -> &'static str {
                match self {
                    $(Self::$name => stringify!($name),)*
                }
            }

            fn of(number: u32) -> Option<Self> {
                match number {
                    $(ffi::$number => Some(Self::$name),)*
                    _ => None,
                }
            }
        }

        impl fmt::Display for $reasons {
            fn fmt(&self, f: &mut fmt::Formatter<'_>) -> fmt::Result {
                f.pad(self.name())
            }
        }
    };
}

reasons! {
    /// Why bytes are not a valid HDT file. `docs/FORMAT.md` has the checks of each reason.
    FileReason {
        /// The file ends within a part.
        Truncated = HDT_FILE_TRUNCATED,
        /// A variable-length number is longer than it has to be.
        OverlongNumber = HDT_FILE_OVERLONG_NUMBER,
        /// A variable-length number is 2^64 or above.
        NumberTooLarge = HDT_FILE_NUMBER_TOO_LARGE,
        /// Control information does not begin with `$HDT`.
        NotHdt = HDT_FILE_NOT_HDT,
        /// Control information is of another kind than belongs there.
        WrongKind = HDT_FILE_WRONG_KIND,
        /// The CRC-16 of control information differs.
        Check16 = HDT_FILE_CHECK16,
        /// The format of a part is another one than four-section dictionaries and bitmap triples.
        WrongFormat = HDT_FILE_WRONG_FORMAT,
        /// The header's property `length` is missing or no number.
        HeaderLength = HDT_FILE_HEADER_LENGTH,
        /// The order of triples is not subject, predicate, object.
        TripleOrder = HDT_FILE_TRIPLE_ORDER,
        /// A CRC-8 differs.
        Check8 = HDT_FILE_CHECK8,
        /// A CRC-32C differs.
        Check32 = HDT_FILE_CHECK32,
        /// There is no log sequence where one belongs.
        SequenceKind = HDT_FILE_SEQUENCE_KIND,
        /// The width of a log sequence is above 64 bits.
        Width = HDT_FILE_WIDTH,
        /// There is no bitmap where one belongs.
        BitsKind = HDT_FILE_BITS_KIND,
        /// There is no front-coded section where one belongs.
        SectionKind = HDT_FILE_SECTION_KIND,
        /// The block size of a section with strings is 0.
        BlockSize = HDT_FILE_BLOCK_SIZE,
        /// A section has too many or too few block offsets.
        BlockCount = HDT_FILE_BLOCK_COUNT,
        /// A block offset is not where its block begins.
        BlockPlace = HDT_FILE_BLOCK_PLACE,
        /// A string shares more bytes with the one before than that has.
        PrefixTooLong = HDT_FILE_PREFIX_TOO_LONG,
        /// The strings of a section end before or after its packed bytes.
        PackedLength = HDT_FILE_PACKED_LENGTH,
        /// A string is not UTF-8.
        NotUtf8 = HDT_FILE_NOT_UTF8,
        /// A string is not greater than the one before.
        StringsNotAscending = HDT_FILE_STRINGS_NOT_ASCENDING,
        /// A string is in two of the sections shared, subjects and objects.
        SectionsOverlap = HDT_FILE_SECTIONS_OVERLAP,
        /// There are no triples.
        NoTriples = HDT_FILE_NO_TRIPLES,
        /// A bitmap and its log sequence have different lengths.
        LengthsDiffer = HDT_FILE_LENGTHS_DIFFER,
        /// The last bit of a bitmap is 0.
        LastMark = HDT_FILE_LAST_MARK,
        /// The bitmap of triples has more or fewer 1-bits than there are pairs.
        MarkCount = HDT_FILE_MARK_COUNT,
        /// There are more subjects among the triples than in the dictionary.
        SubjectRange = HDT_FILE_SUBJECT_RANGE,
        /// The dictionary does not have a predicate's ID.
        PredicateRange = HDT_FILE_PREDICATE_RANGE,
        /// The dictionary does not have an object's ID.
        ObjectRange = HDT_FILE_OBJECT_RANGE,
        /// The predicates of a subject do not ascend.
        PredicatesNotAscending = HDT_FILE_PREDICATES_NOT_ASCENDING,
        /// The objects of a subject and a predicate do not ascend.
        ObjectsNotAscending = HDT_FILE_OBJECTS_NOT_ASCENDING,
        /// Bytes follow the file's last part.
        TrailingBytes = HDT_FILE_TRAILING_BYTES,
        /// No triple uses a string in the role of its section. Only [`verify_tight`](crate::verify_tight) reports it.
        Unused = HDT_FILE_UNUSED,
    }
}

reasons! {
    /// Why a text is not N-Triples. `docs/NTRIPLES.md` has the rows of each reason.
    TextReason {
        /// The text does not follow the grammar.
        Syntax = HDT_TEXT_SYNTAX,
        /// The line is not UTF-8.
        NotUtf8 = HDT_TEXT_NOT_UTF8,
        /// A backslash begins no escape that is allowed there.
        BadEscape = HDT_TEXT_BAD_ESCAPE,
        /// An IRI is not absolute.
        RelativeIri = HDT_TEXT_RELATIVE_IRI,
        /// An escape gives a character that no IRI may have.
        IriCharacter = HDT_TEXT_IRI_CHARACTER,
        /// A literal has the character U+0000.
        ZeroCharacter = HDT_TEXT_ZERO_CHARACTER,
        /// Reading failed. No call of this crate reports it.
        Read = HDT_TEXT_READ,
        /// Memory ran out. Calls of this crate report [`Error::OutOfMemory`] instead.
        OutOfMemory = HDT_TEXT_OUT_OF_MEMORY,
        /// The text is too long.
        TooLong = HDT_TEXT_TOO_LONG,
    }
}

/// The first error of a file.
#[derive(Debug, Clone, Copy, PartialEq, Eq, Hash)]
pub struct FileError {
    /// The check that failed.
    pub reason: FileReason,
    /// Where, in bytes from the start of the file.
    pub offset: u64,
}

/// The first error of an N-Triples text.
#[derive(Debug, Clone, Copy, PartialEq, Eq, Hash)]
pub struct TextError {
    /// What is wrong.
    pub reason: TextReason,
    /// The line, from 1.
    pub line: u64,
    /// The column, in bytes of the line from 1; 0 if the error is that of the whole line.
    pub column: u64,
}

/// Why a call failed.
#[derive(Debug, Clone, Copy, PartialEq, Eq, Hash)]
#[non_exhaustive]
pub enum Error {
    /// The bytes are not a valid HDT file.
    File(FileError),
    /// The text is not N-Triples.
    Text(TextError),
    /// The text has no triples, so there is no file of it; or there are no graphs to merge.
    NoTriples,
    /// The block size is 0, the base is not an absolute IRI, or the number of parts is not 1 to 65,536.
    BadOptions,
    /// A string of the graph can't be written as N-Triples in its role.
    NotATerm {
        /// The role of the string.
        role: Role,
        /// Its ID in this role.
        id: u64,
    },
    /// Memory ran out. The input may be valid, and the call may be made again.
    OutOfMemory,
}

/// Why a call that takes paths failed, and at which of them.
#[derive(Debug)]
#[non_exhaustive]
pub struct PathError {
    /// The path, as it was given.
    pub path: PathBuf,
    /// What is wrong.
    pub cause: Cause,
}

/// What is wrong with the file at a path.
#[derive(Debug)]
#[non_exhaustive]
pub enum Cause {
    /// It can't be read or written.
    Io(io::Error),
    /// The error that the call for bytes in memory has.
    Hdt(Error),
}

impl From<Error> for Cause {
    fn from(error: Error) -> Cause {
        Cause::Hdt(error)
    }
}

impl From<io::Error> for Cause {
    fn from(error: io::Error) -> Cause {
        match error.kind() {
            io::ErrorKind::OutOfMemory => Cause::Hdt(Error::OutOfMemory),
            _ => Cause::Io(error),
        }
    }
}

impl PathError {
    pub(crate) fn new(path: &Path, cause: impl Into<Cause>) -> PathError {
        PathError { path: path.to_owned(), cause: cause.into() }
    }
}

impl fmt::Display for FileError {
    fn fmt(&self, f: &mut fmt::Formatter<'_>) -> fmt::Result {
        write!(f, "not a valid HDT file: {} at byte {}", self.reason, self.offset)
    }
}

impl fmt::Display for TextError {
    fn fmt(&self, f: &mut fmt::Formatter<'_>) -> fmt::Result {
        write!(f, "not N-Triples: {} in line {}, column {}", self.reason, self.line, self.column)
    }
}

impl fmt::Display for Error {
    fn fmt(&self, f: &mut fmt::Formatter<'_>) -> fmt::Result {
        match self {
            Error::File(error) => error.fmt(f),
            Error::Text(error) => error.fmt(f),
            Error::NoTriples => f.write_str("the text has no triples"),
            Error::BadOptions => {
                f.write_str("the block size is 0, the base no absolute IRI, or the number of parts not 1 to 65536")
            }
            Error::NotATerm { role, id } => write!(f, "{role} {id} is not a term of N-Triples"),
            Error::OutOfMemory => f.write_str("out of memory"),
        }
    }
}

impl fmt::Display for Cause {
    fn fmt(&self, f: &mut fmt::Formatter<'_>) -> fmt::Result {
        match self {
            Cause::Io(error) => error.fmt(f),
            Cause::Hdt(error) => error.fmt(f),
        }
    }
}

impl fmt::Display for PathError {
    fn fmt(&self, f: &mut fmt::Formatter<'_>) -> fmt::Result {
        write!(f, "{}: {}", self.path.display(), self.cause)
    }
}

impl error::Error for PathError {}
impl error::Error for FileError {}
impl error::Error for TextError {}
impl error::Error for Error {}

impl Error {
    /// The error of a call on a file, by its reason, which is not 0.
    pub(crate) fn of_file(reason: u32, offset: u64) -> Error {
        match FileReason::of(reason) {
            Some(reason) => Error::File(FileError { reason, offset }),
            None => Error::other(reason),
        }
    }

    /// The error of a call on a text, by its reason, which is not 0.
    pub(crate) fn of_text(reason: u32, line: u64, column: u64) -> Error {
        match TextReason::of(reason) {
            Some(reason) => Error::Text(TextError { reason, line, column }),
            None => Error::other(reason),
        }
    }

    /// The error of a reason that is none of a file or text, and not 0.
    pub(crate) fn other(reason: u32) -> Error {
        match reason {
            ffi::HDT_NO_TRIPLES => Error::NoTriples,
            ffi::HDT_BAD_OPTIONS => Error::BadOptions,
            ffi::HDT_OUT_OF_MEMORY => Error::OutOfMemory,
            ffi::HDT_IS_CLOSED | ffi::HDT_IS_OPEN => {
                unreachable!("a handle is opened once, and open until it is dropped")
            }
            _ => unreachable!("libhdt is newer than this crate: it has a reason {reason}"),
        }
    }
}

/// Ends the process as Rust does if there is no memory for a value: for calls that return one of about this size, and
/// no error.
pub(crate) fn abort_without_memory(bytes: usize) -> ! {
    handle_alloc_error(Layout::array::<u8>(bytes).unwrap_or(Layout::new::<u8>()))
}

#[cfg(test)]
mod tests {
    use std::io;
    use std::path::Path;

    use super::{Cause, Error, FileReason, PathError, TextReason};
    use crate::ffi;

    fn name_of(call: fn(u32, &mut [u8]) -> u64, number: u32) -> String {
        let mut name = vec![0; ffi::HDT_NAME_ROOM];
        let len = ffi::size(call(number, &mut name));
        name.truncate(len);
        String::from_utf8(name).unwrap()
    }

    #[test]
    fn names_are_those_of_the_library() {
        for number in 1..=ffi::HDT_FILE_UNUSED {
            assert_eq!(FileReason::of(number).unwrap().name(), name_of(ffi::reason_name, number));
        }
        for number in 1..=ffi::HDT_TEXT_TOO_LONG {
            assert_eq!(TextReason::of(number).unwrap().name(), name_of(ffi::text_reason_name, number));
        }
    }

    #[test]
    fn reasons_have_numbers_and_names() {
        for number in 1..=ffi::HDT_FILE_UNUSED {
            assert_eq!(FileReason::of(number).map(FileReason::number), Some(number));
        }
        for number in 1..=ffi::HDT_TEXT_TOO_LONG {
            assert_eq!(TextReason::of(number).map(TextReason::number), Some(number));
        }
        assert_eq!((FileReason::of(0), FileReason::of(ffi::HDT_OUT_OF_MEMORY)), (None, None));
        assert_eq!((TextReason::of(0), TextReason::of(ffi::HDT_NO_TRIPLES)), (None, None));
        assert_eq!((FileReason::Check16.name(), TextReason::NotUtf8.name()), ("Check16", "NotUtf8"));
    }

    #[test]
    fn every_reason_of_a_call_is_an_error() {
        assert_eq!(Error::of_text(ffi::HDT_NO_TRIPLES, 0, 0), Error::NoTriples);
        assert_eq!(Error::of_file(ffi::HDT_BAD_OPTIONS, 0), Error::BadOptions);
        assert_eq!(Error::of_file(ffi::HDT_OUT_OF_MEMORY, 0), Error::OutOfMemory);
    }

    #[test]
    fn messages_say_what_and_where() {
        let messages = [
            (Error::of_file(33, 457), "not a valid HDT file: TrailingBytes at byte 457"),
            (Error::of_text(1, 3, 7), "not N-Triples: Syntax in line 3, column 7"),
            (Error::NoTriples, "the text has no triples"),
            (Error::BadOptions, "the block size is 0, the base no absolute IRI, or the number of parts not 1 to 65536"),
            (Error::OutOfMemory, "out of memory"),
        ];
        for (error, message) in messages {
            assert_eq!(error.to_string(), message);
        }
    }
    #[test]
    fn errors_of_paths_have_one_kind_for_memory() {
        let error = PathError::new(Path::new("a/b"), io::Error::from(io::ErrorKind::OutOfMemory));
        assert!(matches!(error.cause, Cause::Hdt(Error::OutOfMemory)));
        assert_eq!(error.to_string(), "a/b: out of memory");
        let error = PathError::new(Path::new("a/b"), io::Error::from(io::ErrorKind::NotFound));
        assert!(matches!(error.cause, Cause::Io(error) if error.kind() == io::ErrorKind::NotFound));
    }
}
