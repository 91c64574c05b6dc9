//! Counting types for line messages: safe calls of libct.a, which `bash tools/build ct` writes (x86-64 Linux).
//!
//! The directory of libct.a is a library search path of the compiler: `rustc -L native=crates/ct/out`, or for cargo
//! `RUSTFLAGS="-L native=$PWD/crates/ct/out"`. The archive becomes part of this crate's rlib.
//!
//! Layouts, places and the profile are document 01's, texts and key books those of change 1. No call keeps anything, and each
//! answer depends on its inputs alone. Lengths are looked at first, then the equivalence or the book, then the bytes.

pub mod raw;

/// Bytes of a value record.
pub const VALUE_RECORD: usize = 8;

/// Bytes of a type record: kind, zero, key (2), span (4), count (8), and the lengths of the arrays at that place, which are numbers of
/// elements: the shortest in bytes 16-19 and the longest in 20-23. Both are zero in all kinds but 6.
///
/// All numbers are unsigned and little-endian. Where arrays come together, by [`merge`] or [`fold`], the smaller of the shortest and the
/// larger of the longest lengths stay.
pub const TYPE_RECORD: usize = 24;

/// Bytes of a record of the types that [`remove`] takes and leaves: the first ones of a type record, without the lengths.
///
/// Types stored before there were lengths are such types. Every other call refuses them, by [`Refusal::Length`], [`Refusal::FirstType`]
/// or [`Refusal::SecondType`], and what they tell of must be inferred anew; in the same way [`remove`] refuses types with lengths. Only
/// the empty type is one for every call.
pub const REMOVAL_RECORD: usize = 16;

/// Bytes of an entry of [`infer_tag_bus`].
pub const ENTRY: usize = 16;

/// Bytes of a record of a key book.
pub const BOOK_RECORD: usize = 32;

/// The most bytes of a table, a text, a key book, entries, and of types and arenas of [`remove`].
pub const LONGEST: usize = 65_536;

/// The most bytes of any other type or arena: 2,730 records.
pub const LARGEST_ARENA: usize = 65_520;

/// When two values have one class.
#[derive(Clone, Copy, Debug, PartialEq, Eq)]
pub enum Equivalence {
    /// When they have one kind.
    Kind = 0,
    /// When they have one kind and, if they are records, the same keys.
    ///
    /// The records of a union ascend by their key lists: shorter lists first, and lists of one length by their first differing key.
    /// Earlier the first differing key alone settled the order, and a list that begins the other came first: a type stored in that
    /// order is not well formed, [`Refusal::FirstType`] or [`Refusal::SecondType`], unless both orders agree.
    Label = 1,
}

/// Why a call refuses its input. A `place` is the value record with the fault, counted from 0, or for [`read_text`] the byte.
#[derive(Clone, Copy, Debug, PartialEq, Eq)]
pub enum Refusal {
    /// A length is no multiple of its record size ([`VALUE_RECORD`], [`TYPE_RECORD`], [`REMOVAL_RECORD`], [`ENTRY`] or [`BOOK_RECORD`])
    /// or is above [`LONGEST`], or the working buffer's length is not the arena's.
    Length,
    /// The equivalence is neither 0 nor 1; only the forms in [`raw`] can be given such a number.
    Equivalence,
    /// The kind is not 1 to 6, or byte 1 is not zero.
    Kind { place: usize },
    /// The span is 0, passes the end of the parent or of the table, or is over 1 for kinds 1 to 4.
    Span { place: usize },
    /// A field has key 0, or another value has a key.
    Key { place: usize },
    /// A field's key is above 64, which [`infer_tag_bus`] alone refuses.
    Large { place: usize },
    /// An earlier field of the same record has this key. In a text the place is its closing quote.
    Repeat { place: usize },
    /// It is the 257th field of one record. In a text the place is the closing quote of its key.
    Fields { place: usize },
    /// The value has depth 33. In a text the place is its first byte.
    Depth { place: usize },
    /// The first or only type is not well formed.
    FirstType,
    /// The second type is not well formed.
    SecondType,
    /// A union of the merged or folded type would total above 1,000,000,000,000,000.
    Total,
    /// No well-formed type merged with the part gives the whole.
    NotPart,
    /// The resulting type has more records than the arena, or more addends of kind 5 than there are entries.
    Room,
    /// The table is full where a value of the text starts.
    Full { place: usize },
    /// The text cannot go on with this byte, or is not finished where it ends.
    Grammar { place: usize },
    /// The key that ends with this quote is not in the book, or is spelled with an escape.
    Unlisted { place: usize },
    /// The key book is a bad one.
    Book,
}

impl Refusal {
    /// The number of documents 01 and 02, 1 to 17.
    pub fn number(self) -> u64 {
        match self {
            Refusal::Length => 1,
            Refusal::Equivalence => 2,
            Refusal::Kind { .. } => 3,
            Refusal::Span { .. } => 4,
            Refusal::Key { .. } => 5,
            Refusal::Repeat { .. } => 6,
            Refusal::Depth { .. } => 7,
            Refusal::FirstType => 8,
            Refusal::SecondType => 9,
            Refusal::Total => 10,
            Refusal::Room | Refusal::Full { .. } => 11,
            Refusal::Grammar { .. } => 12,
            Refusal::Unlisted { .. } => 13,
            Refusal::Book => 14,
            Refusal::Fields { .. } => 15,
            Refusal::NotPart => 16,
            Refusal::Large { .. } => 17,
        }
    }

    /// The value record or the byte with the fault; 0 where the refusal is not about one.
    pub fn place(self) -> usize {
        match self {
            Refusal::Kind { place }
            | Refusal::Span { place }
            | Refusal::Key { place }
            | Refusal::Large { place }
            | Refusal::Repeat { place }
            | Refusal::Fields { place }
            | Refusal::Depth { place }
            | Refusal::Full { place }
            | Refusal::Grammar { place }
            | Refusal::Unlisted { place } => place,
            _ => 0,
        }
    }
}

/// Call 1. Gives the number of messages of a value table.
///
/// A table with a fault is refused for its first record with one, and there for the first that it has of `Kind`, `Span`, `Key`,
/// `Repeat`, `Fields` and `Depth`. An empty table is accepted.
pub fn judge_table(table: &[u8]) -> Result<usize, Refusal> {
    raw::judge_table(table).result()
}

/// Call 2. Writes the profile of a table's messages at the front of the arena, and gives its number of records.
///
/// Both buffers have one length and may hold any bytes. Accepted, the arena behind the profile and the working buffer are zero;
/// refused, both buffers are. A table is refused as by [`judge_table`]; a profile that the arena has no room for, by
/// [`Refusal::Room`].
///
/// ```
/// use ct::{infer, Equivalence, TYPE_RECORD};
///
/// // Two messages: an array without elements, and one with two nulls.
/// let empty = [6, 0, 0, 0, 1, 0, 0, 0];
/// let null = [1, 0, 0, 0, 1, 0, 0, 0];
/// let two = [[6, 0, 0, 0, 3, 0, 0, 0], null, null].concat();
/// let table = [&empty[..], &two].concat();
/// let [mut arena, mut work] = [[0; 2 * TYPE_RECORD]; 2];
/// assert_eq!(infer(&table, Equivalence::Kind, &mut arena, &mut work), Ok(2));
///
/// // The arrays: two of them, the shortest with no element and the longest with two.
/// assert_eq!(arena[8..16], 2u64.to_le_bytes());
/// assert_eq!(arena[16..20], 0u32.to_le_bytes());
/// assert_eq!(arena[20..24], 2u32.to_le_bytes());
/// ```
pub fn infer(
    table: &[u8],
    equivalence: Equivalence,
    arena: &mut [u8],
    work: &mut [u8],
) -> Result<usize, Refusal> {
    raw::infer(table, equivalence as u64, arena, work).result()
}

/// Call 3. The same as [`infer`] under the house default, [`Equivalence::Label`].
///
/// Judge and merge its types under [`Equivalence::Label`]. Earlier the house default was [`Equivalence::Kind`]. Types that this call
/// made then have records of [`REMOVAL_RECORD`] bytes: [`remove`] alone takes them, under [`Equivalence::Kind`]. Under
/// [`Equivalence::Label`] such a type is not well formed, unless each of its fields has the count of its record. A type under label may
/// have more records than the one under kind, which [`fold`] makes of it.
///
/// ```
/// use ct::{infer_default, merge, Equivalence, Refusal, TYPE_RECORD};
///
/// // Two records: one without fields, and one with a null at key 1.
/// let empty = [5, 0, 0, 0, 1, 0, 0, 0];
/// let with_null = [5, 0, 0, 0, 2, 0, 0, 0, 1, 0, 1, 0, 1, 0, 0, 0];
/// let table = [&empty[..], &with_null].concat();
/// let [mut arena, mut work, mut merged] = [[0; 4 * TYPE_RECORD]; 3];
/// let records = infer_default(&table, &mut arena, &mut work)?;
/// let inferred = &arena[..TYPE_RECORD * records];
/// assert_eq!(merge(inferred, inferred, Equivalence::Label, &mut merged), Ok(4));
///
/// let refused = merge(inferred, inferred, Equivalence::Kind, &mut merged);
/// assert_eq!(refused, Err(Refusal::FirstType));
/// # Ok::<(), Refusal>(())
/// ```
pub fn infer_default(table: &[u8], arena: &mut [u8], work: &mut [u8]) -> Result<usize, Refusal> {
    raw::infer_default(table, arena, work).result()
}

/// Call 4. Gives the number of records of a type that is well formed under the equivalence, fields included.
///
/// Any other type is refused, and so is a whole arena with zeros behind its type. The empty type is well formed, and a record
/// of a type may have any number of fields. The order of key lists is told at [`Equivalence::Label`].
///
/// Lengths agree with counts. Where n arrays have m elements in all, shortest is at most longest, longest at most 8,192, longest and
/// n - 1 times shortest together at most m, and m at most shortest and n - 1 times longest together. So one array has both equal to m,
/// and arrays without elements have 0 and 0.
///
/// ```
/// use ct::{judge_type, Equivalence, Refusal, REMOVAL_RECORD, TYPE_RECORD};
///
/// // Type records of kind, key and span with count 1: a record with key 2, and one with the keys 1 and 2.
/// let row = |kind, key, span| {
///     let mut row = [0; TYPE_RECORD];
///     [row[0], row[2], row[4], row[8]] = [kind, key, span, 1];
///     row
/// };
/// let short = [row(5, 0, 3), row(7, 2, 2), row(1, 0, 1)].concat();
/// let long = [row(5, 0, 5), row(7, 1, 2), row(1, 0, 1), row(7, 2, 2), row(1, 0, 1)].concat();
/// let both = [&short[..], &long].concat();
/// assert_eq!(judge_type(&both, Equivalence::Label), Ok(8));
///
/// // The former order, in which key 1 came before key 2 in lists of any length.
/// let former = [long, short.clone()].concat();
/// assert_eq!(judge_type(&former, Equivalence::Label), Err(Refusal::FirstType));
///
/// // A type stored before there were lengths.
/// let stored: Vec<u8> = short.chunks(TYPE_RECORD).flat_map(|row| &row[..REMOVAL_RECORD]).copied().collect();
/// assert_eq!(judge_type(&stored, Equivalence::Label), Err(Refusal::FirstType));
///
/// // An array with one element has the length 1.
/// let mut array = [row(6, 0, 2), row(1, 0, 1)].concat();
/// assert_eq!(judge_type(&array, Equivalence::Label), Err(Refusal::FirstType));
/// [array[16], array[20]] = [1, 1];
/// assert_eq!(judge_type(&array, Equivalence::Label), Ok(2));
/// ```
pub fn judge_type(bytes: &[u8], equivalence: Equivalence) -> Result<usize, Refusal> {
    raw::judge_type(bytes, equivalence as u64).result()
}

/// Call 5. Writes the merged type of two at the front of the arena, and gives its number of records.
///
/// The types are just the records in use, and may be the same bytes. The arena may hold any bytes; accepted, it is zero behind
/// the merged type, refused, all of it is. The first type is judged before the second, then the totals, then the room, which
/// is refused only where the merged type itself has more records than the arena.
///
/// The equivalence is the one that both types were made under: for types of [`infer_default`] [`Equivalence::Label`].
pub fn merge(
    first: &[u8],
    second: &[u8],
    equivalence: Equivalence,
    arena: &mut [u8],
) -> Result<usize, Refusal> {
    raw::merge(first, second, equivalence as u64, arena).result()
}

/// Call 6. Writes the messages of a JSON text as value records at the front of the table, and gives their number.
///
/// A key's number is its place in the book, counted from 1. The book is 32-byte records, a key's 1 to 32 bytes and then zeros,
/// in ascending order. The table may hold any bytes; accepted, it is zero behind the records, refused, all of it is. The text is
/// read from the left, and the first fault decides. The call takes 141 KiB of stack.
pub fn read_text(text: &[u8], book: &[u8], table: &mut [u8]) -> Result<usize, Refusal> {
    raw::read_text(text, book, table).result_of_text()
}

/// Call 7. Takes a part out of a whole: writes the type that merged with the part gives the whole at the front of the arena, and gives
/// its number of records.
///
/// All three are types without lengths, whose records have [`REMOVAL_RECORD`] bytes. This call alone takes such types, those stored before
/// there were lengths among them; lengths can't be taken out of a smallest and a largest. The types and the arena have at most
/// [`LONGEST`] bytes.
///
/// There is never more than one such type. Where there is none, the call is refused by [`Refusal::NotPart`]: the part has a place
/// that the whole lacks or counts lower, something would stay inside what goes, or, under [`Equivalence::Kind`], a field would
/// stay in more records than there are. The types are just the records in use, and may be the same bytes; that leaves the empty
/// type. The arena may hold any bytes; accepted, it is zero behind the type, refused, all of it is. The whole is judged before the
/// part, then what is left, then the room, which is refused only where what is left itself has more records than the arena.
///
/// ```
/// use ct::{remove, Equivalence, Refusal, REMOVAL_RECORD};
///
/// // A type of one record: so many nulls.
/// let nulls = |count| [1, 0, 0, 0, 1, 0, 0, 0, count, 0, 0, 0, 0, 0, 0, 0];
/// let mut arena = [0; REMOVAL_RECORD];
/// assert_eq!(remove(&nulls(5), &nulls(2), Equivalence::Kind, &mut arena), Ok(1));
/// assert_eq!(arena, nulls(3));
///
/// let refused = remove(&nulls(2), &nulls(5), Equivalence::Kind, &mut arena);
/// assert_eq!(refused, Err(Refusal::NotPart));
/// assert_eq!(arena, [0; REMOVAL_RECORD]);
/// ```
pub fn remove(
    whole: &[u8],
    part: &[u8],
    equivalence: Equivalence,
    arena: &mut [u8],
) -> Result<usize, Refusal> {
    raw::remove(whole, part, equivalence as u64, arena).result()
}

/// Call 8. Infers for the tag bus, whose keys are 1 to 64: writes the profile of a table's messages under [`Equivalence::Label`] at the
/// front of the arena, and gives its number of records. Writes the key sets of its records as words at the front of the entries.
///
/// An entry is [`ENTRY`] bytes: a word in which bit k - 1 is set exactly if the addend has field k, then the number of its fields, both in
/// eight bytes, little-endian. There is one for each addend of kind 5 in the order of the arena, those in fields and in arrays too;
/// that of an addend without fields is all zero. The arena and the working buffer have one length. The entries may have another, 0 where
/// the messages have no record.
///
/// All three buffers may hold any bytes. Accepted, arena and working buffer are as [`infer`] leaves them, and the entries zero behind the
/// last; refused, all three are zero. A table is refused as by [`judge_table`], with `Large` behind `Key` and before `Repeat`; a
/// profile that the arena or the entries have no room for, by [`Refusal::Room`].
///
/// ```
/// use ct::{infer_tag_bus, Refusal, ENTRY, TYPE_RECORD};
///
/// // A record with a null at this key.
/// let with_null = |key| [5, 0, 0, 0, 2, 0, 0, 0, 1, 0, key, 0, 1, 0, 0, 0];
/// let [mut arena, mut work] = [[0; 3 * TYPE_RECORD]; 2];
/// let mut entries = [0; ENTRY];
/// assert_eq!(infer_tag_bus(&with_null(64), &mut arena, &mut work, &mut entries), Ok(3));
/// assert_eq!(entries[..8], (1u64 << 63).to_le_bytes());
/// assert_eq!(entries[8..], 1u64.to_le_bytes());
///
/// let refused = infer_tag_bus(&with_null(65), &mut arena, &mut work, &mut entries);
/// assert_eq!(refused, Err(Refusal::Large { place: 1 }));
/// assert_eq!(entries, [0; ENTRY]);
/// ```
pub fn infer_tag_bus(
    table: &[u8],
    arena: &mut [u8],
    work: &mut [u8],
    entries: &mut [u8],
) -> Result<usize, Refusal> {
    raw::infer_tag_bus(table, arena, work, entries).result()
}

/// Call 9. Folds a type under [`Equivalence::Label`]: writes the type under [`Equivalence::Kind`] of the same messages at the front of the
/// arena, and gives its number of records. The messages are not needed for it.
///
/// In every union, below fields and in the contents of arrays too, the records become one, with all their fields, and the lengths of
/// arrays that come to one place are joined. The type that [`infer`] gives under label becomes the one that it gives under kind, and
/// merging two types and folding them may be done in either order. A folded type never has more records than the type under label.
///
/// Both buffers have one length and may hold any bytes. Accepted, the arena behind the type and the working buffer are zero; refused,
/// both buffers are. A type that is well formed under kind only is refused by [`Refusal::FirstType`] as any other that is not well
/// formed; then come the totals, and then the room, which is refused only where the folded type itself has more records than the arena.
/// A type within the limit can pass it when folded, by [`Refusal::Total`]: where records with different keys have arrays at one key, their
/// elements add up. The call takes up to 80 KiB of stack, 64 of them for the folded type where the arena is too small for it.
///
/// ```
/// use ct::{fold, infer, Equivalence, Refusal, TYPE_RECORD};
///
/// // {1: number, 2: [number, number]}, {1: null} and {2: []}: the kinds, keys and spans of their records.
/// let kinds = [5, 3, 6, 3, 3, 5, 1, 5, 6];
/// let keys = [0, 1, 2, 0, 0, 0, 1, 0, 2];
/// let spans = [5, 1, 3, 1, 1, 2, 1, 2, 1];
/// let record = |i| [kinds[i], 0, keys[i], 0, spans[i], 0, 0, 0];
/// let table: Vec<u8> = (0..9).flat_map(record).collect();
///
/// let [mut by_label, mut by_kind, mut folded, mut work] = [[0; 12 * TYPE_RECORD]; 4];
/// assert_eq!(infer(&table, Equivalence::Label, &mut by_label, &mut work), Ok(12));
/// assert_eq!(infer(&table, Equivalence::Kind, &mut by_kind, &mut work), Ok(7));
/// assert_eq!(fold(&by_label, &mut folded, &mut work), Ok(7));
/// assert_eq!(folded, by_kind);
///
/// let again = fold(&by_kind[..7 * TYPE_RECORD], &mut folded, &mut work);
/// assert_eq!(again, Err(Refusal::FirstType));
/// assert_eq!(folded, [0; 12 * TYPE_RECORD]);
/// ```
pub fn fold(bytes: &[u8], arena: &mut [u8], work: &mut [u8]) -> Result<usize, Refusal> {
    raw::fold(bytes, arena, work).result()
}
