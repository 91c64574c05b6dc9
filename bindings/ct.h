/* Counting types for line messages: the C interface. Link libct.a, which `bash tools/build ct` writes (x86-64 Linux). */
#ifndef CT_H
#define CT_H

#include <stddef.h>
#include <stdint.h>

#ifdef __cplusplus
extern "C" {
#endif

/* Bytes of a record. Lengths are multiples of them, and at most CT_LONGEST; a text may have any length up to that.
 *
 * A type record has its kind in byte 0, zero in byte 1, its key in bytes 2-3, its span in 4-7 and its count in 8-15. Bytes 16-19 are the
 * shortest and 20-23 the longest length of the arrays at that place, where a length is a number of elements; both are zero in all kinds but
 * 6. All numbers are unsigned and little-endian. Where arrays come together, by ct_merge or ct_fold, the smaller of the shortest and the
 * larger of the longest lengths stay.
 *
 * The records of types that ct_remove takes and leaves end before the lengths, and have 16 bytes. Types stored before there were lengths
 * are such types. Every other call refuses them, as CT_LENGTH, CT_FIRST_TYPE or CT_SECOND_TYPE, and what they tell of must be inferred anew;
 * in the same way ct_remove refuses types with lengths. Only the empty type is one for every call. */
#define CT_VALUE_RECORD 8
#define CT_TYPE_RECORD 24
#define CT_REMOVAL_RECORD 16
#define CT_ENTRY 16
#define CT_BOOK_RECORD 32

/* The most bytes of a table, a text, a key book, entries, and of types and arenas of ct_remove. */
#define CT_LONGEST 65536

/* The most bytes of any other type or arena: 2,730 records. */
#define CT_LARGEST_ARENA 65520

/* Why a call refuses its input; CT_ACCEPTED where it does not. */
#define CT_ACCEPTED 0
#define CT_LENGTH 1      /* a length that is no multiple of its record size, or is above CT_LONGEST; or a working buffer that is not as
                            long as the arena */
#define CT_EQUIVALENCE 2 /* an equivalence that is neither 0 nor 1 */
#define CT_KIND 3        /* kind not 1 to 6, or byte 1 not zero */
#define CT_SPAN 4        /* span 0; beyond the end of the parent or of the table; over 1 for kinds 1 to 4 */
#define CT_KEY 5         /* key 0 in a field, or not 0 elsewhere */
#define CT_REPEAT 6      /* a key seen earlier in the same record; in a text, at its closing quote */
#define CT_DEPTH 7       /* depth 33; in a text, at the first byte of the value */
#define CT_FIRST_TYPE 8  /* the first or only type is not well formed */
#define CT_SECOND_TYPE 9 /* the second type is not well formed */
#define CT_TOTAL 10      /* a total of the merged or folded type is above 1,000,000,000,000,000 */
#define CT_ROOM 11       /* the resulting type has more records than the arena, or more addends of kind 5 than there are entries; in a
                            text, at the first byte of a value for which the table has no room */
#define CT_GRAMMAR 12    /* a byte with which the text cannot go on, or the end of a text that is not finished */
#define CT_UNLISTED 13   /* a key that the book does not have, or that is spelled with an escape, at its closing quote */
#define CT_BOOK 14       /* the key book is a bad one */
#define CT_FIELDS 15     /* the 257th field of one record; in a text, at the closing quote of its key */
#define CT_NOT_PART 16   /* no well-formed type merged with the part gives the whole */
#define CT_LARGE 17      /* a field's key above 64, where the table is one of the tag bus */

/* The equivalences: the class of a record is its kind alone, or its kind with its keys.
 *
 * Under CT_BY_LABEL the addends of kind 5 in a union ascend by their key lists: shorter lists first, and lists of one length by their first
 * differing key. Earlier the first differing key alone settled the order, and a list that begins the other came first: a type stored in
 * that order is not well formed (CT_FIRST_TYPE, CT_SECOND_TYPE), unless both orders agree. Under CT_BY_KIND there is no such order. */
#define CT_BY_KIND 0
#define CT_BY_LABEL 1

/* The refusal number, the place and the count. On acceptance number and place are 0, on a refusal the count is 0. */
struct ct_answer {
    uint64_t number;
    uint64_t place;
    uint64_t count;
};

/* Judges a value table of `length` bytes.
 *
 * Accepted, the count is the number of messages. Refused, the place is the value record with the fault, counted from 0, or 0
 * for a length. The length comes first, then records from 0 upward: the first with a fault decides, and of its faults the first in
 * the order CT_KIND, CT_SPAN, CT_KEY, CT_REPEAT, CT_FIELDS, CT_DEPTH. The answer depends on the bytes alone; nothing is written and
 * nothing is kept.
 *
 * `table` points to `length` bytes that nobody writes during the call. It is not null, even for length 0. */
struct ct_answer ct_judge_table(const uint8_t *table, size_t length);

/* Infers the type of a table's messages under an equivalence, CT_BY_KIND or CT_BY_LABEL, into the arena.
 *
 * Accepted, the count is the number of records of the type, which stands in the front of the arena; the rest of the arena is zero.
 * Refused, the whole arena is zero, and the place is 0 unless the table has a fault (CT_KIND to CT_DEPTH, CT_FIELDS): then it is the
 * value record, as for ct_judge_table. The lengths come first, then the equivalence, the table, and at last the room. The working
 * buffer has the length of the arena and is zero afterwards, in either case. What the two buffers held before makes no difference.
 *
 * `table` points to bytes that nobody writes during the call. The three buffers don't overlap. None of them is null, even for
 * length 0. */
struct ct_answer ct_infer(const uint8_t *table, size_t table_length, uint64_t equivalence, uint8_t *arena, size_t arena_length,
                          uint8_t *work, size_t work_length);

/* The same under the house default, which is CT_BY_LABEL.
 *
 * Judge and merge its types under CT_BY_LABEL. Earlier the house default was CT_BY_KIND. Types that this call made then have records of
 * CT_REMOVAL_RECORD bytes: ct_remove alone takes them, under CT_BY_KIND. Under CT_BY_LABEL such a type is not well formed (CT_FIRST_TYPE,
 * CT_SECOND_TYPE), unless each of its fields has the count of its record. A type under label may have more records than the one under
 * kind, which ct_fold makes of it. */
struct ct_answer ct_infer_default(const uint8_t *table, size_t table_length, uint8_t *arena, size_t arena_length, uint8_t *work,
                                  size_t work_length);

/* Judges a type of `length` bytes under an equivalence, CT_BY_KIND or CT_BY_LABEL.
 *
 * Accepted, the count is the number of type records, fields included. Refused, the place is 0. The length comes first, then the
 * equivalence, then the records. An empty type is well formed; a type with zeros behind it, as a whole arena has, is not. The order of
 * key lists is told at CT_BY_LABEL. A record of a type may have any number of fields. Lengths agree with counts: where n arrays have m
 * elements in all, shortest is at most longest, longest at most 8,192, longest and n - 1 times shortest together at most m, and m at most
 * shortest and n - 1 times longest together. So one array has both equal to m, and arrays without elements have 0 and 0. The answer depends
 * on the bytes and the equivalence alone; nothing is written and nothing is kept.
 *
 * `bytes` points to `length` bytes that nobody writes during the call. It is not null, even for length 0. */
struct ct_answer ct_judge_type(const uint8_t *bytes, size_t length, uint64_t equivalence);

/* Merges a first and a second type under an equivalence into the arena.
 *
 * Accepted, the count is the number of records of the merged type, which stands in the front of the arena; the rest of the arena
 * is zero. Refused, the place is 0 and the whole arena is zero. The three lengths come first, then the equivalence, the first
 * type, the second, the totals and at last the room. What the arena held before makes no difference.
 *
 * The equivalence is the one that both types were made under: for types of ct_infer_default CT_BY_LABEL.
 *
 * `first` and `second` point to bytes that nobody writes during the call; they may be the same bytes. The arena overlaps neither.
 * None of the three is null, even for length 0. */
struct ct_answer ct_merge(const uint8_t *first, size_t first_length, const uint8_t *second, size_t second_length,
                          uint64_t equivalence, uint8_t *arena, size_t arena_length);

/* Reads the messages of a JSON text (RFC 8259, UTF-8 by RFC 3629) into the table, with the numbers that a key book gives to keys.
 *
 * The book is 32-byte records: a key's 1 to 32 bytes, none of them zero, then zeros. Keys ascend by bytes, without repeats, and a key's
 * number is its place counted from 1. The text is optional white space, then messages, each with at least one white-space byte
 * behind it; it has at most 65,536 bytes. A surrogate that is escaped without its partner is accepted.
 *
 * Accepted, the count is the number of value records, which stand in the front of the table in the order of the text; the rest of the
 * table is zero. Refused, the whole table is zero, and the place is 0 for CT_LENGTH and CT_BOOK, else a byte of the text, counted
 * from 0, or the text's length. The lengths come first, then the book, then the text from the left: the first fault decides. At one
 * byte CT_GRAMMAR comes before CT_DEPTH and that before CT_ROOM, and CT_UNLISTED before CT_REPEAT and that before CT_FIELDS. What the
 * table held before makes no difference.
 *
 * `text` and `book` point to bytes that nobody writes during the call. The table overlaps neither. None of the three is null, even for
 * length 0. The call takes 141 KiB of the caller's stack. */
struct ct_answer ct_read_text(const uint8_t *text, size_t text_length, const uint8_t *book, size_t book_length, uint8_t *table,
                              size_t table_length);

/* Takes a part out of a whole under an equivalence: writes into the arena the type which, merged with the part, gives the whole.
 *
 * All three are types without lengths, whose records have CT_REMOVAL_RECORD bytes: the first bytes of each type record. This call alone
 * takes such types, those stored before there were lengths among them; lengths can't be taken out of a smallest and a largest. The types
 * and the arena have at most CT_LONGEST bytes.
 *
 * There is never more than one such type. Places whose counts fall to zero are not in it: a part that equals the whole leaves the empty
 * type, with count 0, and an empty part leaves the whole. There is none, which is CT_NOT_PART, where the part has a place or a field that
 * the whole lacks or counts lower, where something would stay inside what goes (one array with five elements less one array with three),
 * and, under CT_BY_KIND, where a field would stay in more records than there are.
 *
 * Accepted, the count is the number of records of the type that is left, which stands in the front of the arena; the rest of the arena
 * is zero. Refused, the place is 0 and the whole arena is zero. The three lengths come first, then the equivalence, the whole
 * (CT_FIRST_TYPE), the part (CT_SECOND_TYPE), CT_NOT_PART, and at last the room, for which the records of the type that is left decide.
 * What the arena held before makes no difference.
 *
 * `whole` and `part` point to bytes that nobody writes during the call; they may be the same bytes. The arena overlaps neither.
 * None of the three is null, even for length 0. */
struct ct_answer ct_remove(const uint8_t *whole, size_t whole_length, const uint8_t *part, size_t part_length, uint64_t equivalence,
                           uint8_t *arena, size_t arena_length);

/* Infers for the tag bus, whose keys are 1 to 64: the type of a table's messages under CT_BY_LABEL into the arena, and the key sets of its
 * records as words into the entries.
 *
 * Accepted, the count and the bytes of arena and working buffer are those of ct_infer. The entries have CT_ENTRY bytes each, one for each
 * addend of kind 5 in the order of the arena, those in fields and in arrays too: a word in which bit k - 1 is set exactly if the addend
 * has field k (bit 0 is the lowest), then the number of its fields, both in eight bytes, little-endian. An addend without fields has
 * sixteen zero bytes. Zeros follow the last entry. With no record in the messages, entries of length 0 are enough.
 *
 * Refused, arena, working buffer and entries are all zero, and the place is 0 unless the table has a fault: then it is the value record.
 * The lengths come first, that of the entries too, then the table, and at last the room in the arena and in the entries. A field's key
 * above 64 is CT_LARGE, and among the faults of one record it comes behind CT_KEY and before CT_REPEAT. What the three buffers held
 * before makes no difference.
 *
 * `table` points to bytes that nobody writes during the call. The four buffers don't overlap. None of them is null, even for
 * length 0. */
struct ct_answer ct_infer_tag_bus(const uint8_t *table, size_t table_length, uint8_t *arena, size_t arena_length, uint8_t *work,
                                  size_t work_length, uint8_t *entries, size_t entries_length);

/* Folds a type under CT_BY_LABEL: writes into the arena the type under CT_BY_KIND of the same messages, which are not needed for it.
 *
 * In every union, below fields and in the contents of arrays too, the addends of kind 5 become one, with all their fields, and the lengths
 * of arrays that come to one place are joined. The type of a table under CT_BY_LABEL becomes the one that ct_infer gives under CT_BY_KIND.
 * Types may be merged under CT_BY_LABEL and the result folded, or folded first and merged under CT_BY_KIND: that gives the same bytes. A
 * folded type never has more records than the type under label.
 *
 * Accepted, the count is the number of records of the folded type, which stands in the front of the arena; the rest of the arena is
 * zero. Refused, the place is 0 and the whole arena is zero. The lengths come first (CT_LENGTH), then the type (CT_FIRST_TYPE, also where
 * it is well formed under CT_BY_KIND only), the totals (CT_TOTAL), and at last the room (CT_ROOM), for which the records of the folded type
 * decide. A type within the limit can pass it when folded: where records with different keys have arrays at one key, their elements add up.
 * The working buffer has the length of the arena and is zero afterwards, in either case. What the two buffers held before makes no
 * difference.
 *
 * `bytes` points to `length` bytes that nobody writes during the call. The three buffers don't overlap. None of them is null, even for
 * length 0. The call takes up to 80 KiB of the caller's stack, 64 of them for the folded type where the arena is too small for it. */
struct ct_answer ct_fold(const uint8_t *bytes, size_t length, uint8_t *arena, size_t arena_length, uint8_t *work, size_t work_length);

#ifdef __cplusplus
}
#endif

#endif
