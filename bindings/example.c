/* Reads three messages, the example of document 01, from JSON text, infers their type, merges it with itself, takes one message out of its
   counts, folds it to the type under kind, prints the types, and the key sets of the records as for the tag bus. */
#include "ct.h"

#include <inttypes.h>
#include <stdio.h>
#include <string.h>

enum { VALUE = CT_VALUE_RECORD, TABLE = 16 * VALUE, RECORD = CT_TYPE_RECORD, ARENA = 12 * RECORD, ENTRIES = 3 * CT_ENTRY };

/* Types that something is taken out of have no lengths. */
enum { SHORT_RECORD = CT_REMOVAL_RECORD, SHORT_ARENA = 12 * SHORT_RECORD };

/* A key's number is its place in the book, from 1; the keys ascend. */
static const uint8_t book[][CT_BOOK_RECORD] = {"lane", "weights"};

static const char text[] = "{\"lane\": 3, \"weights\": [412, 415.5]}\n"
                           "{\"lane\": null}\n"
                           "{\"weights\": []}\n";

static uint64_t number(const uint8_t *bytes, size_t length)
{
    uint64_t value = 0;
    while (length > 0)
        value = value << 8 | bytes[--length];
    return value;
}

static void print_answer(const char *name, struct ct_answer answer)
{
    printf("%s: number %" PRIu64 ", place %" PRIu64 ", count %" PRIu64 "\n", name, answer.number, answer.place, answer.count);
}

/* A record of any type, up to its count. */
static void print_record(const uint8_t *record)
{
    static const char *const words[] = {"", "null", "bool", "num", "str", "rec", "arr", "field"};
    printf("  %s key %" PRIu64 " span %" PRIu64 " count %" PRIu64, words[record[0]], number(record + 2, 2), number(record + 4, 4),
           number(record + 8, 8));
}

static void print_type(const uint8_t *type, uint64_t records)
{
    enum { ARRAY = 6 };
    for (const uint8_t *record = type; record < type + records * RECORD; record += RECORD) {
        print_record(record);
        if (record[0] == ARRAY)
            printf(" shortest %" PRIu64 " longest %" PRIu64, number(record + 16, 4), number(record + 20, 4));
        printf("\n");
    }
}

/* The same type without lengths: the front of each record. */
static void cut_lengths(const uint8_t *type, uint64_t records, uint8_t *cut)
{
    for (uint64_t i = 0; i < records; i++)
        memcpy(cut + i * SHORT_RECORD, type + i * RECORD, SHORT_RECORD);
}

/* Takes the second message out of a type of all three. Its two records follow the five of the first. */
static void take_out(const uint8_t *table, const uint8_t *type, uint64_t records)
{
    uint8_t one[ARENA], work[ARENA], whole[SHORT_ARENA], part[SHORT_ARENA], rest[SHORT_ARENA];
    uint64_t part_records = ct_infer_default(table + 5 * VALUE, 2 * VALUE, one, ARENA, work, ARENA).count;
    size_t used = records * SHORT_RECORD, part_used = part_records * SHORT_RECORD;
    cut_lengths(type, records, whole);
    cut_lengths(one, part_records, part);

    struct ct_answer answer = ct_remove(whole, used, part, part_used, CT_BY_LABEL, rest, SHORT_ARENA);
    print_answer("take the second message out", answer);
    for (uint64_t i = 0; i < answer.count; i++) {
        print_record(rest + i * SHORT_RECORD);
        printf("\n");
    }

    print_answer("take all out of the second", ct_remove(part, part_used, whole, used, CT_BY_LABEL, rest, SHORT_ARENA));
    print_answer("take the second out of a type with lengths",
                 ct_remove(type, records * RECORD, part, part_used, CT_BY_LABEL, rest, SHORT_ARENA));
    print_answer("judge a type without lengths", ct_judge_type(whole, used, CT_BY_LABEL));
}

/* The type under kind from that under label, without the messages. It is folded once only: under label it is not well formed. */
static void fold(const uint8_t *type, size_t used)
{
    enum { SIX = 6 * RECORD };
    uint8_t folded[ARENA], work[ARENA], again[ARENA];

    struct ct_answer answer = ct_fold(type, used, folded, ARENA, work, ARENA);
    print_answer("fold to kind", answer);
    print_type(folded, answer.count);

    print_answer("fold it again", ct_fold(folded, answer.count * RECORD, again, ARENA, work, ARENA));
    print_answer("fold with room for six", ct_fold(type, used, folded, SIX, work, SIX));
}

/* The messages have three key sets, of keys below 65. */
static void for_tag_bus(const uint8_t *table, size_t length)
{
    static const uint8_t key_65[] = {5, 0, 0, 0, 2, 0, 0, 0, 1, 0, 65, 0, 1, 0, 0, 0};
    uint8_t type[ARENA], work[ARENA], entries[ENTRIES];

    print_answer("infer for the tag bus", ct_infer_tag_bus(table, length, type, ARENA, work, ARENA, entries, ENTRIES));
    for (const uint8_t *entry = entries; entry < entries + ENTRIES; entry += CT_ENTRY)
        printf("  word %#" PRIx64 " fields %" PRIu64 "\n", number(entry, 8), number(entry + 8, 8));

    struct ct_answer answer = ct_infer_tag_bus(key_65, sizeof key_65, type, ARENA, work, ARENA, entries, ENTRIES);
    print_answer("infer for the tag bus from a field with key 65", answer);
}

int main(void)
{
    uint8_t table[TABLE], type[ARENA], work[ARENA], merged[ARENA];

    /* A string's end is no part of the text. */
    struct ct_answer answer = ct_read_text((const uint8_t *)text, sizeof text - 1, book[0], sizeof book, table, TABLE);
    print_answer("read the text", answer);

    /* A table, like a type, is just the records in use. */
    size_t length = answer.count * VALUE;
    print_answer("judge the table", ct_judge_table(table, length));

    answer = ct_infer_default(table, length, type, ARENA, work, ARENA);
    print_answer("infer under the default", answer);
    print_type(type, answer.count);

    /* The default is label, so that is what a merge of its types is told. */
    size_t used = answer.count * RECORD;
    answer = ct_merge(type, used, type, used, CT_BY_LABEL, merged, ARENA);
    print_answer("merge with itself", answer);
    print_type(merged, answer.count);

    take_out(table, type, used / RECORD);
    fold(type, used);

    print_answer("merge with itself under kind", ct_merge(type, used, type, used, CT_BY_KIND, merged, ARENA));
    print_answer("infer with room for eleven", ct_infer_default(table, length, type, ARENA - RECORD, work, ARENA - RECORD));

    answer = ct_infer(table, length, CT_BY_KIND, type, ARENA, work, ARENA);
    print_answer("infer under kind", answer);
    print_type(type, answer.count);

    for_tag_bus(table, length);

    /* The second key alone: `lane` is not listed, and its closing quote is byte 6. */
    print_answer("read with half of the book", ct_read_text((const uint8_t *)text, sizeof text - 1, book[1], sizeof book[1], table, TABLE));
    return 0;
}
