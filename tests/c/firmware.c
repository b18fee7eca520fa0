/* Calls List as service firmware does, on document 01's table T and its edges, on T with filters, and on the table that has the largest list.
 * Prints each check that fails; exits with 1 if any does. */
#include "../../include/lainukesk.h"

#include <inttypes.h>
#include <stdbool.h>
#include <stdio.h>
#include <stdlib.h>
#include <string.h>

#define ENTITIES "01FF007E\n01000300\n01FF007E\n01020300\n"
#define CAPS "0201FFFFFF\n0202FFFFFF\n0203FFFFFF\n0204FFFFFF\n0205FFFFFF\n0206FFFFFF\n"
#define FLOOR "03000000\n"
#define ADDRESSES_AND_SOURCE_PORTS "00000000FFFFFFFF00000000FFFFFFFF0000FFFF"
#define ALL_PACKETS ADDRESSES_AND_SOURCE_PORTS "0000FFFF00FF"
#define ROW "0500010303030303" ADDRESSES_AND_SOURCE_PORTS
#define ROWS ROW "00007FFF00FF00\n" ROW "8000FFFF00FF00\n" ROW "0000FFFF00FF00"

/* Document 01's table T, less its last line feed. */
#define CUT_TABLE ENTITIES CAPS FLOOR ROWS
#define TABLE CUT_TABLE "\n"

/* T with some of its letters small, and with a letter after f. */
#define MIXED_ENTITIES "01ff007e\n01000300\n01fF007E\n01020300\n"
#define MIXED_TABLE MIXED_ENTITIES CAPS FLOOR ROWS "\n"
#define LETTER_G "01ff007g\n"

/* T with filters of two roots that drop all packets, the second with a byte for it; and of the second root one with this action. */
#define FILTERS(action) "0400" ALL_PACKETS "\n0402" ALL_PACKETS "00\n0402" ALL_PACKETS action "\n"
#define FILTERED_TABLE(action) ENTITIES CAPS FLOOR FILTERS(action) ROWS "\n"

/* The table that has the largest list: one entity below the first of 32 roots, and as many filters and rows as there may be. */
#define ROOTS 32
#define TABLE_ROWS 64
#define LARGEST_COUNT 7679
#define LARGEST_BYTES (LARGEST_COUNT * LAINUKESK_ENTRY_BYTES)

/* What a byte of the output holds before the call. */
#define UNTOUCHED 0xA5
/* Bytes behind the lent output, which are not to change either. */
#define BEHIND 64

/* The list of T, and behind it the entries of its filters. */
static const uint8_t entries[] = {
    0x00, 0x08, 0x02, 0x00, 0x10, 0xFF, 0x01, 0x08, 0x02, 0x01, 0x10, 0xFF, 0x02, 0x10, 0xFF, 0x02, 0x14, 0xFF,
    0x00, 0x16, 0x01, 0x01, 0x15, 0x02, 0x01, 0x16, 0x00,
};

/* The text and the list of the table that has the largest one. */
static char largest_text[8192];
static uint8_t largest_list[LARGEST_BYTES];

/* A call, and what it is to return and write. */
struct check {
    const char *name;
    const char *text;
    const uint8_t *list; /* begins with what it writes */
    size_t room;
    uint64_t number; /* the refusal, or 0 */
    uint64_t low;    /* the refusal's line, or the count */
};

static const struct check checks[] = {
    {"T in 18 bytes", TABLE, entries, 6 * LAINUKESK_ENTRY_BYTES, 0, 6},
    {"T in 17 bytes", TABLE, entries, 17, LAINUKESK_SHORT, 0},
    {"T in no bytes", TABLE, entries, 0, LAINUKESK_SHORT, 0},
    {"T in the largest buffer", TABLE, entries, LAINUKESK_LIST_BYTES, 0, 6},
    {"T without its rows", ENTITIES CAPS FLOOR, entries, 0, 0, 0},
    {"T with small letters", MIXED_TABLE, entries, 18, 0, 6},
    {"T with small letters in 17 bytes", MIXED_TABLE, entries, 17, LAINUKESK_SHORT, 0},
    {"a letter after f", LETTER_G, entries, 18, LAINUKESK_CHARACTER, 1},
    {"T less its last line feed", CUT_TABLE, entries, 18, LAINUKESK_CHARACTER, 14},
    {"the same in 17 bytes", CUT_TABLE, entries, 17, LAINUKESK_CHARACTER, 14},
    {"T cut before its floor", ENTITIES CAPS, entries, 18, LAINUKESK_SEQUENCE, 11},
    {"the empty text", "", entries, 18, LAINUKESK_SEQUENCE, 1},
    {"the empty text in no bytes", "", entries, 0, LAINUKESK_SEQUENCE, 1},
    {"T with filters, the last of which passes", FILTERED_TABLE("01"), entries, 27, 0, 9},
    {"the same in 26 bytes", FILTERED_TABLE("01"), entries, 26, LAINUKESK_SHORT, 0},
    {"T with filters, the last of which has action 2", FILTERED_TABLE("02"), entries, 27, LAINUKESK_LENGTH, 14},
    {"the largest list", largest_text, largest_list, LARGEST_BYTES, 0, LARGEST_COUNT},
    {"the largest list in a byte less", largest_text, largest_list, LARGEST_BYTES - 1, LAINUKESK_SHORT, 0},
    {"the largest list in the largest buffer", largest_text, largest_list, LAINUKESK_LIST_BYTES, 0, LARGEST_COUNT},
};

/* Adds a line to the largest text: its beginning, the number of a root and its end. */
static void add_line(const char *beginning, unsigned root, const char *end) {
    size_t length = strlen(largest_text);
    snprintf(largest_text + length, sizeof largest_text - length, "%s%02X%s\n", beginning, root, end);
}

/* Writes the text of the table that has the largest list. No root supports anything, and the floor has a coefficient above those of the
 * rows. The filters drop all packets, each of another root. The rows are the same internal loop of the first root, installed at the
 * second, through the first twice. */
static void write_largest_text(void) {
    const unsigned child = 1;
    for (unsigned entity = 0; entity <= ROOTS; entity++) {
        strcat(largest_text, entity == child ? "01000300\n" : "01FF0000\n");
    }
    strcat(largest_text, CAPS "030000FF\n");
    for (unsigned entity = 0; entity <= ROOTS; entity++) {
        if (entity != child) {
            add_line("04", entity, ALL_PACKETS);
        }
    }
    for (unsigned row = 0; row < TABLE_ROWS; row++) {
        add_line("05", child + 1, "000101010101" ALL_PACKETS "020000");
    }
}

/* Writes an entry, and gives the place of the next. */
static uint8_t *put(uint8_t *at, unsigned first, unsigned kind, unsigned second) {
    at[0] = (uint8_t)first;
    at[1] = (uint8_t)kind;
    at[2] = (uint8_t)second;
    return at + LAINUKESK_ENTRY_BYTES;
}

/* Writes the largest list. Each row has every kind of one row but 19, alternative path, since it is an internal loop; the first is not
 * dead. Each earlier row makes each later one redundant, 6, and any two are skewed, 13, in either order. Any two filters are redundant, 22,
 * in either order. */
static void write_largest_list(void) {
    uint8_t *at = largest_list;
    for (unsigned i = 0; i < TABLE_ROWS; i++) {
        for (unsigned kind = 1; kind <= 20; kind++) {
            bool of_one_row = kind <= 4 || kind == 12 || (14 <= kind && kind <= 17) || (kind == 20 && i > 0);
            for (unsigned j = 0; j < TABLE_ROWS; j++) {
                if ((kind == 6 && i < j) || (kind == 13 && i != j)) {
                    at = put(at, i, kind, j);
                }
            }
            if (of_one_row) {
                at = put(at, i, kind, 0xFF);
            }
        }
    }
    for (unsigned k = 0; k < ROOTS; k++) {
        for (unsigned m = 0; m < ROOTS; m++) {
            if (k != m) {
                at = put(at, k, 22, m);
            }
        }
    }
}

/* Memory of its own for so many bytes: a sanitizer sees where this program, or a copy that the library makes, leaves it. */
static uint8_t *memory(size_t length) {
    uint8_t *bytes = malloc(length == 0 ? 1 : length);
    if (bytes == NULL) {
        fputs("out of memory\n", stderr);
        exit(1);
    }
    return bytes;
}

/* Whether the call returns and writes what it should. */
static bool passes(const struct check *check) {
    bool good = true;
    size_t length = strlen(check->text);
    uint8_t *text = memory(length);
    memcpy(text, check->text, length);
    uint8_t *out = memory(check->room + BEHIND);
    memset(out, UNTOUCHED, check->room + BEHIND);

    uint64_t answer = lainukesk_list(text, length, out, check->room);
    uint64_t number = LAINUKESK_REFUSAL(answer);
    uint64_t low = number == 0 ? LAINUKESK_COUNT(answer) : LAINUKESK_LINE(answer);
    if (number != check->number || low != check->low) {
        printf("%s: returns %" PRIu64 " and %" PRIu64 ", not %" PRIu64 " and %" PRIu64 "\n", check->name, number, low, check->number,
               check->low);
        good = false;
    }
    size_t written = check->number == 0 ? (size_t)check->low * LAINUKESK_ENTRY_BYTES : 0;
    if (memcmp(out, check->list, written) != 0) {
        printf("%s: the entries are not the table's\n", check->name);
        good = false;
    }
    for (size_t at = written; at < check->room + BEHIND; at++) {
        if (out[at] != UNTOUCHED) {
            printf("%s: byte %zu of the output has changed\n", check->name, at);
            good = false;
            break;
        }
    }
    if (memcmp(text, check->text, length) != 0) {
        printf("%s: the text has changed\n", check->name);
        good = false;
    }
    free(out);
    free(text);
    return good;
}

int main(void) {
    write_largest_text();
    write_largest_list();
    size_t failed = 0;
    size_t count = sizeof checks / sizeof checks[0];
    for (size_t k = 0; k < count; k++) {
        if (!passes(&checks[k])) {
            failed++;
        }
    }
    printf("List from C: %zu checks, %zu failed\n", count, failed);
    return failed == 0 ? 0 : 1;
}
