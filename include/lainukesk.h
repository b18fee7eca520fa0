/* The analyser of protection policies, for C. Link libanalyser.a, which `bash tests/build analyser_c` puts into target/staticlib. */
#ifndef LAINUKESK_H
#define LAINUKESK_H

#include <stddef.h>
#include <stdint.h>

/* Bytes of an entry. A buffer of LAINUKESK_LIST_BYTES holds the list of any table: at most 13,792 entries. */
#define LAINUKESK_ENTRY_BYTES 3
#define LAINUKESK_LIST_BYTES 41376

/* Of a number that lainukesk_list returned: the refusal, 0 for none; its line; and, where there is none, the count of entries. */
#define LAINUKESK_REFUSAL(n) ((n) / 65536)
#define LAINUKESK_LINE(n) ((n) % 65536)
#define LAINUKESK_COUNT(n) ((n) % 65536)

/* Refusals. */
#define LAINUKESK_CHARACTER 1 /* empty line, a character other than 0-9 A-F a-f, odd digits, last line without line feed */
#define LAINUKESK_LENGTH 2    /* unknown kind, length not the kind's, n above 8, a filter's action above 1 */
#define LAINUKESK_SEQUENCE 3  /* the sequence can't go on so; a text that ends before the floor gives last line + 1 */
#define LAINUKESK_ENTITY 4    /* entity breaks its rules */
#define LAINUKESK_NUMBER 5    /* holder, filter root or gateway isn't a root; s or d no entity; t above 6 */
#define LAINUKESK_RANGE 6     /* a low above its high */
#define LAINUKESK_NULL 7      /* NULL with a coefficient above 0 */
#define LAINUKESK_SHORT 8     /* output shorter than the result; line 0 */

#ifdef __cplusplus
extern "C" {
#endif

/* Writes the anomalies of the table in text, three bytes each, to out from its start, and leaves the rest of out as it was. First come
 * those of rows (first row, kind, second row or 0xFF), then those of filters (first filter, kind 21 or 22, second filter; filters, too, are
 * numbered from 0), both in ascending order. Returns how many there are, which is below 65,536; or 65,536 * refusal + line, and then
 * nothing is written. text and out are not to overlap; neither is kept. Neither pointer may be null, even where its length is 0. */
uint64_t lainukesk_list(const uint8_t *text, size_t text_length, uint8_t *out, size_t out_length);

#ifdef __cplusplus
}
#endif

#endif
