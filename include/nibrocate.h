/* Nibrocate: reads JSON texts (RFC 8259, in ASCII and without a byte order mark) into a lent table, writes them
 * canonically, looks values up by JSON pointer, and applies merge patches. Link with libnibrocate.a.
 *
 * Promises of every function here:
 * - It takes any bytes, of any length, and any length of table and output. No input is forbidden, none is undefined.
 * - It never reads or writes outside the slices it is lent, and never writes to a text or a JSON pointer.
 * - It allocates nothing, keeps no state between calls, always returns, and may be called from many threads at once.
 * - Its answer depends only on the bytes of the texts and the JSON pointer and on all lengths: nothing has to be put
 *   into a table or an output first, and each call reads its texts anew. What a table or an output holds at exit
 *   depends on these, and on its own content only where it is said to be as at entry.
 *
 * What it asks of the caller: each address leads to as many elements as the length beside it says, a table is aligned
 * as uint32_t is, and a table or an output overlaps nothing else that is lent to the same call; and until the call
 * returns, no other thread writes to anything lent, or reads a table or an output. A null address with length 0 is
 * fine. What is only read may overlap: a JSON pointer may be a part of the text, and a patch the target.
 * A call takes less than 32 KiB of stack, which is measured and not proved.
 */
#ifndef NIBROCATE_H
#define NIBROCATE_H

#include <stddef.h>
#include <stdint.h>

#ifdef __cplusplus
extern "C" {
#endif

/* Sizes: a longer text is refused, be it read or to be written, and so is a longer JSON pointer; a table needs this
 * many words for each byte of its text; and a canonical text has at most this many bytes for each byte of the text, or,
 * where it is that of a merge, for each byte of target and patch together. */
#define NIB_TEXT_BYTES 1048576
#define NIB_POINTER_BYTES 65536
#define NIB_WORDS_PER_BYTE 4
#define NIB_CANONICAL_GROWTH 6

/* Word 2 of a record whose value has no name. */
#define NIB_NO_NAME UINT32_C(4294967295)

/* Why a call is refused. NIB_ACCEPTED is no refusal; only the number tells, never the count. */
enum {
  NIB_ACCEPTED = 0,
  NIB_TEXT_TOO_LONG = 1,      /* a text has over 1,048,576 bytes; place 0 */
  NIB_TABLE_TOO_SHORT = 2,    /* a table has fewer than 4 words for each byte of its text; place 0 */
  NIB_UNFINISHED = 3,         /* a text ends too early, but could be continued; place is its length */
  NIB_WRONG_BYTE = 4,         /* a byte that can't stand there, for no reason below; for 4 to 9, place is its offset */
  NIB_TOO_DEEP = 5,           /* a bracket that would open a 65th container */
  NIB_TOO_MANY_DIGITS = 6,    /* a digit behind 18 digits, the point between them or not, or a point behind them */
  NIB_EXPONENT = 7,           /* over 3 exponent digits, or a normal exponent outside -999 to 999 */
  NIB_NAME_TWICE = 8,         /* the closing quote of a name that the same object already has, escapes resolved */
  NIB_NOT_ASCII = 9,          /* a byte of 80 (hex) or more as a character of a string */
  NIB_POINTER_MALFORMED = 10, /* the JSON pointer is none, or has over 65,536 bytes; place as said at nib_find */
  NIB_NOTHING_THERE = 11,     /* the JSON pointer names nothing in the text; place as said at nib_find */
  NIB_OUTPUT_TOO_SHORT = 12,  /* the output is shorter than what is to be written; place is the length needed */
  NIB_RESULT_TOO_LONG = 13    /* over 1,048,576 bytes would have to be written; place is the length needed */
};

/* The answer to a call.
 * Accepted: number, input and place are 0, and count is the number of records (nib_read), the number of bytes written
 * (nib_write, nib_merge) or the number of the record found (nib_find).
 * Refused: number says why, input is 1 (the text or the target; for 1 to 9), 2 (the patch, for 1 to 9, or the JSON
 * pointer, for 10 and 11) or 3 (the output; for 12 and 13), place says where in that input or how many bytes are
 * needed, and count is 0. A table that is too short is told by the input of its text. */
typedef struct {
  uint32_t number, input, place, count;
} nib_answer;

/* A part of a text: the offset of its first byte, and the offset one past its last byte. */
typedef struct {
  size_t start, end;
} nib_part;

/* Reads a text and fills the table with one record of four words for each value, in the order in which values start:
 *   word 0: offset of the value's first byte
 *   word 1: offset one past its last byte
 *   word 2: offset of its name's opening quote, or NIB_NO_NAME
 *   word 3: number of the next record that isn't inside this value, or the count where there is none
 * Records are numbered from 0; record 0 is the whole value, without the whitespace around it.
 *
 * The table at exit:
 * - accepted: the first 4 x count words are the records, and every later word is as at entry;
 * - refused as 1 or 2: every word is as at entry;
 * - refused as 3 to 9: the first 4 x text_len words are 0, and every later word is as at entry.
 * Where several refusals apply, 1 goes before 2, and 2 before 3 to 9, of which only one ever applies. */
nib_answer nib_read(const uint8_t *text, size_t text_len, uint32_t *table, size_t table_words);

/* Writes the canonical text of what a text means to the front of the output. Where neither call is refused, texts that
 * mean the same give the same bytes, and texts that don't give different ones. (Of two texts that mean the same one may
 * be too long.) The canonical text is itself a text, whose canonical text is itself.
 * - There is no whitespace, and the members of each object stand in the order of their names, by 16-bit units: the
 *   first difference decides, and a proper prefix comes first.
 * - Zero is 0. Another number is - where negative, its digits without a point and without zeros at either end, and,
 *   where the exponent isn't 0, e and the exponent, with - where negative, and never with + or with zeros before it.
 * - In strings the units 20 to 7E (hex) stand plain, but \" and \\ for " and \; every other unit is \u and four
 *   lower-case hex digits.
 * No zero byte is put behind it.
 *
 * Where several refusals apply, those of nib_read go first, then 13, then 12; so 13 is given even where the output
 * could hold the result. An output of length 0 asks for the length: where nothing else is refused, the answer is 12
 * with the length needed as its place. 12 can't appear where out_len is at least NIB_TEXT_BYTES, or at least
 * NIB_CANONICAL_GROWTH x text_len.
 *
 * The table at exit is as nib_read leaves it; in 12 and 13, as in success, it holds the records of the text.
 * The output at exit:
 * - accepted: the first count bytes are the canonical text, and every later byte is as at entry;
 * - refused: every byte is as at entry. */
nib_answer nib_write(const uint8_t *text, size_t text_len, uint32_t *table, size_t table_words, uint8_t *out,
                     size_t out_len);

/* Looks up the value that a JSON pointer (RFC 6901) names in a text. The count is the number of its record, whose words
 * are table[4 x count] to table[4 x count + 3]. The whole value is record 0, so only the number tells that something
 * was found.
 * - The empty JSON pointer names the whole value. Any other is made of tokens, each behind a /, and each names a value
 *   right inside the one before it. In a token ~1 stands for /, ~0 for ~, and any other byte up to 7F (hex) for itself.
 * - In an object a token names the member whose name has the same units, escapes resolved. A name with a unit above 7F
 *   can't be named.
 * - In an array a token names the element of that index, which is 0 or a digit 1 to 9 and any digits. Indices count
 *   from 0, and may be of any size. The token - names nothing there.
 * - In any other value a token names nothing.
 * The JSON pointer ends at pointer_len: it needs no zero byte behind it, and one inside it stands for itself.
 *
 * Where several refusals apply, those of nib_read go first, then 10, then 11; so a JSON pointer that is malformed
 * anywhere is 10, whatever its first tokens name. The places are offsets in the JSON pointer:
 * - 10: that of the first byte that can't stand, pointer_len where it ends in a ~ without its digit, or 65,536 where it
 *   is longer, whichever is least;
 * - 11: that of the / that opens the first token that names nothing.
 *
 * The table at exit is as nib_read leaves it; in 10 and 11, as in success, it holds the records of the text, and
 * table[3] is how many there are. */
nib_answer nib_find(const uint8_t *text, size_t text_len, uint32_t *table, size_t table_words, const uint8_t *pointer,
                    size_t pointer_len);

/* Looks up as nib_find does, and returns the part of the text that is the value found: from word 0 to word 1 of its
 * record, without whitespace around it, and with the quotes of a string. Where nib_find refuses, for whatever reason,
 * start and end are both 0. A value has at least one byte, so start < end tells that something was found.
 *
 * The table at exit is as nib_find leaves it. */
nib_part nib_part_of(const uint8_t *text, size_t text_len, uint32_t *table, size_t table_words, const uint8_t *pointer,
                     size_t pointer_len);

/* Applies a merge patch (RFC 7396) to a target, and writes the canonical text of the result, which is as said at
 * nib_write, to the front of the output. Neither text is changed.
 * - A patch that isn't an object is itself the result, whatever the target is.
 * - A patch that is an object changes the target's members; a target that isn't an object counts as {}. A member of the
 *   patch that is null removes the target's member of that name, where there is one. Any other sets that name to the
 *   result of merging its value, as a patch and by these same rules, into the member's old value, or into {} where
 *   there is none. The members that the patch doesn't name stay as they are, null or not.
 * - So a null that is reached in the patch through objects only never stands in the result, be there a target for it or
 *   not; but arrays of the patch are taken as they are, with any null inside them.
 * Names are the same where their units are, escapes resolved, however each text spells them. Where neither call is
 * refused, targets that mean the same, with patches that mean the same, give the same bytes, and merging a patch into
 * its own result gives that result again. The result is no deeper than the deeper of the two texts.
 *
 * Where several refusals apply, those of nib_read for the target go first, with input 1, then those of nib_read for the
 * patch, with input 2, then 13, then 12, both with input 3 and the whole length needed as place; so 13 is given even
 * where the output could hold the result. An output of length 0 asks for the length: where nothing else is refused, the
 * answer is 12 with the length needed as its place. 12 can't appear where out_len is at least NIB_TEXT_BYTES, or at
 * least NIB_CANONICAL_GROWTH x (target_len + patch_len).
 *
 * The tables at exit:
 * - the target's is as nib_read leaves it, whatever becomes of the patch;
 * - the patch's is as at entry where the target is refused, and as nib_read leaves it otherwise;
 * so in 12 and 13, as in success, both hold the records of their texts, and table[3] is how many there are.
 * The output at exit:
 * - accepted: the first count bytes are the result's canonical text, and every later byte is as at entry;
 * - refused: every byte is as at entry. */
nib_answer nib_merge(const uint8_t *target, size_t target_len, uint32_t *target_table, size_t target_words,
                     const uint8_t *patch, size_t patch_len, uint32_t *patch_table, size_t patch_words, uint8_t *out,
                     size_t out_len);

#ifdef __cplusplus
}
#endif

#endif
