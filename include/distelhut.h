/* Distelhut's C interface: writes and reads host-name labels under AltDUDE, LACE and BRACE. Link target/staticlib/libfirmware.a. */
#ifndef DISTELHUT_H
#define DISTELHUT_H

#include <stddef.h>
#include <stdint.h>

#ifdef __cplusplus
extern "C" {
#endif

/* Scheme numbers. Any other number is refused. */
#define DISTELHUT_SCHEME_DEFAULT 0u /* the house default, AltDUDE */
#define DISTELHUT_SCHEME_ALTDUDE 1u
#define DISTELHUT_SCHEME_LACE 2u
#define DISTELHUT_SCHEME_BRACE 3u

/* The least sizes of the buffers that are written to, in bytes, whatever the content. */
#define DISTELHUT_SIZE_LABEL 63u
#define DISTELHUT_SIZE_TEXT 252u

/*
 * Answers. Below DISTELHUT_ERR_BASE an answer is the number of bytes written, 1 or more. From there on it is a refusal:
 * 1000 and the refusal's number, which is one of the following.
 */
#define DISTELHUT_ERR_BASE 1000u
#define DISTELHUT_ERR_CAPACITY 1001u           /* the buffer to write to is too short */
#define DISTELHUT_ERR_EMPTY 1002u              /* the text or the label is empty */
#define DISTELHUT_ERR_TOO_LONG 1003u           /* the label is over 63 bytes, given or needed, or the text is over 252 bytes, under BRACE over 126 */
#define DISTELHUT_ERR_EDGE_HYPHEN 1005u        /* an AltDUDE text or label, or a BRACE label without -8Q9, begins or ends with a hyphen */
#define DISTELHUT_ERR_HOST_LABEL 1006u         /* a LACE text is a host label itself, and needs no other */
#define DISTELHUT_ERR_OUTSIDE_ALPHABET 1007u   /* a byte of the label is none of the scheme's characters; under BRACE, of a label without -8Q9 */
#define DISTELHUT_ERR_NO_PREFIX 1008u          /* a LACE label does not begin with lq-- */
#define DISTELHUT_ERR_NOT_WELL_FORMED 1009u    /* the label is none that the scheme gives to a text */
#define DISTELHUT_ERR_UNPAIRED_SURROGATE 1010u /* a UTF-16 surrogate of the text has no partner */
#define DISTELHUT_ERR_UNKNOWN_SCHEME 1011u     /* the scheme number is none of 0 to 3 */
#define DISTELHUT_ERR_ODD_BYTE_COUNT 1012u     /* the text has an odd number of bytes */
/*
 * The numbers that neither function answers: 4 (a number that is no point), 13 and 14 (a book that is cut or badly formed),
 * 15 (the marks of a text do not fit it) and 16 (a part of a host name would not come back as itself) are refusals of the
 * library's other functions.
 */

/*
 * A worked comparison. U+00FC is written under LACE, and each kind of answer is told from the others (use, use_as_it_is and
 * report are the caller's own functions):
 *
 *     const uint8_t text[2] = {0x00, 0xFC};
 *     uint8_t label[DISTELHUT_SIZE_LABEL];
 *     uint32_t answer = distelhut_write(DISTELHUT_SCHEME_LACE, text, sizeof text, label, sizeof label);
 *     if (answer < DISTELHUT_ERR_BASE) {
 *         use(label, answer);                     // 9 bytes: lq--74apy
 *     } else if (answer == DISTELHUT_ERR_HOST_LABEL) {
 *         use_as_it_is(text, sizeof text);        // a host label itself: LACE has no label for it
 *     } else {
 *         report(answer - DISTELHUT_ERR_BASE);    // the refusal's number, as the listing prints it
 *     }
 *
 * A text is UTF-16 in bytes, the high byte of each unit first: U+00FC is 00 FC. There is no mark of byte order and no
 * final zero. A label is bytes of ASCII without a final zero; written labels use small letters, and reading ignores case.
 * BRACE copies letters as they are, both ways; its other characters are written as capitals, and read in either case.
 * A text is a host label itself if it is 1 to 63 letters a to z and A to Z, digits and hyphens, with no hyphen at either end.
 *
 * Both functions answer the number of bytes that they wrote to the beginning of the last buffer, which is 1 or more; its
 * bytes from that number on hold what they held. If the answer is 1000 or more, nothing was written at all. The first
 * buffer is never written to.
 *
 * The functions keep no state, and may be called from any thread at any time. They take no memory from a heap. The archive
 * has 16 KB of code and constants at most and needs two symbols, memcpy and memset. A call needs 1328 bytes of stack to write
 * and 4152 to read, and what these two need: the most in measured calls, and not proved.
 *
 * The caller owes the following, and nothing is promised otherwise:
 *   - both pointers are valid for as many bytes as their lengths say: the first to read, the second to read and write;
 *   - neither pointer is null, even at length 0, where it may point to anything;
 *   - the two buffers do not overlap, and nothing else writes to them during the call;
 *   - the program is an x86-64 Linux program, linked by the usual C convention of that system.
 */

/* Writes the label of a text. Refusals in this order: 11, 1, 12, 2, 3 for the text, 10, then 5 (AltDUDE) or 6 (LACE), then 3. */
uint32_t distelhut_write(uint32_t scheme, const uint8_t *text, size_t text_len, uint8_t *label, size_t label_len);

/* Reads the text of a label. Refusals in this order: 11, 1, 2, 3, then 7, 5, 9 (AltDUDE, BRACE) or 8, 7, 9, 6 (LACE). */
uint32_t distelhut_read(uint32_t scheme, const uint8_t *label, size_t label_len, uint8_t *text, size_t text_len);

#ifdef __cplusplus
}
#endif

#endif
