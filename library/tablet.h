/* tablet.h: the C interface of the kernel, four functions over words and bytes that the caller owns (rules:
 * docs/MANUAL.md).
 *
 * Words. The tables are TABLET_TABLES_WORDS words of 32 bits, the process records TABLET_PROCESSES_WORDS. The caller
 * owns both runs and lends them for one call. Lengths are counts of elements: words of the runs, bytes of the others.
 *
 * Reply. tablet_open and tablet_call write their answer, one line with its line feed, to the front of `reply` and
 * return its length. The bytes after the answer stay as they were; there is no zero byte at its end. Lend
 * TABLET_REPLY_BYTES or more. If `reply_len` is less, 0 is returned and nothing is read or written. The longest answer
 * is that of a chain with twelve numbers of ten digits, 137 bytes; that of a comesall has 37 at most.
 *
 * Lines. The thirteen calls are (p go e), (p hold s), (p register e), (p drop e), (p port e), (p close c),
 * (p ask c (e r) ..), (p fetch v), (p answer v x) with x 1 for a request served and 0 for one declined, (p revoke q),
 * (comes e q), (chain e) and (comesall (e q) ..) with one to TABLET_MOST_PAIRS pairs. A line has at most
 * TABLET_LINE_BYTES bytes before its line feed: ten pairs always fit, sixteen if their numbers have no more than 181
 * digits together.
 *
 * Numbers. Rows and requests have numbers from 1 to 4,294,967,294, each given once. A number in a line may have any
 * length: none wraps, and every one above the last is (no 3). When the last is given, what wants another is (no 18).
 *
 * What is answered. Any words, any bytes and any lengths are answered; nothing is asked of what the words hold. A run
 * of another length is (no 1), and (no 1 0) of an opening, which sets that run to 0. A refused call changes no word. A
 * refused opening leaves empty tables. Equal words and equal bytes give equal answers and equal words afterwards.
 *
 * Page. tablet_page writes the holders' page of the tables: a line a row, the oldest row first, each of
 * TABLET_PAGE_LINE_BYTES bytes with its line feed. In a line the number stands in columns 1 to 10, right-aligned; the
 * kind, op, dir, client or server, in 12 to 17; the place, node n, proc n or system, in 19 to 26; the rights in 28 to
 * 29 and the depth in 31 to 32, right-aligned; all other columns up to 64 are spaces. It reads words of any content:
 * the rows are the slots before the first whose number is 0, a code that is no kind or no place leaves its columns
 * spaces, and of a number with more digits than columns the last ones are shown. It does not ask whether the words are
 * sound; tablet_call does.
 *
 * Joining. tablet_join makes one opening text of two: it writes what the program join prints of them, the joined text
 * or a refusal, to the front of `out`. The longest joined text has 8,501 bytes. Lend TABLET_JOINED_BYTES or more. If
 * `out_len` is less, 0 is returned and nothing is read or written.
 *
 * What the caller must see to. Each pointer is to as many elements as its length says (a length of 0 allows any pointer
 * that is not null); the words are aligned as uint32_t; no two of the ranges overlap.
 *
 * Threads. The functions keep nothing: no global state, no allocation, no lock, no input or output. Any number of
 * threads may call them at once, each on its own words. On one pair of runs one call may run at a time; nobody else
 * writes or reads these words meanwhile. Pages of one run of tables may be written by several threads at once.
 *
 * Stack. TABLET_STACK_BYTES suffice for each function.
 */
#ifndef TABLET_H
#define TABLET_H

#include <stddef.h>
#include <stdint.h>

/* the version of the layout of the words: compare it where words are kept between two kernels */
#define TABLET_LAYOUT_VERSION 1

#define TABLET_TABLES_WORDS 11265
#define TABLET_PROCESSES_WORDS 192
#define TABLET_REPLY_BYTES 256
#define TABLET_STACK_BYTES 16384

/* a call line has at most so many bytes before its line feed */
#define TABLET_LINE_BYTES 255

/* a comesall has at most so many pairs */
#define TABLET_MOST_PAIRS 16

/* a line of the page with its line feed; a page of 1,024 rows, the longest */
#define TABLET_PAGE_LINE_BYTES 65
#define TABLET_PAGE_BYTES 66560

/* room for two texts joined, whatever they are */
#define TABLET_JOINED_BYTES 24832

#ifdef __cplusplus
extern "C" {
#endif

/* Opens tables by a text, whatever the words held. `text` is the opening text up to and with its line (open); what
 * follows that line does not matter. Answers (ok 0), or (no k n): refusal k at line n. */
size_t tablet_open(uint32_t *tables, size_t tables_len, uint32_t *processes, size_t processes_len, const uint8_t *text,
                   size_t text_len, uint8_t *reply, size_t reply_len);

/* Makes one call. `line` is one call line with its line feed, its last byte. Answers (ok n), n the new number or 0;
 * for fetch (ok q e ..), for comes (ok 1) or (ok 0), for chain (ok n ..), for comesall (ok v ..), one v a pair in the
 * order of the pairs: what comes answers of it, 1 or 0, or - where comes is (no 7); or (no k), k from 1 to 18. */
size_t tablet_call(uint32_t *tables, size_t tables_len, uint32_t *processes, size_t processes_len, const uint8_t *line,
                   size_t line_len, uint8_t *reply, size_t reply_len);

/* Writes the page from the row at slot `from` on (the oldest row is at slot 0) to the front of `page`: as many whole
 * lines as there is room for. Returns their bytes, 0 where no row is left; the bytes after them stay as they were, and
 * no word of the tables is written. Lend TABLET_PAGE_BYTES for a whole page, or TABLET_PAGE_LINE_BYTES or more and call
 * again, `from` raised by the lines that were written. If the tables have another length, 0 is returned and nothing is
 * written. */
size_t tablet_page(const uint32_t *tables, size_t tables_len, size_t from, uint8_t *page, size_t page_len);

/* Joins two opening texts. The second begins right after the line (open) of the first; what follows the second (open)
 * does not matter. Writes the joined text: the nodes of either text in rising number, then the processes, then (open);
 * a node of both has the first text's entries, then each of the second's that equals none already written there. Or a
 * refusal, one line: 2, 3, 4 or 6 of a text by itself as (no k n), n its line in that text, the first text's first;
 * then (no 5), a name that neither text lists, (no 6), more than 16 entries in a joined node, or (no 20), two prime
 * nodes for one process. Returns the bytes written; the bytes after them stay as they were. */
size_t tablet_join(const uint8_t *texts, size_t texts_len, uint8_t *out, size_t out_len);

#ifdef __cplusplus
}
#endif

#endif
