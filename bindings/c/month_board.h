/*
 * The month board: the pages scanned for each job, in an index of its own. A job has a year (1 to
 * 9999), a month (1 to 12) and a number (0 to 4095). Its key in the index is year * 65536 + month *
 * 4096 + number, its value the pages.
 *
 * The functions are in libpage_index.a, beside those of page_index.h. The board's array is formatted
 * by page_index_format and mended by page_index_mend, after a power cut too; page_index_merge with a
 * job's key gives a segment back. What page_index.h says of the library, of the stack (less than 8,192
 * bytes a call) and of power cuts holds for the board: after a cut read and print are right at once, and
 * say what they say after the mending; set and remove wait for the mend.
 *
 * What the caller owes, for every call:
 *   - `words` points to `len` words, as in page_index.h.
 *   - `buffer` points to `buffer_len` bytes that do not overlap the words. With `buffer_len` 0 it may
 *     be any pointer but NULL.
 * Nothing else: every year, month and number gets an answer.
 *
 * HOW MANY JOBS A BOARD TAKES
 *
 * In 4 MiB (D = 12, S = 4,032), with the numbers 0 to n - 1 in every month from January 2026 on, in rising
 * order: the jobs until a set is refused for the first time, the code, and when that is. Then for how many
 * whole years an array is enough, with 2026, 2027, 2028 or 2029 as the first, and with the jobs of each year
 * in rising or in random order; more than 64 were not tried. bench/board.cpp works it out.
 *
 *         n       jobs  code  refused in  years
 *        50    115,229     5   Jan 2218      64
 *       100    104,515     5   Feb 2113      64
 *       128    196,736     5   Feb 2154      64
 *       200    154,000     5   Mar 2090       3
 *       256    197,120     5   Mar 2090       3
 *       300     14,714     5   Feb 2030       3
 *       500     18,520     5   Feb 2029       3
 *     1,000     40,541     5   May 2029       3
 *     2,000     96,000     5   Jan 2030       3
 *     4,096    196,608     5   Jan 2030       3
 *
 * Why so few: where a job goes is taken from 16 bits of its folded key, and there are four slots for each
 * value of these bits. Folding lays bit 0 of the year over bit 6 of the number, and so on, bit 5 over bit
 * 11. With up to 64 numbers each of 64 years has places of its own; with up to 128 two years share their
 * places, with up to 256 four, and with more than 256 eight or more. Four years fill four slots, and only jobs
 * that come in rising order find each its own.
 *
 * What to do: take another array every three years; or every 64, where no month has other numbers than 0 to
 * 127. What page_index.h says of the code 5 holds here: other jobs may still be set.
 *
 * Ahead of all other refusals comes 11 for a bad year, then 12 for a bad month, then 13 for a bad
 * number. After these no store was made, and neither the words nor the buffer have changed.
 */
#ifndef MONTH_BOARD_H
#define MONTH_BOARD_H

#include "page_index.h"

#ifdef __cplusplus
extern "C" {
#endif

/*
 * Sets the pages of a job, whether it had some or not: page_index_put of its key, with the same stores
 * and the same answer. Codes: 0, 1, 3 to 7, 11, 12, 13.
 */
struct page_index_reply month_board_set(uint64_t *words, size_t len, uint64_t year, uint64_t month,
                                        uint64_t number, uint64_t pages, uint32_t allowance);

/*
 * Reads the pages of a job: page_index_get of its key. Writes nothing. Codes: 0 with the pages, 255,
 * 1, 3, 11, 12, 13.
 */
struct page_index_reply month_board_read(const uint64_t *words, size_t len, uint64_t year, uint64_t month,
                                         uint64_t number);

/*
 * Takes a job away: page_index_remove of its key, in 1 store. Codes: 0, 255, 1, 3, 4, 7, 11, 12, 13.
 */
struct page_index_reply month_board_remove(uint64_t *words, size_t len, uint64_t year, uint64_t month,
                                           uint64_t number, uint32_t allowance);

/*
 * Prints the jobs of a year into the buffer, a line for each job that month_board_read finds: the
 * month's name (Jan, Feb, .. Dec), a tab, the job number, a tab, the pages, a line feed; both numbers
 * decimal without leading zeros. Months rise, and numbers rise within a month. Bytes behind the lines
 * stay; no zero byte ends them. If the read of any job of the year is refused, the answer is that
 * refusal; else, if the buffer is shorter than the lines, it is 10. A refused print leaves the buffer
 * as it was. No store is made in the array. Codes: 0 with the number of bytes, 1, 3, 10, 11.
 */
struct page_index_reply month_board_print(const uint64_t *words, size_t len, uint64_t year, uint8_t *buffer,
                                          size_t buffer_len);

#ifdef __cplusplus
}
#endif

#endif
