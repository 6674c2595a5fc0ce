/* Formats a board of 520 words, sets jobs of two years, prints one year, removes a job and prints again. */
#include "month_board.h"

#include <inttypes.h>
#include <stdio.h>

#define WORDS 520
#define BYTES 256

static uint64_t words[WORDS];
static uint8_t lines[BYTES];

static void report(const char *call, struct page_index_reply reply)
{
    printf("%s: code %" PRIu32 ", stores %" PRIu32 ", value %" PRIu64 "\n", call, reply.code, reply.stores,
           reply.value);
}

/* Prints a year to standard output; a done print answers how many bytes it has written. */
static void print_year(const char *call, uint64_t year)
{
    struct page_index_reply reply = month_board_print(words, WORDS, year, lines, BYTES);
    report(call, reply);
    if (reply.code == PAGE_INDEX_DONE)
        fwrite(lines, 1, reply.value, stdout);
}

int main(void)
{
    report("format", page_index_format(words, WORDS, 2, 4, PAGE_INDEX_ALL));
    report("set Dec 4095", month_board_set(words, WORDS, 2026, 12, 4095, 1200, PAGE_INDEX_ALL));
    report("set Mar 7", month_board_set(words, WORDS, 2026, 3, 7, 250, PAGE_INDEX_ALL));
    report("set Mar 0", month_board_set(words, WORDS, 2026, 3, 0, 0, PAGE_INDEX_ALL));
    report("set Mar 7 of 2027", month_board_set(words, WORDS, 2027, 3, 7, 99, PAGE_INDEX_ALL));
    report("set Jan 10, one store allowed", month_board_set(words, WORDS, 2026, 1, 10, 64, 1));
    report("mend", page_index_mend(words, WORDS, PAGE_INDEX_ALL));
    report("set Jan 10", month_board_set(words, WORDS, 2026, 1, 10, 64, PAGE_INDEX_ALL));
    report("read Mar 7", month_board_read(words, WORDS, 2026, 3, 7));
    report("read Mar 8", month_board_read(words, WORDS, 2026, 3, 8));
    print_year("print 2026", 2026);
    report("remove Mar 7", month_board_remove(words, WORDS, 2026, 3, 7, PAGE_INDEX_ALL));
    print_year("print 2026", 2026);
    print_year("print 2028", 2028);
    report("set, year 10000", month_board_set(words, WORDS, 10000, 13, 4096, 1, PAGE_INDEX_ALL));
    report("read, month 13", month_board_read(words, WORDS, 2026, 13, 4096));
    report("remove, number 4096", month_board_remove(words, WORDS, 2026, 12, 4096, PAGE_INDEX_ALL));
    report("print into 8 bytes", month_board_print(words, WORDS, 2026, lines, 8));
    return 0;
}
