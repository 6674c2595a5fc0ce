/*
 * Formats an index of 264 words, puts three pages, of which one is cut off at first: lookups need not wait
 * for the mend, the put made again does. Gets two pages and lists all. Then seventeen pages for sixteen slots
 * take a second segment; the index is listed block by block, and a merge gives the segment back.
 */
#include "page_index.h"

#include <inttypes.h>
#include <stdio.h>

#define WORDS 264

static uint64_t words[WORDS];

static void report(const char *call, struct page_index_reply reply)
{
    printf("%s: code %" PRIu32 ", stores %" PRIu32 ", value %" PRIu64 "\n", call, reply.code, reply.stores,
           reply.value);
}

/* Lists the index block by block, with 128 words. */
static void list_blocks(void)
{
    uint64_t list[128], index = 0;
    struct page_index_reply reply;
    do {
        printf("at index %" PRIu64 ", ", index);
        reply = page_index_list_block(words, WORDS, index, list, 128, &index);
        report("list block", reply);
    } while (reply.code == PAGE_INDEX_DONE && index != 0);
}

int main(void)
{
    uint64_t list[6] = {0};
    report("format", page_index_format(words, WORDS, 2, 2, PAGE_INDEX_ALL));
    report("put 7", page_index_put(words, WORDS, 7, 70, PAGE_INDEX_ALL));
    report("put 8", page_index_put(words, WORDS, 8, 80, PAGE_INDEX_ALL));
    report("put 9, one store allowed", page_index_put(words, WORDS, 9, 90, 1));
    report("get 9, before the mend", page_index_get(words, WORDS, 9));
    report("get 7, before the mend", page_index_get(words, WORDS, 7));
    report("mend", page_index_mend(words, WORDS, PAGE_INDEX_ALL));
    report("put 9", page_index_put(words, WORDS, 9, 90, PAGE_INDEX_ALL));
    report("get 8", page_index_get(words, WORDS, 8));
    report("get 10", page_index_get(words, WORDS, 10));
    report("list", page_index_list(words, WORDS, list, 6));
    for (int i = 0; i < 6; i += 2)
        printf("key %" PRIu64 ", value %" PRIu64 "\n", list[i], list[i + 1]);
    report("remove 8", page_index_remove(words, WORDS, 8, PAGE_INDEX_ALL));
    report("get 8", page_index_get(words, WORDS, 8));
    report("list into no words", page_index_list(words, WORDS, list, 0));
    for (uint64_t i = 0; i < 16; i++)
        page_index_put(words, WORDS, 1 + 16 * i, i, PAGE_INDEX_ALL);
    report("put 257, with a split", page_index_put(words, WORDS, 257, 16, PAGE_INDEX_ALL));
    list_blocks();
    uint64_t next = 0;
    report("list block at index 2, behind the last", page_index_list_block(words, WORDS, 2, list, 6, &next));
    report("list block into six words", page_index_list_block(words, WORDS, 0, list, 6, &next));
    report("merge 1, 257 in the way", page_index_merge(words, WORDS, 1, PAGE_INDEX_ALL));
    report("remove 257", page_index_remove(words, WORDS, 257, PAGE_INDEX_ALL));
    report("merge 1", page_index_merge(words, WORDS, 1, PAGE_INDEX_ALL));
    report("merge 1, one block left", page_index_merge(words, WORDS, 1, PAGE_INDEX_ALL));
    return 0;
}
