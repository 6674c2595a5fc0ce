/*
 * The page index: image numbers (keys) and the places of their scans (values) in an array of 64-bit words
 * that keeps its contents when the power goes.
 *
 * Link with libpage_index.a (`tools/archive` writes it to target/staticlib), for x86-64 Linux:
 *
 *     cc -std=c99 -I bindings/c program.c target/staticlib/libpage_index.a -o program
 *
 * The library needs memcpy and memset from the C library, and nothing else. It uses no heap, keeps no
 * state of its own between calls, and a call uses less than 8,192 bytes of stack. example.c, beside this
 * file, makes every call; mapped_example.c keeps pages in a file, with every code answered.
 *
 * WHAT THE CALLER OWES, for every call:
 *   - `words` points to `len` words, aligned to eight bytes, that nobody else writes during the call.
 *   - `list` points to `list_len` words that do not overlap the words of the index.
 *   - `next` points to one word that overlaps neither of the two.
 *   - No pointer is NULL, also where its length is 0.
 * Nothing else: every content of the array and every argument gets an answer. No call reads or writes a
 * word outside the array. Words behind those that the index needs are never touched; they may be yours.
 * Several arrays may be used by several threads. On one array a call that stores (format, put, remove,
 * mend, merge) is made alone; the others (get, list, list block) may run side by side.
 *
 * CHOOSING SIZES AND KEYS
 *
 * Pages stand in segments, and the directory says in which: it has 2^G entries, each with the number of a
 * segment. The bits of a key's folded key (below) from bit 4 on are its directory bits; the first G of them
 * choose the entry. Neighbouring entries with one segment are a block; its keys agree in as many directory
 * bits as its local depth says. G grows with the index, up to D. README draws all of it, under 'The array
 * of words'.
 *
 * An index of largest directory depth D (2 to 12) with S segments (1 to 2^D) takes 2^(D+1) + 128 * S words
 * of eight bytes, PAGE_INDEX_WORDS(D, S). For 4 MiB, 524,288 words: D = 12, S = 4,032. A segment has 64
 * slots for a page each; every page has sixteen of them to stand in, its window. Where these are taken,
 * the segment is split in two, by one bit more of the keys. So an index is not filled to the last slot:
 * running numbers fill some five slots of eight. How often a segment can be split is limited by D. So a
 * larger D takes keys that are spread less evenly; its directory takes twice the words for each depth, and
 * every put reads as much of it as is in use.
 *
 * Every number but 0 is a key, and every number a value. Where a key goes is taken from the low 4 + D bits
 * of its folded key, key ^ key / 1024: the low four bits choose the bucket, the D directory bits the
 * segment. Keys are folded, not hashed: of a key itself the low 14 + D bits count, and no others. If D is 12,
 * keys that agree in bits 0 to 25 share their sixteen slots for good, and the seventeenth of them is
 * refused. So number pages so that the low bits change: running numbers are good. Pages that an index of
 * 4 MiB takes, with keys in steps (the step, twice the step and so on), until a put is refused for the first
 * time, and with which code:
 *
 *     step 1      162,815   6      step 100     13,140   5      step 65,536   16,384   5
 *     step 10      52,996   5      step 1,000  100,961   5      step 2^32         16   5
 *     step 16      34,752   6      step 1,024  148,415   6
 *     random keys, in twenty draws: 81,648 to 113,343   5
 *
 * After 5 and 6 no page has changed, nothing has to be mended, and other keys may still be put. The put
 * may have split before it was refused, and so have taken free segments; merges give them back. A key that
 * is there is never refused with 5 or 6.
 *   - 5, too deep: the window is full of pages that share all D directory bits, and no room elsewhere
 *     helps. Give such pages other numbers (running ones, say, that you keep beside the image numbers), or
 *     remove a page of that window (tools/page-index find shows it), or move to an index with a larger D.
 *   - 6, no segment: the window is full, and no segment is free to split into. Remove pages and merge
 *     until nothing merges, which gives segments back (page_index_merge); or move to an index with more
 *     segments. A program may merge and put again by itself: that costs a round of merges, also where
 *     nothing merges.
 * To move, list the index and put each record into another one, in another array; only then give up the
 * first. How full it is: pages are the value of a list, segments in use the number of blocks that are
 * listed one by one.
 *
 * AT START
 *
 *   1. Pass the whole memory, with the same `len` at each start; do not take it from word 0.
 *   2. If it is new, format it. A FILE is new if all its words are 0: they are in a file made just now, and
 *      stay so to the last store of its first format, so that one which was cut off is begun anew. Do not
 *      ask for word 0 alone: damage can make it 0, and every page would be gone.
 *   3. Else mend it, with PAGE_INDEX_ALL. At PAGE_INDEX_DONE it is ready. Its shape is that of word 0 (D
 *      in bits 8 to 15, S in bits 16 to 31), which nobody compares with yours. With an allowance of 0 a
 *      mend makes no store, and answers 7 where there is something to mend.
 *   4. At any other code stop, and have somebody look at it (tools/page-index). Do not format.
 *      PAGE_INDEX_NO_STORE does not mean that nothing is there: it is also the answer to a damaged word 0,
 *      one that became 0 too, and to a `len` that is too short. 'Mend; if that says 1, format' has wiped
 *      1,000 pages, when the length was passed 1,024 words short and S computed from it. Format empties an
 *      index, whatever it held.
 *
 *     size_t i = 0;
 *     while (i < len && words[i] == 0) i++;
 *     reply = i == len ? page_index_format(words, len, 12, 4032, PAGE_INDEX_ALL)
 *                      : page_index_mend(words, len, PAGE_INDEX_ALL);
 *     if (reply.code != PAGE_INDEX_DONE) stop();
 *
 * Memory that is no file may hold anything when it is new: who installs it formats it, once. A format
 * stores 0 to word 0 first, and last the mark by which an index is known; so if word 0 is 0 there, and the
 * memory is not damaged, a format was cut off, and is begun anew.
 *
 * From then on a page is kept once its put has answered PAGE_INDEX_DONE. With PAGE_INDEX_ALL, and if
 * nobody else writes the words, put answers 0, 2, 5 or 6, get and remove 0, 2 or 255, merge 0, 2, 14 or
 * 15, list 0 or 10, list block 0, 10 or 16. Any other code means that somebody else has written, or
 * damage: at 1 and 3 stop; before a mend at 4 see DAMAGE, below.
 *
 * IN A FILE
 *
 * An index may stand in a file that is mapped. What was stored is then in the file also if the process is
 * killed at any instruction; nothing has to be done at the end, and no page that was acknowledged is lost.
 *   1. open(path, O_RDWR | O_CREAT | O_NONBLOCK, 0666), so that a FIFO is not waited for; fstat, and stop
 *      where it is no regular file (S_ISREG). flock(fd, LOCK_EX | LOCK_NB): one process at a time. Where
 *      another has the lock: stop. It is held as long as the descriptor is open. tools/page-index takes it
 *      too, also to look.
 *   2. fstat again. Where st_nlink is 0 another process has removed or replaced the file: stop. A file of
 *      no bytes is new, or its maker was killed here: ftruncate gives it 8 * len bytes, and they are 0. A
 *      file of any other length but 8 * len bytes: stop.
 *   3. posix_fallocate, at each start: it takes the space on the disk, and changes no byte (its error is
 *      what it returns, not errno). A store into memory cannot say that the disk is full; it would end the
 *      process (SIGBUS), as it does where somebody shortens the file while it is mapped. Where it fails for
 *      a file that had no bytes, ftruncate gives it none again.
 *   4. mmap(PROT_READ | PROT_WRITE, MAP_SHARED): a mapping is aligned. Then start as above.
 * With -std=c99 these functions want _DEFAULT_SOURCE defined before the first #include.
 *
 * FILES AND POWER
 *
 * That the power may go is another matter than a killed process. It is survived by memory that takes the
 * stores in program order and keeps them: that of the bureau's cabinet, memory with a battery. A file on a
 * disk is not such memory. The system writes its pages of 4,096 bytes back in any order, at any time, in
 * the middle of a call too; after a power cut later stores may be there and earlier ones not, and neither
 * lookups nor a mend can be trusted then. msync(MS_SYNC) between two calls says that all stores made until
 * then are on the disk, and the file is safe until the next call that stores. It does not keep pages from
 * being written before it is called, so it gives no order to the stores in the middle of a call, nor to
 * those of the calls since the last msync. The same holds of persistent memory behind a processor cache
 * whose lines are lost with the power. Against such cuts keep copies: between two calls write the words to
 * another file, fsync it, rename it over the last copy, fsync the folder; tools/page-index copy does that
 * while no program has the file. A copy needs no mend before it is made.
 *
 * POWER CUTS
 *
 * A call makes its stores one whole word at a time, in a fixed order. If the power goes during a call, and
 * the memory takes stores in that order, or if the process is killed, the array is as if the call had been
 * given an allowance of just the stores that were made; what follows holds after the code
 * PAGE_INDEX_CUT_OFF too. (What each allowance leaves is proved. That a call makes the same stores on its
 * way with a larger one follows from the form of the code, which is checked with the proofs; that the
 * compiled library does was seen in every store of long runs: docs/PROOFS.md, 'The form of the stores'.)
 *   - Lookups are right at once. After a put, a remove, a merge or a mend that was cut off, page_index_get
 *     finds every page that was put and acknowledged, and says of every key what it says after the
 *     mending. The put or the remove that was cut off has changed nothing that a lookup sees; only if its
 *     last store was made it has happened, and just was not answered. A merge changes no page.
 *   - All else waits for the mend: put, remove, merge, list and list block. Call page_index_mend until it
 *     answers PAGE_INDEX_DONE. Before that they answer PAGE_INDEX_UNMENDED (PAGE_INDEX_NO_KEY for key 0)
 *     and change nothing, if there is something to mend; if there is not, they do what they always do.
 *   - A format that was cut off is begun anew. From its first store to its last every other call answers
 *     PAGE_INDEX_NO_STORE (the month board its 11 to 13 before that).
 *
 * DAMAGE
 *
 * The array has no checksum, and what is said here of pages holds for words that these calls alone have
 * written. Noticed are a word 0 that no index has (1) and a directory whose blocks do not fit together (3;
 * a get looks at its own entry alone). Not noticed are another G, D or S that is possible, another segment
 * in a block of one entry, another key or value: a mend answers PAGE_INDEX_DONE, pages are absent, and puts
 * may overwrite them. Other changes of an entry look like a call that was cut off: put, remove, merge and
 * the lists answer 4. If it is the first entry of a block, the mend writes it over the block, and pages are
 * absent that a get still found; if it is another one, the mend puts it right. Where memory can be damaged
 * keep copies, or a sum of the listing, and copy the words before a mend. tools/page-index check tells some
 * damage of these kinds, and its mend is not made where a lookup would change.
 *
 * ALLOWANCES
 *
 * The calls that store take the number of stores that they may make. Pass PAGE_INDEX_ALL: no call needs
 * more than 9,764. A smaller allowance does what a power cut after so many stores does, so that a program
 * can be tested without one: the call answers PAGE_INDEX_CUT_OFF where more are due. After that code make
 * a format again; after any other call mend before anything is changed, then make the put or the remove
 * again. (A merge the mend may have finished: made again it joins the next pair, or answers 14 or 15.)
 * Allowances do not cut a long call into short ones: only a mend goes on where it was cut off, a put begins
 * its split again.
 *
 * HOW LARGE A LIST ARRAY
 *
 * 128 * S words are always enough for page_index_list, S being the segments of format; so are `len` words.
 * Where a list array is too short, the answer is PAGE_INDEX_SHORT_LIST and nothing is written. With 128
 * words, page_index_list_block lists one block after the other.
 *
 * TWO ARRAYS COMPARED
 *
 * Of one array and one call, an allowance larger by one changes at most one word of what is left: the word
 * of the one store more. Two puts that differ in the value alone have the same code and the same number of
 * stores, and what they leave differs at most in the value word of the key's slot; not at all where the
 * put is refused, or cut off before it stores the value. The same pages put in another order stand in
 * other places: compare listings, not bytes (tools/page-index diff).
 *
 * A STORE WITH THE OLD MARK
 *
 * Before keys were folded, bits 32 to 63 of word 0 were 0x50414745 (now 0x50414746), and pages stood where
 * this library does not look. Every call but format answers such a store with PAGE_INDEX_NO_STORE and
 * changes no word of it. It is entered anew: list it with the library that made it and keep the records
 * elsewhere, format the array, put every record, and give up the list when each put was answered
 * PAGE_INDEX_DONE. Format empties a store: what was not listed is lost.
 */
#ifndef PAGE_INDEX_H
#define PAGE_INDEX_H

#include <stddef.h>
#include <stdint.h>

#ifdef __cplusplus
extern "C" {
#endif

/* The version of this header; the Rust crate, the Python module and tools/page-index say the same. */
#define PAGE_INDEX_VERSION "0.1.0"

/* The words that an index of this shape takes, where format does not refuse it with 8. */
#define PAGE_INDEX_WORDS(depth, segments) (((size_t)2 << (depth)) + 128 * (size_t)(segments))

/* An allowance that cuts no call off. */
#define PAGE_INDEX_ALL UINT32_MAX

/* The code of an answer. Of several refusals that hold the first is given, in this order: the board's (of
   month_board.h) 11, 12, 13; then 1, 2, 3, 4; then 5, 6, or 8, 9, or 14, 15, or 16, 10. 7 comes at the first
   store that is not allowed, so before a 5 or 6 that a put finds only behind a split. */
enum page_index_code {
    PAGE_INDEX_DONE = 0,
    PAGE_INDEX_NO_STORE = 1,   /* word 0 is not that of an index, or has the old mark, or the array is
                                  too short for it */
    PAGE_INDEX_NO_KEY = 2,     /* the key is 0 */
    PAGE_INDEX_BROKEN = 3,     /* the directory is damaged */
    PAGE_INDEX_UNMENDED = 4,   /* a split or a merge was cut off: mend first (or an entry is damaged) */
    PAGE_INDEX_TOO_DEEP = 5,   /* the key's slots are full, and its segment has the largest depth */
    PAGE_INDEX_NO_SEGMENT = 6, /* the key's slots are full, and no segment is free */
    PAGE_INDEX_CUT_OFF = 7,    /* more stores were due than allowed */
    PAGE_INDEX_BAD_SHAPE = 8,  /* format: depth not 2 to 12, or segments not 1 to 2^depth */
    PAGE_INDEX_TOO_SHORT = 9,  /* format: fewer than 2^(depth + 1) + 128 * segments words */
    PAGE_INDEX_SHORT_LIST = 10, /* list and list block: the list array has fewer than two words for each
                                   record, of all or of the one block; print, of the board: the buffer is
                                   shorter than the lines */
    PAGE_INDEX_BAD_YEAR = 11,   /* given by the board alone: the year is not 1 to 9999 */
    PAGE_INDEX_BAD_MONTH = 12,  /* given by the board alone: the month is not 1 to 12 */
    PAGE_INDEX_BAD_NUMBER = 13, /* given by the board alone: the job number is not 0 to 4095 */
    PAGE_INDEX_NO_BUDDY = 14,   /* merge: one block fills the directory, or the other half of the block
                                   one depth shallower is split further */
    PAGE_INDEX_BOTH_LIVE = 15,  /* merge: some slot has a page in both segments */
    PAGE_INDEX_NO_LEADER = 16,  /* list block: no block begins at this index of the directory */
    PAGE_INDEX_ABSENT = 255    /* get and remove: the key is not there */
};

/*
 * An answer. `stores` is the number of stores made in the array: 0 after the codes 1 to 4, 8 to 16 and
 * 255, and after every get, list, list block, read and print. `value` is what a get or a read found, how
 * many records a list or a list block or how many bytes a print wrote; else 0. (Read and print are of the
 * board.)
 */
struct page_index_reply {
    uint32_t code;
    uint32_t stores;
    uint64_t value;
};

/*
 * Makes an empty index of largest directory depth `depth` (2 to 12) with `segments` segments (1 to
 * 2^depth) of up to 64 pages each, in 67 stores, whatever the words held before. Codes: 0, 7, 8, 9.
 */
struct page_index_reply page_index_format(uint64_t *words, size_t len, uint64_t depth, uint64_t segments,
                                          uint32_t allowance);

/*
 * Looks a key up. Reads word 0, one word of the directory and at most four buckets of 64 bytes, and
 * writes nothing. It need not wait for a mend. Codes: 0 with the value, 255, 1, 2, 3.
 */
struct page_index_reply page_index_get(const uint64_t *words, size_t len, uint64_t key);

/*
 * Gives the key this value, whether it had one or not. Usually 1 or 2 stores; where segments are
 * split, up to 9,764. After the codes 5 and 6 the stores of splits already made stay, and no page
 * has changed. A split leaves the records that it copies where they were, and a merge that was cut off
 * may leave its copies; a new key takes an empty slot, and one with such a record only where none of its
 * sixteen slots is empty. Codes: 0, 1 to 7.
 */
struct page_index_reply page_index_put(uint64_t *words, size_t len, uint64_t key, uint64_t value,
                                       uint32_t allowance);

/* Takes the key's value away, in 1 store. Codes: 0, 255, 1 to 4, 7. */
struct page_index_reply page_index_remove(uint64_t *words, size_t len, uint64_t key, uint32_t allowance);

/*
 * Takes back what a split that was cut off has left in the entries of the directory (one that it doubled
 * stays doubled), and finishes a merge that was cut off with its first entry stored; a merge that was cut
 * off before that has left the directory as it was.
 * No lookup's answer changes, whether the mend is whole or cut off, if the words are not damaged. With
 * nothing to do it makes no store, so it may be called at every start. At most 4,096 stores. Codes: 0, 1, 3, 7.
 */
struct page_index_reply page_index_mend(uint64_t *words, size_t len, uint32_t allowance);

/*
 * Makes one block of two that hold little: the key's block and its buddy, the other half of the block one
 * depth shallower. The pages of both are in the left segment then, and later splits can take the right
 * one. The key stands for its block: any key but 0 that leads there, stored or not. No page changes,
 * whether the merge is whole or cut off. Up to 4,224 stores; none where it is refused with 14 or 15.
 *
 * One call joins one pair. The new block may have a buddy as well. To merge all there is, call it for the
 * keys 16 * i + 1, i from 0 to 2^D - 1, which lead to all entries, again and again until a whole round
 * answers nothing but 14 and 15. In 4 MiB a round takes some ten to thirty milliseconds. Codes: 0, 1 to
 * 4, 7, 14, 15.
 */
struct page_index_reply page_index_merge(uint64_t *words, size_t len, uint64_t key, uint32_t allowance);

/*
 * Writes every record to the list array, each as key, then value; words behind them stay. Records come
 * block by block from the left of the directory, and by rising slot number within a segment; two listings
 * of one untouched index are equal word for word. Codes: 0 with the number of records, 1, 3, 4, 10.
 */
struct page_index_reply page_index_list(const uint64_t *words, size_t len, uint64_t *list, size_t list_len);

/*
 * Lists one block: the one that begins at this index of the directory. Writes its records to the list
 * array as page_index_list does, and to `*next` the index at which the next block begins, or 0 if this was
 * the last. A list array of 128 words is always enough.
 *
 * From index 0 on, each time at the index that the call before has named, until that is 0, the records
 * are those of page_index_list, in its order, if nobody changes the index in between. After a change blocks
 * may begin elsewhere: start at 0 again.
 *
 * Each call reads the whole directory, and gives 1, 3 and 4 as page_index_list does. Then comes 16 where no
 * block begins at the index, which may lie within a block or behind the directory's end; then 10, for the
 * records of this block alone. A refusal leaves the list array and `*next` as they were. Codes: 0 with the
 * number of records, 1, 3, 4, 10, 16.
 */
struct page_index_reply page_index_list_block(const uint64_t *words, size_t len, uint64_t index,
                                              uint64_t *list, size_t list_len, uint64_t *next);

#ifdef __cplusplus
}
#endif

#endif
