/*
 * Pages kept in a mapped file of 4 MiB. Starts as page_index.h says. Then each line of standard input is a
 * call: `key value` puts a page, `key` alone removes it. The key is printed when that is done: from then on
 * the page is as it was told, also if the process is killed. What is refused is said on standard error.
 *
 *     mapped_example FILE
 *     mapped_example --version
 */
#define _DEFAULT_SOURCE
#include "page_index.h"

#include <ctype.h>
#include <errno.h>
#include <fcntl.h>
#include <inttypes.h>
#include <stdio.h>
#include <stdlib.h>
#include <string.h>
#include <sys/file.h>
#include <sys/mman.h>
#include <sys/stat.h>
#include <unistd.h>

enum { DEPTH = 12, SEGMENTS = 4032 };
static const size_t LEN = PAGE_INDEX_WORDS(DEPTH, SEGMENTS);
static const off_t BYTES = 8 * PAGE_INDEX_WORDS(DEPTH, SEGMENTS);

/* What a code says. */
static const char *said(uint32_t code)
{
    switch (code) {
    case PAGE_INDEX_DONE: return "done";
    case PAGE_INDEX_NO_STORE: return "no index, or word 0 is damaged: nothing is formatted here";
    case PAGE_INDEX_NO_KEY: return "0 is no key";
    case PAGE_INDEX_BROKEN: return "the directory is damaged";
    case PAGE_INDEX_UNMENDED: return "a call was cut off, and not mended";
    case PAGE_INDEX_TOO_DEEP: return "too many keys agree with this one in the bits that count: give it another number";
    case PAGE_INDEX_NO_SEGMENT: return "the index is full here: remove pages";
    case PAGE_INDEX_CUT_OFF: return "cut off";
    case PAGE_INDEX_BAD_SHAPE: return "no index has this depth and so many segments";
    case PAGE_INDEX_TOO_SHORT: return "too few words for this depth and so many segments";
    case PAGE_INDEX_SHORT_LIST: return "the list array is too short";
    case PAGE_INDEX_BAD_YEAR:
    case PAGE_INDEX_BAD_MONTH:
    case PAGE_INDEX_BAD_NUMBER: return "an answer of the month board";
    case PAGE_INDEX_NO_BUDDY: return "no block to merge with";
    case PAGE_INDEX_BOTH_LIVE: return "the two blocks hold too much to be merged";
    case PAGE_INDEX_NO_LEADER: return "no block begins here";
    case PAGE_INDEX_ABSENT: return "absent";
    }
    return "no code of this library";
}

static void stop(const char *what, const char *why)
{
    fprintf(stderr, "%s: %s\n", what, why);
    exit(1);
}

/* Opens the file, which is made if it is not there, for this process alone, and answers its length. A FIFO is not
   waited for, and what is no regular file is left alone. */
static int open_locked(const char *path, off_t *length)
{
    struct stat file;
    int fd = open(path, O_RDWR | O_CREAT | O_NONBLOCK, 0666);
    if (fd < 0 || fstat(fd, &file) != 0) stop(path, strerror(errno));
    if (!S_ISREG(file.st_mode)) stop(path, "no regular file");
    if (flock(fd, LOCK_EX | LOCK_NB) != 0) stop(path, "another process has locked it");
    /* Who had the lock before may have given the file its length, or removed it. */
    if (fstat(fd, &file) != 0) stop(path, strerror(errno));
    if (file.st_nlink == 0) stop(path, "another process has removed it just now");
    *length = file.st_size;
    return fd;
}

/* Maps the file. It stays open, and with it the lock held. */
static uint64_t *map_file(const char *path)
{
    off_t length;
    int fd = open_locked(path, &length);
    /* A file made just now has no bytes, nor has one whose maker was killed here. The new bytes are 0. */
    if (length == 0 && ftruncate(fd, BYTES) != 0) stop(path, strerror(errno));
    if (length != 0 && length != BYTES) stop(path, "not of the length of this index");
    /* The disk may be full: that is said here, since a store into memory cannot say it. A new file is new again. */
    int full = posix_fallocate(fd, 0, BYTES);
    if (full != 0 && length == 0 && ftruncate(fd, 0) != 0) stop(path, strerror(errno));
    if (full != 0) stop(path, strerror(full));
    void *at = mmap(NULL, BYTES, PROT_READ | PROT_WRITE, MAP_SHARED, fd, 0);
    if (at == MAP_FAILED) stop(path, strerror(errno));
    return at;
}

/* Mends the index. A code but done means that no call can be made. */
static void mend(uint64_t *words)
{
    struct page_index_reply reply = page_index_mend(words, LEN, PAGE_INDEX_ALL);
    if (reply.code != PAGE_INDEX_DONE) stop("mend", said(reply.code));
    if (reply.stores > 0) fprintf(stderr, "mended: %" PRIu32 " stores\n", reply.stores);
}

/* Whether the file is new: all its words are 0, and not word 0 alone, which damage may have made 0. */
static int is_new(const uint64_t *words)
{
    size_t i = 0;
    while (i < LEN && words[i] == 0) i++;
    return i == LEN;
}

/* The start: a new file is formatted, every other one is mended. */
static void start(uint64_t *words)
{
    if (!is_new(words)) {
        mend(words);
        return;
    }
    struct page_index_reply reply = page_index_format(words, LEN, DEPTH, SEGMENTS, PAGE_INDEX_ALL);
    if (reply.code != PAGE_INDEX_DONE) stop("format", said(reply.code));
    fprintf(stderr, "formatted\n");
}

/* Whether a merge at the key is done. One that has nothing to join is not. */
static int merges(uint64_t *words, uint64_t key)
{
    uint32_t code = page_index_merge(words, LEN, key, PAGE_INDEX_ALL).code;
    if (code == PAGE_INDEX_NO_BUDDY || code == PAGE_INDEX_BOTH_LIVE) return 0;
    if (code != PAGE_INDEX_DONE) stop("merge", said(code));
    return 1;
}

/* Merges once at each entry of the directory, and answers how many segments came free. */
static unsigned merge_each(uint64_t *words)
{
    unsigned merged = 0;
    for (uint64_t i = 0; i < (uint64_t)1 << DEPTH; i++) merged += merges(words, 16 * i + 1);
    return merged;
}

/* Merges until nothing merges. */
static unsigned merge_all(uint64_t *words)
{
    unsigned merged = 0, more;
    while ((more = merge_each(words)) > 0) merged += more;
    fprintf(stderr, "merged: %u segments came free\n", merged);
    return merged;
}

/* A put, or a remove where there is no value. */
static uint32_t change(uint64_t *words, uint64_t key, const uint64_t *value)
{
    if (value == NULL) return page_index_remove(words, LEN, key, PAGE_INDEX_ALL).code;
    return page_index_put(words, LEN, key, *value, PAGE_INDEX_ALL).code;
}

/* The same, with what a code asks for: behind 4 and 7 a mend, behind 6 merges, and the call once more. */
static uint32_t change_surely(uint64_t *words, uint64_t key, const uint64_t *value)
{
    uint32_t code = change(words, key, value);
    if (code == PAGE_INDEX_UNMENDED || code == PAGE_INDEX_CUT_OFF) {
        mend(words);
        code = change(words, key, value);
    }
    if (code == PAGE_INDEX_NO_SEGMENT && merge_all(words) > 0) code = change(words, key, value);
    return code;
}

/* Reads a number below 2^64, and the blanks behind it. Answers where it ends, or NULL where there is none. */
static const char *read_number(const char *text, uint64_t *number)
{
    char *end;
    if (text == NULL || !isdigit((unsigned char)*text)) return NULL;
    errno = 0;
    *number = strtoull(text, &end, 10);
    return errno == 0 ? end + strspn(end, " \t\r\n") : NULL;
}

/* Reads a line, without its end, and answers whether there was one. A line that does not fit is no call, nor is one with
   a zero byte: it becomes a question mark. */
static int read_line(char *line, size_t room)
{
    size_t length = 0;
    int byte, fits = 1;
    while ((byte = getchar()) != EOF && byte != '\n') {
        fits = fits && byte != 0 && length < room - 1;
        if (fits) line[length++] = (char)byte;
    }
    line[length] = '\0';
    if (!fits) strcpy(line, "?");
    return byte != EOF || length > 0 || !fits;
}

/* Makes the call of a line, and says how it ended. */
static void run_line(uint64_t *words, unsigned long number, const char *line)
{
    uint64_t key = 0, value = 0;
    const char *rest = read_number(line, &key);
    int removes = rest != NULL && *rest == '\0';
    if (!removes) rest = read_number(rest, &value);
    if (rest == NULL || *rest != '\0') {
        fprintf(stderr, "line %lu: neither `key value` nor `key`\n", number);
        return;
    }
    uint32_t code = change_surely(words, key, removes ? NULL : &value);
    if (code == PAGE_INDEX_NO_STORE || code == PAGE_INDEX_BROKEN) stop("the index", said(code));
    if (code != PAGE_INDEX_DONE) fprintf(stderr, "line %lu: %s\n", number, said(code));
    if (code == PAGE_INDEX_DONE) printf("%" PRIu64 "\n", key);
    /* From here on the caller may count on it. */
    fflush(stdout);
}

/* The number of pages, listed block by block in 128 words. */
static uint64_t count_pages(const uint64_t *words)
{
    uint64_t list[128], index = 0, pages = 0;
    do {
        struct page_index_reply reply = page_index_list_block(words, LEN, index, list, 128, &index);
        if (reply.code != PAGE_INDEX_DONE) stop("list", said(reply.code));
        pages += reply.value;
    } while (index != 0);
    return pages;
}

int main(int argc, char **argv)
{
    char line[256];
    if (argc != 2) stop("usage", "mapped_example FILE");
    if (strcmp(argv[1], "--version") == 0) return puts("mapped_example " PAGE_INDEX_VERSION) < 0;
    uint64_t *words = map_file(argv[1]);
    start(words);
    for (unsigned long number = 1; read_line(line, sizeof line); number++) run_line(words, number, line);
    printf("%" PRIu64 " pages\n", count_pages(words));
    return 0;
}
