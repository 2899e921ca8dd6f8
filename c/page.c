/* Prints the page of a book and a request in an output that is longer, and what the call tells of one that is a byte short and of a
 * zone that is not in the book. Arguments: the rate book's file, the request's file. */
#include "fikrem.h"
#include "files.h"

#include <stdio.h>
#include <string.h>

enum { PAST = 8, UNWRITTEN = 7 };

static uint8_t book[FILE_SIZE], request[FILE_SIZE], out[FIKREM_PAGE_SIZE + PAST];
static size_t book_size, request_size;

/* How many bytes of the output from a place on are as they were before the call. */
static size_t unwritten(size_t from)
{
    size_t count = 0;
    for (size_t i = from; i < sizeof out; i++) {
        count += out[i] == UNWRITTEN;
    }
    return count;
}

static uint64_t call(size_t out_size)
{
    memset(out, UNWRITTEN, sizeof out);
    return fikrem_page(book, book_size, request, request_size, out, out_size);
}

static void tell(const char *name, uint64_t result)
{
    printf("%s: refused by %d, file %d, place %llu; %s\n", name, (int)FIKREM_NUMBER(result), (int)FIKREM_FILE(result),
           (unsigned long long)FIKREM_PLACE(result), unwritten(0) == sizeof out ? "all unchanged" : "CHANGED");
}

int main(int count, char **names)
{
    if (count != 3) {
        fprintf(stderr, "usage: %s BOOK REQUEST\n", names[0]);
        return 2;
    }
    same_version();
    book_size = read_file(names[1], book);
    request_size = read_file(names[2], request);
    uint64_t result = call(sizeof out);
    printf("page: %s, %zu bytes past it unchanged\n", result == FIKREM_DONE ? "done" : "REFUSED", unwritten(FIKREM_PAGE_SIZE));
    fwrite(out, 1, FIKREM_PAGE_SIZE, stdout);
    tell("page, a byte short", call(FIKREM_PAGE_SIZE - 1));
    value_of(request, 0x04)[0] = 2;
    set_check(request, request_size);
    tell("page, a zone that is not in the book", call(sizeof out));
    tell("page, a zone that is not in the book, no output", call(0));
    return 0;
}
