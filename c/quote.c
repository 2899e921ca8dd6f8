/* Prints the slip of rates.bin and job.bin in the current folder; of a request that isn't priced, its refusal. */
#include "fikrem.h"
#include <stdio.h>

int main(void)
{
    static uint8_t book[4096], request[4096], text[FIKREM_TEXT_SIZE];
    uint64_t answer[FIKREM_ANSWER];
    if (fikrem_version() != FIKREM_VERSION) {
        fputs("libfikrem.a is of another version than fikrem.h\n", stderr);
        return 255;
    }
    FILE *rates = fopen("rates.bin", "rb"), *job = fopen("job.bin", "rb");
    size_t book_size = rates ? fread(book, 1, sizeof book, rates) : 0;
    size_t request_size = job ? fread(request, 1, sizeof request, job) : 0;
    uint64_t result = fikrem_slip_text(book, book_size, request, request_size, text, sizeof text, answer, FIKREM_ANSWER);
    if (result != FIKREM_DONE) {
        return (int)FIKREM_NUMBER(result);
    }
    fwrite(text, 1, answer[FIKREM_WRITTEN], stdout);
    return 0;
}
