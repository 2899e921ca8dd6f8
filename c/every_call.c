/* Makes every call of fikrem.h: done, refused, and with each buffer too short in turn. Prints how it ends, and after a refusal
 * whether the lent buffers are unchanged. Arguments: the rate book's file, the request's file. */
#include "fikrem.h"
#include "files.h"

#include <inttypes.h>
#include <stdio.h>
#include <string.h>

enum { MARK = 0xA5 };

/* Everything that a call is lent. */
struct buffers {
    uint8_t book[FILE_SIZE], request[FILE_SIZE], stored[FIKREM_LEDGER_SIZE];
    uint8_t text[FIKREM_TEXT_SIZE], out[FIKREM_LEDGER_SIZE];
    int64_t figures[FIKREM_FIGURES];
    uint64_t answer[FIKREM_ANSWER];
};

static struct buffers lent, before;
static size_t book_size, request_size, stored_size, table_size = FIKREM_TABLE_SIZE;

static void join_scheme(uint8_t scheme, uint8_t mark)
{
    value_of(lent.request, 0x0C)[7] = scheme;
    value_of(lent.request, 0x0C)[8] = mark;
    set_check(lent.request, request_size);
}

/* A request of this class with an operating loading of so many cents, below 65,536. */
static void set_class(uint8_t class_number, uint16_t loading)
{
    value_of(lent.request, 0x03)[0] = class_number;
    value_of(lent.request, 0x05)[22] = (uint8_t)(loading / 256);
    value_of(lent.request, 0x05)[23] = (uint8_t)(loading % 256);
    set_check(lent.request, request_size);
}

/* The calls. Before each, what it may write holds marks, and everything lent is kept for the comparison. */

static void mark(void)
{
    memset(lent.text, MARK, sizeof lent.text);
    memset(lent.out, MARK, sizeof lent.out);
    memset(lent.figures, MARK, sizeof lent.figures);
    memset(lent.answer, MARK, sizeof lent.answer);
    memcpy(&before, &lent, sizeof lent);
}

static uint64_t price(size_t figures_places)
{
    mark();
    return fikrem_price(lent.book, book_size, lent.request, request_size, lent.figures, figures_places);
}

/* Distribution from one figure to another, transmission from 0 to 1. */
static uint64_t price_band(uint64_t low, uint64_t high, size_t figures_places)
{
    mark();
    return fikrem_price_band(lent.book, book_size, lent.request, request_size, low, high, 0, 1, lent.figures, figures_places);
}

static uint64_t slip_text(size_t text_size, size_t answer_places)
{
    mark();
    return fikrem_slip_text(lent.book, book_size, lent.request, request_size, lent.text, text_size, lent.answer, answer_places);
}

static uint64_t new_ledger(size_t out_size, size_t answer_places)
{
    mark();
    return fikrem_new_ledger(lent.out, out_size, lent.answer, answer_places);
}

static uint64_t accept(size_t out_size, size_t figures_places, size_t answer_places)
{
    mark();
    return fikrem_accept(lent.stored, stored_size, table_size, lent.book, book_size, lent.request, request_size,
                         lent.out, out_size, lent.figures, figures_places, lent.answer, answer_places);
}

static uint64_t pay_out(uint32_t entry, uint64_t amount, size_t out_size, size_t answer_places)
{
    mark();
    return fikrem_pay_out(lent.stored, stored_size, table_size, entry, amount, lent.out, out_size, lent.answer, answer_places);
}

static uint64_t hand_over(uint32_t entry, uint32_t person, size_t out_size, size_t answer_places)
{
    mark();
    return fikrem_hand_over(lent.stored, stored_size, table_size, entry, person, lent.out, out_size, lent.answer, answer_places);
}

static uint64_t clear(uint16_t month, size_t out_size, size_t answer_places)
{
    mark();
    return fikrem_clear(lent.stored, stored_size, table_size, month, lent.out, out_size, lent.answer, answer_places);
}

static uint64_t move_to_new(size_t out_size, size_t answer_places)
{
    mark();
    return fikrem_move_to_new(lent.stored, stored_size, lent.out, out_size, lent.answer, answer_places);
}

static uint64_t move_back(size_t out_size, size_t answer_places)
{
    mark();
    return fikrem_move_back(lent.stored, stored_size, lent.out, out_size, lent.answer, answer_places);
}

static uint64_t judge_ledger(size_t answer_places)
{
    mark();
    return fikrem_judge_ledger(lent.stored, stored_size, table_size, lent.answer, answer_places);
}

static uint64_t judge_book(const uint8_t *file, size_t size)
{
    mark();
    return fikrem_judge_book(file, size);
}

static uint64_t judge_request(const uint8_t *file, size_t size)
{
    mark();
    return fikrem_judge_request(file, size);
}

/* How they end. */

static void tell_refusal(const char *call, uint64_t result)
{
    printf("%s: refused by %" PRIu64 ", file %" PRIu64 ", place %" PRIu64 "%s; all %s\n", call, FIKREM_NUMBER(result),
           FIKREM_FILE(result), FIKREM_PLACE(result), FIKREM_OF_LEDGER(result) ? ", of the stored ledger" : "",
           memcmp(&lent, &before, sizeof lent) == 0 ? "unchanged" : "CHANGED");
}

static void tell(const char *call, uint64_t result)
{
    if (result != FIKREM_DONE) {
        tell_refusal(call, result);
        return;
    }
    printf("%s: done, answer", call);
    for (int place = 0; place < FIKREM_ANSWER; place++) {
        printf(" %" PRIu64, lent.answer[place]);
    }
    printf("\n");
}

static void tell_figures(int places)
{
    printf("figures");
    for (int place = 0; place < places; place++) {
        printf(" %" PRId64, lent.figures[place]);
    }
    printf("\n");
}

/* The written ledger is the one that the next call gets. */
static void keep(void)
{
    stored_size = lent.answer[FIKREM_WRITTEN];
    memcpy(lent.stored, lent.out, stored_size);
}

/* Each call in turn. */

static void try_price(void)
{
    if (price(FIKREM_FIGURES) == FIKREM_DONE) {
        puts("price: done");
    }
    tell_figures(FIKREM_FIGURES);
    lent.request[0] ^= 1;
    tell("price, a byte of the request altered", price(FIKREM_FIGURES));
    lent.request[0] ^= 1;
    tell("price, 26 figures", price(FIKREM_FIGURES - 1));
    tell("price, 21 figures, as up to version 3", price(21));
}

/* The book's opex takes a fifth of the revenue from every class but special pricing, which alone may have an operating loading. */
static void try_classes(void)
{
    value_of(lent.book, 0x03)[3] = 1;
    set_check(lent.book, book_size);
    if (price(FIKREM_FIGURES) == FIKREM_DONE) {
        puts("price by a book with opex: done");
    }
    tell_figures(FIKREM_FIGURES);
    set_class(1, 1);
    tell("price, non-residential with an operating loading", price(FIKREM_FIGURES));
    set_class(3, 1);
    tell("price, no such class", price(FIKREM_FIGURES));
    set_class(2, 50000);
    if (price(FIKREM_FIGURES) == FIKREM_DONE) {
        puts("price, special pricing with an operating loading: done");
    }
    tell_figures(FIKREM_FIGURES);
    set_class(1, 0);
    value_of(lent.book, 0x03)[3] = 0;
    set_check(lent.book, book_size);
}

static void try_price_band(void)
{
    if (price_band(50000, 57320, FIKREM_BAND) == FIKREM_DONE) {
        puts("price band: done");
    }
    tell_figures(FIKREM_BAND);
    tell("price band, a low above its high", price_band(57321, 57320, FIKREM_BAND));
    tell("price band, 2^32 + 1", price_band(0, 4294967297u, FIKREM_BAND));
    tell("price band, 5 figures", price_band(0, 1, FIKREM_BAND - 1));
    lent.request[0] ^= 1;
    tell("price band, a byte of the request altered", price_band(1, 0, FIKREM_BAND));
    lent.request[0] ^= 1;
}

static void try_slip_text(void)
{
    tell("slip text", slip_text(sizeof lent.text, FIKREM_ANSWER));
    size_t size = lent.answer[FIKREM_WRITTEN];
    fwrite(lent.text, 1, size, stdout);
    tell("slip text, a byte short", slip_text(size - 1, FIKREM_ANSWER));
    tell("slip text, 4 places of the answer", slip_text(size, FIKREM_ANSWER - 1));
}

static void try_new_ledger(void)
{
    tell("new ledger", new_ledger(sizeof lent.out, FIKREM_ANSWER));
    keep();
    tell("new ledger, a byte short", new_ledger(stored_size - 1, FIKREM_ANSWER));
    tell("new ledger, 4 places of the answer", new_ledger(stored_size, FIKREM_ANSWER - 1));
}

/* A request that opens nothing; then under a threshold of 0 one that opens a scheme, one that joins it and builds on, and one that is
 * marked, so that it joins alone. */
static void try_accept(void)
{
    tell("accept", accept(sizeof lent.out, FIKREM_FIGURES, FIKREM_ANSWER));
    tell_figures(FIKREM_FIGURES);
    join_scheme(1, 0);
    tell("accept, no such scheme", accept(sizeof lent.out, FIKREM_FIGURES, FIKREM_ANSWER));
    join_scheme(0, 0);
    memset(value_of(lent.book, 0x06), 0, 4);
    set_check(lent.book, book_size);
    table_size = 0;
    tell("accept, opening on a table of no records", accept(sizeof lent.out, FIKREM_FIGURES, FIKREM_ANSWER));
    table_size = FIKREM_TABLE_SIZE;
    tell("accept, opening", accept(sizeof lent.out, FIKREM_FIGURES, FIKREM_ANSWER));
    keep();
    join_scheme(1, 0);
    table_size = 2;
    tell("accept, joining and opening on a table of two records", accept(sizeof lent.out, FIKREM_FIGURES, FIKREM_ANSWER));
    table_size = FIKREM_TABLE_SIZE;
    tell("accept, joining and opening", accept(sizeof lent.out, FIKREM_FIGURES, FIKREM_ANSWER));
    join_scheme(1, 1);
    tell("accept, joining", accept(sizeof lent.out, FIKREM_FIGURES, FIKREM_ANSWER));
    size_t size = lent.answer[FIKREM_WRITTEN];
    tell("accept, a byte short", accept(size - 1, FIKREM_FIGURES, FIKREM_ANSWER));
    tell("accept, 26 figures", accept(size, FIKREM_FIGURES - 1, FIKREM_ANSWER));
    tell("accept, 21 figures, as up to version 3", accept(size, 21, FIKREM_ANSWER));
    tell("accept, 4 places of the answer", accept(size, FIKREM_FIGURES, FIKREM_ANSWER - 1));
    accept(size, FIKREM_FIGURES, FIKREM_ANSWER);
    keep();
}

static void try_pay_out(void)
{
    tell("pay-out", pay_out(1, 400000, stored_size, FIKREM_ANSWER));
    keep();
    tell("pay-out, above the credit", pay_out(1, 400000, stored_size, FIKREM_ANSWER));
    tell("pay-out, no such entry", pay_out(3, 0, stored_size, FIKREM_ANSWER));
    tell("pay-out, a byte short", pay_out(1, 0, stored_size - 1, FIKREM_ANSWER));
    tell("pay-out, 4 places of the answer", pay_out(1, 0, stored_size, FIKREM_ANSWER - 1));
}

static void try_hand_over(void)
{
    tell("hand-over", hand_over(2, 4712, stored_size, FIKREM_ANSWER));
    keep();
    tell("hand-over, no such entry", hand_over(3, 4712, stored_size, FIKREM_ANSWER));
    tell("hand-over, a byte short", hand_over(2, 4712, stored_size - 1, FIKREM_ANSWER));
    tell("hand-over, 4 places of the answer", hand_over(2, 4712, stored_size, FIKREM_ANSWER - 1));
}

static void try_judge_ledger(void)
{
    tell("judging a ledger", judge_ledger(FIKREM_ANSWER));
    tell("judging a ledger, 4 places of the answer", judge_ledger(FIKREM_ANSWER - 1));
}

/* The ledger to the old form and to the new one again, each from what the other wrote. */
static void try_moves(void)
{
    tell("moving back", move_back(sizeof lent.out, FIKREM_ANSWER));
    size_t size = lent.answer[FIKREM_WRITTEN];
    tell("moving back, a byte short", move_back(size - 1, FIKREM_ANSWER));
    tell("moving back, 4 places of the answer", move_back(size, FIKREM_ANSWER - 1));
    tell("moving the new form to the new form", move_to_new(sizeof lent.out, FIKREM_ANSWER));
    size = stored_size;
    move_back(sizeof lent.out, FIKREM_ANSWER);
    keep();
    tell("judging a ledger of the old form", judge_ledger(FIKREM_ANSWER));
    tell("moving to the new form", move_to_new(sizeof lent.out, FIKREM_ANSWER));
    tell("moving to the new form, a byte short", move_to_new(size - 1, FIKREM_ANSWER));
    tell("moving to the new form, 4 places of the answer", move_to_new(size, FIKREM_ANSWER - 1));
    move_to_new(size, FIKREM_ANSWER);
    keep();
}

/* The scheme has a standing credit left; once it is paid out, the scheme is cleared in the month in which it ends. */
static void try_clear(void)
{
    tell("clearing, a month before the last", clear(24314, stored_size, FIKREM_ANSWER));
    tell("clearing, with a standing credit", clear(24399, stored_size, FIKREM_ANSWER));
    pay_out(1, 99815, stored_size, FIKREM_ANSWER);
    keep();
    tell("clearing, the last month in force", clear(24398, stored_size, FIKREM_ANSWER));
    tell("clearing", clear(24399, stored_size, FIKREM_ANSWER));
    size_t size = lent.answer[FIKREM_WRITTEN];
    tell("clearing, a byte short", clear(24399, size - 1, FIKREM_ANSWER));
    tell("clearing, 4 places of the answer", clear(24399, size, FIKREM_ANSWER - 1));
    clear(24399, size, FIKREM_ANSWER);
    keep();
    tell("pay-out, an entry that was cleared", pay_out(1, 0, stored_size, FIKREM_ANSWER));
    tell("moving back, after a clearing", move_back(0, FIKREM_ANSWER));
}

/* The check of the bytes before the stored ledger's last two, which hold it, and of none. */
static void try_check(void)
{
    uint32_t kept = 256u * lent.stored[stored_size - 2] + lent.stored[stored_size - 1];
    printf("check of bytes: %" PRIu32 ", kept %" PRIu32 "; of none: %" PRIu32 "\n", fikrem_check(lent.stored, stored_size - 2),
           kept, fikrem_check(lent.stored, 0));
}

/* The two files read alone: as they are, each as the other, and a request with a mark that there isn't. */
static void try_judge_files(void)
{
    if (judge_book(lent.book, book_size) == FIKREM_DONE && judge_request(lent.request, request_size) == FIKREM_DONE) {
        puts("judging a book and a request: done");
    }
    tell("judging a book, which is a request", judge_book(lent.request, request_size));
    tell("judging a request, which is a book", judge_request(lent.book, book_size));
    value_of(lent.request, 0x0C)[8] = 3;
    tell("judging a request, a byte altered", judge_request(lent.request, request_size));
    set_check(lent.request, request_size);
    tell("judging a request, mark 3", judge_request(lent.request, request_size));
    value_of(lent.request, 0x0C)[8] = 0;
    set_check(lent.request, request_size);
}

/* Each call on a stored ledger that is refused itself. */
static void try_unread_ledger(void)
{
    tell("  accept", accept(sizeof lent.out, FIKREM_FIGURES, FIKREM_ANSWER));
    tell("  pay-out", pay_out(1, 0, stored_size, FIKREM_ANSWER));
    tell("  hand-over", hand_over(2, 4712, stored_size, FIKREM_ANSWER));
    tell("  clearing", clear(24399, stored_size, FIKREM_ANSWER));
    tell("  judging", judge_ledger(FIKREM_ANSWER));
}

int main(int count, char **names)
{
    if (count != 3) {
        fprintf(stderr, "usage: %s BOOK REQUEST\n", names[0]);
        return 2;
    }
    same_version();
    book_size = read_file(names[1], lent.book);
    request_size = read_file(names[2], lent.request);
    printf("version: %" PRIu32 "\n", fikrem_version());
    try_price();
    try_classes();
    try_price_band();
    try_slip_text();
    try_new_ledger();
    try_accept();
    try_pay_out();
    try_hand_over();
    try_judge_ledger();
    try_check();
    try_judge_files();

    puts("a table of one record, two entries stored");
    table_size = 1;
    try_unread_ledger();
    table_size = FIKREM_TABLE_SIZE;
    puts("a byte of the stored ledger altered");
    lent.stored[0] ^= 1;
    try_unread_ledger();
    tell("  moving back", move_back(sizeof lent.out, FIKREM_ANSWER));
    lent.stored[0] ^= 1;
    try_moves();
    try_clear();
    return 0;
}
