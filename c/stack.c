/* Prints whether each call of fikrem.h takes no more stack than the header says, by a stack that is painted before the call and
 * looked at after it; what it takes goes to stderr. The ledger has 64 schemes and 512 entries. Arguments: the rate book's file,
 * the request's file. */
#define _XOPEN_SOURCE 600
#include "fikrem.h"
#include "files.h"

#include <stdio.h>
#include <string.h>
#include <ucontext.h>

enum { STACK_SIZE = 1 << 20, PAINT = 0xA5 };

static uint8_t book[FILE_SIZE], request[FILE_SIZE], text[FIKREM_TEXT_SIZE];
static uint8_t ledgers[2][FIKREM_LEDGER_SIZE], *stored = ledgers[0], *out = ledgers[1];
static size_t book_size, request_size, stored_size;
static int64_t figures[FIKREM_FIGURES];
static uint64_t answer[FIKREM_ANSWER], result;

static uint8_t stack[STACK_SIZE];
static ucontext_t here, there;

/* The calls. */

static void nothing(void) {}

static void version(void)
{
    result = fikrem_version() - FIKREM_VERSION;
}

static void price(void)
{
    result = fikrem_price(book, book_size, request, request_size, figures, FIKREM_FIGURES);
}

static void price_band(void)
{
    result = fikrem_price_band(book, book_size, request, request_size, 0, 57320, 0, 1, figures, FIKREM_FIGURES);
}

static void slip_text(void)
{
    result = fikrem_slip_text(book, book_size, request, request_size, text, sizeof text, answer, FIKREM_ANSWER);
}

/* A request without its last byte isn't priced: its slip is the line of its refusal. */
static void slip_text_of_a_refusal(void)
{
    result = fikrem_slip_text(book, book_size, request, request_size - 1, text, sizeof text, answer, FIKREM_ANSWER);
}

static void page(void)
{
    result = fikrem_page(book, book_size, request, request_size, out, FIKREM_LEDGER_SIZE);
}

static void new_ledger(void)
{
    result = fikrem_new_ledger(out, FIKREM_LEDGER_SIZE, answer, FIKREM_ANSWER);
}

static void accept(void)
{
    result = fikrem_accept(stored, stored_size, FIKREM_TABLE_SIZE, book, book_size, request, request_size,
                           out, FIKREM_LEDGER_SIZE, figures, FIKREM_FIGURES, answer, FIKREM_ANSWER);
}

static void pay_out(void)
{
    result = fikrem_pay_out(stored, stored_size, FIKREM_TABLE_SIZE, 1, 0, out, FIKREM_LEDGER_SIZE, answer, FIKREM_ANSWER);
}

static void hand_over(void)
{
    result = fikrem_hand_over(stored, stored_size, FIKREM_TABLE_SIZE, 1, 7, out, FIKREM_LEDGER_SIZE, answer, FIKREM_ANSWER);
}

static void clear(void)
{
    result = fikrem_clear(stored, stored_size, FIKREM_TABLE_SIZE, 24399, out, FIKREM_LEDGER_SIZE, answer, FIKREM_ANSWER);
}

static void move_back(void)
{
    result = fikrem_move_back(stored, stored_size, out, FIKREM_OLD_LEDGER_SIZE, answer, FIKREM_ANSWER);
}

static void move_to_new(void)
{
    result = fikrem_move_to_new(stored, stored_size, out, FIKREM_LEDGER_SIZE, answer, FIKREM_ANSWER);
}

static void judge_ledger(void)
{
    result = fikrem_judge_ledger(stored, stored_size, FIKREM_TABLE_SIZE, answer, FIKREM_ANSWER);
}

static void judge_book(void)
{
    result = fikrem_judge_book(book, book_size);
}

static void judge_request(void)
{
    result = fikrem_judge_request(request, request_size);
}

static void check(void)
{
    uint32_t kept = 256u * stored[stored_size - 2] + stored[stored_size - 1];
    result = fikrem_check(stored, stored_size - 2) == kept ? FIKREM_DONE : FIKREM_CHECK_DIFFERS;
}

/* Bytes of the painted stack that a call has written. */
static size_t written_by(void (*call)(void))
{
    memset(stack, PAINT, sizeof stack);
    getcontext(&there);
    there.uc_stack.ss_sp = stack;
    there.uc_stack.ss_size = sizeof stack;
    there.uc_link = &here;
    makecontext(&there, call, 0);
    swapcontext(&here, &there);
    size_t untouched = 0;
    while (untouched < sizeof stack && stack[untouched] == PAINT) {
        untouched++;
    }
    return sizeof stack - untouched;
}

/* The first time a call also binds the functions that it needs. */
static void tell(const char *name, void (*call)(void), size_t most)
{
    written_by(call);
    size_t bytes = written_by(call) - written_by(nothing);
    printf("%s: %s, %s %zu KiB\n", name, result == FIKREM_DONE ? "done" : "REFUSED", bytes <= 1024 * most ? "within" : "ABOVE", most);
    fprintf(stderr, "%s: %zu bytes of stack\n", name, bytes);
}

/* The written ledger is the next call's. */
static void keep(void)
{
    uint8_t *last = stored;
    stored = out;
    out = last;
    stored_size = answer[FIKREM_WRITTEN];
}

/* 64 schemes open under a threshold of 0; so many entries in all, the others joining scheme 1, marked so that they open none. */
static void fill(int entries)
{
    memset(value_of(book, 0x06), 0, 12);
    set_check(book, book_size);
    new_ledger();
    keep();
    for (int entry = 0; entry < entries; entry++) {
        value_of(request, 0x0C)[7] = entry < 64 ? 0 : 1;
        value_of(request, 0x0C)[8] = entry < 64 ? 0 : 1;
        set_check(request, request_size);
        accept();
        keep();
    }
}

int main(int count, char **names)
{
    if (count != 3) {
        fprintf(stderr, "usage: %s BOOK REQUEST\n", names[0]);
        return 2;
    }
    same_version();
    book_size = read_file(names[1], book);
    request_size = read_file(names[2], request);
    tell("version", version, 1);
    tell("price", price, 4);
    tell("price band", price_band, 4);
    tell("slip text", slip_text, 6);
    tell("slip text of a refusal", slip_text_of_a_refusal, 6);
    tell("page", page, 4);
    tell("new ledger", new_ledger, 3);
    fill(511);
    tell("accept", accept, 32);
    keep();
    tell("pay-out", pay_out, 32);
    tell("hand-over", hand_over, 32);
    tell("clearing", clear, 32);
    tell("judging a ledger", judge_ledger, 32);
    tell("moving back", move_back, 32);
    keep();
    tell("moving to the new form", move_to_new, 32);
    keep();
    tell("judging a book", judge_book, 2);
    tell("judging a request", judge_request, 1);
    tell("check of bytes", check, 1);
    return 0;
}
