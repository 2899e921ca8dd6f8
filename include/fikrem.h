/* Fikrem for the firmware of quoting units: connection charges and pioneer ledgers on lent buffers.
 *
 * Link target/staticlib/libfikrem.a, with -Wl,--gc-sections so that a program has what it calls and no more. It runs on every x86-64
 * processor. Of the C library it needs memcpy and memset, and nothing else. No call allocates, keeps anything or writes past the sizes
 * that it is handed. Every buffer is a pointer and its size in elements. No pointer is NULL, also where its size is 0, and no two
 * buffers of one call overlap where one of them is written.
 *
 * docs/FORMAT.md has the bytes of a rate book, a request and a stored ledger with every limit; docs/RULES.md the rules: which bespoke
 * rates are allowed ('Charge and reconciliation'), when a scheme opens or is joined ('Accept'), which ledgers are sound ('Soundness').
 *
 * Money is in whole cents, capacity in hundredths of a kVA; a month is year * 12 + (month - 1), so that April 2026 is 24315.
 *
 * A call takes at most this much stack, in KiB, as c/stack.c measures it on a painted stack with the longest ledger: price 4, price
 * band 4, page 4, slip text 6, new ledger 3, accept 32, pay-out 32, hand-over 32, clearing 32, judging a ledger 32, moving to the new
 * form 32, moving back 32, judging a book 2, a request 1, check of bytes 1, version 1.
 */
#ifndef FIKREM_H
#define FIKREM_H

#include <stddef.h>
#include <stdint.h>

/* The version of this interface: a program compares it with fikrem_version() before its first call of another function. */
#define FIKREM_VERSION 5

/* Each result but those of fikrem_check and fikrem_version is FIKREM_DONE, or a refusal: its number, its file, whether it is of the
 * stored ledger itself, and its place, which these take out of it. No refusal is 0. A refused call has written nothing: every byte of
 * every buffer is as it was.
 *
 * Number: 1 to 31, of which this version has those of enum fikrem_number.
 * File: 1 the book, or the stored ledger where that is refused itself; 2 the request, and for 4 and 5; 0 from number 6 on, and for 3
 * where a figure of fikrem_price_band is past its limit.
 * Of ledger: 1 where the stored ledger itself is refused, so that file 1 is not mistaken for the book; otherwise 0.
 * Place: the offset of a byte in the file for 1 to 3 (0 where the file is 0), the tier, 1 to 5, for 5, otherwise 0. For 1 the offset of
 * the first field that can't stand there, or 0 where the last five bytes are wrong; for 2 of the check; for 3 of the value's first
 * byte. A place above 2^56 - 1 is told as that. */
#define FIKREM_NUMBER(result) ((result) % 32)
#define FIKREM_FILE(result) ((result) / 32 % 4)
#define FIKREM_OF_LEDGER(result) ((result) / 128 % 2)
#define FIKREM_PLACE(result) ((result) / 256)

/* FIKREM_NUMBER of a result; docs/REFUSALS.md has the table of them. */
enum fikrem_number {
    FIKREM_DONE = 0,
    FIKREM_FILE_DOES_NOT_WALK = 1,     /* a field can't stand at the place, or the file's last five bytes are wrong */
    FIKREM_CHECK_DIFFERS = 2,          /* the file's check differs */
    FIKREM_VALUE_NOT_LISTED = 3,       /* a value is past its limits, or the file's letters differ; in a stored ledger only the letters */
    FIKREM_ZONE_NOT_IN_BOOK = 4,       /* the request's zone is not in the book */
    FIKREM_BESPOKE_NOT_ALLOWED = 5,    /* a bespoke rate is not allowed */
    FIKREM_SCHEME_NEVER_OPENED = 6,    /* the scheme that the request joins was never opened */
    FIKREM_MONTH_BEFORE_LAST = 7,      /* the month is before the last accepted */
    FIKREM_NO_SCHEME_LEFT = 8,         /* there are 64 schemes, or the next would be the 65,536th, and one must open */
    FIKREM_NO_ENTRY_LEFT = 9,          /* the table has fewer records than the stored ledger has entries, or than it would have after accept */
    FIKREM_NO_CONNECTION_LEFT = 10,    /* 1,000,000 connections are taken */
    FIKREM_NO_SUCH_ENTRY = 11,         /* there is no such entry */
    FIKREM_PAY_OUT_ABOVE_CREDIT = 12,  /* the pay-out is above the standing credit */
    FIKREM_LEDGER_UNSOUND = 13,        /* the stored ledger is unsound */
    FIKREM_OUTPUT_TOO_SHORT = 14,      /* the output, the answer or the figures are too short */
    FIKREM_LOW_ABOVE_HIGH = 15,        /* a low revenue is above its high */
    FIKREM_NUMBERS_NOT_COUNTS = 16     /* the next scheme or entry number is not its count plus one */
};

/* The answer of a done call: at least FIKREM_ANSWER places. Where it has fewer, or the figures fewer than FIKREM_FIGURES, the
 * result is FIKREM_OUTPUT_TOO_SHORT before anything else. Places past these are left as they were, and a place that a call has
 * nothing for is 0. */
enum fikrem_answer {
    FIKREM_JOINING = 0,        /* accept: one of enum fikrem_joining */
    FIKREM_ENTRY = 1,          /* accept: the number of the joiner's entry, where it joined */
    FIKREM_COLLECTED = 2,      /* accept: the contribution G that was collected, in cents, where it joined */
    FIKREM_OPENED_SCHEME = 3,  /* accept: the number of the scheme that opened, from 1 on */
    FIKREM_WRITTEN = 4,        /* bytes written into text or out */
    FIKREM_ANSWER = 5
};

/* The same places where fikrem_judge_ledger is done: schemes, entries, connections, the last accepted month. */
enum fikrem_judged { FIKREM_SCHEMES = 0, FIKREM_ENTRIES = 1, FIKREM_CONNECTED = 2, FIKREM_LAST_MONTH = 3 };

/* What became of the joining that accept was asked for. A scheme may open beside each of them: the applicant is its first entry, which
 * follows the joiner's in the table. A connection with which no scheme is joined or opened is plain. */
enum fikrem_joining {
    FIKREM_NO_JOINING = 0,     /* the request names no scheme */
    FIKREM_JOINED = 1,         /* the applicant joined a scheme: G was collected, and earlier entries are credited */
    FIKREM_SMALL = 2,          /* G would be below the scheme's minimum: nothing is collected */
    FIKREM_ENDED = 3           /* the scheme's term has ended, or it was cleared: nothing is collected */
};

/* The figures of a done call: at least FIKREM_FIGURES places, in cents. A percentage has two places: 1 and the percentage, or 0
 * and 0 where there is none, and from 21 on two more: the whole percent rounded down, below 0 too, and the remainder, so that
 * 100 * numerator = quotient * divisor + remainder with a remainder from 0 to divisor - 1; 0 and 0 where there is none. Up to
 * version 3 there were 21 places: a caller with so few gets FIKREM_OUTPUT_TOO_SHORT. CC holds no pioneer contribution: a joiner owes
 * CC and what was collected. */
enum fikrem_figure {
    FIKREM_ME = 0,             /* minimum scheme extension */
    FIKREM_MC = 1,             /* capacity: the demands of the five tiers at their rates */
    FIKREM_CE = 2,             /* customer enhancement extension */
    FIKREM_CC2 = 3,            /* capacity of the customer's enhancement: its added demands at the same rates */
    FIKREM_TW = 4,             /* transmission works */
    FIKREM_HR = 5,             /* historical cost recovery */
    FIKREM_OL = 6,             /* operating loading; 0 but for special pricing, class 2 */
    FIKREM_IC = 7,             /* incremental cost: the seven above */
    FIKREM_IR = 8,             /* incremental revenue: the lines charges of the years to come, discounted */
    FIKREM_CC = 9,             /* connection charge */
    FIKREM_NIC = 10,           /* net incremental cost, IC - IR; may be negative */
    FIKREM_NC = 11,            /* network contribution, CC - NIC; may be negative */
    FIKREM_X = 12,             /* cost of the scheme that this connection opens, if it opens one */
    FIKREM_ENTERED = 13,       /* cost entered: IC and the distributor's enhancement */
    FIKREM_BORNE = 14,         /* borne by the company; with CC, the cost entered */
    FIKREM_HAS_RELIANCE = 15,
    FIKREM_RELIANCE = 16,      /* CC / IC */
    FIKREM_HAS_UPFRONT = 17,
    FIKREM_UPFRONT = 18,       /* CC / (CC + IR) */
    FIKREM_HAS_NCRATIO = 19,
    FIKREM_NCRATIO = 20,       /* NC / (CC + IR); may be negative */
    FIKREM_RELIANCE_QUOTIENT = 21,
    FIKREM_RELIANCE_REMAINDER = 22,
    FIKREM_UPFRONT_QUOTIENT = 23,
    FIKREM_UPFRONT_REMAINDER = 24,
    FIKREM_NCRATIO_QUOTIENT = 25,  /* may be negative; the remainder never is */
    FIKREM_NCRATIO_REMAINDER = 26,
    FIKREM_FIGURES = 27
};

/* The figures of a done fikrem_price_band: at least FIKREM_BAND places, in cents. */
enum fikrem_band {
    FIKREM_LOWEST_IR = 0,
    FIKREM_HIGHEST_IR = 1,
    FIKREM_LOWEST_CC = 2,
    FIKREM_HIGHEST_CC = 3,
    FIKREM_LOWEST_NC = 4,      /* may be negative */
    FIKREM_HIGHEST_NC = 5,     /* may be negative */
    FIKREM_BAND = 6
};

/* The longest book and request, in bytes; longer ones are refused by 1 or 2. */
#define FIKREM_BOOK_SIZE 321
#define FIKREM_REQUEST_SIZE 206

/* Room for the longest slip, at most 236 bytes, for the longest stored ledger, 7 + 57 + 64 * 31 + 512 * 37 + 5 bytes, and for the longest
 * one of the old form, 7 + 25 + 64 * 27 + 512 * 33 + 5 bytes. */
#define FIKREM_TEXT_SIZE 256
#define FIKREM_LEDGER_SIZE 20997
#define FIKREM_OLD_LEDGER_SIZE 18661

/* A page: 12 lines of 64 bytes. */
#define FIKREM_PAGE_SIZE 768

/* The longest party table. A call's table_size is the length of the unit's own in records; a longer one than this counts as this. */
#define FIKREM_TABLE_SIZE 512

#ifdef __cplusplus
extern "C" {
#endif

/* FIKREM_VERSION of the header that the library was made with. No refusals. */
uint32_t fikrem_version(void);

/* The reconciliation of a request by a rate book, into the figures. Refusals in turn: 14; the book's 1 to 3, the request's 1 to 3;
 * 4, 5. */
uint64_t fikrem_price(const uint8_t *book, size_t book_size, const uint8_t *request, size_t request_size,
                      int64_t *figures, size_t figures_places);

/* Lowest and highest IR, CC and NC where year-one revenue is known only between two figures, in cents, which stand in for the
 * request's field 08; that field is judged all the same. Each of the six is what fikrem_price gives for some revenues between them, and
 * it gives nothing outside for any. Refusals in turn: 14 for fewer than FIKREM_BAND places; the book's 1 to 3, the request's 1 to 3; 4,
 * 5; 3 with file and place 0 for a figure above 1,000,000,000; 15 for a low above its high. */
uint64_t fikrem_price_band(const uint8_t *book, size_t book_size, const uint8_t *request, size_t request_size,
                           uint64_t distribution_low, uint64_t distribution_high,
                           uint64_t transmission_low, uint64_t transmission_high,
                           int64_t *figures, size_t figures_places);

/* The slip's lines into text, FIKREM_TEXT_SIZE bytes at most, without a closing 0; how many in FIKREM_WRITTEN. A request that is not
 * priced has a slip too, the line `REFUSED n file place`: then too the call is done. Refusals: 14. */
uint64_t fikrem_slip_text(const uint8_t *book, size_t book_size, const uint8_t *request, size_t request_size,
                          uint8_t *text, size_t text_size, uint64_t *answer, size_t answer_places);

/* The reconciliation as a page into out, FIKREM_PAGE_SIZE bytes, without a closing 0: the lines ME, MC, CE, CC2, TW, HR, OL, IC, IR,
 * CC, NIC, NC, each a label of 32 bytes, an amount in dollars of 31 bytes, aligned to the right, and byte 0A. Refusals in turn: the
 * book's 1 to 3, the request's 1 to 3; 4, 5; 14 for out. */
uint64_t fikrem_page(const uint8_t *book, size_t book_size, const uint8_t *request, size_t request_size,
                     uint8_t *out, size_t out_size);

/* Whether a rate book or a request can be read, for whoever writes one. A file read alone is file 1, a request too. Refusals in
 * turn: 1, 2, 3. */
uint64_t fikrem_judge_book(const uint8_t *book, size_t book_size);
uint64_t fikrem_judge_request(const uint8_t *request, size_t request_size);

/* The calls on a ledger take its stored form and write the ledger after them into out, FIKREM_LEDGER_SIZE bytes at most. After a
 * done call out holds the ledger: its first answer[FIKREM_WRITTEN] bytes are the next call's stored, and that number is its
 * stored_size. After a refused one stored is still the ledger.
 *
 * The stored form is the one that starts PIO2. A ledger of the old form, which starts PION, is refused by 1 at place 7:
 * fikrem_move_to_new makes a new one of it. Schemes and entries are named by their numbers, which are given from 1 on and never again:
 * what is cleared leaves its numbers unused. */

/* The stored form of a new ledger into out. Refusals: 14. */
uint64_t fikrem_new_ledger(uint8_t *out, size_t out_size, uint64_t *answer, size_t answer_places);

/* Accepts a request: the ledger after it into out, the reconciliation into the figures. Refusals in turn: 14 for the answer or the
 * figures; the stored ledger's 1, 2, 3, 9, 13; the book's 1 to 3, the request's 1 to 3; 4, 5, 10, 7, 6, 8, 9; 14 for out. 8 and 9
 * are for joining and opening together: a joiner who builds on needs two entries. */
uint64_t fikrem_accept(const uint8_t *stored, size_t stored_size, size_t table_size, const uint8_t *book, size_t book_size,
                       const uint8_t *request, size_t request_size, uint8_t *out, size_t out_size,
                       int64_t *figures, size_t figures_places, uint64_t *answer, size_t answer_places);

/* Pays an amount in cents out to an entry, by its number: the ledger after it into out. Refusals in turn: 14 for the answer; the
 * stored ledger's 1, 2, 3, 9, 13; 11, 12; 14 for out. */
uint64_t fikrem_pay_out(const uint8_t *stored, size_t stored_size, size_t table_size, uint32_t entry, uint64_t amount,
                        uint8_t *out, size_t out_size, uint64_t *answer, size_t answer_places);

/* Gives an entry another person number: the ledger after it into out. Refusals in turn: 14 for the answer; the stored ledger's 1, 2,
 * 3, 9, 13; 11; 14 for out. */
uint64_t fikrem_hand_over(const uint8_t *stored, size_t stored_size, size_t table_size, uint32_t entry, uint32_t person,
                          uint8_t *out, size_t out_size, uint64_t *answer, size_t answer_places);

/* Clears every scheme that has ended by the month, month >= opening + term, and whose entries all have standing credit 0, and those
 * entries: the ledger after it into out. The month becomes the last accepted one, also where no scheme goes; the running sums of what
 * cleared schemes collected, paid out and took in fees stand in the stored ledger. Refusals in turn: 14 for the answer; the stored
 * ledger's 1, 2, 3, 9, 13; 7; 14 for out. */
uint64_t fikrem_clear(const uint8_t *stored, size_t stored_size, size_t table_size, uint16_t month,
                      uint8_t *out, size_t out_size, uint64_t *answer, size_t answer_places);

/* Whether a stored ledger can be read; where it can, the answer has what it holds. Refusals in turn: 14; the stored ledger's 1, 2,
 * 3, 9, 13. */
uint64_t fikrem_judge_ledger(const uint8_t *stored, size_t stored_size, size_t table_size,
                             uint64_t *answer, size_t answer_places);

/* Moves a stored ledger of the old form, PION, to the new one, PIO2, into out, FIKREM_LEDGER_SIZE bytes at most; how many in
 * FIKREM_WRITTEN. Places become numbers. Refusals in turn: 14 for the answer; the file's 1, 2, 3, 13; 14 for out. */
uint64_t fikrem_move_to_new(const uint8_t *file, size_t file_size, uint8_t *out, size_t out_size,
                            uint64_t *answer, size_t answer_places);

/* Moves a stored ledger of the new form back to the old one, as long as its numbers are its places: both next numbers are the counts plus
 * one, so that nothing was cleared. Into out, FIKREM_OLD_LEDGER_SIZE bytes at most; how many in FIKREM_WRITTEN. A file that
 * fikrem_move_to_new made comes back as the same bytes. Refusals in turn: 14 for the answer; the file's 1, 2, 3, 13; 16; 14 for out. */
uint64_t fikrem_move_back(const uint8_t *file, size_t file_size, uint8_t *out, size_t out_size,
                          uint64_t *answer, size_t answer_places);

/* The check of these bytes, 0 to 65520, for whoever writes a book or a request: of all its bytes before the last two, which are
 * the check, high byte first. No refusals. */
uint32_t fikrem_check(const uint8_t *bytes, size_t bytes_size);

#ifdef __cplusplus
}
#endif

#endif
