/*
 * Calls the library from C, through its header, on a few books, statements,
 * dispatch rows and reconciliation files whose answers are known. The path of the
 * worked book is the one argument. Exits non-zero with a message if an answer is
 * not the expected one.
 */
#include <inttypes.h>
#include <stdio.h>
#include <stdlib.h>
#include <string.h>

#include "fervolatro.h"

/* The worked book: header and entries 84, a constraint 40, five unit rows of
 * 20, two energy rows of 24. */
enum {
    ENTRY_AT = 24,
    CONSTRAINT_AT = 84,
    UNITS_AT = CONSTRAINT_AT + 40,
    LAST_UNIT_AT = UNITS_AT + 4 * 20,
    WORKED_LEN = LAST_UNIT_AT + 20 + 2 * 24
};

/* Account 7's statement of it: a header and twelve lines of 24. */
enum {
    STATEMENT_LEN = 24 + 12 * 24,
    ROOM = STATEMENT_LEN + 24,
    UNTOUCHED = 0xA5
};

static int failures = 0;

static void expect(const char *name, const uint8_t *book, size_t len,
                   uint64_t refusal, uint64_t place)
{
    fervolatro_verdict got = fervolatro_check(book, len, NULL, 0);

    if (got.refusal != refusal || got.place != place) {
        fprintf(stderr,
                "%s: expected %" PRIu64 " at %" PRIu64 ", got %" PRIu64
                " at %" PRIu64 "\n",
                name, refusal, place, got.refusal, got.place);
        failures++;
    }
}

/* Reads the worked book; asks for one byte more, to see that it ends there. */
static void read_worked(const char *path, uint8_t book[WORKED_LEN + 1])
{
    FILE *file = fopen(path, "rb");
    size_t len;

    if (file == NULL) {
        perror(path);
        exit(2);
    }
    len = fread(book, 1, WORKED_LEN + 1, file);
    fclose(file);
    if (len != WORKED_LEN) {
        fprintf(stderr, "%s: expected %d bytes\n", path, WORKED_LEN);
        exit(2);
    }
}

/* Expects an answer, the front of the buffer to be what is given, and every
 * byte after the statement untouched. */
static void expect_written(const char *name, fervolatro_written got,
                           const uint8_t buffer[ROOM], uint64_t refusal,
                           const uint8_t *front, size_t front_len)
{
    uint64_t length = refusal == 0 ? STATEMENT_LEN : 0;
    size_t at;
    int differs;

    differs = memcmp(buffer, front, front_len) != 0;
    for (at = (size_t)length; at < ROOM; at++) {
        differs |= buffer[at] != UNTOUCHED;
    }
    if (got.refusal != refusal || got.place != 0 || got.length != length
        || differs) {
        fprintf(stderr,
                "%s: expected %" PRIu64 ", got %" PRIu64 " at %" PRIu64
                ", length %" PRIu64 "%s\n",
                name, refusal, got.refusal, got.place, got.length,
                differs ? ", other bytes in the buffer" : "");
        failures++;
    }
}

/* How much to lend for account 7's statement, which is asked first. No buffer here
 * has room for more than is expected. */
static size_t length_for_7(const uint8_t *book)
{
    fervolatro_written asked = fervolatro_length(book, WORKED_LEN, NULL, 0, 7);

    if (asked.refusal != 0 || asked.length != STATEMENT_LEN) {
        fprintf(stderr,
                "length for account 7: expected %d, got %" PRIu64
                ", refused %" PRIu64 "\n",
                STATEMENT_LEN, asked.length, asked.refusal);
        exit(EXIT_FAILURE);
    }
    return (size_t)asked.length;
}

/* Asks for a statement in the first buffer_len bytes of a buffer. */
static void expect_statement(const char *name, const uint8_t *book,
                             uint32_t account, size_t buffer_len,
                             uint64_t refusal, const uint8_t *front,
                             size_t front_len)
{
    uint8_t buffer[ROOM];
    fervolatro_written got;

    memset(buffer, UNTOUCHED, ROOM);
    got = fervolatro_statement(book, WORKED_LEN, NULL, 0, account, buffer,
                               buffer_len);
    expect_written(name, got, buffer, refusal, front, front_len);
}

/* Has a statement written again, into the first buffer_len bytes of a buffer,
 * and expects it whole. */
static void expect_rewritten(const char *name, const uint8_t *statement,
                             size_t len, size_t buffer_len, uint64_t refusal)
{
    uint8_t buffer[ROOM];
    fervolatro_written got;

    memset(buffer, UNTOUCHED, ROOM);
    got = fervolatro_rewrite(statement, len, buffer, buffer_len);
    expect_written(name, got, buffer, refusal, statement,
                   refusal == 0 ? len : 0);
}

/* The other answers are alike in this: fields of 64 bits, with nothing between
 * them. */
enum {
    VERDICT_FIELDS = 2,
    WRITTEN_FIELDS = 3,
    HEADING_FIELDS = 7,
    ENTRY_FIELDS = 7,
    POOL_FIELDS = 5,
    CUT_FIELDS = 6,
    COST_FIELDS = 3,
    NMAS_SIZE_FIELDS = 3,
    NMAS_ENTRY_FIELDS = 18
};

_Static_assert(sizeof(fervolatro_verdict) == VERDICT_FIELDS * sizeof(uint64_t),
               "a verdict has two fields");
_Static_assert(sizeof(fervolatro_written) == WRITTEN_FIELDS * sizeof(uint64_t),
               "what is written has three fields");
_Static_assert(sizeof(fervolatro_heading) == HEADING_FIELDS * sizeof(uint64_t),
               "a heading has seven fields");
_Static_assert(sizeof(fervolatro_entry) == ENTRY_FIELDS * sizeof(uint64_t),
               "an entry has seven fields");
_Static_assert(sizeof(fervolatro_pool) == POOL_FIELDS * sizeof(uint64_t),
               "a pool has five fields");
_Static_assert(sizeof(fervolatro_cut) == CUT_FIELDS * sizeof(uint64_t),
               "what is cut off has six fields");
_Static_assert(sizeof(fervolatro_cost) == COST_FIELDS * sizeof(uint64_t),
               "a cost has three fields");
_Static_assert(sizeof(fervolatro_nmas_size)
                   == NMAS_SIZE_FIELDS * sizeof(uint64_t),
               "the size of a file has three fields");
_Static_assert(sizeof(fervolatro_nmas_entry)
                   == NMAS_ENTRY_FIELDS * sizeof(uint64_t),
               "a row of a file has eighteen fields");

static uint64_t field(const void *answer, size_t at)
{
    uint64_t value;

    memcpy(&value, (const uint8_t *)answer + at * sizeof value, sizeof value);
    return value;
}

static void expect_fields(const char *name, size_t fields, const void *got,
                          const void *expected)
{
    size_t at;

    for (at = 0; at < fields; at++) {
        if (field(got, at) != field(expected, at)) {
            fprintf(stderr,
                    "%s: field %zu: expected %" PRIu64 ", got %" PRIu64 "\n",
                    name, at, field(expected, at), field(got, at));
            failures++;
        }
    }
}

/* Expects the length to be refused, and the statement by the same number at the
 * same place, every byte of the buffer untouched. */
static void expect_refused(const char *name, const uint8_t *book, size_t len,
                           uint32_t account, fervolatro_written expected)
{
    uint8_t buffer[ROOM], untouched[ROOM];
    fervolatro_written got = fervolatro_length(book, len, NULL, 0, account);

    expect_fields(name, WRITTEN_FIELDS, &got, &expected);
    memset(buffer, UNTOUCHED, ROOM);
    memset(untouched, UNTOUCHED, ROOM);
    got = fervolatro_statement(book, len, NULL, 0, account, buffer, ROOM);
    expect_fields(name, WRITTEN_FIELDS, &got, &expected);
    if (memcmp(buffer, untouched, ROOM) != 0) {
        fprintf(stderr, "%s: other bytes in the buffer\n", name);
        failures++;
    }
}

static void expect_pool(const char *name, const uint8_t *book, size_t len,
                        uint64_t pool, fervolatro_pool expected)
{
    fervolatro_pool got = fervolatro_balance(book, len, NULL, 0, pool);

    expect_fields(name, POOL_FIELDS, &got, &expected);
}

static void expect_cut(const char *name, const uint8_t *book, size_t len,
                       uint64_t pool, uint64_t index, fervolatro_cut expected)
{
    fervolatro_cut got = fervolatro_cutoff(book, len, NULL, 0, pool, index);

    expect_fields(name, CUT_FIELDS, &got, &expected);
}

static void expect_heading(const char *name, const uint8_t *statement,
                           size_t len, fervolatro_heading expected)
{
    fervolatro_heading got = fervolatro_header(statement, len);

    expect_fields(name, HEADING_FIELDS, &got, &expected);
}

static void expect_line(const char *name, const uint8_t *statement, size_t len,
                        uint64_t index, fervolatro_entry expected)
{
    fervolatro_entry got = fervolatro_line(statement, len, index);

    expect_fields(name, ENTRY_FIELDS, &got, &expected);
}

static void expect_payment(const char *name, const uint8_t *rows, size_t len,
                           uint64_t service, fervolatro_cost expected)
{
    fervolatro_cost got = fervolatro_payment(rows, len, service);

    expect_fields(name, COST_FIELDS, &got, &expected);
}

static void expect_base_cost(const char *name, const uint8_t *rows, size_t len,
                             uint32_t id, uint64_t service,
                             fervolatro_cost expected)
{
    fervolatro_cost got = fervolatro_base_cost(rows, len, id, service);

    expect_fields(name, COST_FIELDS, &got, &expected);
}

/* The statement of account 7 in the worked book, its header and its first line:
 * unit 1's FPP of 59.1300 dollars, 591,300 = 0x0905C4. */
static const uint8_t FRONT[48] = {
    'R', 'C', 'S', 0, 1, 0, 1, 0,      /* mark, version 1, interval 1 */
    0xF0, 0xFF, 0x34, 1, 1, 0, 12, 0,  /* date 20,250,608, run 1, 12 lines */
    7, 0, 0, 0, 0, 0, 0, 0,            /* account 7 */
    0xF4, 1, 0, 0, 3, 1, 0, 0,         /* id 500, part 3, regions 1 */
    1, 0, 0, 0, 0, 0, 0, 0,            /* unit 1 */
    0xC4, 0x05, 9, 0, 0, 0, 0, 0,      /* amount 591,300 */
};

/* The length is asked first, and just so much lent; then more, and a byte less.
 * Account 8 is not there, and 0 is none. */
static void statements(const uint8_t *book)
{
    static const fervolatro_written no_account = {11, 0, 0};
    size_t len = length_for_7(book);

    expect_statement("account 7", book, 7, len, 0, FRONT, sizeof FRONT);
    expect_statement("account 7, room to spare", book, 7, ROOM, 0, FRONT,
                     sizeof FRONT);
    expect_statement("room one short", book, 7, len - 1, 13, FRONT, 0);
    expect_statement("no room", book, 7, 0, 13, FRONT, 0);
    expect_refused("account 8", book, WORKED_LEN, 8, no_account);
    expect_refused("account 0", book, WORKED_LEN, 0, no_account);
}

/* The worked book with one byte changed, and what refuses it where. */
static const struct damage {
    const char *name;
    size_t at;
    uint8_t byte;
    fervolatro_written expected;
} DAMAGES[] = {
    {"another mark", 0, 0, {2, 0, 0}},
    {"interval 0", 6, 0, {3, 0, 0}},
    {"2 constraints", 14, 2, {4, 0, 0}},
    /* 400,000 is 0x00061A80; with a high byte of 1 it passes 1,000,000. */
    {"usage", CONSTRAINT_AT + 27, 1, {5, CONSTRAINT_AT, 0}},
    {"unit 1 twice", UNITS_AT + 20 + 4, 1, {6, UNITS_AT + 20, 0}},
    /* 500 is 0x01F4. */
    {"constraint 501", LAST_UNIT_AT, 0xF5, {7, LAST_UNIT_AT, 0}},
    /* 80,000 is 0x00013880; another CF, and the sum is no longer 0. */
    {"unit 1's CF", UNITS_AT + 12, 0, {8, CONSTRAINT_AT, 0}},
    /* 1,600,000 is 0x00186A00. */
    {"residual total of NSW1", ENTRY_AT + 8, 1, {9, ENTRY_AT, 0}},
    {"regions QLD1", CONSTRAINT_AT + 5, 2, {10, CONSTRAINT_AT, 0}},
};

/* 1 to 10 come before 11: account 8, which is not there, changes nothing. */
static void refused_books(const uint8_t *book)
{
    static const fervolatro_written too_short = {1, 0, 0};
    static const fervolatro_written other_length = {4, 0, 0};
    uint8_t damaged[WORKED_LEN];
    uint32_t account;
    size_t i;

    for (account = 7; account <= 8; account++) {
        expect_refused("no book", NULL, 0, account, too_short);
        expect_refused("83 bytes", book, 83, account, too_short);
        expect_refused("a byte less", book, WORKED_LEN - 1, account,
                       other_length);
        expect_refused("a byte more", book, WORKED_LEN + 1, account,
                       other_length);
        for (i = 0; i < sizeof DAMAGES / sizeof DAMAGES[0]; i++) {
            const struct damage *damage = &DAMAGES[i];

            memcpy(damaged, book, WORKED_LEN);
            damaged[damage->at] = damage->byte;
            expect_refused(damage->name, damaged, WORKED_LEN, account,
                           damage->expected);
        }
    }
}

/* Reads account 7's statement of the worked book back. Its lines are those of
 * the listing in the scope document, its amounts in ten-thousandths of a
 * dollar. */
static void read_back(const uint8_t *book)
{
    static const fervolatro_heading heading = {0, 0, 7, 20250608, 1, 1, 12};
    static const fervolatro_heading no_heading = {14, 0, 0, 0, 0, 0, 0};
    static const fervolatro_entry no_statement = {14, 0, 0, 0, 0, 0, 0};
    static const fervolatro_entry no_line = {15, 0, 0, 0, 0, 0, 0};
    static const fervolatro_entry first = {0, 0, 500, 3, 1, 1, 591300};
    static const fervolatro_entry third = {0, 0, 500, 5, 1, 1, -335071};
    static const fervolatro_entry last = {0, 0, 500, 8, 1, 0, -26177};
    enum { LEN = STATEMENT_LEN };
    uint8_t statement[LEN] = {0};

    fervolatro_statement(book, WORKED_LEN, NULL, 0, 7, statement,
                         length_for_7(book));
    expect_heading("header", statement, LEN, heading);
    expect_heading("header of no bytes", statement, 0, no_heading);
    expect_heading("header, one byte short", statement, LEN - 1, no_heading);

    expect_line("line 0", statement, LEN, 0, first);
    expect_line("line 2", statement, LEN, 2, third);
    expect_line("line 11", statement, LEN, 11, last);
    expect_line("line 12", statement, LEN, 12, no_line);
    expect_line("line 2^64 - 1", statement, LEN, UINT64_MAX, no_line);
    expect_line("line 12, one byte short", statement, LEN - 1, 12,
                no_statement);

    expect_rewritten("rewritten", statement, LEN, LEN, 0);
    expect_rewritten("rewritten, room to spare", statement, LEN, ROOM, 0);
    expect_rewritten("rewritten, room one short", statement, LEN, LEN - 1, 13);
    expect_rewritten("rewritten, both one short", statement, LEN - 1, LEN - 2,
                     14);
}

/* The pools of the worked book. Each has a line for each of the five units, and
 * a residual line for each of the two accounts. What is to be recovered and the
 * sum of the lines leave 1, 0 and 0. */
static void balances(const uint8_t *book)
{
    static const fervolatro_pool fpp = {0, 0, 0, 7, 1};
    static const fervolatro_pool used = {0, 0, 5584520, 7, -5584520};
    static const fervolatro_pool unused = {0, 0, 8376780, 7, -8376780};
    static const fervolatro_pool no_pool = {15, 0, 0, 0, 0};
    static const fervolatro_pool no_book = {4, 0, 0, 0, 0};

    expect_pool("FPP", book, WORKED_LEN, 0, fpp);
    expect_pool("used", book, WORKED_LEN, 1, used);
    expect_pool("unused", book, WORKED_LEN, 2, unused);
    expect_pool("pool 3", book, WORKED_LEN, 3, no_pool);
    expect_pool("pool 2^64 - 1", book, WORKED_LEN, UINT64_MAX, no_pool);
    expect_pool("pool 3, one byte short", book, WORKED_LEN - 1, 3, no_book);
}

/* What the stages of the worked book's pools cut off. Two units' FPP, 221,737.5 and
 * 6,578,212.5, is rounded up: two halves of 1,000,000 are missing, and so the balance
 * leaves 1. In each other stage what is cut off makes nothing together. */
static void cut_offs(const uint8_t *book)
{
    static const fervolatro_cut fpp[] = {{0, 0, 2, 0, 120, 0},
                                         {0, 0, 3, 0, 1000000, -1000000},
                                         {0, 0, 4, 0, 1000000, 0},
                                         {0, 0, 5, 0, 1600000, 0}};
    static const fervolatro_cut used = {0, 0, 2, 0, 1000000, 0};
    static const fervolatro_cut no_stage = {15, 0, 0, 0, 0, 0};
    static const fervolatro_cut no_book = {4, 0, 0, 0, 0, 0};
    uint64_t index;

    for (index = 0; index < sizeof fpp / sizeof fpp[0]; index++) {
        expect_cut("cut-off of FPP", book, WORKED_LEN, 0, index, fpp[index]);
    }
    expect_cut("cut-off of used", book, WORKED_LEN, 1, 0, used);
    expect_cut("stage 4", book, WORKED_LEN, 0, 4, no_stage);
    expect_cut("stage 2^64 - 1", book, WORKED_LEN, 0, UINT64_MAX, no_stage);
    expect_cut("stage of pool 3", book, WORKED_LEN, 3, 0, no_stage);
    expect_cut("stage 4, one byte short", book, WORKED_LEN - 1, 0, 4, no_book);
}

/* The worked book with a contract of 1,000,000 behind it, all of it for NSW1: 1,000,000
 * is 0x0F4240. In the worked book account 7 has ACE 15,000 of 1,015,000 and ASOE 5,000
 * of 585,000. */
enum { WITH_CONTRACT_LEN = WORKED_LEN + 36 };

static void put_contract(const uint8_t *book, uint8_t kind,
                         uint8_t with_contract[WITH_CONTRACT_LEN])
{
    static const uint8_t million[] = {0x40, 0x42, 0x0F};
    uint8_t *contract = with_contract + WORKED_LEN;

    memset(with_contract, 0, WITH_CONTRACT_LEN);
    memcpy(with_contract, book, WORKED_LEN);
    with_contract[20] = 1;                      /* one contract */
    contract[0] = 1;                            /* id */
    contract[4] = kind;
    memcpy(contract + 8, million, sizeof million);  /* payment */
    memcpy(contract + 16, million, sizeof million); /* NSW1's factor */
}

static void expect_locked(const char *name,
                          const uint8_t with_test[WITH_CONTRACT_LEN],
                          const uint8_t *locked, size_t locked_len,
                          fervolatro_verdict expected)
{
    fervolatro_verdict got =
        fervolatro_check(with_test, WITH_CONTRACT_LEN, locked, locked_len);

    expect_fields(name, VERDICT_FIELDS, &got, &expected);
}

/* The locked book is the worked one. Halves of 500,000. Account 7's are 500,000 x 15 /
 * 1,015 = 7,389.16 and 500,000 x 5 / 585 = 4,273.50; account 9's 492,610.84 and
 * 495,726.50. All four lines make 1,000,000. */
static void locked_books(const uint8_t *book)
{
    static const fervolatro_written whole = {0, 0, STATEMENT_LEN + 2 * 24};
    static const fervolatro_entry by_ace = {0, 0, 1, 9, 1, 0, -7389};
    static const fervolatro_entry by_asoe = {0, 0, 1, 10, 1, 0, -4274};
    static const fervolatro_pool pool = {0, 0, 1000000, 4, -1000000};
    static const fervolatro_cut ace = {0, 0, 8, 0, 1015000, 0};
    uint8_t with_test[WITH_CONTRACT_LEN], later[WORKED_LEN];
    uint8_t statement[STATEMENT_LEN + 2 * 24] = {0};
    fervolatro_written got;
    fervolatro_pool balance;
    fervolatro_cut cut;

    put_contract(book, FERVOLATRO_CONTRACT_TEST, with_test);
    memcpy(later, book, WORKED_LEN);
    later[12] = 2; /* the run */
    expect_locked("no locked book", with_test, NULL, 0,
                  (fervolatro_verdict){17, WORKED_LEN});
    expect_locked("a locked book of 83 bytes", with_test, book, 83,
                  (fervolatro_verdict){18, WORKED_LEN});
    expect_locked("a later run", with_test, later, WORKED_LEN,
                  (fervolatro_verdict){18, WORKED_LEN});
    expect_locked("a locked book", with_test, book, WORKED_LEN,
                  (fervolatro_verdict){0, 0});
    expect_locked("the book itself", with_test, with_test, WITH_CONTRACT_LEN,
                  (fervolatro_verdict){0, 0});

    got = fervolatro_length(with_test, WITH_CONTRACT_LEN, book, WORKED_LEN, 7);
    expect_fields("length with a locked book", WRITTEN_FIELDS, &got, &whole);
    got = fervolatro_statement(with_test, WITH_CONTRACT_LEN, book, WORKED_LEN, 7,
                               statement, sizeof statement);
    expect_fields("statement with a locked book", WRITTEN_FIELDS, &got, &whole);
    expect_line("contract by ACE", statement, sizeof statement, 12, by_ace);
    expect_line("contract by ASOE", statement, sizeof statement, 13, by_asoe);
    balance = fervolatro_balance(with_test, WITH_CONTRACT_LEN, book, WORKED_LEN, 3);
    expect_fields("pool of a test payment", POOL_FIELDS, &balance, &pool);
    cut = fervolatro_cutoff(with_test, WITH_CONTRACT_LEN, book, WORKED_LEN, 3, 2);
    expect_fields("cut-off of a test payment", CUT_FIELDS, &cut, &ace);
}

/* Document 001's raise regulation: each region's price and enablement, and the
 * marginal value of the mainland's constraint, here 500. */
static const uint8_t ROWS[9 * 16] = {
    /* 98.81 dollars are 9,881 = 0x2699 cents, 83.43 dollars 8,343 = 0x2097 */
    0, 0, 0, 0, 9, 0, 0, 0, 0x99, 0x26, 0, 0, 0x88, 0x13, 0, 0, /* 50 MW */
    0, 0, 0, 0, 9, 1, 0, 0, 0x99, 0x26, 0, 0, 0x70, 0x17, 0, 0, /* 60 MW */
    0, 0, 0, 0, 9, 2, 0, 0, 0x99, 0x26, 0, 0, 0, 0, 0, 0,       /* 0 MW */
    0, 0, 0, 0, 9, 3, 0, 0, 0x97, 0x20, 0, 0, 0x88, 0x13, 0, 0, /* 50 MW */
    0, 0, 0, 0, 9, 4, 0, 0, 0x99, 0x26, 0, 0, 0x70, 0x17, 0, 0, /* 60 MW */
    /* id 500 = 0x01F4; 98.55 dollars are 9,855 = 0x267F cents */
    0xF4, 1, 0, 0, 9, 0, 0, 0, 0x7F, 0x26, 0, 0, 0x88, 0x13, 0, 0,
    0xF4, 1, 0, 0, 9, 1, 0, 0, 0x7F, 0x26, 0, 0, 0x70, 0x17, 0, 0,
    0xF4, 1, 0, 0, 9, 2, 0, 0, 0x7F, 0x26, 0, 0, 0, 0, 0, 0,
    0xF4, 1, 0, 0, 9, 4, 0, 0, 0x7F, 0x26, 0, 0, 0x70, 0x17, 0, 0,
};

/* The payment is 4,117,083 + 4,940,500 + 0 + 3,476,250 + 4,940,500, of which the
 * first is rounded; the base cost 4,106,250 + 4,927,500 + 0 + 4,927,500. */
static void costs(void)
{
    static const fervolatro_cost none = {0, 0, 0};
    static const fervolatro_cost payment = {0, 0, 17474333};
    static const fervolatro_cost base_cost = {0, 0, 13961250};
    enum { LEN = sizeof ROWS };

    expect_payment("raise regulation", ROWS, LEN, 9, payment);
    expect_payment("lower regulation", ROWS, LEN, 10, none);
    expect_payment("service 11", ROWS, LEN, 11, none);
    expect_payment("payment of no rows", ROWS, 0, 9, none);
    expect_payment("payment of NULL", NULL, 0, 9, none);

    expect_base_cost("constraint 500", ROWS, LEN, 500, 9, base_cost);
    expect_base_cost("constraint 500, service 10", ROWS, LEN, 500, 10, none);
    expect_base_cost("constraint 501", ROWS, LEN, 501, 9, none);
    expect_base_cost("id 0", ROWS, LEN, 0, 9, none);
    expect_base_cost("base cost of NULL", NULL, 0, 500, 9, none);
}

/* The last row begins at 128, the third at 32. Whatever is asked for, a row that
 * is refused refuses all. */
static void refused_rows(void)
{
    static const fervolatro_cost last = {16, 128, 0};
    static const fervolatro_cost third = {16, 32, 0};
    enum { LEN = sizeof ROWS, THIRD_AT = 2 * 16 };
    uint8_t rows[LEN];

    expect_payment("payment, one byte short", ROWS, LEN - 1, 9, last);
    expect_base_cost("base cost, 15 bytes short", ROWS, LEN - 15, 500, 9, last);

    memcpy(rows, ROWS, LEN);
    rows[THIRD_AT + 5] = 1;
    expect_payment("payment, QLD1 twice", rows, LEN, 9, third);
    expect_payment("service 11, QLD1 twice", rows, LEN, 11, third);
    expect_base_cost("base cost, QLD1 twice", rows, LEN, 500, 9, third);

    memcpy(rows, ROWS, LEN);
    rows[THIRD_AT + 7] = 1;
    expect_payment("payment, a reserved byte of 1", rows, LEN, 9, third);
    expect_base_cost("base cost, a reserved byte of 1", rows, LEN, 500, 9,
                     third);
}

/* Account 7's reconciliation file of the worked book with an ordinary contract: the
 * amounts are those of the test payment. */
static const char FILE_OF_7[] =
    "20250608,1,1,7,RESTART,1,AVAILABILITY,NSW1,1.000000,100.0000,"
    "-1.1663,-15.000,-1015.000,5.000,585.000,-0.7389,-0.4274\n";

enum { FILE_LEN = sizeof FILE_OF_7 - 1, FILE_ROOM = FILE_LEN + 1 };

/* Asks for a file in the first room bytes of a buffer. */
static void expect_file(const char *name, const uint8_t *with_contract,
                        uint64_t type, size_t room, fervolatro_written expected)
{
    uint8_t buffer[FILE_ROOM], left[FILE_ROOM];
    fervolatro_written got;

    memset(buffer, UNTOUCHED, FILE_ROOM);
    memset(left, UNTOUCHED, FILE_ROOM);
    memcpy(left, FILE_OF_7, (size_t)expected.length);
    got = fervolatro_nmas(with_contract, WITH_CONTRACT_LEN, NULL, 0, 7, type,
                          buffer, room);
    expect_fields(name, WRITTEN_FIELDS, &got, &expected);
    if (memcmp(buffer, left, FILE_ROOM) != 0) {
        fprintf(stderr, "%s: other bytes in the buffer\n", name);
        failures++;
    }
}

static void files(const uint8_t *book)
{
    static const fervolatro_written whole = {0, 0, FILE_LEN};
    static const fervolatro_written empty = {0, 0, 0};
    uint8_t with_contract[WITH_CONTRACT_LEN];
    fervolatro_written got;

    put_contract(book, FERVOLATRO_CONTRACT_ORDINARY, with_contract);
    expect_file("file", with_contract, 0, FILE_LEN, whole);
    expect_file("file, room to spare", with_contract, 0, FILE_ROOM, whole);
    expect_file("file, room one short", with_contract, 0, FILE_LEN - 1,
                (fervolatro_written){13, 0, 0});
    expect_file("file of type 3", with_contract, 3, FILE_ROOM,
                (fervolatro_written){15, 0, 0});
    got = fervolatro_nmas(book, WORKED_LEN, NULL, 0, 7, 0, NULL, 0);
    expect_fields("file without contracts", WRITTEN_FIELDS, &got, &empty);
}

static void expect_rows(const char *name, const uint8_t *text, size_t len,
                        fervolatro_nmas_size expected)
{
    fervolatro_nmas_size got = fervolatro_nmas_rows(text, len);

    expect_fields(name, NMAS_SIZE_FIELDS, &got, &expected);
}

static void expect_row(const char *name, const uint8_t *text, size_t len,
                       uint64_t index, fervolatro_nmas_entry expected)
{
    fervolatro_nmas_entry got = fervolatro_nmas_row(text, len, index);

    expect_fields(name, NMAS_ENTRY_FIELDS, &got, &expected);
}

/* A file of two rows, and what of it is refused. */
static void files_read(void)
{
    static const fervolatro_nmas_entry row = {
        0, 0, 20250608, 1, 1, 7, 1, 0, 0, 1000000, 1000000, -11663,
        -15000, -1015000, 5000, 585000, -7389, -4274};
    enum { LEN = 2 * FILE_LEN };
    uint8_t text[LEN];

    memcpy(text, FILE_OF_7, FILE_LEN);
    memcpy(text + FILE_LEN, FILE_OF_7, FILE_LEN);
    expect_rows("two rows", text, LEN, (fervolatro_nmas_size){0, 0, 2});
    expect_rows("no rows", text, 0, (fervolatro_nmas_size){0, 0, 0});
    expect_rows("one byte short", text, LEN - 1,
                (fervolatro_nmas_size){19, 1, 0});
    expect_row("row 1", text, LEN, 1, row);
    expect_row("row 2", text, LEN, 2, (fervolatro_nmas_entry){.refusal = 15});
    /* -0.4275, and the sum is another. */
    text[LEN - 2] = '5';
    expect_rows("another sum", text, LEN, (fervolatro_nmas_size){19, 1, 0});
    expect_row("row 0, another sum in row 1", text, LEN, 0,
               (fervolatro_nmas_entry){.refusal = 19, .place = 1});
}

int main(int argc, char **argv)
{
    static const fervolatro_pool no_usage = {5, CONSTRAINT_AT, 0, 0, 0};
    uint8_t book[WORKED_LEN + 1] = {0};

    if (argc != 2) {
        fprintf(stderr, "usage: %s WORKED_BOOK\n", argv[0]);
        return 2;
    }
    read_worked(argv[1], book);

    expect("no bytes at all", book, 0, 1, 0);
    expect("one byte short of header and entries", book, 83, 1, 0);
    expect("the worked book", book, WORKED_LEN, 0, 0);
    expect("one byte short", book, WORKED_LEN - 1, 4, 0);
    expect("one byte long", book, WORKED_LEN + 1, 4, 0);

    statements(book);
    refused_books(book);
    read_back(book);
    balances(book);
    cut_offs(book);
    locked_books(book);
    costs();
    refused_rows();
    files(book);
    files_read();

    /* As among the damages. */
    book[CONSTRAINT_AT + 27] = 1;
    expect("usage past its range", book, WORKED_LEN, 5, CONSTRAINT_AT);
    expect_pool("a pool of a refused book", book, WORKED_LEN, 0, no_usage);

    return failures == 0 ? EXIT_SUCCESS : EXIT_FAILURE;
}
