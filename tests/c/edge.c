/*
 * Sees the shape of the library's edge from C: the order and the width of every
 * field of every answer and of every parameter, which no contract of the proved
 * code speaks of. The fields of an answer differ from each other, and numbers of
 * 2^32 and above stand wherever the type and the rules have room for them. And
 * sees that a slice of length 0 may come with any pointer, that the calls on a book
 * and on a reconciliation file touch no byte behind what they are lent, and none of a
 * locked book that is not read.
 *
 * The one argument is the machine's name (`uname -m`). Lengths of 2^32 and above
 * want a mapping of that size; a machine other than x86_64, where this runs in an
 * emulator, may not have one, and the program then says that they were not tried.
 *
 * Exits non-zero with a message if an answer is not the expected one. Each
 * expected number is worked out here from the rules.
 */
#define _DEFAULT_SOURCE

#include <inttypes.h>
#include <stdio.h>
#include <stdlib.h>
#include <string.h>
#include <sys/mman.h>
#include <unistd.h>

#include "fervolatro.h"

#include "books.h"

static const uint64_t TWO_TO_32 = UINT64_C(1) << 32;

static int failures = 0;

/* ---- Answers, as C sees them: fields of 64 bits, with nothing between them. */

enum {
    VERDICT_FIELDS = 2,
    WRITTEN_FIELDS = 3,
    POOL_FIELDS = 5,
    CUT_FIELDS = 6,
    HEADING_FIELDS = 7,
    ENTRY_FIELDS = 7,
    LINE_FIELDS = 5,
    COST_FIELDS = 3,
    NMAS_SIZE_FIELDS = 3,
    NMAS_ENTRY_FIELDS = 18,
    MOST_FIELDS = NMAS_ENTRY_FIELDS
};

#define HAS_FIELDS(answer, fields)                            \
    _Static_assert(sizeof(answer) == fields * sizeof(uint64_t), \
                   #answer " has fields of 64 bits and no others")

HAS_FIELDS(fervolatro_verdict, VERDICT_FIELDS);
HAS_FIELDS(fervolatro_written, WRITTEN_FIELDS);
HAS_FIELDS(fervolatro_pool, POOL_FIELDS);
HAS_FIELDS(fervolatro_cut, CUT_FIELDS);
HAS_FIELDS(fervolatro_heading, HEADING_FIELDS);
HAS_FIELDS(fervolatro_entry, ENTRY_FIELDS);
HAS_FIELDS(fervolatro_fields, LINE_FIELDS);
HAS_FIELDS(fervolatro_cost, COST_FIELDS);
HAS_FIELDS(fervolatro_nmas_size, NMAS_SIZE_FIELDS);
HAS_FIELDS(fervolatro_nmas_entry, NMAS_ENTRY_FIELDS);

static uint64_t field(const void *answer, size_t at)
{
    uint64_t value;

    memcpy(&value, (const uint8_t *)answer + at * sizeof value, sizeof value);
    return value;
}

/* What is expected is given by the names of the header's fields. So a field that
 * stands elsewhere, in the header or in the library, is seen. */
static void expect_fields(const char *name, size_t fields, const void *got,
                          const void *expected)
{
    size_t at;

    for (at = 0; at < fields; at++) {
        if (field(got, at) != field(expected, at)) {
            fprintf(stderr,
                    "%s: field %zu: expected %" PRIu64 ", got %" PRIu64 "\n",
                    name, at, field(expected, at), field(got, at));
            failures++;
        }
    }
}

static void expect_verdict(const char *name, fervolatro_verdict got,
                           fervolatro_verdict expected)
{
    expect_fields(name, VERDICT_FIELDS, &got, &expected);
}

static void expect_written(const char *name, fervolatro_written got,
                           fervolatro_written expected)
{
    expect_fields(name, WRITTEN_FIELDS, &got, &expected);
}

static void expect_pool(const char *name, fervolatro_pool got,
                        fervolatro_pool expected)
{
    expect_fields(name, POOL_FIELDS, &got, &expected);
}

static void expect_cut(const char *name, fervolatro_cut got,
                       fervolatro_cut expected)
{
    expect_fields(name, CUT_FIELDS, &got, &expected);
}

static void expect_heading(const char *name, fervolatro_heading got,
                           fervolatro_heading expected)
{
    expect_fields(name, HEADING_FIELDS, &got, &expected);
}

static void expect_entry(const char *name, fervolatro_entry got,
                         fervolatro_entry expected)
{
    expect_fields(name, ENTRY_FIELDS, &got, &expected);
}

static void expect_line(const char *name, fervolatro_fields got,
                        fervolatro_entry entry)
{
    fervolatro_fields expected = {.id = entry.id,
                                  .part = entry.part,
                                  .regions = entry.regions,
                                  .unit = entry.unit,
                                  .amount = entry.amount};

    expect_fields(name, LINE_FIELDS, &got, &expected);
}

static void expect_cost(const char *name, fervolatro_cost got,
                        fervolatro_cost expected)
{
    expect_fields(name, COST_FIELDS, &got, &expected);
}

static void expect_nmas_size(const char *name, fervolatro_nmas_size got,
                             fervolatro_nmas_size expected)
{
    expect_fields(name, NMAS_SIZE_FIELDS, &got, &expected);
}

static void expect_nmas_entry(const char *name, fervolatro_nmas_entry got,
                              fervolatro_nmas_entry expected)
{
    expect_fields(name, NMAS_ENTRY_FIELDS, &got, &expected);
}

/* Fields behind refusal and place: none is 0, as refusal and place then are, and no
 * two are equal. So no two of them can be exchanged unseen. */
static void expect_distinct(const char *name, size_t fields, const void *answer)
{
    size_t at, other;

    for (at = 2; at < fields; at++) {
        int same = field(answer, at) == 0;

        for (other = 2; other < at; other++) {
            same |= field(answer, at) == field(answer, other);
        }
        if (same) {
            fprintf(stderr, "%s: field %zu does not differ\n", name, at);
            failures++;
        }
    }
}

/* ---- Statements and dispatch rows, put into bytes; books.h does so with books. */

enum { LINE_LEN = 24, ROW_LEN = 16 };

static void put_row(uint8_t *at, uint64_t id, uint64_t service,
                    uint64_t region, uint64_t price, uint64_t enablement)
{
    put(at, 0, 4, id);
    put(at, 4, 1, service);
    put(at, 5, 1, region);
    put(at, 6, 2, 0);
    put(at, 8, 4, price);
    put(at, 12, 4, enablement);
}

/* ---- A book that is accepted, with names of 2^31 and above. */

#define CONTINGENCY UINT32_C(0x8BADF00D)
#define REGULATION UINT32_C(0xF00DFACE)
#define CONTRACT UINT32_C(0xCAFED00D)
#define UNIT UINT32_C(0xDEADBEEF)
#define OTHER_UNIT UINT32_C(0xE1234567)

enum {
    SA1 = 2,
    /* All regions but QLD1; all but NSW1. SA1, bit 2, is in both. */
    CONTINGENCY_REGIONS = 29,
    REGULATION_REGIONS = 30,
    CONSTRAINTS_AT = ENTRIES_END,
    UNITS_AT = CONSTRAINTS_AT + 2 * CONSTRAINT_LEN,
    ENERGIES_AT = UNITS_AT + 2 * UNIT_LEN,
    CONTRACTS_AT = ENERGIES_AT + 3 * ENERGY_LEN,
    BOOK_LEN = CONTRACTS_AT + CONTRACT_LEN
};

/*
 * Energy, all of it in SA1: accounts 3 and 5 and ACCOUNT have ACE -1, -2 and -3,
 * in all -6; ASOE 1 each, in all 3; residual ACE -1 each, in all a residual total
 * of 3.
 *
 * Factors of the regulation constraint: CFs 999,998 - 1,000,000 and RCF 2 make 0,
 * the negative one -1,000,000; DCFs -700,000 - 100,000 and DRCF -200,000 make
 * -1,000,000. Price x RCR is 2,500,000 x 2,400,000 = 6,000,000,000,000.
 */
static void make_book(uint8_t book[BOOK_LEN])
{
    uint8_t *regulation = book + CONSTRAINTS_AT + CONSTRAINT_LEN;

    memset(book, 0, BOOK_LEN);
    put_front(book, "RCB");
    put_counts(book, 2, 2, 3, 1);
    put_entry(book, SA1, -6, 3, 3);

    put_constraint(book + CONSTRAINTS_AT, CONTINGENCY, 1, CONTINGENCY_REGIONS, 0,
                   UINT64_C(49999999999));
    put_constraint(regulation, REGULATION, 10, REGULATION_REGIONS, 1,
                   UINT64_C(30000000000));
    put(regulation, 16, 4, 2500000);
    put(regulation, 20, 4, 2400000);
    put(regulation, 24, 4, 600000);
    put(regulation, 28, 4, 2);
    put(regulation, 32, 4, (uint64_t)INT64_C(-200000));

    put_unit(book + UNITS_AT, REGULATION, UNIT, ACCOUNT, 999998, -700000);
    put_unit(book + UNITS_AT + UNIT_LEN, REGULATION, OTHER_UNIT, 3, -1000000,
             -100000);
    put_energy(book + ENERGIES_AT, 3, SA1, -1, 1);
    put_energy(book + ENERGIES_AT + ENERGY_LEN, 5, SA1, -2, 1);
    put_energy(book + ENERGIES_AT + 2 * ENERGY_LEN, ACCOUNT, SA1, -3, 1);
    put_contract(book + CONTRACTS_AT, CONTRACT, 2, UINT64_C(40000000001), SA1);
}

/*
 * The locked book, of an earlier run, and shorter. Energy, all of it in SA1: accounts 4
 * and ACCOUNT have ACE -1 and -7, in all -8; ASOE 2 and 3, in all 5; residual ACE -1
 * each.
 */
enum { LOCKED_LEN = ENTRIES_END + 2 * ENERGY_LEN };

_Static_assert(BOOK_LEN == 312 && LOCKED_LEN == 132, "the two lengths differ");

static uint8_t locked[LOCKED_LEN];

static void make_locked(void)
{
    put_front(locked, "RCB");
    put(locked, 12, 2, RUN - 1);
    put_counts(locked, 0, 0, 2, 0);
    put_entry(locked, SA1, -8, 5, 2);
    put_energy(locked + ENTRIES_END, 4, SA1, -1, 2);
    put_energy(locked + ENTRIES_END + ENERGY_LEN, ACCOUNT, SA1, -7, 3);
}

/*
 * ACCOUNT's lines.
 *
 * Contingency, raise: 49,999,999,999 x 1 / 3 = 16,666,666,666 and a third.
 *
 * Regulation. FPP pool 6,000,000,000,000 / 120 = 50,000,000,000; used
 * 30,000,000,000 x 600,000 / 1,000,000 = 18,000,000,000; unused the rest,
 * 12,000,000,000. The unit: 50,000,000,000 x 999,998 / 1,000,000; its CF is not
 * negative, so nothing of used; 12,000,000,000 x -700,000 / 1,000,000. Residual
 * pools: 50,000,000,000 x 2 / 1,000,000 = 100,000; RCF is not negative, so 0;
 * 12,000,000,000 x -200,000 / 1,000,000 = -2,400,000,000. The account has a third
 * of each: 33,333 and a third; 0; -800,000,000.
 *
 * Contract, by the locked book: r = 40,000,000,001 is odd, so the consumed half is
 * 20,000,000,001, of which 7 / 8 is 17,500,000,000 and seven eighths; the sent-out
 * half is 20,000,000,000, of which 3 / 5 is 12,000,000,000.
 */
enum { LINES = 9, STATEMENT_LEN = HEADER_LEN + LINES * LINE_LEN };

static const fervolatro_entry LINE[LINES] = {
    {.id = CONTINGENCY, .part = 2, .regions = CONTINGENCY_REGIONS,
     .amount = -INT64_C(16666666666)},
    {.id = REGULATION, .part = 3, .regions = REGULATION_REGIONS, .unit = UNIT,
     .amount = INT64_C(49999900000)},
    {.id = REGULATION, .part = 4, .regions = REGULATION_REGIONS, .unit = UNIT,
     .amount = 0},
    {.id = REGULATION, .part = 5, .regions = REGULATION_REGIONS, .unit = UNIT,
     .amount = -INT64_C(8400000000)},
    {.id = REGULATION, .part = 6, .regions = REGULATION_REGIONS,
     .amount = 33333},
    {.id = REGULATION, .part = 7, .regions = REGULATION_REGIONS, .amount = 0},
    {.id = REGULATION, .part = 8, .regions = REGULATION_REGIONS,
     .amount = -800000000},
    {.id = CONTRACT, .part = 9, .regions = 1 << SA1,
     .amount = -INT64_C(17500000001)},
    {.id = CONTRACT, .part = 10, .regions = 1 << SA1,
     .amount = -INT64_C(12000000000)},
};

static const fervolatro_written WHOLE = {.length = STATEMENT_LEN};

/* Accounts 4, of the locked book alone, and 5 have no unit: a contingency line, three
 * of a residual and two of the contract. */
static const fervolatro_written WITHOUT_UNITS = {.length =
                                                     HEADER_LEN + 6 * LINE_LEN};

static const fervolatro_heading HEADING = {.account = ACCOUNT,
                                           .date = DATE,
                                           .interval = INTERVAL,
                                           .run = RUN,
                                           .lines = LINES};

/* The bytes of ACCOUNT's statement. */
static void make_statement(uint8_t statement[STATEMENT_LEN])
{
    uint8_t *line = statement + HEADER_LEN;
    size_t i;

    memset(statement, 0, STATEMENT_LEN);
    put_front(statement, "RCS");
    put(statement, 14, 2, LINES);
    put(statement, 16, 4, ACCOUNT);
    for (i = 0; i < LINES; i++, line += LINE_LEN) {
        put(line, 0, 4, LINE[i].id);
        put(line, 4, 1, LINE[i].part);
        put(line, 5, 1, LINE[i].regions);
        put(line, 8, 4, LINE[i].unit);
        put(line, 16, 8, (uint64_t)LINE[i].amount);
    }
}

/*
 * The pools over accounts 3 to 5 and ACCOUNT, of which 4 has nothing in the book.
 *
 * Contingency: three lines of -16,666,666,666. FPP: the units' 49,999,900,000 and
 * -50,000,000,000, three of 33,333. Used: the other unit's -18,000,000,000, all
 * else 0. Unused: the units' -8,400,000,000 and -1,200,000,000, three of
 * -800,000,000. Contract: of 20,000,000,001 by ACE an eighth, 2,500,000,000 and an
 * eighth, and 17,500,000,001, in all 20,000,000,001; of 20,000,000,000 by ASOE two
 * fifths, 8,000,000,000, and 12,000,000,000.
 */
enum { POOLS = 5 };

static const fervolatro_pool POOL[POOLS] = {
    {.amount = INT64_C(49999999999), .lines = 4,
     .sum = -INT64_C(49999999998)},
    {.amount = 0, .lines = 6, .sum = -1},
    {.amount = INT64_C(18000000000), .lines = 6,
     .sum = -INT64_C(18000000000)},
    {.amount = INT64_C(12000000000), .lines = 6,
     .sum = -INT64_C(12000000000)},
    {.amount = INT64_C(40000000001), .lines = 8,
     .sum = -INT64_C(40000000001)},
};

/*
 * What the stages of these pools cut off.
 *
 * Contingency: a third of 3, three times. FPP: 6,000,000,000,000 / 120, the units' lines
 * and the residual pool are whole; of that, 100,000, each of three has a third of 3 more
 * than 33,333. Used and unused are whole throughout. Contract: the payment is the
 * region's part, and odd; by ACE one eighth of 8 is left, and as much missing; by ASOE
 * both are whole.
 */
enum { MOST_STAGES = 4 };

static const struct {
    uint64_t stages;
    fervolatro_cut of[MOST_STAGES];
} CUTS[POOLS] = {
    {1, {{.stage = 1, .divisor = 3, .cut = 3}}},
    {4,
     {{.stage = 2, .divisor = 120},
      {.stage = 3, .divisor = MILLION},
      {.stage = 4, .divisor = MILLION},
      {.stage = 5, .divisor = 3, .cut = 3}}},
    {4,
     {{.stage = 2, .divisor = MILLION},
      {.stage = 3, .divisor = MILLION},
      {.stage = 4, .divisor = MILLION},
      {.stage = 5, .divisor = 3}}},
    {4,
     {{.stage = 2, .divisor = MILLION},
      {.stage = 3, .divisor = MILLION},
      {.stage = 4, .divisor = MILLION},
      {.stage = 5, .divisor = 3}}},
    {4,
     {{.stage = 6, .region = SA1, .divisor = MILLION},
      {.stage = 7, .region = SA1, .divisor = 2, .cut = -1},
      {.stage = 8, .region = SA1, .divisor = 8},
      {.stage = 9, .region = SA1, .divisor = 5}}},
};

/*
 * A book in which much is cut off: accounts 1 to 1,000, 200 in each region, have ACE
 * -100,000 and ASOE 100,000 each, in all 20,000,000 of either in a region. A raise
 * contingency of 500 over all regions; a contract of 333, of which TAS1 has six tenths
 * and VIC1 four.
 *
 * Contingency: each has one half, so 1, and of a total of 100,000,000 half is missing,
 * 1,000 times: more than 2^32.
 *
 * Contract: TAS1 has 199.8, so 200, and halves of 100, of which each has one half, so 1,
 * and -10,000,000 of 20,000,000, 200 times. VIC1 has 133.2, so 133, and the consumed half
 * is 67, of which each has 0.335, so 0, and 6,700,000 is left, 200 times; of the other
 * half, 66, it is 6,600,000. With a cost of 499 each has 0.499, so 0, and 49,900,000 is
 * left, 1,000 times.
 */
enum {
    TAS1 = 3,
    VIC1 = 4,
    MANY = 1000,
    MANY_ENERGIES_AT = ENTRIES_END + CONSTRAINT_LEN,
    MANY_CONTRACT_AT = MANY_ENERGIES_AT + MANY * ENERGY_LEN,
    MANY_LEN = MANY_CONTRACT_AT + CONTRACT_LEN
};

static void make_many(uint8_t book[MANY_LEN], uint64_t cost)
{
    uint8_t *energy = book + MANY_ENERGIES_AT;
    uint64_t i;

    memset(book, 0, MANY_LEN);
    put_front(book, "RCB");
    put_counts(book, 1, 0, MANY, 1);
    for (i = 0; i < 5; i++) {
        put_entry(book, i, -20 * MILLION, 20 * MILLION, MANY / 5);
    }
    put_constraint(book + ENTRIES_END, 1, 1, 31, 0, cost);
    for (i = 0; i < MANY; i++, energy += ENERGY_LEN) {
        put_energy(energy, i + 1, i % 5, -100000, 100000);
    }
    put_contract(book + MANY_CONTRACT_AT, 1, 1, 333, TAS1);
    put(book + MANY_CONTRACT_AT, 16 + 4 * TAS1, 4, 600000);
    put(book + MANY_CONTRACT_AT, 16 + 4 * VIC1, 4, 400000);
}

static const fervolatro_cut MANY_HALVES = {.stage = 1,
                                           .divisor = 100 * MILLION,
                                           .cut = -INT64_C(50000000000)};
static const fervolatro_cut MANY_LEFT = {.stage = 1,
                                         .divisor = 100 * MILLION,
                                         .cut = INT64_C(49900000000)};

enum { MANY_STAGES = 8 };

static const fervolatro_cut MANY_CUT[MANY_STAGES] = {
    {.stage = 6, .region = TAS1, .divisor = MILLION, .cut = -200000},
    {.stage = 7, .region = TAS1, .divisor = 2},
    {.stage = 8, .region = TAS1, .divisor = 20 * MILLION, .cut = -2000000000},
    {.stage = 9, .region = TAS1, .divisor = 20 * MILLION, .cut = -2000000000},
    {.stage = 6, .region = VIC1, .divisor = MILLION, .cut = 200000},
    {.stage = 7, .region = VIC1, .divisor = 2, .cut = -1},
    {.stage = 8, .region = VIC1, .divisor = 20 * MILLION, .cut = 1340000000},
    {.stage = 9, .region = VIC1, .divisor = 20 * MILLION, .cut = 1320000000},
};

static const fervolatro_cut NO_STAGE = {.refusal = 15};

/*
 * Dispatch rows. Each price is above what an enablement can be, so that the two are
 * not exchanged unseen. A twelfth of each product:
 *
 *   2,000,001 x 234,567 = 469,134,234,567      39,094,519,547 and a quarter
 *   1,999,999 x  54,321 = 108,641,945,679       9,053,495,473 and a quarter
 *   1,234,567 x  98,765 = 121,932,009,755      10,161,000,813, less a twelfth
 *   2,222,222 x  76,543 = 170,095,538,546      14,174,628,212 and a sixth
 *   1,876,543 x 150,001 = 281,483,326,543      23,456,943,879, less five twelfths
 *   2,345,678 x 222,222 = 521,261,256,516      43,438,438,043
 *
 * The first two are of one service: 48,148,015,020.
 */
enum { RAISE = 9, LOWER = 10, ROWS = 6, ROWS_LEN = ROWS * ROW_LEN };

static void make_rows(uint8_t rows[ROWS_LEN])
{
    put_row(rows, 0, RAISE, 0, 2000001, 234567);
    put_row(rows + ROW_LEN, 0, RAISE, 4, 1999999, 54321);
    put_row(rows + 2 * ROW_LEN, 0, LOWER, 2, 1234567, 98765);
    put_row(rows + 3 * ROW_LEN, CONTINGENCY, 1, 1, 2222222, 76543);
    put_row(rows + 4 * ROW_LEN, REGULATION, RAISE, 3, 1876543, 150001);
    put_row(rows + 5 * ROW_LEN, REGULATION, LOWER, 2, 2345678, 222222);
}

static const fervolatro_cost NO_COST = {0};
static const fervolatro_cost RAISE_PAYMENT = {.amount = UINT64_C(48148015020)};
static const fervolatro_cost LOWER_PAYMENT = {.amount = UINT64_C(10161000813)};
static const fervolatro_cost CONTINGENCY_COST = {.amount = UINT64_C(14174628212)};
static const fervolatro_cost RAISE_COST = {.amount = UINT64_C(23456943879)};
static const fervolatro_cost LOWER_COST = {.amount = UINT64_C(43438438043)};

/*
 * ACCOUNT's reconciliation file, a line of each payment type. ACCOUNT is 4,275,878,552
 * and CONTRACT 3,405,697,037. The energies are the locked book's, and the amounts those
 * of the statement's last two lines; the run is the book's.
 */
#define FILE_OF(type)                                                    \
    "20960229,98,287,4275878552,RESTART,3405697037," type                \
    ",SA1,1.000000,4000000.0001,-2950000.0001,-0.007,-0.008,0.003,0.005," \
    "-1750000.0001,-1200000.0000\n"

_Static_assert(ACCOUNT == 4275878552 && CONTRACT == 3405697037,
               "as the file has them");

enum { TYPES = 3, AVAILABILITY = 0, COMPENSATION = 2 };

static const char *const FILES[TYPES] = {
    FILE_OF("AVAILABILITY"),
    FILE_OF("ENABLEMENT"),
    FILE_OF("COMPENSATION"),
};

/* Of the first and the last type. */
enum { FILE_LEN = sizeof FILE_OF("AVAILABILITY") - 1 };

static const fervolatro_written WHOLE_FILE = {.length = FILE_LEN};

/*
 * A text that is read. The sixteen numbers of each row differ from each other; those of
 * the first are as large as they can be, or nearly, and those of the second small.
 */
#define FIRST_LINE                                                           \
    "20960229,98,287,4275878552,RESTART,3405697037,ENABLEMENT,SA1,0.654321," \
    "4000000.0003,-5000000.0005,-19999.998,-19999.999,19999.996,19999.997,"  \
    "-3000000.0001,-2000000.0004\n"
#define SECOND_LINE                                                     \
    "20250701,3,7,10,RESTART,17,COMPENSATION,VIC1,0.000008,0.0009,"     \
    "-0.0031,-0.011,-0.012,0.013,0.014,-0.0015,-0.0016\n"

static const char TEXT[] = FIRST_LINE SECOND_LINE;

enum {
    TEXT_ROWS = 2,
    FIRST_LINE_LEN = sizeof FIRST_LINE - 1,
    TEXT_LEN = sizeof TEXT - 1
};

static const fervolatro_nmas_size BOTH_ROWS = {.rows = TEXT_ROWS};

static const fervolatro_nmas_entry TEXT_ROW[TEXT_ROWS] = {
    {.date = DATE, .run = RUN, .interval = INTERVAL, .account = ACCOUNT,
     .contract = CONTRACT, .type = 1, .region = SA1, .factor = 654321,
     .payment = UINT64_C(40000000003), .recovery = -INT64_C(50000000005),
     .own_ace = -19999998, .region_ace = -19999999, .own_asoe = 19999996,
     .region_asoe = 19999997, .by_ace = -INT64_C(30000000001),
     .by_asoe = -INT64_C(20000000004)},
    {.date = 20250701, .run = 3, .interval = 7, .account = 10, .contract = 17,
     .type = COMPENSATION, .region = 4, .factor = 8, .payment = 9,
     .recovery = -31, .own_ace = -11, .region_ace = -12, .own_asoe = 13,
     .region_asoe = 14, .by_ace = -15, .by_asoe = -16},
};

/* ---- Answers of calls that go well. */

enum { ROOM = STATEMENT_LEN + LINE_LEN, UNTOUCHED = 0xA5 };

_Static_assert(ROOM > sizeof FILE_OF("AVAILABILITY"),
               "a file has room where a statement has");

/* The front of the buffer is what was written, and what follows it is untouched. */
static void expect_left(const char *name, const uint8_t *buffer, size_t room,
                        const uint8_t *front, size_t front_len)
{
    size_t at;
    int differs = memcmp(buffer, front, front_len) != 0;

    for (at = front_len; at < room; at++) {
        differs |= buffer[at] != UNTOUCHED;
    }
    if (differs) {
        fprintf(stderr, "%s: other bytes in the buffer\n", name);
        failures++;
    }
}

/* How much to lend for ACCOUNT's statement, which is asked first. No buffer here is
 * sure to have room for more than is expected. */
static size_t length_asked(const uint8_t *book)
{
    fervolatro_written asked =
        fervolatro_length(book, BOOK_LEN, locked, LOCKED_LEN, ACCOUNT);

    expect_written("length", asked, WHOLE);
    if (asked.length != STATEMENT_LEN) {
        exit(EXIT_FAILURE);
    }
    return (size_t)asked.length;
}

/* Just so much is lent; then more, of which what follows is untouched; then a byte
 * less. */
static void good_call_for_a_statement(const uint8_t *book,
                                      const uint8_t *statement)
{
    uint8_t buffer[ROOM];
    size_t len = length_asked(book);

    memset(buffer, UNTOUCHED, ROOM);
    expect_written("statement",
                   fervolatro_statement(book, BOOK_LEN, locked, LOCKED_LEN,
                                        ACCOUNT, buffer, len),
                   WHOLE);
    expect_left("statement", buffer, ROOM, statement, STATEMENT_LEN);

    memset(buffer, UNTOUCHED, ROOM);
    expect_written("statement into more",
                   fervolatro_statement(book, BOOK_LEN, locked, LOCKED_LEN,
                                        ACCOUNT, buffer, ROOM),
                   WHOLE);
    expect_left("statement into more", buffer, ROOM, statement, STATEMENT_LEN);

    memset(buffer, UNTOUCHED, ROOM);
    expect_written("statement into less",
                   fervolatro_statement(book, BOOK_LEN, locked, LOCKED_LEN,
                                        ACCOUNT, buffer, len - 1),
                   (fervolatro_written){.refusal = 13});
    expect_left("statement into less", buffer, ROOM, buffer, 0);
}

static void good_calls_on_the_book(const uint8_t *book)
{
    uint64_t pool;

    expect_verdict("check", fervolatro_check(book, BOOK_LEN, locked, LOCKED_LEN),
                   (fervolatro_verdict){0});
    expect_written("length for another account",
                   fervolatro_length(book, BOOK_LEN, locked, LOCKED_LEN, 5),
                   WITHOUT_UNITS);
    expect_written("length for an account of the locked book",
                   fervolatro_length(book, BOOK_LEN, locked, LOCKED_LEN, 4),
                   WITHOUT_UNITS);

    for (pool = 0; pool < POOLS; pool++) {
        expect_pool("balance",
                    fervolatro_balance(book, BOOK_LEN, locked, LOCKED_LEN, pool),
                    POOL[pool]);
    }
}

/* Each stage of each pool, and one past the last. */
static void good_calls_for_cut_offs(const uint8_t *book)
{
    uint64_t pool, index;

    for (pool = 0; pool < POOLS; pool++) {
        for (index = 0; index < CUTS[pool].stages; index++) {
            expect_cut("cut-off",
                       fervolatro_cutoff(book, BOOK_LEN, locked, LOCKED_LEN,
                                         pool, index),
                       CUTS[pool].of[index]);
        }
        expect_cut("a stage past the last",
                   fervolatro_cutoff(book, BOOK_LEN, locked, LOCKED_LEN, pool,
                                     index),
                   NO_STAGE);
    }
    expect_cut("a stage past the last pool",
               fervolatro_cutoff(book, BOOK_LEN, locked, LOCKED_LEN, POOLS, 0),
               NO_STAGE);
}

static void good_calls_for_many_cut_offs(void)
{
    static uint8_t book[MANY_LEN];
    uint64_t index;

    make_many(book, 499);
    expect_cut("much that is left",
               fervolatro_cutoff(book, MANY_LEN, NULL, 0, 0, 0), MANY_LEFT);
    make_many(book, 500);
    expect_cut("many halves", fervolatro_cutoff(book, MANY_LEN, NULL, 0, 0, 0),
               MANY_HALVES);
    for (index = 0; index < MANY_STAGES; index++) {
        expect_cut("cut-off of many",
                   fervolatro_cutoff(book, MANY_LEN, NULL, 0, 1, index),
                   MANY_CUT[index]);
    }
}

/* The locked book stands where the book does, and has no contract: the other is not
 * read. It has two accounts and no line, so no pool, and the file is empty. */
static void exchanged_books(const uint8_t *book)
{
    static const fervolatro_written header_alone = {.length = HEADER_LEN};
    uint8_t buffer[ROOM];

    expect_verdict("check, exchanged",
                   fervolatro_check(locked, LOCKED_LEN, book, BOOK_LEN),
                   (fervolatro_verdict){0});
    expect_written("length, exchanged",
                   fervolatro_length(locked, LOCKED_LEN, book, BOOK_LEN, 4),
                   header_alone);
    expect_written("length, exchanged, for an account of the other",
                   fervolatro_length(locked, LOCKED_LEN, book, BOOK_LEN, 5),
                   (fervolatro_written){.refusal = 11});
    expect_written("statement, exchanged",
                   fervolatro_statement(locked, LOCKED_LEN, book, BOOK_LEN, 4,
                                        buffer, ROOM),
                   header_alone);
    expect_written("file, exchanged",
                   fervolatro_nmas(locked, LOCKED_LEN, book, BOOK_LEN, 4,
                                   AVAILABILITY, buffer, ROOM),
                   (fervolatro_written){0});
    expect_written("file, exchanged, for an account of the other",
                   fervolatro_nmas(locked, LOCKED_LEN, book, BOOK_LEN, 5,
                                   AVAILABILITY, buffer, ROOM),
                   (fervolatro_written){.refusal = 11});
    expect_pool("balance, exchanged",
                fervolatro_balance(locked, LOCKED_LEN, book, BOOK_LEN, 0),
                (fervolatro_pool){.refusal = 15});
    expect_cut("cut-off, exchanged",
               fervolatro_cutoff(locked, LOCKED_LEN, book, BOOK_LEN, 0, 0),
               NO_STAGE);
}

/* What refuses the two slices in these lengths: 4 where the first is not whole, 18
 * where the second is not, 17 where that has no byte. */
static void expect_lengths(const char *name, const uint8_t *book, size_t book_len,
                           size_t locked_len, fervolatro_verdict expected)
{
    const fervolatro_written written = {.refusal = expected.refusal,
                                        .place = expected.place};
    const fervolatro_pool pool = {.refusal = expected.refusal,
                                  .place = expected.place};
    const fervolatro_cut cut = {.refusal = expected.refusal,
                                .place = expected.place};
    uint8_t buffer[ROOM];

    memset(buffer, UNTOUCHED, ROOM);
    expect_verdict(name, fervolatro_check(book, book_len, locked, locked_len),
                   expected);
    expect_written(name,
                   fervolatro_length(book, book_len, locked, locked_len, ACCOUNT),
                   written);
    expect_written(name,
                   fervolatro_statement(book, book_len, locked, locked_len,
                                        ACCOUNT, buffer, ROOM),
                   written);
    expect_written(name,
                   fervolatro_nmas(book, book_len, locked, locked_len, ACCOUNT,
                                   AVAILABILITY, buffer, ROOM),
                   written);
    expect_left(name, buffer, ROOM, buffer, 0);
    expect_pool(name, fervolatro_balance(book, book_len, locked, locked_len, 0),
                pool);
    expect_cut(name,
               fervolatro_cutoff(book, book_len, locked, locked_len, 0, 0), cut);
}

static void lengths_of_the_two_slices(const uint8_t *book)
{
    const fervolatro_verdict other_length = {.refusal = 4};
    const fervolatro_verdict no_locked = {.refusal = 17, .place = CONTRACTS_AT};
    const fervolatro_verdict wrong_locked = {.refusal = 18,
                                             .place = CONTRACTS_AT};

    expect_lengths("a byte less of the book", book, BOOK_LEN - 1, LOCKED_LEN,
                   other_length);
    expect_lengths("as much of the book as of the other", book, LOCKED_LEN,
                   LOCKED_LEN, other_length);
    expect_lengths("a byte less of the locked book", book, BOOK_LEN,
                   LOCKED_LEN - 1, wrong_locked);
    expect_lengths("83 bytes of the locked book", book, BOOK_LEN,
                   ENTRIES_END - 1, wrong_locked);
    expect_lengths("none of the locked book", book, BOOK_LEN, 0, no_locked);
}

static void good_calls_on_the_statement(const uint8_t *statement)
{
    uint8_t buffer[ROOM];
    uint64_t index;

    expect_heading("header", fervolatro_header(statement, STATEMENT_LEN),
                   HEADING);
    for (index = 0; index < LINES; index++) {
        expect_entry("line", fervolatro_line(statement, STATEMENT_LEN, index),
                     LINE[index]);
    }

    memset(buffer, UNTOUCHED, ROOM);
    expect_written("rewrite",
                   fervolatro_rewrite(statement, STATEMENT_LEN, buffer, ROOM),
                   (fervolatro_written){.length = STATEMENT_LEN});
    expect_left("rewrite", buffer, ROOM, statement, STATEMENT_LEN);
}

/* All lines at once: 9 x 40 bytes, and what follows is untouched. */
enum { LINES_LEN = 360 };

_Static_assert(LINES_LEN == LINES * sizeof(fervolatro_fields), "9 x 40");

static void good_call_for_all_lines(const uint8_t *statement)
{
    fervolatro_fields lines[LINES + 1];
    const uint8_t *bytes = (const uint8_t *)lines;
    uint64_t index;

    memset(lines, UNTOUCHED, sizeof lines);
    expect_written("lines",
                   fervolatro_lines(statement, STATEMENT_LEN, (uint8_t *)lines,
                                    sizeof lines),
                   (fervolatro_written){.length = LINES_LEN});
    for (index = 0; index < LINES; index++) {
        expect_line("one of all lines", lines[index], LINE[index]);
    }
    expect_left("lines", bytes, sizeof lines, bytes, LINES_LEN);

    memset(lines, UNTOUCHED, sizeof lines);
    expect_written("lines into just enough",
                   fervolatro_lines(statement, STATEMENT_LEN, (uint8_t *)lines,
                                    LINES_LEN),
                   (fervolatro_written){.length = LINES_LEN});
    expect_line("the last of all lines", lines[LINES - 1], LINE[LINES - 1]);
    expect_left("lines into just enough", bytes, sizeof lines, bytes,
                LINES_LEN);
}

static void good_calls_on_rows(const uint8_t *rows)
{
    expect_cost("payment", fervolatro_payment(rows, ROWS_LEN, RAISE),
                RAISE_PAYMENT);
    expect_cost("another payment", fervolatro_payment(rows, ROWS_LEN, LOWER),
                LOWER_PAYMENT);
    expect_cost("payment, rows of a constraint alone",
                fervolatro_payment(rows, ROWS_LEN, 1), NO_COST);

    expect_cost("base cost",
                fervolatro_base_cost(rows, ROWS_LEN, REGULATION, RAISE),
                RAISE_COST);
    expect_cost("base cost of another service",
                fervolatro_base_cost(rows, ROWS_LEN, REGULATION, LOWER),
                LOWER_COST);
    expect_cost("base cost of another constraint",
                fervolatro_base_cost(rows, ROWS_LEN, CONTINGENCY, 1),
                CONTINGENCY_COST);
    expect_cost("base cost of one in the other's service",
                fervolatro_base_cost(rows, ROWS_LEN, CONTINGENCY, RAISE),
                NO_COST);
    expect_cost("base cost of id 0",
                fervolatro_base_cost(rows, ROWS_LEN, 0, RAISE), NO_COST);
}

/* The answer for ACCOUNT and this payment type, and the buffer, of which so many bytes
 * are lent. */
static void expect_file(const char *name, const uint8_t *book, uint64_t type,
                        size_t room, fervolatro_written expected)
{
    uint8_t buffer[ROOM];
    const uint8_t *front =
        type < TYPES ? (const uint8_t *)FILES[type] : buffer;

    memset(buffer, UNTOUCHED, ROOM);
    expect_written(name,
                   fervolatro_nmas(book, BOOK_LEN, locked, LOCKED_LEN, ACCOUNT,
                                   type, buffer, room),
                   expected);
    expect_left(name, buffer, ROOM, front, (size_t)expected.length);
}

/* Each type into just its length; then into more, of which what follows is untouched;
 * then into a byte less. */
static void good_calls_for_a_file(const uint8_t *book)
{
    static const fervolatro_written no_room = {.refusal = 13};
    uint64_t type;

    for (type = 0; type < TYPES; type++) {
        const size_t len = strlen(FILES[type]);
        const fervolatro_written whole = {.length = len};

        expect_file("file", book, type, len, whole);
        expect_file("file into more", book, type, ROOM, whole);
        expect_file("file into less", book, type, len - 1, no_room);
        expect_file("file into one byte", book, type, 1, no_room);
    }
}

static void good_calls_on_a_text(const uint8_t *text)
{
    uint64_t index;

    expect_nmas_size("rows", fervolatro_nmas_rows(text, TEXT_LEN), BOTH_ROWS);
    for (index = 0; index < TEXT_ROWS; index++) {
        expect_nmas_entry("row", fervolatro_nmas_row(text, TEXT_LEN, index),
                          TEXT_ROW[index]);
    }
    expect_nmas_size("rows of the first line",
                     fervolatro_nmas_rows(text, FIRST_LINE_LEN),
                     (fervolatro_nmas_size){.rows = 1});
    expect_nmas_entry("row of the second line",
                      fervolatro_nmas_row(text + FIRST_LINE_LEN,
                                          TEXT_LEN - FIRST_LINE_LEN, 0),
                      TEXT_ROW[1]);
}

/* ---- Refusals: number and place differ, and every other field is 0. */

/* A book of the most records; the last contract's kind is 3, and no earlier
 * record breaks a rule of its own. It is refused by 5, at a place of 39,760:
 * above 2^15, and different in each of its two bytes. */
_Static_assert(LAST_CONTRACT_AT == 39760, "84 + 2,560 + 12,000 + 24,576 + 540");

static void make_refused(uint8_t book[LARGEST_LEN])
{
    uint8_t *at = book + ENTRIES_END;
    uint64_t i;

    memset(book, 0, LARGEST_LEN);
    put_front(book, "RCB");
    put_counts(book, MOST_CONSTRAINTS, MOST_UNITS, MOST_ENERGIES,
               MOST_CONTRACTS);
    for (i = 1; i <= MOST_CONSTRAINTS; i++, at += CONSTRAINT_LEN) {
        put_constraint(at, i, 1, 1, 0, 0);
    }
    for (i = 1; i <= MOST_UNITS; i++, at += UNIT_LEN) {
        put_unit(at, 1, i, 1, 0, 0);
    }
    for (i = 1; i <= MOST_ENERGIES; i++, at += ENERGY_LEN) {
        put_energy(at, i, 0, -1, 0);
    }
    for (i = 1; i <= MOST_CONTRACTS; i++, at += CONTRACT_LEN) {
        put_contract(at, i, i < MOST_CONTRACTS ? 1 : 3, 0, 0);
    }
}

static void refused_calls_on_a_book(void)
{
    static const fervolatro_written refused = {.refusal = 5,
                                               .place = LAST_CONTRACT_AT};
    static uint8_t book[LARGEST_LEN];
    uint8_t buffer[ROOM];

    make_refused(book);
    expect_verdict(
        "check refused", fervolatro_check(book, LARGEST_LEN, NULL, 0),
        (fervolatro_verdict){.refusal = 5, .place = LAST_CONTRACT_AT});
    expect_written("length refused",
                   fervolatro_length(book, LARGEST_LEN, NULL, 0, 1), refused);

    memset(buffer, UNTOUCHED, ROOM);
    expect_written("statement refused",
                   fervolatro_statement(book, LARGEST_LEN, NULL, 0, 1, buffer,
                                        ROOM),
                   refused);
    expect_written("file refused",
                   fervolatro_nmas(book, LARGEST_LEN, NULL, 0, 1, AVAILABILITY,
                                   buffer, ROOM),
                   refused);
    expect_written("file of no type, which is looked for first",
                   fervolatro_nmas(book, LARGEST_LEN, NULL, 0, 1, TYPES, buffer,
                                   ROOM),
                   (fervolatro_written){.refusal = 15});
    expect_left("statement refused", buffer, ROOM, buffer, 0);

    expect_pool("balance refused",
                fervolatro_balance(book, LARGEST_LEN, NULL, 0, 0),
                (fervolatro_pool){.refusal = 5, .place = LAST_CONTRACT_AT});
    expect_cut("cut-off refused",
               fervolatro_cutoff(book, LARGEST_LEN, NULL, 0, 0, UINT64_MAX),
               (fervolatro_cut){.refusal = 5, .place = LAST_CONTRACT_AT});
}

/* The last contract of the largest book alone is of kind 2. */
static void refused_for_the_locked_book(void)
{
    static uint8_t book[LARGEST_LEN];

    make_largest(book, 0, 1);
    put(book, LAST_CONTRACT_AT + 4, 1, 2);
    expect_lengths("no locked book, largest", book, LARGEST_LEN, 0,
                   (fervolatro_verdict){.refusal = 17,
                                        .place = LAST_CONTRACT_AT});
    expect_lengths("a byte less of a locked book, largest", book, LARGEST_LEN,
                   LOCKED_LEN - 1,
                   (fervolatro_verdict){.refusal = 18,
                                        .place = LAST_CONTRACT_AT});
}

/* A byte less than the statement: 14. One of the buffer's: 13. */
static void refused_calls_on_a_statement(const uint8_t *statement)
{
    uint8_t buffer[ROOM];

    expect_heading("header refused",
                   fervolatro_header(statement, STATEMENT_LEN - 1),
                   (fervolatro_heading){.refusal = 14});
    expect_entry("line refused",
                 fervolatro_line(statement, STATEMENT_LEN - 1, 0),
                 (fervolatro_entry){.refusal = 14});

    memset(buffer, UNTOUCHED, ROOM);
    expect_written(
        "rewrite refused",
        fervolatro_rewrite(statement, STATEMENT_LEN - 1, buffer, ROOM),
        (fervolatro_written){.refusal = 14});
    expect_written("rewrite into less",
                   fervolatro_rewrite(statement, STATEMENT_LEN, buffer,
                                      STATEMENT_LEN - 1),
                   (fervolatro_written){.refusal = 13});
    expect_left("rewrite refused", buffer, ROOM, buffer, 0);
}

/* The same of all lines at once. Where both are too short, it is 14. */
static void refused_calls_for_all_lines(const uint8_t *statement)
{
    uint8_t buffer[LINES_LEN];

    memset(buffer, UNTOUCHED, LINES_LEN);
    expect_written(
        "lines refused",
        fervolatro_lines(statement, STATEMENT_LEN - 1, buffer, LINES_LEN),
        (fervolatro_written){.refusal = 14});
    expect_written(
        "lines into less",
        fervolatro_lines(statement, STATEMENT_LEN, buffer, LINES_LEN - 1),
        (fervolatro_written){.refusal = 13});
    expect_written(
        "lines refused, into less",
        fervolatro_lines(statement, STATEMENT_LEN - 1, buffer, LINES_LEN - 1),
        (fervolatro_written){.refusal = 14});
    expect_left("lines refused", buffer, LINES_LEN, buffer, 0);
}

/* Rows of which the last is the one before it again, and so does not rise; two
 * such amounts are within the limit. It is refused by 16, at a place of 74,560 =
 * 0x12340: above 2^16, and different in each of its three bytes. Without it the
 * rows are accepted. */
enum {
    GOOD_ROWS = 4660,
    REFUSED_ROW_AT = GOOD_ROWS * ROW_LEN,
    REFUSED_ROWS_LEN = REFUSED_ROW_AT + ROW_LEN
};

_Static_assert(REFUSED_ROW_AT == 0x12340, "16 x 4,660");

static void make_refused_rows(uint8_t rows[REFUSED_ROWS_LEN])
{
    uint8_t *last = rows + REFUSED_ROW_AT;
    uint64_t i;

    for (i = 0; i < GOOD_ROWS; i++) {
        put_row(rows + i * ROW_LEN, i, RAISE, 0, 1876543, 150001);
    }
    memcpy(last, last - ROW_LEN, ROW_LEN);
}

static void refused_calls_on_rows(void)
{
    static const fervolatro_cost refused = {.refusal = 16,
                                            .place = REFUSED_ROW_AT};
    static const fervolatro_cost accepted = {.amount = UINT64_C(23456943879)};
    static uint8_t rows[REFUSED_ROWS_LEN];

    make_refused_rows(rows);
    expect_cost("payment of many rows",
                fervolatro_payment(rows, REFUSED_ROW_AT, RAISE), accepted);
    expect_cost("payment refused",
                fervolatro_payment(rows, REFUSED_ROWS_LEN, RAISE), refused);
    expect_cost("payment of a row cut short",
                fervolatro_payment(rows, REFUSED_ROW_AT + 1, RAISE), refused);

    expect_cost("base cost of many rows",
                fervolatro_base_cost(rows, REFUSED_ROW_AT, 1, RAISE), accepted);
    expect_cost("base cost refused",
                fervolatro_base_cost(rows, REFUSED_ROWS_LEN, 1, RAISE),
                refused);
    expect_cost("base cost of a row cut short",
                fervolatro_base_cost(rows, REFUSED_ROWS_LEN - 1, 1, RAISE),
                refused);
}

/* Lines of which the last is cut short. It is refused by 19, at a place of 74,565 =
 * 0x12345: above 2^16, and different in each of its three bytes. Without it the lines
 * are read, and so many rows they have. */
#define SHORT_LINE                                                      \
    "20250101,1,1,1,RESTART,1,ENABLEMENT,SA1,0.000001,0.0000,0.0000,"   \
    "0.000,0.000,0.000,0.000,0.0000,0.0000\n"

enum {
    GOOD_LINES = 0x12345,
    SHORT_LINE_LEN = sizeof SHORT_LINE - 1,
    REFUSED_LINE_AT = GOOD_LINES * SHORT_LINE_LEN,
    REFUSED_TEXT_LEN = REFUSED_LINE_AT + SHORT_LINE_LEN - 1
};

static const fervolatro_nmas_entry SHORT_ROW = {.date = 20250101,
                                                .run = 1,
                                                .interval = 1,
                                                .account = 1,
                                                .contract = 1,
                                                .type = 1,
                                                .region = SA1,
                                                .factor = 1};

static void make_refused_text(uint8_t text[REFUSED_TEXT_LEN])
{
    size_t i;

    for (i = 0; i < GOOD_LINES; i++) {
        memcpy(text + i * SHORT_LINE_LEN, SHORT_LINE, SHORT_LINE_LEN);
    }
    memcpy(text + REFUSED_LINE_AT, SHORT_LINE, SHORT_LINE_LEN - 1);
}

static void refused_calls_on_a_text(void)
{
    static const fervolatro_nmas_entry refused = {.refusal = 19,
                                                  .place = GOOD_LINES};
    static uint8_t text[REFUSED_TEXT_LEN];

    make_refused_text(text);
    expect_nmas_size("rows of many lines",
                     fervolatro_nmas_rows(text, REFUSED_LINE_AT),
                     (fervolatro_nmas_size){.rows = GOOD_LINES});
    expect_nmas_size("rows refused",
                     fervolatro_nmas_rows(text, REFUSED_TEXT_LEN),
                     (fervolatro_nmas_size){.refusal = 19, .place = GOOD_LINES});

    expect_nmas_entry("the last of many rows",
                      fervolatro_nmas_row(text, REFUSED_LINE_AT, GOOD_LINES - 1),
                      SHORT_ROW);
    expect_nmas_entry("a row past many",
                      fervolatro_nmas_row(text, REFUSED_LINE_AT, GOOD_LINES),
                      (fervolatro_nmas_entry){.refusal = 15});
    expect_nmas_entry("row 0 of a text whose last line is refused",
                      fervolatro_nmas_row(text, REFUSED_TEXT_LEN, 0), refused);
    expect_nmas_entry("a row past one that is refused",
                      fervolatro_nmas_row(text, REFUSED_TEXT_LEN, UINT64_MAX),
                      refused);
}

/* ---- The longest statement. */

/*
 * The largest book with every unit ACCOUNT's: its statement has 3 x 600 lines of units,
 * 3 x 64 of residuals and 2 x 5 x 16 of contracts. It has 51,672 = 0xC9D8 bytes: above
 * 2^15, and different in each of its two bytes. The last contract is of kind 2, and the
 * same bytes are lent as the locked book.
 */
enum { LONGEST_LEN = HEADER_LEN + 2152 * LINE_LEN };

_Static_assert(LONGEST_LEN == 51672, "24 + 24 x (1,800 + 192 + 160)");

/* Account 205 has no unit, and so 192 lines of residuals and 160 of contracts. */
static void longest_statement(void)
{
    static const fervolatro_written longest = {.length = LONGEST_LEN};
    static const fervolatro_written without_units = {.length = HEADER_LEN
                                                               + 352 * LINE_LEN};
    static const fervolatro_heading heading = {.account = ACCOUNT,
                                               .date = DATE,
                                               .interval = INTERVAL,
                                               .run = RUN,
                                               .lines = 2152};
    static uint8_t book[LARGEST_LEN], buffer[LONGEST_LEN];

    make_largest(book, 0, 1);
    put(book, LAST_CONTRACT_AT + 4, 1, 2);
    expect_written("longest length",
                   fervolatro_length(book, LARGEST_LEN, book, LARGEST_LEN,
                                     ACCOUNT),
                   longest);
    expect_written("length without units",
                   fervolatro_length(book, LARGEST_LEN, book, LARGEST_LEN, 205),
                   without_units);
    expect_written("longest statement, a byte less",
                   fervolatro_statement(book, LARGEST_LEN, book, LARGEST_LEN,
                                        ACCOUNT, buffer, LONGEST_LEN - 1),
                   (fervolatro_written){.refusal = 13});
    expect_written("longest statement",
                   fervolatro_statement(book, LARGEST_LEN, book, LARGEST_LEN,
                                        ACCOUNT, buffer, LONGEST_LEN),
                   longest);
    expect_heading("longest header", fervolatro_header(buffer, LONGEST_LEN),
                   heading);
}

/* ---- Numbers of 2^32 and above, given. */

/* Each is a pool's or a line's number, and one bit more. */
static void numbers_past_the_end(const uint8_t *book, const uint8_t *statement)
{
    static const fervolatro_pool no_pool = {.refusal = 15};
    static const fervolatro_entry no_line = {.refusal = 15};
    uint64_t number;
    int bit;

    for (bit = 3; bit < 64; bit++) {
        number = (UINT64_C(1) << bit) + POOLS - 1;
        expect_pool("pool of a bit more",
                    fervolatro_balance(book, BOOK_LEN, locked, LOCKED_LEN,
                                       number),
                    no_pool);
    }
    for (bit = 4; bit < 64; bit++) {
        number = (UINT64_C(1) << bit) + LINES - 1;
        expect_entry("line of a bit more",
                     fervolatro_line(statement, STATEMENT_LEN, number), no_line);
    }
}

/* Each is a pool's number, or a stage's, and one bit more: of pool 0, which has one
 * stage, of another, and of the last of either. */
static void stages_past_the_end(const uint8_t *book)
{
    static const uint64_t numbers[][2] = {{0, 0}, {1, 3}, {POOLS - 1, 3}};
    size_t i;
    int bit;

    for (i = 0; i < sizeof numbers / sizeof numbers[0]; i++) {
        const uint64_t pool = numbers[i][0], index = numbers[i][1];

        for (bit = 3; bit < 64; bit++) {
            const uint64_t more = UINT64_C(1) << bit;

            expect_cut("stage of a pool of a bit more",
                       fervolatro_cutoff(book, BOOK_LEN, locked, LOCKED_LEN,
                                         pool + more, index),
                       NO_STAGE);
            expect_cut("stage of a bit more",
                       fervolatro_cutoff(book, BOOK_LEN, locked, LOCKED_LEN,
                                         pool, index + more),
                       NO_STAGE);
        }
    }
}

/* Each is a row's number, and one bit more: 2^32 is not row 0. */
static void rows_past_the_end(const uint8_t *text)
{
    static const fervolatro_nmas_entry no_row = {.refusal = 15};
    uint64_t row;
    int bit;

    for (bit = 1; bit < 64; bit++) {
        for (row = 0; row < TEXT_ROWS; row++) {
            expect_nmas_entry("row of a bit more",
                              fervolatro_nmas_row(text, TEXT_LEN,
                                                  (UINT64_C(1) << bit) + row),
                              no_row);
        }
    }
}

/* Each is a payment type's number, and one bit more, or the first that is none. */
static void types_that_are_not_there(const uint8_t *book)
{
    static const fervolatro_written no_type = {.refusal = 15};
    uint64_t type;
    int bit;

    expect_file("file of type 3", book, TYPES, ROOM, no_type);
    expect_file("file of type 2^64 - 1", book, UINT64_MAX, ROOM, no_type);
    for (bit = 2; bit < 64; bit++) {
        for (type = 0; type < TYPES; type++) {
            expect_file("file of a type of a bit more", book,
                        (UINT64_C(1) << bit) + type, ROOM, no_type);
        }
    }
}

/* Each differs from an account that is there in one bit. */
static void accounts_that_are_not_there(const uint8_t *book)
{
    static const fervolatro_written no_account = {.refusal = 11};
    uint8_t buffer[ROOM];
    uint32_t account;
    int bit;

    memset(buffer, UNTOUCHED, ROOM);
    for (bit = 0; bit < 32; bit++) {
        account = ACCOUNT ^ (UINT32_C(1) << bit);
        expect_written("length for an account of another bit",
                       fervolatro_length(book, BOOK_LEN, locked, LOCKED_LEN,
                                         account),
                       no_account);
        expect_written("account of another bit",
                       fervolatro_statement(book, BOOK_LEN, locked, LOCKED_LEN,
                                            account, buffer, ROOM),
                       no_account);
        expect_written("file of an account of another bit",
                       fervolatro_nmas(book, BOOK_LEN, locked, LOCKED_LEN,
                                       account, AVAILABILITY, buffer, ROOM),
                       no_account);
    }
    expect_left("account of another bit", buffer, ROOM, buffer, 0);
}

/* Each differs from a service that is there in one bit, and is none that is. */
static void services_that_are_not_there(const uint8_t *rows)
{
    uint64_t service;
    int bit;

    for (bit = 0; bit < 64; bit++) {
        service = RAISE ^ (UINT64_C(1) << bit);
        expect_cost("payment of another bit",
                    fervolatro_payment(rows, ROWS_LEN, service), NO_COST);
        expect_cost("base cost of another bit of the service",
                    fervolatro_base_cost(rows, ROWS_LEN, REGULATION, service),
                    NO_COST);
    }
}

/* Each differs from a constraint that is there in one bit. */
static void constraints_that_are_not_there(const uint8_t *rows)
{
    uint32_t id;
    int bit;

    for (bit = 0; bit < 32; bit++) {
        id = REGULATION ^ (UINT32_C(1) << bit);
        expect_cost("base cost of another bit of the id",
                    fervolatro_base_cost(rows, ROWS_LEN, id, RAISE), NO_COST);
    }
}

/* ---- Lengths of 2^32 and above, lent. */

/* A page more than 4 GiB, of which only what is touched takes memory. */
static const size_t MAPPED = (UINT64_C(1) << 32) + 4096;

static uint8_t *map(void)
{
    void *mapped = mmap(NULL, MAPPED, PROT_READ | PROT_WRITE,
                        MAP_PRIVATE | MAP_ANONYMOUS | MAP_NORESERVE, -1, 0);

    return mapped == MAP_FAILED ? NULL : mapped;
}

/* The bytes begin with a book, which its counts make shorter: 4 at 0. */
static void long_book(uint8_t *mapped, const uint8_t *book)
{
    const size_t len = TWO_TO_32 + BOOK_LEN;
    uint8_t buffer[ROOM];

    memcpy(mapped, book, BOOK_LEN);
    expect_verdict("check of a long book",
                   fervolatro_check(mapped, len, locked, LOCKED_LEN),
                   (fervolatro_verdict){.refusal = 4});
    expect_pool("balance of a long book",
                fervolatro_balance(mapped, len, locked, LOCKED_LEN, 0),
                (fervolatro_pool){.refusal = 4});
    expect_cut("cut-off of a long book",
               fervolatro_cutoff(mapped, len, locked, LOCKED_LEN, 0, 0),
               (fervolatro_cut){.refusal = 4});
    expect_written("length of a long book",
                   fervolatro_length(mapped, len, locked, LOCKED_LEN, ACCOUNT),
                   (fervolatro_written){.refusal = 4});
    memset(buffer, UNTOUCHED, ROOM);
    expect_written("statement of a long book",
                   fervolatro_statement(mapped, len, locked, LOCKED_LEN, ACCOUNT,
                                        buffer, ROOM),
                   (fervolatro_written){.refusal = 4});
    expect_written("file of a long book",
                   fervolatro_nmas(mapped, len, locked, LOCKED_LEN, ACCOUNT,
                                   AVAILABILITY, buffer, ROOM),
                   (fervolatro_written){.refusal = 4});
    expect_left("statement of a long book", buffer, ROOM, buffer, 0);
}

/* The bytes begin with the locked book, which its counts make shorter: 18. */
static void long_locked(uint8_t *mapped, const uint8_t *book)
{
    static const fervolatro_written refused = {.refusal = 18,
                                               .place = CONTRACTS_AT};
    const size_t len = TWO_TO_32 + LOCKED_LEN;
    uint8_t buffer[ROOM];

    memcpy(mapped, locked, LOCKED_LEN);
    expect_verdict("check with a long locked book",
                   fervolatro_check(book, BOOK_LEN, mapped, len),
                   (fervolatro_verdict){.refusal = 18, .place = CONTRACTS_AT});
    expect_pool("balance with a long locked book",
                fervolatro_balance(book, BOOK_LEN, mapped, len, 0),
                (fervolatro_pool){.refusal = 18, .place = CONTRACTS_AT});
    expect_cut("cut-off with a long locked book",
               fervolatro_cutoff(book, BOOK_LEN, mapped, len, 0, 0),
               (fervolatro_cut){.refusal = 18, .place = CONTRACTS_AT});
    expect_written("length with a long locked book",
                   fervolatro_length(book, BOOK_LEN, mapped, len, ACCOUNT),
                   refused);
    memset(buffer, UNTOUCHED, ROOM);
    expect_written("statement with a long locked book",
                   fervolatro_statement(book, BOOK_LEN, mapped, len, ACCOUNT,
                                        buffer, ROOM),
                   refused);
    expect_written("file with a long locked book",
                   fervolatro_nmas(book, BOOK_LEN, mapped, len, ACCOUNT,
                                   AVAILABILITY, buffer, ROOM),
                   refused);
    expect_left("statement with a long locked book", buffer, ROOM, buffer, 0);
}

/* The bytes begin with a statement, and are longer: 14. */
static void long_statement(uint8_t *mapped, const uint8_t *statement)
{
    const size_t len = TWO_TO_32 + STATEMENT_LEN;
    uint8_t buffer[ROOM];

    memcpy(mapped, statement, STATEMENT_LEN);
    expect_heading("header of a long statement", fervolatro_header(mapped, len),
                   (fervolatro_heading){.refusal = 14});
    expect_entry("line of a long statement", fervolatro_line(mapped, len, 0),
                 (fervolatro_entry){.refusal = 14});
    memset(buffer, UNTOUCHED, ROOM);
    expect_written("rewrite of a long statement",
                   fervolatro_rewrite(mapped, len, buffer, ROOM),
                   (fervolatro_written){.refusal = 14});
    expect_written("lines of a long statement",
                   fervolatro_lines(mapped, len, buffer, ROOM),
                   (fervolatro_written){.refusal = 14});
    expect_left("rewrite of a long statement", buffer, ROOM, buffer, 0);
}

/* The bytes begin with rows, and go on with zeros: a row of service 0, which is out
 * of its range. */
static void long_rows(uint8_t *mapped, const uint8_t *rows)
{
    static const fervolatro_cost refused = {.refusal = 16, .place = ROWS_LEN};
    const size_t len = TWO_TO_32 + ROWS_LEN;

    memcpy(mapped, rows, ROWS_LEN);
    memset(mapped + ROWS_LEN, 0, ROW_LEN);
    expect_cost("payment of long rows", fervolatro_payment(mapped, len, RAISE),
                refused);
    expect_cost("base cost of long rows",
                fervolatro_base_cost(mapped, len, REGULATION, RAISE), refused);
}

/* The bytes begin with a text, and go on with an empty line. */
static void long_text(uint8_t *mapped, const uint8_t *text)
{
    const size_t len = TWO_TO_32 + TEXT_LEN;

    memcpy(mapped, text, TEXT_LEN);
    mapped[TEXT_LEN] = '\n';
    expect_nmas_size("rows of a long text", fervolatro_nmas_rows(mapped, len),
                     (fervolatro_nmas_size){.refusal = 19, .place = TEXT_ROWS});
    expect_nmas_entry("row of a long text",
                      fervolatro_nmas_row(mapped, len, 0),
                      (fervolatro_nmas_entry){.refusal = 19,
                                              .place = TEXT_ROWS});
}

/* A buffer of 2^32 + 10 bytes has room for a statement; one of 10 has not. */
static void long_buffer(uint8_t *mapped, const uint8_t *book,
                        const uint8_t *statement)
{
    const size_t len = TWO_TO_32 + 10;

    memset(mapped, UNTOUCHED, ROOM);
    expect_written("statement into a long buffer",
                   fervolatro_statement(book, BOOK_LEN, locked, LOCKED_LEN,
                                        ACCOUNT, mapped, len),
                   WHOLE);
    expect_left("statement into a long buffer", mapped, ROOM, statement,
                STATEMENT_LEN);
    memset(mapped, UNTOUCHED, ROOM);
    expect_written("rewrite into a long buffer",
                   fervolatro_rewrite(statement, STATEMENT_LEN, mapped, len),
                   WHOLE);
    expect_left("rewrite into a long buffer", mapped, ROOM, statement,
                STATEMENT_LEN);
    memset(mapped, UNTOUCHED, ROOM);
    expect_written("file into a long buffer",
                   fervolatro_nmas(book, BOOK_LEN, locked, LOCKED_LEN, ACCOUNT,
                                   COMPENSATION, mapped, len),
                   WHOLE_FILE);
    expect_left("file into a long buffer", mapped, ROOM,
                (const uint8_t *)FILES[COMPENSATION], FILE_LEN);
    memset(mapped, UNTOUCHED, LINES_LEN + 1);
    expect_written("lines into a long buffer",
                   fervolatro_lines(statement, STATEMENT_LEN, mapped, len),
                   (fervolatro_written){.length = LINES_LEN});
    expect_left("lines into a long buffer", mapped, LINES_LEN + 1, mapped,
                LINES_LEN);
}

static void lengths(const char *machine, const uint8_t *book,
                    const uint8_t *statement, const uint8_t *rows,
                    const uint8_t *text)
{
    uint8_t *mapped = map();

    if (mapped == NULL) {
        perror("edge: a mapping of 4 GiB");
        fprintf(stderr, "edge: lengths of 2^32 and above were NOT TRIED\n");
        failures += strcmp(machine, "x86_64") == 0;
        return;
    }
    long_book(mapped, book);
    long_locked(mapped, book);
    long_statement(mapped, statement);
    long_buffer(mapped, book, statement);
    long_rows(mapped, rows);
    long_text(mapped, text);
    munmap(mapped, MAPPED);
}

/* ---- Slices of length 0, which may come with any pointer. */

/* None of these is followed: NULL, two where nothing is mapped, and the end of an
 * array. They have the answer that a pointer to readable bytes has. */
enum { POINTERS = 4 };

static void nowhere(uint8_t *pointers[POINTERS])
{
    static uint8_t array[1];

    pointers[0] = NULL;
    pointers[1] = (uint8_t *)1;
    pointers[2] = (uint8_t *)UINTPTR_MAX;
    pointers[3] = array + sizeof array;
}

/* No book: 1, whatever else is lent. */
static void no_book_at(const uint8_t *pointer)
{
    static const fervolatro_written refused = {.refusal = 1};
    uint8_t buffer[ROOM];

    expect_verdict("check of nothing",
                   fervolatro_check(pointer, 0, locked, LOCKED_LEN),
                   (fervolatro_verdict){.refusal = 1});
    expect_pool("balance of nothing",
                fervolatro_balance(pointer, 0, locked, LOCKED_LEN, 0),
                (fervolatro_pool){.refusal = 1});
    expect_cut("cut-off of nothing",
               fervolatro_cutoff(pointer, 0, locked, LOCKED_LEN, 0, 0),
               (fervolatro_cut){.refusal = 1});
    expect_written("length of nothing",
                   fervolatro_length(pointer, 0, locked, LOCKED_LEN, ACCOUNT),
                   refused);
    memset(buffer, UNTOUCHED, ROOM);
    expect_written("statement of nothing",
                   fervolatro_statement(pointer, 0, locked, LOCKED_LEN, ACCOUNT,
                                        buffer, ROOM),
                   refused);
    expect_written("file of nothing",
                   fervolatro_nmas(pointer, 0, locked, LOCKED_LEN, ACCOUNT,
                                   AVAILABILITY, buffer, ROOM),
                   refused);
    expect_left("statement of nothing", buffer, ROOM, buffer, 0);
}

/* No locked book: 17 where the book has a contract of kind 2, and nothing where it has
 * none, as the locked one by itself. */
static void no_locked_at(const uint8_t *pointer, const uint8_t *book)
{
    static const fervolatro_written refused = {.refusal = 17,
                                               .place = CONTRACTS_AT};
    uint8_t buffer[ROOM];

    expect_verdict("check without a locked book",
                   fervolatro_check(book, BOOK_LEN, pointer, 0),
                   (fervolatro_verdict){.refusal = 17, .place = CONTRACTS_AT});
    expect_pool("balance without a locked book",
                fervolatro_balance(book, BOOK_LEN, pointer, 0, 0),
                (fervolatro_pool){.refusal = 17, .place = CONTRACTS_AT});
    expect_cut("cut-off without a locked book",
               fervolatro_cutoff(book, BOOK_LEN, pointer, 0, 0, 0),
               (fervolatro_cut){.refusal = 17, .place = CONTRACTS_AT});
    expect_written("length without a locked book",
                   fervolatro_length(book, BOOK_LEN, pointer, 0, ACCOUNT),
                   refused);
    memset(buffer, UNTOUCHED, ROOM);
    expect_written("statement without a locked book",
                   fervolatro_statement(book, BOOK_LEN, pointer, 0, ACCOUNT,
                                        buffer, ROOM),
                   refused);
    expect_written("file without a locked book",
                   fervolatro_nmas(book, BOOK_LEN, pointer, 0, ACCOUNT,
                                   AVAILABILITY, buffer, ROOM),
                   refused);
    expect_left("statement without a locked book", buffer, ROOM, buffer, 0);
    expect_written("length of a book that wants no other",
                   fervolatro_length(locked, LOCKED_LEN, pointer, 0, ACCOUNT),
                   (fervolatro_written){.length = HEADER_LEN});
}

/* No statement: 14, whatever else is lent. */
static void no_statement_at(const uint8_t *pointer)
{
    static const fervolatro_written refused = {.refusal = 14};
    uint8_t buffer[ROOM];

    expect_heading("header of nothing", fervolatro_header(pointer, 0),
                   (fervolatro_heading){.refusal = 14});
    expect_entry("line of nothing", fervolatro_line(pointer, 0, 0),
                 (fervolatro_entry){.refusal = 14});
    memset(buffer, UNTOUCHED, ROOM);
    expect_written("rewrite of nothing",
                   fervolatro_rewrite(pointer, 0, buffer, ROOM), refused);
    expect_left("rewrite of nothing", buffer, ROOM, buffer, 0);
    expect_written("lines of nothing",
                   fervolatro_lines(pointer, 0, buffer, ROOM), refused);
    expect_left("lines of nothing", buffer, ROOM, buffer, 0);
}

/* No rows: 0, and not refused. */
static void no_rows_at(const uint8_t *pointer)
{
    expect_cost("payment of nothing", fervolatro_payment(pointer, 0, RAISE),
                NO_COST);
    expect_cost("base cost of nothing",
                fervolatro_base_cost(pointer, 0, REGULATION, RAISE), NO_COST);
}

/* No text: no rows, and not refused. */
static void no_text_at(const uint8_t *pointer)
{
    expect_nmas_size("rows of nothing", fervolatro_nmas_rows(pointer, 0),
                     (fervolatro_nmas_size){0});
    expect_nmas_entry("row of nothing", fervolatro_nmas_row(pointer, 0, 0),
                      (fervolatro_nmas_entry){.refusal = 15});
}

/* No buffer: 13, where nothing else is wrong. A file without rows needs none. */
static void no_buffer_at(uint8_t *pointer, const uint8_t *book,
                         const uint8_t *statement)
{
    static const fervolatro_written no_room = {.refusal = 13};

    expect_written("statement into nothing",
                   fervolatro_statement(book, BOOK_LEN, locked, LOCKED_LEN,
                                        ACCOUNT, pointer, 0),
                   no_room);
    expect_written("statement of no account into nothing",
                   fervolatro_statement(book, BOOK_LEN, locked, LOCKED_LEN, 0,
                                        pointer, 0),
                   (fervolatro_written){.refusal = 11});
    expect_written("file into nothing",
                   fervolatro_nmas(book, BOOK_LEN, locked, LOCKED_LEN, ACCOUNT,
                                   AVAILABILITY, pointer, 0),
                   no_room);
    expect_written("empty file into nothing",
                   fervolatro_nmas(locked, LOCKED_LEN, NULL, 0, ACCOUNT,
                                   AVAILABILITY, pointer, 0),
                   (fervolatro_written){0});
    expect_written("rewrite into nothing",
                   fervolatro_rewrite(statement, STATEMENT_LEN, pointer, 0),
                   no_room);
    expect_written("lines into nothing",
                   fervolatro_lines(statement, STATEMENT_LEN, pointer, 0),
                   no_room);
}

/* No slice has a byte. */
static void nothing_into_nothing(const uint8_t *from, uint8_t *into)
{
    expect_verdict("check of nothing beside nothing",
                   fervolatro_check(from, 0, into, 0),
                   (fervolatro_verdict){.refusal = 1});
    expect_cut("cut-off of nothing beside nothing",
               fervolatro_cutoff(from, 0, into, 0, 0, 0),
               (fervolatro_cut){.refusal = 1});
    expect_written("statement of nothing into nothing",
                   fervolatro_statement(from, 0, into, 0, ACCOUNT, into, 0),
                   (fervolatro_written){.refusal = 1});
    expect_written("file of nothing into nothing",
                   fervolatro_nmas(from, 0, into, 0, ACCOUNT, AVAILABILITY, into,
                                   0),
                   (fervolatro_written){.refusal = 1});
    expect_written("file of no type, of nothing into nothing",
                   fervolatro_nmas(from, 0, into, 0, ACCOUNT, TYPES, into, 0),
                   (fervolatro_written){.refusal = 15});
    expect_written("rewrite of nothing into nothing",
                   fervolatro_rewrite(from, 0, into, 0),
                   (fervolatro_written){.refusal = 14});
    expect_written("lines of nothing into nothing",
                   fervolatro_lines(from, 0, into, 0),
                   (fervolatro_written){.refusal = 14});
}

static void slices_of_no_bytes(uint8_t *book, uint8_t *statement,
                               const uint8_t *rows, const uint8_t *text)
{
    uint8_t *pointers[POINTERS];
    size_t i, other;

    no_book_at(book);
    no_locked_at(locked, book);
    no_statement_at(statement);
    no_rows_at(rows);
    no_text_at(text);
    no_buffer_at((uint8_t[1]){0}, book, statement);
    nothing_into_nothing(book, statement);
    nowhere(pointers);
    for (i = 0; i < POINTERS; i++) {
        no_book_at(pointers[i]);
        no_locked_at(pointers[i], book);
        no_statement_at(pointers[i]);
        no_rows_at(pointers[i]);
        no_text_at(pointers[i]);
        no_buffer_at(pointers[i], book, statement);
        for (other = 0; other < POINTERS; other++) {
            nothing_into_nothing(pointers[i], pointers[other]);
        }
    }
}

/* ---- Bytes that end where a page ends. */

/* So many bytes, fewer than a page has, and behind them a page that can neither be
 * read nor written: a call that goes on there is stopped. They stay until the
 * program ends. */
static uint8_t *before_a_wall(size_t len)
{
    const size_t page = (size_t)sysconf(_SC_PAGESIZE);
    uint8_t *mapped = mmap(NULL, 2 * page, PROT_READ | PROT_WRITE,
                           MAP_PRIVATE | MAP_ANONYMOUS, -1, 0);

    if (mapped == MAP_FAILED || mprotect(mapped + page, page, PROT_NONE) != 0) {
        perror("edge: a page that is closed");
        exit(2);
    }
    return mapped + page - len;
}

/* What refuses the first bytes of the book, so many: they are fewer than 84, or than
 * its counts make it. */
static uint64_t refusal_of_front(size_t len)
{
    if (len == BOOK_LEN) {
        return 0;
    }
    return len < ENTRIES_END ? 1 : 4;
}

static void calls_on_a_front(const uint8_t *front, size_t len, uint8_t *buffer)
{
    const uint64_t refusal = refusal_of_front(len);
    fervolatro_written written = {.refusal = refusal};
    fervolatro_pool pool = {.refusal = refusal};
    fervolatro_cut cut = {.refusal = refusal};

    if (refusal == 0) {
        written = WHOLE;
        pool = POOL[0];
        cut = CUTS[0].of[0];
    }
    expect_verdict("check before a wall",
                   fervolatro_check(front, len, locked, LOCKED_LEN),
                   (fervolatro_verdict){.refusal = refusal});
    expect_written("length before a wall",
                   fervolatro_length(front, len, locked, LOCKED_LEN, ACCOUNT),
                   written);
    expect_written("statement before a wall",
                   fervolatro_statement(front, len, locked, LOCKED_LEN, ACCOUNT,
                                        buffer, STATEMENT_LEN),
                   written);
    expect_pool("balance before a wall",
                fervolatro_balance(front, len, locked, LOCKED_LEN, 0), pool);
    expect_cut("cut-off before a wall",
               fervolatro_cutoff(front, len, locked, LOCKED_LEN, 0, 0), cut);
}

static void books_before_a_wall(const uint8_t *book, const uint8_t *statement)
{
    uint8_t *end = before_a_wall(BOOK_LEN) + BOOK_LEN;
    uint8_t *buffer = before_a_wall(STATEMENT_LEN);
    size_t len;

    memset(buffer, UNTOUCHED, STATEMENT_LEN);
    for (len = 0; len <= BOOK_LEN; len++) {
        memcpy(end - len, book, len);
        calls_on_a_front(end - len, len, buffer);
        expect_left("statement before a wall", buffer, STATEMENT_LEN, statement,
                    len == BOOK_LEN ? STATEMENT_LEN : 0);
    }
}

/* The same of the first bytes of the locked book, where there are any. */
static void calls_beside_a_front(const uint8_t *book, const uint8_t *front,
                                 size_t len)
{
    const int is_whole = len == LOCKED_LEN;
    const fervolatro_verdict verdict = {.refusal = is_whole ? 0 : 18,
                                        .place = is_whole ? 0 : CONTRACTS_AT};
    const fervolatro_written refused = {.refusal = 18, .place = CONTRACTS_AT};
    const fervolatro_pool no_pool = {.refusal = 18, .place = CONTRACTS_AT};
    const fervolatro_cut no_stage = {.refusal = 18, .place = CONTRACTS_AT};
    uint8_t buffer[STATEMENT_LEN];

    expect_verdict("check, locked before a wall",
                   fervolatro_check(book, BOOK_LEN, front, len), verdict);
    expect_written("length, locked before a wall",
                   fervolatro_length(book, BOOK_LEN, front, len, ACCOUNT),
                   is_whole ? WHOLE : refused);
    expect_written("statement, locked before a wall",
                   fervolatro_statement(book, BOOK_LEN, front, len, ACCOUNT,
                                        buffer, STATEMENT_LEN),
                   is_whole ? WHOLE : refused);
    expect_pool("balance, locked before a wall",
                fervolatro_balance(book, BOOK_LEN, front, len, 4),
                is_whole ? POOL[4] : no_pool);
    expect_cut("cut-off, locked before a wall",
               fervolatro_cutoff(book, BOOK_LEN, front, len, 4, 3),
               is_whole ? CUTS[4].of[3] : no_stage);
}

static void locked_before_a_wall(const uint8_t *book)
{
    uint8_t *end = before_a_wall(LOCKED_LEN) + LOCKED_LEN;
    size_t len;

    for (len = 1; len <= LOCKED_LEN; len++) {
        memcpy(end - len, locked, len);
        calls_beside_a_front(book, end - len, len);
    }
}

/* Files of the same first bytes, of the book and of the locked one. */
static void files_of_a_front(const uint8_t *book, uint8_t *buffer)
{
    uint8_t *end = before_a_wall(BOOK_LEN) + BOOK_LEN;
    size_t len;

    for (len = 0; len <= BOOK_LEN; len++) {
        const uint64_t refusal = refusal_of_front(len);

        memcpy(end - len, book, len);
        expect_written("file before a wall",
                       fervolatro_nmas(end - len, len, locked, LOCKED_LEN,
                                       ACCOUNT, COMPENSATION, buffer, FILE_LEN),
                       (fervolatro_written){.refusal = refusal,
                                            .length = refusal == 0 ? FILE_LEN
                                                                   : 0});
    }
}

static void files_beside_a_front(const uint8_t *book, uint8_t *buffer)
{
    static const fervolatro_written refused = {.refusal = 18,
                                               .place = CONTRACTS_AT};
    uint8_t *end = before_a_wall(LOCKED_LEN) + LOCKED_LEN;
    size_t len;

    for (len = 1; len <= LOCKED_LEN; len++) {
        memcpy(end - len, locked, len);
        expect_written("file, locked before a wall",
                       fervolatro_nmas(book, BOOK_LEN, end - len, len, ACCOUNT,
                                       COMPENSATION, buffer, FILE_LEN),
                       len == LOCKED_LEN ? WHOLE_FILE : refused);
    }
}

static void files_before_a_wall(const uint8_t *book)
{
    const uint8_t *file = (const uint8_t *)FILES[COMPENSATION];
    uint8_t *buffer = before_a_wall(FILE_LEN);

    files_of_a_front(book, buffer);
    expect_left("file before a wall", buffer, FILE_LEN, file, FILE_LEN);
    memset(buffer, UNTOUCHED, FILE_LEN);
    files_beside_a_front(book, buffer);
    expect_left("file, locked before a wall", buffer, FILE_LEN, file, FILE_LEN);
}

/* The first bytes of the text: no line, one or two are whole, or the line that is not
 * is refused. */
static void texts_before_a_wall(const uint8_t *text)
{
    uint8_t *end = before_a_wall(TEXT_LEN) + TEXT_LEN;
    size_t len;

    for (len = 0; len <= TEXT_LEN; len++) {
        const uint64_t lines = (len >= FIRST_LINE_LEN) + (len >= TEXT_LEN);
        const int is_whole =
            len == 0 || len == FIRST_LINE_LEN || len == TEXT_LEN;
        const fervolatro_nmas_size rows = {.rows = lines};
        const fervolatro_nmas_size refused = {.refusal = 19, .place = lines};
        const fervolatro_nmas_entry no_row = {.refusal = is_whole ? 15 : 19,
                                              .place = is_whole ? 0 : lines};

        memcpy(end - len, text, len);
        expect_nmas_size("rows before a wall",
                         fervolatro_nmas_rows(end - len, len),
                         is_whole ? rows : refused);
        expect_nmas_entry("row before a wall",
                          fervolatro_nmas_row(end - len, len, lines), no_row);
    }
}

/* The file of the book with a contract of kind 1. Its energies are the book's: of the
 * consumed half, 20,000,000,001, ACCOUNT has 3 / 6, which is 10,000,000,000 and a half;
 * of the sent-out half, 20,000,000,000, a third. */
static void expect_file_beside(const uint8_t *ordinary, const uint8_t *closed,
                               size_t len)
{
    static const char file[] =
        "20960229,98,287,4275878552,RESTART,3405697037,ENABLEMENT,SA1,1.000000,"
        "4000000.0001,-1666666.6668,-0.003,-0.006,0.001,0.003,-1000000.0001,"
        "-666666.6667\n";
    uint8_t buffer[ROOM];

    memset(buffer, UNTOUCHED, ROOM);
    expect_written("file beside closed bytes",
                   fervolatro_nmas(ordinary, BOOK_LEN, closed, len, ACCOUNT, 1,
                                   buffer, ROOM),
                   (fervolatro_written){.length = sizeof file - 1});
    expect_left("file beside closed bytes", buffer, ROOM,
                (const uint8_t *)file, sizeof file - 1);
}

/* By ACE the contract of kind 1 has 20,000,000,001 to share over 6: account 3 has
 * 3,333,333,333 and a half, which is rounded up, 5 has 6,666,666,667, and ACCOUNT has a
 * half too much as well: twice -3. */
static const fervolatro_cut ORDINARY_ACE = {.stage = 8,
                                            .region = SA1,
                                            .divisor = 6,
                                            .cut = -6};

/* Bytes that nobody may read are lent as the locked book, and the contract is of kind
 * 1: none of them is looked at. The accounts are then 3 and 5 and ACCOUNT. */
static void a_locked_book_that_is_closed(const uint8_t *book)
{
    const uint8_t *closed = before_a_wall(0);
    const size_t len = 100;
    uint8_t ordinary[BOOK_LEN], buffer[STATEMENT_LEN];

    memcpy(ordinary, book, BOOK_LEN);
    put(ordinary, CONTRACTS_AT + 4, 1, 1);
    expect_verdict("check beside closed bytes",
                   fervolatro_check(ordinary, BOOK_LEN, closed, len),
                   (fervolatro_verdict){0});
    expect_written("length beside closed bytes",
                   fervolatro_length(ordinary, BOOK_LEN, closed, len, ACCOUNT),
                   WHOLE);
    expect_written("account of the locked book beside closed bytes",
                   fervolatro_length(ordinary, BOOK_LEN, closed, len, 4),
                   (fervolatro_written){.refusal = 11});
    expect_written("statement beside closed bytes",
                   fervolatro_statement(ordinary, BOOK_LEN, closed, len, ACCOUNT,
                                        buffer, STATEMENT_LEN),
                   WHOLE);
    expect_file_beside(ordinary, closed, len);
    expect_pool("balance beside closed bytes",
                fervolatro_balance(ordinary, BOOK_LEN, closed, len, 0),
                (fervolatro_pool){.amount = POOL[0].amount,
                                  .lines = 3,
                                  .sum = POOL[0].sum});
    expect_cut("cut-off beside closed bytes",
               fervolatro_cutoff(ordinary, BOOK_LEN, closed, len, 4, 2),
               ORDINARY_ACE);
}

/* ---- What a caller's compiler leaves open. */

/*
 * An answer of more than two words is written where the caller's first, hidden
 * parameter points (System V ABI, x86-64, 3.2.3). These are the calls with that
 * parameter to be seen, so that the answer is written over painted memory: every
 * byte of it has to be, and no byte beside it. A last field that is too narrow, or
 * a field more, is seen so.
 */
typedef struct {
    uint64_t before, fields[MOST_FIELDS], after;
} painted;

typedef void any_call(void);
typedef void *read_call(void *answer, const uint8_t *bytes, size_t len);
typedef void *length_call(void *answer, const uint8_t *book, size_t len,
                          const uint8_t *other, size_t other_len,
                          uint32_t account);
typedef void *balance_call(void *answer, const uint8_t *book, size_t len,
                           const uint8_t *other, size_t other_len,
                           uint64_t pool);
typedef void *cutoff_call(void *answer, const uint8_t *book, size_t len,
                          const uint8_t *other, size_t other_len,
                          uint64_t pool, uint64_t index);
typedef void *numbered_call(void *answer, const uint8_t *bytes, size_t len,
                            uint64_t number);
typedef void *named_call(void *answer, const uint8_t *bytes, size_t len,
                         uint32_t name, uint64_t number);
typedef void *statement_call(void *answer, const uint8_t *book, size_t len,
                             const uint8_t *other, size_t other_len,
                             uint32_t account, uint8_t *buffer, size_t room);
typedef void *file_call(void *answer, const uint8_t *book, size_t len,
                        const uint8_t *other, size_t other_len,
                        uint32_t account, uint64_t type, uint8_t *buffer,
                        size_t room);
typedef void *rewrite_call(void *answer, const uint8_t *statement, size_t len,
                           uint8_t *buffer, size_t room);

static const uint64_t PAINT = UINT64_C(0xA5A5A5A5A5A5A5A5);

static void *paint(painted *answer)
{
    memset(answer, 0xA5, sizeof *answer);
    return answer->fields;
}

static void expect_painted(const char *name, const painted *answer,
                           size_t fields, const void *expected)
{
    size_t at;
    int differs = answer->before != PAINT || answer->after != PAINT;

    expect_fields(name, fields, answer->fields, expected);
    for (at = fields; at < MOST_FIELDS; at++) {
        differs |= answer->fields[at] != PAINT;
    }
    if (differs) {
        fprintf(stderr, "%s: bytes beside the answer were changed\n", name);
        failures++;
    }
}

static void painted_answers_on_a_book(const uint8_t *book)
{
    length_call *length_into = (length_call *)(any_call *)fervolatro_length;
    statement_call *statement_into =
        (statement_call *)(any_call *)fervolatro_statement;
    balance_call *balance_into = (balance_call *)(any_call *)fervolatro_balance;
    cutoff_call *cutoff_into = (cutoff_call *)(any_call *)fervolatro_cutoff;
    uint8_t buffer[STATEMENT_LEN];
    painted answer;

    length_into(paint(&answer), book, BOOK_LEN, locked, LOCKED_LEN, ACCOUNT);
    expect_painted("length, painted", &answer, WRITTEN_FIELDS, &WHOLE);
    statement_into(paint(&answer), book, BOOK_LEN, locked, LOCKED_LEN, ACCOUNT,
                   buffer, length_asked(book));
    expect_painted("statement, painted", &answer, WRITTEN_FIELDS, &WHOLE);
    balance_into(paint(&answer), book, BOOK_LEN, locked, LOCKED_LEN, 0);
    expect_painted("balance, painted", &answer, POOL_FIELDS, &POOL[0]);
    cutoff_into(paint(&answer), book, BOOK_LEN, locked, LOCKED_LEN, 4, 1);
    expect_painted("cut-off, painted", &answer, CUT_FIELDS, &CUTS[4].of[1]);
}

static void painted_answers_on_a_statement(const uint8_t *statement)
{
    read_call *header_into = (read_call *)(any_call *)fervolatro_header;
    numbered_call *line_into = (numbered_call *)(any_call *)fervolatro_line;
    rewrite_call *rewrite_into =
        (rewrite_call *)(any_call *)fervolatro_rewrite;
    rewrite_call *lines_into = (rewrite_call *)(any_call *)fervolatro_lines;
    static const fervolatro_written all_lines = {.length = LINES_LEN};
    uint8_t buffer[LINES_LEN];
    painted answer;

    header_into(paint(&answer), statement, STATEMENT_LEN);
    expect_painted("header, painted", &answer, HEADING_FIELDS, &HEADING);
    line_into(paint(&answer), statement, STATEMENT_LEN, 1);
    expect_painted("line, painted", &answer, ENTRY_FIELDS, &LINE[1]);
    rewrite_into(paint(&answer), statement, STATEMENT_LEN, buffer, LINES_LEN);
    expect_painted("rewrite, painted", &answer, WRITTEN_FIELDS, &WHOLE);
    lines_into(paint(&answer), statement, STATEMENT_LEN, buffer, LINES_LEN);
    expect_painted("lines, painted", &answer, WRITTEN_FIELDS, &all_lines);
}

static void painted_answers_on_rows(const uint8_t *rows)
{
    numbered_call *payment_into =
        (numbered_call *)(any_call *)fervolatro_payment;
    named_call *base_cost_into = (named_call *)(any_call *)fervolatro_base_cost;
    painted answer;

    payment_into(paint(&answer), rows, ROWS_LEN, RAISE);
    expect_painted("payment, painted", &answer, COST_FIELDS, &RAISE_PAYMENT);
    base_cost_into(paint(&answer), rows, ROWS_LEN, REGULATION, RAISE);
    expect_painted("base cost, painted", &answer, COST_FIELDS, &RAISE_COST);
}

static void painted_answers_of_files(const uint8_t *book, const uint8_t *text)
{
    file_call *file_into = (file_call *)(any_call *)fervolatro_nmas;
    read_call *rows_into = (read_call *)(any_call *)fervolatro_nmas_rows;
    numbered_call *row_into = (numbered_call *)(any_call *)fervolatro_nmas_row;
    uint8_t buffer[FILE_LEN];
    painted answer;

    file_into(paint(&answer), book, BOOK_LEN, locked, LOCKED_LEN, ACCOUNT,
              AVAILABILITY, buffer, FILE_LEN);
    expect_painted("file, painted", &answer, WRITTEN_FIELDS, &WHOLE_FILE);
    rows_into(paint(&answer), text, TEXT_LEN);
    expect_painted("rows, painted", &answer, NMAS_SIZE_FIELDS, &BOTH_ROWS);
    row_into(paint(&answer), text, TEXT_LEN, 0);
    expect_painted("row, painted", &answer, NMAS_ENTRY_FIELDS, &TEXT_ROW[0]);
}

/* An account has 32 bits, and the upper half of the register that it comes in may
 * hold anything (the same section of the ABI). */
typedef fervolatro_written wide_length_call(const uint8_t *book, size_t len,
                                            const uint8_t *other,
                                            size_t other_len,
                                            uint64_t account);
typedef fervolatro_written wide_account_call(const uint8_t *book, size_t len,
                                             const uint8_t *other,
                                             size_t other_len,
                                             uint64_t account, uint8_t *buffer,
                                             size_t room);
typedef fervolatro_written wide_file_call(const uint8_t *book, size_t len,
                                          const uint8_t *other,
                                          size_t other_len, uint64_t account,
                                          uint64_t type, uint8_t *buffer,
                                          size_t room);

static void account_in_a_wide_register(const uint8_t *book)
{
    static const uint64_t account = UINT64_C(0xA5A5A5A500000000) + ACCOUNT;
    wide_length_call *length_of =
        (wide_length_call *)(any_call *)fervolatro_length;
    wide_account_call *statement_of =
        (wide_account_call *)(any_call *)fervolatro_statement;
    wide_file_call *file_of = (wide_file_call *)(any_call *)fervolatro_nmas;
    uint8_t buffer[STATEMENT_LEN];

    expect_written("length for an account in a wide register",
                   length_of(book, BOOK_LEN, locked, LOCKED_LEN, account),
                   WHOLE);
    expect_written("account in a wide register",
                   statement_of(book, BOOK_LEN, locked, LOCKED_LEN, account,
                                buffer, length_asked(book)),
                   WHOLE);
    expect_written("file of an account in a wide register",
                   file_of(book, BOOK_LEN, locked, LOCKED_LEN, account,
                           AVAILABILITY, buffer, FILE_LEN),
                   WHOLE_FILE);
}

/* So has the id of a constraint. */
typedef fervolatro_cost wide_id_call(const uint8_t *rows, size_t len,
                                     uint64_t id, uint64_t service);

static void id_in_a_wide_register(const uint8_t *rows)
{
    wide_id_call *base_cost_of =
        (wide_id_call *)(any_call *)fervolatro_base_cost;

    expect_cost("id in a wide register",
                base_cost_of(rows, ROWS_LEN,
                             UINT64_C(0xA5A5A5A500000000) + REGULATION, RAISE),
                RAISE_COST);
}

/* In each kind of answer, as it is expected here. */
static void fields_that_differ(void)
{
    expect_distinct("the length", WRITTEN_FIELDS, &WHOLE);
    expect_distinct("the heading", HEADING_FIELDS, &HEADING);
    expect_distinct("the unit's first line", ENTRY_FIELDS, &LINE[1]);
    expect_distinct("the first pool", POOL_FIELDS, &POOL[0]);
    expect_distinct("a stage of a region's part", CUT_FIELDS, &MANY_CUT[0]);
    expect_distinct("a stage of a half", CUT_FIELDS, &MANY_CUT[5]);
    expect_distinct("a stage of lines by ASOE", CUT_FIELDS, &MANY_CUT[7]);
    expect_distinct("the raise payment", COST_FIELDS, &RAISE_PAYMENT);
    expect_distinct("the first row", NMAS_ENTRY_FIELDS, &TEXT_ROW[0]);
    expect_distinct("the second row", NMAS_ENTRY_FIELDS, &TEXT_ROW[1]);
    expect_distinct("how many rows", NMAS_SIZE_FIELDS, &BOTH_ROWS);
}

static void calls_on_books(const uint8_t *book, const uint8_t *statement)
{
    good_calls_on_the_book(book);
    good_calls_for_cut_offs(book);
    good_calls_for_many_cut_offs();
    exchanged_books(book);
    lengths_of_the_two_slices(book);
    good_call_for_a_statement(book, statement);
    refused_calls_on_a_book();
    refused_for_the_locked_book();
    longest_statement();
    accounts_that_are_not_there(book);
    painted_answers_on_a_book(book);
    account_in_a_wide_register(book);
    books_before_a_wall(book, statement);
    locked_before_a_wall(book);
    a_locked_book_that_is_closed(book);
}

static void calls_on_statements(const uint8_t *statement)
{
    good_calls_on_the_statement(statement);
    good_call_for_all_lines(statement);
    refused_calls_on_a_statement(statement);
    refused_calls_for_all_lines(statement);
    painted_answers_on_a_statement(statement);
}

static void calls_on_rows(const uint8_t *rows)
{
    good_calls_on_rows(rows);
    refused_calls_on_rows();
    services_that_are_not_there(rows);
    constraints_that_are_not_there(rows);
    painted_answers_on_rows(rows);
    id_in_a_wide_register(rows);
}

static void calls_on_files(const uint8_t *book, const uint8_t *text)
{
    good_calls_for_a_file(book);
    good_calls_on_a_text(text);
    refused_calls_on_a_text();
    types_that_are_not_there(book);
    rows_past_the_end(text);
    painted_answers_of_files(book, text);
    files_before_a_wall(book);
    texts_before_a_wall(text);
}

int main(int argc, char **argv)
{
    const uint8_t *text = (const uint8_t *)TEXT;
    uint8_t book[BOOK_LEN], statement[STATEMENT_LEN], rows[ROWS_LEN];

    if (argc != 2) {
        fprintf(stderr, "usage: %s MACHINE\n", argv[0]);
        return 2;
    }
    make_book(book);
    make_locked();
    make_statement(statement);
    make_rows(rows);

    fields_that_differ();
    calls_on_books(book, statement);
    calls_on_statements(statement);
    calls_on_rows(rows);
    calls_on_files(book, text);
    numbers_past_the_end(book, statement);
    stages_past_the_end(book);
    lengths(argv[1], book, statement, rows, text);
    slices_of_no_bytes(book, statement, rows, text);

    return failures == 0 ? EXIT_SUCCESS : EXIT_FAILURE;
}
