/*
 * Sees that the header's constants are what the library answers and reads: each
 * refusal by its name, the sizes by the records, the limits of a dispatch row by
 * the last number that is taken and the first that is not, those of a
 * reconciliation file by the longest there are, each stage of rounding by the pool
 * that has it, and of each group exactly the numbers that the library takes. The path
 * of the worked book is the one argument.
 *
 * Exits non-zero with a message if an answer is not the expected one. That the
 * constants are also the numbers of the rules, a guard sees
 * (rust/testing/tests/guard/constants.rs).
 */
#include <inttypes.h>
#include <stdio.h>
#include <stdlib.h>
#include <string.h>

#include "fervolatro.h"

#include "books.h"

_Static_assert(FERVOLATRO_BOOK_HEADER_SIZE
                       + FERVOLATRO_REGION_ENTRIES * FERVOLATRO_REGION_ENTRY_SIZE
                       + FERVOLATRO_MOST_CONSTRAINTS * FERVOLATRO_CONSTRAINT_SIZE
                       + FERVOLATRO_MOST_UNIT_ROWS * FERVOLATRO_UNIT_ROW_SIZE
                       + FERVOLATRO_MOST_ENERGY_ROWS * FERVOLATRO_ENERGY_ROW_SIZE
                       + FERVOLATRO_MOST_CONTRACTS * FERVOLATRO_CONTRACT_SIZE
                   == FERVOLATRO_LARGEST_BOOK,
               "the largest book has the most of every record");
_Static_assert(FERVOLATRO_STATEMENT_HEADER_SIZE
                       + FERVOLATRO_MOST_LINES * FERVOLATRO_LINE_SIZE
                   == FERVOLATRO_LARGEST_STATEMENT,
               "the longest statement has the most lines");
_Static_assert(FERVOLATRO_LARGEST_BOOK == 39796, "24 + 60 + 2,560 + 12,000 + "
                                                 "24,576 + 576");
_Static_assert(FERVOLATRO_LARGEST_STATEMENT == 51672, "24 + 51,648");
_Static_assert(FERVOLATRO_LIMIT / 1000000 == 50000 && sizeof FERVOLATRO_LIMIT == 8,
               "the limit is not cut off");
_Static_assert(FERVOLATRO_MOST_PRODUCT == 12 * FERVOLATRO_LIMIT
                   && sizeof FERVOLATRO_MOST_PRODUCT == 8,
               "a row of the most product makes the limit");
_Static_assert(FERVOLATRO_MOST_NMAS_ROWS
                   == FERVOLATRO_MOST_CONTRACTS * FERVOLATRO_REGION_ENTRIES,
               "a file that is written has a row for each contract and region");
_Static_assert(FERVOLATRO_LARGEST_NMAS
                   == FERVOLATRO_MOST_NMAS_ROWS * LONGEST_LINE_LEN,
               "80 x 171");

/* ---- The groups. A compiler takes no two equal numbers in one switch. */

static int is_part(unsigned number)
{
    switch (number) {
    case FERVOLATRO_PART_CONTINGENCY_ACE:
    case FERVOLATRO_PART_CONTINGENCY_ASOE:
    case FERVOLATRO_PART_UNIT_FPP:
    case FERVOLATRO_PART_UNIT_USED:
    case FERVOLATRO_PART_UNIT_UNUSED:
    case FERVOLATRO_PART_RESIDUAL_FPP:
    case FERVOLATRO_PART_RESIDUAL_USED:
    case FERVOLATRO_PART_RESIDUAL_UNUSED:
    case FERVOLATRO_PART_CONTRACT_ACE:
    case FERVOLATRO_PART_CONTRACT_ASOE:
        return 1;
    default:
        return 0;
    }
}

static int is_service(unsigned number)
{
    switch (number) {
    case FERVOLATRO_SERVICE_VERY_FAST_RAISE:
    case FERVOLATRO_SERVICE_VERY_FAST_LOWER:
    case FERVOLATRO_SERVICE_FAST_RAISE:
    case FERVOLATRO_SERVICE_FAST_LOWER:
    case FERVOLATRO_SERVICE_SLOW_RAISE:
    case FERVOLATRO_SERVICE_SLOW_LOWER:
    case FERVOLATRO_SERVICE_DELAYED_RAISE:
    case FERVOLATRO_SERVICE_DELAYED_LOWER:
    case FERVOLATRO_SERVICE_REGULATION_RAISE:
    case FERVOLATRO_SERVICE_REGULATION_LOWER:
        return 1;
    default:
        return 0;
    }
}

static int is_region(unsigned number)
{
    switch (number) {
    case FERVOLATRO_REGION_NSW1:
    case FERVOLATRO_REGION_QLD1:
    case FERVOLATRO_REGION_SA1:
    case FERVOLATRO_REGION_TAS1:
    case FERVOLATRO_REGION_VIC1:
        return 1;
    default:
        return 0;
    }
}

static int is_region_bit(unsigned number)
{
    switch (number) {
    case FERVOLATRO_REGION_BIT_NSW1:
    case FERVOLATRO_REGION_BIT_QLD1:
    case FERVOLATRO_REGION_BIT_SA1:
    case FERVOLATRO_REGION_BIT_TAS1:
    case FERVOLATRO_REGION_BIT_VIC1:
        return 1;
    default:
        return 0;
    }
}

static int is_contract_kind(unsigned number)
{
    switch (number) {
    case FERVOLATRO_CONTRACT_ORDINARY:
    case FERVOLATRO_CONTRACT_TEST:
        return 1;
    default:
        return 0;
    }
}

static int is_stage(uint64_t number)
{
    switch (number) {
    case FERVOLATRO_STAGE_LINE:
    case FERVOLATRO_STAGE_POOL:
    case FERVOLATRO_STAGE_UNIT:
    case FERVOLATRO_STAGE_RESIDUAL:
    case FERVOLATRO_STAGE_SHARE:
    case FERVOLATRO_STAGE_WHOLE:
    case FERVOLATRO_STAGE_HALF:
    case FERVOLATRO_STAGE_ACE:
    case FERVOLATRO_STAGE_ASOE:
        return 1;
    default:
        return 0;
    }
}

static int is_payment_type(unsigned number)
{
    switch (number) {
    case FERVOLATRO_PAYMENT_TYPE_AVAILABILITY:
    case FERVOLATRO_PAYMENT_TYPE_ENABLEMENT:
    case FERVOLATRO_PAYMENT_TYPE_COMPENSATION:
        return 1;
    default:
        return 0;
    }
}

/* The modes that go with a service: contingency with 1 to 8, the others with
 * regulation. */
static int is_mode_of(unsigned service, unsigned number)
{
    int regulates = service == FERVOLATRO_SERVICE_REGULATION_RAISE
                    || service == FERVOLATRO_SERVICE_REGULATION_LOWER;

    switch (number) {
    case FERVOLATRO_MODE_CONTINGENCY:
        return !regulates;
    case FERVOLATRO_MODE_FACTORED:
    case FERVOLATRO_MODE_DEFAULT:
        return regulates;
    default:
        return 0;
    }
}

static const char *name_of(uint64_t refusal)
{
    switch (refusal) {
    case FERVOLATRO_NOT_REFUSED: return "not refused";
    case FERVOLATRO_REFUSED_SHORT: return "short";
    case FERVOLATRO_REFUSED_MARK: return "mark";
    case FERVOLATRO_REFUSED_RANGE: return "range";
    case FERVOLATRO_REFUSED_LENGTH: return "length";
    case FERVOLATRO_REFUSED_FIELD: return "field";
    case FERVOLATRO_REFUSED_ORDER: return "order";
    case FERVOLATRO_REFUSED_NO_CONSTRAINT: return "no constraint";
    case FERVOLATRO_REFUSED_FACTORS: return "factors";
    case FERVOLATRO_REFUSED_REGION_ENTRY: return "region entry";
    case FERVOLATRO_REFUSED_ZERO_TOTAL: return "zero total";
    case FERVOLATRO_REFUSED_NO_ACCOUNT: return "no account";
    case FERVOLATRO_REFUSED_LIMIT: return "limit";
    case FERVOLATRO_REFUSED_BUFFER: return "buffer";
    case FERVOLATRO_REFUSED_NO_STATEMENT: return "no statement";
    case FERVOLATRO_REFUSED_PAST_END: return "past the end";
    case FERVOLATRO_REFUSED_DISPATCH_ROW: return "dispatch row";
    case FERVOLATRO_REFUSED_NO_LOCKED: return "no locked book";
    case FERVOLATRO_REFUSED_LOCKED: return "locked book";
    case FERVOLATRO_REFUSED_NMAS_LINE: return "line of a file";
    default: return "a number without a name";
    }
}

static int failures = 0;

static void expect(const char *what, uint64_t got, uint64_t expected)
{
    if (got != expected) {
        fprintf(stderr, "%s: expected %s, got %s (%" PRIu64 ")\n", what,
                name_of(expected), name_of(got), got);
        failures++;
    }
}

static void expect_number(const char *what, uint64_t got, uint64_t expected)
{
    if (got != expected) {
        fprintf(stderr, "%s: expected %" PRIu64 ", got %" PRIu64 "\n", what,
                expected, got);
        failures++;
    }
}

/* ---- The worked book, by the sizes of the header. */

enum {
    UNITS = 5,
    ENTRY_AT = FERVOLATRO_BOOK_HEADER_SIZE,
    CONSTRAINT_AT =
        ENTRY_AT + FERVOLATRO_REGION_ENTRIES * FERVOLATRO_REGION_ENTRY_SIZE,
    UNITS_AT = CONSTRAINT_AT + FERVOLATRO_CONSTRAINT_SIZE,
    ENERGIES_AT = UNITS_AT + UNITS * FERVOLATRO_UNIT_ROW_SIZE,
    BOOK_LEN = ENERGIES_AT + 2 * FERVOLATRO_ENERGY_ROW_SIZE,
    LINES = 12,
    LINE_AT = FERVOLATRO_STATEMENT_HEADER_SIZE,
    STATEMENT_LEN = LINE_AT + LINES * FERVOLATRO_LINE_SIZE
};

static uint8_t book[BOOK_LEN + 1], statement[STATEMENT_LEN];

static void read_book(const char *path)
{
    FILE *file = fopen(path, "rb");
    size_t len;

    if (file == NULL) {
        perror(path);
        exit(2);
    }
    len = fread(book, 1, BOOK_LEN + 1, file);
    fclose(file);
    if (len != BOOK_LEN) {
        fprintf(stderr, "%s: expected %d bytes\n", path, BOOK_LEN);
        exit(2);
    }
}

/* The answer to the book with one byte of it changed. No byte that is changed here
 * names an account: what refuses the book refuses the length for 7, and nothing
 * else does. */
static uint64_t check_with(size_t at, uint8_t byte)
{
    uint8_t before = book[at];
    uint64_t refusal;

    book[at] = byte;
    refusal = fervolatro_check(book, BOOK_LEN, NULL, 0).refusal;
    expect("the length for account 7",
           fervolatro_length(book, BOOK_LEN, NULL, 0, 7).refusal, refusal);
    book[at] = before;
    return refusal;
}

/* ---- Each refusal by its name. 12 no accepted book reaches. */

/* One byte each, of the record and the field that are named. */
static void refusals_of_records(void)
{
    /* Usage has 400,000; 2^24 is past its range. */
    expect("the constraint's usage", check_with(CONSTRAINT_AT + 27, 1),
           FERVOLATRO_REFUSED_FIELD);
    expect("unit 2 as 1 again",
           check_with(UNITS_AT + FERVOLATRO_UNIT_ROW_SIZE + 4, 1),
           FERVOLATRO_REFUSED_ORDER);
    /* 500 is 0x01F4. */
    expect("the last unit row of constraint 501",
           check_with(ENERGIES_AT - FERVOLATRO_UNIT_ROW_SIZE, 0xF5),
           FERVOLATRO_REFUSED_NO_CONSTRAINT);
    expect("the first unit's CF", check_with(UNITS_AT + 12, 0),
           FERVOLATRO_REFUSED_FACTORS);
    expect("the first region's residual total", check_with(ENTRY_AT + 8, 1),
           FERVOLATRO_REFUSED_REGION_ENTRY);
    expect("a constraint where no energy is",
           check_with(CONSTRAINT_AT + 5, FERVOLATRO_REGION_BIT_QLD1),
           FERVOLATRO_REFUSED_ZERO_TOTAL);
}

static void refusals_of_a_book(void)
{
    expect("the worked book", fervolatro_check(book, BOOK_LEN, NULL, 0).refusal,
           FERVOLATRO_NOT_REFUSED);
    expect("a byte less than the region entries",
           fervolatro_check(book, CONSTRAINT_AT - 1, NULL, 0).refusal,
           FERVOLATRO_REFUSED_SHORT);
    expect("another mark", check_with(0, 0), FERVOLATRO_REFUSED_MARK);
    expect("interval 0", check_with(6, 0), FERVOLATRO_REFUSED_RANGE);
    expect("a byte less", fervolatro_check(book, BOOK_LEN - 1, NULL, 0).refusal,
           FERVOLATRO_REFUSED_LENGTH);
    refusals_of_records();
    expect("pool 3", fervolatro_balance(book, BOOK_LEN, NULL, 0, 3).refusal,
           FERVOLATRO_REFUSED_PAST_END);
}

/* The book and a contract behind it. The ordinary one wants no locked book, and reads
 * none; the test payment does. */
static void refusals_of_a_locked_book(void)
{
    enum { LEN = BOOK_LEN + FERVOLATRO_CONTRACT_SIZE };
    uint8_t with_contract[LEN] = {0};

    memcpy(with_contract, book, BOOK_LEN);
    with_contract[20] = 1;
    put_contract(with_contract + BOOK_LEN, 1, FERVOLATRO_CONTRACT_ORDINARY, 0,
                 FERVOLATRO_REGION_NSW1);
    expect("an ordinary contract",
           fervolatro_check(with_contract, LEN, NULL, 0).refusal,
           FERVOLATRO_NOT_REFUSED);
    expect("an ordinary contract and half a locked book",
           fervolatro_check(with_contract, LEN, book, BOOK_LEN / 2).refusal,
           FERVOLATRO_NOT_REFUSED);
    put_contract(with_contract + BOOK_LEN, 1, FERVOLATRO_CONTRACT_TEST, 0,
                 FERVOLATRO_REGION_NSW1);
    expect("a test payment", fervolatro_check(with_contract, LEN, NULL, 0).refusal,
           FERVOLATRO_REFUSED_NO_LOCKED);
    expect("a test payment and half a locked book",
           fervolatro_check(with_contract, LEN, book, BOOK_LEN / 2).refusal,
           FERVOLATRO_REFUSED_LOCKED);
    expect("a test payment and a locked book",
           fervolatro_check(with_contract, LEN, book, BOOK_LEN).refusal,
           FERVOLATRO_NOT_REFUSED);
}

/* How much to lend for account 7's statement, which is asked first. There is room
 * for no more than is expected. */
static size_t length_for_7(void)
{
    fervolatro_written asked = fervolatro_length(book, BOOK_LEN, NULL, 0, 7);

    expect("length for account 7", asked.refusal, FERVOLATRO_NOT_REFUSED);
    expect_number("which is", asked.length, STATEMENT_LEN);
    if (asked.length != STATEMENT_LEN) {
        exit(EXIT_FAILURE);
    }
    return (size_t)asked.length;
}

static uint64_t statement_for(uint32_t account, size_t len)
{
    return fervolatro_statement(book, BOOK_LEN, NULL, 0, account, statement, len)
        .refusal;
}

static void refusals_of_a_statement(void)
{
    size_t len = length_for_7();

    expect("length for account 8",
           fervolatro_length(book, BOOK_LEN, NULL, 0, 8).refusal,
           FERVOLATRO_REFUSED_NO_ACCOUNT);
    expect("account 7", statement_for(7, len), FERVOLATRO_NOT_REFUSED);
    expect("account 8", statement_for(8, len), FERVOLATRO_REFUSED_NO_ACCOUNT);
    expect("room one short", statement_for(7, len - 1),
           FERVOLATRO_REFUSED_BUFFER);
    expect("a byte less of the statement",
           fervolatro_header(statement, STATEMENT_LEN - 1).refusal,
           FERVOLATRO_REFUSED_NO_STATEMENT);
    expect("line 12", fervolatro_line(statement, STATEMENT_LEN, LINES).refusal,
           FERVOLATRO_REFUSED_PAST_END);
}

/* ---- Each stage of rounding by its name. */

/* The stages of a pool, so many, and no more. Those of a contract have its region, the
 * others none. */
static void expect_stages(const uint8_t *of, size_t len, uint64_t pool,
                          const uint64_t *stages, uint64_t count,
                          uint64_t region)
{
    uint64_t index;

    for (index = 0; index < count; index++) {
        fervolatro_cut cut = fervolatro_cutoff(of, len, NULL, 0, pool, index);

        expect("a stage", cut.refusal, FERVOLATRO_NOT_REFUSED);
        expect_number("its number", cut.stage, stages[index]);
        expect_number("its region", cut.region, region);
        expect_number("which is a stage's", (uint64_t)is_stage(cut.stage), 1);
    }
    expect("a stage past the last",
           fervolatro_cutoff(of, len, NULL, 0, pool, count).refusal,
           FERVOLATRO_REFUSED_PAST_END);
}

/* The worked book's pools, all of one constraint; then a book of a contingency
 * constraint and a contract, both in VIC1, where one account has 1 kWh each way. */
static void stages(void)
{
    static const uint64_t factored[] = {
        FERVOLATRO_STAGE_POOL, FERVOLATRO_STAGE_UNIT, FERVOLATRO_STAGE_RESIDUAL,
        FERVOLATRO_STAGE_SHARE};
    static const uint64_t contingency[] = {FERVOLATRO_STAGE_LINE};
    static const uint64_t contract[] = {
        FERVOLATRO_STAGE_WHOLE, FERVOLATRO_STAGE_HALF, FERVOLATRO_STAGE_ACE,
        FERVOLATRO_STAGE_ASOE};
    enum {
        ENERGY_AT = CONSTRAINT_AT + FERVOLATRO_CONSTRAINT_SIZE,
        CONTRACT_AT = ENERGY_AT + FERVOLATRO_ENERGY_ROW_SIZE,
        LEN = CONTRACT_AT + FERVOLATRO_CONTRACT_SIZE
    };
    uint8_t other[LEN] = {0};

    expect_stages(book, BOOK_LEN, 0, factored, 4, 0);
    expect_stages(book, BOOK_LEN, 1, factored, 4, 0);
    expect_stages(book, BOOK_LEN, 2, factored, 4, 0);
    put_front(other, "RCB");
    put_counts(other, 1, 0, 1, 1);
    put_entry(other, FERVOLATRO_REGION_VIC1, -1, 1, 1);
    put_constraint(other + CONSTRAINT_AT, 1, FERVOLATRO_SERVICE_FAST_RAISE,
                   FERVOLATRO_REGION_BIT_VIC1, FERVOLATRO_MODE_CONTINGENCY, 1);
    put_energy(other + ENERGY_AT, ACCOUNT, FERVOLATRO_REGION_VIC1, -1, 1);
    put_contract(other + CONTRACT_AT, 1, FERVOLATRO_CONTRACT_ORDINARY, 1,
                 FERVOLATRO_REGION_VIC1);
    expect_stages(other, LEN, 0, contingency, 1, 0);
    expect_stages(other, LEN, 1, contract, 4, FERVOLATRO_REGION_VIC1);
}

/* ---- Dispatch rows, by their size and their limits. */

enum {
    ROW_LEN = FERVOLATRO_DISPATCH_ROW_SIZE,
    RAISE = FERVOLATRO_SERVICE_REGULATION_RAISE,
    /* The most that a row of the highest price has enabled: 240,000. */
    MOST_ENABLED = FERVOLATRO_MOST_PRODUCT / FERVOLATRO_MOST_PRICE
};

_Static_assert(FERVOLATRO_MOST_PRODUCT % FERVOLATRO_MOST_PRICE == 0,
               "and the product is then the most");

/* A payment row of raise regulation. */
static void put_row(uint8_t *row, unsigned region, uint32_t price,
                    uint32_t enablement)
{
    memset(row, 0, ROW_LEN);
    row[4] = RAISE;
    row[5] = (uint8_t)region;
    put(row, 8, 4, price);
    put(row, 12, 4, enablement);
}

/* The answer to one row. */
static fervolatro_cost row_of(uint32_t price, uint32_t enablement)
{
    uint8_t row[ROW_LEN];

    put_row(row, FERVOLATRO_REGION_NSW1, price, enablement);
    return fervolatro_payment(row, ROW_LEN, RAISE);
}

/* The answer to two rows, of which the first makes the limit by itself. */
static fervolatro_cost limit_and(uint32_t price, uint32_t enablement)
{
    uint8_t rows[2 * ROW_LEN];

    put_row(rows, FERVOLATRO_REGION_NSW1, FERVOLATRO_MOST_PRICE, MOST_ENABLED);
    put_row(rows + ROW_LEN, FERVOLATRO_REGION_VIC1, price, enablement);
    return fervolatro_payment(rows, sizeof rows, RAISE);
}

/* The second row begins where the first ends. */
static void row_size(void)
{
    uint8_t rows[2 * ROW_LEN];
    fervolatro_cost more;

    put_row(rows, FERVOLATRO_REGION_NSW1, 1, 1);
    put_row(rows + ROW_LEN, FERVOLATRO_REGION_VIC1, 1, 1);
    expect("a row", fervolatro_payment(rows, ROW_LEN, RAISE).refusal,
           FERVOLATRO_NOT_REFUSED);
    expect("two rows", fervolatro_payment(rows, sizeof rows, RAISE).refusal,
           FERVOLATRO_NOT_REFUSED);
    expect("a byte less of a row",
           fervolatro_payment(rows, ROW_LEN - 1, RAISE).refusal,
           FERVOLATRO_REFUSED_DISPATCH_ROW);
    expect("a byte less, asked for a base cost",
           fervolatro_base_cost(rows, ROW_LEN - 1, 1, RAISE).refusal,
           FERVOLATRO_REFUSED_DISPATCH_ROW);
    more = fervolatro_payment(rows, ROW_LEN + 1, RAISE);
    expect("a byte more", more.refusal, FERVOLATRO_REFUSED_DISPATCH_ROW);
    expect_number("its place", more.place, ROW_LEN);
}

/* The least product of two such numbers that is above the limit: 600,000,000,004.
 * Those of 1 to 3 above it are none. */
enum { PAST_PRICE = 957347, PAST_ENABLEMENT = 626732 };

_Static_assert((long long)PAST_PRICE * PAST_ENABLEMENT
                   == FERVOLATRO_MOST_PRODUCT + 4,
               "957,347 x 626,732");

static void row_limits(void)
{
    expect("the highest price", row_of(FERVOLATRO_MOST_PRICE, 1).refusal,
           FERVOLATRO_NOT_REFUSED);
    expect("a cent more", row_of(FERVOLATRO_MOST_PRICE + 1, 1).refusal,
           FERVOLATRO_REFUSED_DISPATCH_ROW);
    expect("the most enablement",
           row_of(1, FERVOLATRO_MOST_ENABLEMENT).refusal,
           FERVOLATRO_NOT_REFUSED);
    expect("a hundredth of a MW more",
           row_of(1, FERVOLATRO_MOST_ENABLEMENT + 1).refusal,
           FERVOLATRO_REFUSED_DISPATCH_ROW);
    expect("the most product",
           row_of(FERVOLATRO_MOST_PRICE, MOST_ENABLED).refusal,
           FERVOLATRO_NOT_REFUSED);
    expect("a product above it", row_of(PAST_PRICE, PAST_ENABLEMENT).refusal,
           FERVOLATRO_REFUSED_DISPATCH_ROW);
}

/* 5 / 12 is rounded to 0, and 6 / 12 to 1, which is past the limit. */
static void sum_limit(void)
{
    expect("the limit and 5 / 12", limit_and(5, 1).refusal,
           FERVOLATRO_NOT_REFUSED);
    expect_number("their sum", limit_and(5, 1).amount, FERVOLATRO_LIMIT);
    expect("the limit and 6 / 12", limit_and(6, 1).refusal,
           FERVOLATRO_REFUSED_DISPATCH_ROW);
}

/* ---- Reconciliation files, by their limits. */

/* The longest file that is written. It has the most rows, and is 240 bytes shorter than
 * the constant: that has 171 bytes of each, as many as a line that is read can have. */
static void longest_file_written(void)
{
    static uint8_t longest[LONGEST_FILE_BOOK_LEN], text[FERVOLATRO_LARGEST_NMAS];
    fervolatro_written written;

    make_longest_file(longest);
    written = fervolatro_nmas(longest, sizeof longest, NULL, 0, ACCOUNT,
                              FERVOLATRO_PAYMENT_TYPE_AVAILABILITY, text,
                              FERVOLATRO_LARGEST_NMAS);
    expect("the longest file", written.refusal, FERVOLATRO_NOT_REFUSED);
    expect_number("its length", written.length, LONGEST_FILE_LEN);
    expect_number("its rows",
                  fervolatro_nmas_rows(text, LONGEST_FILE_LEN).rows,
                  FERVOLATRO_MOST_NMAS_ROWS);
    written = fervolatro_nmas(longest, sizeof longest, NULL, 0, ACCOUNT,
                              FERVOLATRO_PAYMENT_TYPE_AVAILABILITY, text,
                              LONGEST_FILE_LEN - 1);
    expect("the longest file into less", written.refusal,
           FERVOLATRO_REFUSED_BUFFER);
}

/* As many of the longest lines as the constant has bytes for, and one more, which is
 * read as well; then the last one cut short. */
static void longest_files_read(void)
{
    enum { LINES_READ = FERVOLATRO_MOST_NMAS_ROWS + 1 };
    static uint8_t text[LINES_READ * LONGEST_LINE_LEN];
    fervolatro_nmas_size size;

    put_longest_lines(text, LINES_READ);
    size = fervolatro_nmas_rows(text, FERVOLATRO_LARGEST_NMAS);
    expect("the longest lines", size.refusal, FERVOLATRO_NOT_REFUSED);
    expect_number("their number", size.rows, FERVOLATRO_MOST_NMAS_ROWS);
    size = fervolatro_nmas_rows(text, sizeof text);
    expect("a line more", size.refusal, FERVOLATRO_NOT_REFUSED);
    expect_number("their number", size.rows, LINES_READ);
    size = fervolatro_nmas_rows(text, sizeof text - 1);
    expect("a byte less", size.refusal, FERVOLATRO_REFUSED_NMAS_LINE);
    expect_number("its line", size.place, FERVOLATRO_MOST_NMAS_ROWS);
    expect("row 81",
           fervolatro_nmas_row(text, sizeof text, LINES_READ).refusal,
           FERVOLATRO_REFUSED_PAST_END);
    expect("row 81, a byte less",
           fervolatro_nmas_row(text, sizeof text - 1, LINES_READ).refusal,
           FERVOLATRO_REFUSED_NMAS_LINE);
}

/* ---- Exactly the numbers of a group are taken. Another is refused as a field
 * outside its rules, as no statement, as a dispatch row or as past the end. One that
 * is taken may still make another check fail, which comes after. */

static void expect_taken(const char *what, unsigned number, uint64_t refusal,
                         int is_known)
{
    int is_taken = refusal != FERVOLATRO_REFUSED_FIELD
                   && refusal != FERVOLATRO_REFUSED_NO_STATEMENT
                   && refusal != FERVOLATRO_REFUSED_DISPATCH_ROW
                   && refusal != FERVOLATRO_REFUSED_PAST_END;

    if (is_taken != is_known) {
        fprintf(stderr, "%s %u: %s, though the header %s it\n", what, number,
                name_of(refusal), is_known ? "has" : "lacks");
        failures++;
    }
}

/* Price, RCR, usage, RCF and DRCF of 0, which every mode takes; so the field that
 * is tried alone decides. */
static void constraint_numbers(void)
{
    unsigned service, mode;

    memset(book + CONSTRAINT_AT + 16, 0, 20);
    for (service = 0; service < 256; service++) {
        book[CONSTRAINT_AT + 4] = (uint8_t)service;
        for (mode = 0; mode < 256; mode++) {
            expect_taken("1,000 x service + mode", 1000 * service + mode,
                         check_with(CONSTRAINT_AT + 6, (uint8_t)mode),
                         is_service(service) && is_mode_of(service, mode));
        }
    }
}

static void energy_numbers(void)
{
    unsigned number;

    for (number = 0; number < 256; number++) {
        expect_taken("region", number,
                     check_with(ENERGIES_AT + 4, (uint8_t)number),
                     is_region(number));
    }
}

/* A book of one contract. */
static void contract_numbers(void)
{
    enum { LEN = CONSTRAINT_AT + FERVOLATRO_CONTRACT_SIZE };
    uint8_t other[LEN] = {0};
    unsigned number;

    memcpy(other, book, 14);
    other[20] = 1;
    for (number = 0; number < 256; number++) {
        put_contract(other + CONSTRAINT_AT, 1, number, 0,
                     FERVOLATRO_REGION_NSW1);
        expect_taken("contract kind", number,
                     fervolatro_check(other, LEN, other, LEN).refusal,
                     is_contract_kind(number));
    }
}

/* A statement of one line, of 0. */
static uint64_t line_of(unsigned part, unsigned regions)
{
    enum { LEN = LINE_AT + FERVOLATRO_LINE_SIZE };
    uint8_t one[LEN] = {0};
    uint8_t *line = one + LINE_AT;

    memcpy(one, statement, LINE_AT);
    one[14] = 1;
    line[0] = 1;
    line[4] = (uint8_t)part;
    line[5] = (uint8_t)regions;
    line[8] = part >= FERVOLATRO_PART_UNIT_FPP
              && part <= FERVOLATRO_PART_UNIT_UNUSED;
    return fervolatro_header(one, LEN).refusal;
}

static void line_numbers(void)
{
    unsigned number;

    for (number = 0; number < 256; number++) {
        expect_taken("part", number, line_of(number, FERVOLATRO_REGION_BIT_SA1),
                     is_part(number));
        expect_taken("region bit", number,
                     line_of(FERVOLATRO_PART_CONTRACT_ACE, number),
                     is_region_bit(number));
    }
}

/* The answer to a row with one byte of it changed. */
static uint64_t row_with(size_t at, unsigned byte)
{
    uint8_t row[ROW_LEN];

    put_row(row, FERVOLATRO_REGION_NSW1, 1, 1);
    row[at] = (uint8_t)byte;
    return fervolatro_payment(row, ROW_LEN, RAISE).refusal;
}

static void row_numbers(void)
{
    unsigned number;

    for (number = 0; number < 256; number++) {
        expect_taken("service of a row", number, row_with(4, number),
                     is_service(number));
        expect_taken("region of a row", number, row_with(5, number),
                     is_region(number));
    }
}

/* The worked book has no contract, and so an empty file of each type. */
static void payment_types(void)
{
    unsigned number;

    for (number = 0; number < 256; number++) {
        expect_taken("payment type", number,
                     fervolatro_nmas(book, BOOK_LEN, NULL, 0, 7, number, NULL, 0)
                         .refusal,
                     is_payment_type(number));
    }
}

int main(int argc, char **argv)
{
    if (argc != 2) {
        fprintf(stderr, "usage: %s WORKED_BOOK\n", argv[0]);
        return 2;
    }
    read_book(argv[1]);
    refusals_of_a_book();
    refusals_of_a_locked_book();
    refusals_of_a_statement();
    stages();
    row_size();
    row_limits();
    sum_limit();
    longest_file_written();
    longest_files_read();
    payment_types();
    row_numbers();
    line_numbers();
    energy_numbers();
    contract_numbers();
    constraint_numbers();

    return failures == 0 ? EXIT_SUCCESS : EXIT_FAILURE;
}
