/*
 * Loads the shared library, as a program does that was not linked with it, and
 * makes every call of the header, on the worked book, on dispatch rows and on a
 * reconciliation file. The paths of the library and of the book are the arguments.
 *
 * Exits non-zero with a message if the library or a call is not there, or if an
 * answer is not the expected one.
 */
#include <dlfcn.h>
#include <inttypes.h>
#include <stdio.h>
#include <stdlib.h>
#include <string.h>

#include "fervolatro.h"

enum {
    BOOK_LEN = 272,
    LINES = 12,
    STATEMENT_LEN =
        FERVOLATRO_STATEMENT_HEADER_SIZE + LINES * FERVOLATRO_LINE_SIZE
};

/* ---- The calls, each of the type that the header has for it. */

#define CALL(name) __typeof__(fervolatro_##name) *name

static struct {
    CALL(check);
    CALL(length);
    CALL(statement);
    CALL(balance);
    CALL(cutoff);
    CALL(header);
    CALL(line);
    CALL(lines);
    CALL(rewrite);
    CALL(payment);
    CALL(base_cost);
    CALL(nmas);
    CALL(nmas_rows);
    CALL(nmas_row);
} library;

static void *find(void *loaded, const char *name)
{
    void *found = dlsym(loaded, name);

    if (found == NULL) {
        fprintf(stderr, "%s\n", dlerror());
        exit(1);
    }
    return found;
}

#define FIND(loaded, name)       \
    library.name = (__typeof__(library.name))find(loaded, "fervolatro_" #name)

static void *load(const char *path)
{
    void *loaded = dlopen(path, RTLD_NOW | RTLD_LOCAL);

    if (loaded == NULL) {
        fprintf(stderr, "%s\n", dlerror());
        exit(1);
    }
    FIND(loaded, check);
    FIND(loaded, length);
    FIND(loaded, statement);
    FIND(loaded, balance);
    FIND(loaded, cutoff);
    FIND(loaded, header);
    FIND(loaded, line);
    FIND(loaded, lines);
    FIND(loaded, rewrite);
    FIND(loaded, payment);
    FIND(loaded, base_cost);
    FIND(loaded, nmas);
    FIND(loaded, nmas_rows);
    FIND(loaded, nmas_row);
    return loaded;
}

/* ---- Their answers. */

static int failures = 0;

static void expect(const char *name, int64_t got, int64_t expected)
{
    if (got != expected) {
        fprintf(stderr, "%s: expected %" PRId64 ", got %" PRId64 "\n", name,
                expected, got);
        failures++;
    }
}

static void read_book(const char *path, uint8_t book[BOOK_LEN])
{
    FILE *file = fopen(path, "rb");

    if (file == NULL || fread(book, 1, BOOK_LEN, file) != BOOK_LEN) {
        fprintf(stderr, "%s is not the worked book\n", path);
        exit(2);
    }
    fclose(file);
}

/* What rounding leaves over in the three pools, which are all. */
static void balances(const uint8_t *book)
{
    static const int64_t left[] = {1, 0, 0};
    uint64_t number;

    for (number = 0; number < 3; number++) {
        fervolatro_pool pool =
            library.balance(book, BOOK_LEN, NULL, 0, number);

        expect("balance", (int64_t)pool.refusal, FERVOLATRO_NOT_REFUSED);
        expect("lines of a pool", (int64_t)pool.lines, 7);
        expect("left over", pool.amount + pool.sum, left[number]);
    }
    expect("pool 3", (int64_t)library.balance(book, BOOK_LEN, NULL, 0, 3).refusal,
           FERVOLATRO_REFUSED_PAST_END);
}

/* Why the first pool leaves 1: two units' halves are rounded up, and so a whole is
 * missing. It has four stages. */
static void cut_offs(const uint8_t *book)
{
    fervolatro_cut cut = library.cutoff(book, BOOK_LEN, NULL, 0, 0, 1);

    expect("cut-off", (int64_t)cut.refusal, FERVOLATRO_NOT_REFUSED);
    expect("its stage", (int64_t)cut.stage, FERVOLATRO_STAGE_UNIT);
    expect("its divisor", (int64_t)cut.divisor, 1000000);
    expect("what is cut off", cut.cut, -1000000);
    cut = library.cutoff(book, BOOK_LEN, NULL, 0, 0, 4);
    expect("stage 4", (int64_t)cut.refusal, FERVOLATRO_REFUSED_PAST_END);
}

/* The length for account 7 is 312, and account 8 is not there. Everything below
 * reads so many bytes. */
static size_t lengths(const uint8_t *book)
{
    fervolatro_written asked = library.length(book, BOOK_LEN, NULL, 0, 8);

    expect("length for account 8", (int64_t)asked.refusal,
           FERVOLATRO_REFUSED_NO_ACCOUNT);
    expect("which is none", (int64_t)asked.length, 0);
    asked = library.length(book, BOOK_LEN, NULL, 0, 7);
    expect("length for account 7", (int64_t)asked.refusal,
           FERVOLATRO_NOT_REFUSED);
    expect("its place", (int64_t)asked.place, 0);
    expect("which is", (int64_t)asked.length, 312);
    if (asked.length != STATEMENT_LEN) {
        exit(1);
    }
    return (size_t)asked.length;
}

/* Account 7's, in memory of just the length that was asked for; a byte less is too
 * little. */
static uint8_t *write_statement(const uint8_t *book, size_t len)
{
    uint8_t *statement = calloc(len, 1);
    fervolatro_written written;

    if (statement == NULL) {
        fprintf(stderr, "no memory\n");
        exit(2);
    }
    written = library.statement(book, BOOK_LEN, NULL, 0, 8, statement, len);
    expect("account 8", (int64_t)written.refusal, FERVOLATRO_REFUSED_NO_ACCOUNT);
    written = library.statement(book, BOOK_LEN, NULL, 0, 7, statement, len - 1);
    expect("311 bytes", (int64_t)written.refusal, FERVOLATRO_REFUSED_BUFFER);
    written = library.statement(book, BOOK_LEN, NULL, 0, 7, statement, len);
    expect("account 7", (int64_t)written.refusal, FERVOLATRO_NOT_REFUSED);
    expect("its statement's length", (int64_t)written.length, (int64_t)len);
    return statement;
}

/* The worked book with a contract of the kind behind it: a payment of 1,000,000 =
 * 0x0F4240, that is $100, all of it for NSW1. */
enum { WITH_CONTRACT_LEN = BOOK_LEN + FERVOLATRO_CONTRACT_SIZE };

static void put_contract(uint8_t with_contract[WITH_CONTRACT_LEN],
                         const uint8_t *book, uint8_t kind)
{
    static const uint8_t million[] = {0x40, 0x42, 0x0F};
    uint8_t *contract = with_contract + BOOK_LEN;

    memset(with_contract, 0, WITH_CONTRACT_LEN);
    memcpy(with_contract, book, BOOK_LEN);
    with_contract[20] = 1;
    contract[0] = 1;
    contract[4] = kind;
    memcpy(contract + 8, million, sizeof million);
    memcpy(contract + 16, million, sizeof million);
}

/* The worked book is the locked one, and has two accounts. */
static void locked_book(const uint8_t *book)
{
    enum { LEN = WITH_CONTRACT_LEN };
    uint8_t with_test[LEN];
    fervolatro_verdict verdict;

    put_contract(with_test, book, FERVOLATRO_CONTRACT_TEST);
    verdict = library.check(with_test, LEN, NULL, 0);
    expect("no locked book", (int64_t)verdict.refusal,
           FERVOLATRO_REFUSED_NO_LOCKED);
    expect("its place", (int64_t)verdict.place, BOOK_LEN);
    verdict = library.check(with_test, LEN, book, BOOK_LEN);
    expect("a locked book", (int64_t)verdict.refusal, FERVOLATRO_NOT_REFUSED);
    expect("lines of the test payment",
           (int64_t)library.balance(with_test, LEN, book, BOOK_LEN, 3).lines, 4);
}

static void read_back(const uint8_t *statement)
{
    fervolatro_heading heading = library.header(statement, STATEMENT_LEN);
    fervolatro_entry entry = library.line(statement, STATEMENT_LEN, 2);

    expect("header", (int64_t)heading.refusal, FERVOLATRO_NOT_REFUSED);
    expect("account", (int64_t)heading.account, 7);
    expect("date", (int64_t)heading.date, 20250608);
    expect("lines", (int64_t)heading.lines, LINES);
    expect("line 2", (int64_t)entry.refusal, FERVOLATRO_NOT_REFUSED);
    expect("id", (int64_t)entry.id, 500);
    expect("part", (int64_t)entry.part, FERVOLATRO_PART_UNIT_UNUSED);
    expect("regions", (int64_t)entry.regions, FERVOLATRO_REGION_BIT_NSW1);
    expect("unit", (int64_t)entry.unit, 1);
    expect("amount", entry.amount, -335071);
}

/* All lines at once: the last is the residual's of what was not used. */
static void read_all(const uint8_t *statement)
{
    fervolatro_fields lines[LINES] = {{0}};
    fervolatro_written written = library.lines(statement, STATEMENT_LEN,
                                               (uint8_t *)lines, sizeof lines);

    expect("all lines", (int64_t)written.refusal, FERVOLATRO_NOT_REFUSED);
    expect("their bytes", (int64_t)written.length, (int64_t)sizeof lines);
    expect("unit of line 3", (int64_t)lines[3].unit, 2);
    expect("part of the last", (int64_t)lines[LINES - 1].part,
           FERVOLATRO_PART_RESIDUAL_UNUSED);
    expect("amount of the last", lines[LINES - 1].amount, -26177);
}

static void write_again(const uint8_t *statement)
{
    uint8_t again[STATEMENT_LEN] = {0};
    fervolatro_written written =
        library.rewrite(statement, STATEMENT_LEN, again, STATEMENT_LEN);

    expect("rewrite", (int64_t)written.refusal, FERVOLATRO_NOT_REFUSED);
    expect("rewritten", (int64_t)written.length, STATEMENT_LEN);
    expect("the same bytes", memcmp(again, statement, STATEMENT_LEN), 0);
}

/* A payment row and one of constraint 500 = 0x01F4, raise regulation in VIC1:
 * 9,881 = 0x2699 and 9,855 = 0x267F cents by 6,000 = 0x1770 hundredths of a MW,
 * a twelfth of which is 500. A byte less cuts the second row short. */
static void costs(void)
{
    static const uint8_t rows[2 * FERVOLATRO_DISPATCH_ROW_SIZE] = {
        0, 0, 0, 0, 9, 4, 0, 0, 0x99, 0x26, 0, 0, 0x70, 0x17, 0, 0,
        0xF4, 1, 0, 0, 9, 4, 0, 0, 0x7F, 0x26, 0, 0, 0x70, 0x17, 0, 0,
    };
    enum { LEN = sizeof rows, SERVICE = FERVOLATRO_SERVICE_REGULATION_RAISE };
    fervolatro_cost cost = library.payment(rows, LEN, SERVICE);

    expect("payment", (int64_t)cost.refusal, FERVOLATRO_NOT_REFUSED);
    expect("its amount", (int64_t)cost.amount, 4940500);
    cost = library.base_cost(rows, LEN, 500, SERVICE);
    expect("base cost", (int64_t)cost.refusal, FERVOLATRO_NOT_REFUSED);
    expect("its amount", (int64_t)cost.amount, 4927500);
    cost = library.payment(rows, LEN - 1, SERVICE);
    expect("payment, 31 bytes", (int64_t)cost.refusal,
           FERVOLATRO_REFUSED_DISPATCH_ROW);
    expect("its place", (int64_t)cost.place, FERVOLATRO_DISPATCH_ROW_SIZE);
}

/* Account 7's, of the worked book with a contract: halves of 500,000, of which 15 of
 * 1,015 by ACE are 7,389.16 and 5 of 585 by ASOE 4,273.50. */
static const char FILE_OF_7[] =
    "20250608,1,1,7,RESTART,1,COMPENSATION,NSW1,1.000000,100.0000,"
    "-1.1663,-15.000,-1015.000,5.000,585.000,-0.7389,-0.4274\n";

enum { FILE_LEN = sizeof FILE_OF_7 - 1 };

static void write_file(const uint8_t *book)
{
    enum { LEN = WITH_CONTRACT_LEN };
    uint8_t with_contract[LEN], text[FILE_LEN] = {0};
    fervolatro_written written;

    put_contract(with_contract, book, FERVOLATRO_CONTRACT_ORDINARY);
    written = library.nmas(with_contract, LEN, NULL, 0, 7,
                           FERVOLATRO_PAYMENT_TYPE_COMPENSATION, text, FILE_LEN);
    expect("file", (int64_t)written.refusal, FERVOLATRO_NOT_REFUSED);
    expect("its length", (int64_t)written.length, FILE_LEN);
    expect("its bytes", memcmp(text, FILE_OF_7, FILE_LEN), 0);
    written = library.nmas(with_contract, LEN, NULL, 0, 7, 3, text, FILE_LEN);
    expect("type 3", (int64_t)written.refusal, FERVOLATRO_REFUSED_PAST_END);
}

static void read_file(void)
{
    const uint8_t *text = (const uint8_t *)FILE_OF_7;
    fervolatro_nmas_size size = library.nmas_rows(text, FILE_LEN);
    fervolatro_nmas_entry row = library.nmas_row(text, FILE_LEN, 0);

    expect("rows", (int64_t)size.refusal, FERVOLATRO_NOT_REFUSED);
    expect("which are", (int64_t)size.rows, 1);
    expect("row 0", (int64_t)row.refusal, FERVOLATRO_NOT_REFUSED);
    expect("payment", (int64_t)row.payment, 1000000);
    expect("type", (int64_t)row.type, FERVOLATRO_PAYMENT_TYPE_COMPENSATION);
    expect("ACE of all", row.region_ace, -1015000);
    expect("by ASOE", row.by_asoe, -4274);
    size = library.nmas_rows(text, FILE_LEN - 1);
    expect("a file cut short", (int64_t)size.refusal,
           FERVOLATRO_REFUSED_NMAS_LINE);
    row = library.nmas_row(text, FILE_LEN, 1);
    expect("row 1", (int64_t)row.refusal, FERVOLATRO_REFUSED_PAST_END);
}

int main(int argc, char **argv)
{
    uint8_t book[BOOK_LEN], *statement;
    void *loaded;

    if (argc != 3) {
        fprintf(stderr, "usage: %s LIBRARY WORKED_BOOK\n", argv[0]);
        return 2;
    }
    loaded = load(argv[1]);
    read_book(argv[2], book);

    expect("check", (int64_t)library.check(book, BOOK_LEN, NULL, 0).refusal,
           FERVOLATRO_NOT_REFUSED);
    statement = write_statement(book, lengths(book));
    balances(book);
    cut_offs(book);
    locked_book(book);
    read_back(statement);
    read_all(statement);
    write_again(statement);
    costs();
    write_file(book);
    read_file();
    free(statement);
    expect("unloading", dlclose(loaded), 0);

    return failures == 0 ? EXIT_SUCCESS : EXIT_FAILURE;
}
