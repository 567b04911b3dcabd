/*
 * Sees how much stack the library's calls use: each is made on a stack of its
 * own, painted before. A book and an account are the arguments, and a locked book if
 * there is one. Prints the bytes that each call paints over: a check, the length of
 * the account's statement, the statement into just so many bytes, the balances (the
 * most over all pools), what is cut off (the most over all stages), the statement's
 * header, its first line, all its lines, the statement written again and the account's
 * reconciliation file, and a payment, a base cost, how many rows a reconciliation file
 * has and its last row (the most over few dispatch rows or lines and many). Of the calls
 * on books and statements it is the most over that book and the largest ones, alone and
 * with a locked book as large, and the one of the longest file; of the calls that check
 * books also over books that are refused, by each number of a check. Exits non-zero if
 * one of them passes its limit.
 */
#define _XOPEN_SOURCE 700

#include <inttypes.h>
#include <stdio.h>
#include <stdlib.h>
#include <string.h>
#include <ucontext.h>

#include "fervolatro.h"

#include "books.h"

enum {
    ROOM = 1 << 20,
    PAINT = 0xA5,
    FEW_ROWS = 2,
    MANY_ROWS = 5000
};

/* The bytes that a call may use: what it needed when its limit was set, up to the next
 * multiple of 16; of the calls on a statement, on dispatch rows and on a
 * reconciliation file what the most of them needed. No call may have more than 4,096. */
enum {
    CHECK_LIMIT = 704,
    LENGTH_LIMIT = 976,
    STATEMENT_LIMIT = 1408,
    BALANCE_LIMIT = 3696,
    CUTOFF_LIMIT = 912,
    READING_LIMIT = 240,
    DISPATCH_LIMIT = 192,
    FILE_LIMIT = 2288,
    FILE_READING_LIMIT = 640
};

/* A byte more than any book has: a longer file is then refused. */
static uint8_t book[FERVOLATRO_LARGEST_BOOK + 1];
static uint8_t locked[FERVOLATRO_LARGEST_BOOK + 1];
/* Memory for any statement, of which just the one's length is lent. */
static uint8_t statement[FERVOLATRO_LARGEST_STATEMENT];
static uint8_t buffer[FERVOLATRO_LARGEST_STATEMENT];
static fervolatro_fields lines[FERVOLATRO_MOST_LINES];
static uint8_t rows[MANY_ROWS * FERVOLATRO_DISPATCH_ROW_SIZE];
/* A file that is written, and one that is read. */
static uint8_t file[FERVOLATRO_LARGEST_NMAS];
static uint8_t text[MANY_ROWS * LONGEST_LINE_LEN];
static size_t book_len, locked_len, statement_len, rows_len, text_rows;
static uint32_t account;
static uint64_t pool, stage, refusal;
/* What the calls that are measured have to answer. */
static uint64_t expected;

static void nothing(void)
{
    refusal = 0;
}

static void check(void)
{
    refusal = fervolatro_check(book, book_len, locked, locked_len).refusal;
}

static void find_length(void)
{
    fervolatro_written asked =
        fervolatro_length(book, book_len, locked, locked_len, account);

    refusal = asked.refusal;
    statement_len = (size_t)asked.length;
}

/* The length was asked first, and just so much is lent. */
static void write_statement(void)
{
    refusal = fervolatro_statement(book, book_len, locked, locked_len, account,
                                   statement, statement_len)
                  .refusal;
}

static void balance(void)
{
    refusal =
        fervolatro_balance(book, book_len, locked, locked_len, pool).refusal;
}

static void cut_off(void)
{
    refusal = fervolatro_cutoff(book, book_len, locked, locked_len, pool, stage)
                  .refusal;
}

static void read_header(void)
{
    refusal = fervolatro_header(statement, statement_len).refusal;
}

static void read_line(void)
{
    refusal = fervolatro_line(statement, statement_len, 0).refusal;
}

static void read_lines(void)
{
    refusal = fervolatro_lines(statement, statement_len, (uint8_t *)lines,
                               sizeof lines)
                  .refusal;
}

static void rewrite(void)
{
    refusal = fervolatro_rewrite(statement, statement_len, buffer,
                                 statement_len)
                  .refusal;
}

static void make_payment(void)
{
    refusal = fervolatro_payment(rows, rows_len,
                                 FERVOLATRO_SERVICE_REGULATION_RAISE)
                  .refusal;
}

static void make_base_cost(void)
{
    refusal = fervolatro_base_cost(rows, rows_len, 1,
                                   FERVOLATRO_SERVICE_REGULATION_RAISE)
                  .refusal;
}

static void write_file(void)
{
    refusal = fervolatro_nmas(book, book_len, locked, locked_len, account,
                              FERVOLATRO_PAYMENT_TYPE_AVAILABILITY, file,
                              sizeof file)
                  .refusal;
}

static void count_file_rows(void)
{
    refusal = fervolatro_nmas_rows(text, text_rows * LONGEST_LINE_LEN).refusal;
}

static void read_file_row(void)
{
    refusal = fervolatro_nmas_row(text, text_rows * LONGEST_LINE_LEN,
                                  text_rows - 1)
                  .refusal;
}

/* How many bytes are painted over, down from the top, after the call. */
static size_t painted_over(void (*call)(void))
{
    static uint8_t stack[ROOM];
    ucontext_t here, there;
    size_t untouched = 0;

    memset(stack, PAINT, ROOM);
    if (getcontext(&there) != 0) {
        perror("getcontext");
        exit(2);
    }
    there.uc_stack.ss_sp = stack;
    there.uc_stack.ss_size = ROOM;
    there.uc_link = &here;
    makecontext(&there, call, 0);
    if (swapcontext(&here, &there) != 0) {
        perror("swapcontext");
        exit(2);
    }
    while (untouched < ROOM && stack[untouched] == PAINT) {
        untouched++;
    }
    return ROOM - untouched;
}

/* The same, without what making a call of nothing takes. */
static size_t used_by(void (*call)(void))
{
    static size_t by_nothing;

    if (by_nothing == 0) {
        by_nothing = painted_over(nothing);
    }
    return painted_over(call) - by_nothing;
}

/* ---- What is measured, in the order in which it is printed. */

static struct measured {
    const char *name;
    void (*call)(void);
    size_t limit, most;
} calls[] = {
    {"check", check, CHECK_LIMIT, 0},
    {"length", find_length, LENGTH_LIMIT, 0},
    {"statement", write_statement, STATEMENT_LIMIT, 0},
    {"balance", balance, BALANCE_LIMIT, 0},
    {"cut-off", cut_off, CUTOFF_LIMIT, 0},
    {"header", read_header, READING_LIMIT, 0},
    {"line", read_line, READING_LIMIT, 0},
    {"lines", read_lines, READING_LIMIT, 0},
    {"rewrite", rewrite, READING_LIMIT, 0},
    {"file", write_file, FILE_LIMIT, 0},
    {"payment", make_payment, DISPATCH_LIMIT, 0},
    {"base cost", make_base_cost, DISPATCH_LIMIT, 0},
    {"file's rows", count_file_rows, FILE_READING_LIMIT, 0},
    {"file's row", read_file_row, FILE_READING_LIMIT, 0},
};

enum { CALLS = sizeof calls / sizeof calls[0], ON_BOOKS = CALLS - 4 };

/* A call that is refused by another number may end early, and say little. */
static void measure(struct measured *measured)
{
    size_t used;

    measured->call();
    if (refusal != expected) {
        fprintf(stderr, "%s: refused %" PRIu64 ", not %" PRIu64 "\n",
                measured->name, refusal, expected);
        exit(2);
    }
    used = used_by(measured->call);
    measured->most = used > measured->most ? used : measured->most;
}

/* All pools, which end where the number is refused. */
static void measure_balances(struct measured *measured)
{
    for (pool = 0;; pool++) {
        balance();
        if (refusal == FERVOLATRO_REFUSED_PAST_END) {
            return;
        }
        measure(measured);
    }
}

/* All stages of a pool, which end where the number is refused; tells whether it has
 * any. */
static int measure_stages(struct measured *measured)
{
    for (stage = 0;; stage++) {
        cut_off();
        if (refusal == FERVOLATRO_REFUSED_PAST_END) {
            return stage != 0;
        }
        measure(measured);
    }
}

/* Every pool has a stage. */
static void measure_cut_offs(struct measured *measured)
{
    pool = 0;
    while (measure_stages(measured)) {
        pool++;
    }
}

/* The calls on the books and on the account's statement, and its file. The length is
 * asked before the statement is written, and that is read then. */
static void measure_books(void)
{
    size_t i;

    for (i = 0; i < ON_BOOKS; i++) {
        if (calls[i].call == balance) {
            measure_balances(&calls[i]);
        } else if (calls[i].call == cut_off) {
            measure_cut_offs(&calls[i]);
        } else {
            measure(&calls[i]);
        }
    }
}

/* The largest books: one alone, and one whose contracts want the other. All units of
 * the first are ACCOUNT's, and those of the locked one each have an account. Then the
 * book of the longest file. */
static void measure_largest(void)
{
    account = ACCOUNT;
    book_len = LARGEST_LEN;
    locked_len = 0;
    make_largest(book, 0, 1);
    measure_books();
    locked_len = LARGEST_LEN;
    make_largest(book, 0, 2);
    make_largest(locked, 1, 1);
    measure_books();
    book_len = LONGEST_FILE_BOOK_LEN;
    locked_len = 0;
    make_longest_file(book);
    measure_books();
}

/* ---- Books that are refused. */

/* The calls that check books. */
static void measure_refused(uint64_t number)
{
    size_t i;

    expected = number;
    for (i = 0; i < ON_BOOKS; i++) {
        if (calls[i].limit != READING_LIMIT) {
            measure(&calls[i]);
        }
    }
    expected = 0;
}

/* The largest book with a locked one, and one field of either otherwise. */
static void measure_fault(uint64_t number, int is_of_locked, size_t at,
                          size_t width, uint64_t value)
{
    make_largest(book, 0, 2);
    make_largest(locked, 1, 1);
    put(is_of_locked ? locked : book, at, width, value);
    measure_refused(number);
}

/* A constraint, and no energy to share its cost by. */
static void make_without_energy(void)
{
    memset(book, 0, ENTRIES_END + CONSTRAINT_LEN);
    put_front(book, "RCB");
    put_counts(book, 1, 0, 0, 0);
    put_constraint(book + ENTRIES_END, 1, 1, 31, 0, BILLION);
}

static void measure_all_refused(void)
{
    const size_t units = ENTRIES_END + MOST_CONSTRAINTS * CONSTRAINT_LEN;
    const size_t last_unit = units + (MOST_UNITS - 1) * UNIT_LEN;

    account = ACCOUNT;
    book_len = locked_len = LARGEST_LEN;
    pool = stage = 0;
    measure_fault(2, 0, 0, 1, 0);                    /* the mark */
    measure_fault(3, 0, 6, 2, 0);                    /* interval 0 */
    measure_fault(4, 0, 20, 2, MOST_CONTRACTS - 1);  /* a contract less */
    measure_fault(5, 0, LAST_CONTRACT_AT + 4, 1, 0); /* kind 0 */
    measure_fault(6, 0, LAST_CONTRACT_AT, 4, 1);     /* the first one's id */
    measure_fault(7, 0, last_unit, 4, MOST_CONSTRAINTS + 1); /* unknown */
    measure_fault(8, 0, units + 12, 4, 0);           /* a CF of 0 */
    measure_fault(9, 0, HEADER_LEN, 4, 0);           /* NSW1 without ACE */
    measure_fault(18, 1, HEADER_LEN, 4, 0);
    locked_len = 0;
    measure_fault(17, 0, 0, 1, 'R');                 /* no locked book */
    book_len = ENTRIES_END - 1;
    measure_refused(1);
    book_len = ENTRIES_END + CONSTRAINT_LEN;
    make_without_energy();
    measure_refused(10);
}

/* Few dispatch rows and many, and as many lines of a file. */
static void measure_rows(void)
{
    static const size_t counts[] = {FEW_ROWS, MANY_ROWS};
    size_t i, call;

    for (i = 0; i < sizeof counts / sizeof counts[0]; i++) {
        rows_len = counts[i] * FERVOLATRO_DISPATCH_ROW_SIZE;
        text_rows = counts[i];
        for (call = ON_BOOKS; call < CALLS; call++) {
            measure(&calls[call]);
        }
    }
}

/* ---- What it is measured on, and the report. */

static size_t read_book(const char *path, uint8_t *into)
{
    FILE *file = fopen(path, "rb");
    size_t len;

    if (file == NULL) {
        perror(path);
        exit(2);
    }
    len = fread(into, 1, FERVOLATRO_LARGEST_BOOK + 1, file);
    fclose(file);
    return len;
}

/* A payment row, then one of each constraint from 1 on: raise regulation in NSW1,
 * 9,881 = 0x2699 cents by 5,000 = 0x1388 hundredths of a MW. */
static void make_rows(void)
{
    uint8_t *row = rows;
    unsigned id;

    for (id = 0; id < MANY_ROWS; id++, row += FERVOLATRO_DISPATCH_ROW_SIZE) {
        row[0] = (uint8_t)id;
        row[1] = (uint8_t)(id >> 8);
        row[4] = FERVOLATRO_SERVICE_REGULATION_RAISE;
        row[5] = FERVOLATRO_REGION_NSW1;
        memcpy(row + 8, (uint8_t[]){0x99, 0x26, 0, 0, 0x88, 0x13, 0, 0}, 8);
    }
}

/* Says whether every call keeps within its limit. */
static int report(void)
{
    int kept = 1;
    size_t i;

    for (i = 0; i < CALLS; i++) {
        printf("%s%s %zu", i == 0 ? "" : ", ", calls[i].name, calls[i].most);
        kept &= calls[i].most <= calls[i].limit;
    }
    printf("\n");
    return kept;
}

int main(int argc, char **argv)
{
    if (argc != 3 && argc != 4) {
        fprintf(stderr, "usage: %s BOOK ACCOUNT [LOCKED]\n", argv[0]);
        return 2;
    }
    book_len = read_book(argv[1], book);
    account = (uint32_t)strtoul(argv[2], NULL, 10);
    locked_len = argc == 4 ? read_book(argv[3], locked) : 0;
    make_rows();
    put_longest_lines(text, MANY_ROWS);

    measure_books();
    measure_largest();
    measure_all_refused();
    measure_rows();
    return report() ? EXIT_SUCCESS : EXIT_FAILURE;
}
