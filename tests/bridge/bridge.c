/*
 * Answers calls of the library over standard input and output, so that tests on a machine that
 * cannot link x86-64 code can still ask the very library.
 *
 * A request is a letter and the arguments, a slice being a u32 length and its bytes:
 *   'c', the book, the locked book: the answer is fervolatro_verdict, field by field;
 *   'n', the book, the locked book, a u32 account: of fervolatro_length; the answer is
 *        fervolatro_written, field by field;
 *   's', the book, the locked book, a u32 account, the buffer: the answer is fervolatro_written,
 *        field by field, and then the whole buffer as the call left it;
 *   'b', the book, the locked book, a u64 pool: the answer is fervolatro_pool, field by field;
 *   'o', the book, the locked book, a u64 pool, a u64 index: of fervolatro_cutoff; the answer is
 *        fervolatro_cut, field by field;
 *   'h', the statement: the answer is fervolatro_heading, field by field;
 *   'l', the statement, a u64 index: the answer is fervolatro_entry, field by field;
 *   'a', the statement, the buffer: of fervolatro_lines; the answer is as for 's';
 *   'r', the statement, the buffer: the answer is as for 's';
 *   'p', the rows, a u64 service: the answer is fervolatro_cost, field by field;
 *   'k', the rows, a u32 id, a u64 service: of fervolatro_base_cost; the answer is as for 'p';
 *   'f', the book, the locked book, a u32 account, a u64 type, the buffer: of fervolatro_nmas; the
 *        answer is as for 's';
 *   't', the text: of fervolatro_nmas_rows; the answer is fervolatro_nmas_size, field by field;
 *   'e', the text, a u64 index: of fervolatro_nmas_row; the answer is fervolatro_nmas_entry, field
 *        by field.
 * All numbers are little-endian, as both sides are. The end of the input ends the program.
 *
 * A lent buffer stands between guard bytes. If a call changes one of them, the program says so and
 * ends with an error.
 */
#include <stdio.h>
#include <stdlib.h>
#include <string.h>

#include "fervolatro.h"

enum { GUARD_LEN = 4096, GUARD_BYTE = 0xA5 };

/* A slice that was sent: kept from call to call, and grown where a longer one comes. It has guards
 * before and after it. */
typedef struct { uint8_t *bytes; uint32_t len, room; } slice;

static _Noreturn void fail(const char *why)
{
    fprintf(stderr, "bridge: %s\n", why);
    exit(2);
}

static void take(void *into, size_t len)
{
    if (len != 0 && fread(into, 1, len, stdin) != len) {
        fail("the request ends early");
    }
}

static void make_room(slice *s)
{
    if (s->bytes != NULL) {
        free(s->bytes - GUARD_LEN);
    }
    s->room = s->len + 65536;
    s->bytes = malloc((size_t)s->room + 2 * GUARD_LEN);
    if (s->bytes == NULL) {
        fail("no memory");
    }
    s->bytes += GUARD_LEN;
}

static void take_slice(slice *s)
{
    take(&s->len, sizeof s->len);
    if (s->bytes == NULL || s->len > s->room) {
        make_room(s);
    }
    take(s->bytes, s->len);
}

static void set_guards(slice *s)
{
    memset(s->bytes - GUARD_LEN, GUARD_BYTE, GUARD_LEN);
    memset(s->bytes + s->len, GUARD_BYTE, GUARD_LEN);
}

static void see_guards(const slice *s)
{
    uint8_t guard[GUARD_LEN];

    memset(guard, GUARD_BYTE, GUARD_LEN);
    if (memcmp(s->bytes - GUARD_LEN, guard, GUARD_LEN) != 0) {
        fail("a byte before the lent buffer was changed");
    }
    if (memcmp(s->bytes + s->len, guard, GUARD_LEN) != 0) {
        fail("a byte after the lent buffer was changed");
    }
}

static void take_buffer(slice *buffer)
{
    take_slice(buffer);
    set_guards(buffer);
}

static void give(const void *from, size_t len)
{
    if (len != 0 && fwrite(from, 1, len, stdout) != len) {
        exit(2);
    }
}

static void give_written(fervolatro_written written, const slice *buffer)
{
    see_guards(buffer);
    give(&written, sizeof written);
    give(buffer->bytes, buffer->len);
}

/* What the calls on a book read. */
static slice book, locked;

static void take_books(void)
{
    take_slice(&book);
    take_slice(&locked);
}

static void check(void)
{
    fervolatro_verdict verdict;

    take_books();
    verdict = fervolatro_check(book.bytes, book.len, locked.bytes, locked.len);
    give(&verdict, sizeof verdict);
}

static void find_length(void)
{
    uint32_t account;
    fervolatro_written found;

    take_books();
    take(&account, sizeof account);
    found = fervolatro_length(book.bytes, book.len, locked.bytes, locked.len, account);
    give(&found, sizeof found);
}

static void write_statement(void)
{
    static slice buffer;
    uint32_t account;

    take_books();
    take(&account, sizeof account);
    take_buffer(&buffer);
    give_written(fervolatro_statement(book.bytes, book.len, locked.bytes, locked.len, account,
                                      buffer.bytes, buffer.len),
                 &buffer);
}

static void balance(void)
{
    uint64_t number;
    fervolatro_pool pool;

    take_books();
    take(&number, sizeof number);
    pool = fervolatro_balance(book.bytes, book.len, locked.bytes, locked.len, number);
    give(&pool, sizeof pool);
}

static void cut_off(void)
{
    uint64_t number, index;
    fervolatro_cut cut;

    take_books();
    take(&number, sizeof number);
    take(&index, sizeof index);
    cut = fervolatro_cutoff(book.bytes, book.len, locked.bytes, locked.len, number, index);
    give(&cut, sizeof cut);
}

static void read_header(void)
{
    static slice statement;
    fervolatro_heading heading;

    take_slice(&statement);
    heading = fervolatro_header(statement.bytes, statement.len);
    give(&heading, sizeof heading);
}

static void read_line(void)
{
    static slice statement;
    uint64_t index;
    fervolatro_entry entry;

    take_slice(&statement);
    take(&index, sizeof index);
    entry = fervolatro_line(statement.bytes, statement.len, index);
    give(&entry, sizeof entry);
}

static void read_all_lines(void)
{
    static slice statement, buffer;

    take_slice(&statement);
    take_buffer(&buffer);
    give_written(fervolatro_lines(statement.bytes, statement.len, buffer.bytes, buffer.len),
                 &buffer);
}

static void rewrite(void)
{
    static slice statement, buffer;

    take_slice(&statement);
    take_buffer(&buffer);
    give_written(fervolatro_rewrite(statement.bytes, statement.len, buffer.bytes, buffer.len),
                 &buffer);
}

static void make_payment(void)
{
    static slice rows;
    uint64_t service;
    fervolatro_cost cost;

    take_slice(&rows);
    take(&service, sizeof service);
    cost = fervolatro_payment(rows.bytes, rows.len, service);
    give(&cost, sizeof cost);
}

static void make_base_cost(void)
{
    static slice rows;
    uint32_t id;
    uint64_t service;
    fervolatro_cost cost;

    take_slice(&rows);
    take(&id, sizeof id);
    take(&service, sizeof service);
    cost = fervolatro_base_cost(rows.bytes, rows.len, id, service);
    give(&cost, sizeof cost);
}

static void write_nmas(void)
{
    static slice buffer;
    uint32_t account;
    uint64_t type;

    take_books();
    take(&account, sizeof account);
    take(&type, sizeof type);
    take_buffer(&buffer);
    give_written(fervolatro_nmas(book.bytes, book.len, locked.bytes, locked.len, account, type,
                                 buffer.bytes, buffer.len),
                 &buffer);
}

static void count_nmas_rows(void)
{
    static slice text;
    fervolatro_nmas_size size;

    take_slice(&text);
    size = fervolatro_nmas_rows(text.bytes, text.len);
    give(&size, sizeof size);
}

static void read_nmas_row(void)
{
    static slice text;
    uint64_t index;
    fervolatro_nmas_entry entry;

    take_slice(&text);
    take(&index, sizeof index);
    entry = fervolatro_nmas_row(text.bytes, text.len, index);
    give(&entry, sizeof entry);
}

/* The calls by their letters. */
static const struct { int letter; void (*make)(void); } CALLS[] = {
    {'c', check},
    {'n', find_length},
    {'s', write_statement},
    {'b', balance},
    {'o', cut_off},
    {'h', read_header},
    {'l', read_line},
    {'a', read_all_lines},
    {'r', rewrite},
    {'p', make_payment},
    {'k', make_base_cost},
    {'f', write_nmas},
    {'t', count_nmas_rows},
    {'e', read_nmas_row},
};

static void answer(int letter)
{
    size_t i;

    for (i = 0; i < sizeof CALLS / sizeof CALLS[0]; i++) {
        if (CALLS[i].letter == letter) {
            CALLS[i].make();
            return;
        }
    }
    fail("no such call");
}

int main(void)
{
    int letter;

    while ((letter = getchar()) != EOF) {
        answer(letter);
        if (fflush(stdout) != 0) {
            return 2;
        }
    }
    return 0;
}
