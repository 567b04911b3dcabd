/*
 * Books made in C, for the tests of the header's constants, of the library's edge and
 * of its stack: records, put into bytes where the rules have their fields, the largest
 * books there are, and the longest reconciliation files.
 */
#ifndef FERVOLATRO_TESTS_BOOKS_H
#define FERVOLATRO_TESTS_BOOKS_H

#include <stddef.h>
#include <stdint.h>
#include <string.h>

/* ---- Records. */

static inline void put(uint8_t *bytes, size_t at, size_t width, uint64_t value)
{
    size_t i;

    for (i = 0; i < width; i++) {
        bytes[at + i] = (uint8_t)(value >> (8 * i));
    }
}

enum {
    HEADER_LEN = 24,
    ENTRY_LEN = 12,
    ENTRIES_END = HEADER_LEN + 5 * ENTRY_LEN,
    CONSTRAINT_LEN = 40,
    UNIT_LEN = 20,
    ENERGY_LEN = 24,
    CONTRACT_LEN = 36
};

/* Headers of a book and of a statement begin alike: mark, version 1, then these
 * three. */
enum { INTERVAL = 287, DATE = 20960229, RUN = 98 };

static inline void put_front(uint8_t *bytes, const char *mark)
{
    memcpy(bytes, mark, 3);
    put(bytes, 4, 2, 1);
    put(bytes, 6, 2, INTERVAL);
    put(bytes, 8, 4, DATE);
    put(bytes, 12, 2, RUN);
}

static inline void put_counts(uint8_t *book, uint64_t constraints,
                              uint64_t units, uint64_t energies,
                              uint64_t contracts)
{
    put(book, 14, 2, constraints);
    put(book, 16, 2, units);
    put(book, 18, 2, energies);
    put(book, 20, 2, contracts);
}

static inline void put_constraint(uint8_t *at, uint64_t id, uint64_t service,
                                  uint64_t regions, uint64_t mode,
                                  uint64_t cost)
{
    put(at, 0, 4, id);
    put(at, 4, 1, service);
    put(at, 5, 1, regions);
    put(at, 6, 1, mode);
    put(at, 8, 8, cost);
}

static inline void put_unit(uint8_t *at, uint64_t constraint, uint64_t unit,
                            uint64_t account, int64_t cf, int64_t dcf)
{
    put(at, 0, 4, constraint);
    put(at, 4, 4, unit);
    put(at, 8, 4, account);
    put(at, 12, 4, (uint64_t)cf);
    put(at, 16, 4, (uint64_t)dcf);
}

/* Of the energy 1 kWh of ACE is residual, and no ASOE. */
static inline void put_energy(uint8_t *at, uint64_t account, uint64_t region,
                              int64_t ace, int64_t asoe)
{
    put(at, 0, 4, account);
    put(at, 4, 1, region);
    put(at, 8, 4, (uint64_t)ace);
    put(at, 12, 4, (uint64_t)asoe);
    put(at, 16, 4, (uint64_t)INT64_C(-1));
}

/* What the energy rows of a region sum to. */
static inline void put_entry(uint8_t *book, size_t region, int64_t ace,
                             int64_t asoe, int64_t residual)
{
    uint8_t *at = book + HEADER_LEN + region * ENTRY_LEN;

    put(at, 0, 4, (uint64_t)ace);
    put(at, 4, 4, (uint64_t)asoe);
    put(at, 8, 4, (uint64_t)residual);
}

/* The whole benefit is one region's. */
static inline void put_contract(uint8_t *at, uint64_t id, uint64_t kind,
                                uint64_t payment, size_t region)
{
    put(at, 0, 4, id);
    put(at, 4, 1, kind);
    put(at, 8, 8, payment);
    put(at, 16 + 4 * region, 4, 1000000);
}

/* ---- The largest books. */

#define ACCOUNT UINT32_C(0xFEDCBA98)

enum { MILLION = 1000000, BILLION = 1000000000 };

enum {
    MOST_CONSTRAINTS = 64,
    MOST_UNITS = 600,
    MOST_ENERGIES = 1024,
    MOST_CONTRACTS = 16,
    LAST_CONTRACT_AT = ENTRIES_END + MOST_CONSTRAINTS * CONSTRAINT_LEN
                       + MOST_UNITS * UNIT_LEN + MOST_ENERGIES * ENERGY_LEN
                       + (MOST_CONTRACTS - 1) * CONTRACT_LEN,
    LARGEST_LEN = LAST_CONTRACT_AT + CONTRACT_LEN
};

/* Its sections, each of which ends where the next begins. All constraints are
 * factored. Of each the first unit's CF is 1,000,000, which RCF -1,000,000 makes 0;
 * DRCF is -1,000,000. */
static inline uint8_t *put_factored(uint8_t *at)
{
    uint64_t i;

    for (i = 1; i <= MOST_CONSTRAINTS; i++, at += CONSTRAINT_LEN) {
        put_constraint(at, i, 9, 31, 1, BILLION);
        put(at, 16, 4, 9855);
        put(at, 20, 4, 90000);
        put(at, 24, 4, 400000);
        put(at, 28, 4, (uint64_t)-MILLION);
        put(at, 32, 4, (uint64_t)-MILLION);
    }
    return at;
}

/* The first is ACCOUNT's, and each further one that of the account so much higher. */
static inline uint8_t *put_units(uint8_t *at, uint64_t step)
{
    uint64_t i, constraint, before = 0;

    for (i = 0; i < MOST_UNITS; i++, at += UNIT_LEN) {
        constraint = 1 + i * MOST_CONSTRAINTS / MOST_UNITS;
        put_unit(at, constraint, i + 1, ACCOUNT + i * step,
                 constraint == before ? 0 : MILLION, 0);
        before = constraint;
    }
    return at;
}

/* Of accounts 1 to 205, in the regions in turn: 205 rows in each region, and 204 in
 * the last. */
static inline uint8_t *put_energies(uint8_t *at)
{
    uint64_t i;

    for (i = 0; i < MOST_ENERGIES; i++, at += ENERGY_LEN) {
        put_energy(at, 1 + i / 5, i % 5, -1, 1);
    }
    return at;
}

/* Each benefits every region. */
static inline void put_contracts(uint8_t *at, uint64_t kind)
{
    uint64_t i, region;

    for (i = 1; i <= MOST_CONTRACTS; i++, at += CONTRACT_LEN) {
        put_contract(at, i, kind, BILLION, 0);
        for (region = 0; region < 5; region++) {
            put(at, 16 + 4 * region, 4, MILLION / 5);
        }
    }
}

/* A book of the most records, which is accepted, of kind 2 with a locked book: with
 * contracts of this kind, and with unit rows of one account, where the step is 0, or
 * of an account each, where it is 1. */
static inline void make_largest(uint8_t book[LARGEST_LEN], uint64_t step,
                                uint64_t kind)
{
    uint8_t *at = book + ENTRIES_END;
    size_t region;
    int64_t rows;

    memset(book, 0, LARGEST_LEN);
    put_front(book, "RCB");
    put_counts(book, MOST_CONSTRAINTS, MOST_UNITS, MOST_ENERGIES,
               MOST_CONTRACTS);
    for (region = 0; region < 5; region++) {
        rows = region < 4 ? 205 : 204;
        put_entry(book, region, -rows, rows, rows);
    }
    at = put_energies(put_units(put_factored(at), step));
    put_contracts(at, kind);
}

/* ---- The longest reconciliation files. */

/*
 * A book whose file for ACCOUNT is as long as one that is written can be. Every field
 * but the three amounts is as long as its range lets it be, which makes 131 bytes of a
 * line, and 130 in SA1: a run of two digits, an interval of three, account and contract
 * of ten, a payment of $5,000,000, and all energy of each region ACCOUNT's, 20,000 MWh
 * each way.
 *
 * The amounts share the payment. From $1,000,000 on one has 13 bytes with its minus,
 * from $100,000 on 12. Two regions of 0.4 have $2,000,000 and halves of $1,000,000:
 * three amounts of 13 bytes each. The other three have $500,000, $250,000 and $250,000,
 * and halves of $125,000 at least: 12 bytes each. That makes 2 x 39 + 3 x 36 = 186, and
 * no five regions make more: one has 39 from 0.4 on, 37 from 0.2 on and else 36 at most,
 * and into 1 go two of 0.4 and none of 0.2, one of 0.4 and two of 0.2, or five of 0.2,
 * with something left for the others: 186, 185, 185.
 *
 * In all 16 x (5 x 131 - 1 + 186).
 */
enum {
    LONGEST_FILE_LEN = 13440,
    LONGEST_FILE_BOOK_LEN =
        ENTRIES_END + 5 * ENERGY_LEN + MOST_CONTRACTS * CONTRACT_LEN
};

_Static_assert(LONGEST_FILE_LEN == 16 * (5 * 131 - 1 + 2 * 39 + 3 * 36),
               "16 contracts of 840 bytes");

static inline void make_longest_file(uint8_t book[LONGEST_FILE_BOOK_LEN])
{
    static const uint64_t factors[] = {400000, 400000, 100000, 50000, 50000};
    const int64_t most = 20000000;
    uint8_t *at = book + ENTRIES_END;
    uint64_t i;
    size_t region;

    memset(book, 0, LONGEST_FILE_BOOK_LEN);
    put_front(book, "RCB");
    put_counts(book, 0, 0, 5, MOST_CONTRACTS);
    for (region = 0; region < 5; region++, at += ENERGY_LEN) {
        put_entry(book, region, -most, most, 1);
        put_energy(at, ACCOUNT, region, -most, most);
    }
    for (i = 0; i < MOST_CONTRACTS; i++, at += CONTRACT_LEN) {
        put_contract(at, UINT32_MAX - MOST_CONTRACTS + i, 1,
                     UINT64_C(50000000000), 0);
        for (region = 0; region < 5; region++) {
            put(at, 16 + 4 * region, 4, factors[region]);
        }
    }
}

/* The longest line that is read has 171 bytes: both of its last two amounts are at
 * their limit, and RECOVERY_AMOUNT, their sum, needs a digit more. */
#define LONGEST_LINE                                                        \
    "20960229,98,287,4275878552,RESTART,4294967295,AVAILABILITY,NSW1,"      \
    "1.000000,5000000.0000,-10000000.0000,-20000.000,-20000.000,20000.000," \
    "20000.000,-5000000.0000,-5000000.0000\n"

enum { LONGEST_LINE_LEN = sizeof LONGEST_LINE - 1 };

_Static_assert(LONGEST_LINE_LEN == 171, "131 bytes, 14 and twice 13");

/* So many of them. */
static inline void put_longest_lines(uint8_t *text, size_t lines)
{
    size_t i;

    for (i = 0; i < lines; i++) {
        memcpy(text + i * LONGEST_LINE_LEN, LONGEST_LINE, LONGEST_LINE_LEN);
    }
}

#endif
