/*
 * Fervolatro: the checks of a book of one five-minute trading interval, the
 * statement of one account and its length, the balance of a pool and what
 * rounding cut off in it, statements read back, the payments and base costs
 * that dispatch rows make, and the reconciliation file for restart contracts
 * (NMAS), written and read back.
 *
 * A call reads the bytes it is lent and writes at most the buffer it is lent:
 * it keeps nothing from one call to the next, and needs no preparation and no
 * tidying up.
 *
 * The locked book. Every call on a book takes a second one, by whose energies
 * and region totals contracts of kind 2, test payments, are shared; all else,
 * the header of a statement too, is the book's own. It is lent as a slice like
 * the first, and a slice of length 0 is no locked book: NULL and 0 say so. It
 * is read only where the book has a contract of kind 2, and then wanted; where
 * the book has none, no byte of it is looked at, whatever is lent. It may be
 * the book itself, the same bytes twice.
 *
 * What a caller must keep to. A slice is lent as a pointer and a length: so
 * many bytes from there on can be read, and those of a buffer written, for as
 * long as the call lasts. What they hold may be anything. A slice of length 0
 * may come with any pointer, NULL too. Two things are forbidden:
 *
 *   - a buffer that overlaps a slice which the same call reads;
 *   - another thread, or a process that shares the memory, that changes lent
 *     bytes during the call.
 *
 * Either can make the call read or write anywhere. All that is proved of the
 * calls is proved of bytes that stay what they are during the call: a length or
 * a count that was read once and found good is not asked again.
 *
 * Threads. Calls share nothing: any number may run at once, each with a buffer
 * of its own, also on the same book.
 *
 * Stack. No call takes more than 4 KiB; tests/c/stack.c measures it.
 */
#ifndef FERVOLATRO_H
#define FERVOLATRO_H

#include <stddef.h>
#include <stdint.h>

/* The version of the library that this header belongs to. Whole numbers and
 * their text say the same. */
#define FERVOLATRO_VERSION_MAJOR 0
#define FERVOLATRO_VERSION_MINOR 6
#define FERVOLATRO_VERSION_PATCH 0
#define FERVOLATRO_VERSION "0.6.0"

/* How many bytes each record of a book has, in the order of the book. */
#define FERVOLATRO_BOOK_HEADER_SIZE 24
#define FERVOLATRO_REGION_ENTRY_SIZE 12
#define FERVOLATRO_CONSTRAINT_SIZE 40
#define FERVOLATRO_UNIT_ROW_SIZE 20
#define FERVOLATRO_ENERGY_ROW_SIZE 24
#define FERVOLATRO_CONTRACT_SIZE 36

/* How many of each a book has at most; it has five region entries, always. */
#define FERVOLATRO_REGION_ENTRIES 5
#define FERVOLATRO_MOST_CONSTRAINTS 64
#define FERVOLATRO_MOST_UNIT_ROWS 600
#define FERVOLATRO_MOST_ENERGY_ROWS 1024
#define FERVOLATRO_MOST_CONTRACTS 16

/* The bytes of a statement's header and of each of its lines, and how many
 * lines it has at most. */
#define FERVOLATRO_STATEMENT_HEADER_SIZE 24
#define FERVOLATRO_LINE_SIZE 24
#define FERVOLATRO_MOST_LINES 2152

/* The bytes of the largest book that is accepted and of the longest statement.
 * How long the statement at hand is, fervolatro_length answers. The latter is a
 * bound for a caller that cannot allocate: a buffer of that length is never
 * refused as too short. */
#define FERVOLATRO_LARGEST_BOOK 39796
#define FERVOLATRO_LARGEST_STATEMENT 51672

/* The bytes of a dispatch row. Rows come in a slice of their own, any number of
 * them. */
#define FERVOLATRO_DISPATCH_ROW_SIZE 16

/* The most that a dispatch row's price can be, in cents per MWh, its
 * enablement, in hundredths of a MW, and the product of the two, which needs 64
 * bits. */
#define FERVOLATRO_MOST_PRICE 2500000
#define FERVOLATRO_MOST_ENABLEMENT 1000000
#define FERVOLATRO_MOST_PRODUCT 600000000000LL

/* How many rows a reconciliation file that is written has at most, five regions
 * of each contract, and the bytes of the longest: no line has more than 171. A
 * buffer of that length is never refused as too short. A text that is read may
 * have any number of rows. */
#define FERVOLATRO_MOST_NMAS_ROWS 80
#define FERVOLATRO_LARGEST_NMAS 13680

/* The most that a cost, a payment or a line can be, either way, in ten-
 * thousandths of a dollar, and so a sum over dispatch rows. It needs 64
 * bits. */
#define FERVOLATRO_LIMIT 50000000000LL

/* What an answer's field refusal says; the calls below say which of these each
 * can give, and in which order they are looked for. */
enum {
    FERVOLATRO_NOT_REFUSED = 0,
    /* The book is shorter than header and region entries, 84 bytes. */
    FERVOLATRO_REFUSED_SHORT = 1,
    /* The book's mark, version or a reserved byte of its header is wrong. */
    FERVOLATRO_REFUSED_MARK = 2,
    /* Interval, date, run or a count of the header is out of its range. */
    FERVOLATRO_REFUSED_RANGE = 3,
    /* The book's length differs from what its counts give. */
    FERVOLATRO_REFUSED_LENGTH = 4,
    /* A field of a record is outside its rules. */
    FERVOLATRO_REFUSED_FIELD = 5,
    /* Records do not rise strictly by their ids or pairs of ids. */
    FERVOLATRO_REFUSED_ORDER = 6,
    /* A unit row names no constraint of the book, or one of mode 0. */
    FERVOLATRO_REFUSED_NO_CONSTRAINT = 7,
    /* The factors of a constraint do not add up. */
    FERVOLATRO_REFUSED_FACTORS = 8,
    /* A region entry differs from the sums of its energy rows. */
    FERVOLATRO_REFUSED_REGION_ENTRY = 9,
    /* A total that a share would be divided by is zero. */
    FERVOLATRO_REFUSED_ZERO_TOTAL = 10,
    /* No unit row and no energy row of a book read names the account. */
    FERVOLATRO_REFUSED_NO_ACCOUNT = 11,
    /* A line would pass FERVOLATRO_LIMIT either way. */
    FERVOLATRO_REFUSED_LIMIT = 12,
    /* The lent buffer is shorter than the statement or the file. */
    FERVOLATRO_REFUSED_BUFFER = 13,
    /* The bytes are not a statement. */
    FERVOLATRO_REFUSED_NO_STATEMENT = 14,
    /* The number of a pool, of a stage, of a line, of a payment type or of a
     * row is past the end. */
    FERVOLATRO_REFUSED_PAST_END = 15,
    /* A dispatch row is cut short, out of range or not rising, has a product
     * above FERVOLATRO_MOST_PRODUCT or takes a sum past FERVOLATRO_LIMIT. */
    FERVOLATRO_REFUSED_DISPATCH_ROW = 16,
    /* A contract of kind 2 has no locked book. */
    FERVOLATRO_REFUSED_NO_LOCKED = 17,
    /* The locked book fails one of checks 1 to 9, has another date or interval
     * than the book, or a later run. */
    FERVOLATRO_REFUSED_LOCKED = 18,
    /* A line of a reconciliation file is not of its form, out of the book's or
     * statement's ranges, has a benefit factor of 0, or a RECOVERY_AMOUNT that
     * is not the sum of the last two. */
    FERVOLATRO_REFUSED_NMAS_LINE = 19
};

/* What a line of a statement is for. ACE is the energy consumed, ASOE the
 * energy sent out. */
enum {
    FERVOLATRO_PART_CONTINGENCY_ACE = 1,
    FERVOLATRO_PART_CONTINGENCY_ASOE = 2,
    FERVOLATRO_PART_UNIT_FPP = 3,
    FERVOLATRO_PART_UNIT_USED = 4,
    FERVOLATRO_PART_UNIT_UNUSED = 5,
    FERVOLATRO_PART_RESIDUAL_FPP = 6,
    FERVOLATRO_PART_RESIDUAL_USED = 7,
    FERVOLATRO_PART_RESIDUAL_UNUSED = 8,
    FERVOLATRO_PART_CONTRACT_ACE = 9,
    FERVOLATRO_PART_CONTRACT_ASOE = 10
};

/* The service of a constraint or of a dispatch row. */
enum {
    FERVOLATRO_SERVICE_VERY_FAST_RAISE = 1,
    FERVOLATRO_SERVICE_VERY_FAST_LOWER = 2,
    FERVOLATRO_SERVICE_FAST_RAISE = 3,
    FERVOLATRO_SERVICE_FAST_LOWER = 4,
    FERVOLATRO_SERVICE_SLOW_RAISE = 5,
    FERVOLATRO_SERVICE_SLOW_LOWER = 6,
    FERVOLATRO_SERVICE_DELAYED_RAISE = 7,
    FERVOLATRO_SERVICE_DELAYED_LOWER = 8,
    FERVOLATRO_SERVICE_REGULATION_RAISE = 9,
    FERVOLATRO_SERVICE_REGULATION_LOWER = 10
};

/* The region of an energy row, of a dispatch row, of a row of a reconciliation
 * file or of a contract's stage of rounding, and the place of a region's entry
 * and of its benefit factor. */
enum {
    FERVOLATRO_REGION_NSW1 = 0,
    FERVOLATRO_REGION_QLD1 = 1,
    FERVOLATRO_REGION_SA1 = 2,
    FERVOLATRO_REGION_TAS1 = 3,
    FERVOLATRO_REGION_VIC1 = 4
};

/* The regions of a constraint or of a line: one bit each. */
enum {
    FERVOLATRO_REGION_BIT_NSW1 = 1,
    FERVOLATRO_REGION_BIT_QLD1 = 2,
    FERVOLATRO_REGION_BIT_SA1 = 4,
    FERVOLATRO_REGION_BIT_TAS1 = 8,
    FERVOLATRO_REGION_BIT_VIC1 = 16
};

/* The mode of a constraint: contingency goes with services 1 to 8, factored and
 * default (no factors were received) with 9 and 10. */
enum {
    FERVOLATRO_MODE_CONTINGENCY = 0,
    FERVOLATRO_MODE_FACTORED = 1,
    FERVOLATRO_MODE_DEFAULT = 2
};

/* The kind of a restart contract. One of kind 2 is shared by the locked
 * book. */
enum {
    FERVOLATRO_CONTRACT_ORDINARY = 1,
    FERVOLATRO_CONTRACT_TEST = 2
};

/* What a restart contract's payment is for, as a reconciliation file has it.
 * The book does not say: the caller chooses. */
enum {
    FERVOLATRO_PAYMENT_TYPE_AVAILABILITY = 0,
    FERVOLATRO_PAYMENT_TYPE_ENABLEMENT = 1,
    FERVOLATRO_PAYMENT_TYPE_COMPENSATION = 2
};

/* A stage of rounding between a pool and its lines: of a contingency constraint
 * its lines; of a factored or a default one the pool itself, its units' lines,
 * the residual pool and the residual lines; of a contract, in each region that
 * benefits, the region's whole part, the consumed half of that, and the lines
 * by ACE and by ASOE. */
enum {
    FERVOLATRO_STAGE_LINE = 1,
    FERVOLATRO_STAGE_POOL = 2,
    FERVOLATRO_STAGE_UNIT = 3,
    FERVOLATRO_STAGE_RESIDUAL = 4,
    FERVOLATRO_STAGE_SHARE = 5,
    FERVOLATRO_STAGE_WHOLE = 6,
    FERVOLATRO_STAGE_HALF = 7,
    FERVOLATRO_STAGE_ACE = 8,
    FERVOLATRO_STAGE_ASOE = 9
};

#ifdef __cplusplus
extern "C" {
#endif

/*
 * The answer of a check.
 *
 * refusal  0 if the book is accepted, else the number of the refusal, 1 to 10,
 *          17 or 18.
 * place    where in the book the fault lies, in bytes from its start;
 *          0 if the book is accepted. It is never a place in the locked book.
 */
typedef struct {
    uint64_t refusal;
    uint64_t place;
} fervolatro_verdict;

/*
 * Checks a book, and the locked book where it is read: any bytes of any length
 * get exactly one answer.
 *
 *   No  Given exactly when                              Place
 *    0  none of the rows below applies                  0
 *    1  book shorter than 84 bytes                      0
 *    2  mark, version or a reserved header byte wrong   0
 *    3  interval, date, run or a count out of its       0
 *       range
 *    4  length differs from what the counts give        0
 *    5  a field outside its rules                       that record's offset
 *    6  constraint ids, (constraint, unit) pairs,       offset of the record
 *       (account, region) pairs or contract ids not     not above its
 *       strictly rising                                 forerunner
 *    7  a unit row names no constraint here, or one     that row's offset
 *       of mode 0
 *    8  factor sums fail                                the constraint's offset
 *    9  a region entry differs from its rows' sums      the entry's offset
 *   17  a kind 2 contract has no locked book            the first such
 *                                                       contract's offset
 *   18  the locked book fails one of checks 1 to 9,     the first such
 *       has another date or interval, or a later run    contract's offset
 *   10  a total to divide by is zero                    constraint's or
 *                                                       contract's offset
 *
 * The first row that applies is given, in this order. Each check runs over the
 * whole book before the next one; within it the lowest offset is reported.
 *
 * 17 and 18 are given only where the book has a contract of kind 2, and their
 * place is that of the first. Of the locked book checks 1 to 9 are asked and no
 * other; then it has the book's date and interval, and the book's run or an
 * earlier one. For a contract of kind 2 the totals of 10 are the locked book's.
 *
 * book        the first of book_len readable bytes.
 * book_len    how many bytes are lent.
 * locked      the first of locked_len readable bytes.
 * locked_len  how many bytes are lent; 0 where there is no locked book.
 */
fervolatro_verdict fervolatro_check(const uint8_t *book, size_t book_len,
                                    const uint8_t *locked, size_t locked_len);

/*
 * The answer of fervolatro_length, and of a call that writes a statement, the
 * lines of one or a reconciliation file.
 *
 * refusal  0 if the call is not refused, else the number of the refusal, 1 to
 *          15, 17 or 18.
 * place    where in the book the fault lies, in bytes from its start; 0 if the
 *          call is not refused, and for refusals 11 to 15.
 * length   how many bytes were written, or how many fervolatro_statement would
 *          write; 0 if the call is refused.
 */
typedef struct {
    uint64_t refusal;
    uint64_t place;
    uint64_t length;
} fervolatro_written;

/*
 * Answers how many bytes the statement of one account has: 24 of its header and
 * 24 of each line, 51,672 at most.
 *
 *   No  Given exactly when                              Place
 *    0  none of the rows below applies                  0
 *    1  to 10, 17 and 18, as fervolatro_check gives
 *       them
 *   11  no book read names the account                  0
 *   12  a line would pass 50,000,000,000 ten-           0
 *       thousandths of a dollar either way
 *
 * The first row that applies is given, in this order. There is no 13, since no
 * buffer is lent.
 *
 * A book names the accounts of its unit rows and of its energy rows. One that
 * only the locked book names, where that is read, has every line that the book
 * gives an account without rows.
 *
 * Who wants a statement asks for its length first and lends just that much. Of
 * the same books and account, fervolatro_statement never refuses a buffer of
 * this length by 13, and always one of a byte less:
 *
 *   fervolatro_written asked = fervolatro_length(book, book_len, locked,
 *                                                locked_len, account);
 *   uint8_t *buffer = asked.refusal == 0 ? malloc(asked.length) : NULL;
 *
 * book        the first of book_len readable bytes.
 * book_len    how many bytes are lent.
 * locked      the first of locked_len readable bytes.
 * locked_len  how many bytes are lent; 0 where there is no locked book.
 * account     any number; 0 is no account, and refused by 11.
 */
fervolatro_written fervolatro_length(const uint8_t *book, size_t book_len,
                                     const uint8_t *locked, size_t locked_len,
                                     uint32_t account);

/*
 * Writes the statement of one account: a header of 24 bytes and lines of 24
 * bytes each, in all as many as fervolatro_length answers.
 *
 *   No  Given exactly when                              Place
 *    0  none of the rows below applies                  0
 *    1  to 12, 17 and 18, as fervolatro_length gives
 *       them
 *   13  buffer_len below the statement's length         0
 *
 * The first row that applies is given, in this order. The call makes all these
 * checks itself, whether the length was asked for before or not.
 *
 * Date, interval and run of the statement are the book's, also where the locked
 * book is read.
 *
 * Where the answer is 0, the first length bytes of the buffer are the
 * statement and every later byte is what it was. A refusal leaves every byte
 * of the buffer what it was.
 *
 * book        the first of book_len readable bytes.
 * book_len    how many bytes are lent to be read.
 * locked      the first of locked_len readable bytes.
 * locked_len  how many bytes are lent to be read; 0 where there is no locked
 *             book.
 * account     any number; 0 is no account, and refused by 11.
 * buffer      the first of buffer_len writable bytes, none of them in the book
 *             or in the locked book.
 * buffer_len  how many bytes are lent to be written.
 */
fervolatro_written fervolatro_statement(const uint8_t *book, size_t book_len,
                                        const uint8_t *locked,
                                        size_t locked_len, uint32_t account,
                                        uint8_t *buffer, size_t buffer_len);

/*
 * The answer of fervolatro_balance.
 *
 * refusal  0 if the pool is there, else the number of the refusal, 1 to 10, 15,
 *          17 or 18; then every field below is 0 but the place.
 * place    where in the book the fault lies, in bytes from its start; 0 if the
 *          pool is there, and for refusal 15.
 * amount   what is to be recovered, in ten-thousandths of a dollar: the cost
 *          of a constraint of mode 0 or 2, nothing for FPP, the used and the
 *          unused part of the cost, the payment of a contract.
 * lines    how many lines all accounts have in the pool.
 * sum      what those lines add up to; what accounts must pay is negative.
 */
typedef struct {
    uint64_t refusal;
    uint64_t place;
    int64_t amount;
    uint64_t lines;
    int64_t sum;
} fervolatro_pool;

/*
 * Gives the balance of one pool: what is to be recovered, and what the lines of
 * all accounts add up to. amount + sum is what rounding leaves over: in size at
 * most half a unit of money per line, and one half more for a constraint of
 * mode 1 or 2, or one half more per benefiting region for a contract. What each
 * stage of rounding cut off fervolatro_cutoff tells.
 *
 *   No  Given exactly when                              Place
 *    0  none of the rows below applies                  0
 *    1  to 10, 17 and 18, as fervolatro_check gives
 *       them
 *   15  pool is not below the number of pools           0
 *
 * The first row that applies is given, in this order.
 *
 * Pools are numbered from 0 in book order: one for a constraint of mode 0,
 * three for one of mode 1 (FPP, used, unused), one for one of mode 2, one for a
 * contract. The accounts are those that a unit row or an energy row of the book
 * names, or one of the locked book where that is read, each once: for every
 * pool, those of constraints too.
 *
 * book        the first of book_len readable bytes.
 * book_len    how many bytes are lent.
 * locked      the first of locked_len readable bytes.
 * locked_len  how many bytes are lent; 0 where there is no locked book.
 * pool        any number.
 */
fervolatro_pool fervolatro_balance(const uint8_t *book, size_t book_len,
                                   const uint8_t *locked, size_t locked_len,
                                   uint64_t pool);

/*
 * The answer of fervolatro_cutoff.
 *
 * refusal  0 if the stage is there, else the number of the refusal, 1 to 10,
 *          15, 17 or 18; then every field below is 0 but the place.
 * place    where in the book the fault lies, in bytes from its start; 0 if the
 *          stage is there, and for refusal 15.
 * stage    1 to 9, which stage of rounding it is.
 * region   0 to 4 in stages 6 to 9, those of a contract, else 0.
 * divisor  what every quotient of the stage is divided by, above 0.
 * cut      what the stage's roundings cut off together, as a numerator over the
 *          divisor: of each quotient exact less rounded, negative where it was
 *          rounded up.
 */
typedef struct {
    uint64_t refusal;
    uint64_t place;
    uint64_t stage;
    uint64_t region;
    uint64_t divisor;
    int64_t cut;
} fervolatro_cut;

/*
 * Gives what one stage of rounding cut off in a pool, summed over all that is
 * rounded there: why a balance is not nil.
 *
 *   No  Given exactly when                              Place
 *    0  none of the rows below applies                  0
 *    1  to 10, 17 and 18, as fervolatro_check gives
 *       them
 *   15  pool is not below the number of pools           0
 *   15  index is not below the number of stages         0
 *
 * The first row that applies is given, in this order. Pools are numbered, and
 * accounts are those, as fervolatro_balance has them.
 *
 * A pool has these stages, in this order:
 *
 *   Stage      What is rounded                               Divisor
 *   of a constraint of mode 0
 *     line     cost x own energy, of each account            the total of ASOE
 *                                                            or of ACE
 *   of one of mode 1, in each pool; mode 2 has the last three
 *     pool     price x RCR, cost x usage                     120, 1,000,000
 *     unit     pool x factor, of each unit row               1,000,000
 *     residual pool x residual factor                        1,000,000
 *     share    residual pool x own residual energy, of       the residual
 *              each account                                  total
 *   of a contract, in each region whose benefit factor is above 0, rising
 *     whole    payment x factor                              1,000,000
 *     half     the region's part, of which the consumed      2
 *              half is rounded up
 *     ace      consumed half x own ACE, of each account      the region's ACE
 *     asoe     sent-out half x own ASOE, of each account     the region's ASOE
 *
 * The unused pool of a constraint of mode 1 is cost less used, and not rounded
 * itself: its stage pool has minus what used cut off. Energies and totals are
 * sizes, those of a contract of kind 2 the locked book's; factors keep their
 * signs. A line of a contingency constraint or of a contract is minus what is
 * rounded, and what is cut off is not turned with it.
 *
 * So amount + sum of fervolatro_balance is the sum of cut / divisor over the
 * stages line, whole, ace and asoe, less that over unit, residual and share.
 *
 * book        the first of book_len readable bytes.
 * book_len    how many bytes are lent.
 * locked      the first of locked_len readable bytes.
 * locked_len  how many bytes are lent; 0 where there is no locked book.
 * pool        any number.
 * index       the number of the stage, from 0; any number.
 */
fervolatro_cut fervolatro_cutoff(const uint8_t *book, size_t book_len,
                                 const uint8_t *locked, size_t locked_len,
                                 uint64_t pool, uint64_t index);

/*
 * The answer of fervolatro_header.
 *
 * refusal   0 if the bytes are a statement, else 14; then every field below
 *           is 0.
 * place     0.
 * account   whose statement it is.
 * date      as YYYYMMDD.
 * interval  of the day, 1 to 288.
 * run       1 to 99.
 * lines     how many lines the statement has, 0 to 2,152.
 */
typedef struct {
    uint64_t refusal;
    uint64_t place;
    uint64_t account;
    uint64_t date;
    uint64_t interval;
    uint64_t run;
    uint64_t lines;
} fervolatro_heading;

/*
 * Reads the header of a statement: any bytes of any length get exactly one
 * answer.
 *
 *   No  Given exactly when                              Place
 *    0  the bytes are a statement                       0
 *   14  they are not                                    0
 *
 * Bytes are a statement where
 *
 *   - mark and version are right and every reserved byte is 0;
 *   - interval, date and run are in their ranges, the account is from 1, and
 *     there are 0 to 2,152 lines;
 *   - the length is 24 + 24 x lines;
 *   - each line has an id from 1, a part of 1 to 10, regions of 1 to 31, one
 *     bit of them in parts 9 and 10, a unit that is non-zero exactly in parts
 *     3 to 5, and an amount within 50,000,000,000 ten-thousandths of a dollar
 *     either way that is not positive outside parts 3 and 6.
 *
 * The order of the lines is not judged.
 *
 * statement      the first of statement_len readable bytes.
 * statement_len  how many bytes are lent.
 */
fervolatro_heading fervolatro_header(const uint8_t *statement,
                                     size_t statement_len);

/*
 * The answer of fervolatro_line.
 *
 * refusal  0 if the line is there, else 14 or 15; then every field below is 0.
 * place    0.
 * id       of the constraint, or in parts 9 and 10 of the contract.
 * part     1 to 10, what the line is for.
 * regions  one bit each, bit 0 for NSW1.
 * unit     the unit's id in parts 3 to 5, else 0.
 * amount   in ten-thousandths of a dollar; what the account must pay is
 *          negative.
 */
typedef struct {
    uint64_t refusal;
    uint64_t place;
    uint64_t id;
    uint64_t part;
    uint64_t regions;
    uint64_t unit;
    int64_t amount;
} fervolatro_entry;

/*
 * Reads one line of a statement.
 *
 *   No  Given exactly when                              Place
 *    0  none of the rows below applies                  0
 *   14  the bytes are not a statement, as               0
 *       fervolatro_header has it
 *   15  index is not below the number of lines          0
 *
 * The lowest number that applies is given.
 *
 * statement      the first of statement_len readable bytes.
 * statement_len  how many bytes are lent.
 * index          the number of the line, from 0.
 */
fervolatro_entry fervolatro_line(const uint8_t *statement,
                                 size_t statement_len, uint64_t index);

/*
 * One line of those that fervolatro_lines hands out; its fields are those of
 * fervolatro_entry.
 *
 * id       of the constraint, or in parts 9 and 10 of the contract.
 * part     1 to 10, what the line is for.
 * regions  one bit each, bit 0 for NSW1.
 * unit     the unit's id in parts 3 to 5, else 0.
 * amount   in ten-thousandths of a dollar; what the account must pay is
 *          negative.
 */
typedef struct {
    uint64_t id;
    uint64_t part;
    uint64_t regions;
    uint64_t unit;
    int64_t amount;
} fervolatro_fields;

/*
 * Reads all lines of a statement, which is checked once: an array of
 * fervolatro_fields, in the order of the lines. To read them one by one with
 * fervolatro_line costs a check of the whole statement each.
 *
 *   No  Given exactly when                              Place
 *    0  none of the rows below applies                  0
 *   14  the bytes are not a statement, as               0
 *       fervolatro_header has it
 *   13  buffer_len below 40 x lines                     0
 *
 * 14 is looked for first.
 *
 * Where the answer is 0, its length is 40 x lines, and so many bytes at the
 * front of the buffer are the lines: five numbers each, of 64 bits,
 * little-endian, the amount in two's complement. On x86-64 that is an array of
 * fervolatro_fields:
 *
 *   fervolatro_fields lines[FERVOLATRO_MOST_LINES];
 *   fervolatro_written written = fervolatro_lines(
 *       statement, statement_len, (uint8_t *)lines, sizeof lines);
 *
 * Every later byte is what it was. A refusal leaves every byte of the buffer
 * what it was.
 *
 * statement      the first of statement_len readable bytes.
 * statement_len  how many bytes are lent to be read.
 * buffer         the first of buffer_len bytes to write to, none of them in
 *                the statement; it may stand at any address.
 * buffer_len     how many bytes are lent to be written.
 */
fervolatro_written fervolatro_lines(const uint8_t *statement,
                                    size_t statement_len, uint8_t *buffer,
                                    size_t buffer_len);

/*
 * Writes a statement that was read again: its header, and its lines in their
 * order.
 *
 *   No  Given exactly when                              Place
 *    0  none of the rows below applies                  0
 *   14  the bytes are not a statement, as               0
 *       fervolatro_header has it
 *   13  buffer_len below the statement's length         0
 *
 * 14 is looked for first.
 *
 * Where the answer is 0, the first length bytes of the buffer are the
 * statement and every later byte is what it was. A refusal leaves every byte
 * of the buffer what it was.
 *
 * statement      the first of statement_len readable bytes.
 * statement_len  how many bytes are lent to be read.
 * buffer         the first of buffer_len writable bytes, none of them in the
 *                statement.
 * buffer_len     how many bytes are lent to be written.
 */
fervolatro_written fervolatro_rewrite(const uint8_t *statement,
                                      size_t statement_len, uint8_t *buffer,
                                      size_t buffer_len);

/*
 * The answer of fervolatro_payment and of fervolatro_base_cost.
 *
 * refusal  0 if no row is refused, else 16.
 * place    where the refused row begins, in bytes from the start of the rows;
 *          0 if no row is refused.
 * amount   what the rows make, in ten-thousandths of a dollar, 0 to
 *          50,000,000,000; 0 if the call is refused.
 */
typedef struct {
    uint64_t refusal;
    uint64_t place;
    uint64_t amount;
} fervolatro_cost;

/*
 * Makes the payment of one service: the sum over its payment rows of price x
 * enablement / 12, rounded row by row to the nearest whole number, halves up.
 *
 *   No  Given exactly when                              Place
 *    0  no row is refused                               0
 *   16  a row is cut short, out of range, not rising,   the first such row's
 *       has a product above 600,000,000,000 or takes    offset
 *       a sum past 50,000,000,000
 *
 * Dispatch rows stand one behind the other, any number of them, also none. A
 * row has 16 bytes, its numbers are little-endian:
 *
 *   At  Field                                           Range
 *    0  id, u32: 0 in a payment row, else the id of     any
 *       a constraint
 *    4  service, u8                                     1 to 10
 *    5  region, u8                                      0 to 4
 *    6  reserved, u16                                   0
 *    8  price, u32, in cents per MWh: the marginal      0 to 2,500,000
 *       value where the id is a constraint's
 *   12  enablement, u32, in hundredths of a MW          0 to 1,000,000
 *
 * A last piece of 1 to 15 bytes is a row cut short. Rows rise strictly by id,
 * then service, then region. A product is the row's own price x enablement, a
 * sum that of its own id and service over the rows up to it and with it. The
 * whole slice is checked, whatever is asked for.
 *
 * The amount is 0 for a service that no payment row has, also for one that is
 * not 1 to 10.
 *
 * rows      the first of rows_len readable bytes.
 * rows_len  how many bytes are lent.
 * service   any number.
 */
fervolatro_cost fervolatro_payment(const uint8_t *rows, size_t rows_len,
                                   uint64_t service);

/*
 * Makes the base cost of one constraint in one service: the sum over the rows
 * of that id and service of marginal value x enablement / 12, rounded row by
 * row to the nearest whole number, halves up.
 *
 *   No  Given exactly when                              Place
 *    0  no row is refused                               0
 *   16  a row is cut short, out of range, not rising,   the first such row's
 *       has a product above 600,000,000,000 or takes    offset
 *       a sum past 50,000,000,000
 *
 * The rows are those of fervolatro_payment. The whole slice is checked,
 * whatever is asked for.
 *
 * The amount is 0 for an id and a service that no row has together, and for id
 * 0: payment rows are no constraint's cost.
 *
 * rows      the first of rows_len readable bytes.
 * rows_len  how many bytes are lent.
 * id        any number.
 * service   any number.
 */
fervolatro_cost fervolatro_base_cost(const uint8_t *rows, size_t rows_len,
                                     uint32_t id, uint64_t service);

/*
 * Writes the reconciliation file of one account: a line of text for each
 * contract and each region whose benefit factor is above 0, in the order of the
 * statement. An account of a book without contracts has the empty text, of
 * length 0.
 *
 *   No  Given exactly when                              Place
 *    0  none of the rows below applies                  0
 *   15  type is not below 3                             0
 *    1  to 12, 17 and 18, as fervolatro_length gives
 *       them
 *   13  buffer_len below the text's length              0
 *
 * The first row that applies is given, in this order: 15 before all else.
 *
 * A line has seventeen fields, with commas between them and a line feed behind
 * the last; there is no line of titles:
 *
 *   Field                 What it is                              Decimals
 *   SETTLEMENTDATE        the book's date, YYYYMMDD
 *   VERSIONNO             the book's run
 *   PERIODID              the book's interval
 *   PARTICIPANTID         the account
 *   SERVICE               RESTART
 *   CONTRACTID            the contract's id
 *   PAYMENTTYPE           AVAILABILITY, ENABLEMENT or
 *                         COMPENSATION, as type says
 *   REGIONID              NSW1, QLD1, SA1, TAS1 or VIC1
 *   RBF                   the region's benefit factor             6
 *   PAYMENT_AMOUNT        the whole payment, in dollars           4
 *   RECOVERY_AMOUNT       the sum of the last two, in dollars     4
 *   PARTICIPANT_ACE_MWH   the account's ACE in the region         3
 *   REGION_ACE_MWH        all accounts' ACE in the region         3
 *   PARTICIPANT_ASOE_MWH  the account's ASOE in the region        3
 *   REGION_ASOE_MWH       all accounts' ASOE in the region        3
 *   RECOVERYAMOUNT_ACE    the statement's line of part 9          4
 *   RECOVERYAMOUNT_ASOE   the statement's line of part 10         4
 *
 * Energies are in MWh. Numbers are decimal, with a minus where they are below
 * 0, as ACE is and what the account must pay. There is no plus, no blank and no
 * carriage return, no zero at the front but one right before a point, and no
 * minus before 0. Energies of a contract of kind 2 are the locked book's; date,
 * run and interval are the book's own.
 *
 * Where the answer is 0, the first length bytes of the buffer are the text and
 * every later byte is what it was: no byte of 0 ends it. A refusal leaves every
 * byte of the buffer what it was. A buffer of FERVOLATRO_LARGEST_NMAS bytes is
 * never refused by 13.
 *
 * book        the first of book_len readable bytes.
 * book_len    how many bytes are lent to be read.
 * locked      the first of locked_len readable bytes.
 * locked_len  how many bytes are lent to be read; 0 where there is no locked
 *             book.
 * account     any number; 0 is no account, and refused by 11.
 * type        any number; those of FERVOLATRO_PAYMENT_TYPE_.. are not refused.
 * buffer      the first of buffer_len writable bytes, none of them in the book
 *             or in the locked book.
 * buffer_len  how many bytes are lent to be written.
 */
fervolatro_written fervolatro_nmas(const uint8_t *book, size_t book_len,
                                   const uint8_t *locked, size_t locked_len,
                                   uint32_t account, uint64_t type,
                                   uint8_t *buffer, size_t buffer_len);

/*
 * The answer of fervolatro_nmas_rows.
 *
 * refusal  0 if the text is a reconciliation file, else 19.
 * place    the number of the first line at fault, from 0; 0 if there is none.
 * rows     how many rows the file has, one of each line; 0 if it is refused.
 */
typedef struct {
    uint64_t refusal;
    uint64_t place;
    uint64_t rows;
} fervolatro_nmas_size;

/*
 * Reads how many rows a reconciliation file has: any bytes of any length get
 * exactly one answer.
 *
 *   No  Given exactly when                              Place
 *    0  the bytes are a reconciliation file             0
 *   19  a line is not of the form, out of the book's    the first such line's
 *       or statement's ranges, has a benefit factor     number, from 0
 *       of 0, or a RECOVERY_AMOUNT that is not the
 *       sum of the last two
 *
 * The form is that of fervolatro_nmas: a row has one spelling. A line ends in
 * its line feed, the last one too: bytes that stop without one are a line at
 * fault. No bytes at all are a file of no rows. The ranges are these:
 *
 *   - a real date in 2025 to 2099, run 1 to 99, interval 1 to 288, account and
 *     contract from 1 to 4,294,967,295;
 *   - a factor of 1 to 1,000,000 millionths, a payment of 0 to 50,000,000,000
 *     ten-thousandths of a dollar;
 *   - ACE of -20,000,000 to 0 kWh, ASOE of 0 to 20,000,000, both the account's
 *     and all accounts';
 *   - each of the last two -50,000,000,000 to 0 ten-thousandths of a dollar.
 *
 * Each line is judged by itself: neither the order of the lines is judged, nor
 * whether one comes twice, nor how the account's energy stands to that of all.
 *
 * text      the first of text_len readable bytes.
 * text_len  how many bytes are lent.
 */
fervolatro_nmas_size fervolatro_nmas_rows(const uint8_t *text,
                                          size_t text_len);

/*
 * The answer of fervolatro_nmas_row.
 *
 * refusal      0 if the row is there, else 19 or 15; then every field below is
 *              0 but the place.
 * place        the number of the first line at fault, from 0; 0 if the row is
 *              there, and for refusal 15.
 * date         as YYYYMMDD.
 * run          1 to 99.
 * interval     of the day, 1 to 288.
 * account      whose row it is.
 * contract     the contract's id.
 * type         0 to 2, what the payment is for.
 * region       0 to 4.
 * factor       the region's benefit factor, in millionths.
 * payment      the whole payment, in ten-thousandths of a dollar.
 * recovery     by_ace + by_asoe; what the account must pay is negative.
 * own_ace      the account's ACE in the region, in kWh, 0 or negative.
 * region_ace   all accounts' ACE in the region.
 * own_asoe     the account's ASOE in the region, in kWh, 0 or positive.
 * region_asoe  all accounts' ASOE in the region.
 * by_ace       what the account must pay by its ACE, in ten-thousandths of a
 *              dollar.
 * by_asoe      what it must pay by its ASOE.
 */
typedef struct {
    uint64_t refusal;
    uint64_t place;
    uint64_t date;
    uint64_t run;
    uint64_t interval;
    uint64_t account;
    uint64_t contract;
    uint64_t type;
    uint64_t region;
    uint64_t factor;
    uint64_t payment;
    int64_t recovery;
    int64_t own_ace;
    int64_t region_ace;
    int64_t own_asoe;
    int64_t region_asoe;
    int64_t by_ace;
    int64_t by_asoe;
} fervolatro_nmas_entry;

/*
 * Reads one row of a reconciliation file. The whole text is judged for it,
 * whatever row is asked for.
 *
 *   No  Given exactly when                              Place
 *    0  none of the rows below applies                  0
 *   19  a line is not of the form, out of the book's    the first such line's
 *       or statement's ranges, has a benefit factor     number, from 0
 *       of 0, or a RECOVERY_AMOUNT that is not the
 *       sum of the last two
 *   15  index is not below the number of rows           0
 *
 * 19 is looked for first.
 *
 * text      the first of text_len readable bytes.
 * text_len  how many bytes are lent.
 * index     the number of the row, from 0.
 */
fervolatro_nmas_entry fervolatro_nmas_row(const uint8_t *text, size_t text_len,
                                          uint64_t index);

#ifdef __cplusplus
}
#endif

#endif
