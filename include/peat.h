/*
 * The peat ledger for C and for every language that calls C.
 *
 * Building: `rt lib` in crates/capi writes crates/capi/out/libcapi.a, then
 *     cc x.c -Iinclude -Lcrates/capi/out -lcapi
 * on Linux, x86-64-v2 (`rt lib --cpu x86-64`: any x86-64). harness/tests/header.c is an example of every call.
 *
 * docs/RULES.md describes listing, book and lines bit by bit, and every rule. In short: a listing holds a project's
 * figures, a book its state; both are arrays of 32-bit words that the caller owns. A listing whose word 2 is of kind 7,
 * its site word, states its own guard and least thickness of peat there; without it they are 400 and 300 mm. Bits 27 to
 * 23 of word 1 are the percentage of the burned carbon that is left as char. A drainage of the tables counts from the
 * surface at conversion, and what a cell has lost since is taken off. Tables made before that, which counted from each
 * year's surface, must be restated (docs/GUIDE.md); no call can tell which rule a table was made for. A book with one
 * word of tonnes issued, of before peat_convert, is an old book: peat_convert makes a new one of it. The library keeps
 * nothing between calls and allocates nothing; a call takes at most 40,000 bytes of the stack (a forecast).
 *
 * Slices. An array is passed as a pointer and its length in elements, not bytes. Any length and any contents get an
 * answer, but the caller sees to it that
 *   - the memory is valid for that length, and aligned for its type;
 *   - the slices of one call do not overlap, unless both are const;
 *   - no pointer is null, not even with length 0: pass the address of any object of that type.
 * Elements beyond those needed are left as they are.
 *
 * Refusals. Number 0 is accepted. Any other number is a refusal: nothing has been written to any slice, every figure of
 * the answer is 0, and every flag false. The tests run in the order of this table, and the first that fails is
 * answered; where one number has several places, the lowest (for dips the lowest of the first recording that has one;
 * of the two books of peat_convert the old one's):
 *
 *   no.  met by                condition                                               place
 *    1   every listing         fewer than 2 words                                      0
 *    2                         word 0 or 1: kind or range                              index of the word
 *    3                         fewer words than strata * horizon + 2 * cells + 2,      length of the listing
 *                              or + 3 with a site word
 *    4                         a later word: kind, zero bits or range                  index of the word
 *    5                         a yearly term not above the one before                  index of the later term
 *    6   every book            shorter than 3 + 3 * cells words (the old book of       length of the book
 *                              peat_convert: than 2 + 3 * cells)
 *    7   close                 lines shorter than 3 * cells words                      length of lines
 *    8   every book but those  a word of the book is invalid; a bad sum of losses      index of the word
 *        of open and forecast  counts at the word of burned mm
 *        and the new one of
 *        convert
 *    9   close                 the book is at the horizon                              0
 *   10   replan, withdraw,     no such cell                                            0
 *        statement
 *   11   replan, withdraw      the cell is withdrawn                                   0
 *   12   replan                the cell is converted already                           0
 *   13   replan                the new year is neither 0 nor current + 1 to horizon    0
 *   14   close                 a kg line above 268,435,455: proved not to arise        the cell
 *   15   forecast              output shorter than the horizon                         length of output
 *   16   core, levels, dips    not a finite number                                     0: core or surface, 1: base;
 *                                                                                      of dips the dip's index
 *   17   core, levels, dips    out of range                                            the same, 2: the difference
 *   18   missing               there is no reading                                     0
 *   19   discount              list lengths unequal, or not 1 to 5                     0
 *   20   discount              a value above 20,000                                    the list, 0 to 3
 *   21   logged                years not 1 to 100, strata not 1 to 8, or a list not    0
 *                              as long as they ask
 *   22   logged                a value above 10,000                                    the list, 0 to 2
 *   23   dips                  the lists of one recording differ in length             0
 *   24   dips                  a day not above the one before                          index of the later day
 *
 * For a pair of levels 16 is tested on both before 17. For dips 23 and 24 come before 16 and 17, and the readings are
 * tested one after the other, each for 16 and then for 17, by index, a depth before its tolerance. Each of 23, 24 and
 * the readings is tested on the first recording before the second. For peat_convert 6 is tested on the old book before
 * the new one, and both before 8, which is asked of the old book alone.
 */
#ifndef PEAT_H
#define PEAT_H

#include <stdbool.h>
#include <stddef.h>
#include <stdint.h>

#ifdef __cplusplus
extern "C" {
#endif

/* What a call answers; place 0 where it is accepted. `value` is described at each call; 0 where nothing is said. */
typedef struct {
    uint32_t number;
    uint32_t value;
    size_t place;
} peat_answer;

/* A cell's statement: depths in mm, emission to date in kg CO2e, plan year (0: never converted) and the mark. */
typedef struct {
    uint32_t number;
    size_t place;
    uint32_t entered, remaining, oxidised, burned, kg, plan_year;
    bool withdrawn;
} peat_account;

/*
 * What a forecast answers: kg CO2e, 0 where it is refused. Before the total was answered, peat_forecast returned a
 * peat_answer: whoever calls it has to be compiled with this header, since a linker does not see the difference.
 */
typedef struct {
    uint32_t number;
    size_t place;
    uint64_t total;
} peat_total;

/* The test of logged blocks: the average in tenths of t C per ha, rounded down, and whether the test holds. */
typedef struct {
    uint32_t number;
    size_t place;
    uint32_t average;
    bool holds;
} peat_logged_answer;

/*
 * Two recordings held against each other: how many days are in both, in the first alone and in the second alone, and
 * whether the two dips of any day in both differ by more than both tolerances together. day: the first such day, 0
 * where there is none; `differs` tells, since a day's number may be 0.
 */
typedef struct {
    uint32_t number;
    size_t place;
    size_t paired, only_first, only_second;
    bool differs;
    uint32_t day;
} peat_dips_answer;

/*
 * Writes a book for a project that begins: year 0, nothing issued, the plan years of the listing, no losses. Whatever
 * it held is overwritten.
 */
peat_answer peat_open(const uint32_t *listing, size_t listing_len, uint32_t *book, size_t book_len);

/*
 * Converts an old book, of 2 + 3 * cells words, into a new one, of 3 + 3 * cells words: year, tonnes, marks, plan years
 * and losses are kept. `old_book` is only read, and `new_book` may hold anything. A place of 6 is the length of the
 * book that is too short, a place of 8 an index in `old_book`. Convert once, with the project's own listing.
 */
peat_answer peat_convert(const uint32_t *listing, size_t listing_len, const uint32_t *old_book, size_t old_book_len,
                         uint32_t *new_book, size_t new_book_len);

/*
 * Closes the next year. Writes three words for each cell into `lines`, cell after cell: the year's oxidised mm (kind
 * 13), burned mm (kind 14) and kg CO2e (kind 15), each in bits 27 to 0. Brings the book up to that year.
 */
peat_answer peat_close(const uint32_t *listing, size_t listing_len, uint32_t *book, size_t book_len, uint32_t *lines,
                       size_t lines_len);

/* Sets the plan year of a cell that is not yet converted, 0 for never. Cells count from 0. */
peat_answer peat_replan(const uint32_t *listing, size_t listing_len, uint32_t *book, size_t book_len, size_t cell,
                        uint32_t year);

/* Marks a cell as withdrawn, for good: it loses nothing more, and what it has lost stays counted. */
peat_answer peat_withdraw(const uint32_t *listing, size_t listing_len, uint32_t *book, size_t book_len, size_t cell);

/* Pays out what the balance is above all tonnes issued before. value: tonnes of this issue, 0 if there are none. */
peat_answer peat_issue(const uint32_t *listing, size_t listing_len, uint32_t *book, size_t book_len);

/* States a cell's account and writes nothing. */
peat_account peat_statement(const uint32_t *listing, size_t listing_len, const uint32_t *book, size_t book_len,
                            size_t cell);

/*
 * Works out every year to the horizon, as planned in the listing. Writes each year's kg CO2e over all cells into
 * `output`, one number for each year, year 1 first. `book` is scratch, 3 + 3 * cells words, not the project's own:
 * whatever it holds is overwritten, and it is left as closed at the horizon, with nothing issued. Replans, withdrawals
 * and closed years of a project are not in it. total: the kg CO2e to date of all cells then, which is what all years'
 * numbers add up to. It may pass 32 bits.
 */
peat_total peat_forecast(const uint32_t *listing, size_t listing_len, uint32_t *book, size_t book_len,
                         uint64_t *output, size_t output_len);

/* A core depth of 0 to 20 m. value: whole mm, rounded down from 1,000 times the exact binary value. */
peat_answer peat_core(float metres);

/* Levels of surface and base, each -100 to 3,000 m. value: mm of the surface less mm of the base, 0 to 20,000. */
peat_answer peat_levels(float surface, float base);

/* A reading that was not taken: always refused by 18. */
peat_answer peat_missing(void);

/*
 * The plant discount (EQ15, EQ16) of two classes, one value for each of 1 to 5 carbon pools, in tenths of t CO2e per
 * ha: half-widths of the confidence intervals (lists 0 and 1) and stocks (lists 2 and 3). value: ten-thousandths.
 */
peat_answer peat_discount(const uint32_t *first_widths, size_t first_widths_len, const uint32_t *second_widths,
                          size_t second_widths_len, const uint32_t *first_stocks, size_t first_stocks_len,
                          const uint32_t *second_stocks, size_t second_stocks_len);

/*
 * Logged blocks: the long-term average carbon stock (EQ34), and the test by which it limits term 4 (EQ48). `years` is
 * T, the years of the average, 1 to 100; strata are 1 to 8. Three lists, each value 0 to 10,000:
 *   0, densities  tenths of t C per ha: (years + 1) * strata values, year 0 first, in each year stratum after stratum
 *   1, areas      whole ha: years * strata values, year 1 first, in the same way
 *   2, discounts  ten-thousandths, 10,000 where all of the density counts: one for each stratum
 * average: the sum of density * discount of years 0 to T and all strata, / (10,000 * T). holds: over years 1 to T and
 * all strata, area * discounted density is together at least area * average; the test takes the average unrounded.
 * Where it holds, term 4 is 0. A refused call has holds false too: look at the number first.
 */
peat_logged_answer peat_logged(uint32_t years, uint32_t strata, const uint32_t *densities, size_t densities_len,
                               const uint32_t *areas, size_t areas_len, const uint32_t *discounts,
                               size_t discounts_len);

/*
 * Hand dips held against a logger's recording of the same well, or any two recordings. Each is three lists of one
 * length, which may be 0: day numbers, each above the one before; depths and tolerances, metres of 0 to 20, of which
 * the whole mm count, rounded down. A day is paired with the same day of the other recording. Its two dips differ if
 * their mm differ by more than the mm of both tolerances together. A refused call has differs false too: look at the
 * number first. The place of a refusal tells neither whose it is, nor whether a depth or a tolerance: hold each
 * recording against one of length 0, and try the depth by peat_core.
 */
peat_dips_answer peat_dips(const uint32_t *first_days, size_t first_days_len, const float *first_depths,
                           size_t first_depths_len, const float *first_tolerances, size_t first_tolerances_len,
                           const uint32_t *second_days, size_t second_days_len, const float *second_depths,
                           size_t second_depths_len, const float *second_tolerances, size_t second_tolerances_len);

#ifdef __cplusplus
}
#endif

#endif
