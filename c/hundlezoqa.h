/* Hundlezoqa: guard tables made and run by proved functions. For C99 and C++; the library is
 * target/staticlib/libhundlezoqa_c.a (tools/library makes it), x86-64 code for the System V calling convention.
 *
 * Each function of the library is proved to do what is said here, whatever stands in the memory that it is given. The memory itself
 * it asks for, AND C CHECKS NONE OF THAT:
 *
 * - A pointer and the length after it, in elements, are memory that may be read over that length, and where the pointer
 *   is not to const, written. The length is true; it may be any: memory that is too short is refused.
 * - A parameter with a size in brackets is memory of that size, which may be read and written.
 * - Each is aligned for its type and not null, also where the length is 0.
 * - No two memories of a call overlap, be they written or only read.
 * - While a call lasts no other thread reads or writes what it may write, and none writes what it only reads: one table may be lent to
 *   several calls at once.
 *
 * A wrong sheet, table, board or input is refused. A function answers HZ_OK or the number of a refusal, and of several grounds the
 * one that is named first. It always ends. It keeps no pointer and no state of its own, so that threads may call at once, each with
 * its own memory. Of the C library it needs memcpy and memset, of the stack some 39 KB for hz_forecast and under 2 KB for every
 * other function (measured, not proved).
 *
 * hz_supervisor, hz_guard, hz_card and hz_play, at the end of this file, make the same calls with less to write.
 *
 * rust/conformance/tests/header.rs holds the numbers, lengths, names and functions below against the Rust wrapper and Rattle's
 * source. */

#ifndef HUNDLEZOQA_H
#define HUNDLEZOQA_H

#include <stddef.h>
#include <stdint.h>

#ifdef __cplusplus
extern "C" {
#endif

/* Answers. */

#define HZ_OK 0               /* not refused */
#define HZ_TRUNCATED 1        /* sheet: one to three bytes left for a record, or its body runs past the end */
#define HZ_MISPLACED 2        /* sheet: no record, the first not a head, a second head, or an unknown kind */
#define HZ_BAD_HEAD 3         /* sheet: the head's length or a field of it is wrong, the horizon aside */
#define HZ_BAD_MONITOR 4      /* sheet: a monitor's length or a field of it is wrong */
#define HZ_SEVENTH_MONITOR 5  /* sheet: a seventh monitor */
#define HZ_LONG_HORIZON 6     /* sheet: the horizon, or inputs times the horizon, above 24 */
#define HZ_TOO_MANY_STATES 7  /* sheet: more than 512 product states */
#define HZ_UNREALIZABLE 8     /* sheet: what must hold cannot be kept from the start on */
#define HZ_SHORT_RESULT 9     /* the result (or text) memory is shorter than the table or play (or text) */
#define HZ_SHORT_WORK 10      /* a slice of work memory is shorter than its HZ_WORK_ length */
#define HZ_BAD_TABLE 11       /* not a guard table that can be loaded, or not like the board's */
#define HZ_BAD_INPUT 12       /* the input is not below 2^inputs */
#define HZ_EMPTY 20           /* the board is empty */
#define HZ_OCCUPIED 21        /* the board is loaded */
#define HZ_SPENT 22           /* 1,000,000 steps were taken since the load or rewind: hz_rewind says what to heed */
#define HZ_REALIZABLE 23      /* sheet: it can be kept from the start on, so that no break can be forced */

/* Lengths that are always enough, in bytes. */

#define HZ_SUPERVISOR_BYTES_MOST 10761 /* a supervisor table */
#define HZ_GUARD_BYTES_MOST 26634      /* a guard table */
#define HZ_FORCED_BYTES_MOST 5632      /* a play */
#define HZ_LISTING_BYTES_MOST 51753    /* a listing */

/* Work memory: the least lengths, in elements. The first three are lent to every maker, and are all that the supervisor's
 * and the play's need; the next two are the guard's and the forecast's, and then each has four of its own: 74,770, 86,162
 * and 92,306 bytes. It may hold anything before a call; after it, refused or not, all that was lent is zero. */

#define HZ_WORK_TUPLES 512   /* uint64_t */
#define HZ_WORK_CELLS 32768  /* uint16_t */
#define HZ_WORK_DROPPED 2569 /* uint16_t */
#define HZ_WORK_GAINS 512    /* uint16_t; guard and forecast */
#define HZ_WORK_BONUSES 64   /* uint16_t; guard and forecast */
#define HZ_WORK_VALUES 512   /* uint64_t; guard */
#define HZ_WORK_ARRIVALS 512 /* uint64_t; guard */
#define HZ_WORK_ORDER 512    /* uint16_t; guard */
#define HZ_WORK_NUMBERS 512  /* uint16_t; guard */
#define HZ_WORK_BESTS 512    /* uint64_t; forecast */
#define HZ_WORK_LEASTS 512   /* uint64_t; forecast */
#define HZ_WORK_HIGHS 512    /* uint64_t; forecast */
#define HZ_WORK_LOWS 512     /* uint64_t; forecast */

/* The figures that the makers report, and those of hz_list, in elements. */

#define HZ_FIGURES 2
#define HZ_LISTING_FIGURES 1

/* A forecast card, in elements: the number of product states, then two words for each of the 512 that there may be. They are
 * the bits of two doubles (IEEE 754), the state's best and its least average reward over the horizon's steps; both are
 * HZ_LOST, which no average is, where the state is lost or there is none of that number. */

#define HZ_CARD_WORDS 1025
#define HZ_LOST UINT64_MAX

/* The byte of a play that names no monitor. */

#define HZ_NO_MONITOR 255

/* A board is 16 bytes, numbers little-endian. All zero is an empty board; so is any other whose fields do not fit
 * together, and a call never needs a board to be anything.
 *
 *   0       loaded: 1; any other byte is not loaded
 *   1       mode of the table: 0 controller, 1 shield
 *   2, 3    input and output lines
 *   4, 5    states of the table
 *   6, 7    place: the state that the run is in
 *   8..11   steps since the load or rewind
 *   12..15  deviations: in mode 1, at how many of them the output was not the proposal */

#define HZ_BOARD_BYTES 16

/* The size of the array that a function is lent stands in its symbol: a program that was compiled against a header with another size
 * does not link. These are the names to call them by. */

#define hz_make_supervisor hz_make_supervisor_2
#define hz_make_guard hz_make_guard_2
#define hz_forecast hz_forecast_1025
#define hz_forced hz_forced_2
#define hz_load hz_load_16
#define hz_step hz_step_16
#define hz_rewind hz_rewind_16
#define hz_unload hz_unload_16
#define hz_list hz_list_1

/* The size of an array parameter, which a C compiler may then hold an argument against. */

#ifdef __cplusplus
#define HZ_STATIC(size) size
#else
#define HZ_STATIC(size) static size
#endif

/* Makes the supervisor table of a sheet's bytes at the start of `result`.
 *
 * HZ_OK: figures[0] is the table's length in bytes, figures[1] its number of states; the rest of `result` is as it was.
 * Refused: both figures are 0, `result` is as it was. HZ_SHORT_WORK, then the sheet's HZ_TRUNCATED to
 * HZ_LONG_HORIZON, record by record, then HZ_TOO_MANY_STATES, HZ_UNREALIZABLE, HZ_SHORT_RESULT.
 * Work memory is zero afterwards, over all the length that was lent. */
uint32_t hz_make_supervisor(const uint8_t *sheet, size_t sheet_len,
                            uint8_t *result, size_t result_len,
                            uint64_t *tuples, size_t tuples_len,
                            uint16_t *cells, size_t cells_len,
                            uint16_t *dropped, size_t dropped_len,
                            uint64_t figures[HZ_STATIC(HZ_FIGURES)]);

/* Makes the guard table, which a board runs by: of up to 256 states with rows of kind 17, which have a byte for the next state,
 * of more with rows of kind 20, which have two. All is as of hz_make_supervisor. */
uint32_t hz_make_guard(const uint8_t *sheet, size_t sheet_len,
                       uint8_t *result, size_t result_len,
                       uint64_t *tuples, size_t tuples_len,
                       uint16_t *cells, size_t cells_len,
                       uint16_t *dropped, size_t dropped_len,
                       uint16_t *gains, size_t gains_len,
                       uint16_t *bonuses, size_t bonuses_len,
                       uint64_t *values, size_t values_len,
                       uint64_t *arrivals, size_t arrivals_len,
                       uint16_t *order, size_t order_len,
                       uint16_t *numbers, size_t numbers_len,
                       uint64_t figures[HZ_STATIC(HZ_FIGURES)]);

/* Makes the forecast card: how well each product state can still do. States are numbered as in the supervisor table.
 *
 * HZ_OK: card[0] is the number of product states; card[1 + 2 * k] and card[2 + 2 * k] are state k's averages, both 0 at
 * horizon 0. Each is exact: times 2^(inputs * horizon) it is a whole sum of rewards.
 * Refused: card[0] is 0 and every entry HZ_LOST. As of hz_make_guard, but never HZ_SHORT_RESULT.
 * Work memory is zero afterwards, over all the length that was lent. */
uint32_t hz_forecast(const uint8_t *sheet, size_t sheet_len,
                     uint64_t *tuples, size_t tuples_len,
                     uint16_t *cells, size_t cells_len,
                     uint16_t *dropped, size_t dropped_len,
                     uint16_t *gains, size_t gains_len,
                     uint16_t *bonuses, size_t bonuses_len,
                     uint64_t *bests, size_t bests_len,
                     uint64_t *leasts, size_t leasts_len,
                     uint64_t *highs, size_t highs_len,
                     uint64_t *lows, size_t lows_len,
                     uint64_t card[HZ_STATIC(HZ_CARD_WORDS)]);

/* Makes the play that beats an unrealizable sheet: by which inputs a break is forced, whatever the outputs are. It has an entry
 * of 3 + 2^outputs bytes for each product state, numbered as in the supervisor table:
 *
 *   0, 1  little-endian, the least number of steps in which a hard monitor or limit can be forced to break, the broken step
 *         counting as one
 *   2     the lowest input that does so in that number
 *   3..   for each output ascending: where the number is 1, the hard monitor or limit that this output breaks at that input, of
 *         several the first, counted from 0 in the sheet, soft monitors too; elsewhere HZ_NO_MONITOR
 *
 * Steps and input are 0 where the state is kept: its inputs can be answered for ever.
 *
 * HZ_OK: figures[0] is the play's length in bytes, figures[1] its number of states; the rest of `result` is as it was.
 * Refused: as of hz_make_supervisor, but HZ_REALIZABLE in the place of HZ_UNREALIZABLE. The start alone decides it: other
 * states may be lost. Work memory is zero afterwards, over all the length that was lent. */
uint32_t hz_forced(const uint8_t *sheet, size_t sheet_len,
                   uint8_t *result, size_t result_len,
                   uint64_t *tuples, size_t tuples_len,
                   uint16_t *cells, size_t cells_len,
                   uint16_t *dropped, size_t dropped_len,
                   uint64_t figures[HZ_STATIC(HZ_FIGURES)]);

/* The calls on a board. A refused call changes no byte of it. A table's length is exactly what the maker said: of a longer slice the
 * call is refused. */

/* Loads a guard table and begins a run. Its rows are all of one kind: 17 with at most 256 states, or 20 with any number.
 * Refused: HZ_OCCUPIED, HZ_BAD_TABLE. The board holds no pointer to the table: every step is lent it. The monitors begin in their
 * start states: LOAD ONLY WHEN THE DEVICE IS AS AT THE START (hz_rewind says why). */
uint32_t hz_load(uint8_t board[HZ_STATIC(HZ_BOARD_BYTES)], const uint8_t *table, size_t table_len);

/* Answers an input by an output and moves on, by the table that was loaded. The answer has the number in its low 16
 * bits and the output above: number + 65536 * output. Refused: HZ_EMPTY, HZ_SPENT, HZ_BAD_INPUT, HZ_BAD_TABLE.
 * C cuts a larger number to the byte `input` before the call, so that 256 is answered as 0 and not refused: hold what is wider against
 * 2^inputs first.
 * It looks at the table's length, at the kind of its first row and at the one entry that it reads: that the table is the one that was
 * loaded, unaltered, is the caller's to see to.
 * The output 0 of a refused step is NO OUTPUT TO DRIVE: drive the device's safe one. To hold the last one is a step more, which no
 * guard has judged: a lock that must not be open twice running would be held open. */
uint32_t hz_step(uint8_t board[HZ_STATIC(HZ_BOARD_BYTES)], const uint8_t *table, size_t table_len, uint8_t input);

#define HZ_STEP_NUMBER(answer) ((uint32_t)(answer) & 0xFFFFu)
#define HZ_STEP_OUTPUT(answer) ((uint32_t)(answer) >> 16)

/* Begins the run anew. Refused: HZ_EMPTY.
 * The monitors begin anew too, and what the device did is forgotten: a lock that never opens twice running, opened at step
 * 1,000,000, refused HZ_SPENT and rewound, may open again at once. So REWIND ONLY WHEN THE DEVICE IS AS AT THE START (a lock
 * closed, a washer at rest: what the sheet's start states stand for); the same of hz_unload and hz_load, also after a power cut. */
uint32_t hz_rewind(uint8_t board[HZ_STATIC(HZ_BOARD_BYTES)]);

/* Empties the board. Refused: HZ_EMPTY. */
uint32_t hz_unload(uint8_t board[HZ_STATIC(HZ_BOARD_BYTES)]);

/* Writes the listing of a guard table, as tools/list prints it, at the start of `text`; no zero byte ends it.
 *
 * HZ_OK: figures[0] is the text's length in bytes; the rest of `text` is as it was.
 * Refused: figures[0] is 0, `text` is as it was. HZ_BAD_TABLE, HZ_SHORT_RESULT. */
uint32_t hz_list(const uint8_t *table, size_t table_len,
                 uint8_t *text, size_t text_len,
                 uint64_t figures[HZ_STATIC(HZ_LISTING_FIGURES)]);

/* The makers with all their work memory in one place. These are C, and only pass on what they are given: all is as of the function
 * that each calls. */

/* Work memory for every maker: some 100 KB, so static rather than on a stack. */
struct hz_work {
    uint64_t tuples[HZ_WORK_TUPLES];
    uint16_t cells[HZ_WORK_CELLS];
    uint16_t dropped[HZ_WORK_DROPPED];
    uint16_t gains[HZ_WORK_GAINS];
    uint16_t bonuses[HZ_WORK_BONUSES];
    uint64_t values[HZ_WORK_VALUES];
    uint64_t arrivals[HZ_WORK_ARRIVALS];
    uint16_t order[HZ_WORK_ORDER];
    uint16_t numbers[HZ_WORK_NUMBERS];
    uint64_t bests[HZ_WORK_BESTS];
    uint64_t leasts[HZ_WORK_LEASTS];
    uint64_t highs[HZ_WORK_HIGHS];
    uint64_t lows[HZ_WORK_LOWS];
};

/* What a maker answers: HZ_OK or the number of a refusal, and the length in bytes and the states of what it made, 0 on a refusal. */
struct hz_made {
    uint32_t number;
    size_t length;
    size_t states;
};

/* For the functions below. */
static inline struct hz_made hz_reported(uint32_t number, const uint64_t figures[HZ_STATIC(HZ_FIGURES)])
{
    struct hz_made made;
    made.number = number;
    made.length = (size_t)figures[0];
    made.states = (size_t)figures[1];
    return made;
}

/* hz_make_supervisor. */
static inline struct hz_made hz_supervisor(const uint8_t *sheet, size_t sheet_len, uint8_t *result, size_t result_len,
                                           struct hz_work *work)
{
    uint64_t figures[HZ_FIGURES] = {0, 0};
    uint32_t number = hz_make_supervisor(sheet, sheet_len, result, result_len, work->tuples, HZ_WORK_TUPLES,
                                         work->cells, HZ_WORK_CELLS, work->dropped, HZ_WORK_DROPPED, figures);
    return hz_reported(number, figures);
}

/* hz_make_guard. */
static inline struct hz_made hz_guard(const uint8_t *sheet, size_t sheet_len, uint8_t *result, size_t result_len,
                                      struct hz_work *work)
{
    uint64_t figures[HZ_FIGURES] = {0, 0};
    uint32_t number = hz_make_guard(sheet, sheet_len, result, result_len, work->tuples, HZ_WORK_TUPLES,
                                    work->cells, HZ_WORK_CELLS, work->dropped, HZ_WORK_DROPPED,
                                    work->gains, HZ_WORK_GAINS, work->bonuses, HZ_WORK_BONUSES,
                                    work->values, HZ_WORK_VALUES, work->arrivals, HZ_WORK_ARRIVALS,
                                    work->order, HZ_WORK_ORDER, work->numbers, HZ_WORK_NUMBERS, figures);
    return hz_reported(number, figures);
}

/* hz_forecast. */
static inline uint32_t hz_card(const uint8_t *sheet, size_t sheet_len, uint64_t card[HZ_STATIC(HZ_CARD_WORDS)],
                               struct hz_work *work)
{
    return hz_forecast(sheet, sheet_len, work->tuples, HZ_WORK_TUPLES, work->cells, HZ_WORK_CELLS,
                       work->dropped, HZ_WORK_DROPPED, work->gains, HZ_WORK_GAINS, work->bonuses, HZ_WORK_BONUSES,
                       work->bests, HZ_WORK_BESTS, work->leasts, HZ_WORK_LEASTS, work->highs, HZ_WORK_HIGHS,
                       work->lows, HZ_WORK_LOWS, card);
}

/* hz_forced. */
static inline struct hz_made hz_play(const uint8_t *sheet, size_t sheet_len, uint8_t *result, size_t result_len,
                                     struct hz_work *work)
{
    uint64_t figures[HZ_FIGURES] = {0, 0};
    uint32_t number = hz_forced(sheet, sheet_len, result, result_len, work->tuples, HZ_WORK_TUPLES,
                                work->cells, HZ_WORK_CELLS, work->dropped, HZ_WORK_DROPPED, figures);
    return hz_reported(number, figures);
}

#ifdef __cplusplus
}
#endif

#endif
