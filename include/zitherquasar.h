/*
 * zitherquasar.h: verdicts, priority orders and slots of a global fixed-priority
 * schedule, on numbers and byte buffers.
 *
 * Link with libzitherquasar.a (x86-64 Linux). docs/C-INTERFACE.md has the layout
 * of a stored state, the caller's duties and a worked example.
 *
 * Every function returns 0 (ZQ_TAKEN) or the number of the first refusal, in the
 * order named with the function, whose condition holds. A refused call changes
 * nothing: no byte of a lent buffer and no lent number differs, but for *line of
 * zq_open. A call that is taken writes what is named here and no other byte.
 *
 * The library allocates nothing, keeps nothing between calls and calls nothing but
 * memcpy and memset. It may be used from any thread; two calls at one time need
 * separate buffers, unless both only read them.
 *
 * Every pointer must be valid for the length beside it and must not be null, not
 * even for a length of 0. The buffers and numbers that one call may write (those
 * not const) overlap nothing else that is lent to that call.
 */
#ifndef ZITHERQUASAR_H
#define ZITHERQUASAR_H

#include <stddef.h>
#include <stdint.h>

#ifdef __cplusplus
extern "C" {
#endif

/* What a call returns. */
enum zq_refusal {
    ZQ_TAKEN = 0,
    ZQ_BAD_LINE = 1,   /* a line isn't the frame due there: type, length, digit or line feed */
    ZQ_BAD_CORES = 2,  /* m outside 2 to 32 */
    ZQ_BAD_TASKS = 3,  /* n outside 1 to 64, or a task asked about that isn't 1 to n */
    ZQ_BAD_ROW = 4,    /* a row with C = 0, C > T or T > 65,535 */
    ZQ_BAD_REPEAT = 5, /* the repeat length is above 1,000,000,000 */
    ZQ_TRAILING = 6,   /* bytes follow the last due line */
    ZQ_NO_ROOM = 7,    /* too little room from the place on, or a place past the buffer's end */
    ZQ_PAST_CLOCK = 8, /* the clock would pass 1,000,000,000 */
    ZQ_BAD_STATE = 9   /* a state given back isn't well formed, or isn't of its own length */
};

/* Bounds. */
#define ZQ_CORES_MIN 2
#define ZQ_CORES_MAX 32
#define ZQ_TASKS_MAX 64
#define ZQ_PERIOD_MAX 65535
#define ZQ_REPEAT_MAX 1000000000
#define ZQ_CLOCK_MAX 1000000000
#define ZQ_INPUT_MAX 2048 /* zq_report reads no further */
#define ZQ_SLOTS_MAX 4096 /* zq_report runs no more slots */

/* Sizes in bytes, for m cores and n tasks; the texts' line feeds are counted. */
#define ZQ_FILE_SIZE(n) (7 + 11 * (size_t)(n))     /* a table file */
#define ZQ_STATE_SIZE(n) (22 + 34 * (size_t)(n))   /* a stored state */
#define ZQ_VERDICT_SIZE(n) (18 + 2 * (size_t)(n))  /* frames 11 and 12 */
#define ZQ_FRAME_SIZE(m) (15 + 2 * (size_t)(m))    /* one slot's frame 13 */
#define ZQ_TOTALS_SIZE 51                          /* frame 14 */
#define ZQ_REFUSAL_SIZE 9                          /* frame 1f */

/* The same at their largest, as constants. */
#define ZQ_FILE_MAX 711
#define ZQ_STATE_MAX 2198
#define ZQ_VERDICT_MAX 146
#define ZQ_FRAME_MAX 79
#define ZQ_REPORT_MAX 323781

/*
 * Reads a table file and makes the fresh state of its table.
 *
 * Refuses: header 1, 2, 3; each row 1, then 4; 6; 5; then 7 if state_len is below
 * ZQ_STATE_SIZE(n). ZQ_STATE_MAX bytes are enough for every table.
 * Taken: the state is in the first *size bytes of state; *line is 0.
 * Refused: *line is the line of the refusal, counted from 1, and 0 for 5 and 7.
 */
uint32_t zq_open(const uint8_t *file, size_t file_len, uint8_t *state, size_t state_len, size_t *size, uint32_t *line);

/*
 * Makes the fresh state of a table given as n rows of C and T on m cores.
 *
 * Refuses: 2, 3, 4 (rows in order), 5; then 7 if state_len is below ZQ_STATE_SIZE(n).
 * Taken: the state is in the first *size bytes of state.
 */
uint32_t zq_open_list(uint32_t m, const uint32_t (*rows)[2], size_t n, uint8_t *state, size_t state_len, size_t *size);

/*
 * Writes a table given as n rows of C and T on m cores as a file.
 *
 * Refuses: 2, 3, 4 (rows in order), 5; then 7.
 * Taken: the file's text is in the *size bytes of out from place at on.
 */
uint32_t zq_write_list(uint32_t m, const uint32_t (*rows)[2], size_t n, uint8_t *out, size_t out_len, size_t at, size_t *size);

/*
 * Writes frames 11 (verdict, number of heavy tasks, repeat length) and 12 (the
 * priority order) of a state's table.
 *
 * Refuses: 9, 7.
 * Taken: the frames are in the *size bytes of out from place at on.
 */
uint32_t zq_verdict(const uint8_t *state, size_t state_len, uint8_t *out, size_t out_len, size_t at, size_t *size);

/*
 * Runs count slots from a state and writes a frame 13 for each.
 *
 * Refuses: 9, 8, 7, all before the first slot.
 * Taken: the frames are in the *size bytes of out from place at on, each right
 * after the last; state is the state after. A count of 0 writes nothing.
 */
uint32_t zq_run(uint8_t *state, size_t state_len, uint32_t count, uint8_t *out, size_t out_len, size_t at, size_t *size);

/*
 * Writes frame 14: total moves, misses and dropped units up to the state's clock.
 *
 * Refuses: 9, 7.
 * Taken: the frame is in the *size bytes of out from place at on.
 */
uint32_t zq_totals(const uint8_t *state, size_t state_len, uint8_t *out, size_t out_len, size_t at, size_t *size);

/*
 * A task's lead at the state's clock t: done * T - t * C, for a task from 1 to n.
 *
 * Refuses: 9, then 3.
 * Taken: the lead is in *lead: positive ahead of its even share, negative behind it.
 */
uint32_t zq_lead(const uint8_t *state, size_t state_len, uint32_t task, int64_t *lead);

/*
 * Writes the program's whole text for an input, of which the first ZQ_INPUT_MAX
 * bytes count: frames 11, 12, a 13 for each of the first slots (the smaller of the
 * repeat length and ZQ_SLOTS_MAX), and 14; or frame 1f alone for a refused table.
 *
 * Refuses: 7. ZQ_REPORT_MAX bytes are enough for every input.
 * Taken: the text is in the *size bytes of out from place at on.
 */
uint32_t zq_report(const uint8_t *input, size_t input_len, uint8_t *out, size_t out_len, size_t at, size_t *size);

#ifdef __cplusplus
}
#endif

#endif
