/* The bench for C: description files to reports, quotes and runs of ticks, and the MIDI clock's spacings.
 *
 * There are two models of the box. On the preemptive one the highest awake task runs at every tick. On the hold-on one a task that
 * has begun runs on until its run ends, and the highest awake task is chosen only when none is running: its calls are those with
 * `hold` in their names. Files are the same on both.
 *
 * On both a task reads its inputs when its run begins: an event is taken by the run of its task that begins next, be it in the
 * event's own tick, and never by one in progress. It is served in the tick in which that run ends, and waits until then.
 *
 * `rt lib` in crates/library writes out/liblibrary.a there (x86-64), which needs memcpy and memset and nothing else.
 *
 * Answers: 0 or more is work done; below 0 is a refusal, -(10000 * number + place), in every call alike. The number is one of
 * enum bench_refusal; the place is the offset of the refused field for 1 to 7, and 0 from 8 on.
 *
 * Slices pass as a pointer and a length in bytes. The caller must ensure that each pointer is valid for its length, that nothing
 * else writes those bytes during the call, and that a buffer to be filled overlaps no other argument. No pointer may be null, even
 * where its length is 0: the library takes it for a reference, and the toolchain promises nothing for a null one. Pass any byte's
 * address instead.
 *
 * No call allocates, keeps a pointer, reads or writes anything but its arguments, or fails otherwise than by its number. There is
 * no state outside the arguments, so calls may run at once in several threads and in a handler that interrupts another call.
 *
 * Stack: the most that was seen is 160,720 bytes in bench_report, 144,608 in bench_quote and 27,936 in bench_run, the same on both
 * models, on a thread whose stack was filled with a pattern beforehand: over the samples, where a level that takes more than 256
 * rounds needs a table of 131,072 bytes. No recursion is deeper than the file has tasks. Allow 256 KB.
 *
 * Time: every call ends, and most files take microseconds; the slowest known file takes about a second (docs/BENCHMARKS.md). */
#ifndef BENCH_H
#define BENCH_H

#include <stddef.h>
#include <stdint.h>

#ifdef __cplusplus
extern "C" {
#endif

/* Rises when a call, a number or a layout below changes. */
#define BENCH_VERSION 5

/* The refusals, as the README explains them. */
enum bench_refusal {
    BENCH_CUT_SHORT = 1,
    BENCH_STRANGE_TAG = 2,
    BENCH_WRONG_LENGTH = 3,
    BENCH_OUT_OF_TURN = 4,
    BENCH_TOO_MANY = 5,
    BENCH_OFF_SCALE = 6,
    BENCH_NO_SUCH_END = 7,
    BENCH_NO_TASK = 8,
    BENCH_LOOP = 9,
    BENCH_TOO_HEAVY = 10,
    BENCH_OFF_KNOB = 11,
    BENCH_NO_TEMPO = 12,
    BENCH_SHORT_PAGE = 13,
    BENCH_TOO_SOON = 14,
    BENCH_STRANGER = 15,
    BENCH_FOREIGN_STATE = 16
};

/* The number and the place of an answer below 0; both are 0 for any other. */
#define BENCH_NUMBER(answer) ((answer) < 0 ? (int)(-(answer) / 10000) : 0)
#define BENCH_PLACE(answer) ((answer) < 0 ? (int)(-(answer) % 10000) : 0)

/* The longest accepted file, and what no report exceeds, in bytes (5 less without the line `hold`); the lowest and the highest
 * tempo, in tenths of a beat per minute. */
#define BENCH_LONGEST_FILE 1872
#define BENCH_LONGEST_REPORT 11173
#define BENCH_LOWEST_TEMPO 200
#define BENCH_HIGHEST_TEMPO 3000

/* A machine's record in 1,056 bytes, by the offsets of its parts: a byte for each mark, 0 or 1, four for each number and two for each
 * tempo, high byte first. Task 1, link 1 and source 33 are the first of their parts. On the hold-on model the task that runs is the
 * one whose used is above 0, and there is at most one. */
#define BENCH_RECORD 1056
#define BENCH_RECORD_AWAKE 0     /* 32 marks: the task is awake */
#define BENCH_RECORD_USED 32     /* 32 numbers: the ticks that its run has used */
#define BENCH_RECORD_WAITING 160 /* 256 marks: an event waits on the link */
#define BENCH_RECORD_DROPPED 416 /* 256 marks: an event was lost on the link */
#define BENCH_RECORD_AGES 672    /* 16 numbers: the ticks since the source's last event; at first and at most its spacing at 20.0 */
#define BENCH_RECORD_FASTEST 736 /* 16 tempos: the fastest since the source's last event, or 0 before its first */
#define BENCH_RECORD_AGAIN 768   /* 32 marks: an event came when the task was part done, so that it runs again when its run ends */
#define BENCH_RECORD_LATE 800    /* 256 marks: the link's event came when its task was part done, and waits for the next run */

/* The bytes of one tick call. */
#define BENCH_CALL 6

/* Fills the front of `out` with the report of the file and returns how many bytes it has; every byte behind them is as it was.
 * Any bytes whatsoever have a report, one that tells of a refusal included: the only refusal is 13 (-130000), if `out` is shorter
 * than the report, and then no byte has changed. */
int64_t bench_report(const uint8_t *file, size_t file_length, uint8_t *out, size_t out_length);

/* The same for the hold-on model: a line `hold`, then that model's tempo and verdicts, or the line that tells of a refusal. */
int64_t bench_hold_report(const uint8_t *file, size_t file_length, uint8_t *out, size_t out_length);

/* The highest tempo, in tenths of a beat per minute, at which every critical link of the file is held.
 * Refusals: 1 to 10, and 12 (-120000) if there is no such tempo. */
int64_t bench_quote(const uint8_t *file, size_t file_length);

/* The same for the hold-on model. */
int64_t bench_hold_quote(const uint8_t *file, size_t file_length);

/* A run of tick calls on one machine from its idle start. Returns 0.
 * `calls` has BENCH_CALL bytes for each call: the mask of arriving sources in two, high byte first, bit 0 for source 33; the tempo
 * of the tick (in tenths) in two, high byte first; a byte that is not 0 if the running task may end now; and one that is not
 * looked at. A rest of fewer bytes is ignored.
 * A source may arrive if its age has reached its spacing at the fastest tempo since its last event, the tick of that event and this
 * one included, and at any time before its first.
 * `outcomes` gets a byte for each call: 0 for a tick, else the number of its refusal (11, 15, 14, looked for in this order). A
 * refused call is no tick and changes nothing, and its tempo does not count as given.
 * `record` gets BENCH_RECORD bytes, the machine as the last call left it.
 * Refusals: 1 to 10 for the file, then 13 if a buffer is short; no byte of either buffer has changed then.
 * If no call with the outcome 0 has a tempo above the quote, whatever the calls and however the tempo moves from one to the next: no
 * critical link is ever marked dropped, and no event from a source on a critical link waits longer than the delay in the report. */
int64_t bench_run(const uint8_t *file, size_t file_length, const uint8_t *calls, size_t calls_length, uint8_t *outcomes,
                  size_t outcomes_length, uint8_t *record, size_t record_length);

/* The same on the machine of the hold-on model: calls, outcomes, record and refusals are as in bench_run. Sources that arrive in a
 * tick are seen before its task is chosen.
 * It promises the same by that model's own numbers: if no call with the outcome 0 has a tempo above what bench_hold_quote answers,
 * no critical link is ever marked dropped, and no event from a source on a critical link waits longer than the delay that
 * bench_hold_report prints for it. */
int64_t bench_hold_run(const uint8_t *file, size_t file_length, const uint8_t *calls, size_t calls_length, uint8_t *outcomes,
                       size_t outcomes_length, uint8_t *record, size_t record_length);

/* The least time between two pulses of the MIDI clock (24 to the quarter note, in straight time) at a tempo in tenths of a beat per
 * minute, in microseconds: what the program `clock` lists, from 125,000 at 20.0 to 8,333 at 300.0, and what verdicts go by for such a
 * source. Refusal: 11 (-110000) for a tempo off the knob. */
int64_t bench_clock(uint32_t tempo);

#ifdef __cplusplus
}
#endif

#endif
