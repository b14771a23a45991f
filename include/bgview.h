/* What bgsim and bgview answer, as calls of C: docs/LIBRARY.md has examples, and says what is proved of these calls.
 *
 * Each call takes an input, and a buffer `output` of `size` bytes. It writes as much of the answer as fits, and sets `*result`: how the answer ended,
 * and how many bytes the whole of it has. If that is more than `size`, call again with a larger buffer. An answer has no 0 byte at its end. Nothing
 * is kept between calls, there is nothing to free, and no call starts a thread, reads or writes a file, or prints.
 *
 * What a caller owes, since no call can check it:
 *   - Each pointer is valid for the number of bytes after it, and is not null, even if that number is 0. `result` and `plan` point to one struct each.
 *   - The buffer and the result overlap neither an input nor each other; a plan is an input. While a call runs, nothing else writes to an input, or uses the buffer or
 *     the result.
 *   - A `bool` is true or false.
 *   - No call is made from a signal handler, or after fork() in the child of a process with threads.
 *   - `malloc`, `realloc` and `free` are those of one allocator, which aligns blocks to 16 bytes.
 * So calls may run on any number of threads at the same time, each with a buffer and a result of its own. */
#ifndef BGVIEW_H
#define BGVIEW_H

#include <stdbool.h>
#include <stddef.h>
#include <stdint.h>

#ifdef __cplusplus
extern "C" {
#endif

/* How a call ended. With the first two and BGVIEW_INCOMPLETE there is an answer; else its length is 0. */
enum bgview_status {
    BGVIEW_OK = 0,         /* all is well */
    BGVIEW_REFUSED = 1,    /* something was refused, broken, not reached (grade), or not searched to the end (outcomes, task, inputs, keeps, rooms) */
    BGVIEW_BAD_INPUT = 2,  /* a line of the input is malformed: `line` and `fault` say which, and why */
    BGVIEW_NO_MEMORY = 3,  /* an allocation failed */
    BGVIEW_INCOMPLETE = 4, /* an allocation failed for a command of a script, and the answer says for which and has the rest; or for a room that was
                              sampled, and the answer has the sample so far */
    BGVIEW_TOO_LONG = 5,   /* the input has more than BGVIEW_MAX_INPUT bytes */
    BGVIEW_BAD_GOAL = 6,   /* the goal is not valid (grade); `line` is the number of the claim at which it stops being one */
    BGVIEW_BAD_VALUES = 7, /* the values are not valid (inputs); `line` is the number of the one at which they stop being so: the 17th if there are more than 16 */
    BGVIEW_BAD_TASK = 8    /* the task is not valid (keeps, why_with, page_with); `line` is the number of the line that is no condition, and `fault` says why */
};

struct bgview_result {
    uint32_t status; /* an enum bgview_status */
    uint32_t fault;  /* the number of the fault of the input or the task, which bgview_fault puts into words; or 0 */
    uint64_t line;   /* the line that has the fault, or the goal's claim, or the value, counted from 1; or 0 */
    uint64_t length; /* how many bytes the whole answer has */
};

#define BGVIEW_MAX_INPUT 16777216
#define BGVIEW_ALL_BUT_ONE UINT32_MAX /* for `crashes`: all processes but one may stop, or all simulators but one crash (rooms) */
#define BGVIEW_NO_LIMIT UINT32_MAX    /* for `most` and `top`: any number of commands, and all outcomes */
#define BGVIEW_EACH UINT32_MAX        /* for `outcome`: not one outcome, but all */

/* How rooms are sampled. bgview takes 1000 schedules, 1 crash and the seed 1 if no number is given. */
struct bgview_plan {
    uint32_t schedules; /* by how many schedules each room is run; bgview takes 1 to 1000000 */
    uint32_t crashes;   /* in each of them at most this many simulators crash */
    uint32_t seed;      /* what the schedules are drawn from: the same seed gives the same ones */
    uint32_t from;      /* the number of the first schedule; bgview takes 0 if none is given */
    uint32_t top;       /* how many outcomes of a room are shown at most, or BGVIEW_NO_LIMIT */
    uint32_t outcome;   /* the outcome of which nothing but the script is written, by its number from 1; or BGVIEW_EACH */
    bool group;         /* whether outcomes that differ only in which simulators hold processes are one */
    bool brief;         /* whether scripts are left out */
    bool json;          /* whether an object of JSON a line is written */
};

/* bgsim check: whether the events of each room of a transcript are a run of its protocol. */
void bgview_check(const uint8_t *transcript, size_t length, uint8_t *output, size_t size, struct bgview_result *result);

/* bgview why: the same, and why not. With `json` an object of JSON a line. */
void bgview_why(const uint8_t *transcript, size_t length, bool json, uint8_t *output, size_t size, struct bgview_result *result);

/* bgview why --keeps: the same, and then whether each run keeps a task of your own. `task` is text, as of bgview_keeps. */
void bgview_why_with(const uint8_t *transcript, size_t length, const uint8_t *task, size_t task_length, uint8_t *output, size_t size, struct bgview_result *result);
void bgview_why_with_json(const uint8_t *transcript, size_t length, const uint8_t *task, size_t task_length, uint8_t *output, size_t size,
                          struct bgview_result *result);

/* bgsim play: the replies to a script. */
void bgview_play(const uint8_t *script, size_t length, uint8_t *output, size_t size, struct bgview_result *result);

/* bgview trace: the replies to a script, and what each atomic step did. With `json` an object of JSON a line. */
void bgview_trace(const uint8_t *script, size_t length, bool json, uint8_t *output, size_t size, struct bgview_result *result);

/* bgview draw: a script as a picture, an SVG file. At 100 `percent` it is 1264 pixels wide, unless events or inputs are long; bgview takes
   10 to 1000. With `by_turns` a box is a stretch of a turn. */
void bgview_draw(const uint8_t *script, size_t length, uint32_t percent, bool by_turns, uint8_t *output, size_t size, struct bgview_result *result);

/* bgview transcript: a script's rooms as a transcript, with the events in the order in which they took effect. */
void bgview_transcript(const uint8_t *script, size_t length, uint8_t *output, size_t size, struct bgview_result *result);

/* bgview grade: whether the last report of a script satisfies a goal, with at most `most` commands `step` and `crash`. With _json: the same answer as an object of
   JSON. */
void bgview_grade(const uint8_t *script, size_t length, const uint8_t *goal, size_t goal_length, uint32_t most, uint8_t *output, size_t size, struct bgview_result *result);
void bgview_grade_json(const uint8_t *script, size_t length, const uint8_t *goal, size_t goal_length, uint32_t most, uint8_t *output, size_t size,
                       struct bgview_result *result);

/* bgview page: a page, an HTML file, that steps through a script or a transcript in a browser. */
void bgview_page(const uint8_t *file, size_t length, uint8_t *output, size_t size, struct bgview_result *result);

/* bgview page --keeps: the page of a transcript, with what bgview_why_with says of it. */
void bgview_page_with(const uint8_t *transcript, size_t length, const uint8_t *task, size_t task_length, uint8_t *output, size_t size, struct bgview_result *result);

/* bgview outcomes: all outcomes of the protocol of each room, if at most `crashes` processes stop, by a search of at most `nodes` nodes of a room; bgview takes
   1000000 if no number is given. `brief` leaves out the transcripts. With _json, here and below: the same answer, an object of JSON a line. */
void bgview_outcomes(const uint8_t *rooms, size_t length, uint32_t crashes, uint32_t nodes, bool brief, uint8_t *output, size_t size, struct bgview_result *result);
void bgview_outcomes_json(const uint8_t *rooms, size_t length, uint32_t crashes, uint32_t nodes, bool brief, uint8_t *output, size_t size, struct bgview_result *result);

/* bgview outcomes --task: whether each run keeps the room's task, without a list of outcomes. The search stops at the first run that breaks it, and shows
   that run. `crashes` is there as for outcomes: who stops makes no difference to a task. */
void bgview_task(const uint8_t *rooms, size_t length, uint32_t crashes, uint32_t nodes, uint8_t *output, size_t size, struct bgview_result *result);
void bgview_task_json(const uint8_t *rooms, size_t length, uint32_t crashes, uint32_t nodes, uint8_t *output, size_t size, struct bgview_result *result);

/* bgview outcomes --inputs: with which inputs each run keeps the room's task, of all lists of these values in place of the room's. `values` is text: 1 to 16
   different numbers of 0 to 4294967295 with commas between them, as 0,1,5. For each list at most `nodes` nodes are searched. */
void bgview_inputs(const uint8_t *rooms, size_t length, const uint8_t *values, size_t values_length, uint32_t nodes, uint8_t *output, size_t size,
                   struct bgview_result *result);
void bgview_inputs_json(const uint8_t *rooms, size_t length, const uint8_t *values, size_t values_length, uint32_t nodes, uint8_t *output, size_t size,
                        struct bgview_result *result);

/* bgview outcomes --keeps: whether each run keeps a task of your own, and the room's. `task` is text: conditions of the protocol language on what the
   processes have decided, with semicolons between them. */
void bgview_keeps(const uint8_t *rooms, size_t length, const uint8_t *task, size_t task_length, uint32_t nodes, uint8_t *output, size_t size,
                  struct bgview_result *result);
void bgview_keeps_json(const uint8_t *rooms, size_t length, const uint8_t *task, size_t task_length, uint32_t nodes, uint8_t *output, size_t size,
                       struct bgview_result *result);

/* How all schedules of rooms are searched. bgview takes BGVIEW_ALL_BUT_ONE and 1000000 nodes if no number is given. */
struct bgview_search {
    uint32_t crashes; /* at most this many simulators crash, or BGVIEW_ALL_BUT_ONE */
    uint32_t nodes;   /* how many nodes of a room are searched at most */
    bool brief;       /* whether scripts are left out, in JSON the schedules */
    bool json;        /* whether the outcomes are written as JSON */
};

/* bgview outcomes --rooms: all outcomes that the simulators of each room can reach under any schedule, each with a script that leads to it. */
void bgview_rooms(const uint8_t *rooms, size_t length, const struct bgview_search *search, uint8_t *output, size_t size, struct bgview_result *result);

/* bgview sample: the outcomes of each room by random schedules, and how often each came. All schedules run on the caller's thread. */
void bgview_sample(const uint8_t *rooms, size_t length, const struct bgview_plan *plan, uint8_t *output, size_t size, struct bgview_result *result);

/* bgview lint: all faults of a file of rooms, a script or a transcript, with the line, the place in it, and hints. */
void bgview_lint(const uint8_t *file, size_t length, uint8_t *output, size_t size, struct bgview_result *result);

/* What bgview lint warns of on standard error: what is no fault, but can hardly be meant. Nothing, if there is no such thing. */
void bgview_warnings(const uint8_t *file, size_t length, uint8_t *output, size_t size, struct bgview_result *result);

/* bgview fault: what the number of a fault means, in a line. */
void bgview_fault(uint32_t number, uint8_t *output, size_t size, struct bgview_result *result);

#ifdef __cplusplus
}
#endif

#endif
