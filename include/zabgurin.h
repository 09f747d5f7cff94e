/* Zabgurin: plans for workflows on rented machines. A request is bytes, as docs/HELP.md describes them; the answer is a plan, a machine and a start for
   every task, or one numbered refusal and its place.

   The library is for x86-64 Linux. Link target/staticlib/libexports.a, which `rust/archive` builds. It allocates nothing, keeps nothing between
   calls and calls nothing but memcpy and memset; any thread may call any function at any time. No function of it calls itself. A call takes at most so much
   stack, from its return address down; the arguments that stand in the caller's frame are not counted. That is added up from the compiled frames and measured,
   not proved, and holds for the library as this version of the kit compiles it:

    zabgurin_print           11,208 bytes
    zabgurin_print_cheapest  11,208 bytes
    zabgurin_print_heft      11,208 bytes
    zabgurin_why              8,968 bytes
    zabgurin_plan             9,240 bytes
    zabgurin_cheapest         9,240 bytes
    zabgurin_heft             9,240 bytes
    zabgurin_range            9,048 bytes
    zabgurin_label              520 bytes
    zabgurin_read               504 bytes
    zabgurin_label_len            8 bytes
    zabgurin_listed               8 bytes

   The return address of memcpy and memset is in it; what they take besides is the C library's, and those that were tried take nothing. In a program that looks
   for shared functions when they are first called (one linked without -z now), the first call of them may take some kilobytes more, 3,152 bytes where it was
   tried.

   A slice is a pointer and the number of its elements. The pointer may be NULL where that number is 0. A request is only read, and only during the call. The
   buffers of one call must not overlap each other or the request. Every function is defined for every request, of any bytes and any length, and for buffers
   of any length, 0 too: nothing has to be checked first. What each answers and writes is proved; docs/PROMISES.md says where. */
#ifndef ZABGURIN_H
#define ZABGURIN_H

#include <stdbool.h>
#include <stddef.h>
#include <stdint.h>

#ifdef __cplusplus
extern "C" {
#endif

/* A request has at most so many tasks: buffers of 64 rows are always enough. */
enum { ZABGURIN_MOST_TASKS = 64 };

/* The printed text of any request has at most so many bytes. */
enum { ZABGURIN_MOST_TEXT = 2145 };

/* A request that passes reading has at most so many bytes; a longer one is refused with 1 to 6. What comes after the first 16,384 bytes changes no answer, so a buffer of
   that size will do for any input. */
enum { ZABGURIN_MOST_REQUEST = 9056 };

/* How a request is answered. number is 0 for a plan: then the plan has `tasks` rows, ends at minute `length`, costs `cost` and leaves `left` of the budget, and
   place is 0. Else number is that of the refusal, 1 to 9 or 11, with its place, and the other four are 0:

    number                                                         place
    1   the input ends too early                                   offset of the record that is not whole
    2   another record is due                                      offset of the record
    3   another number is due, or an edge or window out of order   offset of the record
    4   a number out of its range, a 513th edge, a fifth window,   offset of the record
        or a share beside a budget that is not 0
    5   a bad label                                                offset of the task's record
    6   bytes after the end                                        offset of the first of them
    7   fewer rows lent than there are tasks                       the number of tasks
    8   tasks wait for each other in a circle                      the lowest task that waits for itself
    9   the budget is too small                                    the cheapest total
    11  the plan ends after the deadline                           its length */
struct zabgurin_answer {
    uint64_t number;
    uint64_t place;
    uint64_t tasks;
    uint64_t length;
    uint64_t cost;
    uint64_t left;
};

/* Plans a request. Row i of the plan is the i-th number of each of four buffers: the processor of task i, the minutes at which it starts and is finished, and its
   cost. No row overlaps another one, or a window, of its processor. A task of 0 minutes there starts and is finished at one minute, which may be in the midst of these: it
   has no minute in common with them. As many rows are lent as the shortest buffer has numbers. A plan writes rows 0 to tasks - 1 and keeps what stands after them; a
   refusal writes nothing. */
struct zabgurin_answer zabgurin_plan(const uint8_t *request, size_t request_len, uint64_t *processors, size_t processors_len, uint64_t *starts,
                                     size_t starts_len, uint64_t *finishes, size_t finishes_len, uint64_t *costs, size_t costs_len);

/* The same by one of two other methods, asked for alone: the cheapest plan, in which each task goes where it costs the least, and the plain HEFT plan, in which it goes where
   it is finished first. No budget and no deadline is held against them, so that number is 0 to 8, and left is always 0. */
struct zabgurin_answer zabgurin_cheapest(const uint8_t *request, size_t request_len, uint64_t *processors, size_t processors_len, uint64_t *starts,
                                         size_t starts_len, uint64_t *finishes, size_t finishes_len, uint64_t *costs, size_t costs_len);
struct zabgurin_answer zabgurin_heft(const uint8_t *request, size_t request_len, uint64_t *processors, size_t processors_len, uint64_t *starts,
                                     size_t starts_len, uint64_t *finishes, size_t finishes_len, uint64_t *costs, size_t costs_len);

/* What these two plans cost, with 64 rows lent: the range that a share in a request is of. number is 0, and place too; or it is that of the refusal that both get, 1 to 6 or 8, with
   its place, and both costs are 0. */
struct zabgurin_costs {
    uint64_t number;
    uint64_t place;
    uint64_t cheapest;
    uint64_t heft;
};
struct zabgurin_costs zabgurin_range(const uint8_t *request, size_t request_len);

/* Why a task does not start at a minute, by the plan of zabgurin_plan with 64 rows lent. For a request that has no plan number is that of the refusal, with its place, and all
   else is 0. Else number and place are 0, and reason is one of these; what stands in its line as - is 0:

    reason                                                  task                begin                 end
    1   data arrives on its processor after `start`         from which task     when it arrives       -
    2   it would overlap a window of its processor          -                   the window's begin    the window's end
    3   it would overlap the row of a task there            which task          its start             its finish
    4   `start` is not below its own start                  -                   its own start         -
    5   the request has no such task                        how many it has     -                     -

   Where `start` is below the task's own it is the first of 1 to 3 that is so, and one of them always is: all other rows, the windows and the processor kept, no task can start
   sooner. Of data it is what arrives last, and of equals what comes from the lowest task; of windows the earliest; of rows that of the lowest task. */
struct zabgurin_reason {
    uint64_t number;
    uint64_t place;
    uint64_t reason;
    uint64_t task;
    uint64_t begin;
    uint64_t end;
};
struct zabgurin_reason zabgurin_why(const uint8_t *request, size_t request_len, size_t task, uint64_t start);

/* Prints the plan of a request as text, with 64 rows lent: `plan`, tasks, length, cost and budget left, then a line for each task with its label, processor, start,
   finish and cost; or `no`, number and place. The answer is the number of the text's bytes. Where text_len is at least that, they stand at the front of `text` and the
   bytes after them stay as they were; where it is less, nothing is written. There is no 0 at the end. */
size_t zabgurin_print(const uint8_t *request, size_t request_len, uint8_t *text, size_t text_len);

/* The same of the cheapest plan, and of the HEFT plan. */
size_t zabgurin_print_cheapest(const uint8_t *request, size_t request_len, uint8_t *text, size_t text_len);
size_t zabgurin_print_heft(const uint8_t *request, size_t request_len, uint8_t *text, size_t text_len);

/* A part of the request: length bytes, from the offset begin on. */
struct zabgurin_part {
    size_t begin;
    size_t length;
};

/* Where the label of a task stands in the request, without its spaces: 1 to 8 of the sixty-four bytes A-Z a-z 0-9 - _ . Length 0 at begin 0 for a task that the request
   does not have, and for a request that is refused with 1 to 6. */
struct zabgurin_part zabgurin_label(const uint8_t *request, size_t request_len, size_t task);

/* What reading a request says. number is 0 for a good request, with its numbers (a deadline of 0 is none) and the offsets at which its parts begin: the records of the
   processors, the windows, or the tasks where there are none, the tasks, and the edges, or the end where there are none. Else number is that of the refusal, 1 to 6, with its place, and all else is 0.

   share_given is 1 where the budget is set by a share, in thousandths, and then budget is 0; else share_given and share are 0.

   The processors' records stand from prices_at on in the order of the processors, for each a P of 3 bytes or a Q of 5. So the record of a processor is found from the one
   before it, by its letter. The windows, each an M of 10 bytes, stand by rising processor, and those of one processor by rising begin. */
struct zabgurin_reading {
    uint64_t number;
    size_t place;
    size_t tasks;
    size_t processors;
    uint64_t budget;
    uint64_t deadline;
    uint64_t share_given;
    uint64_t share;
    size_t prices_at;
    size_t windows_at;
    size_t windows;
    size_t tasks_at;
    size_t edges_at;
    size_t edges;
};
struct zabgurin_reading zabgurin_read(const uint8_t *request, size_t request_len);

/* Whether a byte is one of the sixty-four that a label may hold. */
bool zabgurin_listed(uint8_t byte);

/* The length, without its spaces, of the label in the eight bytes of the request at the offset `at`: 1 to 8; 0 where no label stands there. */
size_t zabgurin_label_len(const uint8_t *request, size_t request_len, size_t at);

/* An example, whole in examples/plan.c:

    uint64_t processors[ZABGURIN_MOST_TASKS], starts[ZABGURIN_MOST_TASKS], finishes[ZABGURIN_MOST_TASKS], costs[ZABGURIN_MOST_TASKS];
    struct zabgurin_answer answer = zabgurin_plan(request, length, processors, 64, starts, 64, finishes, 64, costs, 64);
    if (answer.number != 0)
        printf("refused: %" PRIu64 ", place %" PRIu64 "\n", answer.number, answer.place);
    for (size_t i = 0; i < answer.tasks; i++)
        printf("task %zu starts at minute %" PRIu64 " on processor %" PRIu64 "\n", i, starts[i], processors[i]); */

#ifdef __cplusplus
}
#endif
#endif
