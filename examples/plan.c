/* Plans the request in a file, or on standard input, and prints what the program of this project prints: the plan, or the refusal. It is built from any folder by

    cc -I include -o plan-example examples/plan.c target/staticlib/libexports.a */
#include "zabgurin.h"

#include <inttypes.h>
#include <stdio.h>

int main(int argc, char **argv) {
    /* What comes after this many bytes changes no answer: a good request has at most ZABGURIN_MOST_REQUEST. */
    static uint8_t request[16384];
    FILE *file = argc > 1 ? fopen(argv[1], "rb") : stdin;
    if (!file) {
        perror(argv[1]);
        return 1;
    }
    size_t length = fread(request, 1, sizeof request, file);

    uint64_t processors[ZABGURIN_MOST_TASKS], starts[ZABGURIN_MOST_TASKS], finishes[ZABGURIN_MOST_TASKS], costs[ZABGURIN_MOST_TASKS];
    struct zabgurin_answer answer =
        zabgurin_plan(request, length, processors, ZABGURIN_MOST_TASKS, starts, ZABGURIN_MOST_TASKS, finishes, ZABGURIN_MOST_TASKS, costs, ZABGURIN_MOST_TASKS);
    if (answer.number != 0) {
        printf("no %" PRIu64 " %" PRIu64 "\n", answer.number, answer.place);
        return 0;
    }
    printf("plan %" PRIu64 " %" PRIu64 " %" PRIu64 " %" PRIu64 "\n", answer.tasks, answer.length, answer.cost, answer.left);
    for (size_t i = 0; i < answer.tasks; i++) {
        struct zabgurin_part label = zabgurin_label(request, length, i);
        printf("%.*s %" PRIu64 " %" PRIu64 " %" PRIu64 " %" PRIu64 "\n", (int)label.length, (const char *)request + label.begin, processors[i], starts[i], finishes[i],
               costs[i]);
    }
    return 0;
}
