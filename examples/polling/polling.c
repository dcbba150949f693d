/* A sliced review between two polls of a pump's safety shutoff.
 *
 * usage: polling DIR      reviews DIR/book.bin by DIR/plan.bin, port by port, one list rule at a time
 *
 * After every call the shutoff is polled; the longest gap between two polls is shown. The controller's own poll stands here as a counter.
 * Ends with 1 where a port's slices do not end as its whole review does. */
#define _POSIX_C_SOURCE 199309L
#include "tannenlaut.h"

#include <stdio.h>
#include <time.h>

#define BOOK_BYTES 65536 /* one more than a book may have, so that a longer one is seen as too long */
#define PLAN_BYTES 32769
#define WORDS 16384
#define PORTS 32

static uint8_t book[BOOK_BYTES], plan[PLAN_BYTES];
static uint32_t words[WORDS], state[TANNENLAUT_STATE];

static double last_poll, longest_gap;
static unsigned long polls;

static double now(void) {
    struct timespec t;
    clock_gettime(CLOCK_MONOTONIC, &t);
    return t.tv_sec * 1e6 + t.tv_nsec / 1e3;
}

static void poll_shutoff(void) {
    double t = now();
    if (polls > 0 && t - last_poll > longest_gap) longest_gap = t - last_poll;
    last_poll = t;
    polls++;
}

/* A missing file is empty. */
static size_t load(const char *folder, const char *name, uint8_t *bytes, size_t most) {
    char path[4096];
    snprintf(path, sizeof path, "%s/%s", folder, name);
    FILE *file = fopen(path, "rb");
    if (!file) return 0;
    size_t n = fread(bytes, 1, most, file);
    fclose(file);
    return n;
}

/* One port in slices; its phase, or the refusal's number negated. */
static int in_slices(size_t b, size_t p, uint32_t port, uint32_t answer[TANNENLAUT_ANSWER]) {
    tannenlaut_start(book, b, plan, p, port, words, WORDS, state, answer);
    poll_shutoff();
    if (answer[0]) return -(int)answer[0];
    uint32_t list = answer[2], rules = answer[3], calls = 0;
    while (state[TANNENLAUT_STATE_PHASE] == TANNENLAUT_RUNNING) {
        tannenlaut_step(book, b, words, list, state, answer);
        poll_shutoff();
        calls++;
        if (answer[0]) return -(int)answer[0];
    }
    printf("port %u %s after %u of at most %u calls\n", (unsigned)port,
           state[TANNENLAUT_STATE_PHASE] == TANNENLAUT_CERTIFIED ? "certified" : "refused", (unsigned)calls, (unsigned)rules);
    return (int)state[TANNENLAUT_STATE_PHASE];
}

int main(int count, char **arguments) {
    if (count != 2) {
        fprintf(stderr, "usage: polling DIR\n");
        return 2;
    }
    uint32_t answer[TANNENLAUT_ANSWER];
    size_t b = load(arguments[1], "book.bin", book, BOOK_BYTES), p = load(arguments[1], "plan.bin", plan, PLAN_BYTES);
    int wrong = 0, reviewed = 0;
    poll_shutoff();
    for (uint32_t port = 0; port < PORTS; port++) {
        int phase = in_slices(b, p, port, answer);
        if (phase == -12) continue; /* not in the plan */
        reviewed++;
        uint32_t rule = state[TANNENLAUT_STATE_RULE], source = state[TANNENLAUT_STATE_SOURCE];
        tannenlaut_review(book, b, plan, p, port, words, WORDS, answer);
        last_poll = now(); /* the whole review is only here for comparison: no gap of the slices */
        int same = answer[0] ? phase == -(int)answer[0]
                             : phase == (int)answer[2] && (phase != TANNENLAUT_REFUSED || (rule == answer[3] && source == answer[4]));
        if (phase < 0) {
            printf("refused %u place %u\n", (unsigned)answer[0], (unsigned)answer[1]);
            return same ? 0 : 1;
        }
        wrong |= !same;
    }
    printf("%d ports, %lu polls, longest gap %.1f microseconds\n", reviewed, polls, longest_gap);
    return wrong;
}
