/* A zone of 65 huge frames and two CPUs: created, used, cut off, opened again, closed. One line for each answer: what was asked, number, frame, steps. */
#include <inttypes.h>
#include <stdio.h>
#include <string.h>

#include "lovarntek.h"

enum { HUGE_FRAMES = 65, CPUS = 2, BASE = 0, RUN_OF_8 = 3, HUGE = 9 };

static uint64_t header[LOVARNTEK_HEADER], words[8 * HUGE_FRAMES], cpus[CPUS];
static uint16_t children[HUGE_FRAMES], trees[(HUGE_FRAMES + 31) / 32];
static uint64_t record[LOVARNTEK_RECORD];

static const lovarntek_tables zone = {header, LOVARNTEK_HEADER, words, 8 * HUGE_FRAMES, children, HUGE_FRAMES, trees, (HUGE_FRAMES + 31) / 32, cpus, CPUS};

#define ZONE LOVARNTEK_LEND(zone)
#define RECORD record, LOVARNTEK_RECORD

static void tell(const char *asked, lovarntek_answer answer, uint64_t steps) {
    printf("%s: %" PRIu64 " %" PRIu64 " %" PRIu64 "\n", asked, answer.number, answer.frame, steps);
}

/* Goes on with a get or put by single steps, as memory that survives a cut needs it. */
static void by_steps(const char *asked, lovarntek_answer answer) {
    uint64_t steps = 0;
    for (; answer.number == LOVARNTEK_UNDER_WAY; steps++) answer = lovarntek_step(ZONE, RECORD);
    tell(asked, answer, steps);
}

/* Goes on with a get or put by runs of up to 4 steps. */
static void by_runs(const char *asked, lovarntek_answer answer) {
    uint64_t steps = 0;
    while (answer.number == LOVARNTEK_UNDER_WAY) {
        lovarntek_ran ran = lovarntek_run(ZONE, RECORD, 4);
        answer.number = ran.number;
        answer.frame = ran.frame;
        steps += ran.steps;
    }
    tell(asked, answer, steps);
}

/* A get or put begun and run in one call. */
static void in_one(const char *asked, lovarntek_ran ran) {
    lovarntek_answer answer = {ran.number, ran.frame};
    tell(asked, answer, ran.steps);
}

static void open_again(const char *asked) {
    uint64_t steps = 1;
    lovarntek_answer answer = lovarntek_open(ZONE, RECORD);
    for (; answer.number == LOVARNTEK_UNDER_WAY; steps++) answer = lovarntek_open_step(ZONE, RECORD);
    tell(asked, answer, steps);
}

int main(void) {
    uint64_t steps = 1;
    lovarntek_answer answer = lovarntek_create(ZONE, RECORD, HUGE_FRAMES);
    for (; answer.number == LOVARNTEK_UNDER_WAY; steps++) answer = lovarntek_create_step(ZONE, RECORD, HUGE_FRAMES);
    tell("create", answer, steps);
    by_steps("get base, CPU 0", lovarntek_get(ZONE, RECORD, 0, BASE));
    by_runs("get base, CPU 1", lovarntek_get(ZONE, RECORD, 1, BASE));
    by_runs("get huge, CPU 0", lovarntek_get(ZONE, RECORD, 0, HUGE));
    by_steps("put 0, CPU 1", lovarntek_put(ZONE, RECORD, 1, 0, BASE));
    by_steps("put 0 again", lovarntek_put(ZONE, RECORD, 1, 0, BASE));
    by_runs("get run of 8, CPU 0", lovarntek_get(ZONE, RECORD, 0, RUN_OF_8));
    by_steps("put run 1024", lovarntek_put(ZONE, RECORD, 0, 1024, RUN_OF_8));
    in_one("get base in one, CPU 1", lovarntek_get_run(ZONE, RECORD, 1, BASE, UINT64_MAX));
    in_one("put 16385 in one", lovarntek_put_run(ZONE, RECORD, 1, 16385, BASE, UINT64_MAX));
    by_steps("get, no such CPU", lovarntek_get(ZONE, RECORD, CPUS, BASE));
    memset(trees, 0xAB, sizeof trees);
    memset(cpus, 0xCD, sizeof cpus);
    by_steps("get after the cut", lovarntek_get(ZONE, RECORD, 0, BASE));
    open_again("open after the cut");
    by_runs("put huge 512", lovarntek_put(ZONE, RECORD, 0, 512, HUGE));
    by_runs("put 16384", lovarntek_put(ZONE, RECORD, 0, 16384, BASE));
    tell("close", lovarntek_close(ZONE), 1);
    by_steps("get, closed", lovarntek_get(ZONE, RECORD, 0, BASE));
    open_again("open");
    return 0;
}
