/* Quotes a description file and tries it: the report, the quote or what its refusal means, on both models, then a run of ticks on
 * the preemptive one. */
#include <stdio.h>

#include "bench.h"

/* Each round of the run has a call for each source, which arrives if it may, and one call without arrivals, all at the quote. */
#define ROUNDS 10000
#define CALLS (17 * ROUNDS)

static uint8_t file[4096], report[BENCH_LONGEST_REPORT];
static uint8_t calls[BENCH_CALL * CALLS], outcomes[CALLS], record[BENCH_RECORD];

static const char *meaning(int number) {
    switch (number) {
    case BENCH_CUT_SHORT: return "a field passes the end of the file";
    case BENCH_STRANGE_TAG: return "the tag is not 1 to 4";
    case BENCH_WRONG_LENGTH: return "the length is not the tag's";
    case BENCH_OUT_OF_TURN: return "a field is out of order, or a link stands twice";
    case BENCH_TOO_MANY: return "there are more than 32 tasks, 16 sources or 256 links";
    case BENCH_OFF_SCALE: return "a number is outside its range";
    case BENCH_NO_SUCH_END: return "a link names a task or source that the file lacks";
    case BENCH_NO_TASK: return "the file has no task";
    case BENCH_LOOP: return "the links contain a cycle";
    case BENCH_TOO_HEAVY: return "one event brings more than 1,000,000,000 ticks of work";
    case BENCH_NO_TEMPO: return "some critical link is doubtful even at 20.0";
    case BENCH_SHORT_PAGE: return "a buffer is too short";
    default: return "no refusal of these calls";
    }
}

static int refused(const char *call, int64_t answer) {
    printf("%s refused %d at %d: %s\n", call, BENCH_NUMBER(answer), BENCH_PLACE(answer), meaning(BENCH_NUMBER(answer)));
    return 1;
}

static int quoted(const char *call, int64_t answer) {
    if (answer < 0) return refused(call, answer);
    printf("%s %d.%d\n", call, (int)(answer / 10), (int)(answer % 10));
    return 0;
}

int main(int count, char **words) {
    FILE *input = count == 2 ? fopen(words[1], "rb") : NULL;
    if (input == NULL) {
        fprintf(stderr, "usage: quote FILE\n");
        return 2;
    }
    size_t length = fread(file, 1, sizeof file, input);
    if (ferror(input)) {
        perror(words[1]);
        return 2;
    }
    fclose(input);

    int64_t bytes = bench_report(file, length, report, sizeof report);
    if (bytes < 0) return refused("report", bytes);
    fwrite(report, 1, (size_t)bytes, stdout);

    int64_t tempo = bench_quote(file, length);
    int unquoted = quoted("quote", tempo);
    quoted("hold-on quote", bench_hold_quote(file, length));
    if (unquoted) return 1;

    for (size_t k = 0; k < CALLS; k++) {
        size_t source = k % 17;
        uint8_t *call = calls + BENCH_CALL * k;
        call[0] = source >= 8 && source < 16 ? (uint8_t)(1u << (source - 8)) : 0;
        call[1] = source < 8 ? (uint8_t)(1u << source) : 0;
        call[2] = (uint8_t)(tempo >> 8);
        call[3] = (uint8_t)tempo;
    }
    int64_t done = bench_run(file, length, calls, sizeof calls, outcomes, sizeof outcomes, record, sizeof record);
    if (done < 0) return refused("run", done);

    int ticks = 0, soon = 0;
    for (size_t k = 0; k < CALLS; k++) {
        ticks += outcomes[k] == 0;
        soon += outcomes[k] == BENCH_TOO_SOON;
    }
    printf("run: %d ticks, %d arrivals refused as too soon\n", ticks, soon);
    for (int link = 0; link < 256; link++)
        if (record[BENCH_RECORD_DROPPED + link]) printf("run: an event was lost on link %d\n", link + 1);
    return 0;
}
