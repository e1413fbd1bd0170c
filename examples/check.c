/* Checks two records from C: `check GOLD GATE DEPTH`. The exit status is the check's status, 4 where it is refused, and 66 where a file cannot be read. */
#include <stdio.h>
#include <stdlib.h>

#include "struo_formal.h"

static const char *const statuses[] = {"Equivalent", "NOT EQUIVALENT", "Inconclusive", "GaveUp"};

/* The bytes of a file, at most `room` of them. */
static size_t load(const char *path, uint8_t *bytes, size_t room) {
    FILE *file = fopen(path, "rb");
    if (!file) {
        perror(path);
        exit(66);
    }
    size_t count = fread(bytes, 1, room, file);
    fclose(file);
    return count;
}

int main(int count, char **words) {
    /* A record of over 65,535 bytes is refused, so that 65,536 are enough. */
    static uint8_t gold[65536], gate[65536], trace[STRUO_TRACE_LENGTH_MAX];
    static uint32_t work[STRUO_WORDS_LENGTH];
    static double scores[STRUO_SCORES_LENGTH];
    if (count != 4) {
        fprintf(stderr, "usage: check GOLD GATE DEPTH\n");
        return 64;
    }
    size_t gold_length = load(words[1], gold, sizeof gold), gate_length = load(words[2], gate, sizeof gate);
    struct struo_check_answer answer = struo_check(gold, gold_length, gate, gate_length, strtoull(words[3], NULL, 10), STRUO_LEARNED_LIMIT, false, trace,
                                                   sizeof trace, work, STRUO_WORDS_LENGTH, scores, STRUO_SCORES_LENGTH);
    if (answer.number != STRUO_ACCEPTED) {
        printf("Refused: number %u, %s, place %u\n", answer.number, answer.side == STRUO_GATE ? "gate" : "gold", answer.place);
        return 4;
    }
    printf("%s at depth %u, learned at most %u of %u literals (query %u of depth %u)\n", statuses[answer.status], answer.depth, answer.learned,
           STRUO_LEARNED_LIMIT, answer.learned_query, answer.learned_depth);
    if (answer.equal) printf("The outputs are proved equal in cycles 0 to %u\n", answer.through);
    return (int)answer.status;
}
