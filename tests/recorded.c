/* Runs every line of the recorded list through the C boundary: answers and every lent byte, and that each status in both modes, each query's give-up at depth 1 and
   deeper and each refusal was met, on each side that it can have. `recorded FILE`; the form of a line is that of oracle/README.md. */
#include <stdio.h>
#include <stdlib.h>
#include <string.h>

#include "struo_formal.h"

/* What a buffer holds before a call, and how many elements more than lent are watched. */
#define HELD 0xa5
#define SPARE 8192

/* How often each refusal was met by call and side, and by a check in the mode of the earliest cycle; by mode, 1 being that of the earliest cycle: each status, each query
   that gave up, at depth 1 and deeper, or learned most, and give-ups that proved no cycle or one; each answer of a replay. */
enum { READ, CHECK, REPLAY, REFUSALS = 37 };
static const char *const calls[3] = {"read", "check", "replay"};
static unsigned met[3][REFUSALS][2], met_earliest[REFUSALS], statuses[2][4], gave_up[2][5][2], learned_most[2][5], proved[2][2], answers[2];

/* In the mode of the earliest cycle: mismatches by cycle, the last for 3 and later, and give-ups in query 1 of depth 1, which prove cycle 0 alone. */
static unsigned cycles[4], through_0;

/* The line in hand, how many calls were made, and how many of them differ. */
static unsigned lines, made, differ;

/* Scores before a call: quiet and signalling NaNs of several payloads, infinities, zeros of both signs, and a number. */
static const uint64_t patterns[] = {0x7ff8000000000000, 0x7ff8000000000001, 0xfff8000000000000, 0xffffffffffffffff, 0x7ff0000000000001, 0xfff4a5a5a5a5a5a5,
                                    0x7ff0000000000000, 0xfff0000000000000, 0x8000000000000000, 0x0000000000000000, 0xa5a5a5a5a5a5a5a5};

static uint32_t words[STRUO_WORDS_LENGTH + SPARE];
static double scores[STRUO_SCORES_LENGTH + SPARE];
static uint8_t trace[65536 + SPARE];

/* Bytes and how many they are. */
struct bytes {
    uint8_t *data;
    size_t length;
};

/* A line that is not in a known form. */
static void malformed(void) {
    printf("recorded: line %u is in no known form\n", lines);
    exit(1);
}

/* The next word of the line. */
static char *word(void) {
    char *found = strtok(NULL, " \n");
    if (!found) malformed();
    return found;
}

/* The next word as a number. */
static uint64_t number(void) {
    char *end, *found = word();
    uint64_t value = strtoull(found, &end, 10);
    if (*end) malformed();
    return value;
}

/* The next word as bytes, `-` for none. */
static struct bytes hex(void) {
    char *found = word();
    size_t length = strcmp(found, "-") ? strlen(found) / 2 : 0;
    struct bytes bytes = {malloc(length + 1), length};
    for (size_t i = 0; i < length; i++) {
        unsigned byte;
        if (sscanf(found + 2 * i, "%2x", &byte) != 1) malformed();
        bytes.data[i] = (uint8_t)byte;
    }
    return bytes;
}

/* The sign between what is asked and what is answered. */
static void equals(void) {
    if (strcmp(word(), "=")) malformed();
}

/* Counts a call by its refusal, and compares it. */
static void count(int call, uint32_t refusal, uint32_t side, bool same) {
    made++;
    if (refusal < REFUSALS && side < 2) met[call][refusal][side]++;
    if (same) return;
    differ++;
    printf("recorded: line %u: the answer of %s, or a byte lent, differs\n", lines, calls[call]);
}

/* Whether an answer's three numbers are the next three of the line. */
static bool refused_so(uint32_t refusal, uint32_t side, uint32_t place) {
    uint64_t wanted[3];
    for (int i = 0; i < 3; i++) wanted[i] = number();
    return refusal == wanted[0] && side == wanted[1] && place == wanted[2];
}

/* A line that reads a record. */
static void read_line(void) {
    struct bytes record = hex();
    equals();
    struct struo_read_answer answer = struo_read(record.data, record.length);
    count(READ, answer.number, answer.side, refused_so(answer.number, answer.side, answer.place));
    free(record.data);
}

/* A line that replays a claim. */
static void replay_line(void) {
    struct bytes gold = hex(), gate = hex();
    uint64_t cycle = number();
    struct bytes claim = hex();
    equals();
    struct struo_replay_answer answer = struo_replay(gold.data, gold.length, gate.data, gate.length, cycle, claim.data, claim.length);
    bool same = refused_so(answer.number, answer.side, answer.place);
    same &= answer.yes == !strcmp(word(), "yes");
    if (answer.number == 0) answers[answer.yes]++;
    count(REPLAY, answer.number, answer.side, same);
    free(gold.data), free(gate.data), free(claim.data);
}

/* The pattern of a score. */
static uint64_t pattern(size_t place) {
    return patterns[place % (sizeof patterns / sizeof *patterns)];
}

/* Fills the memory of a check; what a refused one left needs no filling. */
static void hold(void) {
    memset(words, HELD, sizeof words);
    for (size_t i = 0; i < STRUO_SCORES_LENGTH + SPARE; i++) {
        uint64_t bits = pattern(i);
        memcpy(&scores[i], &bits, sizeof bits);
    }
}

/* Whether the work memory is as it has to be: zero where it was lent to an accepted check, else as it was. */
static bool work_holds(bool accepted, size_t words_length, size_t scores_length) {
    uint64_t bits;
    bool same = true;
    for (size_t i = 0; i < STRUO_WORDS_LENGTH + SPARE; i++) same &= words[i] == (accepted && i < words_length ? 0 : 0x01010101u * HELD);
    for (size_t i = 0; i < STRUO_SCORES_LENGTH + SPARE; i++) {
        memcpy(&bits, &scores[i], sizeof bits);
        same &= bits == (accepted && i < scores_length ? 0 : pattern(i));
    }
    return same;
}

/* Whether the trace begins with the written bytes and holds all others. */
static bool trace_holds(struct bytes written) {
    for (size_t i = 0; i < sizeof trace; i++)
        if (trace[i] != (i < written.length ? written.data[i] : HELD)) return false;
    return true;
}

/* Counts what a check answered in the mode of the earliest cycle alone. */
static void tally_earliest(struct struo_check_answer answer) {
    if (answer.number < REFUSALS) met_earliest[answer.number]++;
    if (answer.status == STRUO_NOT_EQUIVALENT) cycles[answer.mismatch < 3 ? answer.mismatch : 3]++;
    through_0 += answer.status == STRUO_GAVE_UP && answer.depth == 1 && answer.query == 1 && answer.equal && answer.through == 0;
}

/* Counts what a check answered in a mode. */
static void tally(struct struo_check_answer answer, bool earliest) {
    if (answer.number == 0 && answer.status < 4) statuses[earliest][answer.status]++;
    if (answer.status == STRUO_GAVE_UP && answer.query < 5) {
        gave_up[earliest][answer.query][answer.depth > 1]++;
        proved[earliest][answer.equal]++;
    }
    if (answer.learned > 0 && answer.learned_query < 5) learned_most[earliest][answer.learned_query]++;
}

/* A line that checks a pair. */
static void check_line(void) {
    struct bytes gold = hex(), gate = hex();
    uint64_t depth = number(), limit = number(), earliest = number();
    size_t trace_length = number(), words_length = number(), scores_length = number();
    equals();
    if (earliest > 1 || trace_length > sizeof trace || words_length > STRUO_WORDS_LENGTH + SPARE || scores_length > STRUO_SCORES_LENGTH + SPARE) malformed();
    memset(trace, HELD, sizeof trace);
    struct struo_check_answer answer = struo_check(gold.data, gold.length, gate.data, gate.length, depth, limit, earliest == 1, trace, trace_length, words,
                                                   words_length, scores, scores_length);
    bool accepted = answer.number == 0, same = refused_so(answer.number, answer.side, answer.place);
    const uint32_t told[9] = {answer.status, answer.depth, answer.mismatch, answer.query, answer.learned, answer.learned_depth, answer.learned_query, answer.equal, answer.through};
    for (int i = 0; i < 9; i++) same &= told[i] == number();
    struct bytes written = hex();
    same &= trace_holds(written) && work_holds(accepted, words_length, scores_length);
    tally(answer, earliest == 1);
    if (earliest == 1) tally_earliest(answer);
    if (accepted || !same) hold();
    count(CHECK, answer.number, answer.side, same);
    free(gold.data), free(gate.data), free(written.data);
}

/* Whether a call can answer a refusal on a side. */
static bool can(int call, unsigned refusal, unsigned side) {
    if (refusal <= 15 || refusal == 30) return side == 0 || (call != READ && refusal > 0);
    if (call == READ || (refusal > 25 && refusal != 36) || (call == CHECK && refusal == 25)) return false;
    if (call == REPLAY && (refusal <= 17 || refusal == 23 || refusal == 24 || refusal == 36)) return false;
    return side == 0 || refusal == 20 || refusal == 22;
}

/* Says what the checks of a mode answered; how much of it was not met. Query 0 is of the mode of the earliest cycle, and of depth 1. */
static unsigned unmet_in_mode(bool earliest) {
    const unsigned *status = statuses[earliest];
    unsigned missing = !proved[earliest][0] + !proved[earliest][1];
    printf("recorded: %s: Equivalent %u, NotEquivalent %u, Inconclusive %u, GaveUp %u (no cycle proved %u, one %u)\n", earliest ? "earliest cycle" : "without the mode",
           status[0], status[1], status[2], status[3], proved[earliest][0], proved[earliest][1]);
    for (int i = 0; i < 4; i++) missing += !status[i];
    for (int i = earliest ? 0 : 1; i < 5; i++) {
        printf("recorded: query %d gave up %u times at depth 1, %u deeper, learned most %u times\n", i, gave_up[earliest][i][0], gave_up[earliest][i][1], learned_most[earliest][i]);
        missing += !gave_up[earliest][i][0] + (i > 0 && !gave_up[earliest][i][1]) + !learned_most[earliest][i];
    }
    return missing;
}

/* Says what the mode of the earliest cycle alone shows: its mismatches, its give-ups through cycle 0, the refusals of a pair, and 30; how much of it was not met. */
static unsigned unmet_earliest(void) {
    unsigned missing = !through_0;
    printf("recorded: earliest cycle 0: %u, 1: %u, 2: %u, later: %u; give-ups through cycle 0: %u; by refusal:", cycles[0], cycles[1], cycles[2], cycles[3], through_0);
    for (int i = 0; i < 4; i++) missing += !cycles[i];
    for (unsigned refusal = 16; refusal < REFUSALS; refusal++) {
        if (refusal > 24 && refusal != 30 && refusal != 36) continue;
        printf(" %u:%u", refusal, met_earliest[refusal]);
        missing += !met_earliest[refusal];
    }
    printf("\n");
    return missing;
}

/* Says how often what a call can answer was met; how many of these were not. */
static unsigned unmet(void) {
    unsigned missing = 0;
    for (int call = READ; call <= REPLAY; call++) {
        printf("recorded: %s by refusal, gold+gate:", calls[call]);
        for (unsigned refusal = 0; refusal < REFUSALS; refusal++) {
            if (!can(call, refusal, 0)) continue;
            printf(can(call, refusal, 1) ? " %u:%u+%u" : " %u:%u", refusal, met[call][refusal][0], met[call][refusal][1]);
            for (unsigned side = 0; side < 2; side++) missing += can(call, refusal, side) && !met[call][refusal][side];
        }
        printf("\n");
    }
    printf("recorded: replay no %u, yes %u\n", answers[0], answers[1]);
    return missing + unmet_in_mode(false) + unmet_in_mode(true) + unmet_earliest() + !answers[0] + !answers[1];
}

int main(int argc, char **argv) {
    static char line[1 << 19];
    FILE *file = argc == 2 ? fopen(argv[1], "r") : NULL;
    if (!file) return printf("recorded FILE\n"), 2;
    hold();
    while (fgets(line, sizeof line, file)) {
        lines++;
        char *call = strtok(line, " \n");
        if (!call || *call == '#') continue;
        if (!strcmp(call, "read")) read_line();
        else if (!strcmp(call, "replay")) replay_line();
        else if (!strcmp(call, "check")) check_line();
        else malformed();
    }
    fclose(file);
    unsigned missing = unmet();
    printf("recorded: %u lines through the C boundary, %u differ, %u answers not met\n", made, differ, missing);
    return differ || missing;
}
