/* Links the static library and calls it as a C program would, and measures that each call takes no more stack than the header states. */
#include <pthread.h>
#include <stdio.h>
#include <string.h>

#include "struo_formal.h"

/* The wire: input a, output y = a. */
static const uint8_t wire[19] = {0x01, 0x00, 0x00, 0x00, 0x13, 0x01, 0x67, 0x00, 0x02, 0x00,
                                 0x01, 0x61, 0x11, 0x01, 0x79, 0x00, 0x00, 0x00, 0x00};

static int failed = 0;

/* One read against what the specification says of it. */
static void reads(const char *what, const uint8_t *record, size_t length, uint32_t number, uint32_t place) {
    struct struo_read_answer answer = struo_read(record, length);
    if (answer.number != number || answer.side != 0 || answer.place != place) {
        printf("boundary: %s: %u %u %u, expected %u 0 %u\n", what, answer.number, answer.side, answer.place, number, place);
        failed = 1;
    }
}

/* The wire with a Not before y. */
static const uint8_t inverter[22] = {0x01, 0x00, 0x00, 0x00, 0x16, 0x01, 0x67, 0x00, 0x03, 0x00, 0x01,
                                     0x61, 0x10, 0x00, 0x00, 0x11, 0x01, 0x79, 0x00, 0x01, 0x00, 0x00};

/* One replay of wire against inverter in cycle 0. */
static void replays(uint8_t input, uint8_t mark, bool yes) {
    uint8_t claim[2] = {input, mark};
    struct struo_replay_answer answer = struo_replay(wire, sizeof wire, inverter, sizeof inverter, 0, claim, sizeof claim);
    if (answer.number != 0 || answer.side != 0 || answer.place != 0 || answer.yes != yes) {
        printf("boundary: replay %u %u: %u %u %u %d\n", input, mark, answer.number, answer.side, answer.place, answer.yes);
        failed = 1;
    }
}

/* A register q that takes Not of its own output, with reset 0; y shows it. */
static const uint8_t toggle[45] = {0x01, 0x00, 0x00, 0x00, 0x2d, 0x01, 0x74, 0x00, 0x05, 0x00, 0x03, 0x63, 0x6c, 0x6b, 0x00,
                                   0x03, 0x72, 0x73, 0x74, 0x02, 0x10, 0x00, 0x02, 0x11, 0x01, 0x79, 0x00, 0x02, 0x00, 0x01,
                                   0x01, 0x71, 0x00, 0x02, 0x00, 0x03, 0x00, 0x00, 0x00, 0x00, 0x01, 0x00, 0x01, 0x00, 0x00};

/* The bits of a position, and what is lent where no register's bit lies. */
static uint8_t bits[STRUO_BITS_LENGTH + 1];

static void lend(uint8_t gold, uint8_t gate) {
    for (size_t i = 0; i < sizeof bits; i++) bits[i] = 7;
    bits[0] = gold;
    bits[STRUO_GATE_BITS] = gate;
}

/* Whether a call answered this, and left this position and these bits. */
static void left(const char *what, bool answered, struct struo_position position, uint64_t cycle, bool agreed, uint8_t gold, uint8_t gate) {
    bool same = answered && position.cycle == cycle && position.agreed == agreed;
    for (size_t i = 0; i < sizeof bits; i++) same = same && bits[i] == (i == 0 ? gold : i == STRUO_GATE_BITS ? gate : 7);
    if (!same) {
        printf("boundary: %s: the answer, the position or a byte lent is not as expected\n", what);
        failed = 1;
    }
}

/* A begin on the toggle against itself, with so many bytes lent. */
static void begins(size_t length, uint32_t number, uint64_t cycle, bool agreed, uint8_t bit) {
    struct struo_position position = {9, false};
    lend(7, 7);
    struct struo_read_answer answer = struo_begin(toggle, sizeof toggle, toggle, sizeof toggle, &position, bits, length);
    left("begin", answer.number == number && answer.side == 0 && answer.place == 0, position, cycle, agreed, bit, bit);
}

/* A step on the toggle against itself, claimed to differ in cycle 1. */
static void steps(const char *what, struct struo_position position, uint8_t gold, uint8_t gate, size_t length, uint32_t number, bool yes, uint64_t cycle, bool agreed, uint8_t gold_after, uint8_t gate_after) {
    static const uint8_t claim[5] = {0, 0, 0, 0, 1};
    lend(gold, gate);
    struct struo_replay_answer answer = struo_step(toggle, sizeof toggle, toggle, sizeof toggle, 1, claim, sizeof claim, &position, bits, length);
    left(what, answer.number == number && answer.side == 0 && answer.place == 0 && answer.yes == yes, position, cycle, agreed, gold_after, gate_after);
}

/* The memory of a check, and what it holds before each. */
static uint32_t words[STRUO_WORDS_LENGTH];
static double scores[STRUO_SCORES_LENGTH];
static uint8_t trace[80];

/* Fills the memory. */
static void hold(void) {
    for (size_t i = 0; i < STRUO_WORDS_LENGTH; i++) words[i] = 7;
    for (size_t i = 0; i < STRUO_SCORES_LENGTH; i++) scores[i] = 7;
    for (size_t i = 0; i < sizeof trace; i++) trace[i] = 7;
}

/* The layout of a check's answer: ten numbers without a gap, then what is proved, a byte and a number. */
_Static_assert(sizeof(struct struo_check_answer) == 48 && offsetof(struct struo_check_answer, query) == 24 && offsetof(struct struo_check_answer, learned) == 28
                   && offsetof(struct struo_check_answer, learned_depth) == 32 && offsetof(struct struo_check_answer, learned_query) == 36
                   && offsetof(struct struo_check_answer, equal) == 40 && offsetof(struct struo_check_answer, through) == 44,
               "struct struo_check_answer is laid out as the specification says");

/* The answer of an accepted check: status and depth, the most that a query learned, and this query's depth and number. */
static struct struo_check_answer accepted(uint32_t status, uint32_t depth, uint32_t learned, uint32_t learned_depth, uint32_t learned_query) {
    return (struct struo_check_answer){.status = status, .depth = depth, .learned = learned, .learned_depth = learned_depth, .learned_query = learned_query};
}

/* Whether two answers have the same numbers; the bytes between equal and through have no value. */
static bool alike(struct struo_check_answer one, struct struo_check_answer other) {
    return memcmp(&one, &other, offsetof(struct struo_check_answer, equal)) == 0 && one.equal == other.equal && one.through == other.through;
}

/* Whether all words and scores are this number, and the trace begins with so many written bytes, which are these. */
static bool holds(uint32_t number, const uint8_t *bytes, size_t written) {
    for (size_t i = 0; i < STRUO_WORDS_LENGTH; i++) if (words[i] != number) return false;
    for (size_t i = 0; i < STRUO_SCORES_LENGTH; i++) if (scores[i] != number) return false;
    for (size_t i = 0; i < sizeof trace; i++) if (trace[i] != (i < written ? bytes[i] : 7)) return false;
    return true;
}

/* One check of a pair under a limit, in the mode of the earliest cycle or without it, with so many words lent: its answer and the bytes that it writes. */
static void checks_in(const char *what, const uint8_t *gold, size_t gold_length, const uint8_t *gate, size_t gate_length, uint64_t depth, uint64_t limit, bool earliest,
                      size_t words_length, struct struo_check_answer expected, const uint8_t *bytes, size_t written) {
    hold();
    struct struo_check_answer answer = struo_check(gold, gold_length, gate, gate_length, depth, limit, earliest, trace, sizeof trace, words, words_length, scores, STRUO_SCORES_LENGTH);
    if (!alike(answer, expected) || !holds(answer.number == 0 ? 0 : 7, bytes, written)) {
        printf("boundary: %s: %u %u %u %u %u %u %u %u %u %u %d %u, or a byte lent, is not as expected\n", what, answer.number, answer.side, answer.place,
               answer.status, answer.depth, answer.mismatch, answer.query, answer.learned, answer.learned_depth, answer.learned_query, answer.equal, answer.through);
        failed = 1;
    }
}

/* Input a is 0 in cycle 0, and y differs there. */
static const uint8_t differs_at_once[STRUO_TRACE_LENGTH(0, 1, 1)] = {0, 1};

/* One check of a pair under a limit, without the mode, with so many words lent; what it writes begins as that trace does. */
static void checks_under(const char *what, const uint8_t *gold, size_t gold_length, const uint8_t *gate, size_t gate_length, uint64_t depth, uint64_t limit,
                         size_t words_length, struct struo_check_answer expected, size_t written) {
    checks_in(what, gold, gold_length, gate, gate_length, depth, limit, false, words_length, expected, differs_at_once, written);
}

/* One check of a pair under the largest limit. */
static void checks_pair(const char *what, const uint8_t *gold, size_t gold_length, const uint8_t *gate, size_t gate_length, uint64_t depth, size_t words_length,
                        struct struo_check_answer expected, size_t written) {
    checks_under(what, gold, gold_length, gate, gate_length, depth, STRUO_LEARNED_LIMIT, words_length, expected, written);
}

/* One check of the wire against a record, with so many words lent. */
static void checks(const char *what, const uint8_t *gate, size_t gate_length, uint64_t depth, size_t words_length, struct struo_check_answer expected, size_t written) {
    checks_pair(what, wire, sizeof wire, gate, gate_length, depth, words_length, expected, written);
}

/* Two registers in a row after input e, and y = 0 beside a holding register: they differ first in cycle 2. */
static const uint8_t row[61] = {0x01, 0x00, 0x00, 0x00, 0x3d, 0x01, 0x67, 0x00, 0x06, 0x00, 0x03, 0x63, 0x6c, 0x6b, 0x00, 0x03, 0x72, 0x73, 0x74, 0x00, 0x01,
                                0x65, 0x02, 0x02, 0x11, 0x01, 0x79, 0x00, 0x04, 0x00, 0x02, 0x01, 0x70, 0x00, 0x03, 0x00, 0x02, 0x00, 0x00, 0x00, 0x00, 0x01,
                                0x00, 0x01, 0x00, 0x00, 0x01, 0x71, 0x00, 0x04, 0x00, 0x03, 0x00, 0x00, 0x00, 0x00, 0x01, 0x00, 0x01, 0x00, 0x00};
static const uint8_t holding[47] = {0x01, 0x00, 0x00, 0x00, 0x2f, 0x01, 0x67, 0x00, 0x06, 0x00, 0x03, 0x63, 0x6c, 0x6b, 0x00, 0x03,
                                    0x72, 0x73, 0x74, 0x00, 0x01, 0x65, 0x02, 0x01, 0x00, 0x11, 0x01, 0x79, 0x00, 0x04, 0x00, 0x01,
                                    0x01, 0x68, 0x00, 0x03, 0x00, 0x03, 0x00, 0x00, 0x00, 0x00, 0x01, 0x00, 0x01, 0x00, 0x00};

/* y = a Xor b, as one node and by Or, And and Not. */
static const uint8_t exclusive_or[27] = {0x01, 0x00, 0x00, 0x00, 0x1b, 0x01, 0x78, 0x00, 0x04, 0x00, 0x01, 0x61, 0x00, 0x01,
                                         0x62, 0x22, 0x00, 0x00, 0x00, 0x01, 0x11, 0x01, 0x79, 0x00, 0x02, 0x00, 0x00};
static const uint8_t by_gates[40] = {0x01, 0x00, 0x00, 0x00, 0x28, 0x01, 0x79, 0x00, 0x07, 0x00, 0x01, 0x61, 0x00, 0x01, 0x62, 0x21, 0x00, 0x00, 0x00, 0x01,
                                     0x20, 0x00, 0x00, 0x00, 0x01, 0x10, 0x00, 0x03, 0x20, 0x00, 0x02, 0x00, 0x04, 0x11, 0x01, 0x79, 0x00, 0x05, 0x00, 0x00};

/* y = q Xor f, where q is the second of two registers in a row after e, as one node, and by Or, And and Not over registers of other names: in cycles 0 and 1
   both are f. */
static const uint8_t late[69] = {0x01, 0x00, 0x00, 0x00, 0x45, 0x01, 0x6c, 0x00, 0x08, 0x00, 0x03, 0x63, 0x6c, 0x6b, 0x00, 0x03, 0x72, 0x73, 0x74, 0x00, 0x01,
                                 0x65, 0x00, 0x01, 0x66, 0x02, 0x02, 0x22, 0x00, 0x05, 0x00, 0x03, 0x11, 0x01, 0x79, 0x00, 0x06, 0x00, 0x02, 0x01, 0x70, 0x00,
                                 0x04, 0x00, 0x02, 0x00, 0x00, 0x00, 0x00, 0x01, 0x00, 0x01, 0x00, 0x00, 0x01, 0x71, 0x00, 0x05, 0x00, 0x04, 0x00, 0x00, 0x00,
                                 0x00, 0x01, 0x00, 0x01, 0x00, 0x00};
static const uint8_t late_by_gates[82] = {0x01, 0x00, 0x00, 0x00, 0x52, 0x01, 0x6c, 0x00, 0x0b, 0x00, 0x03, 0x63, 0x6c, 0x6b, 0x00, 0x03, 0x72, 0x73, 0x74,
                                          0x00, 0x01, 0x65, 0x00, 0x01, 0x66, 0x02, 0x02, 0x21, 0x00, 0x05, 0x00, 0x03, 0x20, 0x00, 0x05, 0x00, 0x03, 0x10,
                                          0x00, 0x07, 0x20, 0x00, 0x06, 0x00, 0x08, 0x11, 0x01, 0x79, 0x00, 0x09, 0x00, 0x02, 0x01, 0x72, 0x00, 0x04, 0x00,
                                          0x02, 0x00, 0x00, 0x00, 0x00, 0x01, 0x00, 0x01, 0x00, 0x00, 0x01, 0x73, 0x00, 0x05, 0x00, 0x04, 0x00, 0x00, 0x00,
                                          0x00, 0x01, 0x00, 0x01, 0x00, 0x00};

/* The answer of a check that gave up in a query of depth 1: with what the queries learned, and through which cycle the outputs are proved equal, if through any. */
static struct struo_check_answer gave_up(uint32_t query, uint32_t learned, bool equal, uint32_t through) {
    return (struct struo_check_answer){
        .status = STRUO_GAVE_UP, .depth = 1, .query = query, .learned = learned, .learned_depth = 1, .learned_query = 1, .equal = equal, .through = through};
}

/* A check to a depth under a limit of the toggle against itself with its register named p: query 3 of depth 1 learns one literal. */
static void toggles(const char *what, uint64_t depth, uint64_t limit, struct struo_check_answer expected) {
    uint8_t renamed[sizeof toggle];
    memcpy(renamed, toggle, sizeof toggle);
    renamed[31] = 0x70;
    checks_under(what, toggle, sizeof toggle, renamed, sizeof renamed, depth, limit, STRUO_WORDS_LENGTH, expected, 0);
}

/* A check under a limit of the two forms of Xor: query 1 of depth 1 learns 16 literals. */
static void both_xors(const char *what, uint64_t limit, struct struo_check_answer expected) {
    checks_under(what, exclusive_or, sizeof exclusive_or, by_gates, sizeof by_gates, 1, limit, STRUO_WORDS_LENGTH, expected, 0);
}

/* Checks in which queries learn something, under limits that they pass and keep to. */
static void learns(void) {
    toggles("toggle q against toggle p", 1, STRUO_LEARNED_LIMIT, accepted(STRUO_EQUIVALENT, 1, 1, 1, 3));
    toggles("toggles just at the limit", 1, 1, accepted(STRUO_EQUIVALENT, 1, 1, 1, 3));
    toggles("toggles under the limit 0", 1, 0, gave_up(3, 0, true, 1));
    both_xors("Xor against Or and And", STRUO_LEARNED_LIMIT, accepted(STRUO_EQUIVALENT, 1, 16, 1, 1));
    both_xors("Xor just at the limit", 16, accepted(STRUO_EQUIVALENT, 1, 16, 1, 1));
    both_xors("Xor under the limit 12", 12, gave_up(1, 11, false, 0));
    both_xors("Xor under the limit 5", 5, gave_up(1, 4, false, 0));
    both_xors("Xor under the limit 0", 0, gave_up(1, 0, false, 0));
    checks_under("a late Xor under the limit 3", late, sizeof late, late_by_gates, sizeof late_by_gates, 8, 3, STRUO_WORDS_LENGTH,
                 (struct struo_check_answer){.status = STRUO_GAVE_UP, .depth = 2, .query = 1, .learned = 3, .learned_depth = 2, .learned_query = 1, .equal = true, .through = 1}, 0);
    checks_under("a late Xor just at the limit", late, sizeof late, late_by_gates, sizeof late_by_gates, 8, 5, STRUO_WORDS_LENGTH, accepted(STRUO_EQUIVALENT, 2, 5, 2, 1), 0);
    checks_under("a row under the limit 0", row, sizeof row, holding, sizeof holding, 1, 0, STRUO_WORDS_LENGTH, accepted(STRUO_INCONCLUSIVE, 1, 0, 1, 1), 0);
}

/* Limits above the largest: refused after 17 and before 18 and 24, with nothing written. */
static void limits(void) {
    const struct struo_check_answer above = {.number = STRUO_REFUSAL_LEARNED_LIMIT};
    toggles("the limit 262,145", 1, STRUO_LEARNED_LIMIT + 1, above);
    toggles("the limit 2^32 + 5", 1, 4294967301, above);
    toggles("the limit 2^64 - 1", 64, UINT64_MAX, above);
    toggles("depth 0 with such a limit", 0, STRUO_LEARNED_LIMIT + 1, (struct struo_check_answer){.number = STRUO_REFUSAL_ZERO_DEPTH});
    toggles("depth 65 with such a limit", 65, STRUO_LEARNED_LIMIT + 1, (struct struo_check_answer){.number = STRUO_REFUSAL_DEPTH_LIMIT});
    checks_under("other inputs with such a limit", toggle, sizeof toggle, wire, sizeof wire, 1, STRUO_LEARNED_LIMIT + 1, 0, above, 0);
    checks_under("other inputs", toggle, sizeof toggle, wire, sizeof wire, 1, STRUO_LEARNED_LIMIT, 0, (struct struo_check_answer){.number = STRUO_REFUSAL_INPUT_INTERFACE}, 0);
    checks_under("a cut gate with such a limit", wire, sizeof wire, inverter, 5, 1, STRUO_LEARNED_LIMIT + 1, 0,
                 (struct struo_check_answer){.number = STRUO_REFUSAL_LENGTH, .side = STRUO_GATE}, 0);
}

/* Input a, and an output y that is 0. */
static const uint8_t grounded[21] = {0x01, 0x00, 0x00, 0x00, 0x15, 0x01, 0x7a, 0x00, 0x03, 0x00, 0x01,
                                     0x61, 0x01, 0x00, 0x11, 0x01, 0x79, 0x00, 0x01, 0x00, 0x00};

/* A bool is one byte for a caller too. */
_Static_assert(sizeof(bool) == 1, "a bool is one byte");

/* A check to depth 1 of the wire against y = 0, with this value for the mode: without it a is 1 in cycle 1, in it a is 1 in cycle 0, where they differ at the
   earliest; and the trace is a claim that is answered with yes. */
static void grounds(const char *what, bool earliest) {
    static const uint8_t late_trace[STRUO_TRACE_LENGTH(1, 1, 1)] = {0, 1, 1}, early_trace[STRUO_TRACE_LENGTH(0, 1, 1)] = {1, 1};
    const struct struo_check_answer expected = {
        .status = STRUO_NOT_EQUIVALENT, .depth = 1, .mismatch = earliest ? 0 : 1, .learned_depth = 1, .learned_query = earliest ? 0 : 1};
    const size_t written = STRUO_TRACE_LENGTH(expected.mismatch, 1, 1);
    checks_in(what, wire, sizeof wire, grounded, sizeof grounded, 1, STRUO_LEARNED_LIMIT, earliest, STRUO_WORDS_LENGTH, expected, earliest ? early_trace : late_trace, written);
    struct struo_replay_answer answer = struo_replay(wire, sizeof wire, grounded, sizeof grounded, expected.mismatch, trace, written);
    if (answer.number != 0 || !answer.yes) {
        printf("boundary: %s: the trace is not answered with yes\n", what);
        failed = 1;
    }
}

/* A check in the mode of the two forms of Xor: query 0 learns 5 literals, query 1 after it 16. */
static void both_xors_earliest(const char *what, uint64_t limit, struct struo_check_answer expected) {
    checks_in(what, exclusive_or, sizeof exclusive_or, by_gates, sizeof by_gates, 1, limit, true, STRUO_WORDS_LENGTH, expected, NULL, 0);
}

/* The answer in the mode of a check that gave up in a query of depth 1, in which query 0 learned most. */
static struct struo_check_answer gave_up_earliest(uint32_t query, uint32_t learned, bool equal, uint32_t through) {
    struct struo_check_answer answer = gave_up(query, learned, equal, through);
    answer.learned_query = 0;
    return answer;
}

/* Checks in the mode of the earliest cycle beside the same without it, and the value that says which as C passes one. */
static void earliest_cycles(void) {
    static const uint8_t row_trace[STRUO_TRACE_LENGTH(2, 3, 1)] = {0, 1, 0, 0, 0, 0, 0, 0, 0, 1};
    volatile bool kept = true;
    volatile int number = 2;
    grounds("wire against y = 0", false);
    grounds("wire against y = 0 in the mode", true);
    grounds("the mode from a variable", kept);
    grounds("the mode from another number than 0", number);
    kept = false;
    number = 0;
    grounds("no mode from a variable", kept);
    grounds("no mode from the number 0", number);
    checks_in("wire against inverter in the mode", wire, sizeof wire, inverter, sizeof inverter, 1, 0, true, STRUO_WORDS_LENGTH,
              accepted(STRUO_NOT_EQUIVALENT, 1, 0, 1, 0), differs_at_once, sizeof differs_at_once);
    checks_in("wire against itself in the mode", wire, sizeof wire, wire, sizeof wire, 64, 0, true, STRUO_WORDS_LENGTH, accepted(STRUO_EQUIVALENT, 1, 0, 1, 0), NULL, 0);
    for (int earliest = 0; earliest < 2; earliest++) {
        struct struo_check_answer second = accepted(STRUO_NOT_EQUIVALENT, 2, 0, 1, earliest ? 0 : 1);
        second.mismatch = 2;
        checks_in("a row to depth 2 in both modes", row, sizeof row, holding, sizeof holding, 2, 0, earliest, STRUO_WORDS_LENGTH, second, row_trace, sizeof row_trace);
    }
    checks_in("a row to depth 1 in the mode", row, sizeof row, holding, sizeof holding, 1, 0, true, STRUO_WORDS_LENGTH, accepted(STRUO_INCONCLUSIVE, 1, 0, 1, 0), NULL, 0);
    both_xors_earliest("Xor in the mode", STRUO_LEARNED_LIMIT, accepted(STRUO_EQUIVALENT, 1, 16, 1, 1));
    both_xors_earliest("Xor in the mode under the limit 12", 12, gave_up(1, 11, true, 0));
    both_xors_earliest("Xor in the mode under the limit 5", 5, gave_up_earliest(1, 5, true, 0));
    both_xors_earliest("Xor in the mode under the limit 3", 3, gave_up_earliest(0, 3, false, 0));
    both_xors_earliest("Xor in the mode under the limit 0", 0, gave_up_earliest(0, 0, false, 0));
    checks_in("a late Xor in the mode under the limit 3", late, sizeof late, late_by_gates, sizeof late_by_gates, 8, 3, true, STRUO_WORDS_LENGTH,
              (struct struo_check_answer){.status = STRUO_GAVE_UP, .depth = 2, .query = 1, .learned = 3, .learned_depth = 2, .learned_query = 1, .equal = true, .through = 1}, NULL, 0);
}

/* The mode changes no refusal: each is answered as without it, with nothing written. */
static void earliest_refusals(void) {
    static const struct { const char *what; uint64_t depth, limit; size_t gate_length, words_length; uint32_t number, side; } cases[] = {
        {"a cut gate in the mode", 0, UINT64_MAX, 5, 0, STRUO_REFUSAL_LENGTH, STRUO_GATE},
        {"depth 0 in the mode", 0, UINT64_MAX, sizeof grounded, 0, STRUO_REFUSAL_ZERO_DEPTH, 0},
        {"depth 65 in the mode", 65, UINT64_MAX, sizeof grounded, 0, STRUO_REFUSAL_DEPTH_LIMIT, 0},
        {"the limit 262,145 in the mode", 1, STRUO_LEARNED_LIMIT + 1, sizeof grounded, 0, STRUO_REFUSAL_LEARNED_LIMIT, 0},
        {"a word short in the mode", 1, STRUO_LEARNED_LIMIT, sizeof grounded, STRUO_WORDS_LENGTH - 1, STRUO_REFUSAL_MEMORY, 0},
    };
    for (size_t i = 0; i < sizeof cases / sizeof cases[0]; i++)
        checks_in(cases[i].what, wire, sizeof wire, grounded, cases[i].gate_length, cases[i].depth, cases[i].limit, true, cases[i].words_length,
                  (struct struo_check_answer){.number = cases[i].number, .side = cases[i].side}, NULL, 0);
    hold();
    struct struo_check_answer answer = struo_check(wire, sizeof wire, grounded, sizeof grounded, 1, 0, true, trace, STRUO_TRACE_LENGTH(0, 1, 1), words, STRUO_WORDS_LENGTH, scores,
                                                   STRUO_SCORES_LENGTH);
    if (!alike(answer, (struct struo_check_answer){.number = STRUO_REFUSAL_MEMORY}) || !holds(7, NULL, 0)) {
        printf("boundary: a trace of cycle 0 alone is not refused with 24 in the mode\n");
        failed = 1;
    }
}

/* A record that is refused in every call, as gold and as gate beside the toggle, before anything else that is wrong with the call; what is lent stays. */
static void refuses_record(const char *what, const uint8_t *record, size_t length, uint32_t number, uint32_t place) {
    static const uint8_t claim[1] = {2};
    reads(what, record, length, number, place);
    for (uint32_t side = 0; side < 2; side++) {
        const uint8_t *gold = side == STRUO_GOLD ? record : toggle, *gate = side == STRUO_GOLD ? toggle : record;
        size_t gold_length = side == STRUO_GOLD ? length : sizeof toggle, gate_length = side == STRUO_GOLD ? sizeof toggle : length;
        struct struo_position position = {9, false};
        lend(7, 7);
        struct struo_replay_answer replayed = struo_replay(gold, gold_length, gate, gate_length, 65, claim, sizeof claim);
        struct struo_read_answer begun = struo_begin(gold, gold_length, gate, gate_length, &position, bits, 0);
        struct struo_replay_answer stepped = struo_step(gold, gold_length, gate, gate_length, 65, claim, sizeof claim, &position, bits, 0);
        left(what, replayed.number == number && replayed.side == side && replayed.place == place && !replayed.yes, position, 9, false, 7, 7);
        left(what, begun.number == number && begun.side == side && begun.place == place, position, 9, false, 7, 7);
        left(what, stepped.number == number && stepped.side == side && stepped.place == place && !stepped.yes, position, 9, false, 7, 7);
        checks_in(what, gold, gold_length, gate, gate_length, 0, UINT64_MAX, side == STRUO_GATE, 0,
                  (struct struo_check_answer){.number = number, .side = side, .place = place}, NULL, 0);
    }
}

/* The toggle with one number changed so that its clock is read, in each way; a clock that is no Input beside them. */
static void clock_reads(void) {
    static const struct { const char *what; size_t offset; uint8_t node; uint32_t number, place; } cases[] = {
        {"a Not of the clock", 21, 0, STRUO_REFUSAL_CLOCK_READ, 0},
        {"an Output of the clock", 26, 0, STRUO_REFUSAL_CLOCK_READ, 0},
        {"the clock as data", 34, 0, STRUO_REFUSAL_CLOCK_READ, 0},
        {"the clock as a reset", 41, 0, STRUO_REFUSAL_CLOCK_READ, 0},
        {"the reset as the clock", 36, 1, STRUO_REFUSAL_CLOCK_READ, 1},
        {"a clock that is no Input", 36, 2, STRUO_REFUSAL_UNSUPPORTED_CLOCK, 0},
    };
    for (size_t i = 0; i < sizeof cases / sizeof cases[0]; i++) {
        uint8_t record[sizeof toggle];
        memcpy(record, toggle, sizeof toggle);
        record[cases[i].offset + 1] = cases[i].node;
        refuses_record(cases[i].what, record, sizeof record, cases[i].number, cases[i].place);
    }
}

/* The toggle with an enable, at bytes 39 to 41: refused where that is the clock, before anything of gate's record; accepted where it is rst. */
static void clock_enables(void) {
    uint8_t enabled[sizeof toggle + 2] = {0}, rest = sizeof toggle - 40;
    memcpy(enabled, toggle, 39);
    memcpy(enabled + 42, toggle + 40, rest);
    enabled[4] = sizeof enabled;
    enabled[39] = 1;
    refuses_record("the clock as an enable", enabled, sizeof enabled, STRUO_REFUSAL_CLOCK_READ, 0);
    checks_pair("the clock as an enable before a cut gate", enabled, sizeof enabled, toggle, 5, 1, 0, (struct struo_check_answer){.number = STRUO_REFUSAL_CLOCK_READ}, 0);
    enabled[41] = 1;
    reads("rst as an enable", enabled, sizeof enabled, STRUO_ACCEPTED, 0);
}

/* The trace of a row with each choice of the clock's bits is answered with yes; a 2 among them is refused. */
static void clock_column(void) {
    for (unsigned clock = 0; clock < 9; clock++) {
        uint8_t claim[STRUO_TRACE_LENGTH(2, 3, 1)] = {0, 1, 0, 0, 0, 0, 0, 0, 0, 1};
        for (unsigned cycle = 0; cycle < 3; cycle++) claim[3 * cycle] = clock < 8 ? clock >> cycle & 1 : cycle;
        struct struo_replay_answer answer = struo_replay(row, sizeof row, holding, sizeof holding, 2, claim, sizeof claim);
        if (answer.number != (clock < 8 ? STRUO_ACCEPTED : STRUO_REFUSAL_CLAIM) || answer.yes != (clock < 8)) {
            printf("boundary: a claim with the clock's bits %u: %u %d\n", clock, answer.number, answer.yes);
            failed = 1;
        }
    }
}

/* A claim as long as one of cycle 1, of another cycle: taken for cycle 1 it would be answered with no. */
static void refuses_claim(const char *what, uint64_t cycle) {
    static const uint8_t claim[STRUO_TRACE_LENGTH(1, 1, 1)] = {0, 0, 1};
    struct struo_replay_answer answer = struo_replay(wire, sizeof wire, inverter, sizeof inverter, cycle, claim, sizeof claim);
    if (answer.number != STRUO_REFUSAL_CLAIM || answer.side || answer.place || answer.yes) {
        printf("boundary: a claim of cycle %s is not refused with 25\n", what);
        failed = 1;
    }
}

/* The calls for a thread of its own. */
static void *reading(void *none) {
    reads("wire on a painted stack", wire, sizeof wire, STRUO_ACCEPTED, 0);
    return none;
}

static void *replaying(void *none) {
    replays(0, 1, true);
    return none;
}

static void *beginning(void *none) {
    begins(STRUO_BITS_LENGTH, STRUO_ACCEPTED, 0, true, 0);
    return none;
}

static void *stepping(void *none) {
    steps("a step on a painted stack", (struct struo_position){0, true}, 0, 0, STRUO_BITS_LENGTH, STRUO_ACCEPTED, false, 1, true, 1, 1);
    return none;
}

static void *checking(void *none) {
    checks("wire on a painted stack", wire, sizeof wire, 64, STRUO_WORDS_LENGTH, accepted(STRUO_EQUIVALENT, 1, 0, 1, 1), 0);
    return none;
}

static void *seeking(void *none) {
    checks_in("wire against inverter in the mode on a painted stack", wire, sizeof wire, inverter, sizeof inverter, 64, 0, true, STRUO_WORDS_LENGTH,
              accepted(STRUO_NOT_EQUIVALENT, 1, 0, 1, 0), differs_at_once, sizeof differs_at_once);
    return none;
}

/* A stack that is painted before a call, so that it shows how far down the call wrote. */
enum { PAINT = 0xA5, STACK_LENGTH = 1 << 19 };
static _Alignas(4096) uint8_t stack[STACK_LENGTH];

/* How many bytes of the painted stack a thread takes. */
static size_t taken(void *(*call)(void *)) {
    pthread_attr_t attributes;
    pthread_t thread;
    memset(stack, PAINT, sizeof stack);
    if (pthread_attr_init(&attributes) || pthread_attr_setstack(&attributes, stack, sizeof stack) || pthread_create(&thread, &attributes, call, NULL)) return 0;
    pthread_join(thread, NULL);
    size_t untouched = 0;
    while (untouched < sizeof stack && stack[untouched] == PAINT) untouched++;
    return sizeof stack - untouched;
}

static void *nothing(void *unused) {
    return unused;
}

/* A call takes at most its stated size beside what a thread itself takes; and at least half of it, or nothing was measured. */
static void on_stack(const char *what, void *(*call)(void *), size_t stated) {
    size_t empty = taken(nothing);
    size_t whole = taken(call);
    if (empty == 0 || whole < empty + stated / 2 || whole > empty + stated) {
        printf("boundary: %s takes %zu bytes of stack beside a thread's %zu, stated are %zu\n", what, whole - empty, empty, stated);
        failed = 1;
    }
}

/* Checks with each status, which learn nothing or something, and refused ones. */
static void every_check(void) {
    checks("wire against inverter", inverter, sizeof inverter, 1, STRUO_WORDS_LENGTH, accepted(STRUO_NOT_EQUIVALENT, 1, 0, 1, 1), STRUO_TRACE_LENGTH(0, 1, 1));
    checks("wire against itself", wire, sizeof wire, 64, STRUO_WORDS_LENGTH, accepted(STRUO_EQUIVALENT, 1, 0, 1, 1), 0);
    checks("depth 0", wire, sizeof wire, 0, STRUO_WORDS_LENGTH, (struct struo_check_answer){.number = STRUO_REFUSAL_ZERO_DEPTH}, 0);
    checks("depth 65", wire, sizeof wire, 65, STRUO_WORDS_LENGTH, (struct struo_check_answer){.number = STRUO_REFUSAL_DEPTH_LIMIT}, 0);
    checks("depth 2^32 + 1", wire, sizeof wire, 4294967297, STRUO_WORDS_LENGTH, (struct struo_check_answer){.number = STRUO_REFUSAL_DEPTH_LIMIT}, 0);
    checks_pair("a row to depth 1", row, sizeof row, holding, sizeof holding, 1, STRUO_WORDS_LENGTH, accepted(STRUO_INCONCLUSIVE, 1, 0, 1, 1), 0);
    learns();
    limits();
    earliest_cycles();
    earliest_refusals();
    checks("a cut gate", inverter, 5, 1, STRUO_WORDS_LENGTH, (struct struo_check_answer){.number = STRUO_REFUSAL_LENGTH, .side = STRUO_GATE}, 0);
    checks("a word short", inverter, sizeof inverter, 1, STRUO_WORDS_LENGTH - 1, (struct struo_check_answer){.number = STRUO_REFUSAL_MEMORY}, 0);
}

int main(void) {
    uint8_t other[19];
    reads("wire", wire, sizeof wire, 0, 0);
    reads("empty", wire, 0, 1, 0);
    for (size_t i = 0; i < sizeof wire; i++) other[i] = wire[i];
    other[0] = 9;
    reads("first byte 9", other, sizeof other, 2, 0);
    other[0] = 1;
    other[16] = 1;
    reads("y reads node 1", other, sizeof other, 7, 1);
    other[16] = 0;
    other[12] = 0x12;
    reads("unlisted kind", other, sizeof other, 4, 12);
    replays(0, 1, true);
    replays(0, 0, false);
    refuses_claim("65", 65);
    refuses_claim("2^32 + 1", 4294967297);
    begins(STRUO_BITS_LENGTH, STRUO_ACCEPTED, 0, true, 0);
    begins(STRUO_BITS_LENGTH - 1, STRUO_REFUSAL_MEMORY, 9, false, 7);
    steps("before the claimed cycle", (struct struo_position){0, true}, 0, 0, sizeof bits, STRUO_ACCEPTED, false, 1, true, 1, 1);
    steps("at it, nothing differs", (struct struo_position){1, true}, 1, 1, sizeof bits, STRUO_ACCEPTED, false, 2, true, 0, 0);
    steps("at it, y differs", (struct struo_position){1, true}, 0, 1, sizeof bits, STRUO_ACCEPTED, true, 2, false, 1, 0);
    steps("past it", (struct struo_position){UINT64_MAX, true}, 0, 1, sizeof bits, STRUO_ACCEPTED, false, UINT64_MAX, true, 0, 1);
    steps("bits short", (struct struo_position){1, true}, 0, 1, STRUO_BITS_LENGTH - 1, STRUO_REFUSAL_MEMORY, false, 1, true, 0, 1);
    steps("a stored bit 2", (struct struo_position){1, true}, 0, 2, sizeof bits, STRUO_REFUSAL_CLAIM, false, 1, true, 0, 2);
    every_check();
    clock_reads();
    clock_enables();
    clock_column();
    on_stack("a read", reading, STRUO_READ_STACK);
    on_stack("a replay", replaying, STRUO_REPLAY_STACK);
    on_stack("a begin", beginning, STRUO_BEGIN_STACK);
    on_stack("a step", stepping, STRUO_STEP_STACK);
    on_stack("a check", checking, STRUO_CHECK_STACK);
    on_stack("a check in the mode of the earliest cycle", seeking, STRUO_CHECK_STACK);
    if (!failed) printf("boundary: the C calls answer as specified\n");
    return failed;
}
