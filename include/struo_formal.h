/* The calls of libstruo_formal.a. Nothing is demanded of the caller beyond what the types say: any bytes, any lengths.
   A pointer points to as many elements as its length says, and is not null, even where the length is 0. docs/SPECIFICATION.md says what each call
   answers, and lists the refusals. */
#ifndef STRUO_FORMAL_H
#define STRUO_FORMAL_H

#include <stdbool.h>
#include <stddef.h>
#include <stdint.h>

#ifdef __cplusplus
extern "C" {
#endif

/* The statuses of an accepted check. */
enum struo_status {
    STRUO_EQUIVALENT = 0,
    STRUO_NOT_EQUIVALENT = 1,
    STRUO_INCONCLUSIVE = 2,
    STRUO_GAVE_UP = 3
};

/* The numbers of the refusals; 0 is an accepted call. In which order a call tests them stands with the call. */
enum struo_refusal {
    STRUO_ACCEPTED = 0,
    STRUO_REFUSAL_LENGTH = 1,
    STRUO_REFUSAL_VERSION = 2,
    STRUO_REFUSAL_CUT = 3,
    STRUO_REFUSAL_CODE = 4,
    STRUO_REFUSAL_NAME = 5,
    STRUO_REFUSAL_COUNT = 6,
    STRUO_REFUSAL_UNDEFINED_NET = 7,
    STRUO_REFUSAL_DUPLICATE_PORT_NAME = 8,
    STRUO_REFUSAL_DUPLICATE_REGISTER_NAME = 9,
    STRUO_REFUSAL_INVALID_REGISTER_OUTPUT = 10,
    STRUO_REFUSAL_MULTIPLE_DRIVERS = 11,
    STRUO_REFUSAL_REGISTER_NET = 12,
    STRUO_REFUSAL_UNCONNECTED_REGISTER = 13,
    STRUO_REFUSAL_UNSUPPORTED_ASYNC_RESET = 14,
    STRUO_REFUSAL_UNSUPPORTED_CLOCK = 15,
    STRUO_REFUSAL_ZERO_DEPTH = 16,
    STRUO_REFUSAL_DEPTH_LIMIT = 17,
    STRUO_REFUSAL_INPUT_INTERFACE = 18,
    STRUO_REFUSAL_OUTPUT_INTERFACE = 19,
    STRUO_REFUSAL_MULTIPLE_CLOCK_DOMAINS = 20,
    STRUO_REFUSAL_CLOCK_DOMAIN = 21,
    STRUO_REFUSAL_UNKNOWN_INITIAL_STATE = 22,
    STRUO_REFUSAL_TOO_LARGE = 23,
    STRUO_REFUSAL_MEMORY = 24,
    STRUO_REFUSAL_CLAIM = 25,
    STRUO_REFUSAL_CLOCK_READ = 30,
    STRUO_REFUSAL_LEARNED_LIMIT = 36
};

/* The two sides of a pair. */
#define STRUO_GOLD 0
#define STRUO_GATE 1

/* The stored bits that a begin and a step need: this many bytes, gold's from byte 0 on, gate's from byte STRUO_GATE_BITS on. */
#define STRUO_BITS_LENGTH 256
#define STRUO_GATE_BITS 128

/* The work memory that a check needs: this many words of 32 bits (32 MiB), and this many doubles (512 KiB). */
#define STRUO_WORDS_LENGTH 8388608
#define STRUO_SCORES_LENGTH 65536

/* The largest depth of a check and the last cycle that a claim can name. */
#define STRUO_DEPTH_LIMIT 64

/* The largest limit that a check can be given: the most literals that the clauses learned by one query may have together. */
#define STRUO_LEARNED_LIMIT 262144

/* How long a trace is: for cycles 0 to `cycle`, of a design with so many inputs and outputs. A check to depth D needs STRUO_TRACE_LENGTH(D, I, O) bytes
   and writes STRUO_TRACE_LENGTH(mismatch, I, O) of them; a replay takes exactly STRUO_TRACE_LENGTH(cycle, I, O). STRUO_TRACE_LENGTH_MAX is enough for
   every pair. */
#define STRUO_TRACE_LENGTH(cycle, inputs, outputs) (((size_t)(cycle) + 1) * (size_t)(inputs) + (size_t)(outputs))
#define STRUO_TRACE_LENGTH_MAX 4224

/* How much of the stack each call takes at most, in bytes. No memory is allocated. */
#define STRUO_READ_STACK 120000
#define STRUO_CHECK_STACK 225000
#define STRUO_REPLAY_STACK 225000
#define STRUO_BEGIN_STACK 230000
#define STRUO_STEP_STACK 255000

/* number: STRUO_ACCEPTED for an accepted record, else the refusal's number, 1 to 15 or 30 (of a begin also 18 to 22 and 24).
   side: 0 (of a begin as for a replay). place: a byte offset for 3 to 6, a node number for 7, 8, 13, 14 and 30, a register number for 9 to 12 and 15
   (of a begin also for 22), else 0. */
struct struo_read_answer {
    uint32_t number;
    uint32_t side;
    uint32_t place;
};

/* Reads one design record: accepted, or the first refusal in checking order, 1 to 15 and then 30: an Input that is the clock of one of the design's registers
   is read by a node, an Output too, or by a register's data, enable or reset (place: the lowest such Input). So no verdict and no replay depends on the
   clock's bits. Nothing is written. */
struct struo_read_answer struo_read(const uint8_t *record, size_t record_length);

/* number, side and place: 0, or a refusal of 1 to 15, 18 to 22, 25 or 30 (of a step also 24); side: 0 gold, 1 gate, and 0 where neither record alone is at
   fault; place as above, and for 22 a register number. yes: false where the replay is refused. */
struct struo_replay_answer {
    uint32_t number;
    uint32_t side;
    uint32_t place;
    bool yes;
};

/* Replays a claimed trace of STRUO_TRACE_LENGTH(cycle, I, O) bytes: for each cycle from 0 to the claimed one a byte, 0 or 1, for each input in byte order
   of names, then a byte for each output, 1 where it differs. The clock has its bytes like every input, and no answer depends on whether they are 0 or 1. Yes
   exactly when the outputs agree in every earlier cycle, and in that cycle differ in exactly the marked outputs, at least one. Nothing is written.
   Refusals in checking order: gold's record wholly, as struo_read, then gate's, with side 1; then 18 to 22 as of struo_check, and 25: the cycle is over
   STRUO_DEPTH_LIMIT, the claim has another length, or one of its bytes, the clock's too, is neither 0 nor 1. */
struct struo_replay_answer struo_replay(const uint8_t *gold, size_t gold_length, const uint8_t *gate, size_t gate_length,
                                        uint64_t cycle, const uint8_t *claim, size_t claim_length);

/* A replay position that the caller keeps between calls, with the stored bits lent beside it: the next cycle, and whether the outputs agreed in every cycle
   before it. */
struct struo_position {
    uint64_t cycle;
    bool agreed;
};

/* Sets a position before cycle 0: cycle 0, agreed, and the initial bits of both sides. bits has the stored bit of gold's register j at byte j and of gate's
   register j at byte STRUO_GATE_BITS + j, by register number; every other byte stays. Refusals in checking order: as struo_replay's, with 24 in the place of
   25: bits_length is under STRUO_BITS_LENGTH. A refused begin changes nothing that is lent. */
struct struo_read_answer struo_begin(const uint8_t *gold, size_t gold_length, const uint8_t *gate, size_t gate_length,
                                     struct struo_position *position, uint8_t *bits, size_t bits_length);

/* Moves a position on by one cycle of a claimed trace, which is as struo_replay takes it. Past the claimed cycle nothing changes and the answer is no. Up to
   it one cycle is run from the stored bits lent, on the claim's inputs of the position's cycle: cycle is one more, agreed stays where no output differs,
   and the bytes of both sides' registers are the next stored bits. The answer is no before the claimed cycle; at it yes exactly when the position lent had
   agreed and the outputs differ in exactly the marked ones, at least one. From struo_begin on, the step at the claimed cycle answers as struo_replay.
   Refusals in checking order: as struo_replay's, then 24 for bits_length under STRUO_BITS_LENGTH, then 25 for a byte of a register's stored bit that is neither
   0 nor 1. A refused step changes nothing that is lent. Position and bits overlap neither each other nor the records and the claim. */
struct struo_replay_answer struo_step(const uint8_t *gold, size_t gold_length, const uint8_t *gate, size_t gate_length,
                                      uint64_t cycle, const uint8_t *claim, size_t claim_length,
                                      struct struo_position *position, uint8_t *bits, size_t bits_length);

/* What a check answers. number, side and place: 0, or a refusal of 1 to 24, 30 or 36; side: 0 gold, 1 gate, and 0 where neither record alone is at
   fault; place as above. The other numbers are 0 where the check is refused.
   status: an enum struo_status. depth: the depth at which the verdict fell; for STRUO_INCONCLUSIVE the depth asked for; for STRUO_GAVE_UP the depth of the
   query that gave up. mismatch: for STRUO_NOT_EQUIVALENT the first cycle in which outputs differ, else 0. query: for STRUO_GAVE_UP the number of the query
   that gave up, 1 to 4, and in the mode of the earliest cycle 0 to 4; else 0, so that the status says whether a 0 is a query's number.
   learned: the largest total of learned literals over the queries asked, at most the limit, which says how near the check came to giving up; a query that gave
   up counts with its total before the clause that would have passed the limit. learned_depth and learned_query: depth and number of the first query asked
   that has this total; where nothing was learned 1 and 1, and in the mode of the earliest cycle 1 and 0.
   equal and through: for STRUO_GAVE_UP, how far the outputs are proved equal. Where equal is true, no input sequence makes outputs differ in a cycle from 0 to
   through, so that the first mismatch, if there is one, lies beyond it: through is `depth` where query 2, 3 or 4 gave up, and `depth` - 1 where query 1 did.
   Where equal is false, no query was answered (query 1 of depth 1 gave up, and in the mode of the earliest cycle query 0), nothing is proved of any cycle, cycle
   0 included, and through is 0. For the other statuses equal is false and through 0. */
struct struo_check_answer {
    uint32_t number;
    uint32_t side;
    uint32_t place;
    uint32_t status;
    uint32_t depth;
    uint32_t mismatch;
    uint32_t query;
    uint32_t learned;
    uint32_t learned_depth;
    uint32_t learned_query;
    bool equal;
    uint32_t through;
};

/* Checks whether two designs can ever differ, by k-induction for depths 1 to `depth`, in which each query may learn clauses of `limit` literals together, 0 to
   STRUO_LEARNED_LIMIT. Where `earliest` is true the check is in the mode of the earliest cycle: before query 1 of depth 1, query 0 asks whether outputs can
   differ in cycle 0 alone.

   Equivalent: the outputs, compared by name, agree in every cycle of every input sequence. NotEquivalent: they differ in some cycle that is at
   most `depth`, and the trace shows how. Inconclusive: neither was found up to `depth`. GaveUp: a query's next learned clause would bring its
   learned literals above `limit`. Neither of the last two is a pass. With a larger limit, all else alike, a status other than GaveUp stays, with every number
   and every byte of the trace; and where both give up, the cycle that through tells is never lower, none being the lowest.

   The earliest cycle. A mismatch that is found at depth 2 or more is that depth, and no input sequence makes outputs differ in an earlier cycle. At depth 1 it
   is 0 or 1, and without the mode another input sequence may differ in cycle 0 where it is 1. In the mode every mismatch is the earliest that any input
   sequence can show: a yes to query 0 ends the check with STRUO_NOT_EQUIVALENT, depth 1, mismatch 0 and a trace of cycle 0 alone; after a no all goes on as
   without the mode; and where query 0 gives up, the check does, with depth 1 and query 0. Where the check gives up neither in the mode nor without it, status
   and depth are the same in both, and mismatch and trace too unless outputs can differ in cycle 0. The mode changes no refusal.

   Refusals in checking order. Gold's record is read wholly (1 to 15, then 30, as struo_read), then gate's, with side 1; then:
     16 depth is 0; 17 depth is over 64; 36 limit is over STRUO_LEARNED_LIMIT; 18 the sets of input names differ; 19 the sets of output names differ;
     20 the registers of one side, gold first, have two clock names or edges (side: that side); 21 clock name or edge differ between the sides, or
     only one side has registers; 22 a register has no reset, gold by name, then gate (side: that side; place: the register's number);
     23 (depth + 1) * F + R is over 65,535, where F = I + 3 * N + 10 * R + 4 * O + 1, I and O count one side's inputs and outputs, N and R the nodes
     and registers of both sides; 24 trace_length is under STRUO_TRACE_LENGTH(depth, I, O), words_length under STRUO_WORDS_LENGTH, or scores_length under
     STRUO_SCORES_LENGTH.
   A refused check changes nothing that is lent. The proof has one NaN: of a lent score that is a NaN it says that it stays one, and not with which bits; the
   code writes nothing, and that the bits stay is tested.

   An accepted check leaves all of words and scores zero, over their whole length; what they held before never matters. For NotEquivalent the
   trace begins with a byte, 0 or 1, for each input in byte order of names, the clock too, for each cycle from 0 to the mismatch, then a byte for each
   output in byte order of names, 1 where it differs in that cycle; these STRUO_TRACE_LENGTH(mismatch, I, O) bytes are a claim to which struo_replay answers
   yes. All other bytes of the trace stay, and all of them for the other statuses. The three buffers must not overlap each other or the records, as Rust's
   &mut says. */
struct struo_check_answer struo_check(const uint8_t *gold, size_t gold_length, const uint8_t *gate, size_t gate_length, uint64_t depth, uint64_t limit,
                                      bool earliest, uint8_t *trace, size_t trace_length, uint32_t *words, size_t words_length,
                                      double *scores, size_t scores_length);

#ifdef __cplusplus
}
#endif

#endif
