/* privetcomb.h: the C boundary of the proved library: check a refutation and build its circuit, evaluate a circuit, find a record.
 *
 * Tables are records without a header; numbers of two bytes are little endian. There are 256 variables, x0 to x255.
 *
 * - Clause, 64 bytes: 0-31 the positive literals, 32-63 the negative ones; in each half variable v is bit v mod 8 of byte
 *   v div 8. 64 zero bytes are the empty clause.
 * - Step, 8 bytes: 0-1 the left antecedent, 2-3 the right antecedent, 4 the pivot variable, 5-7 zero. Its result is left
 *   without the positive pivot together with right without the negative one.
 * - Gate, 8 bytes: 0 is 1 for AND, 2 for OR; 1 zero; 2-3 the left input, 4-5 the right input; 6-7 zero.
 * - Assignment, 32 bytes: the same bit order; bit 1 means true.
 *
 * Antecedents are clause numbers: A's clauses are numbered from 0, then B's, then the result of each step. Inputs of gates
 * are references: 0 is false, 1 is true, 2 + 2v is xv, 3 + 2v is not xv, and 514 + k is gate k, counted from 0.
 *
 * The caller's duties, for every function here:
 *
 * - Each pointer is not null, also where its length is 0. As many bytes as its length says stand there, each set to some
 *   value, and may be read (of `work` and `gates`: read and written). No length is above PTRDIFF_MAX. Any alignment will do.
 * - `work` and `gates` overlap neither each other nor any other table of the call. Tables that are only read may overlap.
 * - Nothing else writes any of the tables during the call, and nothing else reads `work` or `gates` during it.
 *
 * In return, for every function here: it returns on every content and every length of the tables; it keeps no pointer,
 * allocates nothing, has no state of its own, and calls at the same time from several threads don't disturb each other
 * where the duties are kept; and the tables passed as pointers to const are not written. Its result and the bytes it leaves
 * depend on the arguments and the tables' bytes alone.
 */
#ifndef PRIVETCOMB_H
#define PRIVETCOMB_H

#include <stddef.h>
#include <stdint.h>

#ifdef __cplusplus
extern "C" {
#endif

/* The numbers answered. Of several that apply the first in this order is given (7 to 10 step by step, 22 and 23 gate by gate). */
enum privetcomb_number {
    PRIVETCOMB_ACCEPTED = 0,

    /* privetcomb_check */
    PRIVETCOMB_LENGTH_OF_A = 1,             /* A's length is not a multiple of 64 */
    PRIVETCOMB_LENGTH_OF_B = 2,             /* B's length is not a multiple of 64 */
    PRIVETCOMB_LENGTH_OF_STEPS = 3,         /* the step table's length is not a multiple of 8 */
    PRIVETCOMB_TOO_MANY_CLAUSES = 4,        /* clauses of A, clauses of B and steps are above 1,024 together */
    PRIVETCOMB_WORK_TOO_SHORT = 5,          /* the work table is shorter than 64 bytes a step */
    PRIVETCOMB_GATES_TOO_SHORT = 6,         /* the gate table is shorter than 24 bytes a step */
    PRIVETCOMB_SPARE_BYTE_OF_STEP = 7,      /* byte 5, 6 or 7 of the step is not zero */
    PRIVETCOMB_ANTECEDENT_NOT_EARLIER = 8,  /* left or right is not below the step's own clause number */
    PRIVETCOMB_LEFT_LACKS_PIVOT = 9,        /* the left antecedent lacks the positive pivot */
    PRIVETCOMB_RIGHT_LACKS_PIVOT = 10,      /* the right antecedent lacks the negative pivot */
    PRIVETCOMB_NO_EMPTY_CLAUSE = 11,        /* no clause is empty, neither an input clause nor a result */

    /* privetcomb_evaluate */
    PRIVETCOMB_LENGTH_OF_ASSIGNMENT = 20,   /* the assignment is not of 32 bytes */
    PRIVETCOMB_LENGTH_OF_GATES = 21,        /* the gate table's length is not a multiple of 8, or above 24,576 */
    PRIVETCOMB_FORM_OF_GATE = 22,           /* byte 0 of the gate is not 1 or 2, or its byte 1, 6 or 7 is not zero */
    PRIVETCOMB_INPUT_NOT_EARLIER = 23,      /* an input of gate k is 514 + k or above */
    PRIVETCOMB_ROOT_NOT_THERE = 24          /* the root reference is 514 + gates or above */
};

/* What the check answers. */
struct privetcomb_answer {
    size_t number; /* PRIVETCOMB_ACCEPTED, or a refusal from 1 to 11 */
    size_t place;  /* accepted: the root's clause number; 7 to 10: the step, counted from 0; else 0 */
    size_t root;   /* accepted: the root's reference; refused: 0 */
    size_t count;  /* accepted: the number of gates; refused: 0 */
};

/* Checks a refutation and builds its circuit.
 *
 * A and B are clause tables (64 bytes a record), steps a table of s steps (8 bytes a record).
 *
 * Accepted (0): every step is by the resolution rule, and the root is the first clause in number order without a literal.
 *   `work`:  record i, the 64 bytes from 64 i, is the result of step i, for each i below s. Bytes from 64 s on stay.
 *   `gates`: records 0 to count - 1, 8 bytes each, are the gates of the symmetric system for all steps, in step order.
 *            Bytes from 8 count on stay. The circuit is these count records, read at the answer's root reference: it has only
 *            variables that occur in both A and B, is true wherever all clauses of A are, and false wherever all of B are.
 * Refused, 1 to 6: no byte of `work` and no byte of `gates` is written.
 * Refused, 7 to 10, at step i: records 0 to i - 1 of `work` are the results of these steps; its bytes from 64 i on stay, and
 *   no byte of `gates` is written.
 * Refused, 11: records 0 to s - 1 of `work` are the results of all steps; its bytes from 64 s on stay, and no byte of
 *   `gates` is written.
 */
struct privetcomb_answer privetcomb_check(
    const uint8_t *a, size_t a_length,
    const uint8_t *b, size_t b_length,
    const uint8_t *steps, size_t steps_length,
    uint8_t *work, size_t work_length,
    uint8_t *gates, size_t gates_length);

/* What evaluating answers. */
struct privetcomb_evaluated {
    size_t number; /* PRIVETCOMB_ACCEPTED, or a refusal from 20 to 24 */
    size_t place;  /* 22 and 23: the gate, counted from 0; else 0 */
    size_t value;  /* accepted: the root's value, 0 or 1; refused: 0 */
};

/* Evaluates a gate table at a root reference under an assignment of 32 bytes, where bit 1 means true.
 *
 * To evaluate what privetcomb_check built, pass its gate table with 8 count as length, and its root.
 * No byte of any table is written, whatever the answer.
 */
struct privetcomb_evaluated privetcomb_evaluate(
    const uint8_t *assignment, size_t assignment_length,
    const uint8_t *table, size_t table_length,
    size_t root);

/* A part of a table: `length` bytes from `start` on. */
struct privetcomb_part {
    size_t start;
    size_t length;
};

/* Finds clause record r in a table of any length.
 *
 * Where 64 (r + 1) is at most the table's length, as whole numbers, the part is the 64 bytes from 64 r: the caller's own, of
 * which no copy is made. Otherwise it is the empty part, start 0 and length 0; an r of any size may be asked for.
 * No byte of the table is written.
 */
struct privetcomb_part privetcomb_record(const uint8_t *table, size_t table_length, size_t r);

#ifdef __cplusplus
}
#endif

#endif
