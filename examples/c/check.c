/* check.c: case P1 of document 01 in C: builds its tables in memory, checks them, prints the circuit and evaluates it twice. */
#include <stdbool.h>
#include <stdio.h>
#include <string.h>

#include "privetcomb.h"

enum { CLAUSE = 64, HALF = 32, STEP = 8, GATE = 8, ASSIGNMENT = 32, STEPS = 3 };

/* Puts the literal of variable v into a clause record, by sign. */
static void add_literal(uint8_t *record, bool positive, unsigned v)
{
    record[(positive ? 0 : HALF) + v / 8] |= (uint8_t)(1u << (v % 8));
}

/* Writes a number of two bytes, little endian. */
static void write_number(uint8_t *bytes, unsigned number)
{
    bytes[0] = (uint8_t)(number % 256);
    bytes[1] = (uint8_t)(number / 256);
}

static unsigned read_number(const uint8_t *bytes)
{
    return bytes[0] + 256u * bytes[1];
}

static void write_step(uint8_t *record, unsigned left, unsigned right, unsigned pivot)
{
    write_number(record, left);
    write_number(record + 2, right);
    record[4] = (uint8_t)pivot;
}

/* Prints the answer and the circuit, a line a gate, as the printing program does. */
static void print_circuit(const struct privetcomb_answer *answer, const uint8_t *gates)
{
    printf("%zu %zu %zu %zu\n", answer->number, answer->place, answer->root, answer->count);
    for (size_t k = 0; k < answer->count; k++) {
        const uint8_t *gate = gates + GATE * k;
        printf("%zu %s %u %u\n", 514 + k, gate[0] == 1 ? "and" : "or", read_number(gate + 2), read_number(gate + 4));
    }
}

/* What document 01 says of P1: results {x1}, {not x1} and the empty clause, and five gates. */
static bool as_document_01_says(const struct privetcomb_answer *answer, const uint8_t *work, const uint8_t *gates)
{
    uint8_t results[STEPS * CLAUSE] = {0};
    add_literal(results, true, 1);
    add_literal(results + CLAUSE, false, 1);
    static const struct { uint8_t kind; unsigned left, right; } circuit[] = {
        {2, 0, 0}, {1, 1, 1}, {2, 4, 514}, {2, 5, 515}, {1, 516, 517},
    };
    enum { COUNT = sizeof circuit / sizeof circuit[0] };
    uint8_t expected[COUNT * GATE] = {0};
    for (size_t k = 0; k < COUNT; k++) {
        expected[GATE * k] = circuit[k].kind;
        write_number(expected + GATE * k + 2, circuit[k].left);
        write_number(expected + GATE * k + 4, circuit[k].right);
    }
    return answer->number == PRIVETCOMB_ACCEPTED && answer->place == 6 && answer->root == 518 && answer->count == COUNT
        && memcmp(work, results, sizeof results) == 0
        && memcmp(gates, expected, sizeof expected) == 0;
}

/* The circuit's value is that of x1: evaluates it where x1 is as given and every other variable is not. */
static bool has_value_of_x1(const struct privetcomb_answer *answer, const uint8_t *gates, bool x1)
{
    uint8_t assignment[ASSIGNMENT];
    memset(assignment, x1 ? 0 : 255, sizeof assignment);
    assignment[0] ^= 1u << 1;
    struct privetcomb_evaluated evaluated =
        privetcomb_evaluate(assignment, sizeof assignment, gates, GATE * answer->count, answer->root);
    printf("x1 = %d: value %zu\n", x1, evaluated.value);
    return evaluated.number == PRIVETCOMB_ACCEPTED && evaluated.value == (x1 ? 1 : 0);
}

int main(void)
{
    /* A: {x0}, {not x0, x1}. B: {not x1, x2}, {not x2}. */
    uint8_t a[2 * CLAUSE] = {0}, b[2 * CLAUSE] = {0}, steps[STEPS * STEP] = {0};
    add_literal(a, true, 0);
    add_literal(a + CLAUSE, false, 0);
    add_literal(a + CLAUSE, true, 1);
    add_literal(b, false, 1);
    add_literal(b, true, 2);
    add_literal(b + CLAUSE, false, 2);
    write_step(steps, 0, 1, 0);
    write_step(steps + STEP, 2, 3, 2);
    write_step(steps + 2 * STEP, 4, 5, 1);

    uint8_t work[STEPS * CLAUSE] = {0}, gates[STEPS * 3 * GATE] = {0};
    struct privetcomb_answer answer =
        privetcomb_check(a, sizeof a, b, sizeof b, steps, sizeof steps, work, sizeof work, gates, sizeof gates);
    print_circuit(&answer, gates);

    /* The last result, found in the work table: the empty clause. */
    struct privetcomb_part last = privetcomb_record(work, sizeof work, STEPS - 1);

    bool right = as_document_01_says(&answer, work, gates)
        && last.start == (STEPS - 1) * CLAUSE && last.length == CLAUSE
        && has_value_of_x1(&answer, gates, false)
        && has_value_of_x1(&answer, gates, true);
    return right ? 0 : 1;
}
