/*
 * A worked example of mukdalis.h: a unit for plans of two inputs, two gates and one output. It
 * reads a plan file, makes the fabric's table and the plan's program, runs every input row, and
 * compares each with plan evaluation. Then it saves the plan, which gives the file back, edits it,
 * and shows how a file that was cut short is refused. Last, a plan that holds: a latch that sheds
 * until it is reset, over a series of intervals by the plan and by the fabric of its counts.
 *
 *     (cd crates/capi && rt lib)
 *     cc -std=c11 include/example.c crates/capi/out/libcapi.a -o example
 *
 * It prints the counts, and a line for each row: the inputs, the plan's output, the fabric's; then
 * the length of the saved file; the uses of the inputs before and after the edit, and the refusals
 * of another edit and of the cut file; then a line for each interval of the latch: fault and reset,
 * whether the plan sheds, whether the fabric does; and what each holds at the end.
 */
#include "mukdalis.h"

#include <stdio.h>
#include <string.h>

/* The counts that the unit is built for. Its table depends on nothing else. */
enum { INPUTS = 2, GATES = 2, OUTPUTS = 1 };

/* Gate 1, wire 3: input 1 AND input 2. Gate 2, wire 4: wire 3 XOR input 1. The output: wire 4. */
static const uint8_t file[] = {
    INPUTS, 0, GATES, 0, OUTPUTS, 0, /* u, k, v */
    0x03, 1, 0, 2, 0,                /* both operands stand; table absent: AND */
    0x06, 1, 0, 6,                   /* first operand absent: wire 3; XOR is table 6 */
    4, 0                             /* the output */
};

/* The counts of the latch, its hold count, and the intervals that it is run over. */
enum { LATCH_INPUTS = 3, LATCH_GATES = 2, LATCH_OUTPUTS = 1, HOLD = 1, INTERVALS = 6 };

/*
 * Inputs 1 and 2: fault and reset. Input 3: whether the interval before shed. Gate 1, wire 4: input
 * 3 OR input 1. Gate 2, wire 5: wire 4 and not input 2. The output, which is held: wire 5.
 */
static const uint8_t latch_file[] = {
    LATCH_INPUTS, 0, LATCH_GATES, 0, LATCH_OUTPUTS, 0, /* u, k, v */
    0x06, 1, 0, 14,                                    /* first operand absent: input 3; OR */
    0x06, 2, 0, 4,                                     /* absent: wire 4; table 4: 1 on 1, 0 */
    5, 0                                               /* the output */
};

/* Fault and reset of each interval. */
static const uint8_t fresh[MKD_FRESH_LEN(LATCH_INPUTS, HOLD, INTERVALS)] = {
    0, 0, /* nothing */
    1, 0, /* a fault: the latch sheds */
    0, 0, /* the fault has gone: it still sheds */
    0, 1, /* a reset: it sheds no more */
    0, 0, /* nothing */
    1, 0  /* another fault */
};

static uint16_t table[MKD_TABLE_LEN(MKD_FABRIC_ROWS(INPUTS, GATES, OUTPUTS), OUTPUTS)];
static uint8_t program[MKD_PROGRAM_LEN(MKD_FABRIC_BITS(INPUTS, GATES, OUTPUTS))];
static uint8_t work[MKD_WORK_LEN(MKD_FABRIC_WIRES(INPUTS, GATES, OUTPUTS))];

static int refused(uint32_t number)
{
    printf("refused %u\n", (unsigned)number);
    return 1;
}

/* Whether a plan is for this unit: one of other counts may have another table. */
static int is_ours(struct mkd_plan plan)
{
    return plan.inputs == INPUTS && plan.gate_count == GATES && plan.output_count == OUTPUTS;
}

/* One input row by the plan and by the fabric. */
static int show_row(struct mkd_plan plan, const uint8_t row[INPUTS])
{
    uint8_t expected[MKD_RESULT_LEN(OUTPUTS)];
    uint8_t found[MKD_RESULT_LEN(OUTPUTS)];
    uint32_t number = mkd_plan_evaluate(plan, row, INPUTS, expected, sizeof expected);

    if (number == 0)
        number = mkd_run(table, sizeof table / sizeof table[0], program, sizeof program, row,
                         INPUTS, work, sizeof work, found, sizeof found);
    if (number != 0)
        return refused(number);
    printf("%u%u %u %u\n", row[0], row[1], expected[0], found[0]);
    return found[0] != expected[0];
}

/* Saves the plan of the file, in which no field stands needlessly: its own bytes come back. */
static int save(struct mkd_plan plan)
{
    uint8_t saved[MKD_MAX_FILE_LEN];
    const struct mkd_saved answer = mkd_plan_save(plan, saved, sizeof saved);

    if (answer.number != 0)
        return refused(answer.number);
    printf("saved %u bytes\n", (unsigned)answer.length);
    return answer.length != sizeof file || memcmp(saved, file, sizeof file) != 0;
}

/* Gate 2 gets input 2 in place of input 1, which one operand place less then names. No gate 3. */
static int edit(struct mkd_plan plan)
{
    const struct mkd_gate new_gate = {3, 2, 6};
    const struct mkd_edit done = mkd_plan_replace_gate(plan, 2, new_gate);
    const struct mkd_edit refused_edit = mkd_plan_replace_gate(plan, 3, new_gate);

    if (done.number != 0)
        return refused(done.number);
    printf("uses %u %u, edited %u %u\n", plan.uses[0], plan.uses[1], done.plan.uses[0],
           done.plan.uses[1]);
    printf("gate 3: refused %u\n", (unsigned)refused_edit.number);
    return refused_edit.number != MKD_PLACE;
}

/* The latch over all intervals, with nothing shed before: by the plan and by its fabric. */
static int show_latch(void)
{
    static uint16_t latch_table[MKD_TABLE_LEN(
        MKD_FABRIC_ROWS(LATCH_INPUTS, LATCH_GATES, LATCH_OUTPUTS), LATCH_OUTPUTS)];
    static uint8_t latch_program[MKD_PROGRAM_LEN(
        MKD_FABRIC_BITS(LATCH_INPUTS, LATCH_GATES, LATCH_OUTPUTS))];
    static uint8_t latch_work[MKD_WORK_LEN(
        MKD_FABRIC_WIRES(LATCH_INPUTS, LATCH_GATES, LATCH_OUTPUTS))];
    const size_t latch_table_len = sizeof latch_table / sizeof latch_table[0];
    const uint8_t start[MKD_STATE_LEN(HOLD)] = {0};
    uint8_t expected[MKD_RESULTS_LEN(LATCH_OUTPUTS, INTERVALS)];
    uint8_t found[MKD_RESULTS_LEN(LATCH_OUTPUTS, INTERVALS)];
    uint8_t expected_end[MKD_STATE_LEN(HOLD)];
    uint8_t found_end[MKD_STATE_LEN(HOLD)];
    const struct mkd_read latch = mkd_plan_read(latch_file, sizeof latch_file);
    uint32_t number = latch.number;
    size_t t;

    if (number == 0)
        number = mkd_fabric(LATCH_INPUTS, LATCH_GATES, LATCH_OUTPUTS, latch_table, latch_table_len);
    if (number == 0)
        number = mkd_program(latch.plan, latch_program, sizeof latch_program);
    if (number == 0)
        number = mkd_plan_series(latch.plan, HOLD, INTERVALS, fresh, sizeof fresh, start,
                                 sizeof start, expected, sizeof expected, expected_end,
                                 sizeof expected_end);
    if (number == 0)
        number = mkd_run_series(latch_table, latch_table_len, latch_program, sizeof latch_program,
                                HOLD, INTERVALS, fresh, sizeof fresh, start, sizeof start,
                                latch_work, sizeof latch_work, found, sizeof found, found_end,
                                sizeof found_end);
    if (number != 0)
        return refused(number);
    for (t = 0; t < INTERVALS; t++)
        printf("latch %u%u %u %u\n", fresh[2 * t], fresh[2 * t + 1], expected[t], found[t]);
    printf("latch holds %u %u\n", expected_end[0], found_end[0]);
    return memcmp(found, expected, sizeof expected) != 0 ||
           memcmp(found_end, expected_end, sizeof expected_end) != 0;
}

int main(void)
{
    struct mkd_read read = mkd_plan_read(file, sizeof file);
    struct mkd_counts counts = mkd_count(INPUTS, GATES, OUTPUTS);
    uint32_t number;
    uint8_t r;

    if (read.number != 0)
        return refused(read.number);
    if (!is_ours(read.plan)) {
        printf("a plan of other counts\n");
        return 1;
    }
    number = mkd_fabric(INPUTS, GATES, OUTPUTS, table, sizeof table / sizeof table[0]);
    if (number == 0)
        number = mkd_program(read.plan, program, sizeof program);
    if (number != 0)
        return refused(number);

    printf("u %u k %u v %u", INPUTS, GATES, OUTPUTS);
    printf(" rows %u wires %u bits %u\n", (unsigned)counts.rows, (unsigned)counts.wires,
           (unsigned)counts.bits);
    for (r = 0; r < 4; r++) {
        const uint8_t row[INPUTS] = {(uint8_t)(r & 1), (uint8_t)(r >> 1)};
        if (show_row(read.plan, row) != 0)
            return 1;
    }
    if (save(read.plan) != 0 || edit(read.plan) != 0)
        return 1;

    /* The last byte is missing: the field that it belongs to begins one byte before it. */
    read = mkd_plan_read(file, sizeof file - 1);
    printf("cut: refused %u at %u\n", (unsigned)read.number, (unsigned)read.at);
    if (read.number != MKD_CUT)
        return 1;
    return show_latch();
}
