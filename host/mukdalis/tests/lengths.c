/*
 * The stated lengths that the macros of include/mukdalis.h give: the calls take them and refuse one
 * less, or any other where the length is exact. Its limits are those of the calls; prints them.
 */
#include "mukdalis.h"

#include <stdio.h>

/* Buffers of the longest stated lengths and one more, and lists for the calls of P and S. */
static uint16_t table[MKD_MAX_TABLE_LEN + 1];
static uint8_t program[MKD_MAX_PROGRAM_LEN + 1];
static uint8_t row[MKD_MAX_INPUTS + 1];
static uint8_t work[MKD_WORK_LEN(MKD_MAX_FABRIC_WIRES) + 1];
static uint8_t result[MKD_RESULT_LEN(MKD_MAX_OUTPUTS) + 1];
static uint8_t fresh[MKD_FRESH_LEN(MKD_MAX_INPUTS, 0, MKD_MAX_INTERVALS + 1)];
static uint8_t start[MKD_STATE_LEN(MKD_MAX_INPUTS) + 1];
static uint8_t results[MKD_RESULTS_LEN(MKD_MAX_OUTPUTS, MKD_MAX_INTERVALS + 1)];
static uint8_t end[MKD_STATE_LEN(MKD_MAX_OUTPUTS) + 1];
static uint16_t rows[MKD_ROWS_LEN(MKD_SELECTION_ROWS(MKD_MAX_SIZE, MKD_MAX_SIZE))];
static uint16_t outputs[MKD_OUTPUTS_LEN(MKD_MAX_SIZE)];
static uint16_t zeros[2 * MKD_MAX_SIZE];
static uint16_t ones[2 * MKD_MAX_SIZE];
static uint16_t rising[2 * MKD_MAX_SIZE];

static int fails(const char *what)
{
    printf("fails: %s\n", what);
    return 1;
}

/* Counts the figures of a plan in memory. */
static void settle(struct mkd_plan *plan)
{
    size_t i;

    plan->gate_places = 1;
    while (plan->gate_places < plan->gate_count)
        plan->gate_places *= 2;
    for (i = 0; i < MKD_MAX_WIRES; i++)
        plan->uses[i] = 0;
    for (i = 0; i < plan->gate_count; i++) {
        plan->uses[plan->gates[i].first - 1]++;
        plan->uses[plan->gates[i].second - 1]++;
    }
    for (i = 0; i < plan->output_count; i++)
        plan->uses[plan->outputs[i] - 1]++;
}

/* The longest plan, plain and drawn: every field of every gate stands. */
static int longest_file_fails(void)
{
    static uint8_t file[MKD_MAX_FILE_LEN + 1];
    const uint8_t counts[6] = {MKD_MAX_INPUTS, 0, 0, MKD_MAX_GATES / 256, MKD_MAX_OUTPUTS, 0};
    const uint8_t gate[6] = {7, 1, 0, 1, 0, 8};
    struct mkd_read read;
    struct mkd_drawn drawn;
    size_t i, len = 0;

    for (i = 0; i < 6; i++)
        file[len++] = counts[i];
    for (i = 0; i < 6 * MKD_MAX_GATES; i++)
        file[len++] = gate[i % 6];
    for (i = 0; i < MKD_MAX_OUTPUTS; i++) {
        file[len++] = MKD_MAX_INPUTS + 1;
        file[len++] = 0;
    }
    if (len != MKD_MAX_FILE_LEN || mkd_plan_read(file, len).number != 0)
        return fails("the longest file");
    read = mkd_plan_read(file, len + 1);
    if (read.number != MKD_TAIL || read.at != len)
        return fails("a byte more than the longest file");
    drawn = mkd_plan_read_drawn(file, len);
    if (drawn.number != 0 || drawn.drawn[MKD_MAX_GATES - 1] != MKD_MAX_GATES)
        return fails("the longest drawn file");
    drawn = mkd_plan_read_drawn(file, len + 1);
    if (drawn.number != MKD_TAIL || drawn.at != len)
        return fails("a byte more than the longest drawn file");
    return 0;
}

/* The longest saved plan: no field of any gate equals what its absence means. */
static int longest_saved_file_fails(void)
{
    static uint8_t file[MKD_MAX_FILE_LEN + 1];
    struct mkd_plan plan;
    struct mkd_saved saved;
    size_t i;

    plan.inputs = 2;
    plan.gate_count = MKD_MAX_GATES;
    plan.output_count = MKD_MAX_OUTPUTS;
    for (i = 0; i < MKD_MAX_GATES; i++) {
        plan.gates[i].first = 1;
        plan.gates[i].second = 2;
        plan.gates[i].table = 6;
    }
    for (i = 0; i < MKD_MAX_OUTPUTS; i++)
        plan.outputs[i] = 3;
    settle(&plan);
    for (i = MKD_MAX_FILE_LEN; i <= sizeof file; i++) {
        saved = mkd_plan_save(plan, file, i);
        if (saved.number != 0 || saved.length != MKD_MAX_FILE_LEN)
            return fails("the longest saved file");
    }
    saved = mkd_plan_save(plan, file, MKD_MAX_FILE_LEN - 1);
    if (saved.number != MKD_SHORT || saved.length != 0)
        return fails("a byte less than the longest saved file");
    return 0;
}

static void fill_lists(void)
{
    uint16_t i;

    for (i = 0; i < 2 * MKD_MAX_SIZE; i++) {
        ones[i] = 1;
        rising[i] = (uint16_t)(i + 1);
    }
}

/* P(n) with its stated lengths, wires up to the last; each length one less, one wire past it. */
static int permutation_fails(uint32_t n)
{
    const size_t rows_len = MKD_ROWS_LEN(MKD_PERMUTATION_ROWS(n));
    const size_t outputs_len = MKD_OUTPUTS_LEN(n);
    const size_t program_len = MKD_PROGRAM_LEN(MKD_PERMUTATION_BITS(n));
    const uint32_t next = MKD_LAST_WIRE + 1 - MKD_PERMUTATION_WIRES(n);
    const struct mkd_counts counts = mkd_permutation_count(n);

    if (counts.number || counts.rows != MKD_PERMUTATION_ROWS(n) ||
        counts.wires != MKD_PERMUTATION_WIRES(n) || counts.bits != MKD_PERMUTATION_BITS(n))
        return fails("the counts of P");
    if (mkd_permutation_write(n, zeros, n, next, rows, rows_len, outputs, outputs_len) ||
        mkd_permutation_program(n, rising, n, program, program_len))
        return fails("the stated lengths of P");
    if (mkd_permutation_write(n, zeros, n - 1, 1, rows, 0, outputs, 0) != MKD_CONTACT ||
        mkd_permutation_write(n, zeros, n + 1, 1, rows, 0, outputs, 0) != MKD_CONTACT ||
        mkd_permutation_program(n, rising, n - 1, program, 0) != MKD_CONTACT ||
        mkd_permutation_program(n, rising, n + 1, program, 0) != MKD_CONTACT)
        return fails("a list for P of another length");
    if (mkd_permutation_write(n, zeros, n, 1, rows, rows_len, outputs, outputs_len - 1) !=
        MKD_SHORT)
        return fails("less than P's output wires");
    if (n == 1)
        return 0;
    if (mkd_permutation_write(n, zeros, n, 1, rows, rows_len - 1, outputs, outputs_len) !=
        MKD_SHORT)
        return fails("less than P's rows");
    if (mkd_permutation_program(n, rising, n, program, program_len - 1) != MKD_SHORT)
        return fails("less than P's program");
    if (mkd_permutation_write(n, zeros, n, next + 1, rows, 0, outputs, 0) != MKD_FABRIC)
        return fails("P's wires past the last");
    return 0;
}

/* S(m, n) likewise. */
static int selection_fails(uint32_t m, uint32_t n)
{
    const size_t rows_len = MKD_ROWS_LEN(MKD_SELECTION_ROWS(m, n));
    const size_t outputs_len = MKD_OUTPUTS_LEN(n);
    const size_t program_len = MKD_PROGRAM_LEN(MKD_SELECTION_BITS(m, n));
    const uint32_t next = MKD_LAST_WIRE + 1 - MKD_SELECTION_WIRES(m, n);
    const struct mkd_counts counts = mkd_selection_count(m, n);

    if (counts.number || counts.rows != MKD_SELECTION_ROWS(m, n) ||
        counts.wires != MKD_SELECTION_WIRES(m, n) || counts.bits != MKD_SELECTION_BITS(m, n))
        return fails("the counts of S");
    if (mkd_selection_write(m, n, zeros, m, next, rows, rows_len, outputs, outputs_len) ||
        mkd_selection_program(m, n, ones, n, program, program_len))
        return fails("the stated lengths of S");
    if (mkd_selection_write(m, n, zeros, m - 1, 1, rows, 0, outputs, 0) != MKD_CONTACT ||
        mkd_selection_write(m, n, zeros, m + 1, 1, rows, 0, outputs, 0) != MKD_CONTACT ||
        mkd_selection_program(m, n, ones, n - 1, program, 0) != MKD_CONTACT ||
        mkd_selection_program(m, n, ones, n + 1, program, 0) != MKD_CONTACT)
        return fails("a list for S of another length");
    if (mkd_selection_write(m, n, zeros, m, 1, rows, rows_len, outputs, outputs_len - 1) !=
        MKD_SHORT)
        return fails("less than S's output wires");
    if (m == 1 && n == 1)
        return 0;
    if (mkd_selection_write(m, n, zeros, m, 1, rows, rows_len - 1, outputs, outputs_len) !=
        MKD_SHORT)
        return fails("less than S's rows");
    if (mkd_selection_program(m, n, ones, n, program, program_len - 1) != MKD_SHORT)
        return fails("less than S's program");
    if (mkd_selection_write(m, n, zeros, m, next + 1, rows, 0, outputs, 0) != MKD_FABRIC)
        return fails("S's wires past the last");
    return 0;
}

/* Every size of P, sizes of S at and beside powers of two, and sizes past the largest. */
static int blocks_fail(void)
{
    const uint32_t past = MKD_MAX_SIZE + 1;
    const size_t rows_len = sizeof rows / sizeof rows[0];
    uint32_t sizes[32];
    size_t i, j, count = 0;
    uint32_t n;

    fill_lists();
    for (n = 1; n <= MKD_MAX_SIZE; n *= 2) {
        if (permutation_fails(n))
            return 1;
        if (n > 4)
            sizes[count++] = n - 1;
        sizes[count++] = n;
        if (n > 1 && n < MKD_MAX_SIZE)
            sizes[count++] = n + 1;
    }
    for (i = 0; i < count; i++)
        for (j = 0; j < count; j++)
            if (selection_fails(sizes[i], sizes[j]))
                return 1;
    if (mkd_permutation_program(2 * MKD_MAX_SIZE, rising, 2 * MKD_MAX_SIZE, program,
                                sizeof program) != MKD_INPUTS ||
        mkd_selection_write(past, 1, zeros, past, 1, rows, rows_len, outputs, 1) != MKD_INPUTS ||
        mkd_selection_program(1, past, ones, past, program, sizeof program) != MKD_OUTPUTS)
        return fails("a size past the largest");
    return 0;
}

/* Whether the macros give what the calls count, for all counts, and none of it passes the most. */
static int counts_fail(void)
{
    const uint32_t most_u = MKD_MAX_INPUTS, most_k = MKD_MAX_GATES, most_v = MKD_MAX_OUTPUTS;
    uint32_t u, k, v;

    for (u = 1; u <= most_u; u++)
        for (k = 1; k <= most_k; k++)
            for (v = 1; v <= most_v; v++) {
                const struct mkd_counts counts = mkd_count(u, k, v);
                if (counts.number != 0 || counts.rows != MKD_FABRIC_ROWS(u, k, v) ||
                    counts.wires != MKD_FABRIC_WIRES(u, k, v) ||
                    counts.bits != MKD_FABRIC_BITS(u, k, v))
                    return fails("the counts of a fabric");
                if (mkd_fabric_sheet(u, k, v).sum.total != MKD_FABRIC_ROWS(u, k, v))
                    return fails("the sheet of a fabric");
                if (counts.rows > MKD_MAX_FABRIC_ROWS || counts.wires > MKD_MAX_FABRIC_WIRES ||
                    counts.bits > MKD_MAX_FABRIC_BITS ||
                    MKD_TABLE_LEN(counts.rows, v) > MKD_MAX_TABLE_LEN)
                    return fails("the largest fabric");
            }
    if (mkd_count(most_u + 1, most_k, most_v).number != MKD_INPUTS ||
        mkd_count(most_u, most_k + 1, most_v).number != MKD_GATES ||
        mkd_count(most_u, most_k, most_v + 1).number != MKD_OUTPUTS)
        return fails("counts past the most");
    return 0;
}

/* The constants are those of the fabric of the most inputs, gates and outputs. */
static int constants_fail(void)
{
    const struct mkd_counts most = mkd_count(MKD_MAX_INPUTS, MKD_MAX_GATES, MKD_MAX_OUTPUTS);

    if (most.rows != MKD_MAX_FABRIC_ROWS || most.wires != MKD_MAX_FABRIC_WIRES ||
        most.bits != MKD_MAX_FABRIC_BITS ||
        MKD_TABLE_LEN(most.rows, MKD_MAX_OUTPUTS) != MKD_MAX_TABLE_LEN ||
        MKD_PROGRAM_LEN(most.bits) != MKD_MAX_PROGRAM_LEN)
        return fails("the constants of the largest fabric");
    return 0;
}

/* A plan of these counts whose gates are all input 1 AND input 1. */
static struct mkd_plan plan_of(uint8_t u, uint16_t k, uint8_t v)
{
    struct mkd_plan plan;
    size_t i;

    plan.inputs = u;
    plan.gate_count = k;
    plan.output_count = v;
    for (i = 0; i < MKD_MAX_GATES; i++) {
        plan.gates[i].first = plan.gates[i].second = 1;
        plan.gates[i].table = 8;
    }
    for (i = 0; i < MKD_MAX_OUTPUTS; i++)
        plan.outputs[i] = (uint16_t)(u + 1);
    settle(&plan);
    return plan;
}

/* That plan's saving: of a gate the first operand alone stands, unless it is the wire before. */
static int saving_fails(uint8_t u, uint16_t k, uint8_t v)
{
    static uint8_t file[MKD_MAX_FILE_LEN];
    const struct mkd_plan plan = plan_of(u, k, v);
    const size_t len = (size_t)6 + 3 * k - (u == 1 ? 2 : 0) + 2 * v;
    const struct mkd_saved less = mkd_plan_save(plan, file, len - 1);
    const struct mkd_saved saved = mkd_plan_save(plan, file, len);

    if (less.number != MKD_SHORT || less.length != 0)
        return fails("less than a saved file's length");
    if (saved.number != 0 || saved.length != len || mkd_plan_read(file, len).number != 0)
        return fails("a saved file's length");
    return 0;
}

/* The answer of a run with buffers of these lengths, which are in the order of its parameters. */
static uint32_t run(const size_t len[5])
{
    return mkd_run(table, len[0], program, len[1], row, len[2], work, len[3], result, len[4]);
}

/* A run with its stated lengths, then each of them one less and one more. */
static int run_fails(uint8_t u, uint16_t k, uint8_t v)
{
    static const uint32_t less[5] = {MKD_FABRIC, MKD_PROGRAM, MKD_CONTACT, MKD_SHORT, MKD_SHORT};
    static const uint32_t more[5] = {MKD_FABRIC, MKD_PROGRAM, MKD_CONTACT, 0, 0};
    size_t len[5];
    size_t i;

    len[0] = MKD_TABLE_LEN(MKD_FABRIC_ROWS(u, k, v), v);
    len[1] = MKD_PROGRAM_LEN(MKD_FABRIC_BITS(u, k, v));
    len[2] = u;
    len[3] = MKD_WORK_LEN(MKD_FABRIC_WIRES(u, k, v));
    len[4] = MKD_RESULT_LEN(v);
    if (run(len) != 0)
        return fails("the stated lengths of a run");
    for (i = 0; i < 5; i++) {
        len[i]--;
        if (run(len) != less[i])
            return fails("a run with one entry less");
        len[i] += 2;
        if (run(len) != more[i])
            return fails("a run with one entry more");
        len[i]--;
    }
    return 0;
}

/*
 * The answer of that plan's series, and of its fabric's, whose table and program are written, with
 * buffers of these lengths, which are in the order of their parameters: fresh, start, work, which
 * the plan's has not, results, end.
 */
static uint32_t plan_series(struct mkd_plan plan, uint32_t h, uint32_t n, const size_t len[5])
{
    return mkd_plan_series(plan, h, n, fresh, len[0], start, len[1], results, len[3], end, len[4]);
}

static uint32_t run_series(struct mkd_plan plan, uint32_t h, uint32_t n, const size_t len[5])
{
    const uint32_t u = plan.inputs, k = plan.gate_count, v = plan.output_count;

    return mkd_run_series(table, MKD_TABLE_LEN(MKD_FABRIC_ROWS(u, k, v), v), program,
                          MKD_PROGRAM_LEN(MKD_FABRIC_BITS(u, k, v)), h, n, fresh, len[0], start,
                          len[1], work, len[2], results, len[3], end, len[4]);
}

/* Both series with their stated lengths, then each of them one less and one more. */
static int series_fails(struct mkd_plan plan, uint32_t h, uint32_t n)
{
    static const uint32_t less[5] = {MKD_CONTACT, MKD_CONTACT, MKD_SHORT, MKD_SHORT, MKD_SHORT};
    static const uint32_t more[5] = {MKD_CONTACT, MKD_CONTACT, 0, 0, 0};
    size_t len[5];
    size_t i;

    len[0] = MKD_FRESH_LEN(plan.inputs, h, n);
    len[1] = len[4] = MKD_STATE_LEN(h);
    len[2] = MKD_WORK_LEN(MKD_FABRIC_WIRES(plan.inputs, plan.gate_count, plan.output_count));
    len[3] = MKD_RESULTS_LEN(plan.output_count, n);
    if (plan_series(plan, h, n, len) || run_series(plan, h, n, len))
        return fails("the stated lengths of a series");
    for (i = 0; i < 5; i++) {
        len[i]++;
        if (plan_series(plan, h, n, len) != more[i] || run_series(plan, h, n, len) != more[i])
            return fails("a series with one entry more");
        len[i]--;
        if (len[i] == 0)
            continue;
        len[i]--;
        if (plan_series(plan, h, n, len) != (i == 2 ? 0 : less[i]) ||
            run_series(plan, h, n, len) != less[i])
            return fails("a series with one entry less");
        len[i]++;
    }
    return 0;
}

/* The most intervals that a plan's series takes, the most outputs that one holds, and one more. */
static int most_series_fails(struct mkd_plan plan)
{
    const uint32_t n = MKD_MAX_INTERVALS;
    const uint32_t u = plan.inputs, v = plan.output_count;
    const uint32_t h = u < v ? u : v;
    size_t len[5];

    len[0] = MKD_FRESH_LEN(u, h, n);
    len[1] = len[4] = MKD_STATE_LEN(h);
    len[2] = 0;
    len[3] = MKD_RESULTS_LEN(v, n);
    if (plan_series(plan, h, n, len) != 0)
        return fails("the most intervals");
    if (plan_series(plan, h + 1, n, len) != MKD_HOLD)
        return fails("a hold count above the most");
    len[0] = MKD_FRESH_LEN(u, h, n + 1);
    len[3] = MKD_RESULTS_LEN(v, n + 1);
    if (plan_series(plan, h, n + 1, len) != MKD_HOLD)
        return fails("more than the most intervals");
    return 0;
}

/* The most gates of a plan, and one more; with the most inputs they are the most wires. */
static int most_gates_fail(void)
{
    const struct mkd_gate gate = {MKD_MAX_WIRES - 1, 1, 8};
    struct mkd_edit edit =
        mkd_plan_append_gate(plan_of(MKD_MAX_INPUTS, MKD_MAX_GATES - 1, MKD_MAX_OUTPUTS), gate);

    if (edit.number != 0 || edit.plan.uses[MKD_MAX_WIRES - 2] != 1 ||
        edit.plan.uses[MKD_MAX_WIRES - 1] != 0)
        return fails("the last gate");
    edit = mkd_plan_append_gate(edit.plan, gate);
    if (edit.number != MKD_GATES || edit.plan.gate_count != MKD_MAX_GATES)
        return fails("a gate more than the most");
    return 0;
}

/* A plan's evaluation, the fabric of its counts, its program, their run, and series of both. */
static int fabric_fails(uint8_t u, uint16_t k, uint8_t v)
{
    const uint32_t held = u < v ? u : v;
    const struct mkd_plan plan = plan_of(u, k, v);
    const size_t result_len = MKD_RESULT_LEN(v);
    const size_t table_len = MKD_TABLE_LEN(MKD_FABRIC_ROWS(u, k, v), v);
    const size_t program_len = MKD_PROGRAM_LEN(MKD_FABRIC_BITS(u, k, v));

    if (mkd_plan_evaluate(plan, row, u, result, result_len) ||
        mkd_fabric(u, k, v, table, table_len) || mkd_program(plan, program, program_len))
        return fails("the stated lengths of a plan");
    if (mkd_plan_evaluate(plan, row, u - 1, result, result_len) != MKD_CONTACT ||
        mkd_plan_evaluate(plan, row, u + 1, result, result_len) != MKD_CONTACT)
        return fails("an input row of another length");
    if (mkd_plan_evaluate(plan, row, u, result, result_len - 1) != MKD_SHORT ||
        mkd_fabric(u, k, v, table, table_len - 1) != MKD_SHORT ||
        mkd_program(plan, program, program_len - 1) != MKD_SHORT)
        return fails("less than a plan's stated lengths");
    return run_fails(u, k, v) || series_fails(plan, 0, 0) || series_fails(plan, 0, 1) ||
           series_fails(plan, held, 0) || series_fails(plan, held, 3) || most_series_fails(plan);
}

static int plans_fail(void)
{
    static const struct {
        uint8_t u;
        uint16_t k;
        uint8_t v;
    } counts[] = {{1, 1, 1},  {2, 2, 1},   {3, 3, 2},     {64, 1, 1},  {1, 1, 64},  {1, 2, 64},
                  {5, 7, 3}, {33, 9, 17}, {17, 129, 33}, {64, 64, 1}, {1, 256, 1}, {64, 256, 64}};
    size_t i;

    for (i = 0; i < sizeof counts / sizeof counts[0]; i++)
        if (saving_fails(counts[i].u, counts[i].k, counts[i].v) ||
            fabric_fails(counts[i].u, counts[i].k, counts[i].v))
            return 1;
    return 0;
}

int main(void)
{
    if (longest_file_fails() || longest_saved_file_fails() || blocks_fail() || counts_fail() ||
        constants_fail() || plans_fail() || most_gates_fail())
        return 1;
    printf("%d %d %d %d", MKD_MAX_INPUTS, MKD_MAX_GATES, MKD_MAX_OUTPUTS, MKD_MAX_WIRES);
    printf(" %d", MKD_MAX_FILE_LEN);
    printf(" %d %d %d %d %d\n", MKD_MAX_SIZE, MKD_MAX_FABRIC_ROWS, MKD_MAX_FABRIC_WIRES,
           MKD_MAX_FABRIC_BITS, MKD_MAX_INTERVALS);
    return 0;
}
