/* Makes every call of include/mukdalis.h; prints the layout of its records, and its refusals. */
#include "mukdalis.h"

#include <stddef.h>
#include <stdio.h>

static const uint8_t not_plan[10] = {1, 0, 1, 0, 1, 0, 4, 1, 2, 0};

static int fails(const char *what)
{
    printf("fails: %s\n", what);
    return 1;
}

static int plans_fail(void)
{
    struct mkd_read refused = mkd_plan_read(not_plan, 9);
    struct mkd_read done = mkd_plan_read(not_plan, sizeof not_plan);
    const uint8_t row[1] = {0};
    uint8_t result[2] = {9, 9};

    if (refused.number != MKD_CUT || refused.at != 8 || refused.plan.inputs != 0)
        return fails("a cut file");
    if (done.number != 0 || done.at != 0 || done.plan.gates[0].table != 1)
        return fails("a plan file");
    if (mkd_plan_fault(done.plan) != 0 || mkd_plan_fault(refused.plan) != MKD_INPUTS)
        return fails("plan faults");
    if (mkd_plan_evaluate(done.plan, row, 1, result, 0) != MKD_SHORT || result[0] != 9)
        return fails("a short result");
    if (mkd_plan_evaluate(done.plan, row, 1, result, 2) != 0 || result[0] != 1 || result[1] != 9)
        return fails("an evaluation");
    return 0;
}

/* Gate 1 drawn from gate 2, and gate 2 from input 1; then gate 2 from gate 1. */
static int drawn_plans_fail(void)
{
    uint8_t file[] = {1, 0, 2, 0, 1, 0, 1, 3, 0, 5, 1, 0, 1, 2, 0};
    const struct mkd_read plain = mkd_plan_read(file, sizeof file);
    const struct mkd_drawn done = mkd_plan_read_drawn(file, sizeof file);
    struct mkd_drawn refused;
    size_t i;

    if (plain.number != MKD_OPERAND || plain.at != 7)
        return fails("a drawn plan in plain reading");
    if (done.number != 0 || done.at != 0 || mkd_plan_fault(done.plan) != 0)
        return fails("a drawn plan");
    if (done.drawn[0] != 2 || done.drawn[1] != 1 || done.drawn[2] != 0)
        return fails("the drawn numbers");
    if (done.plan.gates[0].first != 1 || done.plan.gates[0].table != 1 ||
        done.plan.gates[1].first != 2 || done.plan.gates[1].table != 8 || done.plan.outputs[0] != 3)
        return fails("the plan of a drawing");
    file[10] = 2;
    refused = mkd_plan_read_drawn(file, sizeof file);
    if (refused.number != MKD_RING || refused.at != 6 || refused.plan.inputs != 0)
        return fails("a ring");
    for (i = 0; i < MKD_MAX_GATES; i++)
        if (refused.drawn[i] != 0)
            return fails("the drawn numbers of a ring");
    return 0;
}

/* NOT read from a file with all its fields, and saved; a short buffer, and no plan. */
static int savings_fail(void)
{
    const uint8_t longer[14] = {1, 0, 1, 0, 1, 0, 7, 1, 0, 1, 0, 1, 2, 0};
    const struct mkd_plan plan = mkd_plan_read(longer, sizeof longer).plan;
    const struct mkd_plan none = mkd_plan_read(longer, 5).plan;
    uint8_t file[12] = {9, 9, 9, 9, 9, 9, 9, 9, 9, 9, 9, 9};
    struct mkd_saved saved;
    size_t i;

    saved = mkd_plan_save(none, file, sizeof file);
    if (saved.number != MKD_INPUTS || saved.length != 0)
        return fails("a saving of no plan");
    saved = mkd_plan_save(plan, file, 9);
    if (saved.number != MKD_SHORT || saved.length != 0)
        return fails("a short file");
    for (i = 0; i < 12; i++)
        if (file[i] != 9)
            return fails("the file of a refused saving");
    saved = mkd_plan_save(plan, file, sizeof file);
    if (saved.number != 0 || saved.length != sizeof not_plan)
        return fails("a saving");
    for (i = 0; i < 12; i++)
        if (file[i] != (i < sizeof not_plan ? not_plan[i] : 9))
            return fails("the file written");
    return 0;
}

static int has_uses(struct mkd_plan plan, uint16_t input, uint16_t first, uint16_t second)
{
    return plan.uses[0] == input && plan.uses[1] == first && plan.uses[2] == second;
}

/* A gate behind NOT is appended, becomes the output, and is replaced; refusals of each edit. */
static int edits_fail(void)
{
    const struct mkd_gate on_gate = {2, 2, 1}, on_both = {1, 2, 6}, on_itself = {1, 3, 16};
    struct mkd_plan plan = mkd_plan_read(not_plan, sizeof not_plan).plan;
    struct mkd_edit edit;

    plan.uses[2] = plan.uses[3] = 9;
    if (plan.gate_places != 1 || !has_uses(plan, 2, 1, 9))
        return fails("the figures of a plan");
    edit = mkd_plan_append_gate(plan, on_itself);
    if (edit.number != MKD_OPERAND || edit.plan.gate_count != 1 || !has_uses(edit.plan, 2, 1, 9))
        return fails("a gate appended on itself");
    edit = mkd_plan_append_gate(plan, on_gate);
    if (edit.number != 0 || edit.plan.gate_count != 2 || edit.plan.gates[1].first != 2 ||
        edit.plan.gate_places != 2 || !has_uses(edit.plan, 2, 3, 0) || edit.plan.uses[3] != 9)
        return fails("an appended gate");
    plan = edit.plan;
    edit = mkd_plan_replace_output(plan, 1, 1);
    if (edit.number != MKD_SOURCE || edit.plan.outputs[0] != 2)
        return fails("an input as output");
    edit = mkd_plan_replace_output(plan, 2, 3);
    if (edit.number != MKD_PLACE || edit.plan.outputs[1] != 0)
        return fails("a second output");
    edit = mkd_plan_replace_output(plan, 1, 3);
    if (edit.number != 0 || edit.plan.outputs[0] != 3 || !has_uses(edit.plan, 2, 2, 1))
        return fails("a replaced output");
    plan = edit.plan;
    edit = mkd_plan_replace_gate(plan, 0, on_both);
    if (edit.number != MKD_PLACE || edit.plan.gates[1].first != 2)
        return fails("gate number 0");
    edit = mkd_plan_replace_gate(plan, 2, on_both);
    if (edit.number != 0 || edit.plan.gates[1].first != 1 || !has_uses(edit.plan, 3, 1, 1))
        return fails("a replaced gate");
    plan = edit.plan;
    plan.uses[0] = 2;
    edit = mkd_plan_replace_gate(plan, 0, on_itself);
    if (edit.number != MKD_TALLY || mkd_plan_fault(plan) != MKD_TALLY || edit.plan.uses[0] != 2)
        return fails("a figure that is not the counted one");
    return 0;
}

static int permutations_fail(void)
{
    const uint16_t pair[2] = {2, 1};
    uint16_t rows[4] = {9, 9, 9, 9};
    uint16_t outputs[3] = {9, 9, 9};
    uint8_t program[2] = {9, 9};

    if (mkd_permutation_write(2, pair, 2, 2, rows, 4, outputs, 3) != MKD_FABRIC || rows[0] != 9)
        return fails("an unmade wire");
    if (mkd_permutation_write(2, pair, 2, 3, rows, 4, outputs, 1) != MKD_SHORT || outputs[0] != 9)
        return fails("short outputs");
    if (mkd_permutation_write(2, pair, 2, 3, rows, 4, outputs, 3) != 0)
        return fails("a writing");
    if (rows[0] != 1 || rows[1] != 2 || rows[2] != 1 || rows[3] != 9)
        return fails("the rows written");
    if (outputs[0] != 3 || outputs[1] != 4 || outputs[2] != 9)
        return fails("the outputs written");
    if (mkd_permutation_program(2, pair, 1, program, 2) != MKD_CONTACT || program[0] != 9)
        return fails("a list of another length");
    if (mkd_permutation_program(2, pair, 2, program, 2) != 0)
        return fails("a programming");
    if (program[0] != 1 || program[1] != 9)
        return fails("the program written");
    return 0;
}

static int selections_fail(void)
{
    const uint16_t wire[1] = {1};
    const uint16_t wanted[2] = {2, 2};
    const uint16_t written[10] = {1, 1, 0, 2, 2, 3, 1, 2, 4, 9};
    uint16_t rows[10] = {9, 9, 9, 9, 9, 9, 9, 9, 9, 9};
    uint16_t outputs[3] = {9, 9, 9};
    uint8_t program[2] = {9, 9};
    size_t i;

    if (mkd_selection_write(1, 513, wire, 1, 2, rows, 10, outputs, 3) != MKD_OUTPUTS)
        return fails("too many outputs");
    if (mkd_selection_write(1, 2, wire, 1, 2, rows, 8, outputs, 3) != MKD_SHORT || rows[0] != 9)
        return fails("short rows of S");
    if (mkd_selection_write(1, 2, wire, 1, 2, rows, 10, outputs, 3) != 0)
        return fails("a writing of S");
    for (i = 0; i < 10; i++)
        if (rows[i] != written[i])
            return fails("the rows of S written");
    if (outputs[0] != 5 || outputs[1] != 6 || outputs[2] != 9)
        return fails("the outputs of S written");
    if (mkd_selection_program(1, 2, wanted, 2, program, 2) != MKD_SOURCE || program[0] != 9)
        return fails("a wanted input past m");
    if (mkd_selection_program(2, 2, wanted, 2, program, 2) != 0)
        return fails("a programming of S");
    if (program[0] != 1 || program[1] != 9)
        return fails("the program of S written");
    return 0;
}

/* The counts of P and of S, and their refusals. */
static int counts_fail(void)
{
    const struct mkd_counts p = mkd_permutation_count(4);
    const struct mkd_counts s = mkd_selection_count(1, 2);
    const struct mkd_counts no_p = mkd_permutation_count(3);
    const struct mkd_counts no_s = mkd_selection_count(512, 513);

    if (p.number || p.rows != 5 || p.wires != 10 || p.bits != 5)
        return fails("the counts of P");
    if (s.number || s.rows != 3 || s.wires != 5 || s.bits != 3)
        return fails("the counts of S");
    if (no_p.number != MKD_INPUTS || no_p.rows || no_p.wires || no_p.bits)
        return fails("no size of P");
    if (no_s.number != MKD_OUTPUTS || no_s.rows || no_s.wires || no_s.bits)
        return fails("no size of S");
    return 0;
}

static int are_kinds(struct mkd_kinds kinds, uint32_t x, uint32_t y, uint32_t g, uint32_t total)
{
    return kinds.x == x && kinds.y == y && kinds.g == g && kinds.total == total;
}

/* The rows by kind of the fabric (2, 2, 1), and of none. */
static int sheets_fail(void)
{
    const struct mkd_sheet done = mkd_fabric_sheet(2, 2, 1);
    const struct mkd_sheet refused = mkd_fabric_sheet(1, 257, 0);

    if (done.number || !are_kinds(done.input, 10, 3, 0, 13) || !are_kinds(done.block, 2, 3, 2, 7) ||
        !are_kinds(done.output, 2, 1, 0, 3) || !are_kinds(done.sum, 14, 7, 2, 23))
        return fails("a sheet");
    if (refused.number != MKD_GATES || !are_kinds(refused.input, 0, 0, 0, 0) ||
        !are_kinds(refused.block, 0, 0, 0, 0) || !are_kinds(refused.output, 0, 0, 0, 0) ||
        !are_kinds(refused.sum, 0, 0, 0, 0))
        return fails("a refused sheet");
    return 0;
}

/* The fabric (1, 1, 1), and its run with the program of NOT. */
static int fabrics_fail(void)
{
    const uint16_t written[17] = {1, 1, 4, 1, 1, 0, 2, 2, 3, 1, 2, 4, 3, 5, 6, 7, 9};
    const uint8_t bits[8] = {0, 0, 0, 0, 0, 0, 0, 1};
    const uint8_t row[1] = {0};
    struct mkd_read read = mkd_plan_read(not_plan, sizeof not_plan);
    struct mkd_counts refused = mkd_count(1, 257, 1);
    struct mkd_counts counts = mkd_count(64, 256, 64);
    uint16_t table[17];
    uint8_t not_program[2] = {9, 9};
    uint8_t work[9] = {9, 9, 9, 9, 9, 9, 9, 9, 9};
    uint8_t result[2] = {9, 9};
    size_t i;

    for (i = 0; i < 17; i++)
        table[i] = 9;
    if (refused.number != MKD_GATES || refused.rows || refused.wires || refused.bits)
        return fails("too many gates");
    if (counts.number || counts.rows != 31489 || counts.wires != 58180 || counts.bits != 32257)
        return fails("a counting");
    if (mkd_fabric(1, 1, 1, table, 15) != MKD_SHORT || table[0] != 9)
        return fails("a short table");
    if (mkd_fabric(1, 1, 1, table, 17) != 0)
        return fails("a fabric");
    for (i = 0; i < 17; i++)
        if (table[i] != written[i])
            return fails("the table written");
    if (mkd_program(read.plan, not_program, 0) != MKD_SHORT || not_program[0] != 9)
        return fails("a short program");
    if (mkd_program(read.plan, not_program, 2) != 0)
        return fails("a plan's programming");
    if (not_program[0] != 0x08 || not_program[1] != 9)
        return fails("the plan's program written");
    if (mkd_run(table, 17, not_program, 1, row, 1, work, 9, result, 2) != MKD_FABRIC)
        return fails("a longer table");
    if (mkd_run(table, 16, not_program, 0, row, 1, work, 9, result, 2) != MKD_PROGRAM)
        return fails("a shorter program");
    if (mkd_run(table, 16, not_program, 1, row, 0, work, 9, result, 2) != MKD_CONTACT)
        return fails("a shorter row");
    if (mkd_run(table, 16, not_program, 1, row, 1, work, 7, result, 2) != MKD_SHORT)
        return fails("a short work buffer");
    if (work[0] != 9 || result[0] != 9)
        return fails("the buffers of a refused run");
    if (mkd_run(table, 16, not_program, 1, row, 1, work, 9, result, 2) != 0)
        return fails("a run");
    for (i = 0; i < 8; i++)
        if (work[i] != bits[i])
            return fails("the work written");
    if (work[8] != 9 || result[0] != 1 || result[1] != 9)
        return fails("the result written");
    return 0;
}

/*
 * NOT with its output held, by the plan and by the fabric (1, 1, 1): the state turns in every
 * interval, and there are no fresh entries.
 */
static int series_fail(void)
{
    const uint16_t table[16] = {1, 1, 4, 1, 1, 0, 2, 2, 3, 1, 2, 4, 3, 5, 6, 7};
    const uint8_t bits[9] = {0, 0, 0, 0, 0, 0, 0, 1, 9};
    const uint8_t turned[4] = {1, 0, 1, 9};
    const uint8_t not_program[1] = {0x08};
    const uint8_t start[1] = {0};
    const uint8_t fresh[1] = {2};
    const struct mkd_plan plan = mkd_plan_read(not_plan, sizeof not_plan).plan;
    uint8_t work[9] = {9, 9, 9, 9, 9, 9, 9, 9, 9};
    uint8_t results[4] = {9, 9, 9, 9};
    uint8_t end[2] = {9, 9};
    size_t i;

    if (mkd_plan_series(plan, 2, 3, fresh, 1, start, 0, results, 0, end, 0) != MKD_HOLD ||
        mkd_plan_series(plan, 1, 4097, fresh, 0, start, 1, results, 4, end, 2) != MKD_HOLD ||
        mkd_run_series(table, 16, not_program, 1, 2, 3, fresh, 1, start, 0, work, 0, results, 0,
                       end, 0) != MKD_HOLD)
        return fails("a hold count or intervals above the most");
    if (mkd_plan_series(plan, 0, 1, fresh, 1, start, 0, results, 4, end, 2) != MKD_CONTACT ||
        mkd_run_series(table, 16, not_program, 1, 1, 3, fresh, 0, start, 0, work, 9, results, 4,
                       end, 2) != MKD_CONTACT)
        return fails("fresh entries or a state that are no row");
    if (mkd_plan_series(plan, 1, 3, fresh, 0, start, 1, results, 2, end, 2) != MKD_SHORT ||
        mkd_run_series(table, 16, not_program, 1, 1, 3, fresh, 0, start, 1, work, 7, results, 4,
                       end, 2) != MKD_SHORT)
        return fails("short buffers of a series");
    if (mkd_run_series(table, 15, not_program, 0, 2, 3, fresh, 1, start, 0, work, 0, results, 0,
                       end, 0) != MKD_FABRIC ||
        mkd_run_series(table, 16, not_program, 0, 2, 3, fresh, 1, start, 0, work, 0, results, 0,
                       end, 0) != MKD_PROGRAM)
        return fails("a series of a refused fabric");
    if (work[0] != 9 || results[0] != 9 || end[0] != 9)
        return fails("the buffers of a refused series");
    if (mkd_plan_series(plan, 1, 3, fresh, 0, start, 1, results, 4, end, 2) != 0)
        return fails("a plan's series");
    for (i = 0; i < 4; i++) {
        if (results[i] != turned[i])
            return fails("the results of a plan's series");
        results[i] = 9;
    }
    if (end[0] != 1 || end[1] != 9)
        return fails("the end of a plan's series");
    end[0] = 9;
    if (mkd_run_series(table, 16, not_program, 1, 1, 3, fresh, 0, start, 1, work, 9, results, 4,
                       end, 2) != 0)
        return fails("a fabric's series");
    for (i = 0; i < 4; i++)
        if (results[i] != turned[i])
            return fails("the results of a fabric's series");
    for (i = 0; i < 9; i++)
        if (work[i] != bits[i])
            return fails("the work of a fabric's series");
    if (end[0] != 1 || end[1] != 9)
        return fails("the end of a fabric's series");
    return 0;
}

/* Sizes and offsets of the records. */
static void print_layout(void)
{
    printf("%zu %zu %zu", sizeof(struct mkd_gate), offsetof(struct mkd_gate, second),
           offsetof(struct mkd_gate, table));
    printf(" %zu %zu %zu", sizeof(struct mkd_plan), offsetof(struct mkd_plan, gates),
           offsetof(struct mkd_plan, outputs));
    printf(" %zu %zu", offsetof(struct mkd_plan, gate_places), offsetof(struct mkd_plan, uses));
    printf(" %zu %zu %zu", sizeof(struct mkd_read), offsetof(struct mkd_read, at),
           offsetof(struct mkd_read, plan));
    printf(" %zu %zu %zu %zu", sizeof(struct mkd_drawn), offsetof(struct mkd_drawn, at),
           offsetof(struct mkd_drawn, plan), offsetof(struct mkd_drawn, drawn));
    printf(" %zu %zu", sizeof(struct mkd_saved), offsetof(struct mkd_saved, length));
    printf(" %zu %zu", sizeof(struct mkd_edit), offsetof(struct mkd_edit, plan));
    printf(" %zu %zu %zu %zu", sizeof(struct mkd_counts), offsetof(struct mkd_counts, rows),
           offsetof(struct mkd_counts, wires), offsetof(struct mkd_counts, bits));
    printf(" %zu %zu %zu %zu", sizeof(struct mkd_kinds), offsetof(struct mkd_kinds, y),
           offsetof(struct mkd_kinds, g), offsetof(struct mkd_kinds, total));
    printf(" %zu %zu %zu", sizeof(struct mkd_sheet), offsetof(struct mkd_sheet, input),
           offsetof(struct mkd_sheet, block));
    printf(" %zu %zu\n", offsetof(struct mkd_sheet, output), offsetof(struct mkd_sheet, sum));
}

/* Each word of the refusal table with its number. */
static void print_faults(void)
{
    printf("stub %d inputs %d gates %d outputs %d", MKD_STUB, MKD_INPUTS, MKD_GATES, MKD_OUTPUTS);
    printf(" cut %d map %d operand %d table %d", MKD_CUT, MKD_MAP, MKD_OPERAND, MKD_TABLE);
    printf(" source %d tail %d short %d", MKD_SOURCE, MKD_TAIL, MKD_SHORT);
    printf(" contact %d fabric %d program %d", MKD_CONTACT, MKD_FABRIC, MKD_PROGRAM);
    printf(" ring %d hold %d tally %d place %d\n", MKD_RING, MKD_HOLD, MKD_TALLY, MKD_PLACE);
}

int main(void)
{
    if (plans_fail() || drawn_plans_fail() || savings_fail() || edits_fail() || counts_fail() ||
        permutations_fail() || selections_fail() || sheets_fail() || fabrics_fail() ||
        series_fail())
        return 1;
    print_layout();
    print_faults();
    return 0;
}
