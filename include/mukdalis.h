/*
 * Mukdalis, the contact fabric library: plans and drawn plans, their faults, their evaluation, once
 * or over a series of intervals, their saving and their edits; the permutation network P and the
 * selection network S of the block library, their rows and their programs; the fabric of three
 * counts, its rows by kind, a plan's program for it, and the run of a fabric table, once or over a
 * series.
 *
 * example.c beside this file shows the whole path, from a plan file to a run, an edit, and a plan
 * that holds. A program is linked with libcapi.a, which `rt lib` in crates/capi writes.
 *
 * Every call takes all inputs and refuses bad ones. It answers a number: 0 for done, any other
 * the row of the refusal table below whose check failed first. A refusal writes through no
 * pointer. Where a buffer is longer than its stated length, the entries past it stay as they were.
 *
 * A pointer is never null, also where its length is 0; that many entries behind it belong to the
 * caller, and a buffer that is written overlaps no other. No call keeps a pointer or any state.
 *
 * Lengths count entries of the pointer's type. A buffer that is read has the exact length that its
 * call names. A buffer that is written has its stated length or more.
 *
 * Wires of a plan: 1 to u are its inputs, u + g is gate g, where u, k and v are the plan's numbers
 * of inputs, gates and outputs. Gates and outputs count from 1 here and lie in arrays from 0.
 *
 * Wires of a fabric are others: 0 is constant zero, 1 to u the inputs, then each row's outputs in
 * order. The highest is 65,535. A made wire is one below the next unmade wire.
 */
#ifndef MUKDALIS_H
#define MUKDALIS_H

#include <stddef.h>
#include <stdint.h>

#ifdef __cplusplus
extern "C" {
#endif

/* The limits of u, k and v, the most wires of a plan, and the bytes of the longest plan file. */
#define MKD_MAX_INPUTS 64
#define MKD_MAX_GATES 256
#define MKD_MAX_OUTPUTS 64
#define MKD_MAX_WIRES 320
#define MKD_MAX_FILE_LEN 1670

/* The block library: the largest n of P, m of S and n of S. */
#define MKD_MAX_SIZE 512

/* The highest wire of a fabric. */
#define MKD_LAST_WIRE 65535

/* The most intervals of a series. */
#define MKD_MAX_INTERVALS 4096

/* The largest fabric, that of 64 inputs, 256 gates and 64 outputs: no other has more of these. */
#define MKD_MAX_FABRIC_ROWS 31489
#define MKD_MAX_FABRIC_WIRES 58180
#define MKD_MAX_FABRIC_BITS 32257
#define MKD_MAX_TABLE_LEN 94534
#define MKD_MAX_PROGRAM_LEN 4033

/*
 * The stated lengths, but for that of a saved file, which depends on the whole plan, see
 * mkd_plan_save. Each macro has the name of the parameter whose length it gives; a series' start
 * and end are states, and h and n its hold count and intervals, see mkd_plan_series. All are
 * constant expressions where their arguments are, so that they serve for static buffers, and
 * evaluate an argument once.
 */
#define MKD_RESULT_LEN(v) ((size_t)(v))                  /* an entry an output */
#define MKD_ROWS_LEN(rows) (3 * (size_t)(rows))          /* three entries a row */
#define MKD_OUTPUTS_LEN(n) ((size_t)(n))                 /* an entry an output wire */
#define MKD_PROGRAM_LEN(bits) (((size_t)(bits) + 7) / 8) /* bits divided by 8, rounded up */
#define MKD_TABLE_LEN(rows, v) (3 + MKD_ROWS_LEN(rows) + (size_t)(v))
#define MKD_WORK_LEN(wires) ((size_t)(wires)) /* an entry a wire */
#define MKD_FRESH_LEN(u, h, n) ((size_t)(n) * ((size_t)(u) - (size_t)(h)))
#define MKD_STATE_LEN(h) ((size_t)(h)) /* an entry a held output */
#define MKD_RESULTS_LEN(v, n) ((size_t)(n) * MKD_RESULT_LEN(v))

/*
 * The rows, wires and program bits of P(n), of S(m, n), and of the fabric of u, k and v, which
 * mkd_permutation_count, mkd_selection_count and mkd_count give at run time. The wires of P and S
 * are those that their rows make: after a block the next unmade wire is as many higher. The wires
 * of a fabric are all, with wire 0 and the inputs.
 *
 * These too are constant expressions where their arguments are, but evaluate an argument several
 * times. They hold for arguments that the calls do not refuse.
 */
#define MKD_PERMUTATION_ROWS(n) MKD_P_ROWS(MKD_LEVEL(n))
#define MKD_PERMUTATION_WIRES(n) (2 * MKD_PERMUTATION_ROWS(n))
#define MKD_PERMUTATION_BITS(n) MKD_PERMUTATION_ROWS(n)

#define MKD_SELECTION_ROWS(m, n) MKD_S_ROWS(MKD_LARGER(MKD_LEVEL(m), MKD_LEVEL(n)))
#define MKD_SELECTION_WIRES(m, n) MKD_S_WIRES(MKD_LARGER(MKD_LEVEL(m), MKD_LEVEL(n)))
#define MKD_SELECTION_BITS(m, n) MKD_SELECTION_ROWS(m, n)

#define MKD_FABRIC_ROWS(u, k, v)                                                                   \
    (MKD_SELECTION_ROWS(u, 2 * (k)) + MKD_U_ROWS(MKD_LEVEL(k)) + MKD_SELECTION_ROWS(k, v))
#define MKD_FABRIC_WIRES(u, k, v)                                                                  \
    (1 + (uint32_t)(u) + MKD_SELECTION_WIRES(u, 2 * (k)) + MKD_U_WIRES(MKD_LEVEL(k)) +             \
     MKD_SELECTION_WIRES(k, v))
#define MKD_FABRIC_BITS(u, k, v) (MKD_FABRIC_ROWS(u, k, v) + 3 * MKD_POWER(MKD_LEVEL(k)))

/*
 * Parts of the macros above. The level of x, 1 to 512, is the smallest l with 2 to the power l not
 * below x: as many bits as x - 1 has. A fabric is S(u, 2K), U(K), S(K, v), see mkd_fabric; K is of
 * k's level.
 */
#define MKD_ABOVE(x, l) ((((uint32_t)(x)-1) >> (l)) != 0)
#define MKD_LEVEL(x)                                                                               \
    (MKD_ABOVE(x, 0) + MKD_ABOVE(x, 1) + MKD_ABOVE(x, 2) + MKD_ABOVE(x, 3) + MKD_ABOVE(x, 4) +     \
     MKD_ABOVE(x, 5) + MKD_ABOVE(x, 6) + MKD_ABOVE(x, 7) + MKD_ABOVE(x, 8))
#define MKD_LARGER(a, b) ((a) > (b) ? (a) : (b))
#define MKD_POWER(l) ((uint32_t)1 << (l))
#define MKD_P_ROWS(l) ((uint32_t)(l) * MKD_POWER(l) + 1 - MKD_POWER(l))
#define MKD_S_ROWS(l) (2 * MKD_P_ROWS(l) + MKD_POWER(l) - 1)
#define MKD_S_WIRES(l) (4 * MKD_P_ROWS(l) + MKD_POWER(l) - 1)
#define MKD_U_ROWS(l) (MKD_POWER(l) * (uint32_t)((l) * (l) + (l) + 2) - 1)
#define MKD_U_WIRES(l) (MKD_POWER(l) * (uint32_t)(2 * (l) * (l) + 4) - 3)

/*
 * The refusal table. The block library reads 2, 4, 9, 12 and 13 otherwise, drawn reading 7, both
 * readings 8, the series 12, and appending a gate 3: their calls say how. No other number is given.
 */
enum mkd_fault {
    MKD_STUB = 1,     /* file below 6 bytes */
    MKD_INPUTS = 2,   /* u not 1 to 64 */
    MKD_GATES = 3,    /* k not 1 to 256 */
    MKD_OUTPUTS = 4,  /* v not 1 to 64 */
    MKD_CUT = 5,      /* file ends inside or before a needed field */
    MKD_MAP = 6,      /* map byte above 7 */
    MKD_OPERAND = 7,  /* wire 0, or not below the gate's own */
    MKD_TABLE = 8,    /* table above 15; in a file, where the second operand is absent, above 3 */
    MKD_SOURCE = 9,   /* output not in u + 1 to u + k */
    MKD_TAIL = 10,    /* bytes after the last output */
    MKD_SHORT = 11,   /* a buffer that is written is below its stated length */
    MKD_CONTACT = 12, /* input row not of length u, or an entry not 0 or 1 */
    MKD_FABRIC = 13,  /* fabric table malformed: mkd_run says when */
    MKD_PROGRAM = 14, /* program not of its exact length, or a spare bit set */
    MKD_RING = 15,    /* drawn gates that each draw from one of them */
    MKD_HOLD = 16,    /* hold count above u or v, or more than 4,096 intervals */
    MKD_TALLY = 17,   /* a figure of a plan's record, K or a wire's uses, is not the counted one */
    MKD_PLACE = 18    /* an edit names a gate or output that the plan lacks */
};

/*
 * A gate. Its operands are wires below its own. With operand bits a, b its bit is bit 2a + b of
 * the table, bit 0 lowest.
 */
struct mkd_gate {
    uint16_t first;  /* first operand */
    uint16_t second; /* second operand */
    uint16_t table;  /* 0 to 15: AND is 8, XOR 6, OR 14 */
};

/*
 * A plan in memory. The first gate_count gates and output_count outputs are used, and the first
 * u + k entries of uses. Reading zeroes the other places; no call looks at them.
 *
 * The last two fields are figures, counted from the others. uses[w - 1] is how many operand places
 * of the gates and how many outputs name wire w; a gate whose operands are equal names their wire
 * twice, so that the first u + k entries add up to 2k + v. Reading and the edits settle the
 * figures; every call that takes a plan checks them, see mkd_plan_fault. A program that makes or
 * changes a record by hand has to count them itself.
 */
struct mkd_plan {
    uint16_t inputs;       /* u */
    uint16_t gate_count;   /* k */
    uint16_t output_count; /* v */
    struct mkd_gate gates[MKD_MAX_GATES];
    uint16_t outputs[MKD_MAX_OUTPUTS]; /* gate wires, u + 1 to u + k */
    uint16_t gate_places;              /* K, the smallest power of two not below k */
    uint16_t uses[MKD_MAX_WIRES];      /* of each wire, wire w at w - 1 */
};

/* The answer of a read. */
struct mkd_read {
    uint32_t number; /* 0, or the refusal */
    uint64_t at;     /* 0, or the byte offset where the faulty field begins or would begin */
    struct mkd_plan plan;
};

/*
 * Reads a plan file.
 *
 * The file: u, k, v, two bytes each, low byte first, as all numbers of two bytes. Per gate a map
 * byte, then the fields whose map bit stands: bit 0 first operand (two bytes; absent: the wire
 * just before the gate), bit 1 second operand (two bytes; absent: the same as the first), bit 2
 * table (one byte; absent: 8). A field may stand although it equals what its absence means. Last v
 * outputs, two bytes each.
 *
 * A table byte has four lines where the second operand stands, equal to the first or not: it is
 * the gate's table, 0 to 15. It has two lines where the second operand is absent: it is 0 to 3,
 * bit 0 is the gate's bit on operand bit 0, bit 1 that on 1. The gate's table is then bit 0 plus 8
 * times bit 1: bytes 0, 1, 2, 3 become tables 0, 1, 8, 9.
 *
 * Buffer: file has len bytes, any number of them; no plan has more than MKD_MAX_FILE_LEN.
 *
 * Refusals, in this order: 1 at 0; 2 at 0; 3 at 2; 4 at 4; per gate 5, then 6 for the map and, per
 * field that stands, 5, then 7 or 8, which is a table byte above 15, or above 3 where the second
 * operand is absent; per output 5, then 9; 10 at the first byte after the last output. The offset
 * of 5 to 9 is that of the field's first byte, also where the file ends there or inside the field.
 *
 * Done: number and at are 0, and the plan has no plan fault: its figures are settled. Refused: the
 * plan is all zero.
 */
struct mkd_read mkd_plan_read(const uint8_t *file, size_t len);

/* The answer of a drawn read. */
struct mkd_drawn {
    uint32_t number; /* 0, or the refusal */
    uint64_t at;     /* 0, or the byte offset where the faulty field begins or would begin */
    struct mkd_plan plan;
    uint16_t drawn[MKD_MAX_GATES]; /* the drawn number, from 1, of the gate at each place */
};

/*
 * Reads a plan file whose gates stand in the order in which they were drawn: a gate may stand
 * before what feeds it.
 *
 * The file: the bytes of mkd_plan_read, but an operand may be any wire from 1 to u + k. Absent
 * fields mean what they mean there, in drawn numbers: an absent first operand is the wire just
 * before the gate as it was drawn.
 *
 * The plan has the drawn gates in the order in which they are taken: again and again the
 * lowest-numbered one whose operands are inputs or gates already taken; after each taking the
 * search begins at the lowest gate again. Operands and outputs are renumbered to match, and the
 * figures are those of the renumbered plan; drawn[p - 1] is the drawn number of the gate at place
 * p, its wire in the plan being u + p. The plan's outputs are those of the drawing, whose wire bits
 * are the one choice that fits every drawn gate. A file that mkd_plan_read reads gives the same
 * plan here, with the drawn numbers 1 to k.
 *
 * Buffer: file as in mkd_plan_read.
 *
 * Refusals: those of mkd_plan_read in their order and at their offsets, but 7 if an operand is 0 or
 * above u + k; after 10, 15 exactly if gates are left over, at the map byte of the lowest of them.
 * Gates are left over exactly if some gates each draw from one of the same set; one gate fed by
 * itself is such a set. An operand that a table ignores counts. The lowest gate left over may lie
 * outside every ring and only draw from one.
 *
 * Done: number and at are 0, the plan has no plan fault, and its unused places and those of drawn
 * are zero. Refused: plan and drawn are all zero.
 */
struct mkd_drawn mkd_plan_read_drawn(const uint8_t *file, size_t len);

/*
 * The first plan fault of a plan in memory, or 0 where it has none: the plan is then accepted.
 *
 * The plan faults, in this order: 2, 3, 4; per gate 7 for both operands, then 8; then 9 over the
 * outputs; then 17 if gate_places or one of the first u + k entries of uses is not the counted
 * figure. No buffer is written.
 */
uint32_t mkd_plan_fault(struct mkd_plan plan);

/*
 * Evaluates a plan on an input row: row[i - 1] is the bit of input i, and the first v entries of
 * result become the bits, 0 or 1, of the wires that the outputs name, in their order.
 *
 * Buffers: row has u entries; result has MKD_RESULT_LEN(v) or more.
 *
 * Refusals, in this order: the plan faults; 12 if row_len is not u or an entry of row is not 0 or
 * 1; 11 if result_len is below its stated length. A refusal leaves result as it was.
 */
uint32_t mkd_plan_evaluate(struct mkd_plan plan, const uint8_t *row, size_t row_len,
                           uint8_t *result, size_t result_len);

/*
 * Evaluates a plan over a series of intervals in which contacts hold: the last h outputs of one
 * interval are the last h inputs of the next, where h is hold and n is intervals.
 *
 * Interval t, from 0, has as its row the u - h entries of fresh from place t * (u - h) on, then the
 * h entries of the state. The v entries of results from place t * v on become its outputs, those of
 * mkd_plan_evaluate on that row. The state is start before the first interval, and after each
 * interval the last h of its outputs; the first h entries of end become the state after the last.
 *
 * With 0 intervals end gets start, and results stays as it was. With hold 0 and one interval
 * results gets what mkd_plan_evaluate gives. A series of n intervals and then one of m, whose start
 * is the end of the first and whose fresh entries are those that follow, write the outputs and the
 * end of one series of n + m intervals, if that is not refused.
 *
 * Buffers: fresh has MKD_FRESH_LEN(u, h, n) entries, no more; start has MKD_STATE_LEN(h), no more;
 * results has MKD_RESULTS_LEN(v, n) or more; end has MKD_STATE_LEN(h) or more. Any of these lengths
 * may be 0.
 *
 * Refusals, in this order: the plan faults; 16 if hold is above u or above v, or intervals above
 * MKD_MAX_INTERVALS; 12 if fresh_len or start_len is not its length, or an entry of fresh or start
 * is not 0 or 1; 11 if results_len or end_len is below its stated length, with 0 intervals too. A
 * refusal leaves results and end as they were.
 */
uint32_t mkd_plan_series(struct mkd_plan plan, uint32_t hold, uint32_t intervals,
                         const uint8_t *fresh, size_t fresh_len, const uint8_t *start,
                         size_t start_len, uint8_t *results, size_t results_len, uint8_t *end,
                         size_t end_len);

/* The answer of a saving. */
struct mkd_saved {
    uint32_t number; /* 0, or the refusal */
    uint64_t length; /* the bytes of the file, or 0 */
};

/*
 * Saves a plan: the first bytes of file become its shortest file. mkd_plan_read of that file gives
 * the plan, with its unused places zero, and no file that it reads as this plan is shorter.
 *
 * The file is laid out as in mkd_plan_read. Per gate the first operand stands if it is not the wire
 * just before the gate, and the table if it is not 8. The second operand is left out exactly if it
 * equals the first and the table has bits 1 and 2 clear, so that two lines say it: tables 0, 1, 8
 * and 9. Where it stands, a table byte is the table; where it is left out, bit 0 of the byte is bit
 * 0 of the table and bit 1 its bit 3.
 *
 * Buffer: file has as many bytes as the plan's file or more; MKD_MAX_FILE_LEN are enough for every
 * plan.
 *
 * Refusals, in this order: the plan faults; 11 if len is below the file's length.
 *
 * Done: number is 0, length is the file's length, and the bytes past it are as they were. Refused:
 * length is 0, and file is as it was.
 */
struct mkd_saved mkd_plan_save(struct mkd_plan plan, uint8_t *file, size_t len);

/* The answer of an edit. */
struct mkd_edit {
    uint32_t number; /* 0, or the refusal */
    struct mkd_plan plan;
};

/*
 * Edits a plan. mkd_plan_replace_gate puts new_gate in place of gate number gate, from 1.
 * mkd_plan_append_gate puts it behind the last gate; its own wire is u + k + 1, and no other wire's
 * number changes. mkd_plan_replace_output makes output number output, from 1, name wire.
 *
 * Refusals, in this order: the plan faults; 18 if gate is 0 or above k, or output 0 or above v; 3
 * if a gate is appended to MKD_MAX_GATES; then for what the edit brings, as in a plan in memory, 7
 * for the new gate's first and second operand, that is, wire 0 or not below the gate's own, and 8;
 * or 9 for the new output's wire. No buffer is written.
 *
 * Done: number is 0, and the plan is the edited one. The gate, with the count where it is appended,
 * or the output has changed, and the figures are settled: where a gate is appended K doubles if k
 * was a power of two, and nothing uses the new wire. All other places are as they were, the unused
 * ones too. Refused: the plan is as it went in, every unused place too.
 */
struct mkd_edit mkd_plan_replace_gate(struct mkd_plan plan, uint32_t gate,
                                      struct mkd_gate new_gate);
struct mkd_edit mkd_plan_append_gate(struct mkd_plan plan, struct mkd_gate new_gate);
struct mkd_edit mkd_plan_replace_output(struct mkd_plan plan, uint32_t output, uint16_t wire);

/* The answer of a counting: of P(n), of S(m, n), or of the fabric of u, k and v. */
struct mkd_counts {
    uint32_t number; /* 0, or the refusal */
    uint32_t rows;
    uint32_t wires; /* those that the rows make; of a fabric wire 0 and the inputs too */
    uint32_t bits;  /* program bits */
};

/*
 * Counts the rows, wires and program bits of P(n): those of the macros MKD_PERMUTATION_ROWS,
 * MKD_PERMUTATION_WIRES and MKD_PERMUTATION_BITS.
 *
 * Refusal: 2 if n is not a power of two from 1 to 512. Refused: rows, wires and bits are 0.
 */
struct mkd_counts mkd_permutation_count(uint32_t n);

/*
 * Counts those of S(m, n): MKD_SELECTION_ROWS, MKD_SELECTION_WIRES and MKD_SELECTION_BITS.
 *
 * Refusals, in this order: 2 if m is not 1 to 512; 4 if n is not 1 to 512. Refused: rows, wires and
 * bits are 0.
 */
struct mkd_counts mkd_selection_count(uint32_t m, uint32_t n);

/*
 * Writes P(n), the permutation network of n inputs and outputs, as n log n - n + 1 rows, log to
 * base 2. A row is three entries: kind 1 (X), left wire, right wire. It makes two wires, the next
 * unmade ones, and has one program bit: at 0 they carry left and right, at 1 right and left.
 *
 * inputs are made wires, next is the next unmade wire. Wire 0 and repeated wires are allowed. The
 * entries of the rows become the first of rows, P's n output wires the first of outputs.
 *
 * P(1) is a wire. Otherwise the rows are, in order: n / 2 on the input pairs, whose first outputs
 * feed the upper P(n / 2) and second the lower at the pair's place; the upper's; the lower's;
 * n / 2 - 1 that join output i of upper and lower into outputs 2i - 1 and 2i. The last output pair
 * has no row.
 *
 * Buffers: inputs has n entries; rows has MKD_ROWS_LEN(MKD_PERMUTATION_ROWS(n)) or more, which is 0
 * for P(1); outputs has MKD_OUTPUTS_LEN(n) or more.
 *
 * Refusals, in this order: 2 if n is not a power of two from 1 to 512; 12 if inputs_len is not n;
 * 13 if an input wire is not below next, or a wire that a row makes would pass 65,535 (P(1) has no
 * row, so that next may then be any number above its input); 11 if rows_len or outputs_len is
 * below its stated length. A refusal leaves rows and outputs as they were.
 */
uint32_t mkd_permutation_write(uint32_t n, const uint16_t *inputs, size_t inputs_len,
                               uint32_t next, uint16_t *rows, size_t rows_len,
                               uint16_t *outputs, size_t outputs_len);

/*
 * Programs P(n): with this program output i of P(n) carries what input wanted[i - 1] carries, i
 * from 1, where wanted has each of 1 to n once.
 *
 * Input and output pairs joined by that mapping form loops. In the loop holding the last output
 * pair, that pair is straight; in each other loop its lowest output pair is. This fixes every bit,
 * for the upper and the lower P(n / 2) likewise.
 *
 * Program bits follow the rows, one a row. Bit p, from 0, lies in byte p / 8 at place p % 8, place
 * 0 lowest; spare bits of the last byte are 0.
 *
 * Buffers: wanted has n entries; program has MKD_PROGRAM_LEN(MKD_PERMUTATION_BITS(n)) or more,
 * which is 0 for P(1). Besides these the call holds at most 2,560 bytes of arrays at one time.
 *
 * Refusals, in this order: 2 if n is not a power of two from 1 to 512; 12 if wanted_len is not n;
 * 9 if a wanted input is not in 1 to n or comes twice; 11 if program_len is below its stated
 * length. A refusal leaves program as it was.
 */
uint32_t mkd_permutation_program(uint32_t n, const uint16_t *wanted, size_t wanted_len,
                                 uint8_t *program, size_t program_len);

/*
 * Writes S(m, n), the selection network of m inputs and n outputs, as 2 N log N - N + 1 rows, log
 * to base 2, where N is the smallest power of two not below m and n. A row is three entries: kind,
 * left wire, right wire. Kind 1 (X) is as in P. Kind 2 (Y) makes one wire, the next unmade one,
 * and has one program bit: at 0 the wire carries left, at 1 right.
 *
 * inputs are made wires, next is the next unmade wire. Wire 0 and repeated wires are allowed. The
 * entries of the rows become the first of rows, S's n output wires the first of outputs.
 *
 * S(1, 1) is a wire. Otherwise the rows are, in order: those of a P(N) on the input wires and,
 * past m, wire 0, which gives positions 1 to N; N - 1 of kind 2, one a position from 2 on, whose
 * left wire is what position i - 1 has become and right wire position i; those of a P(N) on what
 * the positions have become, whose first n outputs are S's.
 *
 * Buffers: inputs has m entries; rows has MKD_ROWS_LEN(MKD_SELECTION_ROWS(m, n)) or more, which is
 * 0 for S(1, 1); outputs has MKD_OUTPUTS_LEN(n) or more.
 *
 * Refusals, in this order: 2 if m is not 1 to 512; 4 if n is not 1 to 512; 12 if inputs_len is not
 * m; 13 if an input wire is not below next, or a wire that a row makes would pass 65,535 (S(1, 1)
 * has no row, so that next may then be any number above its input); 11 if rows_len or outputs_len
 * is below its stated length. A refusal leaves rows and outputs as they were.
 */
uint32_t mkd_selection_write(uint32_t m, uint32_t n, const uint16_t *inputs, size_t inputs_len,
                             uint32_t next, uint16_t *rows, size_t rows_len,
                             uint16_t *outputs, size_t outputs_len);

/*
 * Programs S(m, n): with this program output i of S(m, n) carries what input wanted[i - 1]
 * carries, i from 1, where wanted has n of 1 to m, any of them any number of times.
 *
 * Let c(j) outputs want input j. The first P(N) brings input j, if c(j) is above 0, to position
 * 1 + c(1) + .. + c(j - 1), a head. Inputs with none, those past m included, take the other
 * positions in rising order. The bit of kind 2 at position i is 1 exactly if i is a head. The
 * second P(N) gives output o, wanting input j, the position of j's head plus the number of earlier
 * outputs wanting j; outputs past n take their own position. Both are programmed as P is.
 *
 * Program bits follow the rows, one a row, and lie in bytes as P's do.
 *
 * Buffers: wanted has n entries; program has MKD_PROGRAM_LEN(MKD_SELECTION_BITS(m, n)) or more,
 * which is 0 for S(1, 1).
 *
 * Refusals, in this order: 2 if m is not 1 to 512; 4 if n is not 1 to 512; 12 if wanted_len is not
 * n; 9 if a wanted input is not in 1 to m; 11 if program_len is below its stated length. A refusal
 * leaves program as it was.
 */
uint32_t mkd_selection_program(uint32_t m, uint32_t n, const uint16_t *wanted, size_t wanted_len,
                               uint8_t *program, size_t program_len);

/*
 * Counts the rows, wires and program bits of the fabric of u inputs, k gates and v outputs. They
 * are those of the macros MKD_FABRIC_ROWS, MKD_FABRIC_WIRES and MKD_FABRIC_BITS.
 *
 * Refusals, in this order: 2, 3, 4. Refused: rows, wires and bits are 0. No buffer is written.
 */
struct mkd_counts mkd_count(uint32_t u, uint32_t k, uint32_t v);

/* Rows by kind: of a part of a fabric's table, or of all of it. */
struct mkd_kinds {
    uint32_t x;     /* rows of kind 1 */
    uint32_t y;     /* rows of kind 2 */
    uint32_t g;     /* rows of kind 3 */
    uint32_t total; /* the three together */
};

/* The answer of a counting by kind. */
struct mkd_sheet {
    uint32_t number;         /* 0, or the refusal */
    struct mkd_kinds input;  /* of S(u, 2K) */
    struct mkd_kinds block;  /* of U(K) */
    struct mkd_kinds output; /* of S(K, v) */
    struct mkd_kinds sum;    /* of the whole table */
};

/*
 * Counts the rows of each kind that stand in the table of the fabric of u inputs, k gates and v
 * outputs: in each of its three parts, which stand there one after another, see mkd_fabric, and in
 * the whole table. sum.total is MKD_FABRIC_ROWS(u, k, v).
 *
 * Refusals, in this order: 2, 3, 4. Refused: all figures are 0. No buffer is written.
 */
struct mkd_sheet mkd_fabric_sheet(uint32_t u, uint32_t k, uint32_t v);

/*
 * Writes the table of the fabric of u inputs, k gates and v outputs: 16-bit entries u, v, R (its
 * rows); then kind, left wire, right wire per row; then the v output wires. It depends on the
 * three counts alone, and on k by K alone, the smallest power of two not below k.
 *
 * Kinds 1 (X) and 2 (Y) are as in P and S. Kind 3 (G), a gate, makes one wire, the next unmade
 * one, and has four program bits, its table, lowest bit first: with left bit a and right bit b the
 * wire carries bit 2a + b of the table.
 *
 * The rows are those of S(u, 2K) on the inputs, of U(K) on the 2K pins that it gives, and of
 * S(K, v) on U(K)'s outputs. U(1) is a G on its two pins. Otherwise U(K) is, in this row order: the
 * upper U(K / 2) on pins 1 to K; S(K / 2, K) on its outputs; K rows of kind 2, left wire pin K + j,
 * right wire output j of that S; the lower U(K / 2) on what these make. U(K)'s outputs are the
 * upper's, then the lower's.
 *
 * Buffer: table has MKD_TABLE_LEN(R, v) entries or more, that is 3 + 3R + v, where R is
 * MKD_FABRIC_ROWS(u, k, v); MKD_MAX_TABLE_LEN are enough for every fabric.
 *
 * Refusals, in this order: 2, 3, 4; 11 if table_len is below its stated length. A refusal leaves
 * table as it was.
 */
uint32_t mkd_fabric(uint32_t u, uint32_t k, uint32_t v, uint16_t *table, size_t table_len);

/*
 * Programs the fabric of a plan's counts: run with this program, its outputs on every input row
 * are the plan's.
 *
 * Let K be gate_places, as in mkd_fabric. Pins 2g - 1 and 2g are gate g's first and second operand.
 * S(u, 2K) is programmed so that each pin wants the operand if that is an input, otherwise input 1.
 * Gates past k have table 0, and both pins want input 1. In U(K), if K is above 1, pin j of the
 * lower U(K / 2) wants the operand of pin K + j from S(K / 2, K), and its row of kind 2 has bit 1,
 * if that is one of the upper's gates; otherwise it wants the first of these, with bit 0. For the
 * upper and the lower U(K / 2) likewise. S(K, v) is programmed so that each output wants the gate
 * that it names.
 *
 * Program bits follow the rows and lie in bytes as P's do; spare bits of the last byte are 0.
 *
 * Buffer: program has MKD_PROGRAM_LEN(MKD_FABRIC_BITS(u, k, v)) bytes or more; MKD_MAX_PROGRAM_LEN
 * are enough for every plan.
 *
 * Refusals, in this order: the plan faults; 11 if program_len is below its stated length. A refusal
 * leaves program as it was.
 */
uint32_t mkd_program(struct mkd_plan plan, uint8_t *program, size_t program_len);

/*
 * Runs a fabric table with a program on an input row: row[i - 1] is the bit of input i, and
 * each row of the table does what its kind says, in order. The first entries of work become the
 * bits, 0 or 1, of all wires, that of wire w at place w, and the first v entries of result those
 * of the output wires.
 *
 * Any table of the form that mkd_fabric writes is run, with u, v and R its first three entries; R
 * may be 0. Program bits follow the rows and lie in bytes as P's do; spare bits of the last byte
 * are 0.
 *
 * Buffers: table has MKD_TABLE_LEN(R, v) entries, no more; program has MKD_PROGRAM_LEN(bits) bytes,
 * no more, where X and Y rows have one bit and G rows four; row has u entries; work has
 * MKD_WORK_LEN(wires) or more, where wire 0 and the inputs count, X rows make two wires, Y and G
 * rows one; result has MKD_RESULT_LEN(v) or more. For a fabric of mkd_fabric bits and wires are
 * those of mkd_count, and MKD_MAX_FABRIC_WIRES entries of work are enough.
 *
 * Refusals, in this order: 13 if the table is malformed, that is, has less than 3 entries, u or v
 * not 1 to 64, another length than 3 + 3R + v, a kind not 1 to 3, a row's wire that is not made
 * before that row, an output wire that is not made, or more than 65,536 wires; 14 if program_len
 * is not the exact length, or a spare bit is set; 12 if row_len is not u or an entry of row is not
 * 0 or 1; 11 if work_len or result_len is below its stated length. A refusal leaves work and result
 * as they were.
 */
uint32_t mkd_run(const uint16_t *table, size_t table_len, const uint8_t *program,
                 size_t program_len, const uint8_t *row, size_t row_len, uint8_t *work,
                 size_t work_len, uint8_t *result, size_t result_len);

/*
 * Runs a fabric table with a program over a series of intervals: fresh, start, results and end are
 * those of mkd_plan_series, with u and v the table's first two entries, and an interval's outputs
 * are those of mkd_run on its row. The first entries of work become the bits of all wires in the
 * last interval; with 0 intervals work stays as it was.
 *
 * With the table and the program that mkd_fabric and mkd_program write for a plan, results and end
 * are those of mkd_plan_series of that plan.
 *
 * Buffers: table, program and work as in mkd_run; fresh, start, results and end as in
 * mkd_plan_series.
 *
 * Refusals, in this order: 13 and 14 as in mkd_run; 16 and 12 as in mkd_plan_series; 11 if
 * work_len, results_len or end_len is below its stated length, with 0 intervals too. A refusal
 * leaves work, results and end as they were.
 */
uint32_t mkd_run_series(const uint16_t *table, size_t table_len, const uint8_t *program,
                        size_t program_len, uint32_t hold, uint32_t intervals,
                        const uint8_t *fresh, size_t fresh_len, const uint8_t *start,
                        size_t start_len, uint8_t *work, size_t work_len, uint8_t *results,
                        size_t results_len, uint8_t *end, size_t end_len);

#ifdef __cplusplus
}
#endif

#endif
