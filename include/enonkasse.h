/*
 * The exported functions of libhost.a, which `tools/library.sh` writes, and every byte of their records.
 *
 * Every function answers 0, or the number of a refusal (ENONKASSE_REFUSED_..), and then nothing lent has changed. None
 * keeps anything between calls, allocates, or asks anything of the bytes that it is lent: whatever they are, the answer is
 * the one that document 01 defines, and nothing outside of what is lent is touched. They may be called from several threads at
 * once. What is asked of the caller: a pointer is not null, also where its size is 0, and is aligned for its type; it points to as
 * many items as its size says, or as its array has; what a call may write overlaps nothing else that it is lent. A call needs up
 * to 1.5 MiB of stack.
 *
 * A size counts items: bytes of a uint8_t pointer, words of a uint64_t pointer. Numbers of more than one byte in a record
 * of bytes are big-endian; what crosses as uint64_t, size_t, uint32_t or uint16_t is the machine's own.
 */
#ifndef ENONKASSE_H
#define ENONKASSE_H

#include <stddef.h>
#include <stdint.h>

#ifdef __cplusplus
extern "C" {
#endif

/* ---- Frames -------------------------------------------------------------------------------------------------------
 *
 * A pool and requests: frames one behind the other, each behind its length in 2 bytes. First nodes, then expressions,
 * then requests; a node's number is its place among the nodes, from 0, an expression's its place among the expressions.
 *
 *   Node         byte 0      0x01
 *                byte 1      kind, from ENONKASSE_KIND_ADD to _X
 *                byte 2      next: 0, or 1 where a leaf reads the next row
 *                bytes 3, 4  id: the leaf's number; 0 for operations, number and the x kinds
 *                byte 5      how many children: 3 for muladd, 2 for add, sub and mul, 1 for addc, mulc and neg, else 0
 *                then        2 bytes for each child: a node with a smaller number, which nothing else uses
 *                then        for number, addc and mulc a literal, 9 bytes: 0, or 1 for minus; the magnitude in 8 bytes
 *                            (minus zero does not exist; addc and mulc take a literal in the range of int64_t)
 *   Expression   byte 0      0x02
 *                bytes 1, 2  its root, a node that nothing else uses
 *                byte 3      flags: bit 0 keep, bit 1 keep2ns, bit 2 idQ
 *   Request      byte 0      0x03
 *                bytes 1, 2  expression
 *                byte 3      prime: 0 for this row, 1 for the next
 *                byte 4      muladd: 1 where sums of products are fused, else 0
 *
 * Functions that serve no requests read them nevertheless, and refuse malformed ones.
 */
#define ENONKASSE_MAX_NODES 4096
#define ENONKASSE_MAX_EXPRESSIONS 512
#define ENONKASSE_MAX_REQUESTS 1024

/* The kinds of nodes: operations, then leaves. */
#define ENONKASSE_KIND_ADD 0x01
#define ENONKASSE_KIND_SUB 0x02
#define ENONKASSE_KIND_MUL 0x03
#define ENONKASSE_KIND_MULADD 0x04
#define ENONKASSE_KIND_ADDC 0x05
#define ENONKASSE_KIND_MULC 0x06
#define ENONKASSE_KIND_NEG 0x07
#define ENONKASSE_KIND_CM 0x10
#define ENONKASSE_KIND_CONST 0x11
#define ENONKASSE_KIND_EXP 0x12
#define ENONKASSE_KIND_Q 0x13
#define ENONKASSE_KIND_NUMBER 0x14
#define ENONKASSE_KIND_PUBLIC 0x15
#define ENONKASSE_KIND_CHALLENGE 0x16
#define ENONKASSE_KIND_EVAL 0x17
#define ENONKASSE_KIND_XDIVXSUBXI 0x18
#define ENONKASSE_KIND_XDIVXSUBWXI 0x19
#define ENONKASSE_KIND_X 0x1a

/* The kinds of references are the leaves, and these. */
#define ENONKASSE_KIND_TMP 0x20
#define ENONKASSE_KIND_F 0x21
#define ENONKASSE_KIND_TMPEXP 0x22
#define ENONKASSE_KIND_ZI 0x23
#define ENONKASSE_KIND_TREE1 0x24
#define ENONKASSE_KIND_TREE2 0x25
#define ENONKASSE_KIND_TREE3 0x26
#define ENONKASSE_KIND_TREE4 0x27
#define ENONKASSE_KIND_Z 0x28

/* ---- Refusals -----------------------------------------------------------------------------------------------------
 *
 * Document 01's numbers. Each function below says in which order it gives them.
 */
/* Malformed frame or record: unknown kind, frames out of order, a prime, muladd or next byte not 0 or 1, expression flags
 * above 7, an unused id not 0, minus zero, literal out of range, modulus below 2. */
#define ENONKASSE_REFUSED_MALFORMED 1
/* Child count differs from the table. */
#define ENONKASSE_REFUSED_CHILD_COUNT 2
/* Child not earlier, node used twice, or a root or expression number not there; for a plan, also a cm or q leaf's number not
 * in it, or a cm or q number looked up for a list and not there. */
#define ENONKASSE_REFUSED_NOT_THERE 3
/* exp leaves form a cycle; for a plan, exp leaves and q leaves (through their expressions) together. */
#define ENONKASSE_REFUSED_CYCLE 4
/* A primed evaluation reaches a cm, const, exp or q leaf with next. */
#define ENONKASSE_REFUSED_DOUBLE_PRIME 5
/* The search meets q, xDivXSubXi or xDivXSubWXi in a visit with a set or in a full degree, or visits eval or muladd with a set. */
#define ENONKASSE_REFUSED_SEARCH_KIND 6
/* Result asked for a primed request whose expression has no primed mark. */
#define ENONKASSE_REFUSED_NO_PRIMED_MARK 7
/* Result asked for a marked expression without a block. */
#define ENONKASSE_REFUSED_NO_BLOCK 8
/* The whole answer does not fit the lent space, or a pool or plan its limit. */
#define ENONKASSE_REFUSED_FULL 9
/* A dimension pass or the evaluator reads an unwritten temporary; fixing, a dimension pass or the evaluator meets a kind or step
 * it has no rule for; the evaluator also reads a cell neither written nor given a value. */
#define ENONKASSE_REFUSED_NO_RULE 10
/* Plan counts disagree. */
#define ENONKASSE_REFUSED_COUNTS 11
/* A record of a plan, or a source in a dimension pass, gets dimension 0. */
#define ENONKASSE_REFUSED_NO_DIMENSION 12
/* Every d yields no set. */
#define ENONKASSE_REFUSED_NO_SET 13
/* The kept q is -1. */
#define ENONKASSE_REFUSED_NO_QUOTIENT 14
/* The visits needed pass the caller's limit. */
#define ENONKASSE_REFUSED_VISITS 15
/* nBits or nBitsExt out of range. */
#define ENONKASSE_REFUSED_BITS 16
/* No identity. */
#define ENONKASSE_REFUSED_NO_IDENTITY 17

/* ---- Lists --------------------------------------------------------------------------------------------------------
 *
 * A list is steps of 52 bytes, one behind the other:
 *
 *   byte 0        step, ENONKASSE_STEP_..
 *   byte 1        how many sources it has, at most 3
 *   bytes 2, 3    origin: ffff, no node is known
 *   bytes 4..16   destination, a reference
 *   bytes 16..28, 28..40, 40..52
 *                 sources, references; those past the count are 0 where a list is made, and are not looked at
 *
 * A reference is 12 bytes:
 *
 *   byte 0        kind, from ENONKASSE_KIND_CM on
 *   byte 1        prime: 0 for this row, 1 for the next
 *   bytes 2, 3    id: the number among its kind
 *   bytes 4, 5    dimension, where a dimension pass or the query code's walk gave one
 *   bytes 6, 7    p: the record of a fixed column
 *   bytes 8, 9    tree position
 *   bytes 10, 11  extra: the expression of a temporary that fixing made; for number, the node that brings the literal (a neg
 *                 brings 0)
 *
 * A list that is read is malformed (1) where it is not whole steps, a step counts more than 3 sources, or the destination or
 * a counted source has an unknown kind or a prime other than 0 and 1.
 */
#define ENONKASSE_REFERENCE_SIZE 12
#define ENONKASSE_MAX_SOURCES 3
#define ENONKASSE_STEP_SIZE 52
#define ENONKASSE_NO_ORIGIN 0xffff
/* Steps that always suffice for what one pool gives to requests that ask for no result. */
#define ENONKASSE_LIST_ROOM 8192

#define ENONKASSE_STEP_ADD 0x01
#define ENONKASSE_STEP_SUB 0x02
#define ENONKASSE_STEP_MUL 0x03
#define ENONKASSE_STEP_MULADD 0x04
#define ENONKASSE_STEP_COPY 0x08

/* ---- Generation ---------------------------------------------------------------------------------------------------
 *
 * A context is 7,178 bytes. It belongs to one pool, and its list stands beside it.
 *
 *   bytes 0..4     version 0, mode 0, rows 2, a spare byte 0
 *   bytes 4, 5     how many blocks there are, at most 1,024
 *   bytes 6, 7     how many steps the list has
 *   bytes 8, 9     the next temporary's number
 *   bytes 10..1034 a mark, 0 or 1, for each cell: 2 e for expression e at this row, 2 e + 1 at the next
 *   bytes 1034..   6 bytes for each block, in the list's order: expression (2), prime (2), how many steps (2)
 *
 * It is malformed (1) where its size or bytes 0..4 are others, there are more blocks than cells, the list has fewer bytes than
 * its steps, a mark is not 0 or 1 or is set for an expression that the pool does not have, a block has no step, no mark, an
 * expression or prime that is not there or the cell of another block, or the blocks' steps do not add up. What stands behind the
 * last block, and in the list behind its last step, may be anything.
 */
#define ENONKASSE_CONTEXT_SIZE 7178
#define ENONKASSE_BLOCK_COUNT_AT 4
#define ENONKASSE_STEP_COUNT_AT 6
#define ENONKASSE_TEMPORARY_COUNT_AT 8
#define ENONKASSE_MARKS_AT 10
#define ENONKASSE_BLOCKS_AT 1034
#define ENONKASSE_BLOCK_SIZE 6
/* This row and the next. */
#define ENONKASSE_ROWS 2

/* Makes a context fresh: no mark, no block, no temporary. Refuses 1 where its size is not a context's. */
uint8_t enonkasse_fresh(uint8_t *context, size_t context_size);

/* Serves the requests among the frames, in their order: their steps are put behind those of the list, marks and counters into
 * the context. With kind and id, the last request also asks for its result in that cell, at its own row; with both 0 for none.
 * The list may have any size; 9 where it has too few bytes. Refuses 1 and 9 while reading, 1 of the result (an unknown
 * kind, number, or no request), 1 of the context, 2, 3, 4 of the pool, 3, 5, 7, 8 of the requests, 9 (also where the temporary
 * counter passes 65,535). */
uint8_t enonkasse_serve(const uint8_t *frames, size_t frames_size, uint8_t kind, uint16_t id, uint8_t *context,
                        size_t context_size, uint8_t *list, size_t list_size);

/* Builds the first, i and last lists of the blocks, each at the front of its room, and says in `sizes` how many steps each has.
 * Then the blocks are gone from the context, every expression with neither keep nor idQ is marked both ways, and the temporary
 * counter goes on. The i and last lists are never longer than the first, which is the context's. Refuses 1 and 9 while
 * reading, 1 of the context, 2, 3, 4 of the pool, 9. */
uint8_t enonkasse_build(const uint8_t *frames, size_t frames_size, uint8_t *context, size_t context_size, const uint8_t *list,
                        size_t list_size, uint8_t *first, size_t first_size, uint8_t *i, size_t i_size, uint8_t *last,
                        size_t last_size, size_t sizes[3]);

/* The whole run in one call: serves the requests among the frames on a fresh context of its own and puts the first list at the front
 * of `list`; says in `totals` how many steps it has and where the temporary counter stands. Room for ENONKASSE_LIST_ROOM steps
 * always suffices. Refuses 1 and 9 while reading, 2, 3, 4 of the pool, 3, 5 of the requests, 9. */
uint8_t enonkasse_run(const uint8_t *frames, size_t frames_size, uint8_t *list, size_t list_size, size_t totals[2]);

/* ---- Evaluation ---------------------------------------------------------------------------------------------------
 *
 * Given values are words: seven that say how many words each part has, then the parts cm, const, q, public, challenge, eval
 * and x kinds. cm, const and q have two words for each id, this row's and the next one's; public, challenge and eval have one
 * for each id; the x kinds have one each, xDivXSubXi, xDivXSubWXi, x. What would stand past the end of its part is not given.
 * The parts must end where the words do (1).
 *
 * A cell and its value is 12 bytes: kind, prime, id (2), value (8).
 */
#define ENONKASSE_VALUE_PARTS 7
#define ENONKASSE_CELL_SIZE 12

/* Runs a list downwards modulo a number from 2 up, over the literals of the pool, from the values given, each reduced first. Puts
 * every cell written with its final value at the front of `out`, in the order in which they were first written, and says in
 * `cells` how many they are: never more than the list has steps. Refuses 1 and 9 while reading, 1 of the list, the modulus and the
 * values, 2, 3, 4 of the pool, 10, 9 (also of more than 16,384 cells). */
uint8_t enonkasse_evaluate(const uint8_t *frames, size_t frames_size, const uint8_t *list, size_t list_size,
                           uint32_t modulus, const uint64_t *values, size_t values_size, uint8_t *out, size_t out_size,
                           size_t cells[1]);

/* ---- Plans --------------------------------------------------------------------------------------------------------
 *
 * A plan is numbers of 2 bytes, one behind the other (1 where its size is another, or its intermediates do not ascend):
 *
 *   number 0        nBits and nBitsExt, a byte each
 *   numbers 1 to 4  n_cm1, n_cm2, n_cm3, n_cm4
 *   number 5        q_deg
 *   number 6        c_exp, an expression
 *   numbers 7 to 12 how many pu, pe, ci, intermediates, qs and q2exp follow
 *   from 13 on      f, t, num, den of each pu; num, den of each pe; num, den of each ci; expression and cm number of each
 *                   intermediate, by ascending expressions; the qs, cm numbers; the q2exp, expressions
 *
 * Plans are refused in this order, by every function that takes one: 1 and 9 while reading the frames, then of the plan; 1 of the
 * function's other arguments; 2, 3, 4 of pool and plan; 16, 11, 12.
 */
#define ENONKASSE_PLAN_HEAD 13
#define ENONKASSE_MAX_RECORDS 4096

/* The sections of a plan's columns, in the order of their offsets. */
#define ENONKASSE_SECTIONS 11
#define ENONKASSE_SECTION_CM1_N 0
#define ENONKASSE_SECTION_CM2_N 1
#define ENONKASSE_SECTION_CM3_N 2
#define ENONKASSE_SECTION_CM4_N 3
#define ENONKASSE_SECTION_TMPEXP_N 4
#define ENONKASSE_SECTION_CM1_2NS 5
#define ENONKASSE_SECTION_CM2_2NS 6
#define ENONKASSE_SECTION_CM3_2NS 7
#define ENONKASSE_SECTION_CM4_2NS 8
#define ENONKASSE_SECTION_Q_2NS 9
#define ENONKASSE_SECTION_F_2NS 10

/* The answer of map:
 *
 *   12 offsets of 8 bytes  where each section begins, counted in elements, and the total
 *   then numbers of 2 bytes:
 *   4 numbers              how many records, cm and temporary columns there are; q_dim
 *   3 times 11 numbers     N1 of each section, N of each, N3 of each
 *   3 for each record      section, dimension, position
 *   1 for each cm          cm_n, the record in the domain n
 *   1 for each cm          cm_2ns, the record in the extended domain
 *   1 for each cm          cm_dims, the dimension by which leaves read it
 *   2 for each temporary column
 *                          expression, record
 *   1 for each expression of the pool
 *                          exp2pol, its record, or ffff
 */
#define ENONKASSE_OFFSETS 12
#define ENONKASSE_NO_RECORD 0xffff
/* Bytes that always suffice for the answer of map. */
#define ENONKASSE_MAP_ROOM 65536

/* Puts the whole answer of a plan at the front of `out`, and says in `size` how many bytes it has. Refuses as plans are, then 9. */
uint8_t enonkasse_map(const uint8_t *frames, size_t frames_size, const uint8_t *plan, size_t plan_size, uint8_t *out,
                      size_t out_size, size_t size[1]);

/* The domains that a segment is fixed for. */
#define ENONKASSE_DOMAIN_N 0
#define ENONKASSE_DOMAIN_2NS 1

/* Fixes the references of a segment's three lists in place, for a domain; `counter` is the segment's temporary counter, which goes
 * on. Refuses as plans are, with 1 of the domain, of a counter above 65,535 and of the lists; then 3, 10, 9. */
uint8_t enonkasse_fix(const uint8_t *frames, size_t frames_size, const uint8_t *plan, size_t plan_size, uint8_t domain,
                      size_t counter[1], uint8_t *first, size_t first_size, uint8_t *i, size_t i_size, uint8_t *last,
                      size_t last_size);

/* Makes tree1 to tree4 of the cm of a segment's three lists, in place, for the verifier's query code. Refuses as plans are, with 1 of
 * the lists; then 3, 10. */
uint8_t enonkasse_query(const uint8_t *frames, size_t frames_size, const uint8_t *plan, size_t plan_size, uint8_t *first,
                        size_t first_size, uint8_t *i, size_t i_size, uint8_t *last, size_t last_size);

/* Gives every reference of a segment's three lists its dimension, in place; the x kinds have dim_x, 1 for fixed lists, else 3. Refuses
 * as plans are, with 1 of the lists; then 3, 10, 12. */
uint8_t enonkasse_dimension(const uint8_t *frames, size_t frames_size, const uint8_t *plan, size_t plan_size,
                            uint16_t dim_x, uint8_t *first, size_t first_size, uint8_t *i, size_t i_size, uint8_t *last,
                            size_t last_size);

/* The same for a first list alone, where the x kinds have dimension 3. */
uint8_t enonkasse_dimension_first(const uint8_t *frames, size_t frames_size, const uint8_t *plan, size_t plan_size,
                                  uint8_t *first, size_t first_size);

/* ---- Search -------------------------------------------------------------------------------------------------------
 *
 * A set of expressions is nine words: expression e is bit e % 64 of word e / 64, and the ninth word says how many are in it.
 */
#define ENONKASSE_SET_BIT_WORDS 8
#define ENONKASSE_SET_WORDS 9

/* Searches for the expressions that become columns, so that the degree of the identities, numbers of expressions, comes down, in
 * at most `limit` visits. `chosen` is then the set, and `found` q and how many visits it took. Refuses 1 and 9 while reading, 2, 3, 4 of
 * the pool, 17, 16, 3 of the identities, 15 and 6 as it meets them, 13, 14. */
uint8_t enonkasse_search(const uint8_t *frames, size_t frames_size, const uint64_t *identities, size_t identities_size,
                         uint64_t n_bits, uint64_t n_bits_ext, uint64_t limit, uint64_t chosen[ENONKASSE_SET_WORDS],
                         uint64_t found[2]);

/* ---- The constraint polynomial ------------------------------------------------------------------------------------
 *
 * `generate_constraint_polynomial` in pieces, one after the other: the search; the pool with the constraint, whose last expression
 * it is; its members served on the first context and built, which is step3; the members marked in the second context, the
 * constraint served on it, the closing product, and a build, which is step42ns. Member number k of the set, counted from 0 in
 * ascending order, gets the cm number commitments + k; the qs are the n_cm4 numbers from the first one on.
 */
#define ENONKASSE_CONSTRAINT_NUMBERS 6
#define ENONKASSE_CONSTRAINT_TOTALS 7
/* Bytes that always suffice for the frames of a pool: 19 for an addc or mulc, 6 for an expression. */
#define ENONKASSE_MAX_FRAMES_SIZE 80896

/* Marks expressions of a pool that has so many at both rows: they stand in columns, and no list makes them any more. Nothing else of
 * the context changes. Refuses 9 of more than ENONKASSE_MAX_EXPRESSIONS expressions, 1 of the context, 3 of a member. */
uint8_t enonkasse_mark(const uint64_t *members, size_t members_size, size_t expressions, uint8_t *context, size_t context_size,
                       const uint8_t *list, size_t list_size);

/* Puts the closing product, q0 = the last destination times Zi, at the end of the last block of a context of a pool that has so many
 * expressions. Refuses 9 of more than ENONKASSE_MAX_EXPRESSIONS expressions, 1 of the context, 8 where no block stands, 9 where the
 * list has no room for one step more. */
uint8_t enonkasse_close(size_t expressions, uint8_t *context, size_t context_size, uint8_t *list, size_t list_size);

/* Adds the constraint polynomial of the identities, numbers of expressions, to the pool, with the columns that a search chose, the
 * challenge "vc" and so many quotients: puts the frames of the pool with it at the front of `out`, and says in `numbers` the
 * constraint's expression, n_cm3, n_cm4, the first of the qs, nCommitments after it, and how many bytes the frames have. Refuses 1 and 9
 * while reading, 1 of a set that is none of this pool's, 2, 3, 4 of the pool, 17, 3 of an identity, 9 of the limits of the pool with the constraint
 * and of cm numbers past 65,535, 11 where commitments are fewer than n_cm1 + n_cm2, 9 where the frames have no room. */
uint8_t enonkasse_constraint_pool(const uint8_t *frames, size_t frames_size, const uint64_t *identities, size_t identities_size,
                                  const uint64_t chosen[ENONKASSE_SET_WORDS], uint16_t vc, size_t n_cm1, size_t n_cm2,
                                  size_t commitments, size_t quotients, uint8_t *out, size_t out_size,
                                  size_t numbers[ENONKASSE_CONSTRAINT_NUMBERS]);

/* All of `generate_constraint_polynomial` or nothing: the search, the frames of the pool with the constraint at the front of `out`, step3 in the
 * first context with its list, step42ns in the second, each with its first, i and last lists at the front of their rooms. `chosen` is then
 * the set, `found` q and the visits, `totals` the steps of step3's first, i and last lists, of step42ns's, and the bytes of the
 * frames. The constraint's number is how many expressions the pool had; n_cm3 is commitments + members - n_cm1 - n_cm2, n_cm4 is q, and the qs are
 * the q numbers from commitments + members on. Refuses 1 and 9 while reading, 1 of a context (also of one that marks an expression that the pool
 * does not have), 2, 3, 4 of the pool, 17, 16, 3 of the identities, 15 and 6 as they are met, 13, 14, 9 of the limits, 11, 5 of step3, 5
 * of step42ns, 9 of the rooms. */
uint8_t enonkasse_constraint(const uint8_t *frames, size_t frames_size, const uint64_t *identities, size_t identities_size,
                             uint16_t vc, uint64_t n_bits, uint64_t n_bits_ext, uint64_t limit, size_t n_cm1, size_t n_cm2,
                             size_t commitments, uint8_t *context, size_t context_size, uint8_t *list, size_t list_size,
                             uint8_t *first, size_t first_size, uint8_t *i, size_t i_size, uint8_t *last, size_t last_size,
                             uint8_t *context_2ns, size_t context_2ns_size, uint8_t *list_2ns, size_t list_2ns_size,
                             uint8_t *first_2ns, size_t first_2ns_size, uint8_t *i_2ns, size_t i_2ns_size, uint8_t *last_2ns,
                             size_t last_2ns_size, uint8_t *out, size_t out_size, uint64_t chosen[ENONKASSE_SET_WORDS],
                             uint64_t found[2], size_t totals[ENONKASSE_CONSTRAINT_TOTALS]);

/* ---- Sections -----------------------------------------------------------------------------------------------------
 *
 * A polynomial's record. Within a section records of dimension 1 come first, then 2, then 3, each group in the order of the
 * records; each position is the sum of the dimensions placed before. A record of another dimension keeps its position.
 */
struct enonkasse_pol_type {
    uint16_t section;     /* ENONKASSE_SECTION_.. */
    uint16_t dim;
    uint16_t section_pos;
};

/* Writes the position of each record into it, and into `widths` 3 times ENONKASSE_SECTIONS numbers: N1 of each section, N of each, N3 of
 * each. `sections`, `dims` and `positions` are as long as the records, and hold their columns afterwards. Refuses 1 where a size is
 * another; then, by the first record that is either, 1 where its section is unknown and 9 past ENONKASSE_MAX_RECORDS. */
uint8_t enonkasse_map_section(struct enonkasse_pol_type *records, size_t records_size, uint16_t *sections,
                              size_t sections_size, uint16_t *dims, size_t dims_size, uint16_t *positions,
                              size_t positions_size, uint16_t *widths, size_t widths_size);

#ifdef __cplusplus
}
#endif

#endif
