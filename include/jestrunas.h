/*
 * Jestrunas: judges threshold-implementation sharings of S-boxes.
 *
 * A design file states an S-box S of m bits, s shares for each value and a chain of k stages, each with a table G and
 * one list of terms for every output bit of every component. The library reads such a file, forecasts what a verdict on
 * it takes, gives that verdict, runs it on given shares, produces one from a table, and joins two into one; and it
 * transforms a table into its coefficient words and back. Shares, components and stages are numbered from 1, bits and
 * bytes from 0. docs/RULES.md has every rule by its number: (RULES 6) is its section 6.
 *
 * What a caller owes, for every function here: a pointer and the length after it are a buffer of that many readable
 * bytes (an output or a workspace: writable too), and no buffer that is written to overlaps another of the same call.
 * A null pointer with length 0 is an empty buffer. Nothing else is asked: every content, length and number has an answer.
 *
 * The library keeps nothing from one call to the next, allocates nothing and may be called from several threads.
 * Every struct is passed and answered by value.
 * Link with libjestrunas.a or libjestrunas.so (x86-64, System V calling convention); docs/INSTALL.md says where they are.
 */
#ifndef JESTRUNAS_H
#define JESTRUNAS_H

#include <stddef.h>
#include <stdint.h>

#ifdef __cplusplus
extern "C" {
#endif

/* The version: of the library, of the program and of the packages for Rust and Python. Before 1.0, functions may change
 * where the second number does. */
#define JESTRUNAS_VERSION "0.1.0"

/* The limits of a design (RULES 3). */
#define JESTRUNAS_WIDTH_MAX 6       /* m is 1 to 6 */
#define JESTRUNAS_SHARES_MIN 3      /* s is 3 to 5 */
#define JESTRUNAS_SHARES_MAX 5
#define JESTRUNAS_SHARE_BITS_MAX 20 /* m * s is at most 20 */
#define JESTRUNAS_STAGES_MAX 4      /* k is 1 to 4 */
#define JESTRUNAS_TERMS_MAX 4096    /* terms in one list */

/* The workspace that a verdict needs for width m and s shares, in bytes: 2^(m * s) / 8. The largest is 131,072. */
#define JESTRUNAS_WORKSPACE(m, s) (((size_t)1 << ((m) * (s))) / 8)
#define JESTRUNAS_WORKSPACE_MAX 131072

/* An output that is enough for every file that produce writes: none is longer, so with it produce never answers 17. */
#define JESTRUNAS_PRODUCED_MAX 20867

/* The reasons (RULES 14). Each is given by the operations named after it. */
#define JESTRUNAS_ACCEPTED 0             /* judge: the design is accepted */
#define JESTRUNAS_OK 0                   /* read, forecast, run, produce, join, transform: done, with no verdict on the design */
/* Refusals of reading: read, judge, run, join; those of the head record, 1 to 4, forecast too. */
#define JESTRUNAS_CUT_SHORT 1            /* a record's head or its body is cut short */
#define JESTRUNAS_WRONG_KIND 2           /* a record's kind is not the one due */
#define JESTRUNAS_WRONG_LENGTH 3         /* a record's length is not the one due; produce, transform: that of the table or words */
#define JESTRUNAS_LIMIT_BROKEN 4         /* a head number breaks a limit; produce: m, s or m * s does; transform: m does */
#define JESTRUNAS_ENTRY_TOO_LARGE 5      /* a table entry is 2^m or more; produce, transform: an entry or a word is */
#define JESTRUNAS_BAD_TERM 6             /* a term names a variable beyond m * s, or does not rise */
#define JESTRUNAS_BYTES_FOLLOW 7         /* bytes follow the end */
/* Refusals of the verdict: judge. */
#define JESTRUNAS_BOX_REPEATS 8          /* S repeats an entry; produce: the table does */
#define JESTRUNAS_WORKSPACE_TOO_SMALL 9  /* the workspace has fewer than 2^(m * s) / 8 bytes */
#define JESTRUNAS_CHAIN_IS_NOT_BOX 10    /* the chain of tables is not S */
/* 11 is retired: no operation answers it, and it is not given again. */
#define JESTRUNAS_NOT_CORRECT 12         /* some sharing's output shares do not sum to G of its sum */
#define JESTRUNAS_NOT_NON_COMPLETE 13    /* a component depends on every share */
#define JESTRUNAS_NOT_UNIFORM 14         /* the sharings of some G(x) do not each come from one sharing of x */
/* Refusals of the other operations. */
#define JESTRUNAS_BAD_SHARE 15           /* run: a used share is 2^m or more, or an unused one is not 0 */
#define JESTRUNAS_DEGREE_TOO_HIGH 16     /* produce: the degree is s or more */
#define JESTRUNAS_OUTPUT_TOO_SHORT 17    /* produce, join, transform: the result does not fit the lent output */
#define JESTRUNAS_INPUT_TOO_LONG 18      /* the verdict program only: its input exceeds 32,768 bytes */
#define JESTRUNAS_SHARES_DIFFER 19       /* join: the widths or the share counts of the two designs differ */
#define JESTRUNAS_TOO_MANY_STAGES 20     /* join: the two designs have more than four stages together */
#define JESTRUNAS_BAD_PLACEMENT 21       /* produce: the placement has not 2^s - 2 components, each outside its set */

/*
 * The answer of reading, and the three numbers of a verdict.
 * Reason 0: place is 0 for reading and k, the number of stages, for the verdict; component 0.
 * Reasons 1 to 7: place is the first byte of the record at fault (for 7, the first byte after the end), component 0.
 * Reasons 8, 9, 10: 0, 0. Reasons 12, 13, 14: place is the stage; component is 0 but for 13, where it is the lowest that
 * depends on every share.
 */
typedef struct {
    size_t reason;
    size_t place;
    size_t component;
} jestrunas_verdict_t;

/*
 * The answer of judging: the three numbers of the verdict, and the trials that it took (RULES 7). A trial puts one
 * sharing through one stage. A stage is tried for correctness, on the sharings as numbers from 0, share 1 in the lowest
 * bits, up to the first that is wrong; then for uniformity, in the same order, up to the first whose output sharing was
 * met already. The trial that ends a pass counts. Non-completeness is looked up in the lists and takes none. By reason,
 * N being 2^(m * s):
 *
 *   0               2 * k * N
 *   1 to 10         0
 *   12 at stage i   2 * (i - 1) * N + the trials of its correctness
 *   13 at stage i   (2 * (i - 1) + 1) * N
 *   14 at stage i   (2 * (i - 1) + 1) * N + the trials of its uniformity
 */
typedef struct {
    size_t reason;
    size_t place;
    size_t component;
    size_t trials;
} jestrunas_judged_t;

/*
 * The answer of a forecast.
 * Reason 0: workspace is the bytes that the verdict needs, 2^(m * s) / 8; trials is the most that it takes,
 * 2 * k * 2^(m * s), which every accepted design takes. Reasons 1 to 4: 0, 0.
 */
typedef struct {
    size_t reason;
    size_t workspace;
    size_t trials;
} jestrunas_forecast_t;

/* A sharing: share j at share[j - 1], those after s zero. */
typedef struct {
    uint8_t share[JESTRUNAS_SHARES_MAX];
} jestrunas_shares_t;

/* The answer of a run. */
typedef struct {
    size_t reason;
    jestrunas_shares_t shares;
} jestrunas_run_t;

/* The answer of producing and of joining: length is that of the file that was written, 0 for a refusal. */
typedef struct {
    size_t reason;
    size_t length;
} jestrunas_produced_t;

/*
 * Reads a design file (RULES 5). Answers 0, 0, 0 when it reads, otherwise the first fault in file order (1 to 7).
 * The file is only read.
 */
jestrunas_verdict_t jestrunas_read(const uint8_t *file, size_t file_len);

/*
 * What a verdict on a design file takes, without judging (RULES 7.5). The head record, the first seven bytes, decides
 * it, whatever follows, also nothing: 0 where reading finds no fault there, otherwise reading's refusal of that record,
 * the first of 1 (its head is cut short), 2, 3, 1 (its body is cut short) and 4. The file is only read.
 */
jestrunas_forecast_t jestrunas_forecast(const uint8_t *file, size_t file_len);

/*
 * The verdict on a design file (RULES 6): 0, k, 0 exactly when the file reads, S is a permutation, the workspace is
 * enough, the chain of tables is S, and every stage is correct, non-complete and uniform; otherwise the first fault, 1
 * to 10 or 12 to 14. And its trials, which are never more than the forecast's. Non-complete: each component ignores at
 * least one share, the same one for all its bits.
 * Of an accepted design, over all sharings of a secret, each sent through once: every component meets every setting of
 * the shares on which it depends equally often for all secrets; and every setting of s - 1 shares, one that it ignores
 * left out, exactly once for each. So this speaks of a card in which every sharing of a secret is equally likely.
 * With reasons 1 to 9 the workspace is untouched; otherwise its first 2^(m * s) / 8 bytes are zero afterwards and the
 * rest is untouched. It may hold anything before. The file is only read.
 */
jestrunas_judged_t jestrunas_judge(const uint8_t *file, size_t file_len, uint8_t *workspace, size_t workspace_len);

/*
 * Runs the chain of a design file on the given shares (RULES 8). Answers 0 and the output shares of the last stage,
 * unused ones zero; or a reading's reason (1 to 7) or 15, and five zeros. No verdict is taken. The file is only read.
 */
jestrunas_run_t jestrunas_run(const uint8_t *file, size_t file_len, jestrunas_shares_t shares);

/*
 * The published placements, for 3, 4 and 5 shares (RULES 9.5): a product goes to the lowest component c outside its set
 * of shares for which c + 1 (after s comes 1) is in the set.
 */
static const uint8_t jestrunas_placement_3[6] = {3, 1, 3, 2, 2, 1};
static const uint8_t jestrunas_placement_4[14] = {4, 1, 4, 2, 2, 1, 4, 3, 3, 1, 3, 2, 2, 1};
static const uint8_t jestrunas_placement_5[30] = {5, 1, 5, 2, 2, 1, 5, 3, 3, 1, 3, 2, 2, 1, 5,
                                                  4, 4, 1, 4, 2, 2, 1, 4, 3, 3, 1, 3, 2, 2, 1};

/*
 * Writes the direct sharing of a table in s shares as a design file of one stage, each product in the component that
 * the placement says (RULES 9 and 10). In a product a share is chosen for each variable; the set of the chosen shares
 * is the number J whose bit j - 1 is set for each share j in it. The placement has 2^s - 2 bytes, for J from 1 on: the
 * byte at index J - 1 is the component, from 1 to s, of every product with the set J, and its share is not in J. The
 * constant, for which no share is chosen, goes to component 1. No product has all s shares, since the degree is below
 * s.
 * Answers 0 and the file's length, the same by every placement, the bytes past it untouched; or 4, 3, 5, 8, 21, 16 or
 * 17, tested in this order, and length 0, the output untouched. What is produced, by any placement, reads, is correct and
 * non-complete, component c ignoring share c: with enough workspace its verdict is 0 or 14. The table and the placement
 * are only read.
 */
jestrunas_produced_t jestrunas_produce(size_t m, size_t s, const uint8_t *table, size_t table_len,
                                       const uint8_t *placement, size_t placement_len, uint8_t *output,
                                       size_t output_len);

/*
 * Joins two design files into one (RULES 11): its S is S of the second after S of the first, S(x) = S2(S1(x)); its
 * stages are those of the first, then those of the second; m and s are those of both. Answers 0 and the file's length,
 * which is first_len + second_len - (2^m + 15), the bytes past it untouched; or the reading's reason of the first (1 to
 * 7), then that of the second, 19, 20 or 17, tested in this order, and length 0, the output untouched. An output of
 * first_len + second_len bytes is always enough. Both need only read: no verdict is taken. What is joined reads; where
 * both are accepted it is accepted too, in the same workspace; and running it is running the second on what the first
 * gives. The files are only read, and may be one and the same buffer.
 */
jestrunas_produced_t jestrunas_join(const uint8_t *first, size_t first_len, const uint8_t *second, size_t second_len,
                                    uint8_t *output, size_t output_len);

/*
 * The transform between a table and the coefficient words of its algebraic normal form (RULES 12): the word at set u is
 * the sum (XOR) of the entries at all subsets of u. Of a table this gives the coefficient words, of coefficient words
 * the table; what is written is accepted, and transformed again it gives the input. Answers 0 and writes the first 2^m
 * output bytes only; or 4, 3, 5 or 17, tested in this order, the output untouched.
 */
size_t jestrunas_transform(size_t m, const uint8_t *input, size_t input_len, uint8_t *output, size_t output_len);

#ifdef __cplusplus
}
#endif

#endif
