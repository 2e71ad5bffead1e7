/* Calls every function, also with null pointers, and says where an answer is not the published one. */
#include "jestrunas.h"
#include <stdio.h>
#include <string.h>

static int wrong;

static void expect(int holds, const char *what) {
    if (!holds) {
        printf("WRONG: %s\n", what);
        wrong = 1;
    }
}

static const uint8_t d[47] = {3, 0, 1, 0, 1, 3, 1, 2, 0, 2, 0, 0, 1, 2, 0, 2, 0, 0, 1, 4, 0, 3, 0, 2,
                              0, 0, 0, 4, 0, 3, 0, 4, 0, 0, 0, 4, 0, 3, 0, 1, 0, 0, 0, 0, 0, 4, 0};
/* D with its last list empty: not correct. */
static const uint8_t wrong_d[43] = {3, 0, 1, 0, 1, 3, 1, 2, 0, 2, 0, 0, 1, 2, 0, 2, 0, 0, 1, 4, 0, 3,
                                    0, 2, 0, 0, 0, 4, 0, 3, 0, 4, 0, 0, 0, 0, 0, 3, 0, 0, 0, 4, 0};
/* D with component j reading share j alone: accepted too. */
static const uint8_t kept_d[47] = {3, 0, 1, 0, 1, 3, 1, 2, 0, 2, 0, 0, 1, 2, 0, 2, 0, 0, 1, 4, 0, 3, 0, 1,
                                   0, 0, 0, 4, 0, 3, 0, 2, 0, 0, 0, 4, 0, 3, 0, 4, 0, 0, 0, 0, 0, 4, 0};
/* D with component 1 reading every share and the others none: not non-complete. */
static const uint8_t every_d[47] = {3, 0, 1, 0, 1, 3, 1, 2, 0, 2, 0, 0, 1, 2, 0, 2, 0, 0, 1, 12, 0, 3, 0, 1,
                                    0, 0, 0, 2, 0, 0, 0, 4, 0, 0, 0, 0, 0, 3, 0, 0, 0, 3, 0, 0, 0, 4, 0};
/* D with component 1 reading shares 2 and 3, component 2 share 1 and component 3 none: not uniform. */
static const uint8_t uneven_d[47] = {3, 0, 1, 0, 1, 3, 1, 2, 0, 2, 0, 0, 1, 2, 0, 2, 0, 0, 1, 8, 0, 3, 0, 2,
                                     0, 0, 0, 4, 0, 0, 0, 4, 0, 3, 0, 1, 0, 0, 0, 0, 0, 3, 0, 0, 0, 4, 0};

static int is(jestrunas_verdict_t v, size_t reason, size_t place, size_t component) {
    return v.reason == reason && v.place == place && v.component == component;
}

static int judged(jestrunas_judged_t v, size_t reason, size_t place, size_t component, size_t trials) {
    return v.reason == reason && v.place == place && v.component == component && v.trials == trials;
}

static int forecast(const uint8_t *file, size_t length, size_t reason, size_t workspace, size_t trials) {
    jestrunas_forecast_t f = jestrunas_forecast(file, length);
    return f.reason == reason && f.workspace == workspace && f.trials == trials;
}

int main(void) {
    uint8_t workspace[2] = {7, 9}, other[80], output[160], words[8], again[8];
    const uint8_t box[8] = {0, 1, 2, 3, 4, 5, 7, 6}, coefficients[8] = {0, 1, 2, 0, 4, 0, 1, 0}, not_box[2] = {1, 0};
    jestrunas_shares_t shares = {{1, 0, 0, 0, 0}}, large = {{2, 0, 0, 0, 0}};

    expect(is(jestrunas_read(d, sizeof d), JESTRUNAS_OK, 0, 0), "read D");
    expect(is(jestrunas_read(NULL, 0), JESTRUNAS_CUT_SHORT, 0, 0), "read nothing");

    const uint8_t large_head[7] = {3, 0, 1, 0, 4, 5, 1}, wide_head[7] = {3, 0, 1, 0, 5, 5, 1};
    const uint8_t long_head[7] = {4, 0, 1, 0, 1, 3, 1}, table_head[5] = {3, 0, 2, 0, 1};
    expect(forecast(d, sizeof d, JESTRUNAS_OK, 1, 16), "forecast D");
    expect(forecast(d, 7, JESTRUNAS_OK, 1, 16), "forecast D from its head");
    expect(forecast(large_head, 7, JESTRUNAS_OK, JESTRUNAS_WORKSPACE_MAX, 2097152), "forecast m 4, s 5");
    expect(forecast(wide_head, 7, JESTRUNAS_LIMIT_BROKEN, 0, 0), "forecast m 5, s 5");
    expect(forecast(NULL, 0, JESTRUNAS_CUT_SHORT, 0, 0), "forecast nothing");
    expect(forecast(d, 6, JESTRUNAS_CUT_SHORT, 0, 0), "forecast six bytes of a head");
    expect(forecast(table_head, 5, JESTRUNAS_WRONG_KIND, 0, 0), "forecast a record of another kind");
    expect(forecast(long_head, 7, JESTRUNAS_WRONG_LENGTH, 0, 0), "forecast a head of another length");

    expect(judged(jestrunas_judge(NULL, 0, NULL, 0), JESTRUNAS_CUT_SHORT, 0, 0, 0), "judge nothing");
    expect(judged(jestrunas_judge(d, sizeof d, NULL, 0), JESTRUNAS_WORKSPACE_TOO_SMALL, 0, 0, 0), "judge D in no workspace");
    expect(judged(jestrunas_judge(d, 40, workspace, 2), JESTRUNAS_CUT_SHORT, 35, 0, 0), "judge a part of D");
    expect(workspace[0] == 7 && workspace[1] == 9, "a refusal leaves the workspace");
    expect(judged(jestrunas_judge(d, sizeof d, workspace, 2), JESTRUNAS_ACCEPTED, 1, 0, 16), "judge D");
    expect(workspace[0] == 0 && workspace[1] == 9, "the workspace after a verdict");
    expect(judged(jestrunas_judge(wrong_d, sizeof wrong_d, workspace, 2), JESTRUNAS_NOT_CORRECT, 1, 0, 2), "judge a wrong D");
    expect(judged(jestrunas_judge(kept_d, sizeof kept_d, workspace, 2), JESTRUNAS_ACCEPTED, 1, 0, 16), "judge kept shares");
    expect(judged(jestrunas_judge(every_d, sizeof every_d, workspace, 2), JESTRUNAS_NOT_NON_COMPLETE, 1, 1, 8), "judge every share");
    expect(judged(jestrunas_judge(uneven_d, sizeof uneven_d, workspace, 2), JESTRUNAS_NOT_UNIFORM, 1, 0, 13), "judge an uneven D");
    memcpy(other, d, sizeof d);
    other[11] = 1;
    expect(judged(jestrunas_judge(other, sizeof d, workspace, 2), JESTRUNAS_BOX_REPEATS, 0, 0, 0), "judge D with S of 1 1");
    other[12] = 0;
    expect(judged(jestrunas_judge(other, sizeof d, workspace, 2), JESTRUNAS_CHAIN_IS_NOT_BOX, 0, 0, 0), "judge D with S of 1 0");
    expect(JESTRUNAS_WORKSPACE(1, 3) == 1 && JESTRUNAS_WORKSPACE(5, 4) == JESTRUNAS_WORKSPACE_MAX, "the workspace due");

    jestrunas_run_t run = jestrunas_run(d, sizeof d, shares);
    const uint8_t ran[5] = {0, 0, 1, 0, 0}, none[5] = {0};
    expect(run.reason == JESTRUNAS_OK && !memcmp(run.shares.share, ran, 5), "run D on 1 0 0");
    run = jestrunas_run(d, sizeof d, large);
    expect(run.reason == JESTRUNAS_BAD_SHARE && !memcmp(run.shares.share, none, 5), "run D on 2 0 0");
    expect(jestrunas_run(NULL, 0, shares).reason == JESTRUNAS_CUT_SHORT, "run nothing");

    memset(output, 9, sizeof output);
    jestrunas_produced_t made = jestrunas_produce(1, 3, not_box, 2, jestrunas_placement_3, 6, output, sizeof output);
    expect(made.reason == JESTRUNAS_OK && made.length == 51 && output[51] == 9, "produce 1 0");
    expect(output[23] == 0 && output[27] == 2 && output[35] == 4 && output[43] == 1, "the lists of 1 0: {0, 2}, {4}, {1}");
    expect(judged(jestrunas_judge(output, made.length, workspace, 2), JESTRUNAS_ACCEPTED, 1, 0, 16), "judge what is produced");
    const uint8_t turned[6] = {2, 3, 3, 1, 2, 1}, in_its_set[6] = {1, 1, 3, 2, 2, 1};
    made = jestrunas_produce(1, 3, not_box, 2, turned, 6, output, sizeof output);
    expect(made.reason == JESTRUNAS_OK && made.length == 51 && output[51] == 9, "produce 1 0 by another placement");
    expect(output[23] == 0 && output[27] == 4 && output[35] == 1 && output[43] == 2, "its lists: {0, 4}, {1}, {2}");
    expect(judged(jestrunas_judge(output, made.length, workspace, 2), JESTRUNAS_ACCEPTED, 1, 0, 16), "judge what is placed otherwise");
    made = jestrunas_produce(1, 3, not_box, 2, jestrunas_placement_3, 6, NULL, 0);
    expect(made.reason == JESTRUNAS_OUTPUT_TOO_SHORT && made.length == 0, "produce into no output");
    expect(jestrunas_produce(4, 2, NULL, 0, NULL, 0, NULL, 0).reason == JESTRUNAS_LIMIT_BROKEN, "produce with two shares");
    expect(jestrunas_produce(1, 3, NULL, 0, NULL, 0, NULL, 0).reason == JESTRUNAS_WRONG_LENGTH, "produce from no table");
    made = jestrunas_produce(1, 3, not_box, 2, in_its_set, 6, NULL, 0);
    expect(made.reason == JESTRUNAS_BAD_PLACEMENT && made.length == 0, "produce with share 1 placed in component 1");
    made = jestrunas_produce(1, 3, not_box, 2, jestrunas_placement_3, 5, output, sizeof output);
    expect(made.reason == JESTRUNAS_BAD_PLACEMENT && made.length == 0, "produce by five bytes");
    expect(jestrunas_produce(1, 3, not_box, 2, NULL, 0, NULL, 0).reason == JESTRUNAS_BAD_PLACEMENT, "produce by no placement");
    made = jestrunas_produce(1, 5, not_box, 2, jestrunas_placement_5, 30, output, sizeof output);
    expect(made.reason == JESTRUNAS_OK && made.length == 67, "produce 1 0 with five shares");

    uint8_t twice[80], four[140], untouched[sizeof output];
    memset(twice, 9, sizeof twice);
    made = jestrunas_join(d, sizeof d, d, sizeof d, twice, sizeof twice);
    expect(made.reason == JESTRUNAS_OK && made.length == 77 && twice[77] == 9, "join D with itself");
    expect(judged(jestrunas_judge(twice, 77, workspace, 2), JESTRUNAS_ACCEPTED, 2, 0, 32), "judge what is joined");
    run = jestrunas_run(twice, 77, shares);
    const uint8_t ran_twice[5] = {0, 1, 0, 0, 0};
    expect(run.reason == JESTRUNAS_OK && !memcmp(run.shares.share, ran_twice, 5), "run what is joined on 1 0 0");
    made = jestrunas_join(kept_d, sizeof kept_d, d, sizeof d, twice, sizeof twice);
    expect(made.reason == JESTRUNAS_OK && !memcmp(twice + 13, kept_d + 13, 30) && !memcmp(twice + 43, d + 13, 34), "join two stages");
    made = jestrunas_join(twice, 77, twice, 77, four, sizeof four);
    expect(made.reason == JESTRUNAS_OK && made.length == 137, "join to four stages");
    memset(output, 9, sizeof output);
    memset(untouched, 9, sizeof untouched);
    made = jestrunas_join(four, 137, d, sizeof d, output, sizeof output);
    expect(made.reason == JESTRUNAS_TOO_MANY_STAGES && made.length == 0, "join to five stages");
    const uint8_t two_bits[4] = {0, 1, 2, 3};
    size_t other_len = jestrunas_produce(2, 3, two_bits, 4, jestrunas_placement_3, 6, other, sizeof other).length;
    made = jestrunas_join(four, 137, other, other_len, output, sizeof output);
    expect(made.reason == JESTRUNAS_SHARES_DIFFER && made.length == 0, "join two widths");
    other_len = jestrunas_produce(1, 4, not_box, 2, jestrunas_placement_4, 14, other, sizeof other).length;
    made = jestrunas_join(other, other_len, d, sizeof d, output, sizeof output);
    expect(made.reason == JESTRUNAS_SHARES_DIFFER && made.length == 0, "join two share counts");
    made = jestrunas_join(d, sizeof d, d, sizeof d, output, 76);
    expect(made.reason == JESTRUNAS_OUTPUT_TOO_SHORT && made.length == 0, "join into an output that is a byte too short");
    expect(!memcmp(output, untouched, sizeof output), "a refusal of joining leaves the output");
    expect(jestrunas_join(d, sizeof d, d, sizeof d, NULL, 0).reason == JESTRUNAS_OUTPUT_TOO_SHORT, "join into no output");
    expect(jestrunas_join(NULL, 0, d, sizeof d, NULL, 0).reason == JESTRUNAS_CUT_SHORT, "join nothing with D");
    expect(jestrunas_join(d, sizeof d, NULL, 0, NULL, 0).reason == JESTRUNAS_CUT_SHORT, "join D with nothing");

    expect(jestrunas_transform(3, box, 8, words, 8) == JESTRUNAS_OK && !memcmp(words, coefficients, 8), "transform a table");
    expect(jestrunas_transform(3, words, 8, again, 8) == JESTRUNAS_OK && !memcmp(again, box, 8), "transform its coefficients");
    expect(jestrunas_transform(0, NULL, 0, NULL, 0) == JESTRUNAS_LIMIT_BROKEN, "transform with no width");
    expect(jestrunas_transform(3, NULL, 0, NULL, 0) == JESTRUNAS_WRONG_LENGTH, "transform no table");
    expect(jestrunas_transform(1, box + 1, 2, NULL, 0) == JESTRUNAS_ENTRY_TOO_LARGE, "transform 1 2 of one bit");
    expect(jestrunas_transform(3, box, 8, NULL, 0) == JESTRUNAS_OUTPUT_TOO_SHORT, "transform into no output");

    if (!wrong) printf("every call answers as published\n");
    return wrong;
}
