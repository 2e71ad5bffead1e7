/*
 * Judges the design file named on the command line, in a workspace as large as the forecast says, and prints reason, place
 * and component; on standard error the forecast and, after the verdict, its trials.
 * The exit status is 0 when the design is accepted, 1 when it is refused, 2 when the file or the workspace cannot be had.
 */
#include "contents.h"
#include "jestrunas.h"
#include <stdio.h>
#include <stdlib.h>

int main(int argc, char **argv) {
    size_t length;
    uint8_t *file = argc == 2 ? contents(argv[1], &length) : NULL;
    if (!file) {
        fprintf(stderr, "usage: judge FILE\n");
        return 2;
    }
    jestrunas_forecast_t f = jestrunas_forecast(file, length);
    fprintf(stderr, "forecast: reason %zu, workspace %zu, trials %zu\n", f.reason, f.workspace, f.trials);
    uint8_t *workspace = f.workspace ? (uint8_t *)malloc(f.workspace) : NULL;
    if (f.workspace && !workspace) {
        fprintf(stderr, "judge: no %zu bytes of workspace\n", f.workspace);
        free(file);
        return 2;
    }
    jestrunas_judged_t v = jestrunas_judge(file, length, workspace, f.workspace);
    printf("%zu %zu %zu\n", v.reason, v.place, v.component);
    fprintf(stderr, "trials: %zu\n", v.trials);
    free(workspace);
    free(file);
    return v.reason == JESTRUNAS_ACCEPTED ? 0 : 1;
}
