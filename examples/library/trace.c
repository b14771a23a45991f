/* Prints what each step of the script on standard input did, as `bgview trace` does: docs/LIBRARY.md says how to compile it. */
#include "bgview.h"
#include <stdio.h>
#include <stdlib.h>

int main(void) {
    static uint8_t script[BGVIEW_MAX_INPUT + 1];
    size_t length = fread(script, 1, sizeof script, stdin);
    struct bgview_result result;
    uint8_t none[1];
    bgview_trace(script, length, false, none, 0, &result); /* nothing fits, so this says only how long the answer is */
    size_t size = result.length + 1;
    uint8_t *answer = malloc(size);
    if (answer == NULL) return BGVIEW_NO_MEMORY;
    bgview_trace(script, length, false, answer, size, &result);
    fwrite(answer, 1, result.length, stdout);
    if (result.fault != 0) fprintf(stderr, "line %llu: fault %u\n", (unsigned long long)result.line, (unsigned)result.fault);
    free(answer);
    return (int)result.status;
}
