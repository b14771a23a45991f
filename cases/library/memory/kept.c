/* kept FILE ..: whether the calls of the library give back all memory that they take. glibc counts it. */
#include "bgview.h"
#include <malloc.h>
#include <stdio.h>
#include <string.h>

static uint8_t input[1 << 20], output[1 << 16];

static void call_each(size_t length, struct bgview_result *result) {
    bgview_check(input, length, output, sizeof output, result);
    bgview_play(input, length, output, sizeof output, result);
    bgview_lint(input, length, output, sizeof output, result);
    bgview_warnings(input, length, output, sizeof output, result);
    bgview_transcript(input, length, output, sizeof output, result);
    bgview_page(input, length, output, sizeof output, result);
    bgview_grade(input, length, (const uint8_t *)"spent 0", 7, 3, output, sizeof output, result);
    struct bgview_plan plan = {.schedules = 20, .crashes = 1, .seed = 1, .top = BGVIEW_NO_LIMIT, .outcome = BGVIEW_EACH};
    for (int option = 0; option < 2; option++) {
        plan.json = option;
        bgview_sample(input, length, &plan, output, sizeof output, result);
        bgview_trace(input, length, option, output, sizeof output, result);
        bgview_why(input, length, option, output, sizeof output, result);
        bgview_draw(input, length, 100, option, output, sizeof output, result);
        bgview_outcomes(input, length, BGVIEW_ALL_BUT_ONE, 5000, option, output, sizeof output, result);
        bgview_outcomes_json(input, length, BGVIEW_ALL_BUT_ONE, 5000, option, output, sizeof output, result);
    }
    bgview_task(input, length, BGVIEW_ALL_BUT_ONE, 5000, output, sizeof output, result);
    bgview_task_json(input, length, BGVIEW_ALL_BUT_ONE, 5000, output, sizeof output, result);
    bgview_inputs(input, length, (const uint8_t *)"0,7", 3, 200, output, sizeof output, result);
    bgview_inputs_json(input, length, (const uint8_t *)"0,7", 3, 200, output, sizeof output, result);
    for (const char *const *task = (const char *const[]){"equal(mine) == count; given >= 2", "count > 0; cou", NULL}; *task != NULL; task++) {
        bgview_keeps(input, length, (const uint8_t *)*task, strlen(*task), 5000, output, sizeof output, result);
        bgview_keeps_json(input, length, (const uint8_t *)*task, strlen(*task), 5000, output, sizeof output, result);
        bgview_why_with(input, length, (const uint8_t *)*task, strlen(*task), output, sizeof output, result);
        bgview_why_with_json(input, length, (const uint8_t *)*task, strlen(*task), output, sizeof output, result);
        bgview_page_with(input, length, (const uint8_t *)*task, strlen(*task), output, sizeof output, result);
    }
    struct bgview_search search = {.crashes = BGVIEW_ALL_BUT_ONE, .nodes = 2000};
    for (int option = 0; option < 2; option++) {
        search.json = option;
        bgview_rooms(input, length, &search, output, sizeof output, result);
    }
    bgview_fault(13, output, sizeof output, result);
}

static size_t in_use(void) {
    struct mallinfo2 now = mallinfo2();
    return now.uordblks + now.hblkhd;
}

int main(int count, char **files) {
    struct bgview_result result;
    for (int i = 1; i < count; i++) {
        FILE *file = fopen(files[i], "rb");
        size_t length = fread(input, 1, sizeof input, file);
        fclose(file);
        size_t before = in_use();
        call_each(length, &result);
        if (in_use() != before) printf("%s: %zd bytes are kept\n", files[i], (ssize_t)(in_use() - before));
    }
    return 0;
}
