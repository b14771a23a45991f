/* sampled SCHEDULES CRASHES SEED FROM TOP OUTCOME OPTIONS: samples the rooms on standard input as `bgview sample` does, into a buffer of 1 MiB. TOP and OUTCOME are 0 if
 * they are left out; OPTIONS is any of the letters g, b and j. */
#include "bgview.h"
#include <stdio.h>
#include <stdlib.h>
#include <string.h>

static uint8_t rooms[1 << 16], answer[1 << 20];

static uint32_t number(const char *word) { return (uint32_t)strtoul(word, NULL, 10); }

int main(int count, char **words) {
    if (count != 8) return 9;
    uint32_t top = number(words[5]), outcome = number(words[6]);
    struct bgview_plan plan = {
        .schedules = number(words[1]), .crashes = number(words[2]), .seed = number(words[3]), .from = number(words[4]),
        .top = top == 0 ? BGVIEW_NO_LIMIT : top, .outcome = outcome == 0 ? BGVIEW_EACH : outcome,
        .group = strchr(words[7], 'g') != NULL, .brief = strchr(words[7], 'b') != NULL, .json = strchr(words[7], 'j') != NULL,
    };
    struct bgview_result result;
    bgview_sample(rooms, fread(rooms, 1, sizeof rooms, stdin), &plan, answer, sizeof answer, &result);
    fwrite(answer, 1, result.length, stdout);
    return (int)result.status;
}
