/* Presses the scope document's pair, replays what comes out, and prints both reports. */
#include "tempuquile.h"
#include <stdio.h>

int main(void) {
    const uint8_t rules[32] = {[0] = 1, [24] = 1}; /* line 0: {+0}; line 1: {-0} */
    const uint8_t sheet[72] = {
        [0] = 1, [8] = 1,              /* node 0: given, line 0, {+0} */
        [24] = 1, [30] = 1, [40] = 1,  /* node 1: given, line 1, {-0} */
        [48] = 2, [52] = 1,            /* node 2: from 0 and 1 on pivot 0, {} */
    };
    uint8_t out[48 * 3 - 24], marks[2];
    uint64_t report[TEMPUQUILE_PRESS_WORDS];
    uint32_t code = tempuquile_press(TEMPUQUILE_NARROW, TEMPUQUILE_INTERSECTION, TEMPUQUILE_NOTHING_LOWERED, sheet, sizeof sheet, rules,
                                     sizeof rules, out, sizeof out, marks, sizeof marks, report, TEMPUQUILE_PRESS_WORDS);
    if (code != TEMPUQUILE_OK) {
        printf("refused %u at %u\n", (unsigned)code, (unsigned)report[TEMPUQUILE_PRESS_RECORD]);
        return 1;
    }
    size_t records = report[TEMPUQUILE_PRESS_RECORDS];
    printf("ok records %u nodes %u steps %u peak %u core %u\n", (unsigned)records, (unsigned)report[TEMPUQUILE_PRESS_NODES],
           (unsigned)report[TEMPUQUILE_PRESS_STEPS], (unsigned)report[TEMPUQUILE_PRESS_PEAK],
           (unsigned)report[TEMPUQUILE_PRESS_MARKED]);

    tempuquile_slot slots[3];
    for (size_t n = 3; n >= 2; n--) {
        code = tempuquile_replay(TEMPUQUILE_NARROW, out, 24 * records, rules, sizeof rules, slots, n, report, TEMPUQUILE_REPLAY_WORDS);
        printf("%u slots: %u at %u, peak %u\n", (unsigned)n, (unsigned)code, (unsigned)report[TEMPUQUILE_REPLAY_RECORD],
               (unsigned)report[TEMPUQUILE_REPLAY_PEAK]);
    }
    return 0;
}
