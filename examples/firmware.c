/* A small firmware loop: one supervisor for one line and two of its tandem levels, a frame at a time, a mark each second, and what stands
   in words; beside it the open quarter-hour.
   In a card, `next_frame` is the framer chip, and a second is 1 s of its frames; here a line is made up, with 100 frames a second. A
   second is told one mark late, and the last one at the end; then what there is of the quarter-hour.

   cc -o firmware examples/firmware.c target/staticlib/libcard.a */
#include "../include/otn.h"

#include <stdio.h>
#include <string.h>

#define FRAMES_A_SECOND 100

/* what the framer chip hands over for one frame */
struct frame {
    uint8_t overhead[OTN_OVERHEAD_BYTES];
    uint8_t flags, sm_violations, pm_violations, tcm_violations[OTN_LEVELS];
};

/* the tandem levels that are watched: a neighbour's part of the path, and our own within it */
static const uint8_t levels[] = {1, 4};
#define WATCHED (sizeof levels / sizeof levels[0])

/* A made-up line: six seconds of good frames, of a path that is locked, of lost framing, of errored blocks at both ends, of more of them
   and a TCM4 whose source is gone, and of an alignment error, which voids the section's figures of its second and of the one before. */
static struct frame next_frame(unsigned n) {
    static const uint8_t fas[6] = {0xf6, 0xf6, 0xf6, 0x28, 0x28, 0x28};
    unsigned second = n / FRAMES_A_SECOND;
    struct frame f;
    memset(&f, 0, sizeof f);
    if (second != 2) {
        memcpy(f.overhead, fas, sizeof fas);
        f.overhead[6] = (uint8_t)n; /* MFAS */
    }
    if (second == 1) f.overhead[43] = 5; /* path STAT 101 */
    f.overhead[40] = 1; /* STAT 001 of TCM1: in use */
    if (second < 4) f.overhead[28] = 1; /* and of TCM4 */
    if ((second == 3 || second == 4) && n % 10 == 0) f.sm_violations = 2, f.tcm_violations[0] = 1;
    if ((second == 3 || second == 4) && n % 20 == 0) f.overhead[9] = 2 << 4; /* section BEI: the far end had two */
    if ((second == 3 || second == 4) && n % 25 == 0) f.overhead[43] = 8 << 4, f.overhead[40] |= 3 << 4; /* of path and TCM1 */
    if (second == 5 && n % FRAMES_A_SECOND < 20) f.overhead[9] = 4; /* section IAE */
    return f;
}

static const char *const head_in_words[10] = {"clear",          "line signal fail", "OTUk-AIS", "loss of frame",      "loss of multiframe",
                                              "section trace mismatch", "path AIS",  "path open", "path locked", "path trace mismatch"};

static void say(unsigned n, uint64_t report) {
    printf("frame %3u: %s;%s%s%s%s%s%s%s\n", n, head_in_words[otn_head(report)], OTN_IF(report) ? " in frame" : " out of frame",
           OTN_IM(report) ? ", in multiframe" : ", out of multiframe", OTN_CLOF(report) ? ", cause LOF" : "",
           OTN_CLOM(report) ? ", cause LOM" : "", OTN_PATH_CLCK(report) ? ", cause LCK" : "", OTN_PATH_ATSF(report) ? ", path failed" : "",
           OTN_SECTION_DIAE(report) ? ", alignment error" : "");
}

static void say_level(unsigned n, unsigned level, uint64_t report) {
    printf("frame %3u: TCM%u: %s%s%s%s\n", n, level, OTN_TCM_ATSF(report) ? "failed" : "clear", OTN_TCM_CSSF(report) ? ", cause SSF" : "",
           OTN_TCM_CLTC(report) ? ", cause LTC" : "", OTN_TCM_CDEG(report) ? ", cause DEG" : "");
}

/* The far end tells the violations of each of its errored blocks, 1 to 8; the record has their sum. */
static void say_blocks(uint32_t near, uint32_t far, uint32_t sum) {
    printf("%u near, %u far", (unsigned)near, (unsigned)far);
    if (far) printf(" (%u violations)", (unsigned)sum);
}

static void say_second(const uint8_t *record) {
    printf("second %u: %u frames", (unsigned)otn_figure(record, OTN_SECOND), (unsigned)otn_figure(record, OTN_FRAMES));
    for (unsigned head = 0; head < 10; head++) {
        unsigned under = (unsigned)otn_figure(record, OTN_UNDER + head);
        if (under) printf(", %u %s", under, head_in_words[head]);
    }
    printf("; errored blocks: section ");
    say_blocks(otn_figure(record, OTN_SECTION_NEAR), otn_figure(record, OTN_SECTION_FAR), otn_figure(record, OTN_SECTION_FAR_SUM));
    printf(", path ");
    say_blocks(otn_figure(record, OTN_PATH_NEAR), otn_figure(record, OTN_PATH_FAR), otn_figure(record, OTN_PATH_FAR_SUM));
    for (size_t i = 0; i < WATCHED; i++) {
        printf(", TCM%u ", levels[i]);
        say_blocks(otn_level_figure(record, levels[i], OTN_LEVEL_NEAR), otn_level_figure(record, levels[i], OTN_LEVEL_FAR),
                   otn_level_figure(record, levels[i], OTN_LEVEL_FAR_SUM));
    }
    printf("\n");
}

/* The open quarter-hour: a summary that each reported second is joined to. Zeros are the empty one. */
static uint8_t quarter[OTN_SUMMARY_BYTES];

static unsigned long long of_quarter(unsigned figure) { return otn_summary_figure(quarter, figure); }

static void end_quarter(void) {
    printf("quarter-hour %llu: %llu seconds, %llu frames, %llu clear; defect seconds: section %llu near, path %llu near; "
           "far end's violations: section %llu, path %llu\n",
           (unsigned long long)otn_quarter(of_quarter(OTN_SUMMARY_FIRST)), of_quarter(OTN_SUMMARY_LENGTH), of_quarter(OTN_SUMMARY_FRAMES),
           of_quarter(OTN_SUMMARY_UNDER + OTN_HEAD_CLEAR), of_quarter(OTN_SUMMARY_SECTION_NEAR_DS), of_quarter(OTN_SUMMARY_PATH_NEAR_DS),
           of_quarter(OTN_SUMMARY_SECTION_FAR_SUM), of_quarter(OTN_SUMMARY_PATH_FAR_SUM));
    memset(quarter, 0, sizeof quarter);
}

static void keep_second(const uint8_t *record) {
    uint8_t second[OTN_SUMMARY_BYTES], both[OTN_SUMMARY_BYTES];
    uint64_t answer = otn_summary(record, OTN_RECORD_BYTES, second, sizeof second);
    if (answer == OTN_ACCEPTED) answer = otn_join(quarter, sizeof quarter, second, sizeof second, both, sizeof both);
    if (answer != OTN_ACCEPTED) {
        printf("joining refused: %u\n", otn_refusal(answer));
        return;
    }
    memcpy(quarter, both, sizeof quarter);
    if (otn_figure(record, OTN_SECOND) % 900 == 0) end_quarter();
}

/* The clock's tick: the record is that of the second before the one that is closed. At the first tick there is none. */
static void close_second(uint8_t *sup) {
    uint8_t record[OTN_RECORD_BYTES];
    uint64_t answer = otn_mark(sup, OTN_SUPERVISOR_BYTES, record, sizeof record);
    if (otn_refusal(answer) != OTN_ACCEPTED) printf("mark refused: %u\n", otn_refusal(answer));
    if (otn_reported(answer)) {
        say_second(record);
        keep_second(record);
    }
}

/* Before the supervisor is given up: the last second that was closed is not reported yet, and the quarter-hour is not whole. */
static void shut_down(const uint8_t *sup) {
    uint8_t record[OTN_RECORD_BYTES];
    if (otn_reported(otn_pending(sup, OTN_SUPERVISOR_BYTES, record, sizeof record))) {
        say_second(record);
        keep_second(record);
    }
    if (of_quarter(OTN_SUMMARY_LENGTH) > 0) end_quarter();
}

int main(void) {
    static uint8_t sup[OTN_SUPERVISOR_BYTES];
    static const uint8_t names[OTN_NAMES_BYTES]; /* SAPI, then DAPI; not compared in mode 0 */
    uint64_t answer = otn_fresh(sup, sizeof sup, 1, 10, 3, 10, 3, OTN_MODE_OFF, OTN_MODE_OFF, OTN_TIM_ACTS, OTN_TIM_ACTS, names,
                                sizeof names, names, sizeof names);
    if (answer != OTN_ACCEPTED) {
        printf("provisioning refused: %u\n", otn_refusal(answer));
        return 1;
    }
    for (size_t i = 0; i < WATCHED; i++) {
        answer = otn_level(sup, sizeof sup, levels[i], 10, 3, OTN_MODE_OFF, OTN_TIM_ACTS, names, sizeof names);
        if (answer != OTN_ACCEPTED) {
            printf("provisioning of TCM%u refused: %u\n", levels[i], otn_refusal(answer));
            return 1;
        }
    }
    uint64_t before = 0, level_before[WATCHED];
    for (size_t i = 0; i < WATCHED; i++) level_before[i] = otn_level_report(sup, sizeof sup, levels[i]);
    for (unsigned n = 0; n < 6 * FRAMES_A_SECOND; n++) {
        struct frame f = next_frame(n);
        const uint8_t *t = f.tcm_violations;
        uint64_t report = otn_step_levels(sup, sizeof sup, f.overhead, sizeof f.overhead, f.flags, f.sm_violations, f.pm_violations,
                                          t[0], t[1], t[2], t[3], t[4], t[5]);
        if (otn_refusal(report) != OTN_ACCEPTED) {
            printf("frame %u refused: %u\n", n, otn_refusal(report));
            return 1;
        }
        report &= ~(15ull << 33 | 15ull << 40); /* what changes with each count is not news */
        if (report != before) say(n, report);
        before = report;
        for (size_t i = 0; i < WATCHED; i++) {
            uint64_t level_report = otn_level_report(sup, sizeof sup, levels[i]);
            if (level_report != level_before[i]) say_level(n, levels[i], level_report);
            level_before[i] = level_report;
        }
        if ((n + 1) % FRAMES_A_SECOND == 0) close_second(sup);
    }
    shut_down(sup);
    return 0;
}
