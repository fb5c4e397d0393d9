/* One frame of otn_step, so that its instructions can be counted: speed/flat does.
 *
 *     flat WHEN NAMES MODE LEVELS 0|1|2
 *
 * With 1 the frame is taken, with 0 all but it is done: what 1 executes more is the frame. With 2 its answer is looked at, and the status
 * is 1 where dTIM does not stand as it should.
 *
 * WHEN is one of whens below. NAMES says what is expected in section, path and each level: `equal` what is sent, `first` and `last` all of it
 * but the first byte of SAPI or the last of DAPI. MODE is the trace mode of all of them; LEVELS tandem levels are provisioned. */
#include "otn.h"
#include <stdlib.h>
#include <string.h>

/* Frames count from 0, and so does MFAS; IM is entered at the third, so that cycles begin at 64, 128 .. and a trace is accepted in frame 255.
 * The counted frame has number 10 in its cycle, but where it is the last of one. SSF stands by TSF-P in frames from `ssf`, before `clear`. */
static const struct when {
    const char *name;
    int frame, ssf, clear, mark, acts, accepted;
} whens[] = {
    {"accepted", 266, 0, 0, 0, 0, 1},      /* a trace is accepted */
    {"none", 74, 0, 0, 0, 0, 0},           /* none is accepted yet */
    {"forgotten", 330, 260, 263, 0, 0, 0}, /* it was forgotten in SSF, and another cycle is being gathered */
    {"cleared", 266, 265, 266, 0, 0, 0},   /* the first frame after SSF */
    {"ended", 319, 0, 0, 0, 0, 1},         /* the last of a cycle, like the two before it */
    {"opened", 266, 0, 0, 1, 0, 1},        /* the first of a second */
    {"acts", 266, 0, 0, 0, 1, 1},          /* TIMActDis is 0 in the section: its dTIM is SSF of path and levels */
};

static uint8_t sup[OTN_SUPERVISOR_BYTES], overhead[OTN_OVERHEAD_BYTES];

static uint64_t taken(uint8_t flags) { return otn_step(sup, sizeof sup, overhead, sizeof overhead, flags, 0, 0); }

/* good framing, STAT 001, and traces whose bytes are 1 to 64 */
static void send(int n)
{
    static const uint8_t fas[] = {0xf6, 0xf6, 0xf6, 0x28, 0x28, 0x28}, field[] = {7, 41, 38, 35, 32, 26, 23, 20};
    memcpy(overhead, fas, sizeof fas);
    overhead[6] = (uint8_t)n;
    for (unsigned i = 0; i < sizeof field; i++) {
        overhead[field[i]] = (uint8_t)(n % 64 + 1);
        overhead[field[i] + 2] = i > 0;
    }
}

int main(int argc, char **argv)
{
    const struct when *w = whens, *end = whens + sizeof whens / sizeof *whens;
    uint8_t names[OTN_NAMES_BYTES], record[OTN_RECORD_BYTES];
    if (argc != 6) return 2;
    while (w < end && strcmp(w->name, argv[1])) w++;
    if (w == end) return 2;
    for (int i = 0; i < OTN_NAMES_BYTES; i++) names[i] = (uint8_t)(i + 1);
    const int first = strcmp(argv[2], "first") == 0, last = strcmp(argv[2], "last") == 0;
    if (first) names[0] = 0;
    if (last) names[31] = 0;
    const uint8_t mode = (uint8_t)atoi(argv[3]), dis = w->acts ? OTN_TIM_ACTS : OTN_TIM_DISABLED;
    uint64_t refused = otn_fresh(sup, sizeof sup, 1, 1, 2, 1, 2, mode, mode, dis, 1, names, sizeof names, names, sizeof names);
    for (int n = 1; n <= atoi(argv[4]); n++) refused |= otn_level(sup, sizeof sup, (uint8_t)n, 1, 2, mode, 1, names, sizeof names);
    for (int n = 0; n < w->frame; n++) {
        send(n);
        refused |= taken(n >= w->ssf && n < w->clear) & 255;
    }
    if (w->mark) refused |= otn_refusal(otn_mark(sup, sizeof sup, record, sizeof record));
    if (refused) return 3;
    send(w->frame);
    if (*argv[5] == '0') return 0;
    const uint64_t report = taken(0);
    if (*argv[5] == '1') return 0;
    const unsigned tim = w->accepted && ((first && mode & 1) || (last && mode & 2)), above = w->acts && tim;
    unsigned good = otn_refusal(report) == 0 && OTN_SECTION_DTIM(report) == tim && OTN_PATH_DTIM(report) == (tim && !above);
    for (uint8_t n = 1; n <= atoi(argv[4]); n++) good &= OTN_TCM_DTIM(otn_level_report(sup, sizeof sup, n)) == (tim && !above);
    return !good;
}
