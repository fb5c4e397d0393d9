/* The C calls, tried from C: good and bad arguments, every refusal, every range, and the bytes in and around each call. The ranges are
   those of docs/SUPERVISOR.md, whose tables card.sh writes to supervisor_bytes.h. It prints one line for each failure, what each call
   takes of the stack and `card.c: N checks, M failed`; the exit status is 1 where one failed. */
#define _DEFAULT_SOURCE
#include "../include/otn.h"

#include <stdio.h>
#include <string.h>
#include <sys/mman.h>

#define GUARD 16
#define ALL OTN_SUPERVISOR_BYTES

/* offsets that are written or looked at here: of the line, of what is kept of all levels, of the pending second, and within a layer's or a
   level's record */
enum { CLOSED = 28, ALIGNMENT = 32, LOCAL = 36, SECOND = 64, RECORDS = 112, RECORD = 288, FLAGS = 688, GIVEN = 689, LEVELS = 720, HELD = 2448 };
enum { DDEG = 7, STATE = 32, GATHERING = 33, DS = 45, STOOD = 47, SPARE = 49, FAR_SUM = 52, NEAR = 56, FAR = 60, ACCEPTED = 64, GATHERED = 128, PREVIOUS = 192, NAMES = 256 };

/* otn_mark's and otn_pending's answer where a second is told; of its 52 words the first 12 are number, frames and heads, and HELD has all but the
   number; then come five for each record: blocks near and far, DS near and far, the sum of the far end's violations. A second has at most FULL frames,
   and so many blocks; a sum is at most MOST. A supervisor had OLD bytes before there were sums */
enum { TOLD = 256, COUNTS = 12, FIVE = 5, WORDS = COUNTS + FIVE * (2 + OTN_LEVELS), FULL = 400000, MOST = 8 * FULL, OLD = 2620 };

/* the records of section, path and levels 1 to 6, and where a frame has their three bytes: trace, BIP-8, status */
enum { WATCHED = 2 + OTN_LEVELS };
static const uint8_t field[WATCHED] = {7, 41, 38, 35, 32, 26, 23, 20};
static size_t record_at(int i) { return (size_t)(i < 2 ? RECORDS + RECORD * i : LEVELS + RECORD * (i - 2)); }
/* and its five of the pending second */
static size_t held_at(int i) { return (size_t)(HELD + 4 * (COUNTS - 1 + FIVE * i)); }

static int checks, failed;
static uint8_t room[GUARD + OTN_SUPERVISOR_BYTES + GUARD];
static uint8_t *const sup = room + GUARD;
static uint8_t names[OTN_NAMES_BYTES + 1], overhead[OTN_OVERHEAD_BYTES + 1];

static void check(int good, const char *what) {
    checks++;
    if (!good) {
        failed++;
        printf("FAILED: %s\n", what);
    }
}

static uint64_t fresh(size_t len, uint8_t k, uint32_t st, uint8_t sd, uint32_t pt, uint8_t pd, uint8_t sm, uint8_t pm, uint8_t sx,
                      uint8_t px, size_t sn, size_t pn) {
    return otn_fresh(sup, len, k, st, sd, pt, pd, sm, pm, sx, px, names, sn, names, pn);
}

static uint64_t plain(uint8_t k) { return fresh(ALL, k, 1, 2, 1, 2, 0, 0, 0, 0, 32, 32); }

static uint64_t level(uint8_t n, uint32_t thr, uint8_t degm, uint8_t mode, uint8_t dis, size_t len) {
    return otn_level(sup, ALL, n, thr, degm, mode, dis, names, len);
}

/* level n, watched as plain() watches the layers */
static uint64_t given(uint8_t n) { return level(n, 1, 2, 0, 0, 32); }

static uint64_t all_given(uint8_t k) {
    uint64_t refused = plain(k);
    for (uint8_t n = 1; n <= OTN_LEVELS; n++) refused |= given(n);
    return refused;
}

static uint64_t report(uint8_t n) { return otn_level_report(sup, ALL, n); }

/* In each second that a history leaves, of section, path and levels: far blocks <= their sum of violations <= 8 times them. Bytes that are put by
   hand, while `by_hand`, need not have it so. */
static int by_hand;
static int between(uint32_t far, uint32_t sum) { return far <= sum && sum <= 8 * far; }
static int bounded(const uint8_t *record) {
    int good = 1;
    for (unsigned i = COUNTS; i < WORDS; i += FIVE) good &= between(otn_figure(record, i + 1), otn_figure(record, i + 4));
    return good;
}

/* the pending second, in a whole record: 1 where there is one */
static int pending(uint8_t record[OTN_RECORD_BYTES]) {
    const int told = otn_pending(sup, ALL, record, OTN_RECORD_BYTES) == TOLD;
    check(!told || by_hand || bounded(record), "pending, far blocks and their sum");
    return told;
}

static uint32_t word_in(const uint8_t *bytes, size_t at) {
    return (uint32_t)bytes[at] | (uint32_t)bytes[at + 1] << 8 | (uint32_t)bytes[at + 2] << 16 | (uint32_t)bytes[at + 3] << 24;
}
static uint32_t word_at(size_t at) { return word_in(sup, at); }

static uint8_t before[ALL];
static int same(size_t from, size_t to) { return memcmp(before + from, sup + from, to - from) == 0; }

/* whether a record is stepped and marked: a layer's, and that of a level that is provisioned */
static int watched(int i) { return i < 2 || before[GIVEN + i - 2] == 1; }

/* An accepted step leaves provisioning, dDEG, seconds closed, names and the pending second, and all of a level that is not provisioned; the
   frame's flags are kept. Of a trace it writes one byte, the frame's; only where that is the last of a cycle, the last whole cycle and the accepted trace may
   change too, to the gathered one. */
static int step_leaves(uint8_t flags) {
    int good = same(0, ALIGNMENT) && sup[FLAGS] == flags && same(GIVEN, LEVELS) && same(HELD, ALL);
    for (int i = 0; i < WATCHED; i++) {
        const size_t at = record_at(i), byte = at + GATHERED + sup[LOCAL] % 64;
        const int last = sup[LOCAL] % 64 == 63 && before[at + GATHERING] == 1;
        good &= same(at, at + STATE) && same(at + NAMES, at + RECORD);
        good &= watched(i) || same(at, at + RECORD);
        good &= same(at + GATHERED, byte) && same(byte + 1, at + PREVIOUS);
        good &= sup[byte] == before[byte] || sup[byte] == overhead[field[i]];
        good &= same(at + PREVIOUS, at + NAMES) || (last && memcmp(sup + at + PREVIOUS, sup + at + GATHERED, 64) == 0);
        good &= same(at + ACCEPTED, at + GATHERED) || (last && memcmp(sup + at + ACCEPTED, sup + at + GATHERED, 64) == 0);
    }
    return good;
}

/* An accepted mark leaves all but seconds closed, the open second, dDEG and the pending second, and all of a level that is not provisioned. */
static int mark_leaves(void) {
    int good = same(0, CLOSED) && same(ALIGNMENT, SECOND) && same(FLAGS, LEVELS);
    for (int i = 0; i < WATCHED; i++) {
        const size_t at = record_at(i);
        good &= same(at, at + DDEG) && same(at + DDEG + 2, at + DS) && same(at + ACCEPTED, at + RECORD);
        good &= watched(i) || same(at, at + RECORD);
    }
    return good;
}

/* the violations that a BEI tells, 0 where it tells none; and a count or sum that goes no further than its greatest */
static uint32_t number_of(uint8_t bei) { return bei >= 1 && bei <= 8 ? bei : 0; }
static uint32_t up_to(uint32_t n, uint32_t most) { return n < most ? n : most; }

/* whether blocks of a record are not counted, as the reports after the frame have it */
static int stopped(int i, uint64_t r) {
    if (i == 0) return OTN_SECTION_SSF(r);
    if (i == 1) return OTN_PATH_SSF(r) || OTN_PATH_DAIS(r) || OTN_PATH_DOCI(r) || OTN_PATH_DLCK(r);
    r = report((uint8_t)(i - 1));
    return OTN_TCM_SSF(r) || OTN_TCM_DLTC(r) || OTN_TCM_DAIS(r) || OTN_TCM_DOCI(r) || OTN_TCM_DLCK(r);
}

/* An accepted step counts the frame's far block and adds its number, in each record that is watched and not stopped, and does neither in another. */
static int step_adds(uint64_t r) {
    int good = 1;
    for (int i = 0; i < WATCHED; i++) {
        const size_t at = record_at(i);
        const uint32_t more = watched(i) && !stopped(i, r) ? number_of(overhead[field[i] + 2] >> 4) : 0;
        good &= word_at(at + FAR) == up_to(word_in(before, at + FAR) + (more > 0), FULL) && word_at(at + FAR_SUM) == up_to(word_in(before, at + FAR_SUM) + more, MOST);
        good &= by_hand || between(word_at(at + FAR), word_at(at + FAR_SUM));
    }
    return good;
}

/* a figure, one of five, unless it is voided: by dIAE at both ends, by dBIAE at the far end, as they stood in the second that the mark closes */
static int of_far(int j) { return j == OTN_LEVEL_FAR || j == OTN_LEVEL_FAR_DS || j == OTN_LEVEL_FAR_SUM; }
static uint32_t unless(int i, int j, uint32_t figure) {
    const uint8_t *stood = before + record_at(i) + STOOD;
    return stood[0] || (of_far(j) && stood[1]) ? 0 : figure;
}

/* The second that is closed is pending, voided by itself; the one that was is reported, voided by it too. */
static int mark_tells(uint64_t answer, const uint8_t *record, size_t len) {
    const uint32_t closed = word_in(before, CLOSED);
    const int whole = closed > 0 && len == OTN_RECORD_BYTES;
    int good = answer == (closed > 0 ? TOLD : 0) && word_at(CLOSED) == closed + 1 && memcmp(sup + HELD, before + SECOND, 4 * (COUNTS - 1)) == 0;
    if (whole) good &= otn_figure(record, OTN_SECOND) == closed && memcmp(record + 4, before + HELD, 4 * (COUNTS - 1)) == 0;
    for (int i = 0; i < WATCHED; i++) {
        const size_t at = record_at(i), held = held_at(i);
        const uint32_t open[FIVE] = {word_in(before, at + NEAR), word_in(before, at + FAR), before[at + DS], before[at + DS + 1], word_in(before, at + FAR_SUM)};
        for (int j = 0; j < FIVE && watched(i); j++) {
            good &= word_at(held + 4 * (size_t)j) == unless(i, j, open[j]);
            if (whole) good &= otn_figure(record, (unsigned)(COUNTS + FIVE * i + j)) == unless(i, j, word_in(before, held + 4 * (size_t)j));
        }
    }
    return good && (!whole || by_hand || bounded(record));
}

/* The path's causes, which are looked up, by their equations from what the report says of the path: with none of the four, aTSF is a dTIM
   that acts. */
static int path_causes(uint64_t r) {
    const unsigned ssf = OTN_PATH_SSF(r), ais = OTN_PATH_DAIS(r), oci = OTN_PATH_DOCI(r), lck = OTN_PATH_DLCK(r);
    const unsigned up = !(ssf | ais | oci | lck), acts = up & OTN_PATH_ATSF(r);
    int good = OTN_PATH_COCI(r) == (oci & !ssf) && OTN_PATH_CLCK(r) == (lck & !ssf) && OTN_PATH_CSSF(r) == (ssf | ais);
    good &= OTN_PATH_CTIM(r) == (OTN_PATH_DTIM(r) & up);
    return good & (OTN_PATH_CDEG(r) == (OTN_PATH_DDEG(r) & up & !acts)) & (OTN_PATH_CBDI(r) == (OTN_PATH_DBDI(r) & up & !acts));
}

static uint64_t step(uint8_t flags, uint8_t sm, uint8_t pm) {
    memcpy(before, sup, ALL);
    uint64_t answer = otn_step(sup, ALL, overhead, OTN_OVERHEAD_BYTES, flags, sm, pm);
    check(otn_refusal(answer) ? same(0, ALL) : step_leaves(flags), "step, the bytes that it leaves");
    check(otn_refusal(answer) || path_causes(answer), "step, the path's causes");
    check(otn_refusal(answer) || step_adds(answer), "step, the far blocks and their sums");
    return answer;
}

static uint64_t step_levels(uint8_t flags, uint8_t sm, uint8_t pm, const uint8_t t[OTN_LEVELS]) {
    memcpy(before, sup, ALL);
    uint64_t answer = otn_step_levels(sup, ALL, overhead, OTN_OVERHEAD_BYTES, flags, sm, pm, t[0], t[1], t[2], t[3], t[4], t[5]);
    check(otn_refusal(answer) ? same(0, ALL) : step_leaves(flags), "step_levels, the bytes that it leaves");
    check(otn_refusal(answer) || path_causes(answer), "step_levels, the path's causes");
    check(otn_refusal(answer) || step_adds(answer), "step_levels, the far blocks and their sums");
    return answer;
}

static uint64_t mark(uint8_t *record, size_t len) {
    memcpy(before, sup, ALL);
    uint64_t answer = otn_mark(sup, ALL, record, len);
    check(otn_refusal(answer) ? same(0, ALL) : mark_leaves(), "mark, the bytes that it leaves");
    check(otn_refusal(answer) || mark_tells(answer, record, len), "mark, what it reports and holds");
    return answer;
}

/* a mark, and the record of the second that it closes: it is pending then */
static int closed(uint8_t record[OTN_RECORD_BYTES]) { return otn_refusal(mark(NULL, 0)) == 0 && pending(record); }

static void put(size_t at, unsigned bytes, uint32_t x) {
    for (unsigned i = 0; i < bytes; i++) sup[at + i] = (uint8_t)(x >> 8 * i);
}

/* a refusal: its number and nothing else, and no byte changed */
#define REFUSES(call, number, what)                                                                                                  \
    do {                                                                                                                             \
        uint8_t was[sizeof room];                                                                                                    \
        memcpy(was, room, sizeof room);                                                                                              \
        uint64_t answer = (call);                                                                                                    \
        check(answer == (number), what ": number");                                                                                  \
        check(memcmp(was, room, sizeof room) == 0, what ": bytes unchanged");                                                        \
    } while (0)

static void refusals_of_fresh(void) {
    REFUSES(fresh(0, 9, 0, 0, 0, 0, 9, 9, 9, 9, 0, 0), 17, "fresh, no bytes");
    REFUSES(fresh(ALL - 1, 1, 1, 2, 1, 2, 0, 0, 0, 0, 32, 32), 17, "fresh, a byte less");
    REFUSES(fresh(ALL + 1, 1, 1, 2, 1, 2, 0, 0, 0, 0, 32, 32), 17, "fresh, a byte more");
    REFUSES(otn_fresh(NULL, 0, 1, 1, 2, 1, 2, 0, 0, 0, 0, names, 32, names, 32), 17, "fresh, NULL");
    REFUSES(fresh(ALL, 0, 0, 0, 0, 0, 9, 9, 9, 9, 0, 0), 5, "fresh, k 0 and all else");
    REFUSES(fresh(ALL, 4, 1, 2, 1, 2, 0, 0, 0, 0, 32, 32), 5, "fresh, k 4");
    static const uint32_t most[4] = {0, 20420, 82025, 329492};
    for (uint8_t k = 1; k <= 3; k++) {
        check(fresh(ALL, k, most[k], 10, most[k], 10, 3, 3, 2, 2, 32, 32) == 0, "fresh, the greatest of each");
        REFUSES(fresh(ALL, k, most[k] + 1, 2, 1, 2, 0, 0, 0, 0, 32, 32), 6, "fresh, section DEGThr");
        REFUSES(fresh(ALL, k, 1, 2, most[k] + 1, 2, 0, 0, 0, 0, 32, 32), 6, "fresh, path DEGThr");
    }
    REFUSES(fresh(ALL, 1, 0, 0, 1, 2, 9, 9, 9, 9, 0, 0), 6, "fresh, DEGThr 0 and all after");
    REFUSES(fresh(ALL, 1, 1, 2, 0, 2, 0, 0, 0, 0, 32, 32), 6, "fresh, path DEGThr 0");
    REFUSES(fresh(ALL, 1, 1, 1, 1, 2, 9, 9, 9, 9, 0, 0), 7, "fresh, DEGM 1 and all after");
    REFUSES(fresh(ALL, 1, 1, 2, 1, 11, 0, 0, 0, 0, 32, 32), 7, "fresh, path DEGM 11");
    REFUSES(fresh(ALL, 1, 1, 2, 1, 2, 4, 0, 9, 9, 0, 0), 8, "fresh, mode 4 and all after");
    REFUSES(fresh(ALL, 1, 1, 2, 1, 2, 0, 4, 0, 0, 32, 32), 8, "fresh, path mode 4");
    REFUSES(fresh(ALL, 1, 1, 2, 1, 2, 0, 0, 3, 0, 0, 0), 9, "fresh, TIMActDis 3 and names");
    REFUSES(fresh(ALL, 1, 1, 2, 1, 2, 0, 0, 0, 3, 32, 32), 9, "fresh, path TIMActDis 3");
    REFUSES(fresh(ALL, 1, 1, 2, 1, 2, 0, 0, 0, 0, 31, 32), 10, "fresh, 31 names");
    REFUSES(fresh(ALL, 1, 1, 2, 1, 2, 0, 0, 0, 0, 32, 33), 10, "fresh, 33 path names");
    REFUSES(otn_fresh(sup, ALL, 1, 1, 2, 1, 2, 0, 0, 0, 0, NULL, 0, NULL, 0), 10, "fresh, NULL names");
}

static void refusals_of_level(void) {
    static const uint32_t most[4] = {0, 20420, 82025, 329492};
    static const uint8_t none[OTN_LEVELS];
    uint8_t record[OTN_RECORD_BYTES];
    check(plain(1) == 0, "fresh");
    REFUSES(otn_level(sup, ALL - 1, 9, 0, 0, 9, 9, names, 0), 17, "level, a byte less");
    REFUSES(otn_level(sup, ALL + 1, 1, 1, 2, 0, 0, names, 32), 17, "level, a byte more");
    REFUSES(otn_level(NULL, 0, 1, 1, 2, 0, 0, names, 32), 17, "level, NULL");
    put(GIVEN + 5, 1, 2);
    REFUSES(level(1, 0, 0, 9, 9, 0), 17, "level, bytes that are no supervisor");
    for (uint8_t k = 1; k <= 3; k++) {
        check(plain(k) == 0 && level(6, most[k], 10, 3, 2, 32) == 0, "level, the greatest of each");
        REFUSES(level(5, most[k] + 1, 2, 0, 0, 32), 6, "level, DEGThr");
    }
    check(plain(1) == 0, "fresh");
    REFUSES(level(9, 0, 0, 9, 9, 0), 6, "level, DEGThr 0 and all after");
    REFUSES(level(7, 1, 0, 0, 0, 32), 7, "level 7 with DEGM 0");
    REFUSES(level(9, 1, 1, 9, 9, 0), 7, "level, DEGM 1 and all after");
    REFUSES(level(1, 1, 11, 0, 0, 32), 7, "level, DEGM 11");
    REFUSES(level(9, 1, 2, 4, 9, 0), 8, "level, mode 4 and all after");
    REFUSES(level(9, 1, 2, 0, 3, 0), 9, "level, TIMActDis 3 and all after");
    REFUSES(level(9, 1, 2, 0, 0, 31), 10, "level, 31 names and no level");
    REFUSES(level(1, 1, 2, 0, 0, 33), 10, "level, 33 names");
    REFUSES(otn_level(sup, ALL, 1, 1, 2, 0, 0, NULL, 0), 10, "level, NULL names");
    for (unsigned n = 0; n < 256; n++)
        if (n < 1 || n > OTN_LEVELS) REFUSES(given((uint8_t)n), 18, "level, not 1 to 6");
    /* each once, in any order, and in the bytes of its own record alone */
    static const uint8_t order[OTN_LEVELS] = {4, 1, 6, 2, 5, 3};
    uint8_t fresh_bytes[ALL];
    memcpy(fresh_bytes, sup, ALL);
    for (int i = 0; i < OTN_LEVELS; i++) {
        const size_t at = record_at(1 + order[i]);
        memcpy(before, sup, ALL);
        memset(names, order[i], 32);
        check(level(order[i], 100u + order[i], 3, 2, 1, 32) == 0, "level");
        check(same(0, GIVEN + order[i] - 1) && same(GIVEN + order[i], at) && same(at + RECORD, ALL), "level, the bytes that it leaves");
        check(sup[GIVEN + order[i] - 1] == 1 && word_at(at) == 100u + order[i] && sup[at + 4] == 3 && sup[at + 5] == 2 && sup[at + 6] == 1, "level, its bytes");
        check(same(at + 7, at + NAMES) && memcmp(sup + at + NAMES, names, 32) == 0, "level, its names");
        REFUSES(level(order[i], 100u + order[i], 3, 2, 1, 32), 18, "level, the same again");
    }
    memset(names, 0, sizeof names);
    for (uint8_t n = 1; n <= OTN_LEVELS; n++) {
        REFUSES(given(n), 18, "level, given twice");
        REFUSES(level(n, 0, 2, 0, 0, 32), 6, "level, given twice with DEGThr 0");
    }
    /* 16 after a frame and after a mark, whichever it was, and before 18 */
    for (int kind = 0; kind < 3; kind++) {
        check(plain(1) == 0 && given(1) == 0, "fresh, level");
        check(otn_refusal(kind == 0 ? step(0, 0, 0) : kind == 1 ? step_levels(0, 0, 0, none) : mark(record, sizeof record)) == 0, "a frame or a mark");
        REFUSES(given(2), 16, "level, late");
        REFUSES(given(1), 16, "level, late and given twice");
        REFUSES(given(7), 16, "level, late and no level");
        REFUSES(level(2, 1, 2, 0, 0, 31), 10, "level, late with 31 names");
    }
    check(step_levels(4, 0, 0, none) == 2 && plain(1) == 0 && step(4, 0, 0) == 2 && step(0, 9, 0) == 3 && given(1) == 0, "level, after a frame that is refused");
    check(plain(1) == 0 && memcmp(sup, fresh_bytes, ALL) == 0, "fresh, the same bytes each time");
    /* a fresh level: DEGThr 1, DEGM 2, and zeros */
    int blank = 1;
    for (size_t at = FLAGS; at < HELD; at++) blank &= sup[at] == (at < LEVELS ? 0 : (at - LEVELS) % RECORD == 0 ? 1 : (at - LEVELS) % RECORD == 4 ? 2 : 0);
    for (size_t at = HELD; at < ALL; at++) blank &= sup[at] == 0;
    check(blank, "fresh, the bytes of levels and of the pending second");
}

static void refusals_of_step_levels(void) {
    uint8_t t[OTN_LEVELS] = {9, 9, 9, 9, 9, 9}, none[OTN_LEVELS] = {0};
    check(plain(1) == 0, "fresh");
    REFUSES(otn_step_levels(sup, 0, overhead, 0, 9, 9, 9, 9, 9, 9, 9, 9, 9), 17, "step_levels, no bytes");
    REFUSES(otn_step_levels(NULL, 0, NULL, 0, 9, 9, 9, 9, 9, 9, 9, 9, 9), 17, "step_levels, NULL");
    REFUSES(otn_step_levels(sup, ALL - 1, overhead, 64, 0, 0, 0, 0, 0, 0, 0, 0, 0), 17, "step_levels, a byte less");
    REFUSES(otn_step_levels(sup, ALL + 1, overhead, 64, 0, 0, 0, 0, 0, 0, 0, 0, 0), 17, "step_levels, a byte more");
    REFUSES(otn_step_levels(sup, ALL, overhead, 63, 9, 9, 9, 9, 9, 9, 9, 9, 9), 1, "step_levels, 63 bytes of overhead and all after");
    REFUSES(otn_step_levels(sup, ALL, overhead, 65, 0, 0, 0, 0, 0, 0, 0, 0, 0), 1, "step_levels, 65 bytes of overhead");
    REFUSES(otn_step_levels(sup, ALL, NULL, 0, 0, 0, 0, 0, 0, 0, 0, 0, 0), 1, "step_levels, NULL overhead");
    REFUSES(step_levels(4, 9, 9, t), 2, "step_levels, flags 4 and counts");
    REFUSES(step_levels(0, 9, 0, none), 3, "step_levels, SM count 9");
    REFUSES(step_levels(0, 0, 9, none), 3, "step_levels, PM count 9");
    /* each level's count, provisioned or not */
    for (int provisioned = 0; provisioned < 2; provisioned++)
        for (int n = 0; n < OTN_LEVELS; n++) {
            check((provisioned ? all_given(1) : plain(1)) == 0, "fresh");
            memset(t, 0, sizeof t);
            t[n] = 9;
            REFUSES(step_levels(0, 8, 8, t), 3, "step_levels, a level's count 9");
            t[n] = 255;
            REFUSES(step_levels(3, 0, 0, t), 3, "step_levels, a level's count 255");
            t[n] = 8;
            check(otn_refusal(step_levels(0, 0, 0, t)) == 0, "step_levels, a level's count 8");
            put(SECOND, 4, 400000);
            t[n] = 9;
            REFUSES(step_levels(0, 0, 0, t), 3, "step_levels, full with a level's count 9");
            REFUSES(step_levels(3, 8, 8, none), 4, "step_levels, full");
            put(SECOND, 4, 399999);
            check(otn_refusal(step_levels(3, 8, 8, none)) == 0, "step_levels, the last frame of a second");
            REFUSES(step_levels(3, 8, 8, none), 4, "step_levels, the one after it");
        }
}

static void refusals_of_step(void) {
    check(plain(1) == 0, "fresh");
    REFUSES(otn_step(sup, 0, overhead, 0, 9, 9, 9), 17, "step, no bytes");
    REFUSES(otn_step(NULL, 0, NULL, 0, 9, 9, 9), 17, "step, NULL");
    REFUSES(otn_step(sup, ALL - 1, overhead, 64, 0, 0, 0), 17, "step, a byte less");
    REFUSES(otn_step(sup, ALL + 1, overhead, 64, 0, 0, 0), 17, "step, a byte more");
    REFUSES(otn_step(sup, ALL, overhead, 0, 9, 9, 9), 1, "step, no overhead");
    REFUSES(otn_step(sup, ALL, NULL, 0, 0, 0, 0), 1, "step, NULL overhead");
    REFUSES(otn_step(sup, ALL, overhead, 63, 0, 0, 0), 1, "step, 63 bytes of overhead");
    REFUSES(otn_step(sup, ALL, overhead, 65, 0, 0, 0), 1, "step, 65 bytes of overhead");
    REFUSES(step(4, 9, 9), 2, "step, flags 4 and counts");
    REFUSES(step(255, 0, 0), 2, "step, flags 255");
    REFUSES(step(0, 9, 0), 3, "step, SM count 9");
    REFUSES(step(3, 8, 9), 3, "step, PM count 9");
    put(SECOND, 4, 400000);
    REFUSES(step(4, 0, 0), 2, "step, full with bad flags");
    REFUSES(step(3, 8, 8), 4, "step, full");
    put(SECOND, 4, 399999);
    check(otn_refusal(step(3, 8, 8)) == 0, "step, the last frame of a second");
    REFUSES(step(3, 8, 8), 4, "step, the one after it");
}

/* a frame under TSF-P that no level but the second and the sixth is there to see, and what its second shows */
static uint64_t one_failed_frame(void) { return plain(1) | given(2) | given(6) | otn_refusal(step(1, 3, 0)); }
static int shows_it(const uint8_t *record) {
    int good = otn_figure(record, OTN_FRAMES) == 1 && otn_figure(record, OTN_UNDER + OTN_HEAD_TSF_P) == 1;
    good &= otn_figure(record, OTN_SECTION_NEAR_DS) == 1 && otn_figure(record, OTN_PATH_NEAR_DS) == 1;
    for (unsigned n = 1; n <= OTN_LEVELS; n++)
        for (unsigned i = 0; i < FIVE; i++) good &= otn_level_figure(record, n, i) == ((n == 2 || n == 6) && i == OTN_LEVEL_NEAR_DS);
    return good;
}

static void refusals_of_mark(void) {
    enum { WHOLE = OTN_RECORD_BYTES, ROOM = WHOLE + 20 };
    uint8_t record[ROOM], kept[ROOM], whole[WHOLE];
    memset(record, 0x5a, sizeof record);
    memcpy(kept, record, sizeof record);
    check(plain(2) == 0, "fresh");
    REFUSES(otn_mark(sup, ALL - 1, record, WHOLE), 17, "mark, a byte less");
    REFUSES(otn_mark(sup, ALL + 1, record, WHOLE), 17, "mark, a byte more");
    REFUSES(otn_mark(sup, HELD, record, WHOLE), 17, "mark, no room for the pending second");
    REFUSES(otn_mark(sup, OLD, record, WHOLE), 17, "mark, no room for sums");
    REFUSES(otn_mark(sup, 0, record, WHOLE), 17, "mark, no bytes");
    REFUSES(otn_mark(NULL, 0, NULL, 0), 17, "mark, NULL");
    put(CLOSED, 4, 0xffffffff);
    REFUSES(mark(record, WHOLE), 4, "mark, all seconds closed");
    REFUSES(mark(NULL, 0), 4, "mark, all seconds closed and no record");
    check(memcmp(record, kept, sizeof record) == 0, "mark, refused: the record as it was");
    /* the first mark has nothing to report; the second reports the frame's second, in a record of any length */
    for (int turn = -1; turn <= ROOM; turn++) {
        const size_t n = turn < 0 ? WHOLE : (size_t)turn, m = n < WHOLE ? n : WHOLE;
        memcpy(record, kept, sizeof record);
        check(one_failed_frame() == 0 && mark(n ? record : NULL, n) == 0, "mark, the first one");
        check(memcmp(record, kept, sizeof record) == 0, "mark, the first one: the record as it was");
        const uint64_t answer = mark(n ? record : NULL, n);
        check(answer == TOLD && otn_reported(answer) && !otn_refusal(answer), "mark, a record of any length");
        if (turn < 0) memcpy(whole, record, sizeof whole);
        check(memcmp(record, whole, m) == 0 && memcmp(record + m, kept + m, ROOM - m) == 0, "mark, what there is room for");
    }
    check(otn_figure(whole, OTN_SECOND) == 1 && shows_it(whole), "mark, the figures");
    /* the last marks: each reports the one before, and the one that is refused leaves the last second pending */
    check(one_failed_frame() == 0 && mark(record, WHOLE) == 0, "mark, a second of one frame");
    put(CLOSED, 4, 0xfffffffd);
    check(otn_refusal(step(1, 3, 0)) == 0 && mark(record, WHOLE) == TOLD && otn_figure(record, OTN_SECOND) == 0xfffffffd && shows_it(record), "mark, the last but two");
    check(otn_refusal(step(1, 3, 0)) == 0 && mark(record, WHOLE) == TOLD && otn_figure(record, OTN_SECOND) == 0xfffffffe && shows_it(record), "mark, the last but one");
    memcpy(record, kept, sizeof record);
    for (int i = 0; i < 3; i++) {
        REFUSES(mark(record, WHOLE), 4, "mark, all seconds closed and one pending");
        check(memcmp(record, kept, sizeof record) == 0, "mark, refused with one pending: the record as it was");
        REFUSES(otn_pending(sup, ALL, whole, WHOLE), TOLD, "mark, refused: the last second stays");
        check(otn_figure(whole, OTN_SECOND) == 0xffffffff && shows_it(whole), "mark, refused: its figures");
        check(otn_refusal(step(1, 3, 0)) == 0, "a frame after the last mark");
    }
}

/* the pending second, read: refusals, none and one, and that nothing changes */
static void refusals_of_pending(void) {
    enum { WHOLE = OTN_RECORD_BYTES, ROOM = WHOLE + 20 };
    uint8_t record[ROOM], kept[ROOM], whole[WHOLE];
    memset(record, 0x5a, sizeof record);
    memcpy(kept, record, sizeof record);
    check(one_failed_frame() == 0, "a frame");
    for (int marked = 0; marked < 2; marked++) {
        REFUSES(otn_pending(sup, ALL - 1, record, WHOLE), 17, "pending, a byte less");
        REFUSES(otn_pending(sup, ALL + 1, record, WHOLE), 17, "pending, a byte more");
        REFUSES(otn_pending(sup, HELD, record, WHOLE), 17, "pending, no room for it");
        REFUSES(otn_pending(sup, OLD, record, WHOLE), 17, "pending, no room for sums");
        REFUSES(otn_pending(sup, 0, record, WHOLE), 17, "pending, no bytes");
        REFUSES(otn_pending(NULL, 0, NULL, 0), 17, "pending, NULL");
        if (!marked) {
            for (size_t n = 0; n <= ROOM; n++) REFUSES(otn_pending(sup, ALL, n ? record : NULL, n), 0, "pending, none");
            check(mark(record, sizeof record) == 0, "the first mark");
        }
        check(memcmp(record, kept, sizeof record) == 0, "pending, refused or none: the record as it was");
    }
    REFUSES(otn_pending(sup, ALL, whole, WHOLE), TOLD, "pending, one");
    check(otn_figure(whole, OTN_SECOND) == 1 && shows_it(whole), "pending, its figures");
    for (size_t n = 0; n <= ROOM; n++) {
        const size_t m = n < WHOLE ? n : WHOLE;
        memcpy(record, kept, sizeof record);
        REFUSES(otn_pending(sup, ALL, n ? record : NULL, n), TOLD, "pending, a record of any length");
        check(memcmp(record, whole, m) == 0 && memcmp(record + m, kept + m, ROOM - m) == 0, "pending, what there is room for");
    }
    /* no frame changes it; a mark reports it as it was read, and has the next one pending */
    for (int i = 0; i < 5; i++) check(otn_refusal(step(2, 0, 0)) == 0 && pending(record) && memcmp(record, whole, WHOLE) == 0, "pending, over frames");
    check(mark(record, WHOLE) == TOLD && memcmp(record, whole, WHOLE) == 0, "pending, then reported");
    check(pending(record) && otn_figure(record, OTN_SECOND) == 2 && otn_figure(record, OTN_FRAMES) == 5, "pending, the next one");
    /* it is there where a second is closed, whatever else the bytes hold */
    put(CLOSED, 4, 0);
    memcpy(record, kept, sizeof record);
    REFUSES(otn_pending(sup, ALL, record, WHOLE), 0, "pending, no second closed");
    check(memcmp(record, kept, sizeof record) == 0, "pending, no second closed: the record as it was");
    put(CLOSED, 4, 0xffffffff);
    REFUSES(otn_pending(sup, ALL, record, WHOLE), TOLD, "pending, all seconds closed");
    check(otn_figure(record, OTN_SECOND) == 0xffffffff && otn_figure(record, OTN_FRAMES) == 5, "pending, all seconds closed: its figures");
}

/* frames in alignment whose section and path send a trace and a status byte each */
static uint8_t mfas;
static void send(uint8_t tti, uint8_t sm, uint8_t pm) {
    static const uint8_t fas[6] = {0xf6, 0xf6, 0xf6, 0x28, 0x28, 0x28};
    memcpy(overhead, fas, 6);
    overhead[6] = mfas++;
    overhead[7] = overhead[41] = tti;
    overhead[9] = sm;
    overhead[43] = pm;
}

static uint64_t aligned(uint8_t tti, uint8_t sm, uint8_t pm) {
    send(tti, sm, pm);
    return step(0, 0, 0);
}

/* what a level sends: its trace byte and status; level 0 is all six */
static void tandem(unsigned n, uint8_t tti, uint8_t status) {
    for (unsigned i = 1; i <= OTN_LEVELS; i++)
        if (n == 0 || n == i) overhead[field[1 + i]] = tti, overhead[field[1 + i] + 2] = status;
}

static void refusals_of_trace(void) {
    uint8_t out[65], kept[65];
    memset(out, 0x5a, sizeof out);
    memcpy(kept, out, sizeof out);
    check(plain(3) == 0, "fresh");
    REFUSES(otn_trace(sup, ALL - 1, 2, out, 63), 17, "trace, a byte less");
    REFUSES(otn_trace(NULL, 0, 2, out, 63), 17, "trace, NULL");
    REFUSES(otn_trace(sup, ALL, 2, out, 63), 11, "trace, layer 2 and the buffer");
    REFUSES(otn_trace(sup, ALL, 1, out, 63), 12, "trace, a buffer of 63");
    REFUSES(otn_trace(sup, ALL, 0, out, 65), 12, "trace, a buffer of 65");
    REFUSES(otn_trace(sup, ALL, 0, NULL, 0), 12, "trace, no buffer");
    REFUSES(otn_trace(sup, ALL, 0, out, 64), 13, "trace, none in the section");
    REFUSES(otn_trace(sup, ALL, 1, out, 64), 13, "trace, none in the path");
    check(memcmp(out, kept, sizeof out) == 0, "trace, refused: the buffer as it was");
    mfas = 254;
    for (int i = 0; i < 2 + 3 * 64 - 1; i++) aligned((uint8_t)(100 + (mfas & 63)), 0, 0);
    REFUSES(otn_trace(sup, ALL, 0, out, 64), 13, "trace, the third cycle not yet whole");
    aligned(163, 0, 0);
    for (uint8_t layer = 0; layer < 2; layer++) {
        memcpy(out, kept, sizeof out);
        REFUSES(otn_trace(sup, ALL, layer, out, 64), 0, "trace, accepted: the supervisor as it was");
        int same = out[64] == 0x5a;
        for (int i = 0; i < 64; i++) same &= out[i] == 100 + i;
        check(same, "trace, its 64 bytes");
    }
}

/* the two readings of a level: refusals, and that they change nothing */
static void refusals_of_readings(void) {
    uint8_t out[65], kept[65];
    memset(out, 0x5a, sizeof out);
    memcpy(kept, out, sizeof out);
    check(plain(3) == 0, "fresh");
    REFUSES(otn_level_report(sup, ALL - 1, 9), 17, "level_report, a byte less");
    REFUSES(otn_level_report(sup, ALL + 1, 1), 17, "level_report, a byte more");
    REFUSES(otn_level_report(NULL, 0, 1), 17, "level_report, NULL");
    REFUSES(otn_level_trace(sup, ALL - 1, 9, out, 63), 17, "level_trace, a byte less");
    REFUSES(otn_level_trace(sup, ALL + 1, 1, out, 64), 17, "level_trace, a byte more");
    REFUSES(otn_level_trace(NULL, 0, 1, NULL, 0), 17, "level_trace, NULL");
    for (unsigned n = 0; n < 256; n++) {
        const int is_level = n >= 1 && n <= OTN_LEVELS;
        REFUSES(report((uint8_t)n), is_level ? 0 : 18, "level_report, of a level that is not provisioned");
        REFUSES(otn_level_trace(sup, ALL, (uint8_t)n, out, 63), 12, "level_trace, a buffer of 63");
        REFUSES(otn_level_trace(sup, ALL, (uint8_t)n, out, 64), 13, "level_trace, none, or no level");
    }
    REFUSES(otn_level_trace(sup, ALL, 1, out, 65), 12, "level_trace, a buffer of 65");
    REFUSES(otn_level_trace(sup, ALL, 1, NULL, 0), 12, "level_trace, no buffer");
    /* bytes that no history leaves: a level that is not provisioned, with a trace that is accepted and dDEG */
    put(record_at(2) + STATE, 1, 1);
    put(record_at(2) + DDEG, 1, 1);
    REFUSES(otn_level_trace(sup, ALL, 1, out, 64), 13, "level_trace, of a level that is not provisioned");
    REFUSES(report(1), 0, "level_report, of a level that is not provisioned");
    /* and a STAT that stays accepted under SSF: SSF is the cause that is told */
    check(plain(3) == 0 && given(1) == 0, "fresh, level 1");
    put(FLAGS, 1, OTN_FLAG_OTUK_AIS);
    for (unsigned stat = 0; stat < 8; stat++) {
        put(record_at(2) + 43, 1, 1);
        put(record_at(2) + 44, 1, stat);
        const uint64_t bits = report(1);
        check(OTN_TCM_SSF(bits) && OTN_TCM_CSSF(bits) && OTN_TCM_ATSF(bits) && OTN_TCM_DLTC(bits) == (stat == 0) && OTN_TCM_DLCK(bits) == (stat == 5), "SSF and a STAT");
        check(!OTN_TCM_CLTC(bits) && !OTN_TCM_COCI(bits) && !OTN_TCM_CLCK(bits), "SSF and a STAT, its causes");
    }
    /* levels 2 and 5 alone send and are watched; before a frame a level's report has one bit */
    check(plain(3) == 0, "fresh");
    check(given(2) == 0 && given(5) == 0, "levels");
    for (uint8_t n = 1; n <= OTN_LEVELS; n++) REFUSES(report(n), n == 2 || n == 5 ? 1 << 8 : 0, "level_report, before a frame");
    mfas = 254;
    for (int i = 0; i < 2 + 3 * 64; i++) {
        if (i == 2 + 3 * 64 - 1) REFUSES(otn_level_trace(sup, ALL, 5, out, 64), 13, "level_trace, the third cycle not yet whole");
        tandem(0, (uint8_t)(50 + (mfas & 63)), 1);
        tandem(5, (uint8_t)(150 + (mfas & 63)), 1);
        aligned(0, 0, 1);
    }
    check(memcmp(out, kept, sizeof out) == 0, "level_trace, refused: the buffer as it was");
    for (uint8_t n = 1; n <= OTN_LEVELS; n++) {
        memcpy(out, kept, sizeof out);
        REFUSES(otn_level_trace(sup, ALL, n, out, 64), n == 2 || n == 5 ? 0 : 13, "level_trace, accepted: the supervisor as it was");
        int good = out[64] == 0x5a;
        for (int i = 0; i < 64; i++) good &= out[i] == (n == 2 ? 50 + i : n == 5 ? 150 + i : 0x5a);
        check(good, "level_trace, its 64 bytes");
    }
    memset(overhead, 0, sizeof overhead);
}

/* the tables of docs/SUPERVISOR.md: the numbers with the ranges of 17, and the arrays */
static const struct {
    unsigned at, bytes;
    uint32_t least, greatest;
} number[] = {
#define NUMBER(at, bytes, least, greatest) {at, bytes, least, greatest},
#define ARRAY(at, bytes)
#include "supervisor_bytes.h"
#undef NUMBER
#undef ARRAY
};
static const struct {
    unsigned at, bytes;
} array[] = {
#define NUMBER(at, bytes, least, greatest)
#define ARRAY(at, bytes) {at, bytes},
#include "supervisor_bytes.h"
};
enum { NUMBERS = sizeof number / sizeof *number, ARRAYS = sizeof array / sizeof *array };

/* every byte of the supervisor stands in one row, and no other */
static void rows(void) {
    uint8_t told[ALL] = {0};
    int good = 1;
    for (int i = 0; i < NUMBERS; i++) {
        good &= (number[i].bytes == 1 || number[i].bytes == 4) && number[i].at + number[i].bytes <= ALL;
        for (unsigned j = number[i].at; j < number[i].at + number[i].bytes && j < ALL; j++) told[j]++;
    }
    for (int i = 0; i < ARRAYS; i++) {
        good &= array[i].at + array[i].bytes <= ALL;
        for (unsigned j = array[i].at; j < array[i].at + array[i].bytes && j < ALL; j++) told[j]++;
    }
    for (int i = 0; i < ALL; i++) good &= told[i] == 1;
    check(good, "the tables have each byte once");
}

/* one number of the table in range and beyond it, all levels provisioned or none */
static uint64_t start(int levels) { return levels ? all_given(1) : plain(1); }
static void range(int i, int levels) {
    static const uint8_t t[OTN_LEVELS] = {1, 1, 2, 3, 4, 8}, over[OTN_LEVELS] = {9, 9, 9, 9, 9, 9};
    uint8_t record[OTN_RECORD_BYTES], out[64];
    const unsigned at = number[i].at, bytes = number[i].bytes;
    const uint32_t least = number[i].least, greatest = number[i].greatest, all = bytes == 1 ? 0xff : 0xffffffff;
    for (int end = 0; end < 2; end++) {
        check(start(levels) == 0, "fresh");
        put(at, bytes, end ? greatest : least);
        check(otn_trace(sup, ALL, 2, out, 64) == 11, "in range");
        check(level(9, 0, 0, 9, 9, 0) == 6 && report(9) == 18 && otn_level_trace(sup, ALL, 1, out, 63) == 12, "in range, the calls of a level");
        check(otn_pending(sup, ALL, record, sizeof record) == (word_at(CLOSED) ? TOLD : 0), "in range, the pending second");
        check(otn_refusal(step(0, 0, 0)) % 4 == 0, "in range, stepped");
        check(otn_refusal(step_levels(0, 1, 1, t)) % 4 == 0, "in range, stepped with levels");
        check(otn_refusal(mark(record, sizeof record)) % 4 == 0, "in range, marked");
        check(otn_trace(sup, ALL, 2, out, 64) == 11, "in range, and stays in range");
    }
    check(start(levels) == 0, "fresh");
    if (greatest < all) {
        put(at, bytes, greatest + 1);
        REFUSES(step(9, 9, 9), 17, "above its range, step");
        REFUSES(step_levels(9, 9, 9, over), 17, "above its range, step_levels");
        REFUSES(mark(record, sizeof record), 17, "above its range, mark");
        REFUSES(otn_pending(sup, ALL, record, sizeof record), 17, "above its range, pending");
        REFUSES(otn_trace(sup, ALL, 9, out, 1), 17, "above its range, trace");
        REFUSES(level(9, 0, 0, 9, 9, 0), 17, "above its range, level");
        REFUSES(report(9), 17, "above its range, level_report");
        REFUSES(otn_level_trace(sup, ALL, 9, out, 1), 17, "above its range, level_trace");
        put(at, bytes, all);
        REFUSES(step(0, 0, 0), 17, "far above its range");
    }
    for (unsigned bit = 0; bit < 8 * bytes; bit++)
        if (1u << bit > greatest) {
            put(at, bytes, 1u << bit);
            REFUSES(step(0, 0, 0), 17, "one bit, above its range");
        }
    if (least > 0) {
        put(at, bytes, least - 1);
        REFUSES(step(9, 9, 9), 17, "below its range");
        REFUSES(report(1), 17, "below its range, level_report");
        REFUSES(otn_pending(sup, ALL, record, sizeof record), 17, "below its range, pending");
    }
}

static void ranges(void) {
    uint8_t record[OTN_RECORD_BYTES], out[64];
    by_hand = 1;
    for (int i = 0; i < NUMBERS; i++)
        for (int levels = 0; levels < 2; levels++) range(i, levels);
    for (int i = 0; i < ARRAYS; i++)
        for (unsigned j = array[i].at; j < array[i].at + array[i].bytes; j++) {
            check(start(j & 1) == 0, "fresh");
            sup[j] = 0xff;
            check(otn_refusal(step(0, 0, 0)) == 0, "an array's byte has no range");
        }
    /* bytes that no history leaves are taken, stepped and marked without end or harm */
    uint32_t seed = 1;
    for (int turn = 0; turn < 2000; turn++) {
        for (int i = 0; i < NUMBERS; i++) {
            seed = seed * 1664525 + 1013904223;
            uint64_t span = (uint64_t)number[i].greatest - number[i].least + 1;
            put(number[i].at, number[i].bytes, number[i].least + (uint32_t)((seed >> 8) % span));
        }
        for (int i = 0; i < ARRAYS; i++)
            for (unsigned j = array[i].at; j < array[i].at + array[i].bytes; j++) sup[j] = (uint8_t)(seed = seed * 1664525 + 1013904223, seed >> 24);
        for (int i = 0; i < 64; i++) overhead[i] = (uint8_t)(seed = seed * 1664525 + 1013904223, seed >> 24);
        uint8_t t[OTN_LEVELS];
        for (int i = 0; i < OTN_LEVELS; i++) t[i] = (uint8_t)((turn + i) % 9);
        for (uint8_t n = 1; n <= OTN_LEVELS; n++) {
            REFUSES(otn_refusal(report(n)), 0, "any state in range, a level's report");
            REFUSES(otn_level_trace(sup, ALL, n, out, 64) % 13, 0, "any state in range, a level's trace");
            check(sup[GIVEN + n - 1] || report(n) == 0, "any state in range, a level that is not provisioned");
        }
        if (turn % 50 == 0) put(CLOSED, 4, 0);
        REFUSES(otn_pending(sup, ALL, record, sizeof record), word_at(CLOSED) ? TOLD : 0, "any state in range, its pending second");
        if (word_at(CLOSED)) check(memcmp(record, sup + CLOSED, 4) == 0 && memcmp(record + 4, sup + HELD, 4 * (COUNTS + FIVE * 2 - 1)) == 0, "any state in range, its words");
        check(otn_refusal(step((uint8_t)(turn & 3), (uint8_t)(turn % 9), 0)) % 4 == 0, "any state in range, stepped");
        check(otn_refusal(step_levels((uint8_t)(turn & 3), (uint8_t)(turn % 9), 0, t)) % 4 == 0, "any state in range, stepped with levels");
        check(otn_refusal(mark(record, sizeof record)) % 4 == 0, "any state in range, marked");
        check(otn_trace(sup, ALL, 2, out, 64) == 11, "any state in range stays in range");
    }
    memset(overhead, 0, sizeof overhead);
    by_hand = 0;
}

/* the sums by themselves, of section, path and levels, in the open second and in the pending one; the three bytes before an open one are spare */
static void ranges_of_sums(void) {
    uint8_t record[OTN_RECORD_BYTES], out[64];
    by_hand = 1;
    for (int i = 0; i < 2 * WATCHED; i++)
        for (int levels = 0; levels < 2; levels++) {
            const int held = i >= WATCHED;
            const size_t at = held ? held_at(i - WATCHED) + 4 * OTN_LEVEL_FAR_SUM : record_at(i) + FAR_SUM;
            for (uint32_t sum = MOST - 9; sum <= MOST; sum++) {
                check(start(levels) == 0, "fresh");
                put(at, 4, sum);
                put(CLOSED, 4, 1);
                REFUSES(otn_trace(sup, ALL, 2, out, 64), 11, "a sum in range");
                REFUSES(otn_pending(sup, ALL, record, sizeof record), TOLD, "a sum in range, pending");
                if (held) check(otn_figure(record, (unsigned)(COUNTS + FIVE * (i - WATCHED) + OTN_LEVEL_FAR_SUM)) == sum, "a sum in range, told");
            }
            for (uint32_t sum = MOST + 1; sum <= MOST + 9; sum++) {
                put(at, 4, sum);
                REFUSES(otn_trace(sup, ALL, 2, out, 64), 17, "a sum above its range");
                REFUSES(mark(record, sizeof record), 17, "a sum above its range, mark");
                REFUSES(otn_pending(sup, ALL, record, sizeof record), 17, "a sum above its range, pending");
            }
            put(at, 4, 0);
            REFUSES(otn_trace(sup, ALL, 2, out, 64), 11, "a sum of 0");
            for (size_t spare = SPARE; spare < FAR_SUM && !held; spare++)
                for (unsigned bit = 0; bit < 8; bit++) {
                    put(record_at(i) + spare, 1, 1u << bit);
                    REFUSES(step(0, 0, 0), 17, "a byte before the sum");
                    put(record_at(i) + spare, 1, 0);
                }
        }
    /* a sum is full at the greatest, and stays there */
    for (int i = 0; i < WATCHED; i++)
        for (uint32_t less = 0; less <= 9; less++)
            for (uint8_t bei = 0; bei < 16; bei++) {
                check(all_given(1) == 0, "fresh, all levels");
                put(record_at(i) + FAR_SUM, 4, MOST - less);
                overhead[field[i] + 2] = (uint8_t)(bei << 4 | (i > 0));
                check(otn_refusal(step(0, 0, 0)) == 0 && word_at(record_at(i) + FAR_SUM) == MOST - (number_of(bei) < less ? less - number_of(bei) : 0), "a sum that is full");
                memset(overhead, 0, sizeof overhead);
            }
    by_hand = 0;
}

static void frames(void) {
    uint8_t record[OTN_RECORD_BYTES];
    /* document 01's listing: two frames with flags 1, a mark */
    check(plain(1) == 0, "fresh");
    for (int i = 0; i < 2; i++) {
        uint64_t r = step(1, 0, 0);
        check(otn_head(r) == OTN_HEAD_TSF_P && OTN_SECTION_SSF(r) && OTN_PATH_SSF(r) && OTN_SECTION_CSSF(r) && OTN_PATH_CSSF(r), "TSF-P");
        check(OTN_SECTION_ATSF(r) && OTN_SECTION_ABDI(r) && OTN_PATH_ATSF(r) && OTN_PATH_ABDI(r) && !OTN_CLOF(r) && !OTN_IF(r), "TSF-P, actions");
    }
    static const uint32_t listing[22] = {1, 2, 0, 2, 0, 0, 0, 0, 0, 0, 0, 0, 0, 0, 1, 0, 0, 0, 0, 1, 0, 0};
    check(closed(record), "mark");
    for (unsigned i = 0; i < 22; i++) check(otn_figure(record, i) == listing[i], "the listing's figures");

    /* (a), (b): 61 frames of zeros, then the 62nd */
    check(plain(1) == 0, "fresh");
    uint64_t r = 0;
    for (int i = 0; i < 61; i++) r = step(0, 8, 5);
    check(!OTN_DLOF(r) && !OTN_DLOM(r) && otn_head(r) == 0 && OTN_SECTION_ABEI(r) == 8 && OTN_PATH_ABEI(r) == 5, "61 frames of zeros");
    r = step(0, 0, 0);
    check(OTN_DLOF(r) && OTN_CLOF(r) && OTN_DLOM(r) && !OTN_CLOM(r) && otn_head(r) == OTN_HEAD_LOF, "62");
    check(r == ((uint64_t)3 << 8 | 3ull << 14 | 1ull << 16 | 1ull << 22 | 1ull << 29 | 1ull << 31 | 1ull << 37 | 1ull << 39 | 1ull << 44 | 1ull << 49 | 1ull << 55),
          "62, every bit");

    /* (c): IF at 2, IM at 3 */
    check(plain(1) == 0, "fresh");
    mfas = 7;
    r = aligned(0, 0, 0);
    check(!OTN_IF(r) && !OTN_IM(r), "first frame");
    r = aligned(0, 0, 0);
    check(OTN_IF(r) && !OTN_IM(r), "IF at 2");
    r = aligned(0, 0, 0);
    check(OTN_IF(r) && OTN_IM(r) && r == (1u << 12 | 1u << 13), "IM at 3, and no other bit");

    /* dBDI of both layers at the fifth, dIAE with it, dBIAE at the third, STAT 111 at the third, 110, 101 */
    for (int i = 0; i < 4; i++) r = aligned(0, 0x0c, 0x08);
    check(!OTN_SECTION_DBDI(r) && !OTN_SECTION_DIAE(r) && !OTN_PATH_DBDI(r), "four");
    r = aligned(0, 0x0c, 0x08);
    check(OTN_SECTION_DBDI(r) && OTN_SECTION_CBDI(r) && OTN_SECTION_DIAE(r) && OTN_SECTION_ABIAE(r) && OTN_PATH_DBDI(r) && OTN_PATH_CBDI(r), "five");
    for (int i = 0; i < 3; i++) r = aligned(0, 0xbc, 0x08);
    check(OTN_SECTION_DBIAE(r), "dBIAE at the third");
    for (int i = 0; i < 3; i++) r = aligned(0, 0, 0x07);
    check(OTN_PATH_DAIS(r) && otn_head(r) == OTN_HEAD_AIS && OTN_PATH_CSSF(r) && !OTN_PATH_DBDI(r), "dAIS");
    for (int i = 0; i < 3; i++) r = aligned(0, 0, 0x06);
    check(OTN_PATH_DOCI(r) && otn_head(r) == OTN_HEAD_OCI && OTN_PATH_COCI(r), "dOCI");
    for (int i = 0; i < 3; i++) r = aligned(0, 0, 0x05);
    check(OTN_PATH_DLCK(r) && otn_head(r) == OTN_HEAD_LCK && OTN_PATH_CLCK(r), "dLCK");

    /* a bad second, DEGM 2: dDEG after two marks, and aTSD with it */
    check(plain(1) == 0, "fresh");
    mfas = 0;
    for (int second = 0; second < 2; second++) {
        for (int i = 0; i < 4; i++) aligned(0, 0, 0);
        r = step(0, 1, 1);
        check(!OTN_SECTION_DDEG(r) && !OTN_PATH_DDEG(r), "no dDEG yet");
        check(closed(record) && otn_figure(record, OTN_SECTION_NEAR) == 1 && otn_figure(record, OTN_PATH_NEAR) == 1, "one near block");
    }
    r = aligned(0, 0, 0);
    check(OTN_SECTION_DDEG(r) && OTN_SECTION_ATSD(r) && OTN_SECTION_CDEG(r) && OTN_PATH_DDEG(r) && OTN_PATH_ATSD(r) && OTN_PATH_CDEG(r), "dDEG");

    /* dTIM: trace modes and names that no trace has; section acts, then path alone */
    memset(names, 1, sizeof names);
    for (int dis = 0; dis < 2; dis++) {
        check(fresh(ALL, 1, 1, 2, 1, 2, 3, 3, (uint8_t)dis, 0, 32, 32) == 0, "fresh, modes 3");
        mfas = 254;
        for (int i = 0; i < 2 + 3 * 64; i++) r = aligned(0, 0, 0);
        check(OTN_SECTION_DTIM(r) && OTN_SECTION_CTIM(r), "section dTIM");
        check(otn_head(r) == (dis ? (unsigned)OTN_HEAD_PATH_TIM : (unsigned)OTN_HEAD_SECTION_TIM), "its head");
        check((dis ? OTN_PATH_CTIM(r) : OTN_PATH_SSF(r)) && OTN_PATH_DTIM(r) == (unsigned)dis, "the path under it");
    }
    memset(names, 0, sizeof names);
}

/* dTIM by what is compared. One of section, path and levels holds a trace that is not the expected one in one of its 64 bytes: dTIM stands there
   if the mode compares that byte and the trace is accepted, and nowhere else. */
static void compared(void) {
    static uint8_t image[ALL];
    for (size_t i = 0; i < OTN_NAMES_BYTES; i++) names[i] = (uint8_t)(i + 1);
    for (uint8_t mode = 0; mode <= OTN_MODE_BOTH; mode++) {
        check(fresh(ALL, 1, 1, 2, 1, 2, mode, mode, 1, 1, 32, 32) == 0, "fresh, names to compare");
        for (uint8_t n = 1; n <= OTN_LEVELS; n++) check(level(n, 1, 2, mode, 1, 32) == 0, "level, names to compare");
        for (int i = 0; i < WATCHED; i++) memcpy(sup + record_at(i) + ACCEPTED, names, OTN_NAMES_BYTES);
        memcpy(image, sup, ALL);
        for (int i = 0; i < WATCHED; i++)
            for (size_t byte = 0; byte < OTN_TRACE_BYTES; byte++)
                for (uint8_t known = 0; known < 2; known++) {
                    memcpy(sup, image, ALL);
                    sup[record_at(i) + ACCEPTED + byte] ^= 0x80;
                    sup[record_at(i) + STATE] = known;
                    const uint64_t r = step(0, 0, 0);
                    const unsigned differs = known && ((byte < 16 && mode & 1) || (byte >= 16 && byte < 32 && mode & 2));
                    unsigned good = OTN_SECTION_DTIM(r) == (i == 0 && differs) && OTN_PATH_DTIM(r) == (i == 1 && differs);
                    for (uint8_t n = 1; n <= OTN_LEVELS; n++) good &= OTN_TCM_DTIM(report(n)) == (i == n + 1 && differs);
                    check(good, "one byte compared");
                }
    }
    memset(names, 0, sizeof names);
}

/* a frame in alignment with a count of 1 for section, path and each level, or with counts of its own */
static const uint8_t ones[OTN_LEVELS] = {1, 1, 1, 1, 1, 1};
static uint64_t counted(uint8_t flags, uint8_t sm, uint8_t pm, const uint8_t t[OTN_LEVELS]) {
    send(0, 0, overhead[43]);
    return step_levels(flags, sm, pm, t);
}

/* the figures of section, path and levels in the second that a mark closes, with its own discard; the rest of what is expected is 0 */
static void closes(const uint32_t expected[WORDS], const char *what) {
    uint8_t record[OTN_RECORD_BYTES];
    int good = closed(record);
    for (unsigned i = 0; i < WORDS; i++) good &= otn_figure(record, i) == expected[i];
    check(good, what);
}

/* the report of level n after each frame: a bit stands in frames first to last, and in no other that was asked for */
static int stands(unsigned bit, int frame, int first, int last, uint8_t n) { return otn_report_bit(report(n), bit) == (frame >= first && frame <= last); }
enum { SSF = 9, DLTC, DAIS, DOCI, DLCK, DTIM, DBDI, DIAE, DBIAE, TSDEG, ATSF, ATSD, CSSF, CLTC, COCI, CLCK, CTIM, CDEG, CBDI };

/* the cases of six tandem levels, frames counted from 1 */
static void levels(void) {
    static const uint8_t none[OTN_LEVELS];
    uint64_t r = 0;
    memset(overhead, 0, sizeof overhead);

    /* 1: dLTC at the third STAT 000, a fresh level having none; it stops the level's counts and touches nothing else */
    check(plain(1) == 0 && given(1) == 0, "fresh, level 1");
    mfas = 0;
    for (int i = 1; i <= 5; i++) {
        r = counted(0, 1, 1, ones);
        const uint64_t bits = report(1);
        check(OTN_TCM_DLTC(bits) == (i >= 3) && OTN_TCM_ATSF(bits) == (i >= 3) && OTN_TCM_CLTC(bits) == (i >= 3), "dLTC at the third frame");
        check(otn_head(r) == OTN_HEAD_CLEAR && !OTN_PATH_ATSF(r), "dLTC of a level, and the path");
        check(bits == (i >= 3 ? 1u << 8 | 1u << DLTC | 1u << ATSF | 1u << CLTC : 1u << 8), "dLTC, every bit");
    }
    closes((const uint32_t[WORDS]){1, 5, 5, [12] = 5, [17] = 5, [22] = 2, 0, 1}, "dLTC, its second");

    /* 2: dIAE by STAT 010; its second is discarded, near and far, in the level alone */
    check(plain(1) == 0 && given(2) == 0, "fresh, level 2");
    mfas = 0;
    for (int i = 1; i <= 9; i++) {
        tandem(0, 0, i >= 4 && i <= 6 ? 0x12 : 1);
        counted(0, 1, 1, ones);
        check(stands(DIAE, i, 6, 8, 2) && stands(ATSF, i, 0, 0, 2), "dIAE in frames 6 to 8");
    }
    check(word_at(record_at(3) + NEAR) == 9 && word_at(record_at(3) + FAR) == 3 && word_at(record_at(3) + FAR_SUM) == 3, "dIAE, blocks before they are discarded");
    closes((const uint32_t[WORDS]){1, 9, 9, [12] = 9, [17] = 9}, "dIAE, its second");

    /* 3: dTIM masks dIAE and forgets dBIAE, acting or not; the STAT stays accepted, and dBDI stands on */
    for (uint8_t dis = OTN_TIM_ACTS; dis <= OTN_TIM_DEFAULT; dis++) {
        const int acts = dis == OTN_TIM_ACTS ? 194 : 999;
        memset(names, 1, sizeof names);
        check(plain(1) == 0 && level(3, 1, 2, OTN_MODE_SAPI, dis, 32) == 0, "fresh, level 3");
        memset(overhead, 0, sizeof overhead);
        tandem(3, 0, 0xba);
        mfas = 254;
        for (int i = 1; i <= 194; i++) {
            r = counted(0, 0, 0, ones);
            check(stands(DIAE, i, 3, 193, 3) && stands(DBIAE, i, 3, 193, 3) && stands(DTIM, i, 194, 194, 3) && stands(CTIM, i, 194, 194, 3), "dIAE under dTIM");
            check(stands(DBDI, i, 5, 194, 3) && stands(CBDI, i, 5, acts - 1, 3), "dBDI under dTIM");
            check(stands(ATSF, i, acts, 999, 3) && otn_head(r) == 0, "dTIM of a level acts on it alone");
        }
        check(sup[record_at(4) + DS] == 1 && word_at(record_at(4) + NEAR) == 194, "dTIM, before the discard");
        closes((const uint32_t[WORDS]){1, 194, 194}, "dTIM after dIAE, its second");
        check(OTN_TCM_DTIM(report(3)) && otn_refusal(counted(0, 0, 0, ones)) == 0, "dTIM after the mark");
        closes((const uint32_t[WORDS]){2, 1, 1, [32] = 1, 0, 1, 1}, "dTIM, its second");
        memset(names, 0, sizeof names);
    }

    /* TIMActDis 2 leaves the bytes that 1 leaves, in section, path and level */
    for (uint8_t i = 0; i < 27; i++) {
        static uint8_t told[OTN_SUPERVISOR_BYTES];
        const uint8_t x = i % 3, y = i / 3 % 3, z = i / 9;
        check(fresh(ALL, 1, 1, 2, 1, 2, 1, 1, x, y, 32, 32) == 0 && level(4, 1, 2, 1, z, 32) == 0, "TIMActDis 0 to 2");
        memcpy(told, sup, sizeof told);
        check(fresh(ALL, 1, 1, 2, 1, 2, 1, 1, x != 0, y != 0, 32, 32) == 0 && level(4, 1, 2, 1, z != 0, 32) == 0, "TIMActDis 0 and 1");
        check(memcmp(told, sup, sizeof told) == 0, "TIMActDis 2 is 1");
    }

    /* 4: the section's dTIM, where it acts, is the level's SSF in its own frame */
    for (uint8_t dis = 0; dis < 2; dis++) {
        memset(names, 1, sizeof names);
        check(fresh(ALL, 1, 1, 2, 1, 2, OTN_MODE_SAPI, 0, dis, 0, 32, 32) == 0 && given(1) == 0, "fresh, section mode 1");
        memset(names, 0, sizeof names);
        memset(overhead, 0, sizeof overhead);
        tandem(1, 0, 5);
        mfas = 254;
        for (int i = 1; i <= 194; i++) {
            const int last = dis ? 194 : 193, ssf = dis ? 999 : 194;
            r = counted(0, 0, 0, ones);
            check(stands(DLCK, i, 3, last, 1) && stands(CLCK, i, 3, last, 1) && stands(SSF, i, ssf, 999, 1) && stands(CSSF, i, ssf, 999, 1), "dLCK until the section's dTIM");
            check(otn_head(r) == (i < ssf ? 0u : (unsigned)OTN_HEAD_SECTION_TIM), "the section's dTIM, its head");
        }
        check(word_at(record_at(2) + NEAR) == 2, "dLCK stops the count");
    }

    /* 5: the path's dAIS does not touch levels 1 and 6; that of level 1 touches neither the path nor level 6 */
    for (int own = 0; own < 2; own++) {
        static const uint8_t t[OTN_LEVELS] = {1, 0, 0, 0, 0, 1};
        check(plain(1) == 0 && given(1) == 0 && given(6) == 0, "fresh, levels 1 and 6");
        memset(overhead, 0, sizeof overhead);
        mfas = 0;
        for (int i = 1; i <= 8; i++) {
            tandem(0, 0, 1);
            overhead[43] = 1;
            if (i > 3 && own) tandem(1, 0, 0x0f); /* BDI: dAIS comes before its fifth frame, and forgets it */
            if (i > 3 && !own) overhead[43] = 7;
            r = i > 3 ? counted(0, 0, 1, t) : counted(0, 0, 0, none);
            check(otn_head(r) == (i >= 6 && !own ? (unsigned)OTN_HEAD_AIS : 0u), "dAIS, its head");
            check(stands(DAIS, i, own ? 6 : 999, 999, 1) && stands(CSSF, i, own ? 6 : 999, 999, 1) && report(6) == 1 << 8, "dAIS of a level");
            check(stands(DBDI, i, 0, 0, 1), "dAIS forgets dBDI");
        }
        closes(own ? (const uint32_t[WORDS]){1, 8, 8, [17] = 5, [22] = 2, 0, 1, [47] = 5}
                   : (const uint32_t[WORDS]){1, 8, 5, [8] = 3, [17] = 2, 0, 1, [22] = 5, [47] = 5}, "dAIS, its second");
    }

    /* 6: dBIAE discards the far values and leaves the near ones */
    check(plain(1) == 0 && given(4) == 0, "fresh, level 4");
    memset(overhead, 0, sizeof overhead);
    mfas = 0;
    for (int i = 1; i <= 11; i++) {
        tandem(4, 0, i <= 3 ? 0x01 : i <= 8 ? 0x89 : 0xb9);
        if (i <= 3) counted(0, 0, 0, none);
        else counted(0, 0, 0, (const uint8_t[OTN_LEVELS]){[3] = 1});
        check(stands(DBIAE, i, 11, 11, 4) && stands(DBDI, i, 8, 11, 4) && stands(CBDI, i, 8, 11, 4), "dBIAE at the third BEI 1011");
    }
    check(word_at(record_at(5) + NEAR) == 8 && word_at(record_at(5) + FAR) == 5 && word_at(record_at(5) + FAR_SUM) == 40, "dBIAE, blocks before the discard");
    check(sup[record_at(5) + DS] == 0 && sup[record_at(5) + DS + 1] == 1, "dBIAE, DS before the discard");
    closes((const uint32_t[WORDS]){1, 11, 11, [37] = 8}, "dBIAE, its second");

    /* 7: SSF forgets the STAT: dLTC again three frames after it */
    check(plain(1) == 0 && given(1) == 0, "fresh, level 1");
    memset(overhead, 0, sizeof overhead);
    mfas = 0;
    for (int i = 1; i <= 12; i++) {
        counted(i == 6 || i == 7, 0, 0, none);
        check(stands(DLTC, i, 3, 5, 1) + stands(DLTC, i, 10, 12, 1) >= 1 && stands(SSF, i, 6, 7, 1) && stands(CSSF, i, 6, 7, 1), "dLTC after SSF");
        check(i < 6 || i > 9 || !OTN_TCM_DLTC(report(1)), "dLTC, forgotten in SSF");
    }

    /* 8: otn_step has no count for a level: near stays 0, far goes on */
    check(plain(1) == 0 && given(5) == 0, "fresh, level 5");
    memset(overhead, 0, sizeof overhead);
    tandem(5, 0, 0x31);
    mfas = 0;
    for (int i = 0; i < 4; i++) aligned(0, 0, 0);
    closes((const uint32_t[WORDS]){1, 4, 4, [43] = 4, 0, 0, 12}, "a level's second of otn_step");

    /* both calls in one second, in any order */
    check(plain(1) == 0 && given(5) == 0, "fresh, level 5");
    for (int i = 0; i < 6; i++) i & 1 ? (void)aligned(0, 0, 0) : (void)counted(0, 0, 0, ones);
    closes((const uint32_t[WORDS]){1, 6, 6, [42] = 3, 6, 0, 0, 18}, "a second of both calls");

    /* 10: bytes and counts of a level that is not provisioned are not looked at */
    check(plain(1) == 0 && given(5) == 0, "fresh, level 5");
    uint8_t other[ALL];
    memcpy(other, sup, ALL);
    uint32_t seed = 7;
    for (int i = 0; i < 300; i++) {
        uint8_t o[64];
        send((uint8_t)i, (uint8_t)(i / 9), (uint8_t)(i / 5));
        tandem(5, (uint8_t)i, (uint8_t)(i / 7));
        memcpy(o, overhead, 64);
        for (unsigned n = 1; n <= OTN_LEVELS; n++)
            for (int j = 0; j < 3 && n != 5; j++) o[field[1 + n] + j] = (uint8_t)(seed = seed * 1664525 + 1013904223, seed >> 24);
        r = step_levels(0, 0, 0, (const uint8_t[OTN_LEVELS]){[4] = 1});
        check(otn_step_levels(other, ALL, o, 64, 0, 0, 0, 8, 7, 6, 5, 1, 4) == r && memcmp(other, sup, ALL) == 0, "a level that is not provisioned");
    }

    /* each level looks at its own bytes, trace and status, and at its own count */
    for (uint8_t n = 1; n <= OTN_LEVELS; n++) {
        uint8_t t[OTN_LEVELS] = {0}, record[OTN_RECORD_BYTES], out[64];
        check(all_given(2) == 0, "fresh, all levels");
        memset(overhead, 0, sizeof overhead);
        t[n - 1] = 1;
        mfas = 254;
        for (int i = 0; i < 2 + 3 * 64; i++) {
            tandem(0, 9, 1);
            tandem(n, (uint8_t)(10 * n), 0x3a); /* BEI 3, BDI, STAT 010 */
            counted(0, 0, 0, t);
        }
        for (uint8_t m = 1; m <= OTN_LEVELS; m++) {
            check(report(m) == (m == n ? 1u << 8 | 1u << DIAE | 1u << DBDI | 1u << CBDI : 1u << 8), "a level's own status");
            check(word_at(record_at(1 + m) + NEAR) == (m == n ? 194 : 0) && word_at(record_at(1 + m) + FAR) == (m == n ? 194 : 0), "a level's own blocks");
            check(word_at(record_at(1 + m) + FAR_SUM) == (m == n ? 3 * 194 : 0), "a level's own sum");
            check(otn_level_trace(sup, ALL, m, out, 64) == 0 && out[0] == (m == n ? 10 * n : 9) && out[63] == out[0], "a level's own trace");
        }
        check(closed(record) && otn_level_figure(record, n, OTN_LEVEL_NEAR) == 0, "a level's own second");
        /* out of multiframe the cycle and the run are dropped, and the trace stays accepted */
        for (int i = 0; i < 5; i++) mfas = 0, r = counted(0, 0, 0, none);
        check(!OTN_IM(r) && otn_level_trace(sup, ALL, n, out, 64) == 0 && sup[record_at(1 + n) + GATHERING] + sup[record_at(1 + n) + GATHERING + 1] == 0, "out of multiframe");
    }

    /* dDEG: told by the report from the mark on that decides it, and by that level's own threshold and DEGM */
    check(plain(1) == 0 && level(1, 2, 2, 0, 0, 32) == 0 && level(2, 3, 2, 0, 0, 32) == 0 && level(3, 1, 3, 0, 0, 32) == 0, "fresh, levels 1 to 3");
    memset(overhead, 0, sizeof overhead);
    tandem(0, 0, 1);
    mfas = 0;
    for (int second = 1; second <= 4; second++) {
        uint8_t record[OTN_RECORD_BYTES];
        for (int i = 0; i < 3; i++) counted(0, 0, 0, i < 2 && second < 4 ? ones : none);
        check(closed(record) && otn_level_figure(record, 1, OTN_LEVEL_NEAR) == (second < 4 ? 2 : 0), "blocks of a level");
        check(stands(TSDEG, second, 2, 4, 1) && stands(ATSD, second, 2, 4, 1) && stands(CDEG, second, 2, 4, 1), "dDEG after two seconds");
        check(report(2) == 1 << 8 && stands(TSDEG, second, 3, 4, 3), "dDEG by the level's own provisioning");
    }
    tandem(1, 0, 5);
    for (int i = 1; i <= 3; i++) {
        counted(0, 0, 0, none);
        check(stands(CDEG, i, 1, 2, 1) && stands(CLCK, i, 3, 3, 1) && stands(TSDEG, i, 1, 3, 1), "cDEG under dLCK");
    }
    closes((const uint32_t[WORDS]){5, 3, 3, [24] = 1}, "dLCK, its second");
    check(!OTN_TCM_DDEG(report(1)) && OTN_TCM_DDEG(report(3)), "dDEG ends at the second good one");

    /* levels are silent: line, section and path answer as without them, whatever the levels bring */
    uint8_t record[OTN_RECORD_BYTES], alone[OTN_RECORD_BYTES];
    check(plain(3) == 0, "fresh");
    memcpy(other, sup, ALL);
    for (uint8_t n = 1; n <= OTN_LEVELS; n++) check(level(n, 1, 2, 3, (uint8_t)(n & 1), 32) == 0, "level");
    for (int i = 0; i < 3000; i++) {
        uint8_t t[OTN_LEVELS];
        const int good = i % 400 < 330;
        for (int j = 0; j < 64; j++) overhead[j] = (uint8_t)(seed = seed * 1664525 + 1013904223, seed >> 24);
        for (int j = 0; j < OTN_LEVELS; j++) t[j] = (uint8_t)((seed >> (4 * j)) % 9);
        if (i % 50 < 40) tandem(0, (uint8_t)(i % 64), (uint8_t)(i / 50));
        if (good) send((uint8_t)(i % 64), (uint8_t)(i / 97), (uint8_t)(i / 31));
        else mfas++;
        const uint8_t flags = (uint8_t)(i % 700 == 699);
        r = step_levels(flags, (uint8_t)(i % 9), (uint8_t)(i % 5), t);
        check(otn_step(other, ALL, overhead, 64, flags, (uint8_t)(i % 9), (uint8_t)(i % 5)) == r, "levels are silent, the report");
        if (i % 100 == 99) {
            const uint64_t told = i > 100 ? TOLD : 0;
            check(mark(record, sizeof record) == told && otn_mark(other, ALL, alone, sizeof alone) == told && (!told || memcmp(record, alone, 88) == 0), "levels are silent, the record");
            for (int j = 88; j < OTN_RECORD_BYTES; j++) check(!told || alone[j] == 0, "no level, no figures");
        }
        check(memcmp(sup, other, GIVEN) == 0 && memcmp(sup + HELD, other + HELD, 84) == 0, "levels are silent, the bytes");
    }
    memset(overhead, 0, sizeof overhead);
}

/* Voiding by neighbours, in the section and in each level. One of them sends what a word of letters says, a letter for a frame: p plain, d with
   BDI, i with IAE (a level's STAT 010), b with BEI 1011, t under TSF-P; a bar is a mark. All else is plain: one BEI and a count of 1 everywhere.
   Blocks and DS of each second as it is told: by the mark after the next bar, the last one by otn_pending, before and after the letters behind it. The
   sum is BEI times the far blocks. */
static const struct {
    const char *frames;
    uint32_t told[4][FIVE - 1];
} voided[] = {
    {"pppppppppp|iiiiippppp|pppppppppp|", {{0}, {0}, {10, 10}}},
    {"pppppppppp|iiiii", {{10, 10}}},
    {"pppppppppp||iiiii|", {{10, 10}, {0}, {0}}},
    {"pppppppppp|bbbppppppp|", {{10}, {10}}},
    {"pppppppppp|bbb", {{10, 10}}},
    {"pppppppppp|iiiiiiiiii|pppppppppp|pppppppppp|", {{0}, {0}, {0}, {10, 10}}},
    {"tddddddddd|pppppppppp|pp", {{9, 9, 1, 1}, {10, 10, 0, 1}}},
    {"tddddddddd|pppppiiiii|", {{0}, {0}}},
    {"tddddddddd|pppppppbbb|", {{9, 0, 1, 0}, {10}}},
    {"pppppiiiii|tddddddddd|", {{0}, {9, 9, 1, 1}}},
    {"pppppppbbb|tddddddddd|pppppppppp|", {{10}, {9, 9, 1, 1}, {10, 10, 0, 1}}},
    {"bbbiiiiiii|pppppppppp|", {{0}, {0}}},
    {"pppppppppp|pppppppppp|pppppppppp|iiiiiiiiii|", {{10, 10}, {10, 10}, {0}, {0}}},
    {"pppppppppp|", {{10, 10}}},
};

/* what is told of a second in which the others send: all frames but those under TSF-P are counted, and these make near DS */
static int told(const uint8_t *record, unsigned second, const char *frames, int whose, const uint32_t own[FIVE - 1], uint8_t bei) {
    const char *end = frames;
    uint32_t failed = 0;
    for (; *end != '|'; end++) failed += *end == 't';
    const uint32_t all = (uint32_t)(end - frames), other[FIVE - 1] = {all - failed, all - failed, failed > 0, 0};
    int good = otn_figure(record, OTN_SECOND) == second && otn_figure(record, OTN_FRAMES) == all;
    good &= otn_figure(record, OTN_UNDER) == all - failed && otn_figure(record, OTN_UNDER + OTN_HEAD_TSF_P) == failed;
    for (int i = 0; i < WATCHED; i++) {
        const uint32_t *of = i == whose ? own : other;
        for (int j = 0; j < FIVE; j++) good &= otn_figure(record, (unsigned)(COUNTS + FIVE * i + j)) == (j == OTN_LEVEL_FAR_SUM ? bei * of[OTN_LEVEL_FAR] : of[j]);
    }
    return good;
}

static void neighbours(uint8_t bei) {
    uint8_t record[OTN_RECORD_BYTES];
    const uint8_t of_section = (uint8_t)(bei << 4), of_other = of_section | 1; /* STAT 001 */
    memset(overhead, 0, sizeof overhead);
    for (int whose = 0; whose < WATCHED; whose++)
        for (size_t c = 0; c < sizeof voided / sizeof *voided && whose != 1; c++) {
            const char *second[5] = {voided[c].frames};
            unsigned marks = 0;
            check(all_given(1) == 0, "fresh, all levels");
            mfas = 0;
            for (const char *f = voided[c].frames; *f; f++) {
                if (*f == '|') {
                    const uint64_t answer = mark(record, sizeof record);
                    check(answer == (marks ? TOLD : 0), "neighbours, whether a second is reported");
                    check(!marks || told(record, marks, second[marks - 1], whose, voided[c].told[marks - 1], bei), "neighbours, the second reported");
                    second[++marks] = f + 1;
                    continue;
                }
                const uint8_t plain_of_it = whose == 0 ? of_section : of_other;
                const uint8_t status = *f == 'd' ? plain_of_it | 8 : *f == 'i' ? of_section | (whose == 0 ? 4 : 2) : *f == 'b' ? 0xb0 | (whose > 0) : plain_of_it;
                send(0, whose == 0 ? status : of_section, of_other);
                tandem(0, 0, of_other);
                if (whose) tandem((unsigned)whose - 1, 0, status);
                check(otn_refusal(step_levels(*f == 't', 1, 1, ones)) == 0, "neighbours, a frame");
            }
            check(pending(record) && told(record, marks, second[marks - 1], whose, voided[c].told[marks - 1], bei), "neighbours, the pending second");
        }

    /* dDEG goes by the second just closed with its own discard: raised by two bad seconds, and not taken back where the later one is voided */
    for (int whose = 0; whose < WATCHED; whose++) {
        const int has_iae = whose != 1;
        check(all_given(1) == 0, "fresh, all levels");
        mfas = 0;
        for (unsigned n = 1; n <= 5; n++) {
            for (int i = 0; i < 10; i++) {
                send(0, of_section | (whose == 0 && n > 2 ? 4 : 0), of_other);
                tandem(0, 0, of_other);
                if (whose > 1 && n > 2) tandem((unsigned)whose - 1, 0, of_section | 2);
                check(otn_refusal(step_levels(0, 1, 1, ones)) == 0, "dDEG, a frame");
            }
            check(mark(record, sizeof record) == (n > 1 ? TOLD : 0), "dDEG, a mark");
            if (n > 1) check(otn_figure(record, (unsigned)(COUNTS + FIVE * whose)) == (n < 3 || !has_iae ? 10 : 0), "dDEG, the second reported");
            for (int i = 0; i < WATCHED; i++) check(sup[record_at(i) + DDEG] == (n >= 2 && (n < 4 || i != whose || !has_iae)), "dDEG, by the second just closed");
        }
    }
    memset(overhead, 0, sizeof overhead);
}

/* The sums of the far end's violations. A frame in which section, path and all levels send the same: BEI, and BDI and STAT where they have it */
static uint64_t send_bei(uint8_t flags, uint8_t bei, uint8_t status) {
    send(0, (uint8_t)(bei << 4 | (status & 8)), (uint8_t)(bei << 4 | status));
    tandem(0, 0, (uint8_t)(bei << 4 | status));
    return step_levels(flags, 0, 0, (const uint8_t[OTN_LEVELS]){0});
}

/* a second whose frames are all clear but for some, and then the same five in each of the records from `first` on, before `end` */
static void frames_of(uint32_t expected[WORDS], uint32_t frames, uint32_t other, unsigned head) {
    memset(expected, 0, 4 * WORDS);
    expected[OTN_SECOND] = 1;
    expected[OTN_FRAMES] = frames;
    expected[OTN_UNDER] = frames - other;
    expected[OTN_UNDER + head] += other;
}
static void each(uint32_t expected[WORDS], int first, int end, uint32_t far, uint32_t near_ds, uint32_t far_ds, uint32_t sum) {
    for (int i = first; i < end; i++) memcpy(expected + COUNTS + FIVE * i, (const uint32_t[FIVE]){0, far, near_ds, far_ds, sum}, 4 * FIVE);
}

static void sums(void) {
    uint32_t expected[WORDS];
    memset(overhead, 0, sizeof overhead);

    /* numbers, 9, the mark of BIAE alone, 0 and 15 */
    static const uint8_t seven[7] = {8, 1, 2, 9, 11, 0, 15};
    for (int given_too = 0; given_too < 2; given_too++) {
        check(start(given_too) == 0, "fresh");
        mfas = 0;
        for (int i = 0; i < 7; i++) check(otn_refusal(send_bei(0, seven[i], 1)) == 0, "seven BEI");
        memcpy(expected, (const uint32_t[WORDS]){1, 7, 7, [12] = 0, 3, 0, 0, 11, 0, 3, 0, 0, 11}, sizeof expected);
        if (given_too) each(expected, 2, WATCHED, 3, 0, 0, 11);
        closes(expected, "seven BEI");
    }

    /* under TSF-P nothing is counted or added */
    check(all_given(1) == 0, "fresh, all levels");
    mfas = 0;
    for (int i = 0; i < 5; i++) send_bei(i >= 3, 8, 1);
    frames_of(expected, 5, 2, OTN_HEAD_TSF_P);
    each(expected, 0, WATCHED, 3, 1, 0, 24);
    closes(expected, "a sum under TSF-P");

    /* three marks of BIAE after a number: none of section and levels is left, and in the path they are none */
    check(all_given(1) == 0, "fresh, all levels");
    mfas = 0;
    for (int i = 0; i < 4; i++) send_bei(0, i ? 11 : 5, 1);
    for (int i = 0; i < WATCHED; i++) check(word_at(record_at(i) + FAR) == 1 && word_at(record_at(i) + FAR_SUM) == 5, "dBIAE, before the discard");
    closes((const uint32_t[WORDS]){1, 4, 4, [OTN_PATH_FAR] = 1, [OTN_PATH_FAR_SUM] = 5}, "a sum and dBIAE");

    /* BEI 9 alone; then each code in each record by itself */
    check(all_given(1) == 0, "fresh, all levels");
    mfas = 0;
    for (int i = 0; i < 20; i++) send_bei(0, 9, 1);
    closes((const uint32_t[WORDS]){1, 20, 20}, "BEI 9");
    for (int i = 0; i < WATCHED; i++)
        for (uint8_t bei = 0; bei < 16; bei++) {
            const uint32_t number = bei < 9 ? bei : 0;
            check(all_given(2) == 0, "fresh, all levels");
            mfas = 0;
            for (int frame = 0; frame < 2; frame++) {
                send(0, 0, 1);
                tandem(0, 0, 1);
                overhead[field[i] + 2] |= (uint8_t)(bei << 4);
                step(0, 0, 0);
            }
            frames_of(expected, 2, 0, OTN_HEAD_CLEAR);
            each(expected, i, i + 1, number ? 2 : 0, 0, 0, 2 * number);
            closes(expected, "each code of BEI");
        }

    /* STAT, from the third frame on: dAIS, dOCI and dLCK stop path and levels, dLTC levels; a level's dIAE voids; BDI counts from its fifth frame, but in dAIS */
    for (uint8_t stat = 0; stat < 8; stat++) {
        const int stops = stat >= 5;
        const unsigned head = stat == 7 ? OTN_HEAD_AIS : stat == 6 ? OTN_HEAD_OCI : OTN_HEAD_LCK;
        check(all_given(3) == 0, "fresh, all levels");
        mfas = 0;
        for (int i = 0; i < 6; i++) send_bei(0, 7, stat | 8);
        frames_of(expected, 6, stops ? 4 : 0, head);
        each(expected, 0, 1, 6, 0, 1, 42);
        each(expected, 1, 2, stops ? 2 : 6, stops, stat != 7, stops ? 14 : 42);
        if (stat != 2) each(expected, 2, WATCHED, stops || stat == 0 ? 2 : 6, stops || stat == 0, stat != 7, stops || stat == 0 ? 14 : 42);
        closes(expected, "a sum and STAT");
    }

    /* dTIM at frame 194 stops no sum of its own layer; where the section's acts it is SSF of path and levels */
    for (int who = 0; who < WATCHED; who++)
        for (uint8_t dis = 0; dis < 2; dis++) {
            const uint8_t off = OTN_MODE_OFF, on = OTN_MODE_SAPI;
            const int ssf = who == 0 && dis == 0;
            memset(names, 1, sizeof names);
            check(fresh(ALL, 1, 1, 2, 1, 2, who == 0 ? on : off, who == 1 ? on : off, dis, dis, 32, 32) == 0, "fresh, names");
            for (uint8_t n = 1; n <= OTN_LEVELS; n++) check(level(n, 1, 2, who == n + 1 ? on : off, dis, 32) == 0, "level, names");
            memset(names, 0, sizeof names);
            mfas = 254;
            for (int i = 0; i < 194; i++) send_bei(0, 6, 1);
            frames_of(expected, 194, ssf || (who == 1 && dis == 0), ssf ? OTN_HEAD_SECTION_TIM : OTN_HEAD_PATH_TIM);
            each(expected, 0, WATCHED, 194, 0, 0, 6 * 194);
            if (ssf) each(expected, 1, WATCHED, 193, 1, 0, 6 * 193);
            each(expected, who, who + 1, 194, 1, 0, 6 * 194);
            closes(expected, "a sum and dTIM");
        }

    /* a sum is of its own second, and nothing is left of it in the next one */
    check(all_given(1) == 0, "fresh, all levels");
    mfas = 0;
    for (uint8_t n = 1; n <= 8; n++) {
        for (int i = 0; i < 10; i++) send_bei(0, n, 1);
        frames_of(expected, 10, 0, OTN_HEAD_CLEAR);
        expected[OTN_SECOND] = n;
        each(expected, 0, WATCHED, 10, 0, 0, 10 * n);
        closes(expected, "sums, second by second");
    }
    closes((const uint32_t[WORDS]){9}, "sums, an empty second");
    memset(overhead, 0, sizeof overhead);
}

/* A second as full as it gets, 400,000 frames with BEI 8 in section, path and levels. So many of them are not taken, but put there as they would leave it. */
static void full_second(uint32_t there) {
    uint8_t record[OTN_RECORD_BYTES], summary[OTN_SUMMARY_BYTES];
    uint32_t expected[WORDS] = {1, FULL, FULL};
    int good = all_given(1) == 0;
    put(SECOND, 4, there);
    put(SECOND + 4, 4, there);
    for (int i = 0; i < WATCHED; i++) {
        put(record_at(i) + FAR, 4, there);
        put(record_at(i) + FAR_SUM, 4, 8 * there);
    }
    memset(overhead, 0, sizeof overhead);
    mfas = 0;
    for (uint32_t n = there; n < FULL; n++) {
        send(0, 0x80, 0x81);
        tandem(0, 0, 0x81);
        good &= otn_refusal(otn_step(sup, ALL, overhead, OTN_OVERHEAD_BYTES, 0, 0, 0)) == 0;
    }
    check(good, "a full second");
    REFUSES(step(0, 0, 0), 4, "a full second, and a frame more");
    each(expected, 0, WATCHED, FULL, 0, 0, MOST);
    check(closed(record), "a full second, its mark");
    for (unsigned i = 0; i < WORDS; i++) check(otn_figure(record, i) == expected[i], "a full second, its figures");
    check(otn_summary(record, sizeof record, summary, sizeof summary) == 0, "a full second, its summary");
    for (unsigned i = 1; i <= OTN_PATH_FAR_SUM; i++) check(otn_summary_figure(summary, i + 1) == expected[i], "a full second, its summary's figures");
    static const unsigned sum[] = {OTN_SECTION_FAR_SUM, OTN_PATH_FAR_SUM};
    for (int i = 0; i < 2; i++) {
        record[4 * sum[i]]++; /* 3,200,001 */
        check(otn_figure(record, sum[i]) == MOST + 1 && otn_summary(record, sizeof record, summary, sizeof summary) == 26, "a sum above that of a full second");
        record[4 * sum[i]]--;
    }
    memset(overhead, 0, sizeof overhead);
}

/* Summaries, as their 23 numbers. The two calls are made on lent bytes with a guard around each buffer: nothing is written but the output, of that
   no more than a summary has and there is room for, and nothing at all where the call is refused. */
enum { SUMS = OTN_SUMMARY_BYTES / 8, LENGTH = OTN_SUMMARY_LENGTH, FRAMES = OTN_SUMMARY_FRAMES, QUARTER = 900, DAY = 86400, FIGURES = 22, ROOM = 240 };
enum { EARLIER, LATER, OUT, LENT };
#define SUM(...) ((const uint64_t[SUMS]){__VA_ARGS__})
static const uint8_t nothing[OTN_SUMMARY_BYTES];
static uint8_t lent[LENT][GUARD + ROOM + GUARD];

static uint8_t *lent_bytes(int which, size_t len) { return len ? lent[which] + GUARD : NULL; }

/* otn_join on bytes of these lengths, or otn_summary of the first ones */
static uint64_t summing(int joins, size_t a, size_t b, size_t out) {
    uint8_t kept[LENT][GUARD + ROOM + GUARD];
    memcpy(kept, lent, sizeof lent);
    const uint8_t *earlier = lent_bytes(EARLIER, a), *later = lent_bytes(LATER, b);
    const uint64_t answer = joins ? otn_join(earlier, a, later, b, lent_bytes(OUT, out), out) : otn_summary(earlier, a, lent_bytes(OUT, out), out);
    const size_t written = answer ? 0 : out < OTN_SUMMARY_BYTES ? out : OTN_SUMMARY_BYTES;
    memcpy(kept[OUT] + GUARD, lent[OUT] + GUARD, written);
    check(memcmp(kept, lent, sizeof lent) == 0, "summaries, the bytes that a call leaves");
    return answer;
}

static void lend(int which, const uint64_t *sums) {
    memset(lent[which], 0xc3, sizeof lent[which]);
    for (int i = 0; sums && i < OTN_SUMMARY_BYTES; i++) lent[which][GUARD + i] = (uint8_t)(sums[i / 8] >> 8 * (i % 8));
}

/* the numbers that the output has */
static int are(const uint64_t *sums) {
    int good = 1;
    for (unsigned i = 0; i < SUMS; i++) good &= otn_summary_figure(lent[OUT] + GUARD, i) == sums[i];
    return good;
}

/* two joined: the answer, which is the refusal and nothing else, and the numbers where it is accepted */
static void joins(const uint64_t *a, const uint64_t *b, uint64_t answer, const uint64_t *sum, const char *what) {
    lend(EARLIER, a);
    lend(LATER, b);
    lend(OUT, NULL);
    check(summing(1, OTN_SUMMARY_BYTES, OTN_SUMMARY_BYTES, OTN_SUMMARY_BYTES) == answer && (answer || are(sum)), what);
}

/* one that is a summary, which the empty one is a unit for; and one that is 26 on either side, whatever the other is */
static void valid(const uint64_t *a, const char *what) {
    joins(a, SUM(0), 0, a, what);
    joins(SUM(0), a, 0, a, what);
}
static void invalid(const uint64_t *a, const char *what) {
    const uint64_t *others[] = {SUM(0), SUM(1, DAY), SUM(5, 2), SUM(0, 1), a};
    for (int i = 0; i < 5; i++) {
        joins(a, others[i], 26, NULL, what);
        joins(others[i], a, 26, NULL, what);
    }
}

/* Of a layer's five the third and fourth are of seconds with DS, and the fifth is a sum of violations. The most that a number is in one second. */
static unsigned of_five(unsigned i) { return i < OTN_SUMMARY_SECTION_NEAR ? 0 : (i - OTN_SUMMARY_SECTION_NEAR) % FIVE; }
static int of_ds(unsigned i) { return of_five(i) == OTN_LEVEL_NEAR_DS || of_five(i) == OTN_LEVEL_FAR_DS; }
static uint64_t most_of(unsigned i) { return of_ds(i) ? 1 : of_five(i) == OTN_LEVEL_FAR_SUM ? MOST : FULL; }

static void joining(void) {
    joins(SUM(0), SUM(0), 0, SUM(0), "two empty ones");
    joins(SUM(1, DAY), SUM(0), 0, SUM(1, DAY), "the longest and the empty one");
    joins(SUM(1, DAY), SUM(DAY + 1, 1), 20, NULL, "a second above the limit");
    joins(SUM(1, DAY / 2), SUM(DAY / 2 + 1, DAY / 2), 0, SUM(1, DAY), "two halves of the limit");
    joins(SUM(1, DAY / 2), SUM(DAY / 2 + 1, DAY / 2 + 1), 20, NULL, "two halves and a second");
    joins(SUM(1, DAY), SUM(DAY + 1, DAY), 20, NULL, "two of the longest");
    joins(SUM(1, 10), SUM(12, 9), 21, NULL, "a gap");
    joins(SUM(1, 10), SUM(10, 11), 21, NULL, "an overlap");
    joins(SUM(11, 10), SUM(1, 10), 21, NULL, "the later one first");
    joins(SUM(7, 3), SUM(7, 3), 21, NULL, "the same again");
    joins(SUM(1, 10, 1, 2, 3, 4, 5, 6, 7, 8, 9, 10, 11, 12, 13, 1, 2, 16, 14, 15, 3, 4, 17),
          SUM(11, 10, 100, 200, 300, 400, 500, 600, 700, 800, 900, 1000, 1100, 1200, 1300, 5, 6, 1600, 1400, 1500, 7, 8, 1700), 0,
          SUM(1, 20, 101, 202, 303, 404, 505, 606, 707, 808, 909, 1010, 1111, 1212, 1313, 6, 8, 1616, 1414, 1515, 10, 12, 1717), "following on, and each number by itself");
    joins(SUM(1, DAY), SUM(5, 2), 20, NULL, "too long and not following on");
    joins(SUM(1, DAY), SUM(90000, 1), 20, NULL, "too long and a gap");
    joins(SUM(1, DAY + 1), SUM(0), 26, NULL, "one that is too long by itself");
    joins(SUM(1, DAY, [15] = DAY + 1), SUM(DAY + 1, 1), 26, NULL, "no summary, and too long");
    joins(SUM(1, 10), SUM(12, 9, [FRAMES] = 9 * FULL + 1), 26, NULL, "no summary, and a gap");
    joins(SUM(0xffffffff, 1), SUM(1, 1), 21, NULL, "none follows on from the last second");
    joins(SUM(0xffffffff, 1), SUM(0), 0, SUM(0xffffffff, 1), "but the empty one");
    joins(SUM(0xfffffffe, 1), SUM(0xffffffff, 1), 0, SUM(0xfffffffe, 2), "the last two seconds");

    /* first and length */
    valid(SUM(0xffffffff, 1), "the last second");
    invalid(SUM(0xffffffff, 2), "a last second above the last");
    valid(SUM(0xffffffff - DAY + 1, DAY), "the last day");
    invalid(SUM(0xffffffff - DAY + 2, DAY), "a day above the last second");
    invalid(SUM(7), "no second, and a first one");
    invalid(SUM(0, 3), "seconds, and no first one");
    invalid(SUM(0, DAY), "a day, and no first second");
    invalid(SUM(1, DAY + 1), "a length above the limit");
    invalid(SUM(0, DAY + 1), "a length above the limit, and no first second");
    for (int bit = 17; bit < 64; bit++) invalid(SUM(1, 1ull << bit | 1), "a long length");
    for (int bit = 32; bit < 64; bit++) invalid(SUM(1ull << bit | 1, 1), "a first second above the last");
    invalid(SUM(UINT64_MAX, 1), "a last second beyond 64 bits");
    invalid(SUM(UINT64_MAX - 8, 10), "a last second of 1, modulo 64 bits");
    invalid(SUM(0xffffffff, 0xffffffff00000001), "a length of 1 in its low word, and a last second beyond 64 bits");
    invalid(SUM(UINT64_MAX, UINT64_MAX), "all ones");

    /* the other numbers, by the length: at the bound, above it, and with high bits alone */
    static const uint64_t lengths[] = {0, 1, 10, QUARTER, DAY};
    for (int l = 0; l < 5; l++) {
        const uint64_t length = lengths[l];
        uint64_t all[SUMS] = {length > 0, length}, one[SUMS];
        for (unsigned i = FRAMES; i < SUMS; i++) {
            const uint64_t bound = most_of(i) * length;
            memcpy(one, SUM(length > 0, length), sizeof one);
            all[i] = one[i] = bound;
            valid(one, "a number at its bound");
            one[i] = bound + 1;
            invalid(one, "a number above its bound");
            for (int bit = 0; bit < 64; bit++) {
                one[i] = 1ull << bit;
                (one[i] <= bound ? valid : invalid)(one, "a number of one bit");
            }
            one[i] = UINT64_MAX;
            invalid(one, "a number of all bits");
        }
        valid(all, "all numbers at their bounds");
    }
    /* sums above 32 bits, up to the greatest there are */
    uint64_t half[SUMS] = {1, DAY / 2}, rest[SUMS] = {DAY / 2 + 1, DAY / 2}, whole[SUMS] = {1, DAY};
    for (unsigned i = FRAMES; i < SUMS; i++) {
        half[i] = rest[i] = most_of(i) * DAY / 2;
        whole[i] = 2 * half[i];
    }
    check(whole[FRAMES] == 34560000000 && whole[OTN_SUMMARY_PATH_FAR_SUM] == 276480000000, "400,000 and 3,200,000 times 86,400");
    joins(half, rest, 0, whole, "the greatest sums");

    /* bytes of any length on either side, and an output of any length */
    for (size_t n = 0; n <= ROOM; n++) {
        lend(EARLIER, half);
        lend(LATER, rest);
        lend(OUT, NULL);
        const uint64_t refused = n == OTN_SUMMARY_BYTES ? 0 : 26;
        check(summing(1, n, OTN_SUMMARY_BYTES, OTN_SUMMARY_BYTES) == refused && summing(1, OTN_SUMMARY_BYTES, n, OTN_SUMMARY_BYTES) == refused, "join, bytes of any length");
        check(summing(1, n, n, OTN_SUMMARY_BYTES) == refused && summing(1, n, 0, n) == 26 && summing(1, 0, n, 0) == 26, "join, bytes of any length on both sides");
        uint8_t full[OTN_SUMMARY_BYTES];
        joins(half, rest, 0, whole, "join, a whole output");
        memcpy(full, lent[OUT] + GUARD, sizeof full);
        lend(OUT, NULL);
        check(summing(1, OTN_SUMMARY_BYTES, OTN_SUMMARY_BYTES, n) == 0, "join, an output of any length");
        check(memcmp(lent[OUT] + GUARD, full, n < sizeof full ? n : sizeof full) == 0, "join, what there is room for");
    }
    /* one buffer for both, which are only read */
    uint8_t out[OTN_SUMMARY_BYTES];
    memset(out, 0x5a, sizeof out);
    check(otn_join(nothing, sizeof nothing, nothing, sizeof nothing, out, sizeof out) == 0 && memcmp(out, nothing, sizeof out) == 0, "join, the empty one with itself");
    check(otn_join(NULL, 0, NULL, 0, NULL, 0) == 26, "join, NULL");
    check(otn_quarter(1) == 0 && otn_quarter(900) == 0 && otn_quarter(901) == 1 && otn_quarter(DAY) == 95 && otn_quarter(DAY + 1) == 96, "the quarter-hour of a second");
    check(otn_quarter(4294966500) == 4772184 && otn_quarter(0xffffffff) == 4772185 && otn_quarter(0) == 20496382304121724, "the last quarter-hours, and none");
}

static void figure(unsigned i, uint32_t x) {
    for (unsigned j = 0; j < 4; j++) lent[EARLIER][GUARD + 4 * i + j] = (uint8_t)(x >> 8 * j);
}

/* a record of zeros but for its number, and behind its 22 figures any bytes */
static void record_of(uint32_t second) {
    memset(lent, 0xc3, sizeof lent);
    memset(lent[EARLIER] + GUARD, 0, 4 * FIGURES);
    figure(OTN_SECOND, second);
}

static uint64_t summed(void) { return summing(0, OTN_RECORD_BYTES, 0, OTN_SUMMARY_BYTES); }

/* a summary has its figures in the order of a record, with the length after the number */
static const uint8_t named[][2] = {
    {OTN_SECOND, OTN_SUMMARY_LENGTH}, {OTN_FRAMES, OTN_SUMMARY_FRAMES}, {OTN_UNDER, OTN_SUMMARY_UNDER},
    {OTN_SECTION_NEAR, OTN_SUMMARY_SECTION_NEAR}, {OTN_SECTION_FAR, OTN_SUMMARY_SECTION_FAR},
    {OTN_SECTION_NEAR_DS, OTN_SUMMARY_SECTION_NEAR_DS}, {OTN_SECTION_FAR_DS, OTN_SUMMARY_SECTION_FAR_DS},
    {OTN_SECTION_FAR_SUM, OTN_SUMMARY_SECTION_FAR_SUM},
    {OTN_PATH_NEAR, OTN_SUMMARY_PATH_NEAR}, {OTN_PATH_FAR, OTN_SUMMARY_PATH_FAR},
    {OTN_PATH_NEAR_DS, OTN_SUMMARY_PATH_NEAR_DS}, {OTN_PATH_FAR_DS, OTN_SUMMARY_PATH_FAR_DS},
    {OTN_PATH_FAR_SUM, OTN_SUMMARY_PATH_FAR_SUM},
};

static void one_second(void) {
    static const uint64_t worked[SUMS] = {1, 1, 2, 0, 2, [15] = 1, [20] = 1};
    for (size_t i = 0; i < sizeof named / sizeof *named; i++) check(named[i][1] == named[i][0] + 1, "summary, the names of its figures");
    check(OTN_SUMMARY_FIRST == 0 && OTN_SUMMARY_PATH_FAR_SUM == SUMS - 1, "summary, its first and last figure");
    uint8_t record[OTN_RECORD_BYTES];
    memset(overhead, 0, sizeof overhead);
    check(all_given(1) == 0 && otn_refusal(step(1, 0, 0)) == 0 && otn_refusal(step(1, 0, 0)) == 0 && closed(record), "the worked example, with levels");
    /* a record and an output of any length */
    for (size_t n = 0; n <= ROOM; n++) {
        record_of(0);
        memcpy(lent[EARLIER] + GUARD, record, sizeof record);
        check(summing(0, n, 0, OTN_SUMMARY_BYTES) == (n < 88 ? 26 : 0) && (n < 88 || are(worked)), "summary, a record of any length");
        check(summed() == 0 && are(worked), "summary, the worked example");
        uint8_t full[OTN_SUMMARY_BYTES];
        memcpy(full, lent[OUT] + GUARD, sizeof full);
        lend(OUT, NULL);
        check(summing(0, OTN_RECORD_BYTES, 0, n) == 0, "summary, an output of any length");
        check(memcmp(lent[OUT] + GUARD, full, n < sizeof full ? n : sizeof full) == 0, "summary, what there is room for");
        check(summing(0, n < 88 ? n : 87, 0, n) == 26, "summary, a short record and an output of any length");
    }
    check(otn_summary(NULL, 0, NULL, 0) == 26 && otn_summary(record, 87, NULL, 0) == 26 && otn_summary(record, 88, NULL, 0) == 0, "summary, NULL");
    /* the figures one by one: where each goes, its bound, and above it */
    for (unsigned i = 1; i < FIGURES; i++) {
        const uint32_t bound = (uint32_t)most_of(i + 1);
        uint64_t one[SUMS] = {5, 1};
        static const uint32_t above[] = {2, 3, 256, FULL + 1, MOST + 1, 0x10000, 0x1000000, 0x80000000, 0xffffffff};
        record_of(5);
        figure(i, bound);
        one[i + 1] = bound;
        check(summed() == 0 && are(one), "summary, a figure at its bound");
        for (int j = 0; j < 9; j++) {
            figure(i, above[j]);
            one[i + 1] = above[j];
            check(above[j] > bound ? summed() == 26 : summed() == 0 && are(one), "summary, a figure above its bound");
        }
        figure(i, bound);
        figure(OTN_SECOND, 0);
        check(summed() == 26, "summary, number 0 and a figure");
    }
    record_of(0);
    check(summed() == 26, "summary, number 0");
    record_of(0xffffffff);
    check(summed() == 0 && are(SUM(0xffffffff, 1)), "summary, the last second");
    /* heads that do not add up, more blocks than frames, and sums below the far blocks or above eight times them, are not asked for */
    record_of(9);
    figure(OTN_UNDER + 3, 7);
    figure(OTN_SECTION_FAR_SUM, 5);
    figure(OTN_PATH_FAR, 8);
    check(summed() == 0 && are(SUM(9, 1, [OTN_SUMMARY_UNDER + 3] = 7, [OTN_SUMMARY_SECTION_FAR_SUM] = 5, [OTN_SUMMARY_PATH_FAR] = 8)), "summary, figures that do not fit one another");
}

/* a summary joined to another in its place, as a caller keeps it: by a buffer between */
static int kept_with(uint8_t kept[OTN_SUMMARY_BYTES], const uint8_t later[OTN_SUMMARY_BYTES]) {
    uint8_t both[OTN_SUMMARY_BYTES];
    const uint64_t answer = otn_join(kept, OTN_SUMMARY_BYTES, later, OTN_SUMMARY_BYTES, both, sizeof both);
    if (answer == 0) memcpy(kept, both, sizeof both);
    return answer == 0;
}

/* plain sums of the records of seconds */
static void add(uint64_t sums[SUMS], const uint8_t *record) {
    if (sums[LENGTH] == 0) sums[0] = otn_figure(record, OTN_SECOND);
    sums[LENGTH]++;
    for (unsigned i = FRAMES; i < SUMS; i++) sums[i] += of_ds(i) ? otn_figure(record, i - 1) != 0 : otn_figure(record, i - 1);
}

/* a summary has these numbers, its heads add up to its frames, and far blocks <= sum <= 8 times far blocks */
static int whole_sums(const uint8_t *summary, const uint64_t sums[SUMS]) {
    int good = 1;
    for (unsigned i = OTN_SUMMARY_SECTION_NEAR; i < SUMS; i += FIVE) good &= sums[i + 1] <= sums[i + 4] && sums[i + 4] <= 8 * sums[i + 1];
    uint64_t under = 0;
    for (unsigned i = 0; i < SUMS; i++) good &= otn_summary_figure(summary, i) == sums[i];
    for (unsigned head = 0; head < 10; head++) under += otn_summary_figure(summary, OTN_SUMMARY_UNDER + head);
    return good && under == otn_summary_figure(summary, OTN_SUMMARY_FRAMES);
}

/* A day and a second more, as otn_mark and at the end otn_pending report them: in the first quarter-hour up to nine frames in a second, then few.
   Failures, blocks, BDI and alignment errors come and go. */
static void a_day(void) {
    static uint8_t single[QUARTER][OTN_SUMMARY_BYTES], quarter[96][OTN_SUMMARY_BYTES];
    uint8_t day[OTN_SUMMARY_BYTES], by_quarters[OTN_SUMMARY_BYTES], record[OTN_RECORD_BYTES], second[OTN_SUMMARY_BYTES];
    uint64_t of_quarter[SUMS] = {0}, of_day[SUMS] = {0};
    uint32_t seed = 6;
    memset(overhead, 0, sizeof overhead);
    memset(quarter, 0, sizeof quarter);
    memset(day, 0, sizeof day);
    memset(by_quarters, 0, sizeof by_quarters);
    check(all_given(1) == 0, "fresh, all levels");
    mfas = 0;
    for (uint32_t n = 1; n <= DAY + 2; n++) {
        /* second n, and the report of the one before it */
        for (uint32_t i = 0; n <= DAY + 1 && i < (n <= QUARTER ? n % 10 : n % 16 == 0); i++) {
            seed = seed * 1664525 + 1013904223;
            const uint8_t bdi = n % 100 < 20 ? 8 : 0, iae = n % 50 == 7 ? 4 : 0, bei = (uint8_t)(n % 11 << 4), other = (uint8_t)(n % 13 << 4);
            send(0, (uint8_t)(bei | bdi | iae), (uint8_t)(other | bdi | (n % 60 < 5 ? 7 : n % 60 < 9 ? 6 : n % 60 < 14 ? 5 : 1)));
            if (n % 900 > 500 && n % 900 < 540) memset(overhead, 0, 6);
            if (n > 600 && n < 640) overhead[6] = 0;
            const uint8_t flagged = (uint8_t)(n % 30 == 0 ? 1 + (seed >> 16) % 3 : 0), sm = (uint8_t)(seed >> 30), pm = (uint8_t)(seed >> 28 & 3);
            check(otn_refusal(otn_step(sup, ALL, overhead, 64, flagged, sm, pm)) == 0, "a day, a frame");
        }
        const uint64_t answer = n <= DAY + 1 ? otn_mark(sup, ALL, record, sizeof record) : otn_pending(sup, ALL, record, sizeof record);
        if (n == 1) {
            check(answer == 0, "a day, the first mark");
            continue;
        }
        const uint32_t number = n - 1;
        check(answer == TOLD && bounded(record) && otn_summary(record, sizeof record, second, sizeof second) == 0, "a day, a reported second");
        if (number > DAY) {
            check(otn_join(day, sizeof day, second, sizeof second, record, sizeof record) == 20, "a day is full");
            continue;
        }
        const uint64_t q = otn_quarter(number);
        if (number <= QUARTER) memcpy(single[number - 1], second, sizeof second);
        add(of_quarter, record);
        add(of_day, record);
        check(kept_with(quarter[q], second) && whole_sums(quarter[q], of_quarter), "a day, its quarter-hours by plain sums");
        check(kept_with(day, second) && whole_sums(day, of_day), "a day by plain sums");
        if (number % QUARTER) continue;
        check(of_quarter[0] == QUARTER * q + 1 && of_quarter[LENGTH] == QUARTER, "a quarter-hour, its seconds");
        check(kept_with(by_quarters, quarter[q]) && memcmp(by_quarters, day, sizeof day) == 0, "a day of quarter-hours is the day of its seconds");
        memset(of_quarter, 0, sizeof of_quarter);
    }
    check(of_day[0] == 1 && of_day[LENGTH] == DAY, "a day, its seconds");
    for (unsigned i = 0; i < SUMS; i++) {
        const int of_tim = i == OTN_SUMMARY_UNDER + OTN_HEAD_SECTION_TIM || i == OTN_SUMMARY_UNDER + OTN_HEAD_PATH_TIM;
        check((of_day[i] == 0) == of_tim, "a day, each figure is met, as no trace is compared");
    }

    /* wherever the first quarter-hour is cut, its two parts join to it; either may be empty */
    static uint8_t from[QUARTER + 1][OTN_SUMMARY_BYTES];
    uint8_t to[OTN_SUMMARY_BYTES];
    for (int i = QUARTER - 1; i >= 0; i--)
        check(otn_join(single[i], OTN_SUMMARY_BYTES, from[i + 1], OTN_SUMMARY_BYTES, from[i], OTN_SUMMARY_BYTES) == 0, "from a second to the end");
    memset(to, 0, sizeof to);
    for (int i = 0; i <= QUARTER; i++) {
        check(otn_join(to, sizeof to, from[i], sizeof from[i], second, sizeof second) == 0 && memcmp(second, quarter[0], sizeof second) == 0, "two neighbours join to both");
        if (i < QUARTER) check(kept_with(to, single[i]), "from the beginning to a second");
        if (i > 0 && i < QUARTER) check(otn_join(from[i], OTN_SUMMARY_BYTES, to, sizeof to, second, sizeof second) == 21, "and not the other way");
    }
    /* three quarter-hours, one way and the other */
    for (int q = 0; q + 2 < 96; q++) {
        uint8_t left[OTN_SUMMARY_BYTES], right[OTN_SUMMARY_BYTES], both[OTN_SUMMARY_BYTES];
        memcpy(left, quarter[q], sizeof left);
        memcpy(right, quarter[q + 1], sizeof right);
        check(kept_with(left, quarter[q + 1]) && kept_with(left, quarter[q + 2]) && kept_with(right, quarter[q + 2]), "three quarter-hours");
        check(otn_join(quarter[q], OTN_SUMMARY_BYTES, right, sizeof right, both, sizeof both) == 0 && memcmp(left, both, sizeof both) == 0, "three quarter-hours, the other way");
        check(otn_join(quarter[q], OTN_SUMMARY_BYTES, quarter[q + 2], OTN_SUMMARY_BYTES, both, sizeof both) == 21, "with one left out");
    }
    memset(overhead, 0, sizeof overhead);
}

/* Buffers that end where the pages end: a byte read or written behind one ends the test. */
static uint8_t *fenced(size_t n) {
    size_t page = 1 << 16;
    uint8_t *m = mmap(NULL, 2 * page, PROT_READ | PROT_WRITE, MAP_PRIVATE | MAP_ANONYMOUS, -1, 0);
    if (m == MAP_FAILED || mprotect(m + page, page, PROT_NONE) != 0) return NULL;
    return m + page - n;
}

static void fences(void) {
    uint8_t *s = fenced(ALL), *o = fenced(64), *n = fenced(32), *r = fenced(OTN_RECORD_BYTES), *t = fenced(64);
    uint8_t *a = fenced(OTN_SUMMARY_BYTES), *b = fenced(OTN_SUMMARY_BYTES), *c = fenced(OTN_SUMMARY_BYTES);
    if (!s || !o || !n || !r || !t || !a || !b || !c) {
        check(0, "pages for the fences");
        return;
    }
    check(otn_fresh(s, ALL, 1, 1, 2, 1, 2, 3, 3, 0, 0, n, 32, n, 32) == 0, "fenced, fresh");
    for (size_t m = 0; m < 32; m++) check(otn_level(s, ALL, 1, 1, 2, 3, 0, n + 32 - m, m) == 10, "fenced, short names of a level");
    for (uint8_t l = 1; l <= OTN_LEVELS; l++) check(otn_level(s, ALL, l, 1, 2, 3, 0, n, 32) == 0, "fenced, level");
    for (int i = 0; i < 200; i++) {
        static const uint8_t fas[6] = {0xf6, 0xf6, 0xf6, 0x28, 0x28, 0x28};
        memcpy(o, fas, 6);
        o[6] = (uint8_t)(254 + i);
        check(otn_refusal(i & 1 ? otn_step(s, ALL, o, 64, 0, 0, 0) : otn_step_levels(s, ALL, o, 64, 0, 0, 0, 1, 1, 1, 1, 1, 1)) == 0, "fenced, step");
    }
    check(otn_trace(s, ALL, 0, t, 64) == 0 && otn_trace(s, ALL, 1, t, 64) == 0, "fenced, trace");
    for (uint8_t l = 1; l <= OTN_LEVELS; l++) check(otn_level_trace(s, ALL, l, t, 64) == 0 && otn_refusal(otn_level_report(s, ALL, l)) == 0, "fenced, a level's readings");
    for (size_t m = 0; m <= OTN_RECORD_BYTES; m++) {
        check(otn_mark(s, ALL, r + OTN_RECORD_BYTES - m, m) == (m ? TOLD : 0), "fenced, mark");
        check(otn_pending(s, ALL, r + OTN_RECORD_BYTES - m, m) == TOLD, "fenced, pending");
    }
    for (size_t m = 0; m < ALL; m++) {
        uint8_t *less = s + ALL - m;
        check(otn_step(less, m, o, 64, 0, 0, 0) == 17 && otn_mark(less, m, r, OTN_RECORD_BYTES) == 17, "fenced, a short supervisor");
        check(otn_step_levels(less, m, o, 64, 0, 0, 0, 0, 0, 0, 0, 0, 0) == 17 && otn_level(less, m, 1, 1, 2, 0, 0, n, 32) == 17, "fenced, its levels");
        check(otn_trace(less, m, 0, t, 64) == 17 && otn_level_trace(less, m, 1, t, 64) == 17 && otn_level_report(less, m, 1) == 17, "fenced, a short supervisor's readings");
        check(otn_pending(less, m, r, OTN_RECORD_BYTES) == 17, "fenced, a short supervisor's pending second");
    }
    for (size_t m = 0; m < 64; m++) {
        check(otn_step(s, ALL, o + 64 - m, m, 0, 0, 0) == 1 && otn_trace(s, ALL, 0, t + 64 - m, m) == 12, "fenced, short buffers");
        check(otn_step_levels(s, ALL, o + 64 - m, m, 0, 0, 0, 0, 0, 0, 0, 0, 0) == 1 && otn_level_trace(s, ALL, 1, t + 64 - m, m) == 12, "fenced, short buffers of levels");
        if (m < 32) check(otn_fresh(s, ALL, 1, 1, 2, 1, 2, 0, 0, 0, 0, n + 32 - m, m, n, 32) == 10, "fenced, short names");
    }
    /* the pending second, in a record that ends at its last figure or before it, and summaries */
    for (size_t m = 0; m <= OTN_RECORD_BYTES; m++) {
        uint8_t *end = r + OTN_RECORD_BYTES - m;
        check(otn_pending(s, ALL, end, m) == TOLD && otn_summary(end, m, a, OTN_SUMMARY_BYTES) == (m < 88 ? 26 : 0), "fenced, summary");
    }
    for (size_t m = 0; m <= OTN_SUMMARY_BYTES; m++) {
        const size_t all = OTN_SUMMARY_BYTES;
        uint8_t *end = c + all - m;
        check(otn_summary(r, OTN_RECORD_BYTES, end, m) == 0 && otn_join(a, all, b, all, end, m) == 0, "fenced, outputs");
        memcpy(c, a, all);
        check(otn_join(end, m, b, all, t, 64) == (m < all ? 26 : 0) && otn_join(b, all, end, m, t, 64) == (m < all ? 26 : 0), "fenced, short summaries");
    }
}

/* What a call takes of the stack: it runs on a painted one, and the paint that is gone is counted from the caller's frame. Each call
   is held to its own bound, and all to the header's. libcard.a is for x86-64, and so is the change of stacks. */
enum { FRESH, LEVEL, STEP, STEP_LEVELS, MARK, PENDING, TRACE, LEVEL_REPORT, LEVEL_TRACE, SUMMARY, JOIN, CALLS };
static struct {
    const char *name;
    long bound, deepest;
} of_call[CALLS] = {{"otn_fresh", 256, 0}, {"otn_level", 512, 0}, {"otn_step", 1024, 0}, {"otn_step_levels", 1088, 0},
                    {"otn_mark", 1056, 0}, {"otn_pending", 832, 0}, {"otn_trace", 448, 0}, {"otn_level_report", 448, 0},
                    {"otn_level_trace", 512, 0}, {"otn_summary", 320, 0}, {"otn_join", 640, 0}};

static uint8_t stack[1 << 16] __attribute__((aligned(16)));
static int which;
static uint8_t flags, layer, one_level, out_bytes[OTN_RECORD_BYTES], summary_bytes[OTN_SUMMARY_BYTES], joined_bytes[OTN_SUMMARY_BYTES];
static const uint8_t *earlier_bytes = nothing;
static uint8_t *frame_of_caller;

static void caller(void) {
    frame_of_caller = __builtin_frame_address(0);
    switch (which) {
    case FRESH: otn_fresh(sup, ALL, 1, 1, 2, 1, 2, 3, 3, 0, 0, names, 32, names, 32); break;
    case LEVEL: otn_level(sup, ALL, one_level, 1, 2, 3, 0, names, 32); break;
    case STEP: otn_step(sup, ALL, overhead, 64, flags, 1, 1); break;
    case STEP_LEVELS: otn_step_levels(sup, ALL, overhead, 64, flags, 1, 1, 1, 1, 1, 1, 1, 1); break;
    case MARK: otn_mark(sup, ALL, out_bytes, sizeof out_bytes); break;
    case PENDING: otn_pending(sup, ALL, out_bytes, sizeof out_bytes); break;
    case TRACE: otn_trace(sup, ALL, layer, out_bytes, 64); break;
    case LEVEL_REPORT: otn_level_report(sup, ALL, one_level); break;
    case SUMMARY: otn_summary(out_bytes, sizeof out_bytes, summary_bytes, sizeof summary_bytes); break;
    case JOIN: otn_join(earlier_bytes, OTN_SUMMARY_BYTES, summary_bytes, sizeof summary_bytes, joined_bytes, sizeof joined_bytes); break;
    default: otn_level_trace(sup, ALL, one_level, out_bytes, 64); break;
    }
}

__attribute__((noinline)) static void on_painted_stack(void) {
    uint8_t *top = stack + sizeof stack;
    __asm__ volatile("movq %%rsp, %%rbx\n\tmovq %0, %%rsp\n\tcall *%1\n\tmovq %%rbx, %%rsp"
                     :
                     : "r"(top), "r"(caller)
                     : "rax", "rbx", "rcx", "rdx", "rsi", "rdi", "r8", "r9", "r10", "r11", "xmm0", "xmm1", "xmm2", "xmm3", "xmm4", "xmm5",
                       "xmm6", "xmm7", "xmm8", "xmm9", "xmm10", "xmm11", "xmm12", "xmm13", "xmm14", "xmm15", "memory", "cc");
}

static void measure(int call) {
    which = call;
    memset(stack, 0xa5, sizeof stack);
    on_painted_stack();
    uint8_t *low = stack;
    while (low < stack + sizeof stack && *low == 0xa5) low++;
    long depth = (long)(frame_of_caller - low);
    if (depth > of_call[call].deepest) of_call[call].deepest = depth;
}

/* each call in many states, with no level, two of them and all: while the line is found, in and at the end of each cycle, with a trace
   accepted, then failed, then refused */
static void readings(void) {
    measure(PENDING);
    measure(SUMMARY);
    for (int i = 0; i < 2; i++) {
        earlier_bytes = i ? summary_bytes : nothing;
        measure(JOIN);
    }
    for (layer = 0; layer < 2; layer++) measure(TRACE);
    for (one_level = 0; one_level <= OTN_LEVELS + 1; one_level++) {
        measure(LEVEL_REPORT);
        measure(LEVEL_TRACE);
    }
}

static void depths(void) {
    for (int some = 0; some < 3; some++)
        for (int call = STEP; call <= STEP_LEVELS; call++) {
            memset(overhead, 0, sizeof overhead);
            measure(FRESH);
            for (one_level = 0; one_level <= OTN_LEVELS + 1 && some; one_level = (uint8_t)(one_level + (some == 2 ? 1 : 3))) measure(LEVEL);
            readings();
            mfas = 254;
            for (int i = 0; i < 2 + 3 * 64 + 10; i++) {
                tandem(0, (uint8_t)(mfas & 63), 0xba);
                send((uint8_t)(mfas & 63), 0xbc, 0x08);
                measure(call);
            }
            readings();
            measure(MARK);
            measure(PENDING);
            for (flags = 1; flags < 5; flags++) measure(call);
            flags = 0;
            memset(overhead, 0, sizeof overhead);
            for (int i = 0; i < 70; i++) measure(call);
            measure(LEVEL);
            measure(MARK);
            measure(PENDING);
            measure(FRESH);
        }
    for (int i = 0; i < CALLS; i++) {
        printf("stack of %s: %ld bytes, at most %ld\n", of_call[i].name, of_call[i].deepest, of_call[i].bound);
        check(of_call[i].deepest > 0 && of_call[i].deepest <= of_call[i].bound, "the stack that a call may take");
        check(of_call[i].bound <= OTN_STACK_BYTES && OTN_STACK_BYTES <= 8192, "the stack that the header states");
    }
}

/* With a word on the command line the stack is not measured: valgrind does not bear the change of stacks. */
int main(int words, char **word) {
    (void)word;
    memset(room, 0xc3, sizeof room);
    refusals_of_fresh();
    refusals_of_level();
    refusals_of_step();
    refusals_of_step_levels();
    refusals_of_mark();
    refusals_of_pending();
    refusals_of_trace();
    refusals_of_readings();
    rows();
    ranges();
    ranges_of_sums();
    frames();
    compared();
    levels();
    neighbours(1);
    neighbours(8);
    sums();
    full_second(words == 1 ? 0 : FULL - 100);
    joining();
    one_second();
    a_day();
    fences();
    if (words == 1) depths();
    for (int i = 0; i < GUARD; i++) check(room[i] == 0xc3 && room[GUARD + OTN_SUPERVISOR_BYTES + i] == 0xc3, "no byte around the supervisor");
    printf("card.c: %d checks, %d failed\n", checks, failed);
    return failed != 0;
}
