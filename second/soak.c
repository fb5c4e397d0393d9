/* Any bytes and any numbers to the card's calls.
 *
 *     soak SEED CALLS
 *
 * Every lent buffer stands against a page that cannot be touched, at its end or at its start, so that a byte read or written past
 * it ends the run, whatever the library was built with. Held for each call:
 *   - it ends, with a refusal number that the call may answer, and by the order of the numbers where the supervisor is sound;
 *   - a refusal is its number and nothing else, and the supervisor and every lent buffer keep their contents;
 *   - an accepted frame answers nothing in bits 0 to 7 and 56 to 63 and a head of 0 to 9, a level's report bits 8 to 27 alone, a mark and
 *     otn_pending bit 8 alone, any other call 0; and it leaves a supervisor that is accepted again;
 *   - what is lent to be read is not written, nor is a record where bit 8 does not stand;
 *   - the pending second's 51 numbers are the supervisor's last 204 bytes: any in its range is accepted and told by otn_pending, one beyond it
 *     is refused with 17;
 *   - in the card's supervisor, of whose bytes docs/SUPERVISOR.md tells, a sum of the open second may be anything up to 3,200,000, and a far block
 *     adds its number to it up to that and no further; one beyond it is refused with 17;
 *   - otn_summary and otn_join answer what plain arithmetic gives, refusal and bytes, as far as the output has room; a tenth as many calls more.
 * The supervisors: fresh ones stepped on, ones with some bytes changed (these go on too, if accepted), and noise of any length. */
#define _DEFAULT_SOURCE
#include "otn.h"
#include <inttypes.h>
#include <stdio.h>
#include <stdlib.h>
#include <string.h>
#include <sys/mman.h>

enum { PAGE = 4096, PAGES = 8, BESIDE = 128, SUP = OTN_SUPERVISOR_BYTES, MOST = 2 * SUP + 200, PENDING = 51, SUMMARY = OTN_SUMMARY_BYTES };

static uint64_t state;
static uint64_t next(void)
{
    uint64_t z = state += 0x9E3779B97F4A7C15u;
    z = (z ^ z >> 30) * 0xBF58476D1CE4E5B9u;
    z = (z ^ z >> 27) * 0x94D049BB133111EBu;
    return z ^ z >> 31;
}
static uint64_t below(uint64_t n) { return next() % n; }

struct lent {
    uint8_t *pages, *bytes;
    size_t len;
    int at_start;
    uint8_t copy[PAGE * PAGES];
};
static struct lent sup_lent, a_lent, b_lent, sum_lent;

static void open_lent(struct lent *l)
{
    l->pages = mmap(NULL, (PAGES + 2) * PAGE, PROT_NONE, MAP_PRIVATE | MAP_ANONYMOUS, -1, 0);
    if (l->pages == MAP_FAILED || mprotect(l->pages + PAGE, PAGES * PAGE, PROT_READ | PROT_WRITE)) abort();
    l->pages += PAGE;
}

static uint8_t *lend(struct lent *l, const uint8_t *from, size_t len)
{
    if (len > PAGES * PAGE - BESIDE) abort();
    l->len = len;
    l->at_start = (int)below(2);
    l->bytes = l->at_start ? l->pages : l->pages + PAGES * PAGE - len;
    memset(l->at_start ? l->bytes + len : l->bytes - BESIDE, 0xC3, BESIDE);
    if (from)
        memcpy(l->bytes, from, len);
    else
        for (size_t i = 0; i < len; i++) l->bytes[i] = (uint8_t)next();
    memcpy(l->copy, l->bytes, len);
    return l->bytes;
}

static int kept(const struct lent *l) { return memcmp(l->copy, l->bytes, l->len) == 0; }

/* Nothing around the buffer was written either, on the side without a page. */
static int around(const struct lent *l)
{
    static const uint8_t c3[BESIDE] = {[0 ... BESIDE - 1] = 0xC3};
    return memcmp(l->at_start ? l->bytes + l->len : l->bytes - BESIDE, c3, BESIDE) == 0;
}

enum { FRESH, LEVEL, STEP, STEP_LEVELS, MARK, PENDING_SECOND, TRACE, LEVEL_REPORT, LEVEL_TRACE, ORDERS };
static uint64_t calls, answered[20], traces_read, level_traces_read, told, pending_tried, sums_tried, sums_full;
static uint8_t count;
static uint64_t seed;
static void fail(const char *call, uint64_t answer, const char *what)
{
    printf("soak: seed %" PRIu64 ", call %" PRIu64 ", %s answered %#" PRIx64 ": %s\n", seed, calls, call, answer, what);
    exit(1);
}

/* One call on the supervisor in sup (its bytes and length are replaced where it is accepted). sound: it comes from fresh. */
static uint64_t call(uint8_t *sup, size_t len, int sound, int order)
{
    static const uint8_t small[16] = {0, 1, 2, 3, 4, 5, 8, 9, 10, 11, 15, 16, 63, 64, 128, 255};
    uint8_t *s = lend(&sup_lent, sup, len);
    uint64_t answer;
    const char *name;
    unsigned expected = 0, may; /* the refusal by the order of numbers, but for 17, 4 and 13; and what may be answered */
    int reads_a = 1;
    calls++;
    lend(&b_lent, NULL, 0);
    lend(&a_lent, NULL, 0);
    if (order == FRESH) {
        name = "otn_fresh";
        const uint8_t k = below(8) ? 1 + below(3) : (uint8_t)next();
        const uint32_t ceiling = k == 1 ? 20420 : k == 2 ? 82025 : 329492;
        uint32_t thr[2];
        uint8_t degm[2], mode[2], dis[2];
        size_t n[2];
        for (int i = 0; i < 2; i++) {
            thr[i] = below(12) ? 1 + below(below(2) ? 4 : ceiling) : (uint32_t)(next() >> below(64));
            degm[i] = below(12) ? 2 + below(9) : (uint8_t)next();
            mode[i] = below(12) ? below(4) : (uint8_t)next();
            dis[i] = below(12) ? below(3) : (uint8_t)next();
            n[i] = below(12) ? 32 : below(70);
        }
        lend(&a_lent, NULL, n[0]), lend(&b_lent, NULL, n[1]);
        if (k < 1 || k > 3) expected = 5;
        for (int i = 0; i < 2; i++) {
            unsigned low = thr[i] < 1 || thr[i] > ceiling ? 6
                           : degm[i] < 2 || degm[i] > 10  ? 7
                           : mode[i] > 3                  ? 8
                           : dis[i] > 2                   ? 9
                           : n[i] != 32                   ? 10
                                                          : 0;
            if (low && (!expected || low < expected)) expected = low;
        }
        if (len != SUP) expected = 17;
        answer = otn_fresh(s, len, k, thr[0], degm[0], thr[1], degm[1], mode[0], mode[1], dis[0], dis[1], a_lent.bytes, n[0],
                           b_lent.bytes, n[1]);
        if (answer != expected) fail(name, answer, "another refusal was due");
        may = 1 << answer;
    } else if (order == LEVEL) {
        name = "otn_level";
        const uint8_t level = below(8) ? 1 + below(6) : (uint8_t)next();
        const uint32_t thr = below(12) ? 1 + below(below(2) ? 4 : 20420) : (uint32_t)(next() >> below(64));
        const uint8_t degm = below(12) ? 2 + below(9) : (uint8_t)next(), mode = below(12) ? below(4) : (uint8_t)next();
        const uint8_t dis = below(12) ? below(3) : (uint8_t)next();
        lend(&a_lent, NULL, below(12) ? 32 : below(70));
        /* a threshold above 20,420 may be right for k = 2 and 3, a level may be given, and a frame or a mark accepted */
        expected = thr < 1 || thr > 329492 ? 6 : degm < 2 || degm > 10 ? 7 : mode > 3 ? 8 : dis > 2 ? 9 : a_lent.len != 32 ? 10 : 0;
        const int may_be_6 = thr > 20420;
        answer = otn_level(s, len, level, thr, degm, mode, dis, a_lent.bytes, a_lent.len);
        may = 1 << 17 | 1 << expected | (may_be_6 ? 1 << 6 : 0) | (expected ? 0 : 1 << 16 | 1 << 18);
        if (!expected && (level < 1 || level > 6)) may &= ~1u;
    } else if (order == STEP || order == STEP_LEVELS) {
        name = order == STEP ? "otn_step" : "otn_step_levels";
        uint8_t overhead[200];
        const size_t n = below(20) ? 64 : below(200);
        for (size_t i = 0; i < n; i++) overhead[i] = (uint8_t)next();
        const int steady = sound && calls / 4000 % 2; /* long enough for traces to be accepted */
        if ((steady || below(8)) && n == 64) {
            memcpy(overhead, "\xF6\xF6\xF6\x28\x28\x28", 6);
            overhead[6] = steady || below(20) ? count : (uint8_t)next();
            if (steady || below(4)) overhead[7] = overhead[41] = 0;
            if (steady || below(3)) overhead[9] = overhead[43] = 0;
            for (int l = 1; l <= 6; l++) {
                const int at = l <= 3 ? 41 - 3 * l : 38 - 3 * l;
                if (steady || below(4)) overhead[at] = (uint8_t)l;
                if (steady || below(3)) overhead[at + 2] = 1;
            }
        }
        lend(&a_lent, overhead, n);
        const uint8_t flags = steady ? below(40) ? 0 : 4 + below(252) : below(6) ? 0 : below(2) ? small[below(16)] : (uint8_t)next();
        const uint8_t sm = below(3) ? 0 : small[below(16)], pm = below(3) ? 0 : small[below(16)];
        uint8_t t[6];
        int high = 0;
        for (int i = 0; i < 6; i++) high |= (t[i] = below(6) ? below(9) : small[below(16)]) > 8;
        expected = n != 64 ? 1 : flags > 3 ? 2 : sm > 8 || pm > 8 || (order == STEP_LEVELS && high) ? 3 : 0;
        if (order == STEP)
            answer = otn_step(s, len, a_lent.bytes, n, flags, sm, pm);
        else
            answer = otn_step_levels(s, len, a_lent.bytes, n, flags, sm, pm, t[0], t[1], t[2], t[3], t[4], t[5]);
        may = 1 << 17 | 1 << expected | (expected ? 0 : 1 << 4);
        if (sound && !(answer & 255)) count++; /* the sound one's MFAS goes on */
    } else if (order == MARK || order == PENDING_SECOND) {
        name = order == MARK ? "otn_mark" : "otn_pending";
        lend(&a_lent, NULL, below(2) ? OTN_RECORD_BYTES : below(300));
        answer = order == MARK ? otn_mark(s, len, a_lent.bytes, a_lent.len) : otn_pending(s, len, a_lent.bytes, a_lent.len);
        may = 1 << 17 | 1 << 0 | (order == MARK ? 1 << 4 : 0);
        reads_a = answer >> 8 == 0;
        const size_t past = OTN_RECORD_BYTES;
        if (answer >> 8 && a_lent.len > past && memcmp(a_lent.bytes + past, a_lent.copy + past, a_lent.len - past))
            fail(name, answer, "bytes past the record were written");
    } else if (order == LEVEL_REPORT) {
        name = "otn_level_report";
        const uint8_t level = below(4) ? 1 + below(6) : (uint8_t)next();
        expected = level < 1 || level > 6 ? 18 : 0;
        answer = otn_level_report(s, len, level);
        may = 1 << 17 | 1 << expected;
    } else if (order == LEVEL_TRACE) {
        name = "otn_level_trace";
        const uint8_t level = below(4) ? 1 + below(6) : (uint8_t)next();
        lend(&a_lent, NULL, below(3) ? 64 : below(200));
        expected = a_lent.len != 64 ? 12 : level < 1 || level > 6 ? 13 : 0;
        answer = otn_level_trace(s, len, level, a_lent.bytes, a_lent.len);
        may = 1 << 17 | 1 << expected | (expected ? 0 : 1 << 13);
        reads_a = 0;
    } else {
        name = "otn_trace";
        const uint8_t layer = below(4) ? below(2) : (uint8_t)next();
        lend(&a_lent, NULL, below(3) ? 64 : below(200));
        expected = layer > 1 ? 11 : a_lent.len != 64 ? 12 : 0;
        answer = otn_trace(s, len, layer, a_lent.bytes, a_lent.len);
        may = 1 << 17 | 1 << expected | (expected ? 0 : 1 << 13);
        reads_a = 0;
    }
    const unsigned refusal = answer & 255;
    if (refusal > 19 || !(may >> refusal & 1)) fail(name, answer, "this refusal was not due");
    if (order != FRESH && len != SUP && refusal != 17) fail(name, answer, "the supervisor's length is wrong");
    if (sound && refusal == 17) fail(name, answer, "no history from fresh meets 17");
    if (refusal && answer != refusal) fail(name, answer, "a refusal answers its number and nothing else");
    const int steps = order == STEP || order == STEP_LEVELS, only_reads = order >= PENDING_SECOND, tells = order == MARK || order == PENDING_SECOND;
    if (steps && (answer >> 56 || (answer >> 8 & 15) > 9)) fail(name, answer, "bits that cannot stand");
    if (order == LEVEL_REPORT && (answer >> 28 || (!refusal && answer && !(answer >> 8 & 1)))) fail(name, answer, "bits that cannot stand");
    if (tells && answer >> 9) fail(name, answer, "bits that cannot stand");
    if (!steps && !tells && order != LEVEL_REPORT && !refusal && answer) fail(name, answer, "this call answers 0");
    if (refusal && !kept(&sup_lent)) fail(name, answer, "a refused call changed the supervisor");
    if (only_reads && !kept(&sup_lent)) fail(name, answer, "a reading changed the supervisor");
    if ((refusal || reads_a) && !kept(&a_lent)) fail(name, answer, "a lent buffer was changed");
    if (!kept(&b_lent)) fail(name, answer, "a lent buffer was changed");
    if (!around(&sup_lent) || !around(&a_lent) || !around(&b_lent)) fail(name, answer, "bytes beside a lent buffer were written");
    answered[refusal]++;
    told += tells && answer >> 8;
    traces_read += order == TRACE && !refusal;
    level_traces_read += order == LEVEL_TRACE && !refusal;
    if (!refusal) {
        memcpy(sup, s, len);
        uint8_t none[1];
        if (otn_trace(s, len, 2, none, 1) != 11) fail(name, answer, "what it left is not accepted again");
    }
    return answer;
}

static uint32_t word(const uint8_t *at) { return at[0] | at[1] << 8 | at[2] << 16 | (uint32_t)at[3] << 24; }

static void put_word(uint8_t *at, uint32_t v)
{
    for (int i = 0; i < 4; i++) at[i] = (uint8_t)(v >> 8 * i);
}

/* One number of the pending second in its range or beyond it, in a copy of a sound supervisor. What a level that is not provisioned shows is
 * left open. */
static void pending_number(const uint8_t *sound)
{
    static uint8_t other[SUP];
    uint8_t record[OTN_RECORD_BYTES] = {0};
    const unsigned n = (unsigned)below(PENDING);
    const unsigned of = n < 11 ? 0 : (n - 11) % 5; /* of a group: two counts of blocks, two DS, the sum; frames and heads before them */
    const uint32_t greatest = of < 2 ? 400000 : of < 4 ? 1 : 3200000;
    const uint32_t v = below(2) ? greatest + (uint32_t)below(2) : below(2) ? (uint32_t)below(greatest + 1) : (uint32_t)(next() >> below(64));
    memcpy(other, sound, SUP);
    put_word(other + SUP - 4 * PENDING + 4 * n, v);
    const uint64_t answer = otn_pending(other, SUP, record, sizeof record);
    calls++, pending_tried++;
    if ((answer & 255) != (v > greatest ? 17 : 0)) fail("otn_pending", answer, "a pending number's range is another");
    if (answer >> 8 && n < 21 && word(record + 4 * (n + 1)) != v) fail("otn_pending", answer, "a pending number is told otherwise");
}

/* One sum of the open second of the card's supervisor, in its range or beyond it, in a copy of a sound one, and then a frame with BEI 8 everywhere. In the 32
 * bytes that a layer's state begins with the sum is at 20, the far blocks at 28. The stand-in keeps them elsewhere. */
static void open_sum(const uint8_t *sound)
{
    static uint8_t other[SUP];
    uint8_t overhead[64], record[OTN_RECORD_BYTES] = {0};
    if (SUP != 2652) return;
    const unsigned party = (unsigned)below(8); /* section, path, TCM1 to TCM6 */
    const unsigned at = party < 2 ? 144 + 288 * party : 752 + 288 * (party - 2);
    const uint32_t v = below(2) ? 3200002 - (uint32_t)below(16) : below(2) ? (uint32_t)below(3200001) : (uint32_t)(next() >> below(64));
    memcpy(other, sound, SUP);
    put_word(other + at + 20, v);
    const uint32_t far = word(other + at + 28);
    memset(overhead, 0x81, sizeof overhead);
    const uint64_t answer = otn_step(other, SUP, overhead, sizeof overhead, 0, 0, 0);
    calls++, sums_tried++;
    if ((answer & 255) == 4) return; /* a full second */
    if ((answer & 255) != (v > 3200000 ? 17 : 0)) fail("otn_step", answer, "a sum's range is another");
    if (answer & 255) return;
    const uint32_t blocks = word(other + at + 28) - far, sum = word(other + at + 20);
    const uint32_t due = blocks == 0 ? v : v > 3200000 - 8 ? 3200000 : v + 8;
    if (blocks > 1 || sum != due) fail("otn_step", answer, "a sum has grown otherwise");
    sums_full += blocks && due == 3200000;
    if (otn_mark(other, SUP, record, sizeof record) & 255) return; /* no more seconds */
    const uint64_t pending = otn_pending(other, SUP, record, sizeof record);
    const uint32_t shown = word(record + 4 * (16 + 5 * party)); /* 0 where it is voided, or the level is not provisioned */
    calls += 2;
    if (pending != 256 || (shown != 0 && shown != sum)) fail("otn_pending", pending, "a sum is told otherwise");
}

/* What number i of a summary may be at most for each second: a count or head, a DS, or a sum. */
static uint64_t most(int i)
{
    const int of = i < 13 ? 0 : (i - 13) % 5;
    return of < 2 ? 400000 : of < 4 ? 1 : 3200000;
}

static int valid(const uint64_t s[23])
{
    if (s[1] > 86400 || s[0] > UINT32_MAX) return 0; /* nothing below overflows then */
    int good = (s[0] == 0) == (s[1] == 0) && s[0] + s[1] <= (uint64_t)UINT32_MAX + 1;
    for (int i = 2; i < 23; i++) good &= s[i] <= most(i) * s[1];
    return good;
}

/* A summary from first on, or from anywhere where that is 0; mostly a valid one. */
static void any_summary(uint64_t s[23], uint64_t first)
{
    const uint64_t length = below(8) == 0 ? 0 : below(4) == 0 ? 86400 : 1 + below(below(2) ? 86400 : 1000);
    memset(s, 0, 23 * sizeof *s);
    if (length) {
        s[0] = first ? first : below(2) ? 1 + below(UINT32_MAX) : UINT32_MAX + 1ull - length;
        s[1] = length;
    }
    for (int i = 2; i < 23; i++) s[i] = below(2) ? below(most(i) * length + 1) : below(2) ? most(i) * length : 0;
    const int i = below(4) ? (int)below(23) : below(2) ? 17 : 22; /* more often a sum */
    if (below(6) == 0) s[i] = below(2) ? next() >> below(64) : s[i] + 1;
}

/* The numbers as bytes, width of them for each, mostly of the right length. */
static void lend_numbers(struct lent *l, const uint64_t *numbers, size_t n, unsigned width)
{
    uint8_t bytes[300];
    const size_t right = n * width, len = below(8) ? right : below(3) ? right - 1 + below(3) : below(sizeof bytes);
    for (size_t i = 0; i < sizeof bytes; i++) bytes[i] = i < right ? (uint8_t)(numbers[i / width] >> 8 * (i % width)) : (uint8_t)next();
    lend(l, below(16) ? bytes : NULL, len);
}

/* The number at its place in what is lent. */
static uint64_t lent_number(const struct lent *l, int at, unsigned width)
{
    uint64_t v = 0;
    for (unsigned i = 0; i < width; i++) v |= (uint64_t)l->bytes[at * width + i] << 8 * i;
    return v;
}

static uint64_t summed[27]; /* by answer */

/* otn_summary of a record. */
static unsigned summary_of_record(uint64_t sum[23])
{
    uint64_t figures[52];
    figures[0] = below(8) ? 1 + below(UINT32_MAX) : 0;
    for (int i = 1; i < 52; i++) figures[i] = below(120) ? below(most(i + 1) + 1) : below(2) ? most(i + 1) + below(2) : next();
    lend_numbers(&a_lent, figures, 52, 4);
    if (a_lent.len < 88) return 26;
    for (int i = 0; i < 22; i++) sum[i ? i + 1 : 0] = lent_number(&a_lent, i, 4);
    sum[1] = 1;
    return valid(sum) ? 0 : 26;
}

/* otn_join of two summaries, of which the later one mostly follows on. */
static unsigned joined_of_two(uint64_t sum[23])
{
    uint64_t a[23], b[23];
    any_summary(a, 0);
    const uint64_t next_first = a[0] + a[1];
    any_summary(b, next_first <= UINT32_MAX && below(4) ? next_first + (below(8) ? 0 : below(3) - 1) : 0);
    lend_numbers(&a_lent, a, 23, 8), lend_numbers(&b_lent, b, 23, 8);
    if (a_lent.len != SUMMARY || b_lent.len != SUMMARY) return 26;
    for (int i = 0; i < 23; i++) {
        a[i] = lent_number(&a_lent, i, 8), b[i] = lent_number(&b_lent, i, 8);
        sum[i] = a[i] + b[i];
    }
    if (a[1]) sum[0] = a[0]; /* otherwise the later one's, or 0 */
    return !valid(a) || !valid(b) ? 26 : sum[1] > 86400 ? 20 : a[1] && b[1] && a[0] + a[1] != b[0] ? 21 : 0;
}

/* One call of the two, and what plain arithmetic gives. */
static void sums(void)
{
    const int join = (int)below(3);
    const char *name = join ? "otn_join" : "otn_summary";
    uint64_t sum[23];
    calls++;
    lend(&b_lent, NULL, 0);
    const unsigned expected = join ? joined_of_two(sum) : summary_of_record(sum);
    uint8_t *out = lend(&sum_lent, NULL, below(2) ? SUMMARY : below(400));
    const uint64_t answer = join ? otn_join(a_lent.bytes, a_lent.len, b_lent.bytes, b_lent.len, out, sum_lent.len)
                                 : otn_summary(a_lent.bytes, a_lent.len, out, sum_lent.len);
    if (answer != expected) fail(name, answer, "another answer was due");
    for (size_t i = 0; i < sum_lent.len; i++) {
        const uint8_t due = answer || i >= SUMMARY ? sum_lent.copy[i] : (uint8_t)(sum[i / 8] >> 8 * (i % 8));
        if (out[i] != due) fail(name, answer, "the output holds other bytes");
    }
    if (!kept(&a_lent) || !kept(&b_lent)) fail(name, answer, "a lent buffer was changed");
    if (!around(&a_lent) || !around(&b_lent) || !around(&sum_lent)) fail(name, answer, "bytes beside a lent buffer were written");
    summed[answer]++;
}

int main(int argc, char **argv)
{
    seed = argc > 1 ? strtoull(argv[1], NULL, 10) : 1;
    const uint64_t wanted = argc > 2 ? strtoull(argv[2], NULL, 10) : 200000;
    state = seed;
    open_lent(&sup_lent), open_lent(&a_lent), open_lent(&b_lent), open_lent(&sum_lent);
    static uint8_t sound[SUP], other[MOST];
    uint64_t mutated = 0, mutated_accepted = 0;
    while (call(sound, SUP, 0, FRESH) != 0) {}
    while (calls < wanted) {
        const uint64_t sort = below(100);
        if (sort < 70) { /* on with the sound one */
            const uint64_t o = below(400);
            if (o == 0) { /* anew, with some levels */
                if (call(sound, SUP, 1, FRESH) == 0)
                    for (uint64_t n = below(10); n; n--) call(sound, SUP, 1, LEVEL);
            } else if (o < 8)
                pending_number(sound);
            else if (o < 12)
                open_sum(sound);
            else
                call(sound, SUP, 1, o < 180 ? STEP : o < 350 ? STEP_LEVELS : o < 365 ? MARK : o < 370 ? LEVEL : PENDING_SECOND + (int)below(4));
        } else if (sort < 90) { /* a changed one, and on with it */
            memcpy(other, sound, SUP);
            for (uint64_t n = 1 + below(3); n; n--) {
                const uint64_t at = below(SUP);
                other[at] = below(2) ? (uint8_t)next() : other[at] ^ 1 << below(8);
            }
            mutated++;
            for (uint64_t n = 1 + below(20); n; n--) {
                const uint64_t answer = call(other, SUP, 0, 1 + (int)below(ORDERS - 1)) & 255;
                if (answer == 17) break;
                mutated_accepted += answer == 0;
            }
        } else { /* noise, or zeros, or all ones, of any length */
            const size_t len = below(3) ? SUP : below(MOST);
            const int fill = (int)below(3);
            for (size_t i = 0; i < len; i++) other[i] = fill == 0 ? 0 : fill == 1 ? 0xFF : (uint8_t)next();
            call(other, len, 0, (int)below(ORDERS));
        }
    }
    printf("soak: seed %" PRIu64 ", %" PRIu64 " calls, %" PRIu64 " changed supervisors (%" PRIu64 " calls accepted on them), %" PRIu64
           " traces and %" PRIu64 " of levels read, %" PRIu64 " seconds told, %" PRIu64
           " numbers of a pending second tried, %" PRIu64 " sums of the open one, %" PRIu64 " of them up to the most\nanswers 0 to 19:",
           seed, calls, mutated, mutated_accepted, traces_read, level_traces_read, told, pending_tried, sums_tried, sums_full);
    for (int i = 0; i < 20; i++) printf(" %" PRIu64, answered[i]);
    for (uint64_t n = wanted / 10; n; n--) sums();
    printf("\n%" PRIu64 " summaries and joinings: accepted %" PRIu64 ", 20 %" PRIu64 ", 21 %" PRIu64 ", 26 %" PRIu64 "\n", wanted / 10,
           summed[0], summed[20], summed[21], summed[26]);
    return 0;
}
