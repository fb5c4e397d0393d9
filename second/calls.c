/* Drives the card's calls from a stream of orders on standard input and writes what they answered to standard output.
 * Every lent buffer stands between guard bytes; around a call that must not change it, it is compared with a copy.
 *
 * Orders, all little-endian:
 *   F sup  k thr(4) degm thr(4) degm mode mode dis dis  len(2) len(2) names names      otn_fresh
 *   L sup  level thr(4) degm mode dis  len(2) names                                   otn_level
 *   S sup  len(2) bytes flags sm pm                                                   otn_step
 *   N sup  len(2) bytes flags sm pm t1 t2 t3 t4 t5 t6                                 otn_step_levels
 *   M sup  room(2) fill                                                               otn_mark
 *   Q sup  room(2) fill                                                               otn_pending
 *   T sup  layer room(2) fill                                                         otn_trace
 *   P sup  level                                                                      otn_level_report
 *   U sup  level room(2) fill                                                         otn_level_trace
 *   R  len(2) record  room(2) fill                                                    otn_summary
 *   J  len(2) earlier  len(2) later  room(2) fill                                     otn_join
 *   Z                                                                                 write out what is gathered
 * sup is one byte: 0 the supervisor; 1 it less its last byte; 2 with a byte more; 3 none of it; 4 its right length, all FF bytes; 5 to 55 it,
 * with number sup - 5 of the pending second's 51, which are its last 204 bytes, one beyond its range.
 * Answer: the word (8), a byte of complaints (0: none), and for M, Q, T, U, R and J the lent buffer as it is after the call. */
#include "otn.h"
#include <stdio.h>
#include <stdlib.h>
#include <string.h>
#include <unistd.h>

enum { GUARD = 33, PENDING = 51 }; /* odd, so that no lent buffer is aligned; and how many numbers the pending second has */
enum { INPUT_CHANGED = 1, GUARD_BROKEN = 2, SUPERVISOR_CHANGED = 4, BUFFER_CHANGED = 8 };

static uint8_t in[1 << 16], out[1 << 16];
static size_t in_at, in_end, out_end;

static void flush(void)
{
    for (size_t done = 0; done < out_end;) {
        ssize_t n = write(1, out + done, out_end - done);
        if (n <= 0) exit(2);
        done += (size_t)n;
    }
    out_end = 0;
}

static void put(const void *bytes, size_t n)
{
    for (const uint8_t *b = bytes; n; n--, b++) {
        if (out_end == sizeof out) flush();
        out[out_end++] = *b;
    }
}

static int get(void)
{
    if (in_at == in_end) {
        ssize_t n = read(0, in, sizeof in);
        if (n <= 0) return -1;
        in_at = 0, in_end = (size_t)n;
    }
    return in[in_at++];
}

static uint8_t byte(void)
{
    int c = get();
    if (c < 0) exit(3);
    return (uint8_t)c;
}

static uint32_t number(int bytes)
{
    uint32_t v = 0;
    for (int i = 0; i < bytes; i++) v |= (uint32_t)byte() << 8 * i;
    return v;
}

/* A lent buffer between guard bytes, and a copy of what it held. */
enum { MOST = 65536 };
struct lent {
    uint8_t before[GUARD], bytes[MOST + GUARD], copy[MOST];
    size_t len;
};

static void lend(struct lent *l, size_t len)
{
    l->len = len;
    memset(l->before, 0xA5, GUARD);
    memset(l->bytes + len, 0x5A, GUARD);
}

static void remember(struct lent *l) { memcpy(l->copy, l->bytes, l->len); }
static int changed(const struct lent *l) { return memcmp(l->copy, l->bytes, l->len) != 0; }

static int guarded(const struct lent *l)
{
    static const uint8_t before[GUARD] = {[0 ... GUARD - 1] = 0xA5}, after[GUARD] = {[0 ... GUARD - 1] = 0x5A};
    return memcmp(l->before, before, GUARD) == 0 && memcmp(l->bytes + l->len, after, GUARD) == 0;
}

static void take(struct lent *l)
{
    for (size_t i = 0; i < l->len;) {
        if (in_at == in_end) {
            l->bytes[i++] = byte();
            continue;
        }
        size_t some = in_end - in_at < l->len - i ? in_end - in_at : l->len - i;
        memcpy(l->bytes + i, in + in_at, some);
        in_at += some, i += some;
    }
    remember(l);
}

/* otn_summary or otn_join: no supervisor, one lent buffer or two to be read, and one to be filled. */
static void sum(int order)
{
    static struct lent earlier, later, sum;
    lend(&earlier, number(2));
    take(&earlier);
    lend(&later, order == 'J' ? number(2) : 0);
    take(&later);
    lend(&sum, number(2));
    memset(sum.bytes, byte(), sum.len);
    remember(&sum);
    const uint64_t answer = order == 'J' ? otn_join(earlier.bytes, earlier.len, later.bytes, later.len, sum.bytes, sum.len)
                                         : otn_summary(earlier.bytes, earlier.len, sum.bytes, sum.len);
    uint8_t complaints = 0;
    if (changed(&earlier) || changed(&later)) complaints |= INPUT_CHANGED;
    if (answer && changed(&sum)) complaints |= BUFFER_CHANGED;
    if (!guarded(&earlier) || !guarded(&later) || !guarded(&sum)) complaints |= GUARD_BROKEN;
    put(&answer, 8);
    put(&complaints, 1);
    put(sum.bytes, sum.len);
}

int main(void)
{
    static struct lent right, less, more, none, beyond, pending, a, b;
    struct lent *sups[6] = {&right, &less, &more, &none, &beyond, &pending};
    lend(&right, OTN_SUPERVISOR_BYTES), lend(&less, OTN_SUPERVISOR_BYTES - 1), lend(&more, OTN_SUPERVISOR_BYTES + 1);
    lend(&none, 0), lend(&beyond, OTN_SUPERVISOR_BYTES), lend(&pending, OTN_SUPERVISOR_BYTES);
    for (int order; (order = get()) >= 0;) {
        if (order == 'Z') {
            flush();
            continue;
        }
        if (order == 'R' || order == 'J') {
            sum(order);
            continue;
        }
        const uint8_t which = byte();
        if (which >= 5 + PENDING) exit(5);
        struct lent *s = sups[which < 5 ? which : 5];
        if (which == 1) memcpy(s->bytes, right.bytes, s->len);
        if (which == 2) memcpy(s->bytes, right.bytes, right.len), s->bytes[right.len] = 0;
        if (which == 4) memset(s->bytes, 0xFF, s->len);
        if (which >= 5) {
            const int n = which - 5;
            const int of = n < 11 ? 0 : (n - 11) % 5; /* of a group of five: two counts of blocks, two DS, the sum; frames and heads before them */
            const uint32_t v = of < 2 ? 400001 : of < 4 ? 2 : 3200001;
            memcpy(s->bytes, right.bytes, s->len);
            for (int i = 0; i < 4; i++) s->bytes[s->len - 4 * PENDING + 4 * n + i] = (uint8_t)(v >> 8 * i);
        }
        remember(s);
        uint64_t answer;
        uint8_t complaints = 0;
        int shows = 0;
        lend(&a, 0), lend(&b, 0);
        if (order == 'F') {
            const uint8_t k = byte();
            const uint32_t sm_thr = number(4);
            const uint8_t sm_degm = byte();
            const uint32_t pm_thr = number(4);
            const uint8_t pm_degm = byte(), sm_mode = byte(), pm_mode = byte(), sm_dis = byte(), pm_dis = byte();
            lend(&a, number(2));
            lend(&b, number(2));
            take(&a), take(&b);
            answer = otn_fresh(s->bytes, s->len, k, sm_thr, sm_degm, pm_thr, pm_degm, sm_mode, pm_mode, sm_dis, pm_dis, a.bytes,
                               a.len, b.bytes, b.len);
            if (changed(&a) || changed(&b)) complaints |= INPUT_CHANGED;
        } else if (order == 'L') {
            const uint8_t level = byte();
            const uint32_t thr = number(4);
            const uint8_t degm = byte(), mode = byte(), dis = byte();
            lend(&a, number(2));
            take(&a);
            answer = otn_level(s->bytes, s->len, level, thr, degm, mode, dis, a.bytes, a.len);
            if (changed(&a)) complaints |= INPUT_CHANGED;
        } else if (order == 'S' || order == 'N') {
            lend(&a, number(2));
            take(&a);
            const uint8_t flags = byte(), sm = byte(), pm = byte();
            if (order == 'S')
                answer = otn_step(s->bytes, s->len, a.bytes, a.len, flags, sm, pm);
            else {
                uint8_t t[6];
                for (int i = 0; i < 6; i++) t[i] = byte();
                answer = otn_step_levels(s->bytes, s->len, a.bytes, a.len, flags, sm, pm, t[0], t[1], t[2], t[3], t[4], t[5]);
            }
            if (changed(&a)) complaints |= INPUT_CHANGED;
        } else if (order == 'M' || order == 'Q' || order == 'T' || order == 'U') {
            const uint8_t of = order == 'M' || order == 'Q' ? 0 : byte();
            lend(&a, number(2));
            const uint8_t fill = byte();
            memset(a.bytes, fill, a.len);
            remember(&a);
            if (order == 'M')
                answer = otn_mark(s->bytes, s->len, a.bytes, a.len);
            else if (order == 'Q')
                answer = otn_pending(s->bytes, s->len, a.bytes, a.len);
            else if (order == 'T')
                answer = otn_trace(s->bytes, s->len, of, a.bytes, a.len);
            else
                answer = otn_level_trace(s->bytes, s->len, of, a.bytes, a.len);
            if ((answer & 255) && changed(&a)) complaints |= BUFFER_CHANGED;
            if (order != 'M' && changed(s)) complaints |= SUPERVISOR_CHANGED;
            shows = 1;
        } else if (order == 'P') {
            answer = otn_level_report(s->bytes, s->len, byte());
            if (changed(s)) complaints |= SUPERVISOR_CHANGED;
        } else
            exit(6);
        if ((answer & 255) && changed(s)) complaints |= SUPERVISOR_CHANGED;
        if (!guarded(s) || !guarded(&a) || !guarded(&b)) complaints |= GUARD_BROKEN;
        put(&answer, 8);
        put(&complaints, 1);
        if (shows) put(a.bytes, a.len);
    }
    flush();
    return 0;
}
