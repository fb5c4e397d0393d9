/* Nanoseconds a frame: the card's otn_step beside plain.c, by one compiler or by two, and beside the same calls by hand over plain.c
 * (plain_card.c), in one run.
 *
 *     speed_step TRACE...
 *     speed_step --levels LEVELS TRACE...                              otn_step_levels, with so many tandem levels provisioned
 *
 * For counting instructions, one contender alone and no time:
 *
 *     speed_step --only base|clang|card|hand|edge FRAMES TRACE [LEVELS]     once, over so many frames
 *     speed_step --call card|hand CALL TIMES TRACE LEVELS                   one call so many times, on what 400 frames left
 *
 * And to the output, for the programs that read traces:
 *
 *     speed_step --write TRACE LEVELS                                  the same frames, of kind 5, with so many levels
 *
 * edge is card with a second call before each frame's, on the same bytes, that is refused with 1 right after the test of 17: what it
 * takes more than card is that test.
 *
 * The frames of each trace are read into memory first. The contenders take turns over all of them, each with a mark where the trace
 * has one; the least processor time of the turns counts. Nothing is cleared between frames. Their answers are summed and compared; with
 * levels also what the levels' reports, traces and figures say after each frame and mark, by a run that is not timed. Levels 1 and up are
 * provisioned as the path is; all six have the path's three bytes and its violation count in each frame. */
#define _DEFAULT_SOURCE
#include "otn.h"
#include "plain.h"
#include <inttypes.h>
#include <stdio.h>
#include <stdlib.h>
#include <string.h>
#include <time.h>

/* plain.c under names of its own */
#define PLAIN(by)                                                                                                                \
    uint64_t by##_plain_fresh(struct plain *, uint8_t, uint32_t, uint8_t, uint32_t, uint8_t, uint8_t, uint8_t, uint8_t, uint8_t, \
                              const uint8_t *, size_t, const uint8_t *, size_t);                                                 \
    uint64_t by##_plain_level(struct plain *, uint8_t, uint32_t, uint8_t, uint8_t, uint8_t, const uint8_t *, size_t);            \
    uint64_t by##_plain_step(struct plain *, const uint8_t *, size_t, uint8_t, uint8_t, uint8_t);                                \
    uint64_t by##_plain_step_levels(struct plain *, const uint8_t *, size_t, uint8_t, uint8_t, uint8_t, const uint8_t[6]);       \
    uint64_t by##_plain_mark(struct plain *, uint32_t[52]);                                                                      \
    uint64_t by##_plain_pending(const struct plain *, uint32_t[52]);                                                             \
    uint64_t by##_plain_level_report(const struct plain *, uint8_t);                                                             \
    uint64_t by##_plain_level_trace(const struct plain *, uint8_t, uint8_t *, size_t);
PLAIN(base)
#ifdef WITH_CLANG
PLAIN(clang)
#endif
__typeof__(otn_fresh) hand_fresh;
__typeof__(otn_level) hand_level;
__typeof__(otn_step) hand_step;
__typeof__(otn_step_levels) hand_step_levels;
__typeof__(otn_mark) hand_mark;
__typeof__(otn_pending) hand_pending;
__typeof__(otn_trace) hand_trace;
__typeof__(otn_level_report) hand_level_report;
__typeof__(otn_level_trace) hand_level_trace;
__typeof__(otn_summary) hand_summary;
__typeof__(otn_join) hand_join;
enum { HAND_BYTES = sizeof(struct plain) }; /* what standin/otn.h has for OTN_SUPERVISOR_BYTES; hand_fresh refuses another length */

#ifndef BASE
#define BASE "gcc -O3"
#endif

static uint8_t *trace;
static size_t size;
static int levels; /* provisioned: 1 to it */

static void read_trace(const char *path)
{
    static const uint8_t field[6] = {38, 35, 32, 26, 23, 20};
    FILE *f = fopen(path, "rb");
    if (!f || fseek(f, 0, SEEK_END)) exit(2);
    size = (size_t)ftell(f);
    rewind(f);
    trace = malloc(size);
    if (!trace || fread(trace, 1, size, f) != size) exit(2);
    fclose(f);
    for (uint8_t *b = trace + 83; b < trace + size; b += 2 + (b[0] | b[1] << 8))
        for (int i = 0; i < 6 && b[2] == 1; i++) memcpy(b + 4 + field[i], b + 4 + 41, 3);
}

static uint32_t word(const uint8_t *b) { return b[0] | b[1] << 8 | b[2] << 16 | (uint32_t)b[3] << 24; }

static double now(void)
{
    struct timespec t;
    clock_gettime(CLOCK_PROCESS_CPUTIME_ID, &t);
    return t.tv_sec * 1e9 + t.tv_nsec;
}

#define FRESH(call, ...) \
    call(__VA_ARGS__, b[0], word(b + 1), b[5], word(b + 6), b[10], b[11], b[12], b[13], b[14], b + 15, 32, b + 47, 32)

/* a level as the path is */
#define LEVEL(call, n, ...) call(__VA_ARGS__, (uint8_t)(n), word(b + 6), b[10], b[12], b[14], b + 47, 32)
#define GIVE(call, ...) \
    for (int n = 1; n <= levels; n++) \
        if (LEVEL(call, n, __VA_ARGS__)) exit(3)

#define RUN(fresh, give, step, mark)                                      \
    const uint8_t *b = trace + 4;                                         \
    uint64_t sum = 0;                                                     \
    if (fresh) exit(3);                                                   \
    give;                                                                 \
    const double began = now();                                           \
    for (b = trace + 83; b < trace + size;) {                             \
        if (b[2] == 1) {                                                  \
            const uint8_t *o = b + 4;                                     \
            sum = sum * 31 + (step);                                      \
            b += 71;                                                      \
        } else {                                                          \
            uint32_t r[52] = {0}; /* the first mark leaves it */          \
            sum += (mark);                                                \
            for (int i = 0; i < 52; i++) sum = sum * 31 + r[i];           \
            b += 4;                                                       \
        }                                                                 \
    }                                                                     \
    *spent = now() - began;                                               \
    return sum

#define RUN_PLAIN(by)                                                                                                     \
    static uint64_t run_##by(double *spent)                                                                               \
    {                                                                                                                     \
        static struct plain p;                                                                                            \
        RUN(FRESH(base_plain_fresh, &p), , by##_plain_step(&p, o, 64, o[64], o[65], o[66]), by##_plain_mark(&p, r));      \
    }                                                                                                                     \
    static uint64_t run_##by##_levels(double *spent)                                                                      \
    {                                                                                                                     \
        static struct plain p;                                                                                            \
        uint8_t t[6];                                                                                                     \
        RUN(FRESH(base_plain_fresh, &p), GIVE(base_plain_level, &p),                                                      \
            (memset(t, o[66], 6), by##_plain_step_levels(&p, o, 64, o[64], o[65], o[66], t)), by##_plain_mark(&p, r));    \
    }
RUN_PLAIN(base)
#ifdef WITH_CLANG
RUN_PLAIN(clang)
#endif

#define RUN_CALLS(name, bytes, fresh, level, step, step_levels, mark)                                                     \
    static uint64_t run_##name(double *spent)                                                                             \
    {                                                                                                                     \
        static uint8_t s[bytes];                                                                                          \
        RUN(FRESH(fresh, s, sizeof s), , step(s, sizeof s, o, 64, o[64], o[65], o[66]), mark(s, sizeof s, (uint8_t *)r, sizeof r)); \
    }                                                                                                                     \
    static uint64_t run_##name##_levels(double *spent)                                                                    \
    {                                                                                                                     \
        static uint8_t s[bytes];                                                                                          \
        RUN(FRESH(fresh, s, sizeof s), GIVE(level, s, sizeof s),                                                          \
            step_levels(s, sizeof s, o, 64, o[64], o[65], o[66], o[66], o[66], o[66], o[66], o[66], o[66]),               \
            mark(s, sizeof s, (uint8_t *)r, sizeof r));                                                                   \
    }

static inline uint64_t refused_then_step(uint8_t *s, size_t len, const uint8_t *o, size_t n, uint8_t flags, uint8_t sm, uint8_t pm)
{
    if (otn_step(s, len, o, 0, flags, sm, pm) != 1) exit(4);
    return otn_step(s, len, o, n, flags, sm, pm);
}

static inline uint64_t refused_then_step_levels(uint8_t *s, size_t len, const uint8_t *o, size_t n, uint8_t flags, uint8_t sm, uint8_t pm,
                                                uint8_t t1, uint8_t t2, uint8_t t3, uint8_t t4, uint8_t t5, uint8_t t6)
{
    if (otn_step_levels(s, len, o, 0, flags, sm, pm, t1, t2, t3, t4, t5, t6) != 1) exit(4);
    return otn_step_levels(s, len, o, n, flags, sm, pm, t1, t2, t3, t4, t5, t6);
}

RUN_CALLS(card, OTN_SUPERVISOR_BYTES, otn_fresh, otn_level, otn_step, otn_step_levels, otn_mark)
RUN_CALLS(hand, HAND_BYTES, hand_fresh, hand_level, hand_step, hand_step_levels, hand_mark)
RUN_CALLS(edge, OTN_SUPERVISOR_BYTES, otn_fresh, otn_level, refused_then_step, refused_then_step_levels, otn_mark)

/* after each frame and mark, the levels' reports; after each mark their traces and figures: 0 where plain C and the card say the same */
static int levels_differ(void)
{
    static struct plain p;
    static uint8_t s[OTN_SUPERVISOR_BYTES];
    const uint8_t *b = trace + 4;
    if (FRESH(base_plain_fresh, &p) || FRESH(otn_fresh, s, sizeof s)) exit(3);
    GIVE(base_plain_level, &p);
    GIVE(otn_level, s, sizeof s);
    for (b = trace + 83; b < trace + size; b += 2 + (b[0] | b[1] << 8)) {
        const uint8_t *o = b + 4;
        if (b[2] == 1) {
            const uint8_t t[6] = {o[66], o[65], 0, o[66], 8, o[66]};
            if (base_plain_step_levels(&p, o, 64, o[64], o[65], o[66], t) !=
                otn_step_levels(s, sizeof s, o, 64, o[64], o[65], o[66], t[0], t[1], t[2], t[3], t[4], t[5]))
                return 1;
        } else {
            uint8_t ours[64], theirs[64];
            for (int pending = 0; pending < 2; pending++) { /* what the mark reports, and what is pending after it */
                uint32_t figures[52] = {0};
                uint8_t record[OTN_RECORD_BYTES] = {0};
                const uint64_t answer = pending ? base_plain_pending(&p, figures) : base_plain_mark(&p, figures);
                if (answer != (pending ? otn_pending(s, sizeof s, record, sizeof record) : otn_mark(s, sizeof s, record, sizeof record))) return 1;
                for (int i = 0; i < 52; i++)
                    if (word(record + 4 * i) != figures[i]) return 1;
            }
            for (uint8_t n = 0; n < 8; n++) {
                const uint64_t answer = base_plain_level_trace(&p, n, ours, 64);
                if (otn_level_trace(s, sizeof s, n, theirs, 64) != answer || (answer == 0 && memcmp(ours, theirs, 64))) return 1;
            }
        }
        for (uint8_t n = 0; n < 8; n++)
            if (base_plain_level_report(&p, n) != otn_level_report(s, sizeof s, n)) return 1;
    }
    return 0;
}

static const char *const names[] = {"fresh", "level", "mark", "pending", "trace", "level_report", "level_trace", "summary", "join"};
enum { ONE_FRESH, ONE_LEVEL, ONE_MARK, ONE_PENDING, ONE_TRACE, ONE_LEVEL_REPORT, ONE_LEVEL_TRACE, ONE_SUMMARY, ONE_JOIN, NAMES };

/* a level is provisioned once only: its call has a fresh supervisor each time; otn_pending has a second to tell, otn_summary a record of one, and
   otn_join has its summary and an empty one */
#define CALLS(bytes, fresh, level, step_levels, mark, pending, accepted, report, level_accepted, summary, join)          \
    static uint8_t s[bytes];                                                                                             \
    const uint8_t *b = trace + 4;                                                                                        \
    uint8_t r[208], none[OTN_SUMMARY_BYTES] = {0}, one[OTN_SUMMARY_BYTES], both[OTN_SUMMARY_BYTES];                      \
    uint64_t refused = FRESH(fresh, s, sizeof s);                                                                        \
    GIVE(level, s, sizeof s);                                                                                            \
    const uint8_t *o = trace + 87;                                                                                       \
    for (int i = 0; i < 400; i++, o += 71)                                                                               \
        refused |= step_levels(s, sizeof s, o, 64, o[64], o[65], o[66], o[66], o[66], o[66], o[66], o[66], o[66]) & 255; \
    if (call == ONE_PENDING || call >= ONE_SUMMARY) refused |= mark(s, sizeof s, r, sizeof r) & 255;                     \
    if (call >= ONE_SUMMARY) refused |= pending(s, sizeof s, r, sizeof r) & 255;                                         \
    if (call == ONE_JOIN) refused |= summary(r, sizeof r, one, sizeof one);                                              \
    for (; times; times--) switch (call) {                                                                               \
        case ONE_FRESH: refused |= FRESH(fresh, s, sizeof s); break;                                                     \
        case ONE_LEVEL: refused |= FRESH(fresh, s, sizeof s) | LEVEL(level, 1, s, sizeof s); break;                      \
        case ONE_MARK: refused |= mark(s, sizeof s, r, sizeof r) & 255; break;                                           \
        case ONE_PENDING: refused |= pending(s, sizeof s, r, sizeof r) & 255; break;                                     \
        case ONE_TRACE: refused |= accepted(s, sizeof s, 0, r, 64); break;                                               \
        case ONE_LEVEL_REPORT: refused |= report(s, sizeof s, 1) & 255; break;                                           \
        case ONE_LEVEL_TRACE: refused |= level_accepted(s, sizeof s, 1, r, 64); break;                                   \
        case ONE_SUMMARY: refused |= summary(r, sizeof r, one, sizeof one); break;                                       \
        default: refused |= join(none, sizeof none, one, sizeof one, both, sizeof both); break;                          \
        }                                                                                                                \
    return refused

static uint64_t calls_card(int call, long times)
{
    CALLS(OTN_SUPERVISOR_BYTES, otn_fresh, otn_level, otn_step_levels, otn_mark, otn_pending, otn_trace, otn_level_report,
          otn_level_trace, otn_summary, otn_join);
}

static uint64_t calls_hand(int call, long times)
{
    CALLS(HAND_BYTES, hand_fresh, hand_level, hand_step_levels, hand_mark, hand_pending, hand_trace, hand_level_report,
          hand_level_trace, hand_summary, hand_join);
}

static void put(const uint8_t *b, size_t n)
{
    if (fwrite(b, 1, n, stdout) != n) exit(2);
}

/* the trace with levels: its frames are of kind 5 */
static int write_levels(void)
{
    put(trace, 83);
    for (int n = 1; n <= levels; n++) {
        const uint8_t head[5] = {42, 0, 4, 0, (uint8_t)n}, *b = trace + 4;
        put(head, 5), put(b + 6, 5), put(b + 12, 1), put(b + 14, 1), put(b + 47, 32);
    }
    for (const uint8_t *b = trace + 83; b < trace + size; b += 2 + (b[0] | b[1] << 8)) {
        const uint8_t head[4] = {75, 0, 5, 0};
        if (b[2] == 1) {
            put(head, 4), put(b + 4, 67);
            for (int i = 0; i < 6; i++) put(b + 70, 1);
        } else
            put(b, 4);
    }
    return fflush(stdout) != 0;
}

int main(int argc, char **argv)
{
    struct {
        const char *key, *name;
        uint64_t (*run)(double *), (*run_levels)(double *);
    } all[] = {
        {"base", "plain C, " BASE, run_base, run_base_levels},
#ifdef WITH_CLANG
        {"clang", "plain C, clang -O3", run_clang, run_clang_levels},
#endif
        {"card", "otn_step", run_card, run_card_levels},
        {"hand", "the same calls over plain C, by hand", run_hand, run_hand_levels},
        {"edge", "otn_step, and one refused with 1", run_edge, run_edge_levels},
    };
    enum { ALL = sizeof all / sizeof *all, N = ALL - 1, TURNS = 15 }; /* edge is for counting alone */
    if ((argc == 5 || argc == 6) && strcmp(argv[1], "--only") == 0) {
        double spent;
        read_trace(argv[4]);
        uint8_t *b = trace + 83;
        for (long frames = atol(argv[3]); frames && b < trace + size; b += 2 + (b[0] | b[1] << 8)) frames -= b[2] == 1;
        size = (size_t)(b - trace);
        if (argc == 6) levels = atoi(argv[5]);
        for (int i = 0; i < ALL; i++)
            if (strcmp(argv[2], all[i].key) == 0) return (argc == 6 ? all[i].run_levels : all[i].run)(&spent) == 0;
        return 2;
    }
    if (argc == 7 && strcmp(argv[1], "--call") == 0) {
        read_trace(argv[5]);
        levels = atoi(argv[6]);
        for (int i = 0; i < NAMES; i++)
            if (strcmp(argv[3], names[i]) == 0) return (*argv[2] == 'c' ? calls_card : calls_hand)(i, atol(argv[4])) != 0;
        return 2;
    }
    if (argc == 4 && strcmp(argv[1], "--write") == 0) {
        read_trace(argv[2]);
        levels = atoi(argv[3]);
        return write_levels();
    }
    int first = 1, with_levels = 0;
    if (argc > 2 && strcmp(argv[1], "--levels") == 0) levels = atoi(argv[2]), with_levels = 1, first = 3;
    if (with_levels)
        printf("| frames | levels | contender | ns a frame | frames a second | OTU3s at once | beside plain C |\n|---|---|---|---|---|---|---|\n");
    else
        printf("| frames | contender | ns a frame | frames a second | OTU3s at once | beside plain C |\n|---|---|---|---|---|---|\n");
    for (int a = first; a < argc; a++) {
        read_trace(argv[a]);
        uint64_t frames = 0;
        for (uint8_t *b = trace + 83; b < trace + size; b += 2 + (b[0] | b[1] << 8)) frames += b[2] == 1;
        if (with_levels && levels_differ()) {
            printf("the card's levels answer otherwise than plain C's\n");
            return 1;
        }
        double least[N];
        uint64_t sums[N];
        for (int turn = 0; turn < TURNS; turn++)
            for (int i = 0; i < N; i++) {
                double spent;
                sums[i] = (with_levels ? all[i].run_levels : all[i].run)(&spent);
                if (turn == 0 || spent < least[i]) least[i] = spent;
                if (sums[i] != sums[0]) {
                    printf("%s answers otherwise than %s\n", all[i].name, all[0].name);
                    return 1;
                }
            }
        const char *name = strrchr(argv[a], '/');
        name = name ? name + 1 : argv[a];
        for (int i = 0; i < N; i++) {
            const double ns = least[i] / frames;
            printf("| %s |", name);
            if (with_levels) printf(" %d |", levels);
            printf(" %s%s | %.1f | %.0f | %.0f | %.2f |\n", all[i].name, with_levels && strcmp(all[i].key, "card") == 0 ? "_levels" : "", ns,
                   1e9 / ns, 1e9 / ns / 329492, least[i] / least[0]);
        }
        free(trace);
    }
    return 0;
}
