/* A supervisor as one would write it by hand: one struct, updated in place. The speed baseline. */
#ifndef PLAIN_H
#define PLAIN_H
#include <stddef.h>
#include <stdint.h>

/* PLAIN_NAME lets two builds of plain.c stand in one program. */
#ifndef PLAIN_NAME
#define PLAIN_NAME(name) name
#endif
#define plain_fresh PLAIN_NAME(plain_fresh)
#define plain_level PLAIN_NAME(plain_level)
#define plain_step PLAIN_NAME(plain_step)
#define plain_step_levels PLAIN_NAME(plain_step_levels)
#define plain_mark PLAIN_NAME(plain_mark)
#define plain_pending PLAIN_NAME(plain_pending)
#define plain_trace PLAIN_NAME(plain_trace)
#define plain_level_report PLAIN_NAME(plain_level_report)
#define plain_level_trace PLAIN_NAME(plain_level_trace)
#define plain_summary PLAIN_NAME(plain_summary)
#define plain_join PLAIN_NAME(plain_join)

struct plain_filter { /* n and n: the run of frames against what stands */
    uint8_t stands, run;
};

struct plain_trace_state {
    uint8_t gathered[64], previous[64], accepted[64];
    uint8_t gathering; /* a cycle is under way since its number 0 */
    uint8_t equal;     /* equal cycles in a row, up to 3 */
    uint8_t has;       /* a trace is accepted */
    uint8_t differs;   /* and it is not the expected one */
};

struct plain_layer {
    struct plain_trace_state trace;
    struct plain_filter bdi, deg;
    uint8_t near_ds, far_ds;
    uint32_t near, far;
    uint32_t sum; /* of the far end's violations */
    /* provisioning */
    uint32_t degthr;
    uint8_t degm, mode, dis, acts;
    uint8_t names[32];
};

struct plain_tandem { /* a level, where it is provisioned */
    struct plain_layer layer;
    struct plain_filter biae;
    uint8_t stat_value, stat_run, stat; /* stat: 1 << the accepted one, 0 without */
    uint8_t iae_stood, biae_stood;
};

struct plain {
    uint32_t n;       /* 62, 247, 989 */
    uint32_t ceiling; /* of DEGThr */
    /* alignment */
    uint32_t oof_total, if_run, oom_run;
    uint8_t in_frame, fas_run, in_multiframe, local, mismatches, previous_known, previous;
    /* section and path */
    struct plain_filter iae, biae;
    uint8_t stat_value, stat_run, stat; /* stat: accepted, 0 without */
    struct plain_layer layer[2];
    /* the tandem levels */
    uint8_t given; /* 1 << level - 1: it is provisioned */
    uint8_t ssf;   /* the path's after the last frame, and so theirs */
    struct plain_tandem level[6];
    /* the open second */
    uint8_t iae_stood, biae_stood;
    uint32_t frames, heads[10];
    uint32_t closed;
    /* the second closed last, where there is one: frames, heads, then five figures of section, path and each level */
    uint32_t pending[51];
};

enum { PLAIN_TOLD = 1 << 8 }; /* plain_mark, plain_pending: there is a second to tell, and it is in the record */

/* Each answers the refusal number, 0 where accepted; a step the report above its low byte, and so does plain_level_report. */
uint64_t plain_fresh(struct plain *p, uint8_t k, uint32_t sm_thr, uint8_t sm_degm, uint32_t pm_thr, uint8_t pm_degm,
                     uint8_t sm_mode, uint8_t pm_mode, uint8_t sm_dis, uint8_t pm_dis, const uint8_t *sm_names,
                     size_t sm_names_len, const uint8_t *pm_names, size_t pm_names_len);
uint64_t plain_level(struct plain *p, uint8_t level, uint32_t thr, uint8_t degm, uint8_t mode, uint8_t dis, const uint8_t *names,
                     size_t names_len);
uint64_t plain_step(struct plain *p, const uint8_t *overhead, size_t len, uint8_t flags, uint8_t sm, uint8_t pm);
uint64_t plain_step_levels(struct plain *p, const uint8_t *overhead, size_t len, uint8_t flags, uint8_t sm, uint8_t pm,
                           const uint8_t tcm[6]);
uint64_t plain_mark(struct plain *p, uint32_t record[52]);
uint64_t plain_pending(const struct plain *p, uint32_t record[52]);
uint64_t plain_trace(const struct plain *p, uint8_t layer, uint8_t *out, size_t len);
uint64_t plain_level_report(const struct plain *p, uint8_t level);
uint64_t plain_level_trace(const struct plain *p, uint8_t level, uint8_t *out, size_t len);

/* A summary is 23 numbers: first second, length, frames, heads 0 to 9, then near, far, near DS, far DS and sum of section and path. One second's, of
 * the first 22 figures of its record; and two joined, where joined may be one of them. 26, 20 and 21 leave it alone. */
uint64_t plain_summary(const uint32_t record[22], uint64_t summary[23]);
uint64_t plain_join(const uint64_t earlier[23], const uint64_t later[23], uint64_t joined[23]);
#endif
