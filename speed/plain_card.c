/* The card's calls over plain.c, as a stand-in: the supervisor's bytes are the struct, its numbers held to their ranges. The open
 * second's counts are at most its frames, its sums eight times them; the pending one's figures have their ranges one by one, and are the last bytes, as the card's are. */
#include "otn.h"
#include "plain.h"
#include <string.h>

_Static_assert(sizeof(struct plain) == OTN_SUPERVISOR_BYTES, "the supervisor is the struct");

static int filter_in_range(const struct plain_filter *f, unsigned n) { return f->stands <= 1 && f->run < n; }

static int layer_in_range(const struct plain_layer *l, uint32_t ceiling, uint32_t frames)
{
    const struct plain_trace_state *t = &l->trace;
    return t->gathering <= 1 && t->equal <= 3 && t->has <= 1 && t->differs <= 1 && filter_in_range(&l->bdi, 5) &&
           l->degthr >= 1 && l->degthr <= ceiling && l->degm >= 2 && l->degm <= 10 && l->mode <= 3 && l->dis <= 2 &&
           l->acts <= 1 && filter_in_range(&l->deg, 10) && l->near_ds <= 1 && l->far_ds <= 1 && l->near <= frames && l->far <= frames &&
           l->sum <= 8 * frames;
}

static int level_in_range(const struct plain_tandem *v, uint32_t ceiling, uint32_t frames)
{
    return layer_in_range(&v->layer, ceiling, frames) && filter_in_range(&v->biae, 3) && v->stat_value <= 7 && v->stat_run <= 3 &&
           (v->stat & (v->stat - 1)) == 0 && v->iae_stood <= 1 && v->biae_stood <= 1;
}

static int pending_in_range(const uint32_t pending[51])
{
    for (int i = 0; i < 51; i++) {
        const int which = i < 11 ? 0 : (i - 11) % 5;
        if (pending[i] > (which == 4 ? 3200000 : which >= 2 ? 1 : 400000)) return 0; /* sum; DS; frames and blocks */
    }
    return 1;
}

static int in_range(const struct plain *p)
{
    const uint32_t ceiling = p->n == 62 ? 20420 : p->n == 247 ? 82025 : p->n == 989 ? 329492 : 0;
    for (int i = 0; i < 6; i++)
        if (!level_in_range(&p->level[i], ceiling, p->frames)) return 0;
    for (int i = 0; i < 10; i++)
        if (p->heads[i] > p->frames) return 0;
    return ceiling != 0 && p->ceiling == ceiling && p->oof_total <= p->n && p->if_run <= p->n && p->oom_run <= p->n &&
           p->in_frame <= 1 && p->fas_run <= 4 && p->in_multiframe <= 1 && p->mismatches <= 4 && p->previous_known <= 1 &&
           filter_in_range(&p->iae, 5) && filter_in_range(&p->biae, 3) && p->stat_value <= 7 && p->stat_run <= 3 &&
           p->stat <= 7 && layer_in_range(&p->layer[0], ceiling, p->frames) && layer_in_range(&p->layer[1], ceiling, p->frames) &&
           p->given <= 63 && p->ssf <= 1 && p->iae_stood <= 1 && p->biae_stood <= 1 && p->frames <= 400000 &&
           pending_in_range(p->pending);
}

static int load(struct plain *p, const uint8_t *sup, size_t len)
{
    if (len != OTN_SUPERVISOR_BYTES) return 17;
    memcpy(p, sup, sizeof *p);
    return in_range(p) ? 0 : 17;
}

uint64_t otn_fresh(uint8_t *sup, size_t sup_len, uint8_t k, uint32_t sm_thr, uint8_t sm_degm, uint32_t pm_thr, uint8_t pm_degm,
                   uint8_t sm_mode, uint8_t pm_mode, uint8_t sm_dis, uint8_t pm_dis, const uint8_t *sm_names,
                   size_t sm_names_len, const uint8_t *pm_names, size_t pm_names_len)
{
    struct plain p;
    if (sup_len != OTN_SUPERVISOR_BYTES) return 17;
    const uint64_t answer = plain_fresh(&p, k, sm_thr, sm_degm, pm_thr, pm_degm, sm_mode, pm_mode, sm_dis, pm_dis, sm_names,
                                        sm_names_len, pm_names, pm_names_len);
    if (answer == 0) memcpy(sup, &p, sizeof p);
    return answer;
}

uint64_t otn_level(uint8_t *sup, size_t sup_len, uint8_t level, uint32_t thr, uint8_t degm, uint8_t mode, uint8_t dis,
                   const uint8_t *names, size_t names_len)
{
    struct plain p;
    if (load(&p, sup, sup_len)) return 17;
    const uint64_t answer = plain_level(&p, level, thr, degm, mode, dis, names, names_len);
    if (answer == 0) memcpy(sup, &p, sizeof p);
    return answer;
}

uint64_t otn_step(uint8_t *sup, size_t sup_len, const uint8_t *overhead, size_t overhead_len, uint8_t flags, uint8_t sm,
                  uint8_t pm)
{
    struct plain p;
    if (load(&p, sup, sup_len)) return 17;
    const uint64_t answer = plain_step(&p, overhead, overhead_len, flags, sm, pm);
    if ((answer & 255) == 0) memcpy(sup, &p, sizeof p);
    return answer;
}

uint64_t otn_step_levels(uint8_t *sup, size_t sup_len, const uint8_t *overhead, size_t overhead_len, uint8_t flags, uint8_t sm,
                         uint8_t pm, uint8_t t1, uint8_t t2, uint8_t t3, uint8_t t4, uint8_t t5, uint8_t t6)
{
    struct plain p;
    const uint8_t tcm[6] = {t1, t2, t3, t4, t5, t6};
    if (load(&p, sup, sup_len)) return 17;
    const uint64_t answer = plain_step_levels(&p, overhead, overhead_len, flags, sm, pm, tcm);
    if ((answer & 255) == 0) memcpy(sup, &p, sizeof p);
    return answer;
}

/* what the record has room for, where there is a second to tell */
static void fill(uint64_t told, uint8_t *record, size_t record_len, const uint32_t figures[52])
{
    for (size_t i = 0; told && i < OTN_RECORD_BYTES && i < record_len; i++) record[i] = (uint8_t)(figures[i / 4] >> 8 * (i % 4));
}

uint64_t otn_mark(uint8_t *sup, size_t sup_len, uint8_t *record, size_t record_len)
{
    struct plain p;
    uint32_t figures[52];
    if (load(&p, sup, sup_len)) return 17;
    const uint64_t answer = plain_mark(&p, figures);
    if (answer & 255) return answer;
    fill(answer, record, record_len, figures);
    memcpy(sup, &p, sizeof p);
    return answer;
}

uint64_t otn_pending(const uint8_t *sup, size_t sup_len, uint8_t *record, size_t record_len)
{
    struct plain p;
    uint32_t figures[52];
    if (load(&p, sup, sup_len)) return 17;
    const uint64_t answer = plain_pending(&p, figures);
    fill(answer, record, record_len, figures);
    return answer;
}

uint64_t otn_trace(const uint8_t *sup, size_t sup_len, uint8_t layer, uint8_t *out, size_t out_len)
{
    struct plain p;
    if (load(&p, sup, sup_len)) return 17;
    return plain_trace(&p, layer, out, out_len);
}

uint64_t otn_level_report(const uint8_t *sup, size_t sup_len, uint8_t level)
{
    struct plain p;
    if (load(&p, sup, sup_len)) return 17;
    return plain_level_report(&p, level);
}

uint64_t otn_level_trace(const uint8_t *sup, size_t sup_len, uint8_t level, uint8_t *out, size_t out_len)
{
    struct plain p;
    if (load(&p, sup, sup_len)) return 17;
    return plain_level_trace(&p, level, out, out_len);
}

/* the number of so many bytes, the lowest first */
static uint64_t little(const uint8_t *bytes, int n)
{
    uint64_t v = 0;
    while (n--) v = v << 8 | bytes[n];
    return v;
}

/* what out has room for */
static void fill_summary(uint8_t *out, size_t out_len, const uint64_t summary[23])
{
    for (size_t i = 0; i < OTN_SUMMARY_BYTES && i < out_len; i++) out[i] = (uint8_t)(summary[i / 8] >> 8 * (i % 8));
}

uint64_t otn_summary(const uint8_t *record, size_t record_len, uint8_t *out, size_t out_len)
{
    uint32_t figures[22];
    uint64_t summary[23];
    if (record_len < 88) return 26;
    for (int i = 0; i < 22; i++) figures[i] = (uint32_t)little(record + 4 * i, 4);
    const uint64_t answer = plain_summary(figures, summary);
    if (answer == 0) fill_summary(out, out_len, summary);
    return answer;
}

uint64_t otn_join(const uint8_t *earlier, size_t earlier_len, const uint8_t *later, size_t later_len, uint8_t *out, size_t out_len)
{
    uint64_t a[23], b[23], joined[23];
    if (earlier_len != OTN_SUMMARY_BYTES || later_len != OTN_SUMMARY_BYTES) return 26;
    for (int i = 0; i < 23; i++) a[i] = little(earlier + 8 * i, 8), b[i] = little(later + 8 * i, 8);
    const uint64_t answer = plain_join(a, b, joined);
    if (answer == 0) fill_summary(out, out_len, joined);
    return answer;
}
