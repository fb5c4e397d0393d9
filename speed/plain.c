#include "plain.h"
#include <string.h>

uint64_t plain_fresh(struct plain *p, uint8_t k, uint32_t sm_thr, uint8_t sm_degm, uint32_t pm_thr, uint8_t pm_degm,
                     uint8_t sm_mode, uint8_t pm_mode, uint8_t sm_dis, uint8_t pm_dis, const uint8_t *sm_names,
                     size_t sm_names_len, const uint8_t *pm_names, size_t pm_names_len)
{
    static const uint32_t ceiling[4] = {0, 20420, 82025, 329492}, n[4] = {0, 62, 247, 989};
    if (k < 1 || k > 3) return 5;
    if (sm_thr < 1 || sm_thr > ceiling[k] || pm_thr < 1 || pm_thr > ceiling[k]) return 6;
    if (sm_degm < 2 || sm_degm > 10 || pm_degm < 2 || pm_degm > 10) return 7;
    if (sm_mode > 3 || pm_mode > 3) return 8;
    if (sm_dis > 2 || pm_dis > 2) return 9;
    if (sm_names_len != 32 || pm_names_len != 32) return 10;
    memset(p, 0, sizeof *p);
    p->n = n[k];
    p->ceiling = ceiling[k];
    struct plain_layer *s = &p->layer[0], *t = &p->layer[1];
    s->degthr = sm_thr, s->degm = sm_degm, s->mode = sm_mode, s->dis = sm_dis, s->acts = sm_dis == 0;
    t->degthr = pm_thr, t->degm = pm_degm, t->mode = pm_mode, t->dis = pm_dis, t->acts = pm_dis == 0;
    memcpy(s->names, sm_names, 32);
    memcpy(t->names, pm_names, 32);
    for (int i = 0; i < 6; i++) p->level[i].layer.degthr = 1, p->level[i].layer.degm = 2;
    return 0;
}

uint64_t plain_level(struct plain *p, uint8_t level, uint32_t thr, uint8_t degm, uint8_t mode, uint8_t dis, const uint8_t *names,
                     size_t names_len)
{
    if (thr < 1 || thr > p->ceiling) return 6;
    if (degm < 2 || degm > 10) return 7;
    if (mode > 3) return 8;
    if (dis > 2) return 9;
    if (names_len != 32) return 10;
    if (p->frames || p->closed) return 16;
    if (level < 1 || level > 6 || p->given >> (level - 1) & 1) return 18;
    struct plain_layer *l = &p->level[level - 1].layer;
    l->degthr = thr, l->degm = degm, l->mode = mode, l->dis = dis, l->acts = dis == 0;
    memcpy(l->names, names, 32);
    p->given |= 1 << (level - 1);
    return 0;
}

static inline void filter(struct plain_filter *f, unsigned bit, unsigned n)
{
    if (bit == f->stands)
        f->run = 0;
    else if (++f->run >= n) {
        f->stands = bit;
        f->run = 0;
    }
}

static void close_cycle(struct plain_layer *l)
{
    struct plain_trace_state *t = &l->trace;
    if (t->equal && memcmp(t->gathered, t->previous, 64) == 0) {
        if (t->equal < 3) t->equal++;
    } else {
        memcpy(t->previous, t->gathered, 64);
        t->equal = 1;
    }
    if (t->equal == 3) {
        memcpy(t->accepted, t->gathered, 64);
        t->has = 1;
        t->differs = ((l->mode & 1) && memcmp(t->accepted, l->names, 16) != 0) ||
                     ((l->mode & 2) && memcmp(t->accepted + 16, l->names + 16, 16) != 0);
    }
}

static inline void gather(struct plain_layer *l, unsigned number, uint8_t byte)
{
    struct plain_trace_state *t = &l->trace;
    if (number == 0) t->gathering = 1;
    if (!t->gathering) return;
    t->gathered[number] = byte;
    if (number == 63) close_cycle(l);
}

static inline void forget_cycles(struct plain_layer *l) { l->trace.gathering = l->trace.equal = 0; }

static inline void forget_layer(struct plain_layer *l)
{
    forget_cycles(l);
    l->trace.has = l->trace.differs = 0;
    l->bdi.stands = l->bdi.run = 0;
}

static inline void align(struct plain *p, const uint8_t *o)
{
    const unsigned three = o[2] == 0xF6 && o[3] == 0x28 && o[4] == 0x28;
    if (p->in_frame) {
        if (three)
            p->fas_run = 0;
        else if (++p->fas_run == 5)
            p->in_frame = 0, p->fas_run = 0;
    } else if (three && o[1] == 0xF6) {
        if (++p->fas_run == 2) p->in_frame = 1, p->fas_run = 0;
    } else
        p->fas_run = 0;

    if (p->in_frame) {
        if (p->if_run < p->n && ++p->if_run == p->n) p->oof_total = 0;
    } else {
        p->if_run = 0;
        if (p->oof_total < p->n) p->oof_total++;
    }

    const uint8_t mfas = o[6];
    if (p->in_multiframe) {
        p->local++;
        if (p->in_frame) {
            if (mfas == p->local)
                p->mismatches = 0;
            else if (++p->mismatches == 5) {
                p->in_multiframe = 0;
                p->mismatches = 0;
            }
        }
    } else if (p->in_frame && p->previous_known && mfas == (uint8_t)(p->previous + 1)) {
        p->in_multiframe = 1;
        p->local = mfas;
        p->mismatches = 0;
    }
    p->previous_known = p->in_frame;
    p->previous = mfas;

    if (p->in_multiframe)
        p->oom_run = 0;
    else if (p->oom_run < p->n)
        p->oom_run++;
}

/* A level's STAT: what of it is which defect, and which of them stop its counts. */
enum { LTC = 1 << 0, IAE = 1 << 2, LCK = 1 << 5, OCI = 1 << 6, AIS = 1 << 7, STOPS = LTC | LCK | OCI | AIS };

/* One level: b is its trace byte, its BIP-8 and its status. */
static void tandem(struct plain_tandem *v, const uint8_t *b, unsigned ssf, unsigned in_multiframe, unsigned number, unsigned violations)
{
    struct plain_layer *l = &v->layer;
    const unsigned stat = b[2] & 7, bei = b[2] >> 4;
    if (ssf)
        v->stat_run = v->stat = 0;
    else if (v->stat_run == 0 || stat != v->stat_value) {
        v->stat_value = stat;
        v->stat_run = 1;
    } else if (v->stat_run < 3 && ++v->stat_run == 3)
        v->stat = 1 << stat;

    const unsigned forget = ssf || v->stat & AIS;
    if (forget) {
        forget_layer(l);
    } else {
        if (in_multiframe)
            gather(l, number, b[0]);
        else
            forget_cycles(l);
        filter(&l->bdi, b[2] >> 3 & 1, 5);
    }
    const unsigned tim = l->trace.differs, stopped = ssf || v->stat & STOPS;
    if (forget || tim)
        memset(&v->biae, 0, sizeof v->biae);
    else
        filter(&v->biae, bei == 11, 3);

    if (!stopped) {
        l->near += violations > 0;
        l->far += bei - 1u < 8;
        l->sum += bei - 1u < 8 ? bei : 0;
    }
    l->near_ds |= stopped || tim;
    l->far_ds |= l->bdi.stands;
    v->iae_stood |= v->stat & IAE && !tim;
    v->biae_stood |= v->biae.stands;
}

static inline uint64_t step(struct plain *p, const uint8_t *o, size_t len, uint8_t flags, uint8_t sm, uint8_t pm, const uint8_t tcm[6])
{
    if (len != 64) return 1;
    if (flags > 3) return 2;
    if (sm > 8 || pm > 8) return 3;
    for (int i = 0; i < 6; i++)
        if (tcm[i] > 8) return 3;
    if (p->frames == 400000) return 4;

    struct plain_layer *s = &p->layer[0], *t = &p->layer[1];
    align(p, o);
    const uint64_t dlof = p->oof_total == p->n, dlom = p->oom_run == p->n;
    const uint8_t sst = o[9], pst = o[43];
    const unsigned number = p->local & 63;

    /* section */
    const uint64_t ssf = flags || dlof || dlom;
    if (ssf) {
        forget_layer(s);
    } else {
        if (p->in_multiframe)
            gather(s, number, o[7]);
        else
            forget_cycles(s);
        filter(&s->bdi, sst >> 3 & 1, 5);
    }
    const uint64_t stim = s->trace.differs;
    if (ssf || stim) {
        memset(&p->iae, 0, sizeof p->iae);
        memset(&p->biae, 0, sizeof p->biae);
    } else {
        filter(&p->iae, sst >> 2 & 1, 5);
        filter(&p->biae, sst >> 4 == 11, 3);
    }
    const uint64_t sacts = stim && s->acts;

    /* path */
    const uint64_t pssf = ssf || sacts;
    if (pssf)
        p->stat_run = p->stat = 0;
    else {
        const uint8_t stat = pst & 7;
        if (p->stat_run == 0 || stat != p->stat_value) {
            p->stat_value = stat;
            p->stat_run = 1;
        } else if (p->stat_run < 3 && ++p->stat_run == 3)
            p->stat = stat;
    }
    const uint64_t ais = p->stat == 7, oci = p->stat == 6, lck = p->stat == 5;
    if (pssf || ais) {
        forget_layer(t);
    } else {
        if (p->in_multiframe)
            gather(t, number, o[41]);
        else
            forget_cycles(t);
        filter(&t->bdi, pst >> 3 & 1, 5);
    }
    const uint64_t ptim = t->trace.differs, pacts = ptim && t->acts;
    const uint64_t above = pssf || ais || oci || lck;

    /* the second */
    const uint64_t head = flags & 1 ? 1 : flags & 2 ? 2 : dlof ? 3 : dlom ? 4 : sacts ? 5 : ais ? 6 : oci ? 7 : lck ? 8 : pacts ? 9 : 0;
    const unsigned sbei = sst >> 4, pbei = pst >> 4;
    p->frames++;
    p->heads[head]++;
    if (!ssf) {
        s->near += sm > 0;
        s->far += sbei - 1u < 8;
        s->sum += sbei - 1u < 8 ? sbei : 0;
    }
    if (!above) {
        t->near += pm > 0;
        t->far += pbei - 1u < 8;
        t->sum += pbei - 1u < 8 ? pbei : 0;
    }
    s->near_ds |= ssf || stim;
    t->near_ds |= above || ptim;
    s->far_ds |= s->bdi.stands;
    t->far_ds |= t->bdi.stands;
    p->iae_stood |= p->iae.stands;
    p->biae_stood |= p->biae.stands;

    /* the levels */
    static const uint8_t field[6] = {38, 35, 32, 26, 23, 20};
    p->ssf = pssf;
    for (int i = 0; p->given >> i; i++)
        if (p->given >> i & 1) tandem(&p->level[i], o + field[i], pssf, p->in_multiframe, number, tcm[i]);

    /* the report */
    const uint64_t sbdi = s->bdi.stands, pbdi = t->bdi.stands, iae = p->iae.stands, biae = p->biae.stands;
    const uint64_t sdeg = s->deg.stands, pdeg = t->deg.stands, sfail = ssf || sacts, pfail = above || pacts;
    return head << 8 | (uint64_t)p->in_frame << 12 | (uint64_t)p->in_multiframe << 13 | dlof << 14 | dlom << 15 |
           ssf << 16 | stim << 17 | sbdi << 18 | iae << 19 | biae << 20 | sdeg << 21 | pssf << 22 | ais << 23 | oci << 24 |
           lck << 25 | ptim << 26 | pbdi << 27 | pdeg << 28 | sfail << 29 | sdeg << 30 | (ssf | stim) << 31 | iae << 32 |
           (uint64_t)sm << 33 | pfail << 37 | pdeg << 38 | (above | ptim) << 39 | (uint64_t)pm << 40 |
           (dlof & !flags) << 44 | (dlom & !flags & !dlof) << 45 | (stim & !ssf) << 46 | (sdeg & !sfail) << 47 |
           (sbdi & !sfail) << 48 | ssf << 49 | (oci & !pssf) << 50 | (lck & !pssf) << 51 | (ptim & !above) << 52 |
           (pdeg & !pfail) << 53 | (pbdi & !pfail) << 54 | (pssf | ais) << 55;
}

uint64_t plain_step(struct plain *p, const uint8_t *o, size_t len, uint8_t flags, uint8_t sm, uint8_t pm)
{
    static const uint8_t none[6];
    return step(p, o, len, flags, sm, pm, none);
}

uint64_t plain_step_levels(struct plain *p, const uint8_t *o, size_t len, uint8_t flags, uint8_t sm, uint8_t pm, const uint8_t tcm[6])
{
    return step(p, o, len, flags, sm, pm, tcm);
}

uint64_t plain_pending(const struct plain *p, uint32_t record[52])
{
    if (p->closed == 0) return 0;
    record[0] = p->closed;
    memcpy(record + 1, p->pending, sizeof p->pending);
    return PLAIN_TOLD;
}

/* What stood in the second just closed voids the five figures of the one before. */
static inline void revise(uint32_t five[5], unsigned iae, unsigned biae)
{
    if (iae) five[0] = five[2] = 0;
    if (iae || biae) five[1] = five[3] = five[4] = 0;
}

uint64_t plain_mark(struct plain *p, uint32_t record[52])
{
    if (p->closed == UINT32_MAX) return 4;
    const uint64_t told = plain_pending(p, record);
    struct plain_layer *s = &p->layer[0];
    if (told) revise(record + 12, p->iae_stood, p->biae_stood);
    if (p->iae_stood) s->near = s->near_ds = 0;
    if (p->iae_stood || p->biae_stood) s->far = s->far_ds = s->sum = 0;
    for (int i = 0; i < 6; i++) {
        struct plain_tandem *v = &p->level[i];
        if (told) revise(record + 22 + 5 * i, v->iae_stood, v->biae_stood);
        if (v->iae_stood) v->layer.near = v->layer.near_ds = 0;
        if (v->iae_stood || v->biae_stood) v->layer.far = v->layer.far_ds = v->layer.sum = 0;
        v->iae_stood = v->biae_stood = 0;
    }
    p->closed++;
    p->pending[0] = p->frames;
    memcpy(p->pending + 1, p->heads, sizeof p->heads);
    for (int i = 0; i < 2 + 6; i++) {
        struct plain_layer *l = i < 2 ? &p->layer[i] : &p->level[i - 2].layer;
        uint32_t *r = p->pending + 11 + 5 * i;
        if (i < 2 || p->given >> (i - 2) & 1) { /* otherwise zeros stay */
            r[0] = l->near, r[1] = l->far, r[2] = l->near_ds, r[3] = l->far_ds, r[4] = l->sum;
            filter(&l->deg, l->near >= l->degthr, l->degm);
        }
        l->near = l->far = l->near_ds = l->far_ds = l->sum = 0;
    }
    p->frames = p->iae_stood = p->biae_stood = 0;
    memset(p->heads, 0, sizeof p->heads);
    return told;
}

uint64_t plain_trace(const struct plain *p, uint8_t layer, uint8_t *out, size_t len)
{
    if (layer > 1) return 11;
    if (len != 64) return 12;
    if (!p->layer[layer].trace.has) return 13;
    memcpy(out, p->layer[layer].trace.accepted, 64);
    return 0;
}

uint64_t plain_level_report(const struct plain *p, uint8_t level)
{
    if (level < 1 || level > 6) return 18;
    if (!(p->given >> (level - 1) & 1)) return 0;
    const struct plain_tandem *v = &p->level[level - 1];
    const struct plain_layer *l = &v->layer;
    const uint64_t ssf = p->ssf, ltc = !!(v->stat & LTC), ais = !!(v->stat & AIS), oci = !!(v->stat & OCI), lck = !!(v->stat & LCK);
    const uint64_t tim = l->trace.differs, iae = v->stat & IAE && !tim, biae = v->biae.stands, bdi = l->bdi.stands, deg = l->deg.stands;
    const uint64_t stopped = ssf || v->stat & STOPS, fail = stopped || (tim && l->acts);
    return 1 << 8 | ssf << 9 | ltc << 10 | ais << 11 | oci << 12 | lck << 13 | tim << 14 | bdi << 15 | iae << 16 | biae << 17 | deg << 18 |
           fail << 19 | deg << 20 | (ssf | ais) << 21 | (ltc & !ssf) << 22 | (oci & !ssf) << 23 | (lck & !ssf) << 24 |
           (tim & !stopped) << 25 | (deg & !fail) << 26 | (bdi & !fail) << 27;
}

uint64_t plain_level_trace(const struct plain *p, uint8_t level, uint8_t *out, size_t len)
{
    if (len != 64) return 12;
    if (level < 1 || level > 6 || !(p->given >> (level - 1) & 1) || !p->level[level - 1].layer.trace.has) return 13;
    memcpy(out, p->level[level - 1].layer.trace.accepted, 64);
    return 0;
}

/* Whether 23 numbers are a summary: every bound is of the length, so that an empty one is all zeros. */
static int summary_in_range(const uint64_t s[23])
{
    const uint64_t first = s[0], length = s[1];
    if (length > 86400 || (first == 0) != (length == 0)) return 0;
    if (first > UINT32_MAX + 1ull - length) return 0; /* the last second */
    for (int i = 2; i < 23; i++) {
        const int which = i < 13 ? 0 : (i - 13) % 5;
        const uint64_t most = which == 4 ? 3200000 : which >= 2 ? 1 : 400000; /* sum; DS; frames, heads and blocks */
        if (s[i] > most * length) return 0;
    }
    return 1;
}

uint64_t plain_summary(const uint32_t record[22], uint64_t summary[23])
{
    uint64_t s[23] = {record[0], 1};
    for (int i = 1; i < 22; i++) s[i + 1] = record[i];
    if (!summary_in_range(s)) return 26;
    memcpy(summary, s, sizeof s);
    return 0;
}

uint64_t plain_join(const uint64_t earlier[23], const uint64_t later[23], uint64_t joined[23])
{
    if (!summary_in_range(earlier) || !summary_in_range(later)) return 26;
    if (earlier[1] + later[1] > 86400) return 20;
    if (earlier[1] && later[1] && later[0] != earlier[0] + earlier[1]) return 21;
    joined[0] = earlier[1] ? earlier[0] : later[0];
    for (int i = 1; i < 23; i++) joined[i] = earlier[i] + later[i];
    return 0;
}
