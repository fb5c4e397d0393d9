/* otn.h: a supervisor for the receiving end of one OTUk, the ODUk path in it and its tandem levels TCM1 to TCM6, k = 1, 2 or 3.

   Eleven calls on numbers and bytes. The supervisor is a buffer of OTN_SUPERVISOR_BYTES that the caller owns: otn_fresh fills it,
   otn_level provisions a tandem level, otn_step or otn_step_levels takes one frame's overhead, otn_mark closes a second and reports
   the one before it. otn_pending, otn_trace, otn_level_report and otn_level_trace read it: the second that is closed and not reported
   yet, an accepted trace, and what stands of a level. Beside the supervisor, otn_summary makes a summary of a reported second, and
   otn_join joins summaries to those of quarter-hours and days. Link with libcard.a.

   Every call takes any bytes and any numbers, and ends. Its answer's low byte is the refusal, 0 where the call is accepted
   (otn_refusal); a refused call changes no byte that it was lent and answers nothing but that number. No check is owed beforehand
   but what C cannot tell: each pointer is good for its length, and buffers that a call writes do not overlap the others. A buffer
   of length 0 may have any pointer, NULL too.

   The calls keep nothing between them: no global state, no allocation, no lock; the archive needs memcpy and memset and nothing else. Two
   supervisors may be called at the same time, one supervisor may not. A supervisor may be copied, stored and moved between machines
   as bytes. One that was stored before there were sums of the far end's violations has 2620 bytes, and is 17 by its length.

   Stack: no call takes more than OTN_STACK_BYTES. Measured by tests/card.c on x86-64, which prints what each call takes, and fails
   where one takes more than its own bound there. */
#ifndef OTN_H
#define OTN_H

#include <stddef.h>
#include <stdint.h>

#ifdef __cplusplus
extern "C" {
#endif

#define OTN_SUPERVISOR_BYTES 2652
#define OTN_OVERHEAD_BYTES 64
#define OTN_RECORD_BYTES 208
#define OTN_SUMMARY_BYTES 184
#define OTN_TRACE_BYTES 64
#define OTN_NAMES_BYTES 32
#define OTN_STACK_BYTES 1088
#define OTN_LEVELS 6

/* Refusals, in the order in which they are checked: OTN_BAD_SUPERVISOR or OTN_BAD_SUMMARY first, then by number. */
enum otn_refusal {
    OTN_ACCEPTED = 0,
    OTN_BAD_OVERHEAD = 1,     /* overhead not 64 bytes */
    OTN_BAD_FLAGS = 2,        /* flags above 3 */
    OTN_BAD_COUNT = 3,        /* a violation count above 8 */
    OTN_FULL = 4,             /* a frame when the open second holds 400,000; a mark when 4,294,967,295 seconds are closed */
    OTN_BAD_K = 5,            /* k not 1 to 3 */
    OTN_BAD_DEGTHR = 6,       /* DEGThr not 1 to 20,420 / 82,025 / 329,492 for k = 1 / 2 / 3 */
    OTN_BAD_DEGM = 7,         /* DEGM not 2 to 10 */
    OTN_BAD_MODE = 8,         /* trace mode above 3 */
    OTN_BAD_TIMACTDIS = 9,    /* TIMActDis above 2 */
    OTN_BAD_NAMES = 10,       /* expected names not 32 bytes */
    OTN_BAD_LAYER = 11,       /* layer not 0 or 1 */
    OTN_BAD_BUFFER = 12,      /* trace buffer not 64 bytes */
    OTN_NO_TRACE = 13,        /* no accepted trace */
    OTN_LATE = 16,            /* a level provisioned after a frame or a mark */
    OTN_BAD_SUPERVISOR = 17,  /* the supervisor's length, or a number in it beyond its range (docs/SUPERVISOR.md) */
    OTN_BAD_LEVEL = 18,       /* level not 1 to 6, or given twice */
    OTN_TOO_LONG = 20,        /* two summaries that have more than 86,400 seconds together */
    OTN_NOT_NEXT = 21,        /* a later summary that does not begin with the second after the earlier one's last */
    OTN_BAD_SUMMARY = 26      /* a summary's length, or numbers that no summary has; a record that is none of one second */
};

/* Flags of a frame; both may stand. */
#define OTN_FLAG_TSF_P 1    /* line signal fail */
#define OTN_FLAG_OTUK_AIS 2 /* OTUk-AIS */

/* Layers. */
#define OTN_SECTION 0
#define OTN_PATH 1

/* Trace modes: what of an accepted trace is compared with the expected names. */
#define OTN_MODE_OFF 0
#define OTN_MODE_SAPI 1
#define OTN_MODE_DAPI 2
#define OTN_MODE_BOTH 3

/* TIMActDis. */
#define OTN_TIM_ACTS 0
#define OTN_TIM_DISABLED 1
#define OTN_TIM_DEFAULT 2 /* as OTN_TIM_DISABLED */

/* Heads: what a frame is filed under. */
enum otn_head {
    OTN_HEAD_CLEAR = 0,
    OTN_HEAD_TSF_P = 1,
    OTN_HEAD_OTUK_AIS = 2,
    OTN_HEAD_LOF = 3,
    OTN_HEAD_LOM = 4,
    OTN_HEAD_SECTION_TIM = 5,
    OTN_HEAD_AIS = 6,
    OTN_HEAD_OCI = 7,
    OTN_HEAD_LCK = 8,
    OTN_HEAD_PATH_TIM = 9
};

/* A fresh supervisor in sup: out of frame, no defects, all counts zero. sup's old bytes are not looked at, only its length.
   thr is DEGThr, degm DEGM, mode and dis as above; names are 32 expected bytes, SAPI then DAPI. sm is the section, pm the path.
   Refuses 17 (length), then 5 to 10. */
uint64_t otn_fresh(uint8_t *sup, size_t sup_len, uint8_t k, uint32_t sm_thr, uint8_t sm_degm, uint32_t pm_thr, uint8_t pm_degm,
                   uint8_t sm_mode, uint8_t pm_mode, uint8_t sm_dis, uint8_t pm_dis, const uint8_t *sm_names, size_t sm_names_len,
                   const uint8_t *pm_names, size_t pm_names_len);

/* A tandem level, 1 to 6, is watched from here on: after otn_fresh, and ahead of every frame and mark. thr to names as in otn_fresh,
   with the range of the supervisor's k for thr. A level is watched only if it is provisioned. Refuses 17, then 6 to 10, 16, 18. */
uint64_t otn_level(uint8_t *sup, size_t sup_len, uint8_t level, uint32_t thr, uint8_t degm, uint8_t mode, uint8_t dis,
                   const uint8_t *names, size_t names_len);

/* One frame: 64 bytes of overhead, rows 1 to 4 of columns 1 to 16; flags; the BIP-8 violation counts of SM and PM, 0 to 8.
   Refuses 17, then 1 to 4. Accepted: the report, read by the OTN_ functions below. */
uint64_t otn_step(uint8_t *sup, size_t sup_len, const uint8_t *overhead, size_t overhead_len, uint8_t flags, uint8_t sm, uint8_t pm);

/* The same with the violation counts of TCM1 to TCM6, 0 to 8 each, a level provisioned or not; otn_step is this with six zeros.
   Refuses 17, then 1 to 4. Accepted: the same report, in which no level has a part; otn_level_report tells of each. */
uint64_t otn_step_levels(uint8_t *sup, size_t sup_len, const uint8_t *overhead, size_t overhead_len, uint8_t flags, uint8_t sm,
                         uint8_t pm, uint8_t t1, uint8_t t2, uint8_t t3, uint8_t t4, uint8_t t5, uint8_t t6);

/* A mark: closes the open second, and reports the one before it, which was pending until now. So a second is reported one mark late:
   the first mark reports none, answers 0 and leaves the record alone; each later one has otn_reported(answer), and fills the record.

   The record is 52 little-endian 32-bit words: 22 of line, section and path (enum otn_figure below), then five of each level 1 to 6
   (enum otn_level_figure), zeros where it is not provisioned. A record of another length gets the first bytes that it has room for,
   and bytes beyond 208 are left alone.

   The five of section, path and each level are its errored blocks near and far, its near and far DS, and the sum of the violations
   that its far end told: a frame whose BEI is 1 to 8 has a far block, and that number is added to the sum; BEI 0 and 9 to 15, 1011 with
   them, is no block and adds nothing. Where no block is counted nothing is added: under SSF, in path and levels under dAIS, dOCI and
   dLCK, in a level under dLTC; dTIM stops neither. So in each record far blocks <= sum <= 8 times far blocks, and no sum is above
   3,200,000.

   An alignment error voids figures of its own second and of the one before: where dIAE stood in some frame of the reported second or
   of the one just closed, the section's five are 0; where dBIAE did, its three of the far end: blocks, DS and sum. A level's likewise,
   by its own dIAE and dBIAE. Number, frames, heads and the path's figures are never voided.

   Refuses 17, then 4. A refused mark leaves the pending second pending. */
uint64_t otn_mark(uint8_t *sup, size_t sup_len, uint8_t *record, size_t record_len);

/* The pending second, which is the last one closed, as if it were reported now: voided by its own alignment errors alone. For the last
   second of all, which no mark reports: call it before shutting down. otn_reported(answer) where there is one, and the record is
   filled as by otn_mark; before the first mark there is none, and the record is left alone. sup is not changed. Refuses 17. */
uint64_t otn_pending(const uint8_t *sup, size_t sup_len, uint8_t *record, size_t record_len);

/* The accepted trace of a layer, 64 bytes: SAPI is bytes 0 to 15, DAPI 16 to 31. sup is not changed. Refuses 17, then 11 to 13. */
uint64_t otn_trace(const uint8_t *sup, size_t sup_len, uint8_t layer, uint8_t *out, size_t out_len);

/* What stands of a level after the last frame and mark, read by the OTN_TCM_ macros below; a level that is not provisioned answers 0.
   sup is not changed. Refuses 17, then 18. */
uint64_t otn_level_report(const uint8_t *sup, size_t sup_len, uint8_t level);

/* The accepted trace of a level, 64 bytes as in otn_trace. A level that is not provisioned has none, nor has a number that is no
   level. sup is not changed. Refuses 17, then 12, 13. */
uint64_t otn_level_trace(const uint8_t *sup, size_t sup_len, uint8_t level, uint8_t *out, size_t out_len);

/* Summaries, for quarter-hours and days. A summary tells of up to 86,400 seconds in a row: the number of the first one, how many they
   are, and their figures added up, DS as the number of seconds that have it; no tandem level's. It is 23 little-endian 64-bit words
   (enum otn_summary_figure below) in a buffer of OTN_SUMMARY_BYTES that the caller owns; no supervisor knows of it. 184 zeros are
   the empty summary, which has no second.

   What both calls refuse as 26 is a summary with a length above 86,400, a first second of 0 though it has seconds or another one
   though it has none, a last second above 4,294,967,295, a number of DS above the length, frames, blocks or frames under a head
   above 400,000 times the length, or a sum of violations above 3,200,000 times the length. That the heads add up to the frames is not
   asked, nor that a sum lies between the far blocks and eight times them.

   An output of another length than 184 gets the first bytes that it has room for, and bytes beyond 184 are left alone. */

/* The summary of one second, from the record that otn_mark or otn_pending filled: of its first 88 bytes, and no other is looked at.
   Refuses 26: the record has fewer bytes, or is none of a reported second: number 0, a DS above 1, a count or head above 400,000, or a
   sum above 3,200,000. A record that nothing was reported into is not to be handed in; ask otn_reported. */
uint64_t otn_summary(const uint8_t *record, size_t record_len, uint8_t *out, size_t out_len);

/* Two summaries joined: the earlier one's seconds and the later one's. The empty summary follows on from any, and any from it. Both
   are only read, and may be the same bytes; out overlaps neither. Refuses 26 (one of the two has not 184 bytes, or is no summary),
   then 20, then 21.

   Quarter-hour q, from 0, is seconds 900q + 1 to 900q + 900. Keep one summary, empty at first; join each reported second to it; it is
   whole when its last second is 900q + 900, and the next one begins with the empty summary again. A day is 96 of them, joined. */
uint64_t otn_join(const uint8_t *earlier, size_t earlier_len, const uint8_t *later, size_t later_len, uint8_t *out, size_t out_len);

/* The refusal of any answer: 0 where the call was accepted. */
static inline unsigned otn_refusal(uint64_t answer) { return (unsigned)(answer & 0xff); }

/* Whether otn_mark or otn_pending filled the record: 1, or 0 where there was no second to tell, or a refusal. */
static inline unsigned otn_reported(uint64_t answer) { return (unsigned)(answer >> 8 & 1); }

/* The report of an accepted frame. IF, IM and every defect are as they stand after the frame. */
static inline unsigned otn_report_bit(uint64_t report, unsigned bit) { return (unsigned)(report >> bit & 1); }
static inline unsigned otn_head(uint64_t report) { return (unsigned)(report >> 8 & 15); }
static inline unsigned otn_section_abei(uint64_t report) { return (unsigned)(report >> 33 & 15); }
static inline unsigned otn_path_abei(uint64_t report) { return (unsigned)(report >> 40 & 15); }

#define OTN_IF(r) otn_report_bit(r, 12)
#define OTN_IM(r) otn_report_bit(r, 13)
#define OTN_DLOF(r) otn_report_bit(r, 14)
#define OTN_DLOM(r) otn_report_bit(r, 15)
/* the section's SSF and defects */
#define OTN_SECTION_SSF(r) otn_report_bit(r, 16)
#define OTN_SECTION_DTIM(r) otn_report_bit(r, 17)
#define OTN_SECTION_DBDI(r) otn_report_bit(r, 18)
#define OTN_SECTION_DIAE(r) otn_report_bit(r, 19)
#define OTN_SECTION_DBIAE(r) otn_report_bit(r, 20)
#define OTN_SECTION_DDEG(r) otn_report_bit(r, 21)
/* the path's */
#define OTN_PATH_SSF(r) otn_report_bit(r, 22)
#define OTN_PATH_DAIS(r) otn_report_bit(r, 23)
#define OTN_PATH_DOCI(r) otn_report_bit(r, 24)
#define OTN_PATH_DLCK(r) otn_report_bit(r, 25)
#define OTN_PATH_DTIM(r) otn_report_bit(r, 26)
#define OTN_PATH_DBDI(r) otn_report_bit(r, 27)
#define OTN_PATH_DDEG(r) otn_report_bit(r, 28)
/* actions */
#define OTN_SECTION_ATSF(r) otn_report_bit(r, 29)
#define OTN_SECTION_ATSD(r) otn_report_bit(r, 30)
#define OTN_SECTION_ABDI(r) otn_report_bit(r, 31)
#define OTN_SECTION_ABIAE(r) otn_report_bit(r, 32)
#define OTN_SECTION_ABEI(r) otn_section_abei(r)
#define OTN_PATH_ATSF(r) otn_report_bit(r, 37)
#define OTN_PATH_ATSD(r) otn_report_bit(r, 38)
#define OTN_PATH_ABDI(r) otn_report_bit(r, 39)
#define OTN_PATH_ABEI(r) otn_path_abei(r)
/* causes */
#define OTN_CLOF(r) otn_report_bit(r, 44)
#define OTN_CLOM(r) otn_report_bit(r, 45)
#define OTN_SECTION_CTIM(r) otn_report_bit(r, 46)
#define OTN_SECTION_CDEG(r) otn_report_bit(r, 47)
#define OTN_SECTION_CBDI(r) otn_report_bit(r, 48)
#define OTN_SECTION_CSSF(r) otn_report_bit(r, 49)
#define OTN_PATH_COCI(r) otn_report_bit(r, 50)
#define OTN_PATH_CLCK(r) otn_report_bit(r, 51)
#define OTN_PATH_CTIM(r) otn_report_bit(r, 52)
#define OTN_PATH_CDEG(r) otn_report_bit(r, 53)
#define OTN_PATH_CBDI(r) otn_report_bit(r, 54)
#define OTN_PATH_CSSF(r) otn_report_bit(r, 55)

/* The report of a level, whose SSF is the path's. A mark decides dDEG, and the report has it from then on; all else is as it stands
   after the last frame. Before the first frame a level that is provisioned has OTN_TCM_PROVISIONED alone. */
#define OTN_TCM_PROVISIONED(r) otn_report_bit(r, 8)
#define OTN_TCM_SSF(r) otn_report_bit(r, 9)
#define OTN_TCM_DLTC(r) otn_report_bit(r, 10)
#define OTN_TCM_DAIS(r) otn_report_bit(r, 11)
#define OTN_TCM_DOCI(r) otn_report_bit(r, 12)
#define OTN_TCM_DLCK(r) otn_report_bit(r, 13)
#define OTN_TCM_DTIM(r) otn_report_bit(r, 14)
#define OTN_TCM_DBDI(r) otn_report_bit(r, 15)
#define OTN_TCM_DIAE(r) otn_report_bit(r, 16)
#define OTN_TCM_DBIAE(r) otn_report_bit(r, 17)
#define OTN_TCM_DDEG(r) otn_report_bit(r, 18)
/* actions */
#define OTN_TCM_ATSF(r) otn_report_bit(r, 19)
#define OTN_TCM_ATSD(r) otn_report_bit(r, 20)
/* causes */
#define OTN_TCM_CSSF(r) otn_report_bit(r, 21)
#define OTN_TCM_CLTC(r) otn_report_bit(r, 22)
#define OTN_TCM_COCI(r) otn_report_bit(r, 23)
#define OTN_TCM_CLCK(r) otn_report_bit(r, 24)
#define OTN_TCM_CTIM(r) otn_report_bit(r, 25)
#define OTN_TCM_CDEG(r) otn_report_bit(r, 26)
#define OTN_TCM_CBDI(r) otn_report_bit(r, 27)

/* The figures of a reported second, read from a record of OTN_RECORD_BYTES. */
enum otn_figure {
    OTN_SECOND = 0,           /* its number, from 1 */
    OTN_FRAMES = 1,
    OTN_UNDER = 2,            /* OTN_UNDER + head: frames under the head, 0 to 9 */
    OTN_SECTION_NEAR = 12,
    OTN_SECTION_FAR = 13,
    OTN_SECTION_NEAR_DS = 14,
    OTN_SECTION_FAR_DS = 15,
    OTN_SECTION_FAR_SUM = 16, /* BEI numbers of its far blocks, added up */
    OTN_PATH_NEAR = 17,
    OTN_PATH_FAR = 18,
    OTN_PATH_NEAR_DS = 19,
    OTN_PATH_FAR_DS = 20,
    OTN_PATH_FAR_SUM = 21
};

static inline uint32_t otn_figure(const uint8_t *record, unsigned figure) {
    const uint8_t *b = record + 4 * figure;
    return (uint32_t)b[0] | (uint32_t)b[1] << 8 | (uint32_t)b[2] << 16 | (uint32_t)b[3] << 24;
}

/* The five figures of a level, 1 to 6, in the same record. */
enum otn_level_figure {
    OTN_LEVEL_NEAR = 0,
    OTN_LEVEL_FAR = 1,
    OTN_LEVEL_NEAR_DS = 2,
    OTN_LEVEL_FAR_DS = 3,
    OTN_LEVEL_FAR_SUM = 4
};

static inline uint32_t otn_level_figure(const uint8_t *record, unsigned level, unsigned figure) {
    return otn_figure(record, 22 + 5 * (level - 1) + figure);
}

/* The figures of a summary, read from its OTN_SUMMARY_BYTES. */
enum otn_summary_figure {
    OTN_SUMMARY_FIRST = 0,             /* number of its first second; 0 where it is empty */
    OTN_SUMMARY_LENGTH = 1,            /* how many seconds */
    OTN_SUMMARY_FRAMES = 2,
    OTN_SUMMARY_UNDER = 3,             /* OTN_SUMMARY_UNDER + head: frames under the head, 0 to 9 */
    OTN_SUMMARY_SECTION_NEAR = 13,
    OTN_SUMMARY_SECTION_FAR = 14,
    OTN_SUMMARY_SECTION_NEAR_DS = 15,  /* how many seconds are near-end defect seconds; so with the others */
    OTN_SUMMARY_SECTION_FAR_DS = 16,
    OTN_SUMMARY_SECTION_FAR_SUM = 17,  /* the seconds' sums, added up */
    OTN_SUMMARY_PATH_NEAR = 18,
    OTN_SUMMARY_PATH_FAR = 19,
    OTN_SUMMARY_PATH_NEAR_DS = 20,
    OTN_SUMMARY_PATH_FAR_DS = 21,
    OTN_SUMMARY_PATH_FAR_SUM = 22
};

static inline uint64_t otn_summary_figure(const uint8_t *summary, unsigned figure) {
    return (uint64_t)otn_figure(summary, 2 * figure) | (uint64_t)otn_figure(summary, 2 * figure + 1) << 32;
}

/* The quarter-hour that a second lies in, from 0; second 1 is the first. Second 0, which is no second, answers
   20,496,382,304,121,724, a number that no second answers. */
static inline uint64_t otn_quarter(uint64_t second) { return (second - 1) / 900; }

#ifdef __cplusplus
}
#endif

#endif
