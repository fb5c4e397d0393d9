/* The calls of the card, as the stand-in over plain.c offers them. The card's own header has the same names. */
#ifndef OTN_H
#define OTN_H
#include <stddef.h>
#include <stdint.h>

#define OTN_SUPERVISOR_BYTES 2392
#define OTN_RECORD_BYTES 208
#define OTN_SUMMARY_BYTES 184

uint64_t otn_fresh(uint8_t *sup, size_t sup_len, uint8_t k, uint32_t sm_thr, uint8_t sm_degm, uint32_t pm_thr, uint8_t pm_degm,
                   uint8_t sm_mode, uint8_t pm_mode, uint8_t sm_dis, uint8_t pm_dis, const uint8_t *sm_names,
                   size_t sm_names_len, const uint8_t *pm_names, size_t pm_names_len);
uint64_t otn_level(uint8_t *sup, size_t sup_len, uint8_t level, uint32_t thr, uint8_t degm, uint8_t mode, uint8_t dis,
                   const uint8_t *names, size_t names_len);
uint64_t otn_step(uint8_t *sup, size_t sup_len, const uint8_t *overhead, size_t overhead_len, uint8_t flags, uint8_t sm,
                  uint8_t pm);
uint64_t otn_step_levels(uint8_t *sup, size_t sup_len, const uint8_t *overhead, size_t overhead_len, uint8_t flags, uint8_t sm,
                         uint8_t pm, uint8_t t1, uint8_t t2, uint8_t t3, uint8_t t4, uint8_t t5, uint8_t t6);
uint64_t otn_mark(uint8_t *sup, size_t sup_len, uint8_t *record, size_t record_len);
uint64_t otn_pending(const uint8_t *sup, size_t sup_len, uint8_t *record, size_t record_len);
uint64_t otn_trace(const uint8_t *sup, size_t sup_len, uint8_t layer, uint8_t *out, size_t out_len);
uint64_t otn_level_report(const uint8_t *sup, size_t sup_len, uint8_t level);
uint64_t otn_level_trace(const uint8_t *sup, size_t sup_len, uint8_t level, uint8_t *out, size_t out_len);
uint64_t otn_summary(const uint8_t *record, size_t record_len, uint8_t *out, size_t out_len);
uint64_t otn_join(const uint8_t *earlier, size_t earlier_len, const uint8_t *later, size_t later_len, uint8_t *out, size_t out_len);
#endif
