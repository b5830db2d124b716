/* The four calls of include/adl.h in plain C, written apart from the proved library: the reference of compare.c, and together with
 * plain_text.h the baseline of ./bench.
 */
#ifndef PLAIN_H
#define PLAIN_H

#include <stddef.h>
#include <stdint.h>

uint8_t plain_check(const uint8_t *table, size_t table_len);
uint8_t plain_step(const uint8_t *table, size_t table_len, uint8_t *record, size_t record_len, uint64_t event);
uint8_t plain_offer(const uint8_t *table, size_t table_len, const uint8_t *record, size_t record_len, uint8_t *out, size_t out_len);
uint8_t plain_finished(const uint8_t *table, size_t table_len, const uint8_t *record, size_t record_len);

#endif
