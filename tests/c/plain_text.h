/* The calls on a text in plain C, written from documents 01 and 02 alone, with memory of fixed size only: together with plain.h the
 * baseline of ./bench. A refusal is number * 2^32 + place, as the test archive of the proved library gives it.
 */
#ifndef PLAIN_TEXT_H
#define PLAIN_TEXT_H

#include <stddef.h>
#include <stdint.h>

/* nodes * 2^20 + copies * 2^10 + events, or the refusal. */
uint64_t plain_read(const uint8_t *text, size_t len);

/* The number of bytes written, or the refusal. */
uint64_t plain_print(const uint8_t *text, size_t len, uint8_t *out, size_t out_len);
uint64_t plain_translate(const uint8_t *text, size_t len, uint8_t *out, size_t out_len);

/* The length of the listing, over the front of out as far as it goes. */
uint64_t plain_list(const uint8_t *text, size_t len, uint8_t *out, size_t out_len);

/* The length of the name, over the front of out as far as it goes; 0 for a refusal. */
uint64_t plain_name(const uint8_t *text, size_t len, uint64_t event, uint8_t *out, size_t out_len);

/* reset * 2^24 + count * 2^18 + v0 * 2^12 + v1 * 2^6 + v2, a value that is not there being 0; or the refusal. */
uint64_t plain_values(const uint8_t *text, size_t len, uint64_t event);

#endif
