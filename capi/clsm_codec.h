/* Keys and values that are not numbers of 64 bits: signed numbers, pairs, short texts, doubles and
 * bytes, as the words of clsm.h. The Rust crate's module codec encodes them in the same way.
 *
 * Keys are in the order of what they encode: signed numbers and doubles by size, pairs by the first
 * number and then by the second, texts byte by byte. Values are in no order.
 *
 *     uint64_t key;
 *     clsm_value value;
 *     if (!clsm_key_of_text("pear", 4, &key) || !clsm_value_of_bytes("green", 5, &value)) return 1;
 *     clsm_put(caller, key, value.words, (size_t)value.length);
 */
#ifndef CLSM_CODEC_H
#define CLSM_CODEC_H

#include "clsm.h"

#include <string.h>

#define CLSM_KEY_BYTES   8  /* of a text in a key, at most */
#define CLSM_VALUE_BYTES 63 /* in a value, at most */

/* ---- Keys */

#define CLSM_CODEC_SIGN 0x8000000000000000u

#ifdef __cplusplus
#define CLSM_CODEC_AS(type, number) static_cast<type>(number)
#else
#define CLSM_CODEC_AS(type, number) ((type)(number))
#endif

static inline uint64_t clsm_key_of_signed(int64_t number) {
    return CLSM_CODEC_AS(uint64_t, number) ^ CLSM_CODEC_SIGN;
}

static inline int64_t clsm_signed_of_key(uint64_t key) {
    return CLSM_CODEC_AS(int64_t, key ^ CLSM_CODEC_SIGN);
}

static inline uint64_t clsm_key_of_pair(uint32_t first, uint32_t second) {
    return CLSM_CODEC_AS(uint64_t, first) << 32 | second;
}

static inline void clsm_pair_of_key(uint64_t key, uint32_t *first, uint32_t *second) {
    *first = CLSM_CODEC_AS(uint32_t, key >> 32);
    *second = CLSM_CODEC_AS(uint32_t, key & UINT32_MAX);
}

/* The order is the total order of IEEE 754: -0 is below 0, and a number that is none at an end. */
static inline uint64_t clsm_key_of_double(double number) {
    uint64_t bits;
    memcpy(&bits, &number, sizeof bits);
    return (bits & CLSM_CODEC_SIGN) ? ~bits : bits ^ CLSM_CODEC_SIGN;
}

static inline double clsm_double_of_key(uint64_t key) {
    const uint64_t bits = (key & CLSM_CODEC_SIGN) ? key ^ CLSM_CODEC_SIGN : ~key;
    double number;
    memcpy(&number, &bits, sizeof number);
    return number;
}

/* A key of up to eight bytes, the last of which is not 0: whether they are that. */
static inline bool clsm_key_of_text(const char *text, size_t length, uint64_t *key) {
    if (length > CLSM_KEY_BYTES || (length > 0 && text[length - 1] == 0)) return false;
    *key = 0;
    for (size_t i = 0; i < CLSM_KEY_BYTES; i++)
        *key = *key << 8 | (i < length ? CLSM_CODEC_AS(unsigned char, text[i]) : 0u);
    return true;
}

/* The length of the key's text, behind which the bytes are 0. */
static inline size_t clsm_text_of_key(uint64_t key, char text[CLSM_KEY_BYTES]) {
    size_t length = 0;
    for (size_t i = 0; i < CLSM_KEY_BYTES; i++) {
        const unsigned char byte = CLSM_CODEC_AS(unsigned char, key >> (56 - 8 * i) & 0xFF);
        memcpy(&text[i], &byte, 1);
        if (byte) length = i + 1;
    }
    return length;
}

/* ---- Values: the functions back answer whether the value encodes such a thing. */

static inline clsm_value clsm_codec_word(uint64_t word) {
    clsm_value value;
    memset(&value, 0, sizeof value);
    value.length = 1;
    value.words[0] = word;
    return value;
}

static inline clsm_value clsm_value_of_signed(int64_t number) {
    return clsm_codec_word(CLSM_CODEC_AS(uint64_t, number));
}

static inline bool clsm_signed_of_value(const clsm_value *value, int64_t *number) {
    if (value->length != 1) return false;
    *number = CLSM_CODEC_AS(int64_t, value->words[0]);
    return true;
}

static inline clsm_value clsm_value_of_double(double number) {
    uint64_t bits;
    memcpy(&bits, &number, sizeof bits);
    return clsm_codec_word(bits);
}

static inline bool clsm_double_of_value(const clsm_value *value, double *number) {
    if (value->length != 1) return false;
    memcpy(number, &value->words[0], sizeof *number);
    return true;
}

/* Up to 63 bytes, in as few words as have room for them and their number. */
static inline bool clsm_value_of_bytes(const void *bytes, size_t length, clsm_value *value) {
    const unsigned char *from = CLSM_CODEC_AS(const unsigned char *, bytes);
    if (length > CLSM_VALUE_BYTES) return false;
    *value = clsm_codec_word(length);
    value->length = length / 8 + 1;
    for (size_t i = 1; i <= length; i++)
        value->words[i / 8] |= CLSM_CODEC_AS(uint64_t, from[i - 1]) << i % 8 * 8;
    return true;
}

static inline bool clsm_bytes_of_value(const clsm_value *value, void *bytes, size_t *length) {
    unsigned char *to = CLSM_CODEC_AS(unsigned char *, bytes);
    const size_t count = value->words[0] & 0xFF;
    if (count > CLSM_VALUE_BYTES || value->length != count / 8 + 1) return false;
    for (size_t i = count + 1; i < 8 * value->length; i++)
        if (value->words[i / 8] >> i % 8 * 8 & 0xFF) return false;
    for (size_t i = 1; i <= count; i++)
        to[i - 1] = CLSM_CODEC_AS(unsigned char, value->words[i / 8] >> i % 8 * 8 & 0xFF);
    *length = count;
    return true;
}

#endif
