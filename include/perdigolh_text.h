/*
 * The desk's values as they travel, for a front in C or C++. A value has one spelling, and nothing else is read: no other case, no
 * padding, no set pad bits, no blanks. Common decoders take four spellings of one token.
 *
 *   code        64 hexadecimal digits, lower case
 *   client id   32 hexadecimal digits, lower case
 *   reference   PERDIGOLH_REQUEST_URI and 64 hexadecimal digits, lower case: the request_uri of RFC 9126
 *   token       43 characters of base64url without padding (RFC 4648, section 5)
 *   thumbprint  the same: the x5t#S256 of RFC 8705, the jkt of RFC 9449
 *
 * perdigolh_X_text writes the text and a zero behind it. perdigolh_X_of reads a text of `length` characters, which needs no zero
 * behind it: it answers 1 and writes the value, or answers 0 and writes nothing. Neither allocates or fails otherwise.
 *
 * These are plain C, run and compared (tests/runs/texts.py), and no part of the proved archive.
 */
#ifndef PERDIGOLH_TEXT_H
#define PERDIGOLH_TEXT_H

#include <stddef.h>
#include <stdint.h>
#include <string.h>

#define PERDIGOLH_REQUEST_URI "urn:ietf:params:oauth:request_uri:"

/* Characters of each text, without the zero behind it. */
#define PERDIGOLH_CODE_TEXT 64
#define PERDIGOLH_CLIENT_TEXT 32
#define PERDIGOLH_REFERENCE_TEXT (sizeof PERDIGOLH_REQUEST_URI - 1 + 64)
#define PERDIGOLH_TOKEN_TEXT 43
#define PERDIGOLH_THUMBPRINT_TEXT 43

/* Hexadecimal of `size` bytes, and base64url of 32. Not for callers. */

static inline void perdigolh_hex_write(const uint8_t *bytes, size_t size, char *text) {
    static const char digits[] = "0123456789abcdef";
    size_t i;
    for (i = 0; i < size; i++) {
        text[2 * i] = digits[bytes[i] >> 4];
        text[2 * i + 1] = digits[bytes[i] & 15];
    }
    text[2 * size] = 0;
}

/* The place of a character in an alphabet of `count`, or `count`. */
static inline unsigned perdigolh_place(const char *alphabet, unsigned count, char character) {
    unsigned at;
    for (at = 0; at < count && alphabet[at] != character; at++) {
    }
    return at;
}

static inline int perdigolh_hex_read(const char *text, size_t length, uint8_t *bytes, size_t size) {
    uint8_t read[32];
    size_t i;
    if (length != 2 * size || size > sizeof read) {
        return 0;
    }
    for (i = 0; i < size; i++) {
        unsigned high = perdigolh_place("0123456789abcdef", 16, text[2 * i]);
        unsigned low = perdigolh_place("0123456789abcdef", 16, text[2 * i + 1]);
        if (high == 16 || low == 16) {
            return 0;
        }
        read[i] = (uint8_t)(high << 4 | low);
    }
    memcpy(bytes, read, size);
    return 1;
}

#define PERDIGOLH_BASE64URL "ABCDEFGHIJKLMNOPQRSTUVWXYZabcdefghijklmnopqrstuvwxyz0123456789-_"

static inline void perdigolh_base64url_write(const uint8_t bytes[32], char text[44]) {
    unsigned bits = 0, held = 0;
    size_t i, at = 0;
    for (i = 0; i < 32; i++) {
        bits = (bits & 63) << 8 | bytes[i]; /* fewer than six bits are held over */
        for (held += 8; held >= 6; held -= 6) {
            text[at++] = PERDIGOLH_BASE64URL[bits >> (held - 6) & 63];
        }
    }
    text[at++] = PERDIGOLH_BASE64URL[bits << (6 - held) & 63]; /* four bits of the value, two zeros */
    text[at] = 0;
}

static inline int perdigolh_base64url_read(const char *text, size_t length, uint8_t bytes[32]) {
    uint8_t read[32];
    unsigned bits = 0, held = 0;
    size_t i, at = 0;
    if (length != 43) {
        return 0;
    }
    for (i = 0; i < 43; i++) {
        unsigned place = perdigolh_place(PERDIGOLH_BASE64URL, 64, text[i]);
        if (place == 64) {
            return 0;
        }
        bits = (bits & 255) << 6 | place;
        held += 6;
        if (held >= 8) {
            held -= 8;
            read[at++] = (uint8_t)(bits >> held);
        }
    }
    if ((bits & 3) != 0) { /* two bits are left over, which are no part of the value */
        return 0;
    }
    memcpy(bytes, read, sizeof read);
    return 1;
}

/* The values. */

static inline void perdigolh_code_text(const uint8_t code[32], char text[PERDIGOLH_CODE_TEXT + 1]) {
    perdigolh_hex_write(code, 32, text);
}

static inline int perdigolh_code_of(const char *text, size_t length, uint8_t code[32]) {
    return perdigolh_hex_read(text, length, code, 32);
}

static inline void perdigolh_client_text(const uint8_t client[16], char text[PERDIGOLH_CLIENT_TEXT + 1]) {
    perdigolh_hex_write(client, 16, text);
}

static inline int perdigolh_client_of(const char *text, size_t length, uint8_t client[16]) {
    return perdigolh_hex_read(text, length, client, 16);
}

static inline void perdigolh_reference_text(const uint8_t reference[32], char text[PERDIGOLH_REFERENCE_TEXT + 1]) {
    memcpy(text, PERDIGOLH_REQUEST_URI, sizeof PERDIGOLH_REQUEST_URI - 1);
    perdigolh_hex_write(reference, 32, text + sizeof PERDIGOLH_REQUEST_URI - 1);
}

static inline int perdigolh_reference_of(const char *text, size_t length, uint8_t reference[32]) {
    const size_t before = sizeof PERDIGOLH_REQUEST_URI - 1;
    return length == PERDIGOLH_REFERENCE_TEXT && memcmp(text, PERDIGOLH_REQUEST_URI, before) == 0 &&
           perdigolh_hex_read(text + before, length - before, reference, 32);
}

static inline void perdigolh_token_text(const uint8_t token[32], char text[PERDIGOLH_TOKEN_TEXT + 1]) {
    perdigolh_base64url_write(token, text);
}

static inline int perdigolh_token_of(const char *text, size_t length, uint8_t token[32]) {
    return perdigolh_base64url_read(text, length, token);
}

static inline void perdigolh_thumbprint_text(const uint8_t key[32], char text[PERDIGOLH_THUMBPRINT_TEXT + 1]) {
    perdigolh_base64url_write(key, text);
}

static inline int perdigolh_thumbprint_of(const char *text, size_t length, uint8_t key[32]) {
    return perdigolh_base64url_read(text, length, key);
}

#endif
