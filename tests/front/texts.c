/* Values as text by include/perdigolh_text.h: lines 'KIND write HEX' and 'KIND read HEX-OF-THE-TEXT' in, the text or the value in
 * hexadecimal out, 'no' for what is no text. What is written has marked bytes around it, and what is read ends at its length. */
#include "guard.h"
#include "perdigolh.h"
#include "perdigolh_text.h"

typedef struct {
    const char *kind;
    size_t size, length;
    void (*text)(const uint8_t *, char *);
    int (*of)(const char *, size_t, uint8_t *);
} codec;

static const codec codecs[] = {
    {"code", 32, PERDIGOLH_CODE_TEXT, perdigolh_code_text, perdigolh_code_of},
    {"client", 16, PERDIGOLH_CLIENT_TEXT, perdigolh_client_text, perdigolh_client_of},
    {"reference", 32, PERDIGOLH_REFERENCE_TEXT, perdigolh_reference_text, perdigolh_reference_of},
    {"token", 32, PERDIGOLH_TOKEN_TEXT, perdigolh_token_text, perdigolh_token_of},
    {"thumbprint", 32, PERDIGOLH_THUMBPRINT_TEXT, perdigolh_thumbprint_text, perdigolh_thumbprint_of},
};

static guarded hex_of(const char *digits) {
    guarded g = guard_new(strlen(digits) / 2);
    for (size_t i = 0; i < g.length; i++) {
        unsigned byte;
        if (sscanf(digits + 2 * i, "%2x", &byte) != 1) {
            abort();
        }
        lent(g)[i] = (uint8_t)byte;
    }
    return g;
}

static void print_hex(guarded g) {
    for (size_t i = 0; i < g.length; i++) {
        printf("%02x", lent(g)[i]);
    }
    printf("\n");
}

static void write_text(const codec *c, guarded value) {
    guarded text = guard_new(c->length + 1);
    c->text(lent(value), (char *)lent(text));
    printf("%s\n", (const char *)lent(text));
    guard_end(text);
}

static void read_text(const codec *c, guarded text) {
    guarded value = guard_new(c->size);
    uint8_t before[32];
    memset(lent(value), 0x5a, c->size);
    memcpy(before, lent(value), c->size);
    if (c->of((const char *)lent(text), text.length, lent(value))) {
        print_hex(value);
    } else {
        printf(memcmp(before, lent(value), c->size) == 0 ? "no\n" : "no, and it wrote\n");
    }
    guard_end(value);
}

int main(void) {
    char kind[16], what[8], digits[600];
    while (scanf("%15s %7s %599[^\n]", kind, what, digits) == 3) {
        size_t at = 0;
        while (at < sizeof codecs / sizeof *codecs && strcmp(codecs[at].kind, kind) != 0) {
            at++;
        }
        if (at == sizeof codecs / sizeof *codecs) {
            return 1;
        }
        guarded given = hex_of(digits[0] == '-' ? "" : digits);
        (strcmp(what, "write") == 0 ? write_text : read_text)(&codecs[at], given);
        guard_end(given);
    }
    return 0;
}
