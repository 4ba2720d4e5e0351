/* The line program of document 01 over the archive, from C: frames on standard input, answers on standard output.
 * Everything that a call is lent stands between guards, which are checked after each call. */
#include "guard.h"
#include "perdigolh.h"

enum { MOST_DIGITS = 640, MOST_BYTES = MOST_DIGITS / 2, CHALLENGE = 43, NO_FRAME = 0xff };

static guarded ledger, table;

/* What is left of a frame. */
static const uint8_t *rest;
static size_t left;

static const uint8_t *take(size_t width) {
    const uint8_t *field = rest;
    rest += width;
    left -= width;
    return field;
}

static uint64_t number(size_t width) {
    uint64_t n = 0;
    for (const uint8_t *field = take(width); width > 0; width--) {
        n = n << 8 | *field++;
    }
    return n;
}

static void print(uint64_t n, int width) {
    printf("%0*llx", width * 2, (unsigned long long)n);
}

static void print_answer(perdigolh_answer a) {
    print(a.number, 1);
    print(a.grant, 8);
    print(a.holder, 8);
    print(a.scope, 4);
    print(a.expiry, 8);
}

static void start(void) {
    guarded fresh = guard_new(PERDIGOLH_LEDGER_BYTES(number(1)));
    memset(lent(fresh), 0xff, fresh.length);
    uint8_t answer = perdigolh_start(lent(fresh), fresh.length);
    if (answer == PERDIGOLH_DONE) {
        guard_end(ledger);
        ledger = fresh;
    } else {
        guard_end(fresh);
    }
    print(answer, 1);
}

static void push(void) {
    uint64_t time = number(8);
    const uint8_t *fields[] = {take(16), take(32)};
    uint32_t scope = (uint32_t)number(4);
    const uint8_t *texts[] = {take(CHALLENGE), take(32), rest};
    guarded client = guard_copy(fields[0], 16), key = guard_copy(fields[1], 32);
    guarded challenge = guard_copy(texts[0], CHALLENGE), fresh = guard_copy(texts[1], 32), redirect = guard_copy(texts[2], left);
    print_answer(perdigolh_push(lent(ledger), ledger.length, time, lent(table), table.length, lent(client), lent(key), scope,
                                lent(challenge), challenge.length, lent(redirect), redirect.length, lent(fresh)));
    guard_unchanged(client, fields[0]);
    guard_unchanged(key, fields[1]);
    guard_unchanged(challenge, texts[0]);
    guard_unchanged(fresh, texts[1]);
    guard_unchanged(redirect, texts[2]);
}

static void decide(void) {
    uint64_t time = number(8);
    const uint8_t *fields[] = {take(16), take(32)};
    uint8_t yes = (uint8_t)number(1);
    uint64_t holder = number(8);
    const uint8_t *value = take(32);
    guarded client = guard_copy(fields[0], 16), reference = guard_copy(fields[1], 32), fresh = guard_copy(value, 32);
    guarded output = guard_new(PERDIGOLH_OUTPUT_LEAST);
    perdigolh_decided d = perdigolh_decide(lent(ledger), ledger.length, time, lent(reference), lent(client), yes, holder,
                                           lent(fresh), lent(output), output.length);
    print_answer(d.answer);
    print(d.length, 1);
    for (size_t i = 0; i < d.length; i++) {
        print(lent(output)[i], 1);
    }
    guard_unchanged(client, fields[0]);
    guard_unchanged(reference, fields[1]);
    guard_unchanged(fresh, value);
    guard_end(output);
}

static void token(void) {
    uint64_t time = number(8);
    const uint8_t *fields[] = {take(16), take(32), take(32), take(32), take(32), rest};
    guarded client = guard_copy(fields[0], 16), key = guard_copy(fields[1], 32), presented = guard_copy(fields[2], 32);
    guarded code = guard_copy(fields[3], 32), fresh = guard_copy(fields[4], 32), verifier = guard_copy(fields[5], left);
    print_answer(perdigolh_token(lent(ledger), ledger.length, time, lent(table), table.length, lent(client), lent(key),
                                 lent(presented), lent(code), lent(verifier), verifier.length, lent(fresh)));
    guard_unchanged(client, fields[0]);
    guard_unchanged(key, fields[1]);
    guard_unchanged(presented, fields[2]);
    guard_unchanged(code, fields[3]);
    guard_unchanged(fresh, fields[4]);
    guard_unchanged(verifier, fields[5]);
}

static void resource(void) {
    uint64_t time = number(8);
    const uint8_t *fields[] = {take(32), take(32)};
    uint32_t scope = (uint32_t)number(4);
    uint64_t holder = number(8);
    guarded value = guard_copy(fields[0], 32), presented = guard_copy(fields[1], 32);
    print_answer(perdigolh_resource(lent(ledger), ledger.length, time, lent(value), lent(presented), scope, holder));
    guard_unchanged(value, fields[0]);
    guard_unchanged(presented, fields[1]);
}

static void sweep(void) {
    perdigolh_swept s = perdigolh_sweep(lent(ledger), ledger.length, number(8));
    print(s.number, 1);
    print(s.pushed, 2);
    print(s.consented, 2);
    print(s.redeemed, 2);
}

static void client(void) {
    if (table.length == PERDIGOLH_TABLE_BYTES(PERDIGOLH_TABLE_MOST)) {
        print(PERDIGOLH_TABLE_UNSOUND, 1);
        return;
    }
    guarded longer = guard_new(table.length + PERDIGOLH_CLIENT_SIZE);
    memcpy(lent(longer), lent(table), table.length);
    memcpy(lent(longer) + table.length, take(PERDIGOLH_CLIENT_SIZE), PERDIGOLH_CLIENT_SIZE);
    guard_end(table);
    table = longer;
    print(PERDIGOLH_DONE, 1);
}

/* The kinds in order: the width of the fixed fields, and whether a last field takes the rest. */
static const struct {
    void (*answer)(void);
    size_t width;
    int open;
} kinds[] = {{start, 1, 0}, {push, 135, 1}, {decide, 97, 0}, {token, 152, 1}, {resource, 84, 0}, {sweep, 8, 0}, {client, 64, 0}};

/* Where the yes stands in a frame of kind 2. */
enum { DECIDE = 2, YES_AT = 56 };

static int digit(int c) {
    return c >= '0' && c <= '9' ? c - '0' : c >= 'a' && c <= 'f' ? c - 'a' + 10 : c >= 'A' && c <= 'F' ? c - 'A' + 10 : -1;
}

static int answered(const char *line, size_t digits) {
    static uint8_t bytes[MOST_BYTES];
    if (digits > MOST_DIGITS || digits % 2 != 0 || digits == 0) {
        return 0;
    }
    for (size_t i = 0; i < digits; i += 2) {
        int high = digit((unsigned char)line[i]), low = digit((unsigned char)line[i + 1]);
        if (high < 0 || low < 0) {
            return 0;
        }
        bytes[i / 2] = (uint8_t)(high * 16 + low);
    }
    uint8_t kind = bytes[0];
    rest = bytes + 1;
    left = digits / 2 - 1;
    if (kind >= sizeof kinds / sizeof kinds[0] || left < kinds[kind].width || (left > kinds[kind].width && !kinds[kind].open)) {
        return 0;
    }
    if (kind == DECIDE && rest[YES_AT] > PERDIGOLH_YES) {
        return 0;
    }
    guarded lent_table = table;
    uint8_t *before = memcpy(malloc(table.length + 1), lent(table), table.length);
    kinds[kind].answer();
    if (!guard_stands(ledger) || !guard_stands(table) ||
        (lent_table.whole == table.whole && memcmp(before, lent(table), table.length) != 0)) {
        fprintf(stderr, "a call wrote outside the ledger\n");
        abort();
    }
    free(before);
    return 1;
}

int main(void) {
    static char line[MOST_DIGITS + 1];
    size_t digits = 0, read = 0;
    ledger = guard_new(0);
    table = guard_new(0);
    for (int c; (c = getchar()) != EOF || read > 0;) {
        if (c != EOF && c != '\n') {
            read++;
            if (digits <= MOST_DIGITS) {
                line[digits++] = (char)c;
            }
            continue;
        }
        if (!answered(line, digits)) {
            print(NO_FRAME, 1);
        }
        putchar('\n');
        digits = read = 0;
    }
    guard_end(ledger);
    guard_end(table);
    return 0;
}
