/* Whole grants and every refusal from C; the numbers expected are the documents'. Guards stand around all that is lent.
 * The last line is the tally. */
#include "guard.h"
#include "perdigolh.h"

#define VERIFIER "dBjftJeZ4CVP-mB92K27uhbUJU1p1r_wW1gFWFOEjXk"
#define CHALLENGE "E9Melhoa2OwvFrEMTJguCHaoeK1t8URWbuGJSstw-cM"

static int passed, failed;

static void expect(int holds, const char *what, int line) {
    if (holds) {
        passed++;
    } else {
        failed++;
        printf("calls.c:%d: %s\n", line, what);
    }
}
#define EXPECT(holds) expect((holds), #holds, __LINE__)

/* All that a call is handed; a test changes what it is about. */
typedef struct {
    uint64_t time;
    uint8_t client[16], key[32], presented[32], value[32], fresh[32];
    uint32_t scope;
    uint64_t holder;
    uint8_t yes;
    const char *challenge, *redirect, *verifier;
} request;

static guarded ledger, table, output;
static const uint64_t holder = 7;

static request in_order(uint64_t time, uint8_t value, uint8_t fresh) {
    request r = {time, {0}, {0}, {0}, {0}, {0}, 4, holder, PERDIGOLH_YES, CHALLENGE, "https://a", VERIFIER};
    memset(r.client, 0xa1, sizeof r.client);
    memset(r.key, 0xa2, sizeof r.key);
    memset(r.presented, 0xee, sizeof r.presented);
    memset(r.value, value, sizeof r.value);
    memset(r.fresh, fresh, sizeof r.fresh);
    return r;
}

enum { REFERENCE = 0x11, CODE = 0x22, TOKEN = 0x33 };

/* The arrays of a request, each between guards for the time of one call. */
typedef struct {
    guarded client, key, presented, value, fresh, challenge, redirect, verifier;
} lending;

static lending lend(const request *r) {
    lending l = {guard_copy(r->client, 16), guard_copy(r->key, 32), guard_copy(r->presented, 32), guard_copy(r->value, 32),
                 guard_copy(r->fresh, 32), guard_copy(r->challenge, strlen(r->challenge)),
                 guard_copy(r->redirect, strlen(r->redirect)), guard_copy(r->verifier, strlen(r->verifier))};
    return l;
}

/* The guards of what lives longer than one call. */
static void stand(void) {
    if (!guard_stands(ledger) || !guard_stands(table) || !guard_stands(output)) {
        fprintf(stderr, "a call wrote outside what it was lent\n");
        abort();
    }
}

static void give_back(lending l, const request *r) {
    guard_unchanged(l.client, r->client);
    guard_unchanged(l.key, r->key);
    guard_unchanged(l.presented, r->presented);
    guard_unchanged(l.value, r->value);
    guard_unchanged(l.fresh, r->fresh);
    guard_unchanged(l.challenge, r->challenge);
    guard_unchanged(l.redirect, r->redirect);
    guard_unchanged(l.verifier, r->verifier);
    stand();
}

static perdigolh_answer push(request r) {
    lending l = lend(&r);
    perdigolh_answer a = perdigolh_push(lent(ledger), ledger.length, r.time, lent(table), table.length, lent(l.client), lent(l.key),
                                        r.scope, lent(l.challenge), l.challenge.length, lent(l.redirect), l.redirect.length,
                                        lent(l.fresh));
    give_back(l, &r);
    return a;
}

static perdigolh_decided decide(request r) {
    lending l = lend(&r);
    perdigolh_decided d = perdigolh_decide(lent(ledger), ledger.length, r.time, lent(l.value), lent(l.client), r.yes, r.holder,
                                           lent(l.fresh), lent(output), output.length);
    give_back(l, &r);
    return d;
}

/* The same where it is refused: no length beside its number. */
static perdigolh_answer undecided(request r) {
    perdigolh_decided d = decide(r);
    EXPECT(d.length == 0);
    return d.answer;
}

static perdigolh_answer token(request r) {
    lending l = lend(&r);
    perdigolh_answer a = perdigolh_token(lent(ledger), ledger.length, r.time, lent(table), table.length, lent(l.client),
                                         lent(l.key), lent(l.presented), lent(l.value), lent(l.verifier), l.verifier.length,
                                         lent(l.fresh));
    give_back(l, &r);
    return a;
}

static perdigolh_answer resource(request r) {
    lending l = lend(&r);
    perdigolh_answer a = perdigolh_resource(lent(ledger), ledger.length, r.time, lent(l.value), lent(l.presented), r.scope, r.holder);
    give_back(l, &r);
    return a;
}

static perdigolh_swept sweep(uint64_t time) {
    perdigolh_swept s = perdigolh_sweep(lent(ledger), ledger.length, time);
    stand();
    return s;
}

/* The calls that only read: the ledger must be afterwards what it was. */

static uint8_t *read_only_before;

static void read_begins(void) {
    read_only_before = memcpy(malloc(ledger.length + 1), lent(ledger), ledger.length);
}

static void read_ends(void) {
    if (memcmp(read_only_before, lent(ledger), ledger.length) != 0) {
        fprintf(stderr, "a call that only reads wrote to the ledger\n");
        abort();
    }
    free(read_only_before);
}

static perdigolh_decided pending(request r) {
    lending l = lend(&r);
    read_begins();
    perdigolh_decided d =
        perdigolh_pending(lent(ledger), ledger.length, r.time, lent(l.value), lent(l.client), lent(output), output.length);
    read_ends();
    give_back(l, &r);
    return d;
}

static perdigolh_answer unseen(request r) {
    perdigolh_decided d = pending(r);
    EXPECT(d.length == 0);
    return d.answer;
}

static perdigolh_introspected introspect(request r) {
    lending l = lend(&r);
    read_begins();
    perdigolh_introspected i = perdigolh_introspect(lent(ledger), ledger.length, r.time, lent(l.value), lent(output), output.length);
    read_ends();
    give_back(l, &r);
    return i;
}

/* The same where it is refused, as an answer of zeros. */
static perdigolh_answer untold(request r) {
    perdigolh_introspected i = introspect(r);
    perdigolh_answer a = {i.number, 0, 0, 0, 0};
    EXPECT(i.length == 0);
    return a;
}

static int is(perdigolh_answer a, uint64_t grant, uint64_t by, uint32_t scope, uint64_t expiry) {
    return a.number == PERDIGOLH_DONE && a.grant == grant && a.holder == by && a.scope == scope && a.expiry == expiry;
}

static int refused(perdigolh_answer a, uint8_t number) {
    return a.number == number && a.grant == 0 && a.holder == 0 && a.scope == 0 && a.expiry == 0;
}

static uint8_t *ledger_before, *output_before;

static void remember(void) {
    ledger_before = memcpy(malloc(ledger.length + 1), lent(ledger), ledger.length);
    output_before = memcpy(malloc(output.length + 1), lent(output), output.length);
}

static int unchanged(void) {
    int same = memcmp(ledger_before, lent(ledger), ledger.length) == 0 && memcmp(output_before, lent(output), output.length) == 0;
    free(ledger_before);
    free(output_before);
    return same;
}

/* A refusal: its number, zeros beside it, and no lent byte changed. */
#define REFUSED(call, number) (remember(), EXPECT(refused((call), (number))), EXPECT(unchanged()))

/* A second use of a code: its number with zeros; the record in the first place is freed, and the clock is set. */
static int ended(uint64_t time) {
    int all = 1;
    for (int i = 0; i < 8; i++) {
        all = all && lent(ledger)[i] == (uint8_t)(time >> 8 * (7 - i));
    }
    for (size_t i = 0; i < PERDIGOLH_LEDGER_RECORD; i++) {
        all = all && lent(ledger)[PERDIGOLH_LEDGER_HEAD + i] == 0;
    }
    return all;
}

static void begin(size_t records) {
    uint8_t clients[2 * PERDIGOLH_CLIENT_SIZE] = {0};
    for (size_t i = 0; i < 2; i++) {
        memset(clients + i * PERDIGOLH_CLIENT_SIZE, i == 0 ? 0xa1 : 0xb1, 16);
        memset(clients + i * PERDIGOLH_CLIENT_SIZE + 16, 0xa2, 32);
        clients[i * PERDIGOLH_CLIENT_SIZE + 51] = 5;
    }
    clients[52] = 0x02, clients[53] = 0x57; /* the first is a harbour kiosk: 599 seconds */
    guard_end(ledger);
    guard_end(table);
    guard_end(output);
    ledger = guard_new(PERDIGOLH_LEDGER_BYTES(records));
    table = guard_copy(clients, sizeof clients);
    output = guard_new(PERDIGOLH_OUTPUT_LEAST + 6);
    memset(lent(output), 0xcc, output.length);
    if (perdigolh_start(lent(ledger), ledger.length) != PERDIGOLH_DONE) {
        abort();
    }
}

static void started(void) {
    static const size_t wrong[] = {0, 1, 31, 32, 287, 289, 51231, 51233, 51488};
    for (size_t records = 1; records <= PERDIGOLH_LEDGER_MOST; records += 199) {
        guarded g = guard_new(PERDIGOLH_LEDGER_BYTES(records));
        memset(lent(g), 0xff, g.length);
        EXPECT(perdigolh_start(lent(g), g.length) == PERDIGOLH_DONE);
        int blank = 1;
        for (size_t i = 0; i < g.length; i++) {
            blank = blank && lent(g)[i] == (i == 15);
        }
        EXPECT(blank);
        guard_end(g);
    }
    for (size_t i = 0; i < sizeof wrong / sizeof wrong[0]; i++) {
        guarded g = guard_new(wrong[i]);
        EXPECT(perdigolh_start(lent(g), g.length) == PERDIGOLH_LEDGER_UNSOUND);
        for (size_t k = 0; k < g.length; k++) {
            failed += lent(g)[k] != 0;
        }
        guard_end(g);
    }
}

static void granted(void) {
    begin(2);
    EXPECT(is(push(in_order(1000, 0, REFERENCE)), 1, 0, 4, 1599));
    perdigolh_decided d = decide(in_order(1010, REFERENCE, CODE));
    EXPECT(is(d.answer, 1, holder, 4, 1070));
    EXPECT(d.length == 9 && memcmp(lent(output), "https://a\0", 10) == 0);
    EXPECT(lent(output)[63] == 0 && lent(output)[64] == 0xcc && lent(output)[69] == 0xcc);
    EXPECT(is(token(in_order(1020, CODE, TOKEN)), 1, holder, 4, 1320));
    EXPECT(is(resource(in_order(1030, TOKEN, 0)), 1, holder, 4, 1320));
    perdigolh_swept s = sweep(1319);
    EXPECT(s.number == PERDIGOLH_DONE && s.pushed == 0 && s.consented == 0 && s.redeemed == 0);
    s = sweep(1320);
    EXPECT(s.number == PERDIGOLH_DONE && s.pushed == 0 && s.consented == 0 && s.redeemed == 1);
    REFUSED(resource(in_order(1321, TOKEN, 0)), PERDIGOLH_NO_TOKEN);
}

/* A code shown twice ends its token. */
static void shown_twice(void) {
    begin(2);
    push(in_order(1000, 0, REFERENCE));
    decide(in_order(1010, REFERENCE, CODE));
    token(in_order(1020, CODE, TOKEN));
    EXPECT(refused(token(in_order(1040, CODE, 0x44)), PERDIGOLH_CODE_REDEEMED) && ended(1040));
    REFUSED(resource(in_order(1040, TOKEN, 0)), PERDIGOLH_NO_TOKEN);
    REFUSED(token(in_order(1040, CODE, 0x44)), PERDIGOLH_NO_CODE);
}

/* Nothing but one value of yes consents. */
static void chosen(void) {
    int all = 1;
    for (int yes = 0; yes < 256; yes++) {
        begin(1);
        push(in_order(1000, 0, REFERENCE));
        request r = in_order(1010, REFERENCE, CODE);
        r.yes = (uint8_t)yes;
        perdigolh_decided d = decide(r);
        all = all && d.length == 9 && lent(ledger)[PERDIGOLH_LEDGER_HEAD] == (yes == PERDIGOLH_YES ? 2 : 0);
        all = all && (yes == PERDIGOLH_YES ? is(d.answer, 1, holder, 4, 1070) : is(d.answer, 1, holder, 0, 0));
    }
    EXPECT(all);
}

/* The header's no is a no. */
static void declined(void) {
    begin(1);
    push(in_order(1000, 0, REFERENCE));
    request r = in_order(1010, REFERENCE, CODE);
    r.yes = PERDIGOLH_NO;
    EXPECT(is(decide(r).answer, 1, holder, 0, 0));
    EXPECT(lent(ledger)[PERDIGOLH_LEDGER_HEAD] == 0);
    REFUSED(token(in_order(1020, CODE, TOKEN)), PERDIGOLH_NO_CODE);
}

static void push_refused(void) {
    begin(2);
    sweep(5);
    request r;
    REFUSED(push(in_order(4, 0, REFERENCE)), PERDIGOLH_TIME_WRONG);
    REFUSED(push(in_order((uint64_t)1 << 40, 0, REFERENCE)), PERDIGOLH_TIME_WRONG);
    r = in_order(5, 0, REFERENCE), r.client[0] = 9;
    REFUSED(push(r), PERDIGOLH_CLIENT_UNKNOWN);
    r = in_order(5, 0, REFERENCE), r.key[31] = 9;
    REFUSED(push(r), PERDIGOLH_CLIENT_UNKNOWN);
    r = in_order(5, 0, REFERENCE), r.redirect = "https://";
    REFUSED(push(r), PERDIGOLH_ILL_FORMED);
    r = in_order(5, 0, REFERENCE), r.challenge = CHALLENGE "a";
    REFUSED(push(r), PERDIGOLH_ILL_FORMED);
    r = in_order(5, 0, REFERENCE), r.challenge = "";
    REFUSED(push(r), PERDIGOLH_ILL_FORMED);
    r = in_order(5, 0, 0), r.scope = 2;
    REFUSED(push(r), PERDIGOLH_SCOPE_REFUSED);
    r = in_order(5, 0, 0), r.scope = 0;
    REFUSED(push(r), PERDIGOLH_SCOPE_REFUSED);
    REFUSED(push(in_order(5, 0, 0)), PERDIGOLH_FRESH_TAKEN);
    EXPECT(push(in_order(5, 0, REFERENCE)).grant == 1);
    REFUSED(push(in_order(5, 0, REFERENCE)), PERDIGOLH_FRESH_TAKEN);
    EXPECT(push(in_order(5, 0, 0x12)).grant == 2);
    REFUSED(push(in_order(5, 0, 0x13)), PERDIGOLH_LEDGER_FULL);
    begin(1);
    memset(lent(ledger) + 8, 0xff, 8);
    REFUSED(push(in_order(5, 0, REFERENCE)), PERDIGOLH_NUMBERS_SPENT);
    lent(table)[63] = 1;
    REFUSED(push(in_order(5, 0, REFERENCE)), PERDIGOLH_TABLE_UNSOUND);
    lent(ledger)[16] = 1;
    REFUSED(push(in_order(5, 0, REFERENCE)), PERDIGOLH_LEDGER_UNSOUND);
}

/* The builder writes the lifetime; a reference lives so long, 0 meaning 90; 600 answers 3 to everybody. */
static void lives(void) {
    static const struct { uint16_t said; uint64_t seconds; } lifetimes[] = {{0, 90}, {1, 1}, {90, 90}, {256, 256}, {599, 599}};
    uint8_t client[16], key[32];
    memset(client, 0xa1, sizeof client), memset(key, 0xa2, sizeof key);
    for (size_t i = 0; i < sizeof lifetimes / sizeof *lifetimes; i++) {
        begin(1);
        perdigolh_client_record(lent(table), client, key, 5, lifetimes[i].said);
        EXPECT(lent(table)[51] == 5 && lent(table)[52] == lifetimes[i].said / 256 && lent(table)[53] == lifetimes[i].said % 256);
        EXPECT(is(push(in_order(1000, 0, REFERENCE)), 1, 0, 4, 1000 + lifetimes[i].seconds));
        REFUSED(undecided(in_order(1000 + lifetimes[i].seconds, REFERENCE, CODE)), PERDIGOLH_RECORD_EXPIRED);
        EXPECT(decide(in_order(999 + lifetimes[i].seconds, REFERENCE, CODE)).answer.number == PERDIGOLH_DONE);
    }
    begin(1);
    perdigolh_client_record(lent(table) + PERDIGOLH_CLIENT_SIZE, key, key, 5, PERDIGOLH_REFERENCE_MOST + 1);
    REFUSED(push(in_order(1000, 0, REFERENCE)), PERDIGOLH_TABLE_UNSOUND);
    REFUSED(token(in_order(1000, CODE, TOKEN)), PERDIGOLH_TABLE_UNSOUND);
}

static void decide_refused(void) {
    begin(2);
    push(in_order(1000, 0, REFERENCE));
    request r;
    REFUSED(undecided(in_order(999, REFERENCE, CODE)), PERDIGOLH_TIME_WRONG);
    REFUSED(undecided(in_order(1000, CODE, CODE)), PERDIGOLH_NO_REFERENCE);
    r = in_order(1000, REFERENCE, CODE), memset(r.client, 0xb1, 16);
    REFUSED(undecided(r), PERDIGOLH_NO_REFERENCE);
    REFUSED(undecided(in_order(1599, REFERENCE, CODE)), PERDIGOLH_RECORD_EXPIRED);
    r = in_order(1598, REFERENCE, REFERENCE), r.holder = 0;
    REFUSED(undecided(r), PERDIGOLH_NO_HOLDER);
    REFUSED(undecided(in_order(1598, REFERENCE, REFERENCE)), PERDIGOLH_FRESH_TAKEN);
    guard_end(output);
    output = guard_new(PERDIGOLH_OUTPUT_LEAST - 1);
    REFUSED(undecided(in_order(1598, CODE, CODE)), PERDIGOLH_OUTPUT_SHORT);
    guard_end(output);
    output = guard_new(0);
    REFUSED(undecided(in_order(1598, REFERENCE, CODE)), PERDIGOLH_OUTPUT_SHORT);
    lent(ledger)[0] = 1;
    REFUSED(undecided(in_order(1598, REFERENCE, CODE)), PERDIGOLH_LEDGER_UNSOUND);
}

static void token_refused(void) {
    begin(2);
    push(in_order(1000, 0, REFERENCE));
    decide(in_order(1000, REFERENCE, CODE));
    request r;
    REFUSED(token(in_order(999, CODE, TOKEN)), PERDIGOLH_TIME_WRONG);
    r = in_order(1059, CODE, TOKEN), r.key[0] = 9;
    REFUSED(token(r), PERDIGOLH_CLIENT_UNKNOWN);
    r = in_order(1059, CODE, TOKEN), r.verifier = "", memset(r.presented, 0, 32);
    REFUSED(token(r), PERDIGOLH_NO_KEY);
    r = in_order(1059, CODE, TOKEN), r.verifier = "";
    REFUSED(token(r), PERDIGOLH_ILL_FORMED);
    REFUSED(token(in_order(1060, REFERENCE, TOKEN)), PERDIGOLH_NO_CODE);
    r = in_order(1060, CODE, TOKEN), memset(r.client, 0xb1, 16);
    REFUSED(token(r), PERDIGOLH_NO_CODE);
    REFUSED(token(in_order(1060, CODE, TOKEN)), PERDIGOLH_RECORD_EXPIRED);
    r = in_order(1059, CODE, 0), r.verifier = CHALLENGE;
    REFUSED(token(r), PERDIGOLH_VERIFIER_DIFFERS);
    REFUSED(token(in_order(1059, CODE, CODE)), PERDIGOLH_FRESH_TAKEN);
    EXPECT(is(token(in_order(1059, CODE, TOKEN)), 1, holder, 4, 1359));
    EXPECT(refused(token(in_order(9999, CODE, 0)), PERDIGOLH_CODE_REDEEMED) && ended(9999));
    memset(lent(table), 0, 16);
    REFUSED(token(in_order(9999, CODE, 0)), PERDIGOLH_TABLE_UNSOUND);
    lent(ledger)[31] = 1;
    REFUSED(token(in_order(9999, CODE, 0)), PERDIGOLH_LEDGER_UNSOUND);
}

static void resource_refused(void) {
    begin(2);
    push(in_order(1000, 0, REFERENCE));
    decide(in_order(1000, REFERENCE, CODE));
    token(in_order(1059, CODE, TOKEN));
    request r;
    REFUSED(resource(in_order(1058, TOKEN, 0)), PERDIGOLH_TIME_WRONG);
    REFUSED(resource(in_order(1059, CODE, 0)), PERDIGOLH_NO_TOKEN);
    REFUSED(resource(in_order(1359, TOKEN, 0)), PERDIGOLH_RECORD_EXPIRED);
    r = in_order(1358, TOKEN, 0), r.scope = 0, r.presented[31] = 1;
    REFUSED(resource(r), PERDIGOLH_KEY_DIFFERS);
    r = in_order(1358, TOKEN, 0), r.scope = 5, r.holder = 8;
    REFUSED(resource(r), PERDIGOLH_SCOPE_REFUSED);
    r = in_order(1358, TOKEN, 0), r.holder = 8;
    REFUSED(resource(r), PERDIGOLH_HOLDER_DIFFERS);
    EXPECT(is(resource(in_order(1358, TOKEN, 0)), 1, holder, 4, 1359));
    lent(ledger)[PERDIGOLH_LEDGER_HEAD + 2] = 1;
    REFUSED(resource(in_order(1358, TOKEN, 0)), PERDIGOLH_LEDGER_UNSOUND);
}

static void sweep_refused(void) {
    begin(2);
    push(in_order(1000, 0, REFERENCE));
    push(in_order(1000, 0, 0x12));
    decide(in_order(1000, REFERENCE, CODE));
    perdigolh_swept s = sweep(999);
    EXPECT(s.number == PERDIGOLH_TIME_WRONG && s.pushed == 0 && s.consented == 0 && s.redeemed == 0);
    s = sweep(1599);
    EXPECT(s.number == PERDIGOLH_DONE && s.pushed == 1 && s.consented == 1 && s.redeemed == 0);
    lent(ledger)[PERDIGOLH_LEDGER_HEAD] = 4;
    s = sweep(1599);
    EXPECT(s.number == PERDIGOLH_LEDGER_UNSOUND && s.pushed == 0 && s.consented == 0 && s.redeemed == 0);
}

/* What pending shows is what decide then allows. */
static void shown(void) {
    begin(2);
    push(in_order(1000, 0, REFERENCE));
    perdigolh_decided d = pending(in_order(1010, REFERENCE, 0));
    EXPECT(is(d.answer, 1, 0, 4, 1599));
    EXPECT(d.length == 9 && memcmp(lent(output), "https://a\0", 10) == 0);
    EXPECT(lent(output)[63] == 0 && lent(output)[64] == 0xcc && lent(output)[69] == 0xcc);
    EXPECT(lent(ledger)[7] == (1000 & 0xff)); /* the clock */
    perdigolh_decided then = decide(in_order(1010, REFERENCE, CODE));
    EXPECT(then.answer.grant == d.answer.grant && then.answer.scope == d.answer.scope && then.length == d.length);
    REFUSED(unseen(in_order(1010, CODE, 0)), PERDIGOLH_NO_REFERENCE);
}

static void pending_refused(void) {
    begin(2);
    push(in_order(1000, 0, REFERENCE));
    request r;
    REFUSED(unseen(in_order(999, REFERENCE, 0)), PERDIGOLH_TIME_WRONG);
    REFUSED(unseen(in_order((uint64_t)1 << 40, REFERENCE, 0)), PERDIGOLH_TIME_WRONG);
    REFUSED(unseen(in_order(1599, CODE, 0)), PERDIGOLH_NO_REFERENCE);
    r = in_order(1599, REFERENCE, 0), memset(r.client, 0xb1, 16);
    REFUSED(unseen(r), PERDIGOLH_NO_REFERENCE);
    REFUSED(unseen(in_order(1599, REFERENCE, 0)), PERDIGOLH_RECORD_EXPIRED);
    EXPECT(is(pending(in_order(1598, REFERENCE, 0)).answer, 1, 0, 4, 1599));
    guard_end(output);
    output = guard_new(PERDIGOLH_OUTPUT_LEAST - 1);
    REFUSED(unseen(in_order(1599, CODE, 0)), PERDIGOLH_OUTPUT_SHORT);
    guard_end(output);
    output = guard_new(0);
    REFUSED(unseen(in_order(999, REFERENCE, 0)), PERDIGOLH_TIME_WRONG);
    REFUSED(unseen(in_order(1598, REFERENCE, 0)), PERDIGOLH_OUTPUT_SHORT);
    lent(ledger)[0] = 1;
    REFUSED(unseen(in_order(999, REFERENCE, 0)), PERDIGOLH_LEDGER_UNSOUND);
}

/* An output of so many bytes, each of them marked. */
static void room(size_t bytes) {
    guard_end(output);
    output = guard_new(bytes);
    memset(lent(output), 0xcc, bytes);
}

/* A text at the front of the output, and marks behind it. */
static int told(perdigolh_introspected i, const char *text) {
    int same = i.number == PERDIGOLH_DONE && i.length == strlen(text) && memcmp(lent(output), text, i.length) == 0;
    for (size_t k = i.length; k < output.length; k++) {
        same = same && lent(output)[k] == 0xcc;
    }
    return same;
}

/* The text of the grant above at 1059: its key, 0xee 32 times, in base64url. */
#define LIVE                                                                                                                     \
    "{\"active\":true,\"client_id\":\"a1a1a1a1a1a1a1a1a1a1a1a1a1a1a1a1\",\"sub\":\"7\",\"exp\":1359,\"scope\":\"s2\","                     \
    "\"cnf\":{\"x5t#S256\":\"7u7u7u7u7u7u7u7u7u7u7u7u7u7u7u7u7u7u7u7u7u4\"}}"
#define INACTIVE "{\"active\":false}"

static void described(void) {
    begin(2);
    push(in_order(1000, 0, REFERENCE));
    decide(in_order(1000, REFERENCE, CODE));
    room(PERDIGOLH_TEXT_MOST);
    EXPECT(told(introspect(in_order(1059, CODE, 0)), INACTIVE));
    token(in_order(1059, CODE, TOKEN));
    room(PERDIGOLH_TEXT_MOST);
    EXPECT(told(introspect(in_order(1358, TOKEN, 0)), LIVE));
    room(sizeof LIVE - 1);
    EXPECT(told(introspect(in_order(1059, TOKEN, 0)), LIVE));
    room(PERDIGOLH_TEXT_MOST);
    EXPECT(told(introspect(in_order(1359, TOKEN, 0)), INACTIVE));
    room(sizeof INACTIVE - 1);
    EXPECT(told(introspect(in_order(1059, REFERENCE, 0)), INACTIVE));
}

static void introspect_refused(void) {
    begin(2);
    push(in_order(1000, 0, REFERENCE));
    decide(in_order(1000, REFERENCE, CODE));
    token(in_order(1059, CODE, TOKEN));
    room(sizeof LIVE - 2);
    REFUSED(untold(in_order(1059, TOKEN, 0)), PERDIGOLH_OUTPUT_SHORT);
    room(sizeof INACTIVE - 2);
    REFUSED(untold(in_order(1359, TOKEN, 0)), PERDIGOLH_OUTPUT_SHORT);
    room(0);
    REFUSED(untold(in_order(1059, CODE, 0)), PERDIGOLH_OUTPUT_SHORT);
    REFUSED(untold(in_order(1058, TOKEN, 0)), PERDIGOLH_TIME_WRONG);
    REFUSED(untold(in_order((uint64_t)1 << 40, TOKEN, 0)), PERDIGOLH_TIME_WRONG);
    lent(ledger)[PERDIGOLH_LEDGER_HEAD + 2] = 1;
    REFUSED(untold(in_order(1058, TOKEN, 0)), PERDIGOLH_LEDGER_UNSOUND);
}

int main(void) {
    ledger = guard_new(0), table = guard_new(0), output = guard_new(0);
    started();
    granted();
    shown_twice();
    chosen();
    declined();
    push_refused();
    lives();
    decide_refused();
    token_refused();
    resource_refused();
    sweep_refused();
    shown();
    pending_refused();
    described();
    introspect_refused();
    printf("%d passed, %d failed\n", passed, failed);
    return failed != 0;
}
