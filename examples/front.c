/*
 * One grant from C, with the ledger in a file: front LEDGER-FILE [twice]
 *
 * Start, table, push, what she sees, decide, token, a reading, what a figure server is told; with `twice` the code a second time, which ends the token, and a
 * reading. What a web front would get from TLS, from the login and
 * from its random source is made up here, and says so. docs/FRONT.md has the rules that this keeps to.
 */
#define _POSIX_C_SOURCE 200809L
#include <errno.h>
#include <fcntl.h>
#include <libgen.h>
#include <stdio.h>
#include <stdlib.h>
#include <string.h>
#include <sys/file.h>
#include <sys/stat.h>
#include <time.h>
#include <unistd.h>

#include "perdigolh.h"
#include "perdigolh_text.h"

enum { RECORDS = 8, NAME_MOST = 4000 };

static void stop(const char *what) {
    perror(what);
    exit(1);
}

/* The ledger's file. One lock from reading the ledger to storing it; the clock is read under it. */

typedef struct {
    char path[NAME_MOST], lock[NAME_MOST + 8], fresh[NAME_MOST + 8];
    int locked;
    uint8_t bytes[PERDIGOLH_LEDGER_BYTES(RECORDS)];
    uint64_t time;
} store;

/* Writes all of it, also where a signal or a full pipe cuts a write short. */
static void write_all(int file, const uint8_t *bytes, size_t length) {
    while (length > 0) {
        ssize_t written = write(file, bytes, length);
        if (written < 0 && errno != EINTR) {
            stop("write");
        }
        if (written > 0) {
            bytes += written;
            length -= (size_t)written;
        }
    }
}

/* Syncs the folder, so that the new name lasts. */
static void sync_folder(const char *path) {
    char copy[NAME_MOST];
    int folder;
    strcpy(copy, path);
    folder = open(dirname(copy), O_RDONLY | O_DIRECTORY);
    if (folder < 0 || fsync(folder) != 0) {
        stop("folder");
    }
    close(folder);
}

/* Puts the bytes in the file's place: afterwards the file has all of them, or what it had before. Only then is an answer given out. */
static void keep(store *s) {
    int file = open(s->fresh, O_WRONLY | O_CREAT | O_TRUNC, 0600);
    if (file < 0) {
        stop(s->fresh);
    }
    write_all(file, s->bytes, sizeof s->bytes);
    if (fsync(file) != 0 || close(file) != 0 || rename(s->fresh, s->path) != 0) {
        stop(s->fresh);
    }
    sync_folder(s->path);
}

/* Takes the lock, and only then reads the clock, and the file into the copy. Answers whether there was a ledger. */
static int take(store *s) {
    FILE *file;
    s->locked = open(s->lock, O_RDWR | O_CREAT, 0600);
    if (s->locked < 0) {
        stop(s->lock);
    }
    while (flock(s->locked, LOCK_EX) != 0) {
        if (errno != EINTR) {
            stop(s->lock);
        }
    }
    s->time = (uint64_t)time(NULL);
    file = fopen(s->path, "rb");
    if (!file && errno == ENOENT) {
        return 0;
    }
    if (!file) {
        stop(s->path);
    }
    if (fread(s->bytes, 1, sizeof s->bytes, file) != sizeof s->bytes || fgetc(file) != EOF) {
        fprintf(stderr, "%s: no ledger of %d records\n", s->path, RECORDS);
        exit(1);
    }
    fclose(file);
    return 1;
}

/* The same for a ledger that must be there: one that is gone is not made again from an older copy. */
static void take_started(store *s) {
    if (!take(s)) {
        fprintf(stderr, "%s: the ledger is gone\n", s->path);
        exit(1);
    }
}

/* Stores what a call has left, and lets the lock go. A refusal has changed nothing, so there is nothing to store: all but 15, which
 * has freed a record. */
static void let_go(store *s, uint8_t number) {
    if (number == PERDIGOLH_DONE || number == PERDIGOLH_CODE_REDEEMED) {
        keep(s);
    }
    close(s->locked);
}

/* What the desk is not for: the front's random source, and a program that the front has authenticated. */

static void draw(uint8_t value[PERDIGOLH_VALUE_SIZE]) {
    FILE *source = fopen("/dev/urandom", "rb");
    if (!source || fread(value, 1, PERDIGOLH_VALUE_SIZE, source) != PERDIGOLH_VALUE_SIZE) {
        stop("random source");
    }
    fclose(source);
}

static uint8_t buyer[PERDIGOLH_CLIENT_ID_SIZE];                        /* the program's client id */
static uint8_t key[PERDIGOLH_KEY_SIZE], presented[PERDIGOLH_KEY_SIZE]; /* thumbprints of keys that the front has verified */
static const uint64_t manager = 7;                                     /* who has logged in */
static const uint32_t weights = 4;                                     /* the scope bit of landed weights */

/* The pair of RFC 7636, Appendix B: the secret that the program keeps, and the hash that it leaves. */
static const char verifier[] = "dBjftJeZ4CVP-mB92K27uhbUJU1p1r_wW1gFWFOEjXk";
static const char challenge[] = "E9Melhoa2OwvFrEMTJguCHaoeK1t8URWbuGJSstw-cM";
static const char redirect[] = "https://buyer.example/back";

/* The calls, each from lock to lock. */

static void start(store *s) {
    uint8_t number = PERDIGOLH_DONE;
    if (take(s)) {
        close(s->locked); /* a ledger is started once */
        return;
    }
    number = perdigolh_start(s->bytes, sizeof s->bytes);
    let_go(s, number);
    printf("start: %u\n", number);
}

static perdigolh_answer asked(store *s, const uint8_t *table, const uint8_t reference[32]) {
    return perdigolh_push(s->bytes, sizeof s->bytes, s->time, table, PERDIGOLH_TABLE_BYTES(1), buyer, key, weights,
                          (const uint8_t *)challenge, strlen(challenge), (const uint8_t *)redirect, strlen(redirect), reference);
}

/* Where no record is free, a sweep and one more try. */
static void push(store *s, const uint8_t *table, const uint8_t reference[32]) {
    perdigolh_answer a;
    char text[PERDIGOLH_REFERENCE_TEXT + 1];
    take_started(s);
    a = asked(s, table, reference);
    if (a.number == PERDIGOLH_LEDGER_FULL && perdigolh_sweep(s->bytes, sizeof s->bytes, s->time).number == PERDIGOLH_DONE) {
        a = asked(s, table, reference);
    }
    let_go(s, a.number);
    if (a.number != PERDIGOLH_DONE) {
        printf("push: %u\n", a.number);
        exit(1);
    }
    perdigolh_reference_text(reference, text);
    printf("push: 0, grant %llu, for %llu seconds under %.34s..\n", (unsigned long long)a.grant,
           (unsigned long long)(a.expiry - s->time), text);
}

/* The request that the manager is to see. Nothing changes, so nothing is stored. */
static void show(store *s, const uint8_t reference[32]) {
    perdigolh_decided d;
    uint8_t output[PERDIGOLH_OUTPUT_LEAST];
    take_started(s);
    d = perdigolh_pending(s->bytes, sizeof s->bytes, s->time, reference, buyer, output, sizeof output);
    close(s->locked);
    printf("pending: %u, grant %llu, scope %u, for %.*s\n", d.answer.number, (unsigned long long)d.answer.grant,
           (unsigned)d.answer.scope, (int)d.length, (const char *)output);
}

static void decide(store *s, const uint8_t reference[32], const uint8_t code[32]) {
    perdigolh_decided d;
    uint8_t output[PERDIGOLH_OUTPUT_LEAST];
    take_started(s);
    d = perdigolh_decide(s->bytes, sizeof s->bytes, s->time, reference, buyer, PERDIGOLH_YES, manager, code, output, sizeof output);
    let_go(s, d.answer.number);
    printf("decide: %u, holder %llu, back to %.*s\n", d.answer.number, (unsigned long long)d.answer.holder, (int)d.length,
           (const char *)output);
}

static void redeem(store *s, const uint8_t *table, const uint8_t code[32], const uint8_t token[32]) {
    perdigolh_answer a;
    take_started(s);
    a = perdigolh_token(s->bytes, sizeof s->bytes, s->time, table, PERDIGOLH_TABLE_BYTES(1), buyer, key, presented, code,
                        (const uint8_t *)verifier, strlen(verifier), token);
    let_go(s, a.number);
    printf("token: %u, scope %u\n", a.number, (unsigned)a.scope);
}

static void resource(store *s, const uint8_t token[32]) {
    perdigolh_answer a;
    take_started(s);
    a = perdigolh_resource(s->bytes, sizeof s->bytes, s->time, token, presented, weights, manager);
    let_go(s, a.number);
    printf("resource: %u, grant %llu, holder %llu\n", a.number, (unsigned long long)a.grant, (unsigned long long)a.holder);
}

/* What a figure server that asks about the token is told. */
static void introspect(store *s, const uint8_t token[32]) {
    perdigolh_introspected i;
    uint8_t output[PERDIGOLH_TEXT_MOST];
    take_started(s);
    i = perdigolh_introspect(s->bytes, sizeof s->bytes, s->time, token, output, sizeof output);
    close(s->locked);
    printf("introspect: %u, %.*s..\n", i.number, (int)(i.length < 29 ? i.length : 29), (const char *)output);
}

int main(int count, char **words) {
    static store s;
    uint8_t table[PERDIGOLH_TABLE_BYTES(1)], reference[32], code[32], token[32], another[32];
    int twice = count == 3 && strcmp(words[2], "twice") == 0;
    if ((count != 2 && !twice) || strlen(words[1]) >= NAME_MOST) {
        fprintf(stderr, "front LEDGER-FILE [twice]\n");
        return 2;
    }
    snprintf(s.path, sizeof s.path, "%s", words[1]);
    snprintf(s.lock, sizeof s.lock, "%s.lock", words[1]);
    snprintf(s.fresh, sizeof s.fresh, "%s.new", words[1]);
    memset(buyer, 0xa1, sizeof buyer);
    memset(key, 0xa2, sizeof key);
    memset(presented, 0xee, sizeof presented);
    perdigolh_client_record(table, buyer, key, weights | 1, 0);

    start(&s);
    draw(reference);
    push(&s, table, reference);
    show(&s, reference);
    draw(code);
    decide(&s, reference, code);
    draw(token);
    redeem(&s, table, code, token);
    resource(&s, token);
    introspect(&s, token);
    if (twice) {
        draw(another);
        redeem(&s, table, code, another); /* 15 */
        resource(&s, token);              /* 17 */
    }
    return 0;
}
