/*
 * A front in C that keeps its ledger in a file: the keeper's steps (docs/KEEPER.md), over the keeper's own files.
 *
 *   cc -Iinclude examples/keep.c target/staticlib/libfront.a -o front
 *   front FOLDER NAME start RECORDS     once for a name
 *   front FOLDER NAME push              a buyer's program leaves its request; prints the grant number and the reference
 *
 * It writes no journal and no memo, and refuses a ledger that has one.
 */
#define _GNU_SOURCE
#include "perdigolh.h"

#include <errno.h>
#include <fcntl.h>
#include <stdio.h>
#include <stdlib.h>
#include <string.h>
#include <sys/file.h>
#include <sys/random.h>
#include <sys/stat.h>
#include <time.h>
#include <unistd.h>

enum { HEAD = 32, SUM = 8, STEP = 8, OPTIONS = 16, LENGTH = 20, PLACE = 16 };
enum { MOST = HEAD + (int)PERDIGOLH_LEDGER_BYTES(PERDIGOLH_LEDGER_MOST) + SUM };

/* How a step ended. An answer is handed out after MADE and at no other time. */
enum outcome { MADE, NOT_MADE, IN_DOUBT, DAMAGED, OLD_COPY, NO_LEDGER, STARTED };
static const char *const words[] = {"made", "not made", "in doubt", "damaged", "an old copy", "no ledger", "started before"};

/* What is stored: a head, the ledger, a checksum. */
struct kept {
    uint8_t bytes[MOST];
    size_t length; /* 0 where nothing is stored */
};

struct place {
    const char *folder;
    char ledger[512], fresh[512], lock[512];
};

typedef void call_on(uint8_t *ledger, size_t length, uint64_t now, void *request);

static uint64_t number(const uint8_t *bytes, int width) {
    uint64_t value = 0;
    for (int i = 0; i < width; i++)
        value = value << 8 | bytes[i];
    return value;
}

static void put(uint8_t *bytes, uint64_t value) {
    for (int i = 7; i >= 0; i--, value >>= 8)
        bytes[i] = (uint8_t)value;
}

/* CRC-64/XZ. */
static uint64_t checksum(const uint8_t *bytes, size_t length) {
    uint64_t crc = ~UINT64_C(0);
    for (size_t i = 0; i < length; i++) {
        crc ^= bytes[i];
        for (int bit = 0; bit < 8; bit++)
            crc = crc & 1 ? crc >> 1 ^ UINT64_C(0xc96c5795d7870f42) : crc >> 1;
    }
    return ~crc;
}

static int write_all(int file, const uint8_t *bytes, size_t length) {
    while (length > 0) {
        ssize_t done = write(file, bytes, length);
        if (done < 0 && errno != EINTR)
            return -1;
        bytes += done > 0 ? done : 0;
        length -= done > 0 ? (size_t)done : 0;
    }
    return 0;
}

static uint64_t step_of(const struct kept *kept) {
    return number(kept->bytes + STEP, 8);
}

/* The lock is let go when the file is closed, however the process ends. */
static int take_lock(const char *path) {
    for (;;) {
        struct stat held, there;
        int file = open(path, O_RDWR | O_CREAT | O_CLOEXEC, 0600);
        if (file < 0)
            return -1;
        while (flock(file, LOCK_EX))
            if (errno != EINTR)
                return close(file), -1;
        if (!fstat(file, &held) && !stat(path, &there) && held.st_ino == there.st_ino && held.st_dev == there.st_dev)
            return file;
        close(file); /* another file has been put in its place */
    }
}

/* The latest step that is known to last, from the two places in the lock's file. */
static uint64_t known_step(int lock) {
    uint8_t places[2 * PLACE] = {0};
    uint64_t known = 0;
    if (pread(lock, places, sizeof places, 0) < 0)
        return UINT64_MAX; /* then every ledger is an old copy */
    for (const uint8_t *place = places; place < places + sizeof places; place += PLACE)
        if (number(place + 8, 8) == checksum(place, 8) && number(place, 8) > known)
            known = number(place, 8);
    return known;
}

static int set_known(int lock, uint64_t step) {
    uint8_t place[PLACE];
    put(place, step);
    put(place + 8, checksum(place, 8));
    if (pwrite(lock, place, PLACE, (off_t)(step % 2 * PLACE)) != PLACE)
        return -1;
    return step == 1 ? fsync(lock) : 0;
}

static enum outcome read_kept(const char *path, struct kept *kept) {
    int file = open(path, O_RDONLY | O_CLOEXEC);
    kept->length = 0;
    if (file < 0)
        return errno == ENOENT ? MADE : NOT_MADE;
    ssize_t done;
    while ((done = read(file, kept->bytes + kept->length, MOST - kept->length)) > 0 || (done < 0 && errno == EINTR))
        kept->length += done > 0 ? (size_t)done : 0;
    close(file);
    if (done < 0)
        return NOT_MADE;
    size_t whole = kept->length - SUM;
    int sound = kept->length >= HEAD + SUM && number(kept->bytes + whole, 8) == checksum(kept->bytes, whole) &&
                !memcmp(kept->bytes, "PERDIGO1", 8) && number(kept->bytes + LENGTH, 4) == whole - HEAD;
    return sound && kept->bytes[OPTIONS] == 0 ? MADE : DAMAGED;
}

/* New file, sync, rename, sync of the folder; then the step is known to last. */
static enum outcome store(const struct place *at, struct kept *kept, int lock) {
    put(kept->bytes + kept->length - SUM, checksum(kept->bytes, kept->length - SUM));
    int file = open(at->fresh, O_WRONLY | O_CREAT | O_TRUNC | O_CLOEXEC, 0600);
    int written = file >= 0 && !write_all(file, kept->bytes, kept->length) && !fsync(file);
    if (file >= 0)
        close(file);
    if (!written)
        return NOT_MADE;
    if (rename(at->fresh, at->ledger))
        return IN_DOUBT;
    int folder = open(at->folder, O_RDONLY | O_CLOEXEC);
    int lasts = folder >= 0 && !fsync(folder);
    if (folder >= 0)
        close(folder);
    return lasts && !set_known(lock, step_of(kept)) ? MADE : IN_DOUBT;
}

/* What is stored, looked over: damage, an old copy, a step that nobody saw to its end. */
static enum outcome look(const struct place *at, struct kept *kept, int lock) {
    uint64_t known = known_step(lock);
    enum outcome outcome = read_kept(at->ledger, kept);
    if (outcome != MADE)
        return outcome;
    if (kept->length == 0)
        return known ? DAMAGED : NO_LEDGER;
    if (step_of(kept) < known)
        return OLD_COPY;
    return step_of(kept) > known && store(at, kept, lock) != MADE ? NOT_MADE : MADE;
}

/* One step: the call is made on a copy, and comes out MADE once what it left will last. */
static enum outcome keep(const struct place *at, call_on *call, void *request) {
    static struct kept stored, copy;
    int lock = take_lock(at->lock);
    if (lock < 0)
        return NOT_MADE;
    enum outcome outcome = look(at, &stored, lock);
    if (outcome == MADE) {
        copy = stored;
        call(copy.bytes + HEAD, copy.length - HEAD - SUM, (uint64_t)time(NULL), request);
        if (memcmp(copy.bytes, stored.bytes, copy.length)) { /* by the bytes, never by the number: a 15 at token has changed them */
            put(copy.bytes + STEP, step_of(&copy) + 1);
            outcome = store(at, &copy, lock);
        }
    }
    close(lock);
    return outcome;
}

/* Starting is a step like any other, under the same lock, and never happens twice to one name. */
static enum outcome start(const struct place *at, size_t records) {
    static struct kept kept;
    int lock = take_lock(at->lock);
    if (lock < 0)
        return NOT_MADE;
    enum outcome outcome = look(at, &kept, lock);
    if (outcome == NO_LEDGER) {
        memset(&kept, 0, sizeof kept);
        memcpy(kept.bytes, "PERDIGO1", 8);
        put(kept.bytes + STEP, 1);
        put(kept.bytes + LENGTH - 4, PERDIGOLH_LEDGER_BYTES(records)); /* its lower half is the field */
        kept.length = HEAD + PERDIGOLH_LEDGER_BYTES(records) + SUM;
        outcome = perdigolh_start(kept.bytes + HEAD, PERDIGOLH_LEDGER_BYTES(records)) ? NOT_MADE : store(at, &kept, lock);
    } else if (outcome == MADE) {
        outcome = STARTED;
    }
    close(lock);
    return outcome;
}

/* The front's own part: who pushes, with which keys, and the fresh value. */
struct push {
    uint8_t fresh[32];
    perdigolh_answer answer;
};

static void push(uint8_t *ledger, size_t length, uint64_t now, void *request) {
    static const uint8_t challenge[] = "E9Melhoa2OwvFrEMTJguCHaoeK1t8URWbuGJSstw-cM", redirect[] = "https://buyer.example/back";
    uint8_t table[PERDIGOLH_CLIENT_SIZE] = {0}, client[16], key[32];
    struct push *push = request;
    memset(client, 0xa1, sizeof client);
    memset(key, 0xa2, sizeof key);
    memcpy(table, client, 16);
    memcpy(table + 16, key, 32);
    table[51] = 5;
    push->answer = perdigolh_push(ledger, length, now, table, sizeof table, client, key, 4, challenge, sizeof challenge - 1, redirect,
                                  sizeof redirect - 1, push->fresh);
    if (push->answer.number == PERDIGOLH_LEDGER_FULL && !perdigolh_sweep(ledger, length, now).number)
        push->answer = perdigolh_push(ledger, length, now, table, sizeof table, client, key, 4, challenge, sizeof challenge - 1,
                                      redirect, sizeof redirect - 1, push->fresh);
}

int main(int count, char **given) {
    struct place at;
    struct push request;
    int starting = count == 5 && !strcmp(given[3], "start");
    if (!starting && (count != 4 || strcmp(given[3], "push")))
        return fprintf(stderr, "front FOLDER NAME start RECORDS | push\n"), 2;
    at.folder = given[1];
    snprintf(at.ledger, sizeof at.ledger, "%s/%s.ledger", given[1], given[2]);
    snprintf(at.fresh, sizeof at.fresh, "%s/%s.new", given[1], given[2]);
    snprintf(at.lock, sizeof at.lock, "%s/%s.lock", given[1], given[2]);
    if (getrandom(request.fresh, sizeof request.fresh, 0) != sizeof request.fresh)
        return 1;
    unsigned long records = starting ? strtoul(given[4], NULL, 10) : 1;
    if (records < PERDIGOLH_LEDGER_LEAST || records > PERDIGOLH_LEDGER_MOST)
        return fprintf(stderr, "a ledger has 1 to 200 records\n"), 2;
    enum outcome outcome = starting ? start(&at, records) : keep(&at, push, &request);
    if (outcome != MADE)
        return printf("failed %s\n", words[outcome]), 1;
    if (starting)
        return puts("started"), 0;
    if (request.answer.number)
        return printf("refused %d\n", request.answer.number), 0;
    printf("push %llu ", (unsigned long long)request.answer.grant);
    for (size_t i = 0; i < sizeof request.fresh; i++)
        printf("%02x", request.fresh[i]);
    return puts(""), 0;
}
