/*
 * Perdigolh, the permissions desk, for a web front: the six calls of document 01, and two that only read, from C or any language that
 * can call C.
 *
 * Link target/staticlib/libfront.a, which `tools/archives` writes once every contract is proved (x86-64 Linux), or what
 * `make install` put in its place. docs/FRONT.md has a whole front's duties, docs/OUTSIDE.md what to answer outside for each number,
 * examples/front.c a grant from beginning to end, perdigolh_text.h the values as text.
 * The functions are crates/front_c's; tests/lint/header.py holds this file to that source.
 *
 * What holds for every function:
 * - It ends, on every input of every length, with a number of the table below. It checks for itself the ledger, the table and the
 *   request that it reads, in the order given, and the first check that fails gives the number.
 * - A refusal (any number but 0) has zeros beside its number and changes no byte, the ledger's clock included. One alone changes
 *   the ledger: 15 at token frees the record of the code that came twice and sets the clock. It is stored before it is given out,
 *   as an accepted call is: whether there is something to store is told by the ledger's bytes, and not by the number.
 * - It allocates nothing, keeps no pointer, has no state of its own and calls nothing outside the archive but the C library's
 *   memory functions.
 * - No pointer is NULL, not even with length 0. Lengths are in bytes. A pointer to an array, `client[16]`, has that many bytes.
 *   What is lent without `const`, the ledger and an output, overlaps nothing else that is lent; all else is only read.
 *   This is what a C compiler cannot check, and what the front owes.
 * - One ledger has one writer: no two calls on one ledger at a time, but for the two that only read. Between the calls nobody else
 *   writes to it. docs/FRONT.md says how to keep it in a file, and why an answer is given out only once the ledger it left is stored.
 * - Bytes of a struct that belong to no field hold nothing: compare fields, not memory.
 *
 * Numbers in the ledger and in the table are big-endian; those in arguments and answers are the machine's own.
 */
#ifndef PERDIGOLH_H
#define PERDIGOLH_H

#include <stddef.h>
#include <stdint.h>

#ifdef __cplusplus
extern "C" {
#endif

/* The release, as in the file VERSION: a million a major, a thousand a minor, one a patch. */
#define PERDIGOLH_VERSION "0.1.0"
#define PERDIGOLH_VERSION_NUMBER 1000

/* The interface: the types of the functions and the fields of the structs below. It rises when one of them changes; a function more
 * leaves it. */
#define PERDIGOLH_INTERFACE 1

/* PERDIGOLH_VERSION_NUMBER and PERDIGOLH_INTERFACE as the archive was built with them. */
uint32_t perdigolh_version(void);
uint32_t perdigolh_interface_1(void);

#if defined(__GNUC__)
/* Whatever is compiled with this header asks for the interface by its name, so that it is not linked or loaded with another. */
__attribute__((used)) static uint32_t (*const perdigolh_interface_asked)(void) = perdigolh_interface_1;
#endif

/* Sizes, in bytes and in records. */
#define PERDIGOLH_CLIENT_ID_SIZE 16
#define PERDIGOLH_KEY_SIZE 32   /* a thumbprint: SHA-256 */
#define PERDIGOLH_VALUE_SIZE 32 /* a reference, a code, a token */
#define PERDIGOLH_LEDGER_HEAD 32
#define PERDIGOLH_LEDGER_RECORD 256
#define PERDIGOLH_LEDGER_LEAST 1
#define PERDIGOLH_LEDGER_MOST 200
#define PERDIGOLH_CLIENT_SIZE 64
#define PERDIGOLH_TABLE_MOST 64
#define PERDIGOLH_OUTPUT_LEAST 64

/* Lengths of texts, in characters. A redirect begins with https:// and has bytes 0x21 to 0x7E; a challenge has characters from A-Z,
 * a-z, 0-9, - and _; a verifier has those, . and ~. */
#define PERDIGOLH_REDIRECT_LEAST 9
#define PERDIGOLH_REDIRECT_MOST 64
#define PERDIGOLH_CHALLENGE_LENGTH 43
#define PERDIGOLH_VERIFIER_LEAST 43
#define PERDIGOLH_VERIFIER_MOST 128
#define PERDIGOLH_TEXT_MOST 304 /* of what introspect writes; an output of so many bytes is never too short */

/* The bytes of a ledger with this many records, and of a table with this many clients. */
#define PERDIGOLH_LEDGER_BYTES(records) (PERDIGOLH_LEDGER_HEAD + (size_t)(records) * PERDIGOLH_LEDGER_RECORD)
#define PERDIGOLH_TABLE_BYTES(clients) ((size_t)(clients) * PERDIGOLH_CLIENT_SIZE)

/* Time, in whole seconds, stays below this. */
#define PERDIGOLH_TIME_LIMIT 1099511627776 /* 2^40 */

/* Seconds that a reference, a code and a token live: each is expired once `time` is at or past its expiry. How long a reference
 * lives, its client's record says: PERDIGOLH_REFERENCE_LIFETIME where it says 0, PERDIGOLH_REFERENCE_MOST at most. */
#define PERDIGOLH_REFERENCE_LIFETIME 90
#define PERDIGOLH_REFERENCE_MOST 599
#define PERDIGOLH_CODE_LIFETIME 60
#define PERDIGOLH_TOKEN_LIFETIME 300

/* The holder's choice at decide. Nothing but this one value consents; every other value is a no. */
#define PERDIGOLH_YES 1
#define PERDIGOLH_NO 0

/* The numbers returned, each given exactly when its turn comes and: */
enum perdigolh_number {
    PERDIGOLH_DONE = 0,
    PERDIGOLH_LEDGER_UNSOUND = 1,    /* ledger length wrong or ledger not sound */
    PERDIGOLH_TIME_WRONG = 2,        /* now is below the clock, or 2^40 or more */
    PERDIGOLH_TABLE_UNSOUND = 3,     /* client table not sound */
    PERDIGOLH_CLIENT_UNKNOWN = 4,    /* no such client id, or its authentication key differs */
    PERDIGOLH_ILL_FORMED = 5,        /* redirect or challenge (push), or verifier (token) ill formed */
    PERDIGOLH_SCOPE_REFUSED = 6,     /* scope 0, or not within the permitted (push) or granted (resource) bits */
    PERDIGOLH_FRESH_TAKEN = 7,       /* fresh value all zeros, or in the pool */
    PERDIGOLH_LEDGER_FULL = 8,       /* no free record */
    PERDIGOLH_NUMBERS_SPENT = 9,     /* next grant number is 2^64 - 1 */
    PERDIGOLH_NO_REFERENCE = 10,     /* no record in state 1 with this reference and client id */
    PERDIGOLH_RECORD_EXPIRED = 11,   /* the record is expired */
    PERDIGOLH_NO_HOLDER = 12,        /* holder 0 */
    PERDIGOLH_NO_KEY = 13,           /* presented key all zeros */
    PERDIGOLH_NO_CODE = 14,          /* no record in state 2 or 3 with this code and client id */
    PERDIGOLH_CODE_REDEEMED = 15,    /* that record is in state 3, expired or not */
    PERDIGOLH_VERIFIER_DIFFERS = 16, /* verifier does not match */
    PERDIGOLH_NO_TOKEN = 17,         /* no record in state 3 with this token */
    PERDIGOLH_KEY_DIFFERS = 18,      /* presented key differs from the bound key */
    PERDIGOLH_HOLDER_DIFFERS = 19,   /* holder asked is not the record's holder */
    PERDIGOLH_OUTPUT_SHORT = 20      /* output buffer shorter than 64 bytes (decide, pending) or than the text (introspect) */
};

/* What push, token and resource answer, as the record has it after the call. */
typedef struct perdigolh_answer {
    uint8_t number;
    uint64_t grant; /* the grant number: the name of this one permission, for good */
    uint64_t holder;
    uint32_t scope;
    uint64_t expiry; /* the first second at which the record is expired */
} perdigolh_answer;

/* What decide answers. After a no: the grant number, the holder given, scope 0, expiry 0. What pending answers, with holder 0. */
typedef struct perdigolh_decided {
    perdigolh_answer answer;
    uint8_t length; /* bytes of the redirect at the front of the output, on yes and on no */
} perdigolh_decided;

/* What sweep answers: how many records it freed that were pushed, consented and redeemed. */
typedef struct perdigolh_swept {
    uint8_t number;
    size_t pushed;
    size_t consented;
    size_t redeemed;
} perdigolh_swept;

/* What introspect answers: how many bytes at the front of the output are the text. */
typedef struct perdigolh_introspected {
    uint8_t number;
    size_t length;
} perdigolh_introspected;

/* The layout that the archive was built with; a compiler that lays a struct out otherwise stops here. */
#if defined(__cplusplus)
static_assert(sizeof(perdigolh_answer) == 40 && sizeof(perdigolh_decided) == 48 && sizeof(perdigolh_swept) == 32 &&
                  sizeof(perdigolh_introspected) == 16,
              "interface 1");
#elif defined(__STDC_VERSION__) && __STDC_VERSION__ >= 201112L
_Static_assert(sizeof(perdigolh_answer) == 40 && sizeof(perdigolh_decided) == 48 && sizeof(perdigolh_swept) == 32 &&
                   sizeof(perdigolh_introspected) == 16,
               "interface 1");
#endif

/*
 * The client table: 1 to PERDIGOLH_TABLE_MOST records of PERDIGOLH_CLIENT_SIZE bytes, one behind the other, in any order.
 *
 *   0..16  client id, not all zeros, no two alike
 *   16..48 thumbprint of the key by which the program authenticates, not all zeros; two clients may share one
 *   48..52 permitted scope bits, big-endian; 0 means that every scope is refused
 *   52..54 seconds that its references live, big-endian: 1 to PERDIGOLH_REFERENCE_MOST; 0 means PERDIGOLH_REFERENCE_LIFETIME
 *   54..64 zeros
 *
 * A table that is not so answers 3. It is the front's own, is lent at push and token, and may be another at each call.
 */

/* Writes a client's record. A lifetime of 0 means PERDIGOLH_REFERENCE_LIFETIME; a table with one above PERDIGOLH_REFERENCE_MOST
 * answers 3. */
static inline void perdigolh_client_record(uint8_t record[PERDIGOLH_CLIENT_SIZE], const uint8_t client[PERDIGOLH_CLIENT_ID_SIZE],
                                           const uint8_t key[PERDIGOLH_KEY_SIZE], uint32_t permitted, uint16_t lifetime) {
    size_t i;
    for (i = 0; i < PERDIGOLH_CLIENT_SIZE; i++) {
        record[i] = 0;
    }
    for (i = 0; i < PERDIGOLH_CLIENT_ID_SIZE; i++) {
        record[i] = client[i];
    }
    for (i = 0; i < PERDIGOLH_KEY_SIZE; i++) {
        record[16 + i] = key[i];
    }
    for (i = 0; i < 4; i++) {
        record[48 + i] = (uint8_t)(permitted >> (24 - 8 * i));
    }
    record[52] = (uint8_t)(lifetime >> 8);
    record[53] = (uint8_t)lifetime;
}

/*
 * Start: makes a ledger of zeros with next grant number 1. Answers its number alone.
 *
 * Changed: all of the ledger, whatever it held before. Grant numbers and the clock begin anew: start a ledger once.
 * Checks: 1, for a length that is not PERDIGOLH_LEDGER_BYTES of 1 to 200.
 */
uint8_t perdigolh_start(uint8_t *ledger, size_t ledger_length);

/*
 * Push: a buyer's program leaves its request and gets a reference, which opens nothing.
 *
 * Lent:    the ledger; the time, in seconds; the client table; the program's client id; the thumbprint of the key by which it
 *          authenticated; the scope bits that it asks for; the challenge (43 characters, S256); the redirect; a fresh value.
 * Changed: the first free record, the next grant number, the clock. The fresh value is the reference from then on.
 * Checks, in order: 1, 2, 3, 4, 5, 6, 7, 8, 9.
 * Checked by the front before: that the program holds the private key of `key` (its TLS certificate or its signed assertion);
 *          `fresh` is 32 bytes of the front's random source, drawn for this call; `time` is its clock.
 * Answer:  the grant number, holder 0, the scope, the expiry of the reference.
 */
perdigolh_answer perdigolh_push(uint8_t *ledger, size_t ledger_length, uint64_t time, const uint8_t *table, size_t table_length,
                                const uint8_t client[16], const uint8_t key[32], uint32_t scope, const uint8_t *challenge,
                                size_t challenge_length, const uint8_t *redirect, size_t redirect_length,
                                const uint8_t fresh[32]);

/*
 * Decide: the holder who has logged in allows the request once, or declines it. Either way the reference is used up.
 *
 * Lent:    the ledger; the time; the reference and the client id that the browser brought; yes (PERDIGOLH_YES, or anything else
 *          for no); the holder's number; a fresh value; an output of at least 64 bytes.
 * Changed: on yes the request's record, whose fresh value is the code from then on; on no that record becomes free; and the clock.
 *          On both the redirect goes into the first 64 bytes of the output, with zeros behind it; later bytes stay.
 * Checks, in order: 1, 2, 20, 10, 11, 12, and on yes 7. On no the fresh value is not looked at.
 * Checked by the front before: that `holder` is the person who has logged in and that it is she who chose, seeing this request;
 *          `fresh` is 32 bytes of its random source, drawn for this call.
 * Answer:  the grant number, the holder, the scope, the expiry of the code (scope and expiry 0 after a no); the redirect's length.
 *          After a refusal the output holds nothing of the desk's: send the browser nowhere.
 */
perdigolh_decided perdigolh_decide(uint8_t *ledger, size_t ledger_length, uint64_t time, const uint8_t reference[32],
                                   const uint8_t client[16], uint8_t yes, uint64_t holder, const uint8_t fresh[32],
                                   uint8_t *output, size_t output_length);

/*
 * Token: the program redeems its code, with the secret whose hash it left at push, for a token tied to its key.
 *
 * Lent:    the ledger; the time; the client table; the client id; the thumbprint of the key by which it authenticated; the
 *          thumbprint of the key that it presents, which the token is bound to; the code; the verifier; a fresh value.
 * Changed: the record of the code, whose fresh value is the token from then on; and the clock. The code stays in the record, so
 *          that a second use is known as one: it is refused by 15, whatever its verifier and fresh value, and ends the token,
 *          expired or not. The record becomes free and the clock becomes the time; a third use is refused by 14.
 * Checks, in order: 1, 2, 3, 4, 13, 5, then 14 or 15, 11, 16, 7.
 * Checked by the front before: that the program holds the private keys of `key` and of `presented`; `fresh` is 32 bytes of its
 *          random source, drawn for this call.
 * Answer:  the grant number, the holder, the scope, the expiry of the token.
 */
perdigolh_answer perdigolh_token(uint8_t *ledger, size_t ledger_length, uint64_t time, const uint8_t *table, size_t table_length,
                                 const uint8_t client[16], const uint8_t key[32], const uint8_t presented[32],
                                 const uint8_t code[32], const uint8_t *verifier, size_t verifier_length,
                                 const uint8_t fresh[32]);

/*
 * Resource: with token and key the program reads only what the holder allowed. One call for each reading.
 *
 * Lent:    the ledger; the time; the token; the thumbprint of the key that is presented; the scope bits that this reading needs;
 *          the holder whose figures they are.
 * Changed: the clock. The client table is not read.
 * Checks, in order: 1, 2, 17, 11, 18, 6, 19.
 * Checked by the front before: that the program holds the private key of `presented`.
 * Answer:  the grant number, the holder, the scope that was granted (not the one asked), the expiry of the token. The front hands
 *          out the figures of that holder within the bits asked, and nothing else.
 */
perdigolh_answer perdigolh_resource(uint8_t *ledger, size_t ledger_length, uint64_t time, const uint8_t token[32],
                                    const uint8_t presented[32], uint32_t scope, uint64_t holder);

/*
 * Sweep: every expired record becomes free. Call it now and then, and when push answers 8.
 *
 * Changed: the expired records, and the clock.
 * Checks, in order: 1, 2.
 * Answer:  the records freed, by the state that they were in.
 */
perdigolh_swept perdigolh_sweep(uint8_t *ledger, size_t ledger_length, uint64_t time);

/*
 * Pending: the request that the holder is to see before she decides. It decides nothing.
 *
 * Lent:    the ledger, to be read; the time; the reference and the client id that the browser brought; an output of at least 64 bytes.
 * Changed: the first 64 bytes of the output, where the redirect goes, with zeros behind it; later bytes stay. The ledger stays as it
 *          is, its clock included.
 * Checks, in order: 1, 2, 20, 10, 11: decide's, as far as they are about the request.
 * Answer:  the grant number, holder 0, the scope that she would allow, the expiry of the reference; the redirect's length. On the
 *          ledger as it is, a decide on this reference is about this grant number and this redirect, and a yes allows this scope.
 */
perdigolh_decided perdigolh_pending(const uint8_t *ledger, size_t ledger_length, uint64_t time, const uint8_t reference[32],
                                    const uint8_t client[16], uint8_t *output, size_t output_length);

/*
 * Introspect: what a token stands for, as the JSON text of RFC 7662, for the figure servers (document 02, Q-1).
 *
 * Lent:    the ledger, to be read; the time; the token; an output.
 * Changed: the front of the output, where the text goes, without a zero behind it; later bytes stay. The ledger stays as it is, its
 *          clock included.
 * Checks, in order: 1, 2, 20. An output of PERDIGOLH_TEXT_MOST bytes is never too short.
 * Checked by the front before: that who asks is one of the scheme's figure servers.
 * Answer:  the text's length. A token that is unknown or expired is no refusal: its text is {"active":false}. Else the text is
 *          {"active":true,"client_id":"..","sub":"7","exp":1320,"scope":"s0 s2","cnf":{"x5t#S256":".."}}
 *          with the client id in 32 hexadecimal digits, the holder, the expiry, the names of the scope's bits, the bound key in base64url.
 */
perdigolh_introspected perdigolh_introspect(const uint8_t *ledger, size_t ledger_length, uint64_t time, const uint8_t token[32],
                                            uint8_t *output, size_t output_length);

#ifdef __cplusplus
}
#endif

#endif
