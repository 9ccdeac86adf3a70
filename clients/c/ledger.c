/* The ledger of a client: a small pool from its first epoch on, every call booked and checked. clients/README.md has the arithmetic.
 * Ends with status 1 and a message where a call is refused or a check does not hold. */
#include "pool_mirror.h"

#include <inttypes.h>
#include <stdio.h>
#include <stdlib.h>
#include <string.h>

enum { P = 4, E = 4, LEN = POOL_MIRROR_IMAGE_LEN(P, E), Y = 10000, EPOCH_SECONDS = 604800, UNLOCKING = 1, MAX_ROWS = 3, MAX_POSITIONS = 3 };

/* A publisher or an account: its name in the book, its 32 bytes, and these as the four words of a key. */
struct named {
    const char *name;
    uint8_t bytes[32];
    uint64_t key[4];
};

struct positions {
    uint64_t words[MAX_POSITIONS * POOL_MIRROR_POSITION_LEN];
    size_t len;
};

/* The clients who share an account: names, weights, and what the book has for each. */
struct clients {
    const char *names[POOL_MIRROR_MAX_WEIGHTS];
    uint64_t weights[POOL_MIRROR_MAX_WEIGHTS], booked[POOL_MIRROR_MAX_WEIGHTS];
    size_t len;
};

struct book {
    uint64_t pool[LEN];
    uint64_t now, custody, set_aside, paid;
    /* What moved custody, which starts at 0; fallen is the sum of the falls that payments answered. */
    uint64_t deposited, withdrawn, fallen;
    unsigned entries;
    char call[40], answer[48];
};

/* What the book says of a call. */
#define CALL(...) snprintf(b->call, sizeof b->call, __VA_ARGS__)
#define ANSWER(...) snprintf(b->answer, sizeof b->answer, __VA_ARGS__)
#define N "%" PRIu64

/* Names by the numbers of enum pool_mirror_state. */
static const char *const STATES[] = {"UNLOCKED", "LOCKING", "LOCKED", "PREUNLOCKING", "UNLOCKING"};

/* The four words of an absent account: not looked at, but a pointer must be given. */
static const uint64_t NONE[4];

static struct named named(const char *name, uint8_t first, uint8_t rest) {
    struct named n = {name, {0}, {0}};
    memset(n.bytes, rest, sizeof n.bytes);
    n.bytes[0] = first;
    for (int i = 0; i < 32; i++) {
        n.key[i / 8] |= (uint64_t)n.bytes[i] << 8 * (i % 8);
    }
    return n;
}

static void check(const struct book *b, int holds, const char *what) {
    if (!holds) {
        fprintf(stderr, "ledger: epoch " N ", %s: %s\n", b->now, b->call, what);
        exit(1);
    }
}

static void accepted(const struct book *b, uint64_t number) {
    if (number != 0) {
        fprintf(stderr, "ledger: epoch " N ", %s: refused " N "\n", b->now, b->call, number);
        exit(1);
    }
}

/* One line of the book. What the pool owes is what was set aside less what was paid, and custody covers it as long as nothing was withdrawn. */
static void entry(struct book *b) {
    uint64_t claimable = b->pool[1], gone = b->withdrawn + b->fallen;
    check(b, b->paid <= b->set_aside && claimable == b->set_aside - b->paid, "claimable is not what was set aside less what was paid");
    check(b, claimable <= b->custody || b->withdrawn > 0, "claimable is above custody, and nothing was withdrawn");
    check(b, gone <= b->deposited && b->custody == b->deposited - gone, "custody is not what came in less what went out");
    printf("%5" PRIu64 "  %-30s  %-40s %8" PRIu64 " %10" PRIu64 " %8" PRIu64 " %10" PRIu64 "\n", b->now, b->call, b->answer, b->custody,
           b->set_aside, b->paid, claimable);
    b->entries++;
}

/* The same for a call that has no answer but its number. */
static void plain(struct book *b, uint64_t number) {
    accepted(b, number);
    ANSWER("-");
    entry(b);
}

/* `len` bytes, the highest first. */
static void big_endian(uint8_t *at, int len, uint64_t value) {
    for (int i = len - 1; i >= 0; i--) {
        at[i] = (uint8_t)value;
        value >>= 8;
    }
}

/* A caps message of an epoch. The rows ascend by the bytes of their keys. */
static size_t caps_message(uint8_t *message, uint64_t epoch, const struct named *publishers, const uint64_t *caps, size_t rows) {
    message[0] = 2;
    big_endian(message + 1, 8, epoch * EPOCH_SECONDS);
    big_endian(message + 9, 2, rows);
    for (size_t i = 0; i < rows; i++) {
        memcpy(message + POOL_MIRROR_CAPS_LEN(i), publishers[i].bytes, 32);
        big_endian(message + POOL_MIRROR_CAPS_LEN(i) + 32, 8, caps[i]);
    }
    return POOL_MIRROR_CAPS_LEN(rows);
}

/* One more position of a list, with a start of unlocking unless that is 0. */
static void position(struct positions *list, const struct named *publisher, uint64_t amount, uint64_t activation, uint64_t start) {
    uint64_t *at = list->words + list->len;
    at[0] = 2;
    at[1] = amount;
    at[2] = activation;
    at[3] = start != 0;
    at[4] = start;
    memcpy(at + 5, publisher->key, sizeof publisher->key);
    list->len += POOL_MIRROR_POSITION_LEN;
}

/* Whether a side of some seat has a change that counts from the next epoch on. */
static int changes_to_come(const struct book *b) {
    uint64_t any = 0;
    for (size_t s = 0; s < P; s++) {
        any |= b->pool[2 + 4 * P + 2 * s + 1] | b->pool[2 + 6 * P + 2 * s + 1];
    }
    return any != 0;
}

/* What the token side does with a withdrawal or a payment: it refuses one that would lower custody by more than it holds. */
static int lowered(struct book *b, uint64_t by) {
    if (by > b->custody) {
        return 0;
    }
    b->custody -= by;
    return 1;
}

static void deposit(struct book *b, uint64_t amount) {
    CALL("deposit " N, amount);
    b->custody += amount;
    b->deposited += amount;
    plain(b, 0);
}

static void withdraw(struct book *b, uint64_t amount) {
    int made = lowered(b, amount);
    CALL("withdraw " N, amount);
    b->withdrawn += made ? amount : 0;
    ANSWER("%s", made ? "-" : "not made");
    entry(b);
}

/* A forecast, then the advance. The forecast takes every passed epoch at the totals with their changes, the advance the first one without: the two
 * agree where no change is to come, and where custody is below claimable, since nothing is set aside then. */
static void advance(struct book *b, uint64_t now, const struct named *publishers, const uint64_t *caps, size_t rows) {
    uint8_t message[POOL_MIRROR_CAPS_LEN(MAX_ROWS)];
    size_t len = caps_message(message, now, publishers, caps, rows);
    int changes = changes_to_come(b);
    uint64_t before = b->pool[1], said[1], done[5], again;
    b->now = now;
    CALL("forecast");
    accepted(b, pool_mirror_forecast(b->pool, LEN, P, E, now, Y, b->custody, 1, message, len, EPOCH_SECONDS, said));
    ANSWER("set aside " N "%s", said[0], changes ? ", changes to come" : "");
    entry(b);
    CALL("advance");
    accepted(b, pool_mirror_advance(b->pool, LEN, P, E, now, Y, b->custody, 1, message, len, EPOCH_SECONDS, done));
    check(b, said[0] == done[1] || (changes && before <= b->custody), "the forecast said another amount");
    check(b, b->pool[1] <= b->custody || b->pool[1] <= before, "claimable is above custody, and above what it was");
    b->set_aside += done[1];
    ANSWER("y " N ", set aside " N ", rows " N " " N " " N, done[0], done[1], done[2], done[3], done[4]);
    entry(b);
    again = pool_mirror_advance(b->pool, LEN, P, E, now, Y, b->custody, 1, message, len, EPOCH_SECONDS, done);
    check(b, again == POOL_MIRROR_POOL_DATA_ALREADY_UP_TO_DATE, "a second advance in the epoch is not refused with 8");
}

/* `own` is the publisher's stake account, NULL where it has none. Pool and record are copied before the call: they stay as they were where the token
 * side refuses what is to be moved. Returns what the account was paid, 0 where the payment is not made. */
static uint64_t payment(struct book *b, const struct named *publisher, const struct named *own, const struct named *account, uint64_t record[2],
                        const struct positions *list) {
    uint64_t pool[LEN], next[2], paid[4];
    memcpy(pool, b->pool, sizeof pool);
    memcpy(next, record, sizeof next);
    CALL("payment %s %s", publisher->name, account->name);
    accepted(b, pool_mirror_payment(pool, LEN, P, E, b->now, publisher->key, account->key, next, own != NULL, own ? own->key : NONE, own != NULL,
                                    list->words, list->len, UNLOCKING, paid));
    check(b, next[0] == b->now, "the record is not in the current epoch");
    /* The tokens that leave custody; that the answer says the same is checked in the entry. */
    int made = lowered(b, paid[0] + (own != NULL ? paid[1] : 0));
    if (made) {
        memcpy(b->pool, pool, sizeof pool);
        memcpy(record, next, sizeof next);
        b->paid += paid[0] + paid[1];
        b->fallen += paid[2];
        ANSWER(N " + " N ", custody -" N ", reads " N, paid[0], paid[1], paid[2], paid[3]);
    } else {
        ANSWER("not made: custody -" N, paid[2]);
    }
    entry(b);
    return made ? paid[0] : 0;
}

/* What an account was paid is booked to the clients who share it, each one's part by its weight. */
static void split(struct book *b, const struct named *publisher, const struct named *account, uint64_t reward, struct clients *clients) {
    uint64_t parts[POOL_MIRROR_MAX_WEIGHTS], left = reward;
    CALL("split %s %s " N, publisher->name, account->name, reward);
    accepted(b, pool_mirror_split(reward, clients->weights, clients->len, parts, clients->len));
    b->answer[0] = '\0';
    for (size_t i = 0; i < clients->len; i++) {
        size_t told = strlen(b->answer);
        check(b, parts[i] <= left, "the parts are more than the reward");
        left -= parts[i];
        clients->booked[i] += parts[i];
        snprintf(b->answer + told, sizeof b->answer - told, "%s%s " N, i == 0 ? "" : ", ", clients->names[i], parts[i]);
    }
    check(b, left == 0, "the parts are less than the reward");
    entry(b);
}

static void shared_payment(struct book *b, const struct named *publisher, const struct named *own, const struct named *account, uint64_t record[2],
                           const struct positions *list, struct clients *clients) {
    split(b, publisher, account, payment(b, publisher, own, account, record, list), clients);
}

static void add(struct book *b, const struct named *publisher, const struct named *account, uint64_t amount) {
    CALL("add %s %s " N, publisher->name, account->name, amount);
    plain(b, pool_mirror_add(b->pool, LEN, P, E, b->now, publisher->key, account->key, amount));
}

/* The state of one position of a list in the current epoch. */
static uint64_t state(struct book *b, const struct named *publisher, const struct named *account, const uint64_t *position) {
    uint64_t answer[1];
    CALL("state %s %s " N, publisher->name, account->name, position[1]);
    accepted(b, pool_mirror_position_state(b->now, position, POOL_MIRROR_POSITION_LEN, UNLOCKING, answer));
    check(b, answer[0] < sizeof STATES / sizeof *STATES, "no state has this number");
    ANSWER("%s", STATES[answer[0]]);
    entry(b);
    return answer[0];
}

/* A position or a part of it is taken back, in the state that it is in. stdio.h has a `remove`. */
static void take(struct book *b, const struct named *publisher, const struct named *account, uint64_t amount, const uint64_t *position) {
    uint64_t its = state(b, publisher, account, position);
    CALL("remove %s %s " N " %s", publisher->name, account->name, amount, STATES[its]);
    plain(b, pool_mirror_remove(b->pool, LEN, P, E, b->now, publisher->key, account->key, amount, its));
}

/* The publisher's first slash event, number 0, and what it takes from an account. */
static void slash_event(struct book *b, const struct named *publisher) {
    uint64_t epoch[1];
    CALL("create-slash-event %s 0", publisher->name);
    accepted(b, pool_mirror_create_slash_event(b->pool, LEN, P, E, b->now, publisher->key, 0, epoch));
    ANSWER("epoch " N, epoch[0]);
    entry(b);
}

static void slash(struct book *b, const struct named *publisher, const struct named *account, uint64_t record[2], uint64_t locked,
                  uint64_t preunlocking) {
    CALL("slash %s %s " N " " N, publisher->name, account->name, locked, preunlocking);
    accepted(b, pool_mirror_slash(b->pool, LEN, P, E, b->now, publisher->key, account->key, record, 0, b->now, locked, preunlocking));
    ANSWER("next slash event " N, record[1]);
    entry(b);
}

static void fresh(struct book *b, uint64_t epoch) {
    b->now = epoch;
    CALL("fresh " N, epoch);
    plain(b, pool_mirror_fresh(b->pool, LEN, P, E, epoch));
}

static void fee(struct book *b, uint64_t millionths) {
    CALL("fee " N, millionths);
    plain(b, pool_mirror_fee(b->pool, LEN, P, E, millionths));
}

/* The publisher's first one: the publisher signs, there is no old account, and the new one has no positions yet. */
static void stake_account(struct book *b, const struct named *publisher, const struct named *own) {
    const uint64_t *key = publisher->key;
    CALL("stake-account %s %s", publisher->name, own->name);
    plain(b, pool_mirror_stake_account(b->pool, LEN, P, E, key, key, NONE, 0, NONE, NONE, NONE, 0, 1, own->key, NONE, 0));
}

/* The words of the seats, by their places in the image. */
static void seats(const struct book *b, const struct named *publishers, size_t count) {
    const uint64_t *slashes = b->pool + 3 + 12 * P + E * (9 + 3 * P), *fees = slashes + P;
    printf("\nseat   stakers      own     fee  slash events\n");
    for (size_t s = 0; s < count; s++) {
        check(b, memcmp(b->pool + 2 + 4 * s, publishers[s].key, sizeof publishers[s].key) == 0, "another publisher has the seat");
        printf("%-4s %9" PRIu64 " %8" PRIu64 " %7" PRIu64 " %13" PRIu64 "\n", publishers[s].name, b->pool[2 + 4 * P + 2 * s],
               b->pool[2 + 6 * P + 2 * s], fees[s], slashes[s]);
    }
}

int main(void) {
    /* As little-endian words A's key would be above B's: the order is that of the bytes. */
    const struct named p[MAX_ROWS] = {named("A", 0x11, 0xaa), named("B", 0x22, 0x33), named("C", 0x44, 0x00)}, *a = &p[0], *b = &p[1];
    const struct named own = named("own", 0x55, 0x01), sam = named("sam", 0x66, 0x02), eve = named("eve", 0x77, 0x03);
    const uint64_t caps[MAX_ROWS] = {1000000, 300000, 100000};
    uint64_t own_a[2] = {0, 0}, sam_a[2] = {0, 0}, sam_b[2] = {0, 0}, eve_a[2] = {0, 0};
    struct positions owns = {{0}, 0}, sams = {{0}, 0}, eves = {{0}, 0};
    struct clients clients = {{"ann", "bob", "cid"}, {4, 11, 6}, {0}, 3};
    static struct book book;

    printf("%5s  %-30s  %-40s %8s %10s %8s %10s\n", "epoch", "call", "answer", "custody", "set aside", "paid", "claimable");
    fresh(&book, 100);
    deposit(&book, 25000);
    advance(&book, 100, p, caps, 2);
    fee(&book, 200000);
    stake_account(&book, a, &own);

    /* The stake counts from epoch 101 on. */
    add(&book, a, &own, 400000);
    add(&book, a, &sam, 500000);
    add(&book, a, &eve, 300000);
    add(&book, b, &sam, 200000);
    position(&owns, a, 400000, 101, 0);
    position(&sams, a, 500000, 101, 0);
    position(&sams, b, 200000, 101, 0);
    position(&eves, a, 300000, 101, 0);
    advance(&book, 101, p, caps, 2);
    advance(&book, 103, p, caps, 2);

    /* Custody covers less than half of epoch 103's rewards: y is lowered. Three clients share sam's account. */
    deposit(&book, 4999);
    advance(&book, 104, p, caps, 2);
    shared_payment(&book, a, &own, &sam, sam_a, &sams, &clients);
    payment(&book, a, &own, &own, own_a, &owns);
    shared_payment(&book, b, NULL, &sam, sam_b, &sams, &clients);
    payment(&book, a, &own, &eve, eve_a, &eves);

    /* eve takes a third back; then a tenth of all stake with A is slashed. */
    take(&book, a, &eve, 100000, eves.words);
    slash_event(&book, a);
    slash(&book, a, &sam, sam_a, 50000, 0);
    slash(&book, a, &eve, eve_a, 20000, 10000);
    slash(&book, a, &own, own_a, 40000, 0);
    owns.len = sams.len = eves.len = 0;
    position(&owns, a, 360000, 101, 0);
    position(&sams, a, 450000, 101, 0);
    position(&sams, b, 200000, 101, 0);
    position(&eves, a, 180000, 101, 0);
    position(&eves, a, 90000, 101, 105);
    deposit(&book, 50000);
    advance(&book, 105, p, caps, 2);
    shared_payment(&book, a, &own, &sam, sam_a, &sams, &clients);
    payment(&book, a, &own, &eve, eve_a, &eves);

    /* A third publisher takes a seat. What eve took back earned nothing in epoch 105, and is free now. */
    advance(&book, 106, p, caps, 3);
    payment(&book, a, &own, &eve, eve_a, &eves);
    take(&book, a, &eve, 90000, eves.words + POOL_MIRROR_POSITION_LEN);
    eves.len = 0;
    position(&eves, a, 180000, 101, 0);

    /* The sponsor withdraws, which leaves less than claimable. Epoch 106 passes, and earns nothing. */
    add(&book, b, &sam, 100000);
    position(&sams, b, 100000, 107, 0);
    withdraw(&book, 42805);
    withdraw(&book, 39604);
    advance(&book, 107, p, caps, 3);
    payment(&book, a, &own, &own, own_a, &owns);
    payment(&book, a, &own, &eve, eve_a, &eves);
    shared_payment(&book, b, NULL, &sam, sam_b, &sams, &clients);

    /* Custody is filled again: epoch 107 earns as ever, and what waited is paid. */
    deposit(&book, 50000);
    advance(&book, 108, p, caps, 3);
    payment(&book, a, &own, &own, own_a, &owns);
    shared_payment(&book, a, &own, &sam, sam_a, &sams, &clients);
    payment(&book, a, &own, &eve, eve_a, &eves);
    shared_payment(&book, b, NULL, &sam, sam_b, &sams, &clients);
    seats(&book, p, 3);
    printf("\nclient  weight    booked\n");
    for (size_t i = 0; i < clients.len; i++) {
        printf("%-6s %7" PRIu64 " %9" PRIu64 "\n", clients.names[i], clients.weights[i], clients.booked[i]);
    }
    printf("\ncustody: deposited " N ", withdrawn " N ", payments " N "\n", book.deposited, book.withdrawn, book.fallen);
    printf("\nledger: %u entries, every check held\n", book.entries);
    return 0;
}
