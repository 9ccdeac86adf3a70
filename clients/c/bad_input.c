/* Bad input for each of the twelve functions. A case is a good input with one fault and the number that must be returned; it is tried alone, and with
 * all faults that stand behind it in the order of the refusals. Each time every word of the input, pool, record, answer and parts included, must be as it
 * was.
 * Then input at the limits, which is accepted. The numbers of the cases are the same in clients/rust/bad_input.rs. */
#include "pool_mirror.h"

#include <inttypes.h>
#include <stdio.h>
#include <stdlib.h>
#include <string.h>

enum function { FRESH, ADVANCE, FORECAST, PAYMENT, ADD, REMOVE, POSITION_STATE, CREATE_SLASH_EVENT, SLASH, FEE, STAKE_ACCOUNT, SPLIT, FUNCTIONS };
static const char *const NAMES[] = {"fresh", "advance", "forecast", "payment", "add", "remove", "position_state", "create_slash_event", "slash", "fee",
                                    "stake_account", "split"};

#define HALF ((uint64_t)1 << 63)
#define MAX UINT64_MAX
#define LEN(list) (sizeof(list) / sizeof *(list))

/* The good image has 2 seats and 4 events; the largest that a case uses would have 1,025 seats. */
enum { P = 2, E = 4, MOST = 257 * 9, WORDS = POOL_MIRROR_IMAGE_LEN(1025, E), BYTES = 40972, WEIGHTS = POOL_MIRROR_MAX_WEIGHTS, BEFORE = 7777 };
enum { OTHERS = 2 + 4 * P, OWN = 2 + 6 * P, ACCOUNTS = 2 + 8 * P, EVENTS = 2 + 12 * P, EVENT = 9 + 3 * P, COUNT = EVENTS + E * EVENT, SLASHES = COUNT + 1 };

/* All arguments of all functions. Words behind a list's length must stay as they were too. */
struct input {
    uint64_t pool[WORDS];
    size_t pool_len, p, e;
    uint64_t epoch, now, y, custody, verified, seconds;
    uint8_t caps[BYTES];
    size_t caps_len;
    uint64_t publisher[4], account[4], record[2];
    uint64_t has_publisher_account, publisher_account[4], custody_flag;
    uint64_t positions[MOST];
    size_t positions_len;
    uint64_t unlocking, amount, state, index, event_epoch, locked, preunlocking, fee;
    uint64_t signer[4], authority[4];
    uint64_t has_old, old_account[4], old_owner[4], old_positions[MOST];
    size_t old_len;
    uint64_t has_new, new_account[4], new_positions[MOST];
    size_t new_len;
    uint64_t reward, weights[256 + WEIGHTS], parts[256 + WEIGHTS];
    size_t weights_len, parts_len;
    uint64_t answer[8];
};

/* R of the good advance: 1 % of 1,000,000 and 500,000 of A's two sides and of B's cap of 500. */
#define REWARDS ((uint64_t)15005)

static const uint64_t ZERO[4], A[4] = {1, 2, 3, 4}, B[4] = {2, 0, 0, 0}, C[4] = {3, 0, 0, 0}, OWN_KEY[4] = {4, 0, 0, 0}, STAKER[4] = {5, 0, 0, 0};
static const uint64_t OWNER[4] = {6, 0, 0, 0}, AUTHORITY[4] = {7, 0, 0, 0}, NEW[4] = {8, 0, 0, 0};

static void set_key(uint64_t *at, const uint64_t *key) {
    memcpy(at, key, 4 * sizeof *at);
}

static void big_endian(uint8_t *at, int len, uint64_t value) {
    for (int i = len - 1; i >= 0; i--, value >>= 8) {
        at[i] = (uint8_t)value;
    }
}

static void set_time(struct input *in, uint64_t time) {
    big_endian(in->caps + 1, 8, time);
}

static void set_rows(struct input *in, size_t rows) {
    big_endian(in->caps + 9, 2, rows);
}

static void set_row(struct input *in, size_t i, const uint64_t *key, uint64_t cap) {
    uint8_t *at = in->caps + POOL_MIRROR_CAPS_LEN(i);
    for (int j = 0; j < 32; j++) {
        at[j] = (uint8_t)(key[j / 8] >> 8 * (j % 8));
    }
    big_endian(at + 32, 8, cap);
}

static void set_position(uint64_t *list, size_t i, uint64_t kind, uint64_t amount, uint64_t flag, uint64_t start, const uint64_t *publisher) {
    const uint64_t words[] = {kind, amount, 10, flag, start};
    memcpy(list + 9 * i, words, sizeof words);
    set_key(list + 9 * i + 5, publisher);
}

static void set_lens(struct input *in, size_t weights_len, size_t parts_len) {
    in->weights_len = weights_len, in->parts_len = parts_len;
}

/* Three weights and room for three parts. */
static void set_weights(struct input *in, uint64_t first, uint64_t second, uint64_t third) {
    in->weights[0] = first, in->weights[1] = second, in->weights[2] = third, set_lens(in, 3, 3);
}

/* As many of the same, and room for as many parts. */
static void set_equal(struct input *in, size_t len, uint64_t weight) {
    set_lens(in, len, len);
    for (size_t i = 0; i < len; i++) {
        in->weights[i] = weight;
    }
}

/* An input that the function accepts. Each event pays 1 % and the publisher keeps a tenth, so the payment is 1,800 and 200. */
static void good(enum function f, struct input *in) {
    static const uint64_t junk[4] = {MAX, MAX, MAX, MAX};
    memset(in, 0, sizeof *in);
    in->pool_len = POOL_MIRROR_IMAGE_LEN(P, E), in->p = P, in->e = E;
    in->pool[0] = 20, in->pool[1] = 50000, in->pool[COUNT] = 2, in->pool[SLASHES] = 3;
    set_key(in->pool + 2, A), set_key(in->pool + 6, B), set_key(in->pool + ACCOUNTS, OWN_KEY);
    in->pool[OTHERS] = 1000000, in->pool[OTHERS + 2] = 1000, in->pool[OWN] = 500000;
    for (int t = 0; t < 2; t++) {
        const uint64_t words[EVENT] = {18 + t, 10000, 0, 0, 0, 0, 0, 0, 0, 1000000, 1000000, 100000, 1000000, 1000000, 100000};
        memcpy(in->pool + EVENTS + t * EVENT, words, sizeof words);
    }
    in->epoch = 20, in->now = f == ADVANCE || f == FORECAST ? 21 : 20, in->y = 10000, in->custody = 100000, in->verified = 1, in->seconds = 604800;
    set_time(in, 21 * 604800), set_rows(in, 2), set_row(in, 0, A, 2000000), set_row(in, 1, B, 500), in->caps_len = POOL_MIRROR_CAPS_LEN(2);
    set_key(in->publisher, A), set_key(in->account, STAKER);
    in->record[0] = f == SLASH ? 20 : 18, in->record[1] = 3;
    in->has_publisher_account = 1, set_key(in->publisher_account, OWN_KEY), in->custody_flag = 1;
    set_position(in->positions, 0, 2, 100000, 0, 0, A), set_position(in->positions, 1, 0, MAX, MAX, MAX, junk);
    in->positions_len = f == POSITION_STATE ? 9 : 18;
    in->unlocking = 1, in->amount = 5, in->state = POOL_MIRROR_LOCKED;
    in->index = 3, in->event_epoch = 20, in->locked = 10, in->preunlocking = 5, in->fee = 50000;
    set_key(in->signer, OWNER), set_key(in->authority, AUTHORITY);
    in->has_old = 1, set_key(in->old_account, OWN_KEY), set_key(in->old_owner, OWNER);
    set_position(in->old_positions, 0, 1, 5, 0, 0, A), set_position(in->old_positions, 1, 2, 5, 0, 0, B), in->old_len = 18;
    in->has_new = 1, set_key(in->new_account, NEW), set_position(in->new_positions, 0, 2, 5, 0, 0, C), in->new_len = 9;
    in->reward = 100, set_equal(in, LEN(in->weights), 1), set_weights(in, 4, 11, 6);
    for (size_t i = 0; i < LEN(in->parts); i++) {
        in->parts[i] = BEFORE;
    }
    for (size_t i = 0; i < LEN(in->answer); i++) {
        in->answer[i] = BEFORE;
    }
}

static uint64_t call(enum function f, struct input *in) {
    uint64_t *pool = in->pool;
    size_t len = in->pool_len, p = in->p, e = in->e;
    switch (f) {
    case FRESH: return pool_mirror_fresh(pool, len, p, e, in->epoch);
    case ADVANCE: return pool_mirror_advance(pool, len, p, e, in->now, in->y, in->custody, in->verified, in->caps, in->caps_len, in->seconds, in->answer);
    case FORECAST: return pool_mirror_forecast(pool, len, p, e, in->now, in->y, in->custody, in->verified, in->caps, in->caps_len, in->seconds, in->answer);
    case PAYMENT: return pool_mirror_payment(pool, len, p, e, in->now, in->publisher, in->account, in->record, in->has_publisher_account, in->publisher_account,
                                             in->custody_flag, in->positions, in->positions_len, in->unlocking, in->answer);
    case ADD: return pool_mirror_add(pool, len, p, e, in->now, in->publisher, in->account, in->amount);
    case REMOVE: return pool_mirror_remove(pool, len, p, e, in->now, in->publisher, in->account, in->amount, in->state);
    case POSITION_STATE: return pool_mirror_position_state(in->now, in->positions, in->positions_len, in->unlocking, in->answer);
    case CREATE_SLASH_EVENT: return pool_mirror_create_slash_event(pool, len, p, e, in->now, in->publisher, in->index, in->answer);
    case SLASH: return pool_mirror_slash(pool, len, p, e, in->now, in->publisher, in->account, in->record, in->index, in->event_epoch, in->locked,
                                         in->preunlocking);
    case FEE: return pool_mirror_fee(pool, len, p, e, in->fee);
    case STAKE_ACCOUNT: return pool_mirror_stake_account(pool, len, p, e, in->publisher, in->signer, in->authority, in->has_old, in->old_account, in->old_owner,
                                                         in->old_positions, in->old_len, in->has_new, in->new_account, in->new_positions, in->new_len);
    case SPLIT: return pool_mirror_split(in->reward, in->weights, in->weights_len, in->parts, in->parts_len);
    default: abort();
    }
}

/* Each of these puts fault k into the input and returns the number for it, or 0 where there is no fault k. */

enum { SIZES = 13, IMAGE = 15, UP_TO_DATE = 4 };

static uint64_t image_fault(struct input *in, int k) {
    switch (k) {
    case 0: in->pool_len = 0; return 1;
    case 1: in->pool_len = POOL_MIRROR_IMAGE_LEN(P, E) - 1; return 1;
    case 2: in->pool_len = POOL_MIRROR_IMAGE_LEN(P, E) + 1; return 1;
    case 3: in->p = 0; return 1;
    case 4: in->p = 0, in->pool_len = POOL_MIRROR_IMAGE_LEN(0, E); return 1;
    case 5: in->p = 1025, in->pool_len = POOL_MIRROR_IMAGE_LEN(1025, E); return 1;
    case 6: in->e = 0, in->pool_len = POOL_MIRROR_IMAGE_LEN(P, 0); return 1;
    case 7: in->e = 53, in->pool_len = POOL_MIRROR_IMAGE_LEN(P, 53); return 1;
    case 8: in->p = SIZE_MAX; return 1;
    case 9: in->e = SIZE_MAX; return 1;
    case 10: in->p = SIZE_MAX, in->e = SIZE_MAX; return 1;
    /* In 64 bits these come to the lengths given. */
    case 11: in->p = SIZE_MAX, in->e = 4, in->pool_len = 13; return 1;
    case 12: in->p = 1, in->e = ((size_t)1 << 62) + 4, in->pool_len = POOL_MIRROR_IMAGE_LEN(1, 4); return 1;
    case 13: in->pool[COUNT] = HALF; return 1;
    case 14: in->pool[COUNT] = MAX; return 1;
    default: return 0;
    }
}

static uint64_t fresh_fault(struct input *in, int k) {
    if (k < SIZES) return image_fault(in, k);
    switch (k - SIZES) {
    case 0: in->epoch = 0; return 2;
    default: return 0;
    }
}

static uint64_t advance_fault(struct input *in, int k) {
    static const uint64_t low[4] = {0x0002, 0, 0, 0}, high[4] = {0x0100, 0, 0, 0};
    if (k < IMAGE) return image_fault(in, k);
    switch (k - IMAGE) {
    case 0: in->seconds = 0; return 2;
    case 1: in->caps_len = 0; return 3;
    case 2: in->caps_len = 10; return 3;
    case 3: in->caps_len = POOL_MIRROR_CAPS_LEN(2) - 1; return 3;
    case 4: in->caps_len = 40972; return 3;
    case 5: set_rows(in, 1025), in->caps_len = 40971; return 3;
    case 6: set_rows(in, 65535), in->caps_len = 40971; return 3;
    case 7: set_row(in, 0, ZERO, 1); return 3;
    case 8: set_row(in, 0, A, 1), set_row(in, 1, A, 1); return 3;
    case 9: set_row(in, 0, B, 1), set_row(in, 1, A, 1); return 3;
    /* Ascending as little-endian words, not as bytes. */
    case 10: set_row(in, 0, low, 1), set_row(in, 1, high, 1); return 3;
    case 11: in->y = 10001; return 5;
    case 12: in->y = MAX; return 5;
    case 13: in->verified = 0; return 7;
    case 14: in->verified = 2; return 7;
    case 15: in->now = 20; return 8;
    case 16: in->now = 0; return 8;
    case 17: set_time(in, HALF); return 13;
    case 18: set_time(in, MAX); return 13;
    case 19: set_time(in, 21 * 604800 - 1); return 9;
    case 20: set_time(in, 22 * 604800); return 9;
    case 21: in->pool[OTHERS] = HALF; return 13;
    case 22: in->pool[OTHERS] = 5, in->pool[OTHERS + 1] = (uint64_t)0 - 6; return 13;
    case 23: in->pool[OWN] = HALF - 1, in->pool[OWN + 1] = 1; return 13;
    case 24: in->pool[OTHERS] = in->pool[OWN] = in->pool[OTHERS + 2] = HALF - 1, set_row(in, 0, A, MAX), set_row(in, 1, B, MAX); return 13;
    case 25: in->pool[COUNT] = HALF - 1; return 13;
    /* R and claimable together; claimable is above custody, here and with all faults before, then under it. */
    case 26: in->pool[1] = MAX - REWARDS + 1, in->custody = 0; return 13;
    case 27: in->pool[1] = MAX - REWARDS + 1, in->custody = MAX; return 13;
    default: return 0;
    }
}

/* The publisher and the pool's epoch: 10, 11, 12. */
static uint64_t seat_fault(struct input *in, int k) {
    switch (k) {
    case 0: set_key(in->publisher, ZERO); return 10;
    case 1: set_key(in->publisher, C); return 11;
    case 2: in->now = 19; return 12;
    case 3: in->now = 21; return 12;
    default: return 0;
    }
}

static uint64_t payment_fault(struct input *in, int k) {
    enum { LISTS = IMAGE + 8, REST = LISTS + UP_TO_DATE };
    uint64_t *event = in->pool + EVENTS;
    if (k < IMAGE) return image_fault(in, k);
    if (k >= LISTS && k < REST) return seat_fault(in, k - LISTS);
    switch (k < LISTS ? k - IMAGE : k - UP_TO_DATE - IMAGE) {
    case 0: in->positions_len = 1; return 4;
    case 1: in->positions_len = 17; return 4;
    case 2: in->positions_len = 2313; return 4;
    case 3: in->positions_len = 2304 + 8; return 4;
    case 4: in->positions[0] = 3; return 4;
    case 5: in->positions[0] = MAX; return 4;
    case 6: in->positions[3] = 2; return 4;
    case 7: in->positions[0] = 1, in->positions[3] = MAX; return 4;
    /* The end of unlocking; a slot's amount; a rate; a reward; a publisher's part above it; both slots' rewards together. */
    case 8: set_position(in->positions, 0, 2, 100000, 1, MAX, A); return 13;
    case 9: set_position(in->positions, 0, 2, HALF, 0, 0, A), set_position(in->positions, 1, 2, HALF, 0, 0, A); return 13;
    case 10: event[1] = MAX, event[10] = 2000000; return 13;
    case 11: event[1] = 2000000, in->positions[1] = MAX; return 13;
    case 12: event[11] = 2000000; return 13;
    case 13: event[1] = event[EVENT + 1] = 1000000, in->positions[1] = MAX; return 13;
    case 14: in->pool[1] = 1999; return 16;
    case 15: in->pool[1] = 0; return 16;
    case 16: in->has_publisher_account = 1, set_key(in->publisher_account, STAKER); return 17;
    case 17: in->has_publisher_account = 1, set_key(in->pool + ACCOUNTS, ZERO); return 17;
    case 18: in->has_publisher_account = 0; return 17;
    case 19: in->custody_flag = 0; return 18;
    default: return 0;
    }
}

static uint64_t add_fault(struct input *in, int k) {
    if (k < IMAGE) return image_fault(in, k);
    if (k < IMAGE + UP_TO_DATE) return seat_fault(in, k - IMAGE);
    switch (k - IMAGE - UP_TO_DATE) {
    case 0: in->amount = HALF; return 13;
    case 1: in->amount = MAX; return 13;
    case 2: in->pool[OTHERS + 1] = HALF - 5; return 13;
    default: return 0;
    }
}

static uint64_t remove_fault(struct input *in, int k) {
    if (k < IMAGE) return image_fault(in, k);
    if (k < IMAGE + UP_TO_DATE) return seat_fault(in, k - IMAGE);
    switch (k - IMAGE - UP_TO_DATE) {
    case 0: in->amount = MAX, in->state = POOL_MIRROR_UNLOCKED; return 13;
    case 1: in->amount = HALF; return 13;
    case 2: in->state = POOL_MIRROR_PREUNLOCKING; return 15;
    case 3: in->state = POOL_MIRROR_UNLOCKING; return 15;
    case 4: in->state = 5; return 15;
    case 5: in->state = MAX; return 15;
    case 6: in->pool[OTHERS + 1] = HALF, in->state = POOL_MIRROR_LOCKED; return 13;
    case 7: in->pool[OTHERS + 1] = HALF + 4, in->state = POOL_MIRROR_LOCKING; return 13;
    default: return 0;
    }
}

/* A start of unlocking for the first position, which is active from epoch 10 on. */
static void set_unlocking(struct input *in, uint64_t start, uint64_t unlocking) {
    in->positions[3] = 1, in->positions[4] = start, in->unlocking = unlocking;
}

static uint64_t position_state_fault(struct input *in, int k) {
    switch (k) {
    case 0: in->positions_len = 0; return 4;
    case 1: in->positions_len = 8; return 4;
    case 2: in->positions_len = 10; return 4;
    case 3: in->positions_len = 18; return 4;
    case 4: in->positions_len = 2313; return 4;
    case 5: in->positions[0] = 3; return 4;
    case 6: in->positions[0] = MAX; return 4;
    case 7: in->positions[3] = 2; return 4;
    case 8: in->positions[0] = 1, in->positions[3] = MAX; return 4;
    case 9: in->positions[0] = 0; return 4;
    case 10: set_unlocking(in, MAX, 1); return 13;
    case 11: set_unlocking(in, MAX, 1), in->now = 10; return 13;
    case 12: set_unlocking(in, HALF, HALF); return 13;
    case 13: set_unlocking(in, 1, MAX); return 13;
    default: return 0;
    }
}

static uint64_t create_slash_event_fault(struct input *in, int k) {
    if (k < IMAGE) return image_fault(in, k);
    switch (k - IMAGE) {
    case 0: set_key(in->publisher, ZERO); return 10;
    case 1: set_key(in->publisher, C); return 11;
    case 2: in->index = 2; return 21;
    case 3: in->index = 4; return 21;
    case 4: in->pool[SLASHES] = in->index = MAX; return 13;
    default: return 0;
    }
}

static uint64_t slash_fault(struct input *in, int k) {
    if (k < IMAGE) return image_fault(in, k);
    switch (k - IMAGE) {
    case 0: in->record[0] = 19; return 19;
    case 1: in->record[0] = 21; return 19;
    case 2: in->event_epoch = 21; return 22;
    case 3: in->event_epoch = MAX; return 22;
    case 4: in->index = 2, in->event_epoch = 20; return 20;
    case 5: in->index = 2, in->event_epoch = 19; return 20;
    case 6: in->index = 4, in->event_epoch = 20; return 20;
    case 7: in->index = MAX, in->record[1] = 3, in->event_epoch = 20; return 20;
    case 8: in->index = MAX, in->event_epoch = 19; return 13;
    case 9: in->index = in->record[1] = MAX, in->event_epoch = 20; return 13;
    case 10: in->pool[0] = 19; return 12;
    case 11: in->pool[0] = 21; return 12;
    case 12: set_key(in->publisher, ZERO); return 10;
    case 13: set_key(in->publisher, C); return 11;
    case 14: in->locked = 1000000; return 13;
    case 15: in->locked = in->preunlocking = MAX; return 13;
    case 16: in->pool[OTHERS] = MAX, in->preunlocking = HALF; return 13;
    case 17: in->pool[OTHERS + 1] = HALF - 5; return 13;
    default: return 0;
    }
}

static uint64_t fee_fault(struct input *in, int k) {
    if (k < IMAGE) return image_fault(in, k);
    switch (k - IMAGE) {
    case 0: in->fee = 1000001; return 6;
    case 1: in->fee = MAX; return 6;
    default: return 0;
    }
}

static uint64_t stake_account_fault(struct input *in, int k) {
    if (k < IMAGE) return image_fault(in, k);
    switch (k - IMAGE) {
    case 0: in->has_old = 1, in->old_len = 1; return 4;
    case 1: in->has_old = 1, in->old_len = 2313; return 4;
    case 2: in->has_old = 1, in->old_positions[9] = 3; return 4;
    case 3: in->new_len = 10; return 4;
    case 4: in->new_len = 2313; return 4;
    case 5: in->new_positions[3] = 2; return 4;
    case 6: set_key(in->publisher, ZERO); return 10;
    case 7: set_key(in->publisher, C); return 11;
    case 8: set_key(in->publisher, B), set_key(in->signer, STAKER); return 23;
    case 9: in->has_old = 0; return 26;
    case 10: set_key(in->old_account, STAKER); return 17;
    case 11: set_key(in->old_positions + 9 + 5, A); return 24;
    case 12: set_key(in->signer, STAKER); return 25;
    case 13: set_position(in->new_positions, 0, 2, 5, 0, 0, B), set_position(in->new_positions, 1, 2, 5, 0, 0, A), in->new_len = 18; return 27;
    default: return 0;
    }
}

/* Weights don't add up to more than 64 bits and to 0 at once: 28 is ahead of 29 in the first cases, and of 13 in the others with all behind them. */
static uint64_t split_fault(struct input *in, int k) {
    switch (k) {
    case 0: set_equal(in, WEIGHTS + 1, 0); return 28;
    case 1: set_weights(in, 0, 0, 0), in->parts_len = 2; return 28;
    case 2: set_weights(in, 0, 0, 0), in->parts_len = 4; return 28;
    case 3: set_lens(in, 0, 1); return 28;
    case 4: set_lens(in, WEIGHTS + 1, WEIGHTS + 1); return 28;
    case 5: set_lens(in, WEIGHTS + 1, WEIGHTS); return 28;
    case 6: set_lens(in, WEIGHTS, WEIGHTS + 1); return 28;
    case 7: set_lens(in, WEIGHTS, WEIGHTS - 1); return 28;
    /* 64 in eight bits. */
    case 8: set_lens(in, 256 + WEIGHTS, 256 + WEIGHTS); return 28;
    case 9: set_lens(in, 3, 2); return 28;
    case 10: set_lens(in, 3, 4); return 28;
    case 11: set_lens(in, 3, 0); return 28;
    /* In 64 bits these come to 0, and the fourth to 5. */
    case 12: set_weights(in, HALF, HALF, 0); return 13;
    case 13: set_weights(in, 0, 1, MAX); return 13;
    case 14: set_weights(in, MAX, MAX, 2); return 13;
    case 15: set_weights(in, MAX, 1, 5); return 13;
    case 16: set_equal(in, WEIGHTS, (uint64_t)1 << 58); return 13;
    case 17: set_weights(in, 0, 0, 0); return 29;
    case 18: set_weights(in, 0, 0, 0), in->reward = 0; return 29;
    case 19: set_equal(in, 1, 0); return 29;
    case 20: set_equal(in, WEIGHTS, 0); return 29;
    case 21: set_lens(in, 0, 0); return 29;
    default: return 0;
    }
}

static uint64_t fault(enum function f, struct input *in, int k) {
    switch (f) {
    case FRESH: return fresh_fault(in, k);
    case ADVANCE: case FORECAST: return advance_fault(in, k);
    case PAYMENT: return payment_fault(in, k);
    case ADD: return add_fault(in, k);
    case REMOVE: return remove_fault(in, k);
    case POSITION_STATE: return position_state_fault(in, k);
    case CREATE_SLASH_EVENT: return create_slash_event_fault(in, k);
    case SLASH: return slash_fault(in, k);
    case FEE: return fee_fault(in, k);
    case STAKE_ACCOUNT: return stake_account_fault(in, k);
    case SPLIT: return split_fault(in, k);
    default: abort();
    }
}

static struct input in, before;

/* The call returns this number. A refused call writes nothing, an accepted one only pool, record, answer and parts. */
static void expect(enum function f, int k, const char *what, uint64_t number) {
    static const size_t answers[FUNCTIONS] = {0, 5, 1, 4, 0, 0, 1, 1, 0, 0, 0, 0};
    memcpy(&before, &in, sizeof in);
    uint64_t got = call(f, &in);
    if (got != number) {
        printf("%s, case %d, %s: %" PRIu64 " and not %" PRIu64 "\n", NAMES[f], k, what, got, number);
        exit(1);
    }
    if (number == 0) {
        memcpy(before.pool, in.pool, f == FORECAST || f == POSITION_STATE || f == SPLIT ? 0 : in.pool_len * sizeof *in.pool);
        memcpy(before.record, in.record, f == PAYMENT || f == SLASH ? sizeof in.record : 0);
        memcpy(before.answer, in.answer, answers[f] * sizeof *in.answer);
        memcpy(before.parts, in.parts, f == SPLIT ? in.parts_len * sizeof *in.parts : 0);
    }
    if (memcmp(&before, &in, sizeof in) != 0) {
        printf("%s, case %d, %s: another word changed\n", NAMES[f], k, what);
        exit(1);
    }
}

/* The good input is accepted; then every fault alone, and with all behind it. The numbers are printed in their order. */
static unsigned refusals(enum function f) {
    int faults = 0;
    uint64_t last = 0;
    char numbers[80] = "";
    good(f, &in);
    expect(f, -1, "good", 0);
    while (fault(f, &in, faults) != 0) {
        faults++;
    }
    for (int k = 0; k < faults; k++) {
        good(f, &in);
        uint64_t number = fault(f, &in, k);
        expect(f, k, "alone", number);
        good(f, &in);
        for (int j = faults - 1; j >= k; j--) {
            fault(f, &in, j);
        }
        expect(f, k, "with all behind it", number);
        if (number != last) {
            snprintf(numbers + strlen(numbers), sizeof numbers - strlen(numbers), " %" PRIu64, number);
        }
        last = number;
    }
    printf("%-19s %3d refusals:%s\n", NAMES[f], 2 * faults, numbers);
    return 2 * (unsigned)faults;
}

static unsigned accepted;

static void limit(enum function f, const char *what) {
    expect(f, -1, what, 0);
    accepted++;
}

/* Every state of a position, with ends of unlocking at the limits. */
static void states(void) {
    static const struct {
        uint64_t epoch, flag, start, unlocking, state;
    } cases[] = {
        {9, 1, MAX, 1, POOL_MIRROR_LOCKING}, /* the end is not looked at */
        {10, 0, MAX, 1, POOL_MIRROR_LOCKED}, /* nor the start */
        {MAX - 2, 1, MAX - 1, 1, POOL_MIRROR_PREUNLOCKING},
        {MAX - 1, 1, MAX - 1, 1, POOL_MIRROR_UNLOCKING},
        {MAX, 1, MAX - 1, 1, POOL_MIRROR_UNLOCKED},
        {MAX - 1, 1, 0, MAX, POOL_MIRROR_UNLOCKING},
        {MAX, 1, MAX, 0, POOL_MIRROR_UNLOCKED},
    };
    for (size_t i = 0; i < LEN(cases); i++) {
        good(POSITION_STATE, &in), in.now = cases[i].epoch, set_unlocking(&in, cases[i].start, cases[i].unlocking), in.positions[3] = cases[i].flag;
        limit(POSITION_STATE, "a state");
        if (in.answer[0] != cases[i].state) {
            printf("state %u: %" PRIu64 " and not %" PRIu64 "\n", (unsigned)i, in.answer[0], cases[i].state);
            exit(1);
        }
    }
}

/* Forecast and advance with custody below claimable: nothing is set aside, while the event is written with a y of 0, and totals roll. In the last two R
 * and claimable come to 2^64 - 1, and in the last custody covers them. A change to come of 7 goes above B's cap, so R is as in the good advance. */
static void drained(void) {
    static const struct {
        uint64_t claimable, custody, y, set_aside;
    } cases[] = {
        {50000, 49999, 0, 0},
        {50000, 0, 0, 0},
        {MAX - REWARDS, 0, 0, 0},
        {MAX - REWARDS, MAX, 10000, REWARDS},
    };
    static uint64_t words[WORDS];
    for (size_t i = 0; i < LEN(cases); i++) {
        const uint64_t y = cases[i].y, set_aside = cases[i].set_aside, answer[5] = {y, set_aside, 2, 0, 0};
        const uint64_t event[EVENT] = {20, y, 0, 0, 0, 0, 0, 0, 0, 1000000, 1000000, 0, 0, 500000, 0};
        good(ADVANCE, &in), in.pool[1] = cases[i].claimable, in.custody = cases[i].custody, in.pool[OTHERS + 3] = 7;
        memcpy(words, in.pool, sizeof words);
        words[0] = 21, words[1] += set_aside, words[OTHERS + 2] = 1007, words[OTHERS + 3] = 0, words[COUNT] = 3;
        memcpy(words + EVENTS + 2 * EVENT, event, sizeof event);
        limit(FORECAST, "custody and claimable");
        if (in.answer[0] != set_aside) {
            printf("custody and claimable %u: forecast %" PRIu64 " and not %" PRIu64 "\n", (unsigned)i, in.answer[0], set_aside);
            exit(1);
        }
        limit(ADVANCE, "custody and claimable");
        if (memcmp(in.answer, answer, sizeof answer) != 0 || memcmp(in.pool, words, sizeof words) != 0) {
            printf("custody and claimable %u: advance %" PRIu64 " %" PRIu64 ", or another pool\n", (unsigned)i, in.answer[0], in.answer[1]);
            exit(1);
        }
    }
}

static void expect_parts(const char *what, const uint64_t *parts) {
    limit(SPLIT, what);
    if (memcmp(in.parts, parts, in.parts_len * sizeof *parts) != 0) {
        printf("split, %s: other parts\n", what);
        exit(1);
    }
}

/* Rewards split by weights that add up to 2^64 - 1 and less, by one weight and by 64, and each part. */
static void splits(void) {
    static const struct {
        const char *what;
        uint64_t reward, weights[3], parts[3];
    } cases[] = {
        {"the sum of the weights", MAX, {HALF, HALF - 1, 0}, {HALF, HALF - 1, 0}},
        {"one less than the sum", MAX - 1, {HALF, HALF - 1, 0}, {HALF - 1, HALF - 1, 0}}, /* remainders 2^63 - 1 and 2^63 */
        {"one unit", 1, {1, 1, MAX - 2}, {0, 0, 1}},
        {"two units left, three equal remainders", MAX - 1, {1, 1, 1}, {MAX / 3, MAX / 3, MAX / 3 - 1}},
        {"weights of 0", MAX, {0, 1, 0}, {0, MAX, 0}},
        {"no reward", 0, {4, 11, 6}, {0, 0, 0}},
    };
    static uint64_t parts[WEIGHTS];
    for (size_t i = 0; i < LEN(cases); i++) {
        const uint64_t *weights = cases[i].weights;
        good(SPLIT, &in), in.reward = cases[i].reward, set_weights(&in, weights[0], weights[1], weights[2]);
        expect_parts(cases[i].what, cases[i].parts);
    }
    parts[0] = MAX;
    good(SPLIT, &in), in.reward = MAX, set_equal(&in, 1, 1), expect_parts("one weight", parts);
    good(SPLIT, &in), in.reward = MAX, set_equal(&in, WEIGHTS, (uint64_t)1 << 58), in.weights[WEIGHTS - 1]--;
    expect_parts("64 weights and the sum of them", in.weights);
    for (size_t i = 0; i < WEIGHTS; i++) {
        parts[i] = i < WEIGHTS - 1;
    }
    good(SPLIT, &in), in.reward = WEIGHTS - 1, set_equal(&in, WEIGHTS, 1), expect_parts("64 equal weights and 63 units", parts);
}

/* Input at the limits. */
static void limits(void) {
    static uint64_t full[POOL_MIRROR_IMAGE_LEN(1024, 52)];
    uint64_t answer[5];
    good(FRESH, &in), in.pool[COUNT] = MAX, limit(FRESH, "any n");
    good(FRESH, &in), in.epoch = MAX, limit(FRESH, "last epoch");
    good(ADVANCE, &in), set_rows(&in, 0), in.caps_len = 11, limit(ADVANCE, "no rows");
    good(ADVANCE, &in), in.caps_len = 40971, limit(ADVANCE, "bytes behind the rows");
    good(ADVANCE, &in), in.custody = 50000, limit(ADVANCE, "custody covers claimable");
    good(FORECAST, &in), in.custody = MAX, limit(FORECAST, "custody");
    good(PAYMENT, &in), in.positions_len = 0, limit(PAYMENT, "no positions");
    good(PAYMENT, &in), in.positions_len = 2304, limit(PAYMENT, "256 positions");
    good(PAYMENT, &in), in.pool[1] = 2000, limit(PAYMENT, "all that is claimable");
    good(PAYMENT, &in), set_key(in.publisher, B), in.has_publisher_account = 0, in.custody_flag = 0, limit(PAYMENT, "no account");
    good(ADD, &in), in.pool[OTHERS + 1] = HALF - 6, limit(ADD, "highest change");
    good(REMOVE, &in), in.pool[OTHERS + 1] = HALF + 5, limit(REMOVE, "lowest change");
    good(REMOVE, &in), in.state = POOL_MIRROR_LOCKING, limit(REMOVE, "LOCKING");
    good(REMOVE, &in), in.state = POOL_MIRROR_UNLOCKED, in.pool[OTHERS + 1] = HALF, limit(REMOVE, "UNLOCKED");
    good(CREATE_SLASH_EVENT, &in), in.pool[SLASHES] = in.index = MAX - 1, limit(CREATE_SLASH_EVENT, "index");
    good(SLASH, &in), in.locked = 999995, limit(SLASH, "all of the total");
    good(SLASH, &in), in.event_epoch = 19, in.index = MAX - 1, set_key(in.publisher, ZERO), limit(SLASH, "an older event");
    good(FEE, &in), in.fee = 1000000, limit(FEE, "fee");
    /* The list of an absent account is not looked at. */
    good(STAKE_ACCOUNT, &in), in.has_new = 0, in.new_len = 1, limit(STAKE_ACCOUNT, "none");
    good(STAKE_ACCOUNT, &in), set_key(in.publisher, B), set_key(in.signer, AUTHORITY), in.has_old = 0, in.old_len = 1;
    set_position(in.new_positions, 0, 2, 5, 0, 0, A), limit(STAKE_ACCOUNT, "first account");

    /* The largest pool, and the longest message: 1,024 rows take its 1,024 seats. */
    good(ADVANCE, &in), set_rows(&in, 1024), in.caps_len = 40971;
    for (uint64_t i = 0; i < 1024; i++) {
        const uint64_t key[4] = {(i + 1) >> 8 | ((i + 1) & 255) << 8, 0, 0, 0};
        set_row(&in, i, key, 1);
    }
    limit(ADVANCE, "1,024 rows, 2 seats");
    if (pool_mirror_fresh(full, LEN(full), 1024, 52, 21) != 0 || full[0] != 20 ||
        pool_mirror_advance(full, LEN(full), 1024, 52, 21, 10000, 0, 1, in.caps, in.caps_len, 604800, answer) != 0 || answer[3] != 1024 || full[0] != 21) {
        printf("the largest pool\n");
        exit(1);
    }
    accepted += 2;
}

int main(void) {
    unsigned tried = 0;
    for (int f = 0; f < FUNCTIONS; f++) {
        tried += refusals((enum function)f);
    }
    limits();
    drained();
    states();
    splits();
    printf("at the limits       %3u accepted\n", accepted);
    printf("bad_input: 12 functions, %u refusals, every word as it was\n", tried);
    return 0;
}
