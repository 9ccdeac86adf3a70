/* pool_mirror: the accounting of an oracle staking pool as a static library, for C99, C++ and every language that can call C on x86-64.
 *
 * A function returns 0 where the call is accepted, else the refusal's number (1 to 29, listed below). On a refusal pool, record, answer and parts are
 * as they were. What a function returns, answers and writes is proved for input of any content and length; what it can test, it doesn't ask of the caller.
 *
 * To link: target/staticlib/libpool_mirror.a (`./build library`), and a memcpy and a memset, which any C library has. clients/ has two
 * programs in C and in Rust that use it.
 *
 * What every caller keeps, since no function can test it:
 *
 * - A list is a pointer and its number of elements: `pool_len`, `positions_len`, `position_len`, `weights_len` and `parts_len` count 64-bit words,
 *   `caps_len` bytes. The pointer is aligned to its element (8 bytes for a word) and reaches that many elements, all of them initialised.
 * - An array with a length in its type (a key of 4 words, a record of 2, an answer of 1, 4 or 5) has that length, and is aligned to 8 bytes. No length is
 *   passed, so none is tested.
 * - No pointer is NULL: not that of an empty list, and not those of an absent account.
 * - `pool`, `record`, `answer` and `parts` overlap no other argument and not each other, and no other thread reads or writes them while the call runs.
 *   An overlap breaks the contract silently: no error, wrong figures. In a forecast the pool is const.
 * - const arguments may overlap each other, and nobody writes them while the call runs.
 * - The stack has POOL_MIRROR_STACK bytes left.
 *
 * The library keeps nothing between calls: it has no global or thread-local state, allocates nothing and makes no system call. So calls on different
 * pools may run at the same time.
 */
#ifndef POOL_MIRROR_H
#define POOL_MIRROR_H

#include <stddef.h>
#include <stdint.h>

#define POOL_MIRROR_VERSION "1.5.1"

#ifdef __cplusplus
extern "C" {
#endif

/* The image of a pool with p seats (1 to 1,024) and e events (1 to 52) is a list of words: 91 at 2 and 4, 174,551 at 1,024 and 52. With p seats of
 * publishers, s from 0, and slots t of the ring of events from 0, the words stand at
 *
 *   0                                last epoch: the epochs before it are passed
 *   1                                claimable: set aside and not paid yet
 *   2 + 4 s                          publisher's key, 4 words
 *   2 + 4 p + 2 s                    the stakers' total, and behind it its signed change in the next epoch (two's complement)
 *   2 + 6 p + 2 s                    the same for the publisher's own stake account
 *   2 + 8 p + 4 s                    key of the publisher's own stake account, 4 words, zero where it has none
 *   2 + 12 p + t (9 + 3 p)           event: epoch, y, 7 spare words, then for each seat self ratio, other ratio, fee
 *   2 + 12 p + e (9 + 3 p)           n, the number of events so far; the newest is in slot (n - 1) mod e
 *   3 + 12 p + e (9 + 3 p) + s       number of slash events
 *   3 + 13 p + e (9 + 3 p) + s       fee
 *
 * In the data of the on-chain account the image at 1,024 and 52 is the 1,396,408 bytes behind the first 8, as little-endian words:
 * `tail -c +9 account.data | head -c 1396408`. The account has 2,097,152 bytes (`PoolData::LEN`); those behind the image are no part of it. */
#define POOL_MIRROR_IMAGE_LEN(p, e) ((size_t)3 + (size_t)14 * (p) + (size_t)(e) * ((size_t)9 + (size_t)3 * (p)))
#define POOL_MIRROR_MAX_P 1024
#define POOL_MIRROR_MAX_E 52

/* Amounts count smallest token units; y, ratios and fees count millionths. A key is 32 bytes as four little-endian words. An account that
 * may be absent comes with a flag: 0 says that it is absent, any other number that it is there.
 *
 * A position is nine words: kind (0 empty, 1 voting, 2 pool), amount, activation epoch, start flag (0 or 1), epoch in which unlocking starts, the
 * publisher's key (4). An account has at most 256 positions, 2,304 words. In an empty one the other eight words are not looked at, but
 * they are there. */
#define POOL_MIRROR_KEY_LEN 4
#define POOL_MIRROR_POSITION_LEN 9
#define POOL_MIRROR_MAX_POSITIONS 256

/* A caps message is bytes: 0 a type byte, 1 to 8 the publish time in seconds (signed), 9 to 10 the number of rows, from 11 rows of a 32-byte key and an
 * 8-byte cap, numbers big-endian. It has 11 to 40,971 bytes and at most 1,024 rows; the keys ascend byte by byte, and none is zero. Bytes behind
 * the rows are not looked at. */
#define POOL_MIRROR_CAPS_LEN(rows) ((size_t)11 + (size_t)40 * (rows))
#define POOL_MIRROR_MAX_ROWS 1024

/* An account's record with one publisher is two words: its last epoch (the epochs before it are paid) and the index of the next slash event to apply.
 * A payment writes the first, a slash the second. A new record is 0 and 0. */
#define POOL_MIRROR_RECORD_LEN 2

/* A split has at most so many weights. */
#define POOL_MIRROR_MAX_WEIGHTS 64

/* Enough for every function, whatever its input. Measured: 62 KiB in advance and forecast, 4 in payment, less than 2 in split and than 1 in the others. */
#define POOL_MIRROR_STACK 131072

/* The state of a position: pool_mirror_position_state answers it, pool_mirror_remove takes it. Any other number is refused there where UNLOCKING is. */
enum pool_mirror_state {
    POOL_MIRROR_UNLOCKED = 0,
    POOL_MIRROR_LOCKING = 1,
    POOL_MIRROR_LOCKED = 2,
    POOL_MIRROR_PREUNLOCKING = 3,
    POOL_MIRROR_UNLOCKING = 4
};

/* Refusals. README.md says what to do about each. */
enum pool_mirror_refusal {
    POOL_MIRROR_INVALID_IMAGE = 1,                               /* pool_len, p, e, or n at 2^63 and above */
    POOL_MIRROR_INVALID_EPOCH = 2,                               /* an epoch of 0 seconds; fresh at epoch 0 */
    POOL_MIRROR_INVALID_PUBLISHER_CAPS = 3,                      /* the caps message: length, number of rows, order of keys, a zero key */
    POOL_MIRROR_INVALID_POSITIONS = 4,                           /* not whole nines, more than 256, a kind above 2, a flag above 1; state: not one, empty */
    POOL_MIRROR_INVALID_Y = 5,                                   /* y above 10,000 */
    POOL_MIRROR_INVALID_DELEGATION_FEE = 6,                      /* a fee above 1,000,000 */
    POOL_MIRROR_UNVERIFIED_PUBLISHER_CAPS = 7,                   /* verified is not 1 */
    POOL_MIRROR_POOL_DATA_ALREADY_UP_TO_DATE = 8,                /* the last epoch is the current one, or ahead of it */
    POOL_MIRROR_OUTDATED_PUBLISHER_CAPS = 9,                     /* the message's time is not in the current epoch */
    POOL_MIRROR_INVALID_PUBLISHER = 10,                          /* the publisher's key is zero */
    POOL_MIRROR_PUBLISHER_NOT_FOUND = 11,                        /* no seat has the publisher's key */
    POOL_MIRROR_OUTDATED_PUBLISHER_ACCOUNTING = 12,              /* the pool's last epoch is not the current one */
    POOL_MIRROR_DOES_NOT_FIT = 13,                               /* a number does not fit; each function says which */
    POOL_MIRROR_CLAIMABLE_OVER_CUSTODY = 14,                     /* never given: an advance with claimable above custody passes */
    POOL_MIRROR_UNEXPECTED_POSITION_STATE = 15,                  /* a remove in PREUNLOCKING, UNLOCKING or no state */
    POOL_MIRROR_PAYMENT_ABOVE_CLAIMABLE = 16,                    /* the payment is above claimable */
    POOL_MIRROR_PUBLISHER_STAKE_ACCOUNT_MISMATCH = 17,           /* the account given is not the seat's stake account */
    POOL_MIRROR_PUBLISHER_CUSTODY_ACCOUNT_REQUIRED = 18,         /* a publisher account without the custody flag */
    POOL_MIRROR_OUTDATED_DELEGATOR_ACCOUNTING = 19,              /* the record's last epoch is not the current one */
    POOL_MIRROR_WRONG_SLASH_EVENT_ORDER = 20,                    /* the slash event is not the record's next one */
    POOL_MIRROR_INVALID_SLASH_EVENT_INDEX = 21,                  /* the index is not the publisher's number of slash events */
    POOL_MIRROR_SLASH_EVENT_AHEAD_OF_NOW = 22,                   /* the slash event's epoch is ahead of the current one */
    POOL_MIRROR_PUBLISHER_OR_REWARD_AUTHORITY_NEEDS_TO_SIGN = 23, /* first stake account, signed by neither */
    POOL_MIRROR_CURRENT_STAKE_ACCOUNT_SHOULD_BE_UNDELEGATED = 24, /* the old account holds a position with this publisher */
    POOL_MIRROR_STAKE_ACCOUNT_OWNER_NEEDS_TO_SIGN = 25,          /* the signer is not the old account's owner */
    POOL_MIRROR_ACCOUNT_NOT_ENOUGH_KEYS = 26,                    /* the seat has a stake account, and no old account is given */
    POOL_MIRROR_NEW_STAKE_ACCOUNT_SHOULD_BE_UNDELEGATED = 27,    /* the new account holds a position with this publisher */
    POOL_MIRROR_INVALID_WEIGHTS = 28,                            /* more than 64 weights, or an output list of another length */
    POOL_MIRROR_ZERO_WEIGHT_SUM = 29                             /* the weights add up to 0, no weights included */
};

/* A new pool in `epoch`: every word 0 but the last epoch, which is epoch - 1. What the words held makes no difference.
 * Refusals: 1 (n is not looked at), 2 for epoch 0. */
uint64_t pool_mirror_fresh(uint64_t *pool, size_t pool_len, size_t p, size_t e, uint64_t epoch);

/* The epochs from the pool's last one up to the one before `current_epoch` are passed: rewards are set aside for them, stake that was added
 * or removed counts from here on, and new publishers of the message take the seats that are left.
 * y is the rate for one epoch, custody the balance of the reward custody, verified 1 for a verified message; epoch_duration is in seconds (604,800 on the
 * chain).
 * answer: y' (lower than y where custody does not cover it), the amount set aside, rows matched with a seat, rows newly seated, rows dropped.
 * Where claimable is above custody, y' is 0 and nothing is set aside; epochs pass and rows are seated as ever.
 * Refusals: 1, 2, 3, 5, 7, 8, 13 for a negative time, 9, 13 for a total outside 0 to 2^63 - 1, an eligible sum or a reward past 64 bits or n reaching
 * 2^63. */
uint64_t pool_mirror_advance(uint64_t *pool, size_t pool_len, size_t p, size_t e, uint64_t current_epoch, uint64_t y, uint64_t custody,
                             uint64_t verified, const uint8_t *caps, size_t caps_len, uint64_t epoch_duration, uint64_t answer[5]);

/* What such an advance would set aside, every passed epoch taken at the totals with their changes. An advance takes the first passed epoch at the totals
 * as they stand, so the two agree where no change is pending. Writes only answer: the amount set aside.
 * Refusals: those of advance, with the forecast's own sum. */
uint64_t pool_mirror_forecast(const uint64_t *pool, size_t pool_len, size_t p, size_t e, uint64_t current_epoch, uint64_t y, uint64_t custody,
                              uint64_t verified, const uint8_t *caps, size_t caps_len, uint64_t epoch_duration, uint64_t answer[1]);

/* An account's positions are paid what they have earned with one publisher since the record's last epoch, and the record moves to the current one.
 * `account` is the account that is paid. `publisher_account` is the one that gets the publisher's part: the seat's stake account, or absent
 * (has_publisher_account 0: its four words make no difference) where the seat has none. A custody_flag of 0 says that this account has no custody
 * account. `positions` are all positions of the account; those with other publishers are passed over. unlocking_duration is in epochs (1 on the chain).
 * answer: delegator's part, publisher's part, by how much custody falls (both parts with a publisher account, else the delegator's alone), and the
 * read count: for each position with this publisher the events from the newest back to the first one older than the record's last epoch, that one
 * included, at most the smaller of n and e. It counts them for each position, though the ring is read once for all. 0 says that no position is
 * with this publisher, or that n is 0. Claimable falls by both parts.
 * Refusals: 1, 4, 10, 11, 12, 13 for an end of unlocking, a slot's amount, a rate, a reward or both parts together past 64 bits or a publisher's
 * part above its reward, 16, 17, 18. */
uint64_t pool_mirror_payment(uint64_t *pool, size_t pool_len, size_t p, size_t e, uint64_t current_epoch, const uint64_t publisher[4],
                             const uint64_t account[4], uint64_t record[2], uint64_t has_publisher_account, const uint64_t publisher_account[4],
                             uint64_t custody_flag, const uint64_t *positions, size_t positions_len, uint64_t unlocking_duration,
                             uint64_t answer[4]);

/* An account's stake with a publisher grows by `amount` from the next epoch on. It stands on the publisher's own side where `account` is the seat's stake
 * account, the zero key for a seat that has none included.
 * Refusals: 1, 10, 11, 12, 13 for an amount or a change past 2^63 - 1. */
uint64_t pool_mirror_add(uint64_t *pool, size_t pool_len, size_t p, size_t e, uint64_t current_epoch, const uint64_t publisher[4],
                         const uint64_t account[4], uint64_t amount);

/* It falls by `amount` from the next epoch on if the position is LOCKED or LOCKING; UNLOCKED changes nothing. `state` is the position's in the current
 * epoch, as pool_mirror_position_state answers it.
 * Refusals: 1, 10, 11, 12, 13 for an amount past 2^63 - 1, 15, 13 for a change below -2^63. */
uint64_t pool_mirror_remove(uint64_t *pool, size_t pool_len, size_t p, size_t e, uint64_t current_epoch, const uint64_t publisher[4],
                            const uint64_t account[4], uint64_t amount, uint64_t state);

/* The state of one position in `epoch`: before its activation epoch LOCKING; then LOCKED if it has no start of unlocking, else PREUNLOCKING before the
 * start, UNLOCKING from there on for unlocking_duration epochs (1 on the chain), and UNLOCKED behind them. No pool is read. `position` is the nine words of
 * one position, voting or pool; its amount and key make no difference, and without the flag neither does the start.
 * answer: the state's number in enum pool_mirror_state, which is what pool_mirror_remove takes.
 * Refusals: 4 for any other number of words, a kind above 2, a flag above 1 and an empty position, which has no state; 13 for an end of unlocking past
 * 64 bits, from the activation epoch on. */
uint64_t pool_mirror_position_state(uint64_t epoch, const uint64_t *position, size_t position_len, uint64_t unlocking_duration, uint64_t answer[1]);

/* The publisher gets a slash event in the current epoch. Its index is the publisher's number of slash events so far.
 * answer: the slash event's epoch.
 * Refusals: 1, 10, 11, 21, 13 for a number of slash events past 64 bits. The pool need not be up to date. */
uint64_t pool_mirror_create_slash_event(uint64_t *pool, size_t pool_len, size_t p, size_t e, uint64_t current_epoch,
                                        const uint64_t publisher[4], uint64_t index, uint64_t answer[1]);

/* Slash event `index` of epoch `event_epoch` is applied to an account, which has been paid in the current epoch. It took `locked` from positions that
 * are LOCKED and `preunlocking` from those that are PREUNLOCKING: both leave the total, and preunlocking joins the change. The record's next index becomes
 * index + 1. An event older than the current epoch changes the record alone, and publisher, account and amounts are not looked at.
 * Refusals: 1, 19, 22, 20, 13 for index + 1 past 64 bits; then, for an event of the current epoch, 12, 10, 11, 13 for amounts above the total or a
 * change past 2^63 - 1. */
uint64_t pool_mirror_slash(uint64_t *pool, size_t pool_len, size_t p, size_t e, uint64_t current_epoch, const uint64_t publisher[4],
                           const uint64_t account[4], uint64_t record[2], uint64_t index, uint64_t event_epoch, uint64_t locked,
                           uint64_t preunlocking);

/* Every seat, empty ones included, gets this fee; events that are written already keep theirs.
 * Refusals: 1, 6. */
uint64_t pool_mirror_fee(uint64_t *pool, size_t pool_len, size_t p, size_t e, uint64_t fee);

/* A publisher's own stake account is set, changed, or with has_new 0 taken away. A first account needs the publisher's or the reward authority's
 * signature; a later one the old account, which is the seat's, and its owner's signature. With has_old or has_new 0 the account is absent, and
 * its words, the owner's and the list make no difference.
 * Refusals: 1, 4 for either list, 10, 11; then 23 if the seat has no account, else 26, 17, 24, 25; then 27. */
uint64_t pool_mirror_stake_account(uint64_t *pool, size_t pool_len, size_t p, size_t e, const uint64_t publisher[4], const uint64_t signer[4],
                                   const uint64_t authority[4], uint64_t has_old, const uint64_t old_account[4], const uint64_t old_owner[4],
                                   const uint64_t *old_positions, size_t old_positions_len, uint64_t has_new, const uint64_t new_account[4],
                                   const uint64_t *new_positions, size_t new_positions_len);

/* A reward is split among clients by weight, to the smallest unit: `weights` has each client's weight, and `parts`, of the same length, gets each client's
 * part in the same order. That is the reward times the weight over the sum of the weights, rounded down; the units left go one each to the clients with
 * the largest remainders, of equal ones to the earlier. The parts add up to the reward, and a weight of 0 gets 0. No pool is read.
 * Refusals: 28 for more than 64 weights or a parts_len that is not weights_len, 13 for a sum of the weights past 64 bits, 29 for a sum of 0. */
uint64_t pool_mirror_split(uint64_t reward, const uint64_t *weights, size_t weights_len, uint64_t *parts, size_t parts_len);

#ifdef __cplusplus
}
#endif

#endif
