//! The ledger of a client: a small pool from its first epoch on, every call booked and checked. clients/README.md has the arithmetic.
//! Ends with status 1 and a message where a call is refused or a check does not hold.
mod pool_mirror;

use pool_mirror::{image_len, position_state, split, state_name, Account, Given, Key, Pool, MAX_WEIGHTS};

const P: usize = 4;
const E: usize = 4;
const Y: u64 = 10_000;
const EPOCH_SECONDS: u64 = 604_800;
const UNLOCKING: u64 = 1;

/// A publisher or an account: its name in the book, its 32 bytes, and these as the four words of a key.
struct Named {
    name: &'static str,
    bytes: [u8; 32],
    key: Key,
}

/// One of the clients who share an account: name, weight, and what the book has for it.
struct Client {
    name: &'static str,
    weight: u64,
    booked: u64,
}

struct Book {
    words: Vec<u64>,
    now: u64,
    custody: u64,
    set_aside: u64,
    paid: u64,
    // What moved custody, which starts at 0; fallen is the sum of the falls that payments answered.
    deposited: u64,
    withdrawn: u64,
    fallen: u64,
    entries: u32,
    call: String,
}

fn named(name: &'static str, first: u8, rest: u8) -> Named {
    let mut bytes = [rest; 32];
    bytes[0] = first;
    let mut key = [0; 4];
    for (i, byte) in bytes.iter().enumerate() {
        key[i / 8] |= u64::from(*byte) << (8 * (i % 8));
    }
    Named { name, bytes, key }
}

/// A caps message of an epoch. The rows ascend by the bytes of their keys.
fn caps_message(epoch: u64, publishers: &[Named], caps: &[u64]) -> Vec<u8> {
    let mut message = vec![2];
    message.extend((epoch * EPOCH_SECONDS).to_be_bytes());
    message.extend((publishers.len() as u16).to_be_bytes());
    for (publisher, cap) in publishers.iter().zip(caps) {
        message.extend(publisher.bytes);
        message.extend(cap.to_be_bytes());
    }
    message
}

/// A position, with a start of unlocking unless that is 0.
fn position(publisher: &Named, amount: u64, activation: u64, start: u64) -> [u64; 9] {
    let k = publisher.key;
    [2, amount, activation, (start != 0).into(), start, k[0], k[1], k[2], k[3]]
}

impl Book {
    fn pool(&mut self) -> Pool<'_> {
        Pool { words: &mut self.words, p: P, e: E }
    }

    fn fail(&self, what: &str) -> ! {
        eprintln!("ledger: epoch {}, {}: {}", self.now, self.call, what);
        std::process::exit(1)
    }

    fn check(&self, holds: bool, what: &str) {
        if !holds {
            self.fail(what);
        }
    }

    fn accepted<T>(&self, answer: Result<T, u64>) -> T {
        answer.unwrap_or_else(|number| self.fail(&format!("refused {number}")))
    }

    /// One line of the book. What the pool owes is what was set aside less what was paid, and custody covers it as long as nothing was withdrawn.
    fn entry(&mut self, answer: &str) {
        let claimable = self.words[1];
        let left = self.deposited.checked_sub(self.withdrawn + self.fallen);
        self.check(self.set_aside.checked_sub(self.paid) == Some(claimable), "claimable is not what was set aside less what was paid");
        self.check(claimable <= self.custody || self.withdrawn > 0, "claimable is above custody, and nothing was withdrawn");
        self.check(left == Some(self.custody), "custody is not what came in less what went out");
        println!(
            "{:5}  {:<30}  {:<40} {:8} {:10} {:8} {:10}",
            self.now, self.call, answer, self.custody, self.set_aside, self.paid, claimable
        );
        self.entries += 1;
    }

    /// The same for a call that has no answer but its number.
    fn plain(&mut self, answer: Result<(), u64>) {
        self.accepted(answer);
        self.entry("-");
    }

    /// Whether a side of some seat has a change that counts from the next epoch on.
    fn changes_to_come(&self) -> bool {
        (0..P).any(|s| self.words[2 + 4 * P + 2 * s + 1] != 0 || self.words[2 + 6 * P + 2 * s + 1] != 0)
    }

    /// What the token side does with a withdrawal or a payment: it refuses one that would lower custody by more than it holds.
    fn lowered(&mut self, by: u64) -> bool {
        let left = self.custody.checked_sub(by);
        self.custody = left.unwrap_or(self.custody);
        left.is_some()
    }

    fn deposit(&mut self, amount: u64) {
        self.call = format!("deposit {amount}");
        self.custody += amount;
        self.deposited += amount;
        self.plain(Ok(()));
    }

    fn withdraw(&mut self, amount: u64) {
        let made = self.lowered(amount);
        self.call = format!("withdraw {amount}");
        self.withdrawn += if made { amount } else { 0 };
        self.entry(if made { "-" } else { "not made" });
    }

    /// A forecast, then the advance. The forecast takes every passed epoch at the totals with their changes, the advance the first one without: the
    /// two agree where no change is to come, and where custody is below claimable, since nothing is set aside then.
    fn advance(&mut self, now: u64, publishers: &[Named], caps: &[u64]) {
        let message = caps_message(now, publishers, caps);
        let given = Given { current_epoch: now, y: Y, custody: self.custody, verified: 1, caps: &message, epoch_duration: EPOCH_SECONDS };
        let (changes, before) = (self.changes_to_come(), self.words[1]);
        self.now = now;
        self.call = "forecast".to_string();
        let said = self.pool().forecast(given);
        let said = self.accepted(said);
        self.entry(&format!("set aside {}{}", said[0], if changes { ", changes to come" } else { "" }));
        self.call = "advance".to_string();
        let done = self.pool().advance(given);
        let done = self.accepted(done);
        let claimable = self.words[1];
        self.check(said[0] == done[1] || (changes && before <= self.custody), "the forecast said another amount");
        self.check(claimable <= self.custody || claimable <= before, "claimable is above custody, and above what it was");
        self.set_aside += done[1];
        self.entry(&format!("y {}, set aside {}, rows {} {} {}", done[0], done[1], done[2], done[3], done[4]));
        let again = self.pool().advance(given);
        self.check(again == Err(8), "a second advance in the epoch is not refused with 8");
    }

    /// `own` is the publisher's stake account, if it has one. Pool and record are copied before the call: they stay as they were where the token side
    /// refuses what is to be moved. Answers what the account was paid, 0 where the payment is not made.
    fn payment(&mut self, publisher: &Named, own: Option<&Named>, account: &Named, record: &mut [u64; 2], positions: &[[u64; 9]]) -> u64 {
        let (now, key, flag) = (self.now, own.map(|own| &own.key), own.is_some().into());
        self.call = format!("payment {} {}", publisher.name, account.name);
        let (mut words, mut next) = (self.words.clone(), *record);
        let mut pool = Pool { words: &mut words, p: P, e: E };
        let paid = pool.payment(now, &publisher.key, &account.key, &mut next, key, flag, positions.as_flattened(), UNLOCKING);
        let paid = self.accepted(paid);
        self.check(next[0] == now, "the record is not in the current epoch");
        // The tokens that leave custody; that the answer says the same is checked in the entry.
        let made = self.lowered(paid[0] + if own.is_some() { paid[1] } else { 0 });
        if made {
            (self.words, *record) = (words, next);
            self.paid += paid[0] + paid[1];
            self.fallen += paid[2];
            self.entry(&format!("{} + {}, custody -{}, reads {}", paid[0], paid[1], paid[2], paid[3]));
        } else {
            self.entry(&format!("not made: custody -{}", paid[2]));
        }
        if made { paid[0] } else { 0 }
    }

    /// What an account was paid is booked to the clients who share it, each one's part by its weight.
    fn split(&mut self, publisher: &Named, account: &Named, reward: u64, clients: &mut [Client]) {
        let weights: Vec<u64> = clients.iter().map(|client| client.weight).collect();
        let (mut parts, mut left, mut told) = ([0; MAX_WEIGHTS], reward, Vec::new());
        let parts = &mut parts[..clients.len()];
        self.call = format!("split {} {} {}", publisher.name, account.name, reward);
        self.accepted(split(reward, &weights, parts));
        for (client, part) in clients.iter_mut().zip(parts) {
            self.check(*part <= left, "the parts are more than the reward");
            left -= *part;
            client.booked += *part;
            told.push(format!("{} {}", client.name, part));
        }
        self.check(left == 0, "the parts are less than the reward");
        self.entry(&told.join(", "));
    }

    fn shared_payment(
        &mut self, publisher: &Named, own: Option<&Named>, account: &Named, record: &mut [u64; 2], positions: &[[u64; 9]], clients: &mut [Client],
    ) {
        let reward = self.payment(publisher, own, account, record, positions);
        self.split(publisher, account, reward, clients);
    }

    fn add(&mut self, publisher: &Named, account: &Named, amount: u64) {
        let now = self.now;
        self.call = format!("add {} {} {}", publisher.name, account.name, amount);
        let answer = self.pool().add(now, &publisher.key, &account.key, amount);
        self.plain(answer);
    }

    /// The state of one position of a list in the current epoch.
    fn state(&mut self, publisher: &Named, account: &Named, position: &[u64; 9]) -> u64 {
        self.call = format!("state {} {} {}", publisher.name, account.name, position[1]);
        let [state] = self.accepted(position_state(self.now, position, UNLOCKING));
        self.entry(state_name(state));
        state
    }

    /// A position or a part of it is taken back, in the state that it is in.
    fn remove(&mut self, publisher: &Named, account: &Named, amount: u64, position: &[u64; 9]) {
        let (now, state) = (self.now, self.state(publisher, account, position));
        self.call = format!("remove {} {} {} {}", publisher.name, account.name, amount, state_name(state));
        let answer = self.pool().remove(now, &publisher.key, &account.key, amount, state);
        self.plain(answer);
    }

    /// The publisher's first slash event, number 0, and what it takes from an account.
    fn slash_event(&mut self, publisher: &Named) {
        let now = self.now;
        self.call = format!("create-slash-event {} 0", publisher.name);
        let epoch = self.pool().create_slash_event(now, &publisher.key, 0);
        let epoch = self.accepted(epoch);
        self.entry(&format!("epoch {}", epoch[0]));
    }

    fn slash(&mut self, publisher: &Named, account: &Named, record: &mut [u64; 2], locked: u64, preunlocking: u64) {
        let now = self.now;
        self.call = format!("slash {} {} {} {}", publisher.name, account.name, locked, preunlocking);
        let answer = self.pool().slash(now, &publisher.key, &account.key, record, 0, now, locked, preunlocking);
        self.accepted(answer);
        self.entry(&format!("next slash event {}", record[1]));
    }

    fn fresh(&mut self, epoch: u64) {
        self.now = epoch;
        self.call = format!("fresh {epoch}");
        let answer = self.pool().fresh(epoch);
        self.plain(answer);
    }

    fn fee(&mut self, millionths: u64) {
        self.call = format!("fee {millionths}");
        let answer = self.pool().fee(millionths);
        self.plain(answer);
    }

    /// The publisher's first one: the publisher signs, there is no old account, and the new one has no positions yet.
    fn stake_account(&mut self, publisher: &Named, own: &Named) {
        let new = Account { key: own.key, owner: own.key, positions: &[] };
        self.call = format!("stake-account {} {}", publisher.name, own.name);
        let answer = self.pool().stake_account(&publisher.key, &publisher.key, &[0; 4], None, Some(new));
        self.plain(answer);
    }

    /// The words of the seats, by their places in the image.
    fn seats(&self, publishers: &[Named]) {
        let w = &self.words;
        let slashes = 3 + 12 * P + E * (9 + 3 * P);
        println!("\nseat   stakers      own     fee  slash events");
        for (s, publisher) in publishers.iter().enumerate() {
            self.check(w[2 + 4 * s..6 + 4 * s] == publisher.key, "another publisher has the seat");
            let (stakers, own) = (w[2 + 4 * P + 2 * s], w[2 + 6 * P + 2 * s]);
            println!("{:<4} {:9} {:8} {:7} {:13}", publisher.name, stakers, own, w[slashes + P + s], w[slashes + s]);
        }
    }
}

fn main() {
    // As little-endian words A's key would be above B's: the order is that of the bytes.
    let p = [named("A", 0x11, 0xaa), named("B", 0x22, 0x33), named("C", 0x44, 0x00)];
    let (own, sam, eve) = (named("own", 0x55, 0x01), named("sam", 0x66, 0x02), named("eve", 0x77, 0x03));
    let [a, b, _] = &p;
    let caps = [1_000_000, 300_000, 100_000];
    let (mut own_a, mut sam_a, mut sam_b, mut eve_a) = ([0, 0], [0, 0], [0, 0], [0, 0]);
    let mut clients = [("ann", 4), ("bob", 11), ("cid", 6)].map(|(name, weight)| Client { name, weight, booked: 0 });
    let mut book = Book {
        words: vec![0; image_len(P, E)],
        now: 0,
        custody: 0,
        set_aside: 0,
        paid: 0,
        deposited: 0,
        withdrawn: 0,
        fallen: 0,
        entries: 0,
        call: String::new(),
    };

    println!("{:>5}  {:<30}  {:<40} {:>8} {:>10} {:>8} {:>10}", "epoch", "call", "answer", "custody", "set aside", "paid", "claimable");
    book.fresh(100);
    book.deposit(25_000);
    book.advance(100, &p[..2], &caps);
    book.fee(200_000);
    book.stake_account(a, &own);

    // The stake counts from epoch 101 on.
    book.add(a, &own, 400_000);
    book.add(a, &sam, 500_000);
    book.add(a, &eve, 300_000);
    book.add(b, &sam, 200_000);
    let owns = [position(a, 400_000, 101, 0)];
    let sams = [position(a, 500_000, 101, 0), position(b, 200_000, 101, 0)];
    let eves = [position(a, 300_000, 101, 0)];
    book.advance(101, &p[..2], &caps);
    book.advance(103, &p[..2], &caps);

    // Custody covers less than half of epoch 103's rewards: y is lowered. Three clients share sam's account.
    book.deposit(4_999);
    book.advance(104, &p[..2], &caps);
    book.shared_payment(a, Some(&own), &sam, &mut sam_a, &sams, &mut clients);
    book.payment(a, Some(&own), &own, &mut own_a, &owns);
    book.shared_payment(b, None, &sam, &mut sam_b, &sams, &mut clients);
    book.payment(a, Some(&own), &eve, &mut eve_a, &eves);

    // eve takes a third back; then a tenth of all stake with A is slashed.
    book.remove(a, &eve, 100_000, &eves[0]);
    book.slash_event(a);
    book.slash(a, &sam, &mut sam_a, 50_000, 0);
    book.slash(a, &eve, &mut eve_a, 20_000, 10_000);
    book.slash(a, &own, &mut own_a, 40_000, 0);
    let owns = [position(a, 360_000, 101, 0)];
    let sams = [position(a, 450_000, 101, 0), position(b, 200_000, 101, 0)];
    let eves = [position(a, 180_000, 101, 0), position(a, 90_000, 101, 105)];
    book.deposit(50_000);
    book.advance(105, &p[..2], &caps);
    book.shared_payment(a, Some(&own), &sam, &mut sam_a, &sams, &mut clients);
    book.payment(a, Some(&own), &eve, &mut eve_a, &eves);

    // A third publisher takes a seat. What eve took back earned nothing in epoch 105, and is free now.
    book.advance(106, &p, &caps);
    book.payment(a, Some(&own), &eve, &mut eve_a, &eves);
    book.remove(a, &eve, 90_000, &eves[1]);
    let eves = [eves[0]];

    // The sponsor withdraws, which leaves less than claimable. Epoch 106 passes, and earns nothing.
    book.add(b, &sam, 100_000);
    let sams = [sams[0], sams[1], position(b, 100_000, 107, 0)];
    book.withdraw(42_805);
    book.withdraw(39_604);
    book.advance(107, &p, &caps);
    book.payment(a, Some(&own), &own, &mut own_a, &owns);
    book.payment(a, Some(&own), &eve, &mut eve_a, &eves);
    book.shared_payment(b, None, &sam, &mut sam_b, &sams, &mut clients);

    // Custody is filled again: epoch 107 earns as ever, and what waited is paid.
    book.deposit(50_000);
    book.advance(108, &p, &caps);
    book.payment(a, Some(&own), &own, &mut own_a, &owns);
    book.shared_payment(a, Some(&own), &sam, &mut sam_a, &sams, &mut clients);
    book.payment(a, Some(&own), &eve, &mut eve_a, &eves);
    book.shared_payment(b, None, &sam, &mut sam_b, &sams, &mut clients);
    book.seats(&p);
    println!("\nclient  weight    booked");
    for client in &clients {
        println!("{:<6} {:7} {:9}", client.name, client.weight, client.booked);
    }
    println!("\ncustody: deposited {}, withdrawn {}, payments {}", book.deposited, book.withdrawn, book.fallen);
    println!("\nledger: {} entries, every check held", book.entries);
}
