//! The calls of a running table by hand, on `AtomicU64`s, with the same atomic steps in the same order.
//!
//! Usage: table TASK NAMES LEVEL MOST SEATS THREADS PASSES, as the program of the crate `table_bench`. It prints the same
//! two lines, and where it cleaned the table, the shortest time of that. A shape and a text are any, and each index is checked.
use std::sync::atomic::{AtomicU64, Ordering::SeqCst};
use std::time::Instant;

/// How many names a pass has at most.
const STRETCH: usize = 4096;
const COUNTER: u64 = 1;
const LEVEL: u64 = 3;
const NEW_LEVEL: u64 = 4;

type Name = [u8; 15];

fn mixed(number: u64) -> u64 {
    let bits = number.wrapping_add(1).wrapping_mul(0x9e37_79b9_7f4a_7c15);
    let bits = (bits ^ (bits >> 30)).wrapping_mul(0xbf58_476d_1ce4_e5b9);
    let bits = (bits ^ (bits >> 27)).wrapping_mul(0x94d0_49bb_1331_11eb);
    bits ^ (bits >> 31)
}

fn name_of(number: u64) -> Name {
    let mut bits = mixed(number);
    std::array::from_fn(|_| {
        let letter = b'a' + (bits & 15) as u8;
        bits >>= 4;
        letter
    })
}

fn names(first: u64, count: u64, jumps: u64) -> Vec<Name> {
    (0..count).map(|at| name_of(first + (at.wrapping_mul(jumps) & (count - 1)))).collect()
}

/// The words of a table, and where they stand.
struct Table {
    words: Vec<AtomicU64>,
    counted: bool,
    slots: u64,
    slot_words: u64,
    rows: u64,
    most: u64,
    slots_from: u64,
    sections: u64,
    section_step: u64,
    /// The buckets of the greatest row at which a section word stands.
    apart: u64,
}

/// A seat: its number, and the slot from which it looks for a free one.
struct Seat {
    number: u64,
    cursor: u64,
}

/// A text, and its hash, alone and with its length.
struct Text<'t> {
    bytes: &'t [u8],
    hash: u64,
    meta: u64,
}

impl Text<'_> {
    #[inline(always)]
    fn of(bytes: &[u8]) -> Text<'_> {
        let hash = bytes.iter().fold(0u32, |hash, byte| hash.wrapping_mul(31).wrapping_add(u32::from(*byte)));
        Text { bytes, hash: u64::from(hash), meta: u64::from(hash) << 16 | bytes.len() as u64 }
    }

    /// How many words the text has.
    #[inline(always)]
    fn words(&self) -> u64 {
        self.bytes.len().div_ceil(8) as u64
    }

    /// A word of the text.
    #[inline(always)]
    fn word(&self, at: u64) -> u64 {
        let rest = &self.bytes[8 * at as usize..];
        match rest.first_chunk::<8>() {
            Some(chunk) => u64::from_le_bytes(*chunk),
            None => {
                let mut whole = [0u8; 8];
                whole[..rest.len()].copy_from_slice(rest);
                u64::from_le_bytes(whole)
            }
        }
    }
}

/// What a look-up comes to.
enum Met {
    Hit(u64),
    Miss,
    Again,
}

/// What an intern comes to.
enum Interned {
    Created(u64),
    Taken,
    NoSlot,
    Again,
}

impl Table {
    fn new(counted: bool, slots: u64, text_words: u64, level: u64, most: u64, seats: u64) -> Table {
        let slot_words = 4 + text_words;
        let heads_from = 5 + seats;
        let slots_from = heads_from + (2 << most) - (1 << level);
        let spread = 8 * (seats + 1) <= 1 << most;
        let greatest = heads_from + (1 << most) - (1 << level);
        let mut words = Vec::new();
        words.resize_with((slots_from + slots * slot_words) as usize, || AtomicU64::new(0));
        words[LEVEL as usize] = AtomicU64::new(level);
        Table {
            words,
            counted,
            slots,
            slot_words,
            rows: heads_from.wrapping_sub(1 << level),
            most,
            slots_from,
            sections: if spread { greatest + 8 } else { 5 },
            section_step: if spread { 8 } else { 1 },
            apart: if spread { 8 * (seats + 1) } else { 0 },
        }
    }

    #[inline(always)]
    fn at(&self, at: u64) -> &AtomicU64 {
        &self.words[at as usize]
    }

    #[inline(always)]
    fn load(&self, at: u64) -> u64 {
        self.at(at).load(SeqCst)
    }

    #[inline(always)]
    fn swap(&self, at: u64, word: u64) {
        self.at(at).swap(word, SeqCst);
    }

    #[inline(always)]
    fn exchange(&self, at: u64, old: u64, new: u64) -> bool {
        self.at(at).compare_exchange(old, new, SeqCst, SeqCst).is_ok()
    }

    #[inline(always)]
    fn slot(&self, slot: u64) -> u64 {
        self.slots_from + slot * self.slot_words
    }

    #[inline(always)]
    fn head(&self, level: u64, hash: u64) -> u64 {
        let bucket = hash & ((1 << level) - 1);
        if level == self.most && bucket < self.apart && bucket % 8 == 0 && bucket > 0 {
            4 + bucket / 8
        } else {
            self.rows + (1 << level) + bucket
        }
    }

    /// Opens the seat's section, and finds the head of the hash: where it stands, and what it is.
    #[inline(always)]
    fn enter(&self, seat: &Seat, hash: u64) -> (u64, u64) {
        let counter = self.load(COUNTER);
        self.swap(self.sections + seat.number * self.section_step, counter + 1);
        let at = self.head(self.load(LEVEL), hash);
        let head = self.load(at);
        if head & 2 == 0 {
            return (at, head);
        }
        let at = self.head(self.load(NEW_LEVEL) - 1, hash);
        (at, self.load(at))
    }

    #[inline(always)]
    fn leave(&self, seat: &Seat) {
        self.swap(self.sections + seat.number * self.section_step, 0);
    }

    #[inline(always)]
    fn has_text(&self, slot: u64, text: &Text) -> bool {
        self.load(slot + 3) == text.meta && (0..text.words()).all(|at| self.load(slot + 4 + at) == text.word(at))
    }

    /// Walks the chain: whether it met an entry whose count it could raise.
    #[inline(always)]
    fn walk(&self, head: u64, text: &Text) -> Met {
        let mut link = head >> 2;
        while link != 0 {
            let slot = self.slot(link - 1);
            if self.has_text(slot, text) {
                let count = self.load(slot + 2);
                let holds = count & 0xffff;
                if holds != 0 {
                    let more = count + u64::from(holds != 0xffff);
                    let is_raised = !self.counted || self.exchange(slot + 2, count, more);
                    return if is_raised { Met::Hit(link - 1) } else { Met::Again };
                }
            }
            link = self.load(slot + 1);
        }
        Met::Miss
    }

    fn look_up(&self, seat: &Seat, name: &[u8]) -> Met {
        let text = Text::of(name);
        let (_, head) = self.enter(seat, text.hash);
        let met = self.walk(head, &text);
        self.leave(seat);
        met
    }

    /// Claims a slot, fills it, and puts it at the head of its bucket.
    #[inline(always)]
    fn insert(&self, seat: &mut Seat, text: &Text, at: u64, head: u64) -> Interned {
        let from = seat.cursor;
        let mut free = from;
        while !self.exchange(self.slot(free), 0, 1) {
            free = if free + 1 == self.slots { 0 } else { free + 1 };
            if free == from {
                return Interned::NoSlot;
            }
        }
        seat.cursor = if free + 1 == self.slots { 0 } else { free + 1 };
        let slot = self.slot(free);
        let count = self.load(slot + 2);
        self.swap(slot + 3, text.meta);
        for at in 0..text.words() {
            self.swap(slot + 4 + at, text.word(at));
        }
        self.swap(slot + 1, head >> 2);
        self.swap(slot + 2, count + 1);
        if self.exchange(at, head, (free + 1) << 2) {
            return Interned::Created(free);
        }
        self.swap(slot + 2, count);
        self.swap(slot, 0);
        Interned::Again
    }

    fn intern(&self, seat: &mut Seat, name: &[u8]) -> Interned {
        let text = Text::of(name);
        let (at, head) = self.enter(seat, text.hash);
        let met = match self.walk(head, &text) {
            Met::Hit(_) => Interned::Taken,
            Met::Again => Interned::Again,
            Met::Miss if head & 1 == 1 => Interned::Again,
            Met::Miss => self.insert(seat, &text, at, head),
        };
        self.leave(seat);
        met
    }

    #[inline(always)]
    fn let_go(&self, slot: u64) -> bool {
        let at = self.slot(slot) + 2;
        let count = self.load(at);
        count & 0xffff != 0xffff && self.exchange(at, count, count - 1)
    }

    /// Takes the dead entries out, while nobody calls the table.
    fn clean(&mut self, level: u64) {
        for bucket in 0..1u64 << level {
            let mut at = self.head(level, bucket);
            let mut shift = 2;
            loop {
                let link = self.load(at) >> shift;
                if link == 0 {
                    break;
                }
                let slot = self.slot(link - 1);
                if self.load(slot + 2) & 0xffff == 0 {
                    let next = self.load(slot + 1);
                    self.swap(at, next << shift);
                    self.swap(slot + 2, (self.load(slot + 2) >> 16).wrapping_add(1) << 16);
                    self.swap(slot, 0);
                } else {
                    at = slot + 1;
                    shift = 0;
                }
            }
        }
    }
}

/// With how many names a task was done, and at how many of them another thread was faster.
#[derive(Clone, Copy, Default)]
struct Tally {
    met: u64,
    lost: u64,
}

impl Tally {
    fn plus(self, more: Tally) -> Tally {
        Tally { met: self.met + more.met, lost: self.lost + more.lost }
    }
}

#[inline(never)]
fn find(table: &Table, seat: &Seat, names: &[Name]) -> Tally {
    let met = names.iter().filter(|name| matches!(table.look_up(seat, &name[..]), Met::Hit(_))).count();
    Tally { met: met as u64, lost: 0 }
}

#[inline(never)]
fn take(table: &Table, seat: &Seat, names: &[Name]) -> Tally {
    let (mut met, mut lost) = (0, 0);
    for name in names {
        match table.look_up(seat, &name[..]) {
            Met::Hit(_) => met += 1,
            Met::Again => lost += 1,
            Met::Miss => {}
        }
    }
    Tally { met: met + lost, lost }
}

#[inline(never)]
fn hold(table: &Table, seat: &Seat, names: &[Name]) -> Tally {
    let (mut met, mut lost) = (0, 0);
    for name in names {
        match table.look_up(seat, &name[..]) {
            Met::Hit(slot) => {
                table.let_go(slot);
                met += 1;
            }
            Met::Again => lost += 1,
            Met::Miss => {}
        }
    }
    Tally { met: met + lost, lost }
}

#[inline(never)]
fn make(table: &Table, seat: &mut Seat, names: &[Name]) -> Tally {
    let (mut met, mut lost) = (0, 0);
    for name in names {
        match table.intern(seat, &name[..]) {
            Interned::Created(slot) => {
                table.let_go(slot);
                met += 1;
            }
            Interned::Again => lost += 1,
            Interned::Taken | Interned::NoSlot => {}
        }
    }
    Tally { met: met + lost, lost }
}

/// The names of a pass: a stretch of the list, and in the next pass the next one.
fn stretch(names: &[Name], pass: usize) -> &[Name] {
    let from = pass % (names.len() / STRETCH).max(1) * STRETCH;
    names.get(from..from + STRETCH).unwrap_or(names)
}

/// The line from which threads start together.
struct Line {
    threads: u64,
    made: Instant,
    came: AtomicU64,
}

/// Starts with the other threads, and does the task with each name: what came of it, and its start and end.
fn turn(table: &Table, seat: &mut Seat, task: &str, names: &[Name], line: &Line) -> (Tally, u128, u128) {
    line.came.fetch_add(1, SeqCst);
    while line.came.load(SeqCst) < line.threads {
        std::hint::spin_loop();
    }
    let start = line.made.elapsed().as_nanos();
    let tally = match task {
        "find" | "miss" => find(table, seat, names),
        "take" => take(table, seat, names),
        "hold" => hold(table, seat, names),
        _ => make(table, seat, names),
    };
    (tally, start, line.made.elapsed().as_nanos())
}

/// All threads do the task: what came of it, and the time from the first start to the last end.
fn pass(table: &Table, seats: &mut [Seat], task: &str, lists: &[Vec<Name>], pass: usize) -> (Tally, u128) {
    let line = &Line { threads: lists.len() as u64, made: Instant::now(), came: AtomicU64::new(0) };
    std::thread::scope(|scope| {
        let mut parts = seats.iter_mut().zip(lists.iter().map(|list| stretch(list, pass)));
        let own = parts.next();
        let others: Vec<_> = parts.map(|(seat, names)| scope.spawn(move || turn(table, seat, task, names, line))).collect();
        let own = own.map(|(seat, names)| turn(table, seat, task, names, line));
        let done = others.into_iter().map(|thread| thread.join().expect("a thread ends")).chain(own);
        let (tally, first, last) = done.fold((Tally::default(), u128::MAX, 0), |(tally, first, last), (more, start, end)| {
            (tally.plus(more), first.min(start), last.max(end))
        });
        (tally, last - first)
    })
}

fn main() {
    let words: Vec<String> = std::env::args().skip(1).collect();
    let number = |at: usize| words[at].parse::<u64>().expect("a number");
    let (task, live, level, most) = (words[0].as_str(), number(1), number(2), number(3));
    let (seats, threads) = (number(4), number(5));
    let counted = matches!(task, "take" | "hold" | "make");
    let mut table = Table::new(counted, live * 3, 2, level, most, seats);
    let mut seats: Vec<Seat> = (0..threads).map(|number| Seat { number, cursor: number * (live * 3 / seats) }).collect();
    let mut filled = 0;
    for name in names(0, live, 1) {
        filled += u64::from(matches!(table.intern(&mut seats[0], &name), Interned::Created(_)));
    }
    let share = if task == "make" { live / 4 } else { live };
    let first = |at: u64| if matches!(task, "miss" | "make") { live + at * share } else { 0 };
    let lists: Vec<Vec<Name>> = (0..threads).map(|at| names(first(at), share, 0x6d2b_79f5 + 2 * at)).collect();
    let rounds = (share as usize / STRETCH).max(1);
    let (mut tally, mut least, mut clean) = (Tally::default(), u128::MAX, u128::MAX);
    for number in 0..number(6) as usize {
        let (more, nanos) = pass(&table, &mut seats, task, &lists, number);
        tally = tally.plus(more);
        least = least.min(nanos);
        if task == "make" && (number + 1) % rounds == 0 {
            let start = Instant::now();
            table.clean(level);
            clean = clean.min(start.elapsed().as_nanos());
        }
    }
    println!("filled={filled} met={}", tally.met);
    println!("nanos={least} names={} lost={}", share.min(STRETCH as u64), tally.lost);
    if task == "make" {
        println!("clean={clean}");
    }
}
