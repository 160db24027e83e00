//! Writes the fixed list of the Rust's answers to standard output, and what it covers to standard error.
//!
//! Every answer comes from the original, `docs/src/src/list.rs`, compiled as it stands (tests/original): nothing here computes what a call leaves. A call
//! is tried on a copy of the pool first, and is left out where paper 01 refuses it: a position or range outside the list (4), slots that clash (5), or more
//! words than the lent pool has (7). The list's format is in `docs/RUST-ANSWERS.md`. The same seed gives the same list on every machine.

use original::{list, EntityRef, Word};
use std::fmt::Write;

type List = list::EntityList<Word>;
type Pool = list::ListPool<Word>;

/// The cells of the state, as the list numbers them.
const HEADS: usize = 1;
const HANDLES: usize = 16;
const WORDS: usize = 32;

/// The most words that a pool is lent, and the most slots.
const MOST_WORDS: usize = 65_536;
const MOST_SLOTS: usize = 16;

/// The names of the calls, by their codes.
const NAMES: [&str; 22] = [
    "a new pool",
    "from_slice",
    "is_empty",
    "len",
    "is_valid",
    "as_slice",
    "get",
    "first",
    "as_mut_slice",
    "get_mut",
    "deep_clone",
    "clear",
    "take",
    "push",
    "extend",
    "copy_from",
    "insert",
    "remove",
    "swap_remove",
    "truncate",
    "grow_at",
    "clear_pool",
];

/// A call with its arguments.
#[derive(Clone)]
enum Call {
    NewPool(usize, usize),
    FromSlice(usize, Vec<u32>),
    IsEmpty(usize),
    Len(usize),
    IsValid(usize),
    AsSlice(usize),
    Get(usize, usize),
    First(usize),
    AsMutSlice(usize, Vec<u32>),
    GetMut(usize, usize, u32),
    DeepClone(usize, usize),
    Clear(usize),
    Take(usize, usize),
    Push(usize, u32),
    Extend(usize, Vec<u32>),
    CopyFrom(usize, usize, usize, usize, usize),
    Insert(usize, usize, u32),
    Remove(usize, usize),
    SwapRemove(usize, usize),
    Truncate(usize, usize),
    GrowAt(usize, usize, usize),
    ClearPool,
}

/// A slot and elements, as a call's arguments.
fn with(slot: usize, elements: &[u32]) -> Vec<usize> {
    let mut all = vec![slot];
    all.extend(elements.iter().map(|e| *e as usize));
    all
}

/// A call's code and arguments, as the list has them.
fn spelled(call: &Call, pool: &Pool, lists: &[List]) -> (usize, Vec<usize>) {
    match call {
        Call::NewPool(words, slots) => (0, vec![*words, *slots]),
        Call::FromSlice(a, e) => (1, with(*a, e)),
        Call::IsEmpty(a) => (2, vec![*a]),
        Call::Len(a) => (3, vec![*a]),
        Call::IsValid(a) => (4, vec![*a]),
        Call::AsSlice(a) => (5, with(*a, Word::to_words(lists[*a].as_slice(pool)))),
        Call::Get(a, i) => (6, vec![*a, *i]),
        Call::First(a) => (7, vec![*a]),
        Call::AsMutSlice(a, e) => (8, with(*a, e)),
        Call::GetMut(a, i, x) => (9, vec![*a, *i, *x as usize]),
        Call::DeepClone(slot, to) => (10, vec![*slot, *to]),
        Call::Clear(a) => (11, vec![*a]),
        Call::Take(slot, to) => (12, vec![*slot, *to]),
        Call::Push(a, x) => (13, vec![*a, *x as usize]),
        Call::Extend(a, e) => (14, with(*a, e)),
        Call::CopyFrom(slot, source, start, end, position) => {
            (15, vec![*slot, *source, *start, *end, *position])
        }
        Call::Insert(a, i, x) => (16, vec![*a, *i, *x as usize]),
        Call::Remove(a, i) => (17, vec![*a, *i]),
        Call::SwapRemove(a, i) => (18, vec![*a, *i]),
        Call::Truncate(a, n) => (19, vec![*a, *n]),
        Call::GrowAt(a, i, n) => (20, vec![*a, *i, *n]),
        Call::ClearPool => (21, vec![]),
    }
}

/// Makes the call on the original, and gives its result, 0 where it has none.
fn made(call: &Call, pool: &mut Pool, lists: &mut Vec<List>) -> usize {
    match call {
        Call::NewPool(_, slots) => {
            *pool = Pool::new();
            *lists = vec![List::new(); *slots];
        }
        Call::FromSlice(a, e) => lists[*a] = List::from_slice(Word::from_words(e), pool),
        Call::IsEmpty(a) => return lists[*a].is_empty() as usize,
        Call::Len(a) => return lists[*a].len(pool),
        Call::IsValid(a) => return lists[*a].is_valid(pool) as usize,
        Call::AsSlice(a) => return lists[*a].as_slice(pool).len(),
        Call::Get(a, i) => return lists[*a].get(*i, pool).unwrap().index(),
        Call::First(a) => return lists[*a].first(pool).unwrap().index(),
        Call::AsMutSlice(a, e) => {
            let part = lists[*a].as_mut_slice(pool);
            part.copy_from_slice(Word::from_words(e));
            return part.len();
        }
        Call::GetMut(a, i, x) => *lists[*a].get_mut(*i, pool).unwrap() = Word(*x),
        Call::DeepClone(slot, to) => lists[*to] = lists[*slot].deep_clone(pool),
        Call::Clear(a) => lists[*a].clear(pool),
        Call::Take(slot, to) => lists[*to] = lists[*slot].take(),
        Call::Push(a, x) => return lists[*a].push(Word(*x), pool),
        Call::Extend(a, e) => lists[*a].extend(Word::from_words(e).iter().copied(), pool),
        Call::CopyFrom(slot, source, start, end, position) => {
            let source = lists[*source];
            lists[*slot].copy_from(&source, *start..*end, *position, pool);
        }
        Call::Insert(a, i, x) => lists[*a].insert(*i, Word(*x), pool),
        Call::Remove(a, i) => lists[*a].remove(*i, pool),
        Call::SwapRemove(a, i) => lists[*a].swap_remove(*i, pool),
        Call::Truncate(a, n) => lists[*a].truncate(*n, pool),
        Call::GrowAt(a, i, n) => lists[*a].grow_at(*i, *n, pool),
        Call::ClearPool => {
            pool.clear();
            lists.fill(List::new());
        }
    }
    0
}

/// The decimal numbers in a text.
fn numbers(text: &str) -> Vec<u32> {
    text.split(|c: char| !c.is_ascii_digit())
        .filter(|digits| !digits.is_empty())
        .map(|digits| digits.parse().unwrap())
        .collect()
}

/// A list's handle, which is private to the original.
fn handle(list: &List) -> u32 {
    numbers(&format!("{list:?}"))[0]
}

/// The used words and the heads that the original has made, which are private to it.
fn inside(pool: &Pool) -> (Vec<u32>, Vec<u32>) {
    let text = format!("{pool:?}");
    let (words, heads) = text.split_once("], free: [").unwrap();
    (numbers(words), numbers(heads))
}

/// The class of a length, for the account of what the list covers.
fn class(length: usize) -> usize {
    (30 - (length as u32 | 3).leading_zeros()) as usize
}

/// A generator of numbers, the same on every machine (xorshift64*).
struct Dice(u64);

impl Dice {
    fn next(&mut self) -> u64 {
        self.0 ^= self.0 >> 12;
        self.0 ^= self.0 << 25;
        self.0 ^= self.0 >> 27;
        self.0.wrapping_mul(0x2545_F491_4F6C_DD1D)
    }

    /// A number below n.
    fn below(&mut self, n: usize) -> usize {
        ((self.next() >> 11) % n as u64) as usize
    }

    /// An element: mostly small, and now and then 0, the reserved value or anything.
    fn element(&mut self) -> u32 {
        match self.below(16) {
            0 => u32::MAX,
            1 => 0,
            2 => self.next() as u32,
            _ => self.below(100) as u32,
        }
    }

    /// So many elements. Many come in runs, so that the list of answers stays small.
    fn elements(&mut self, n: usize) -> Vec<u32> {
        let step = 1 + n / 16;
        let mut all = vec![];
        while all.len() < n {
            let e = self.element();
            for _ in 0..step.min(n - all.len()) {
                all.push(e);
            }
        }
        all
    }

    /// A position from 0 to n, often one of the ends.
    fn position(&mut self, n: usize) -> usize {
        match self.below(5) {
            0 => 0,
            1 => n,
            _ => self.below(n + 1),
        }
    }
}

/// What the list covers.
#[derive(Default)]
struct Account {
    calls: [usize; 22],
    refused: [usize; 8],
    up: [usize; 15],
    down: [usize; 15],
    fresh: [usize; 15],
    recycled: [usize; 15],
    freed: [usize; 15],
    full: usize,
    pools: Vec<(usize, usize, usize)>,
}

/// The original's pool and lists, how many words are lent, the cells as the list has them so far, and the list itself.
struct Run {
    pool: Pool,
    lists: Vec<List>,
    lent: usize,
    cells: Vec<u32>,
    text: String,
    account: Account,
}

impl Run {
    fn new() -> Run {
        Run {
            pool: Pool::new(),
            lists: vec![],
            lent: 0,
            cells: vec![0; WORDS + MOST_WORDS],
            text: String::new(),
            account: Account::default(),
        }
    }

    /// How long the list in a slot is.
    fn len(&self, slot: usize) -> usize {
        self.lists[slot].len(&self.pool)
    }

    /// Is the list in a slot empty?
    fn empty(&self, slot: usize) -> bool {
        self.lists[slot].is_empty()
    }

    /// Does paper 01 refuse the call with 4 or 5? The original is not asked, as it would panic, or do something else.
    fn refusal(&self, call: &Call) -> usize {
        let outside = match call {
            Call::Get(a, i) | Call::GetMut(a, i, _) => *i >= self.len(*a),
            Call::Remove(a, i) | Call::SwapRemove(a, i) => *i >= self.len(*a),
            Call::First(a) => self.empty(*a),
            Call::Insert(a, i, _) | Call::GrowAt(a, i, _) => *i > self.len(*a),
            Call::CopyFrom(slot, source, start, end, position) => {
                *position > self.len(*slot) || start > end || *end > self.len(*source)
            }
            _ => false,
        };
        if outside {
            return 4;
        }
        let clash = match call {
            Call::FromSlice(a, _) => !self.empty(*a),
            Call::DeepClone(_, to) => !self.empty(*to),
            Call::Take(slot, to) => slot == to || !self.empty(*to),
            Call::CopyFrom(slot, source, ..) => {
                handle(&self.lists[*slot]) == handle(&self.lists[*source])
            }
            _ => false,
        };
        if clash {
            5
        } else {
            0
        }
    }

    /// Makes a call and writes its line; false where it is refused and left out.
    fn call(&mut self, call: Call) -> bool {
        let refusal = self.refusal(&call);
        if refusal != 0 {
            self.account.refused[refusal] += 1;
            return false;
        }
        if let Call::NewPool(words, slots) = call {
            assert!(words <= MOST_WORDS && slots <= MOST_SLOTS);
            self.lent = words;
            self.account.pools.push((words, slots, 0));
        }
        let (code, arguments) = spelled(&call, &self.pool, &self.lists);
        let mut pool = self.pool.clone();
        let mut lists = self.lists.clone();
        let value = made(&call, &mut pool, &mut lists);
        let (words, heads) = inside(&pool);
        if words.len() > self.lent {
            self.account.refused[7] += 1;
            return false;
        }
        self.count(code, &pool, &lists, words.len());
        self.pool = pool;
        self.lists = lists;
        write!(self.text, "{code} {}", arguments.len()).unwrap();
        for argument in arguments {
            write!(self.text, " {argument}").unwrap();
        }
        write!(self.text, " {value}").unwrap();
        self.write_changes(&words, &heads);
        true
    }

    /// Writes the cells that are new, a run of one word at a time, and the line's end.
    fn write_changes(&mut self, words: &[u32], heads: &[u32]) {
        let mut cells = self.cells.clone();
        cells[0] = words.len() as u32;
        cells[HEADS..HANDLES].fill(0);
        cells[HEADS..][..heads.len()].copy_from_slice(heads);
        for (slot, list) in self.lists.iter().enumerate() {
            cells[HANDLES + slot] = handle(list);
        }
        cells[WORDS..][..words.len()].copy_from_slice(words);
        let mut at = 0;
        while at < cells.len() {
            let mut n = 0;
            while at + n < cells.len()
                && cells[at + n] != self.cells[at + n]
                && cells[at + n] == cells[at]
            {
                n += 1;
            }
            if n > 0 {
                write!(self.text, " {at} {n} {}", cells[at]).unwrap();
            }
            at += n.max(1);
        }
        self.text.push('\n');
        self.cells = cells;
    }

    /// Notes what a call did: whether a list changed its class, and where its block came from.
    fn count(&mut self, code: usize, pool: &Pool, lists: &[List], used: usize) {
        let before = inside(&self.pool).0.len();
        let account = &mut self.account;
        account.calls[code] += 1;
        account.pools.last_mut().unwrap().2 += 1;
        if used == self.lent {
            account.full += 1;
        }
        if code == 0 || code == 12 || code == 21 {
            return;
        }
        for (old, new) in self.lists.iter().zip(lists) {
            if handle(old) == handle(new) {
                continue;
            }
            let (from, to) = (class(old.len(&self.pool)), class(new.len(pool)));
            if !old.is_empty() {
                account.freed[from] += 1;
            }
            if !new.is_empty() && used > before {
                account.fresh[to] += 1;
            }
            if !new.is_empty() && used == before {
                account.recycled[to] += 1;
            }
            if !old.is_empty() && !new.is_empty() && from < to {
                account.up[to] += 1;
            }
            if !old.is_empty() && !new.is_empty() && from > to {
                account.down[to] += 1;
            }
        }
    }

    /// Makes so many calls at random, in turns of 30 that mostly grow and that mostly shrink; a call may bring about `most` elements.
    fn at_random(&mut self, dice: &mut Dice, calls: usize, most: usize) {
        let mut done = 0;
        while done < calls {
            let grow = done / 30 % 2 == 0;
            let call = self.any(dice, most, grow);
            if self.call(call) {
                done += 1;
            }
        }
    }

    /// A call at random on the state as it is; it may be one that is refused.
    fn any(&self, dice: &mut Dice, most: usize, grow: bool) -> Call {
        let a = dice.below(self.lists.len());
        let b = dice.below(self.lists.len());
        let n = self.len(a);
        let i = dice.position(n);
        let x = dice.element();
        let some = match dice.below(8) {
            0 => dice.below(2),
            1 => dice.below(most),
            _ => dice.below(most.min(9)),
        };
        let mut kind = dice.below(64);
        if (grow && kind >= 44) || (!grow && (14..44).contains(&kind)) {
            kind = dice.below(64);
        }
        match kind {
            0 => Call::IsEmpty(a),
            1 => Call::Len(a),
            2 => Call::IsValid(a),
            3 => Call::AsSlice(a),
            4 | 5 => Call::Get(a, i),
            6 => Call::First(a),
            7 => Call::AsMutSlice(a, dice.elements(n)),
            8 | 9 => Call::GetMut(a, i, x),
            10..=12 => Call::Take(a, b),
            13 if dice.below(8) == 0 => Call::ClearPool,
            13..=16 => Call::FromSlice(a, dice.elements(some)),
            17..=19 => Call::DeepClone(a, b),
            20..=27 => Call::Push(a, x),
            28..=31 => Call::Extend(a, dice.elements(some)),
            32..=36 => {
                let end = dice.position(self.len(b));
                let start = if dice.below(3) == 0 {
                    0
                } else {
                    dice.position(end)
                };
                Call::CopyFrom(a, b, start, end, i)
            }
            37..=40 => Call::Insert(a, i, x),
            41..=43 => Call::GrowAt(a, i, some),
            44..=51 => Call::Remove(a, i),
            52..=57 => Call::SwapRemove(a, i),
            58..=61 => Call::Truncate(a, dice.position(n + 1)),
            _ => Call::Clear(a),
        }
    }

    /// One by one up to n elements by `push` or `insert`, and down again by `remove`, `swap_remove` or from the end.
    fn up_and_down(&mut self, dice: &mut Dice, slot: usize, n: usize) {
        while self.len(slot) < n {
            let x = dice.element();
            let i = dice.position(self.len(slot));
            let call = if dice.below(3) == 0 {
                Call::Insert(slot, i, x)
            } else {
                Call::Push(slot, x)
            };
            assert!(self.call(call));
        }
        while !self.empty(slot) {
            let i = dice.below(self.len(slot));
            let call = match dice.below(3) {
                0 => Call::Remove(slot, i),
                1 => Call::SwapRemove(slot, i),
                _ => Call::Remove(slot, self.len(slot) - 1),
            };
            assert!(self.call(call));
        }
    }

    /// Around the length n, the first of its class: every call that crosses there, upwards and downwards, from a cleared pool to a cleared pool.
    fn across(&mut self, dice: &mut Dice, n: usize) {
        let x = dice.element();
        let short = dice.elements(n - 1);
        let few = dice.elements(2);
        let calls = [
            Call::FromSlice(0, short),
            Call::Push(0, x),
            Call::Remove(0, 0),
            Call::Insert(0, 0, x),
            Call::SwapRemove(0, 0),
            Call::Extend(0, few),
            Call::Truncate(0, n),
            Call::Truncate(0, n - 1),
            Call::GrowAt(0, n - 2, 1),
            Call::Remove(0, n - 1),
            Call::DeepClone(0, 1),
            Call::CopyFrom(0, 1, 0, 1, n - 1),
            Call::Truncate(0, 1),
            Call::CopyFrom(0, 1, 0, n - 1, 1),
            Call::AsSlice(0),
            Call::Clear(1),
            Call::Clear(0),
            Call::GrowAt(0, 0, n),
            Call::ClearPool,
        ];
        for call in calls {
            assert!(self.call(call));
        }
    }

    /// The same with a long list, whose elements no line spells out.
    fn far_across(&mut self, dice: &mut Dice, n: usize) {
        let x = dice.element();
        let calls = [
            Call::GrowAt(0, 0, n - 1),
            Call::GetMut(0, 0, 1),
            Call::GetMut(0, n / 2, 2),
            Call::GetMut(0, n - 2, 3),
            Call::Push(0, x),
            Call::Remove(0, 0),
            Call::Insert(0, n / 4, x),
            Call::SwapRemove(0, 1),
            Call::Extend(0, vec![4, x, 5]),
            Call::Truncate(0, n),
            Call::Truncate(0, n - 1),
            Call::DeepClone(0, 1),
            Call::GrowAt(0, n / 3, 2),
            Call::Truncate(0, n / 2),
            Call::CopyFrom(0, 1, 1, n - 1, n / 4),
            Call::Get(0, n - 1),
            Call::Clear(1),
            Call::Take(0, 1),
            Call::ClearPool,
        ];
        for call in calls {
            assert!(self.call(call));
        }
    }
}

/// A table of one number a class, as a line.
fn by_class(name: &str, counts: &[usize; 15]) {
    let cells: Vec<String> = counts.iter().map(|n| n.to_string()).collect();
    eprintln!("{name}: {}", cells.join(" "));
}

/// Says what the list covers.
fn report(run: &Run) {
    let account = &run.account;
    for (name, n) in NAMES.iter().zip(account.calls) {
        eprintln!("{name}: {n}");
    }
    by_class("moved up to class 0, 1 ..", &account.up);
    by_class("moved down to class 0, 1 ..", &account.down);
    by_class("fresh blocks of class 0, 1 ..", &account.fresh);
    by_class("recycled blocks of class 0, 1 ..", &account.recycled);
    by_class("freed blocks of class 0, 1 ..", &account.freed);
    eprintln!(
        "calls that leave every word of the pool used: {}",
        account.full
    );
    eprintln!(
        "tried and left out, by paper 01's number: 4: {}, 5: {}, 7: {}",
        account.refused[4], account.refused[5], account.refused[7]
    );
    for (words, slots, calls) in &account.pools {
        eprintln!("pool of {words} words and {slots} slots: {calls} calls");
    }
}

fn main() {
    let mut run = Run::new();
    let mut dice = Dice(20_240_601);
    let pools = [
        (0, 2, 20),
        (3, 1, 10),
        (4, 1, 50),
        (8, 2, 120),
        (12, 3, 200),
        (16, 4, 400),
        (20, 4, 300),
        (30, 5, 300),
        (48, 6, 400),
        (64, 8, 400),
        (100, 6, 400),
        (128, 8, 500),
        (200, 7, 500),
        (256, 8, 700),
        (1000, 8, 400),
        (4096, 16, 400),
    ];
    for (words, slots, calls) in pools {
        assert!(run.call(Call::NewPool(words, slots)));
        run.at_random(&mut dice, calls, 1 + words / 4);
    }
    assert!(run.call(Call::NewPool(256, 2)));
    run.up_and_down(&mut dice, 0, 70);
    run.up_and_down(&mut dice, 1, 36);
    assert!(run.call(Call::NewPool(4096, 2)));
    for n in [4, 8, 16, 32, 64, 128, 256] {
        run.across(&mut dice, n);
    }
    assert!(run.call(Call::NewPool(65_536, 2)));
    for n in [512, 1024, 2048, 4096, 8192, 16_384] {
        run.far_across(&mut dice, n);
    }
    for call in [
        Call::GrowAt(0, 0, 65_535),
        Call::Len(0),
        Call::GetMut(0, 7, 1),
        Call::SwapRemove(0, 7),
        Call::Push(0, 8),
        Call::Get(0, 65_534),
        Call::Clear(0),
        Call::GrowAt(1, 0, 32_768),
        Call::ClearPool,
    ] {
        assert!(run.call(call));
    }
    print!("{}", run.text);
    report(&run);
}
