//! Numbers from a fixed seed, and the calls made of them. All is made before anything is timed.

/// The words of the pool: the library's limit.
pub const POOL: usize = 65_536;

/// So many lists of up to [`LONG`] elements fit in the pool whatever is done to them: each class
/// from 0 to 8 can have a block for each of them.
pub const FEW: usize = 32;

/// The longest of the long lists.
pub const LONG: usize = 1_000;

/// So many lists of up to [`SHORT`] elements fit in the pool whatever is done to them.
pub const MANY: usize = 2_048;

/// The longest of the short lists.
pub const SHORT: usize = 8;

/// The most elements that one `extend` adds.
pub const PIECE: usize = 4;

/// Numbers from a seed: Marsaglia's xorshift.
pub struct Numbers(u64);

impl Numbers {
    /// The numbers of a seed.
    pub fn new(seed: u64) -> Numbers {
        Numbers(seed ^ 0x9e37_79b9_7f4a_7c15)
    }

    /// The next number.
    pub fn draw(&mut self) -> u64 {
        self.0 ^= self.0 << 13;
        self.0 ^= self.0 >> 7;
        self.0 ^= self.0 << 17;
        self.0
    }

    /// The next number, below a bound.
    pub fn below(&mut self, bound: usize) -> usize {
        ((self.draw() >> 32) as usize * bound) >> 32
    }

    /// So many words.
    pub fn words(&mut self, count: usize) -> Vec<u32> {
        (0..count).map(|_| self.draw() as u32).collect()
    }
}

/// A call of a mix.
#[derive(Clone, Copy, Debug)]
pub enum Call {
    /// Appends the element.
    Push,
    /// Puts the element at the position.
    Insert,
    /// Removes the element at the position.
    SwapRemove,
    /// Appends as many elements as the position says: the words from the one that the element
    /// numbers.
    Extend,
}

/// A call of a mix with its arguments.
#[derive(Clone, Copy, Debug)]
pub struct Step {
    /// What is called.
    pub call: Call,
    /// The slot of the list.
    pub slot: u32,
    /// The position, or for `extend` the number of elements.
    pub position: u32,
    /// The element, or for `extend` where the elements begin.
    pub element: u32,
}

/// What lengths the lists of a mix have.
#[derive(Clone, Copy, Debug, PartialEq, Eq)]
pub enum Lengths {
    /// The four calls have equal chances, and one that would make a list too long is a
    /// `swap_remove` instead: the lists fill up, and stay near their longest.
    Full,
    /// Each list has a goal, any length, and where it reaches it another one. Up to the goal the
    /// four calls have equal chances, down to it `swap_remove` has three in four.
    All,
}

/// A mix of calls on lists that begin empty and stay within a length.
pub fn mix(
    seed: u64,
    calls: usize,
    lists: usize,
    longest: usize,
    lengths: Lengths,
    words: usize,
) -> Vec<Step> {
    let mut numbers = Numbers::new(seed);
    // The length and the goal of each list.
    let mut now = vec![(0, 0); lists];
    let mut steps = Vec::with_capacity(calls);
    while steps.len() < calls {
        let slot = numbers.below(lists);
        let (length, goal) = &mut now[slot];
        while lengths == Lengths::All && length == goal {
            *goal = numbers.below(longest + 1);
        }
        let down = lengths == Lengths::All && *length > *goal && numbers.below(3) < 2;
        let count = 1 + numbers.below(PIECE);
        let call = match numbers.below(4) {
            _ if down => Call::SwapRemove,
            0 => Call::Push,
            1 => Call::Insert,
            2 => Call::SwapRemove,
            _ => Call::Extend,
        };
        let more = match call {
            Call::SwapRemove => 0,
            Call::Extend => count,
            _ => 1,
        };
        let call = match call {
            Call::SwapRemove if *length == 0 => Call::Push,
            _ if *length + more > longest => Call::SwapRemove,
            call => call,
        };
        let (position, element, next) = match call {
            Call::Push => (0, numbers.draw() as u32, *length + 1),
            Call::Insert => (numbers.below(*length + 1), numbers.draw() as u32, *length + 1),
            Call::SwapRemove => (numbers.below(*length), 0, *length - 1),
            Call::Extend => (count, numbers.below(words - count) as u32, *length + count),
        };
        *length = next;
        steps.push(Step { call, slot: slot as u32, position: position as u32, element });
    }
    steps
}
