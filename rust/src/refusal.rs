//! Why a call is refused.

use core::fmt;

/// Why a call is refused. A refused call has changed nothing, but for the audit's map, whose first
/// words are 0 after [`NotSound`](Refusal::NotSound); of several reasons the one with the lowest
/// number is given.
#[derive(Clone, Copy, Debug, PartialEq, Eq, PartialOrd, Ord, Hash)]
#[repr(u32)]
pub enum Refusal {
    /// The pool or the table is over its limit, or the used count is above the pool's length or not
    /// a multiple of 4.
    OverLimit = 1,
    /// A slot is not in the table.
    NoSlot = 2,
    /// A named handle is not locally sound.
    BadHandle = 3,
    /// A position or range lies outside the list.
    Outside = 4,
    /// The slots clash: a target that has to be empty is not, or the two slots are one or have equal
    /// handles, as two empty lists have.
    Clash = 5,
    /// A block is needed, and the head of its class is not locally sound.
    BadHead = 6,
    /// A block is needed, and there is none: the list would be longer than [`LONGEST`](crate::LONGEST),
    /// or no block of its class is free and there are too few words behind the used ones.
    NoRoom = 7,
    /// The audit's map is shorter than a quarter of the used count.
    ShortMap = 8,
    /// The audit finds the pool not sound.
    NotSound = 9,
}

impl Refusal {
    /// Every refusal, in the order of the numbers.
    pub const ALL: [Refusal; 9] = [
        Refusal::OverLimit,
        Refusal::NoSlot,
        Refusal::BadHandle,
        Refusal::Outside,
        Refusal::Clash,
        Refusal::BadHead,
        Refusal::NoRoom,
        Refusal::ShortMap,
        Refusal::NotSound,
    ];

    /// Returns the number that the library gives for it, 1 to 9.
    ///
    /// ```
    /// assert_eq!(maaliskur::Refusal::NoRoom.number(), 7);
    /// ```
    pub const fn number(self) -> u32 {
        self as u32
    }

    /// Returns the refusal with a number, if there is one.
    ///
    /// ```
    /// use maaliskur::Refusal;
    /// assert_eq!(Refusal::from_number(7), Some(Refusal::NoRoom));
    /// assert_eq!(Refusal::from_number(0), None);
    /// ```
    pub fn from_number(number: u32) -> Option<Refusal> {
        Refusal::ALL.into_iter().find(|refusal| refusal.number() == number)
    }
}

impl fmt::Display for Refusal {
    /// Says in words why the call is refused.
    fn fmt(&self, f: &mut fmt::Formatter<'_>) -> fmt::Result {
        f.write_str(match self {
            Refusal::OverLimit => {
                "the pool has over 65536 words, the table over 16384 handles, \
                 or the used count is not a multiple of 4 within the pool"
            }
            Refusal::NoSlot => "there is no such slot in the table",
            Refusal::BadHandle => "a handle is not sound: it names no list of the pool",
            Refusal::Outside => "a position or range lies outside the list",
            Refusal::Clash => {
                "the slots clash: the one to be filled is not empty, or both have the same handle"
            }
            Refusal::BadHead => "the head of the free blocks of the size needed is not sound",
            Refusal::NoRoom => "there is no room for the block needed",
            Refusal::ShortMap => "the map is shorter than a quarter of the used words",
            Refusal::NotSound => "the pool is not sound",
        })
    }
}

#[cfg(feature = "std")]
impl std::error::Error for Refusal {}
