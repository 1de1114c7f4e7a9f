//! The numbers with which a call or an event is refused.

use std::fmt;

macro_rules! refusals {
    ($($number:literal $name:ident $cause:literal)*) => {
        /// Why a call or an event was refused: a variant for each number of document 01's place table
        /// and of document 02.
        ///
        /// ```
        /// use kalebasin::Refusal;
        /// assert_eq!(Refusal::from_number(25), Some(Refusal::CountedAlready));
        /// assert_eq!(Refusal::NotLeader.number(), 19);
        /// println!("{}", Refusal::NotLeader); // 19: the member isn't the leader of the round
        /// ```
        ///
        /// Later versions give out more numbers.
        #[derive(Clone, Copy, Debug, PartialEq, Eq, PartialOrd, Ord, Hash)]
        #[non_exhaustive]
        #[repr(u8)]
        pub enum Refusal {
            $(#[doc = concat!(stringify!($number), ": ", $cause, ".")] $name = $number,)*
        }

        impl Refusal {
            /// Every refusal, in order of number.
            pub const ALL: &'static [Refusal] = &[$(Refusal::$name),*];

            /// The refusal with this number; none for 0 (OK) or a number that isn't given out.
            pub const fn from_number(number: u32) -> Option<Refusal> {
                match number {
                    $($number => Some(Refusal::$name),)*
                    _ => None,
                }
            }

            /// The cause in words.
            pub const fn cause(self) -> &'static str {
                match self {
                    $(Refusal::$name => $cause,)*
                }
            }
        }
    };
}

refusals! {
    1 TableLength "the table's length isn't a multiple of 4 words from 4 to 1,024"
    2 NotATree "the table isn't a tree"
    3 RoundRange "the round is 0 or above 1,000,000"
    4 RoundPresent "the round is present already"
    5 ParentAbsent "the parent is absent"
    6 ParentNotBelow "the parent isn't below the round"
    7 ValueDiffers "the value isn't the parent's"
    8 CrossesCommitted "the edge crosses a COMMITTED node"
    9 NoFreeRow "the table has no free row"
    10 RoundAbsent "the round is absent"
    11 IsCommitted "the round is COMMITTED already"
    12 IsGhost "the round is GHOST"
    13 PathTooLong "the slice is too short for the path"
    14 MessageLength "the message's length isn't that of its kind"
    15 MessageKind "the message's kind isn't 1 to 4"
    16 MessageField "a field of the message is out of range"
    17 RecordUnsound "the member record isn't sound"
    18 ReplyTooShort "the reply buffer is under 32 bytes"
    19 NotLeader "the member isn't the leader of the round"
    20 NotAboveLed "the round isn't above the one the member led last"
    21 WrongSender "the sender is no member, or doesn't lead the round"
    22 MovedPast "the member has moved past the round"
    23 AnotherValue "the member has voted for another value in the round"
    24 NotAwaited "the message isn't awaited"
    25 CountedAlready "the sender is counted already"
    26 ListShape "the count is above 1,000, or bytes, count and kinds don't match exactly"
    27 OfficeSize "the number of members isn't 3, 5 or 7"
    28 StoreOrAnswers "the store isn't 1 to 2,000 whole rows of 32 bytes, or there are too few answer bytes"
    29 NoMemberOrMessage "there is no such member or no such message"
    30 StoreFull "the store is full"
    31 LengthsDiffer "the two tables differ in length"
    32 WrongSlot "the slot of a message or event is above 7, or a message is of another slot"
}

impl Refusal {
    /// Its number.
    pub const fn number(self) -> u32 {
        self as u32
    }
}

impl fmt::Display for Refusal {
    fn fmt(&self, f: &mut fmt::Formatter) -> fmt::Result {
        write!(f, "{}: {}", self.number(), self.cause())
    }
}

impl std::error::Error for Refusal {}

impl From<Refusal> for u32 {
    fn from(refusal: Refusal) -> u32 {
        refusal.number()
    }
}

impl TryFrom<u32> for Refusal {
    type Error = NoRefusal;

    /// [`Refusal::from_number`], with an error for what isn't the number of a refusal.
    fn try_from(number: u32) -> Result<Refusal, NoRefusal> {
        Refusal::from_number(number).ok_or(NoRefusal(number))
    }
}

/// A number that no refusal has: 0, which is OK, or one that isn't given out.
#[derive(Clone, Copy, Debug, PartialEq, Eq, Hash)]
pub struct NoRefusal(pub u32);

impl fmt::Display for NoRefusal {
    fn fmt(&self, f: &mut fmt::Formatter) -> fmt::Result {
        write!(f, "{} isn't the number of a refusal", self.0)
    }
}

impl std::error::Error for NoRefusal {}

/// The number of a result: 0 for OK.
pub fn number_of<T>(result: &Result<T, Refusal>) -> u32 {
    match result {
        Ok(_) => 0,
        Err(refusal) => refusal.number(),
    }
}
