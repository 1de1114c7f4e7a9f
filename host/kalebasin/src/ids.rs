//! Numbers of four sorts that never stand for one another.

use std::fmt;

macro_rules! sort_of_number {
    ($name:ident, $about:literal) => {
        #[doc = $about]
        #[derive(Clone, Copy, Debug, Default, PartialEq, Eq, PartialOrd, Ord, Hash)]
        pub struct $name(
            /// The number itself.
            pub u32,
        );

        impl fmt::Display for $name {
            fn fmt(&self, f: &mut fmt::Formatter) -> fmt::Result {
                self.0.fmt(f)
            }
        }
    };
}

sort_of_number!(
    Round,
    "A round number: 1 to 1,000,000, or 0 for the root. Any number can be named; a call refuses one out of range."
);
sort_of_number!(Member, "A member number: 0 to N - 1. Any number can be named; a call refuses one out of range.");
sort_of_number!(
    Slot,
    "A slot number: 0 to 7. Any number can be named; a call refuses one out of range.

A slot is a password set that is agreed on by itself:

```
use kalebasin::{Event, Member, Round, Slot};
assert_eq!(Event::start(Member(1), Round(1), 70).in_slot(Slot(3)).slot(), Slot(3));
```

Neither a round nor a member stands for one, nor a slot for one of these:

```compile_fail
use kalebasin::{Event, Member, Round, Slot};
assert_eq!(Event::start(Member(1), Round(1), 70).in_slot(Round(3)).slot(), Slot(3));
```

```compile_fail
use kalebasin::{Event, Member, Round, Slot};
assert_eq!(Event::start(Member(1), Round(1), 70).in_slot(Member(3)).slot(), Slot(3));
```

```compile_fail
use kalebasin::{Event, Member, Round, Slot};
assert_eq!(Event::start(Slot(1), Round(1), 70).in_slot(Slot(3)).slot(), Slot(3));
```

```compile_fail
use kalebasin::{Event, Member, Round, Slot};
assert_eq!(Event::start(Member(1), Slot(1), 70).in_slot(Slot(3)).slot(), Slot(3));
```

```compile_fail
use kalebasin::{Event, Member, Round, Slot};
assert_eq!(Event::start(Member(1), Round(1), 70).in_slot(Slot(3)).slot(), Round(3));
```"
);
sort_of_number!(MessageNumber, "The place of a sent message in the store, from 0.");

/// How many slots there are.
pub const SLOTS: usize = 8;

impl Slot {
    /// The slots in order.
    pub const ALL: [Slot; SLOTS] = [Slot(0), Slot(1), Slot(2), Slot(3), Slot(4), Slot(5), Slot(6), Slot(7)];

    /// 0 to 7.
    pub fn in_range(self) -> bool {
        (self.0 as usize) < SLOTS
    }
}

impl Round {
    /// The root of every tree.
    pub const ROOT: Round = Round(0);
    /// The highest round.
    pub const HIGHEST: Round = Round(1_000_000);

    /// 1 to 1,000,000.
    pub fn in_range(self) -> bool {
        Round::ROOT < self && self <= Round::HIGHEST
    }

    /// The leader of this round among `n` members; none where there are none.
    pub fn leader(self, n: u32) -> Option<Member> {
        self.0.checked_rem(n).map(Member)
    }
}
