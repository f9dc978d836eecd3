//! The four classes: the complete days that each holds, and the store that follows from them.

use super::StoreLength;

#[derive(Clone, Copy, Debug, PartialEq, Eq)]
pub enum Class {
    A,
    B,
    C,
    D,
}

impl Class {
    pub const ALL: [Class; 4] = [Class::A, Class::B, Class::C, Class::D];

    pub fn of_letter(letter: u8) -> Option<Class> {
        match letter {
            b'a' => Some(Class::A),
            b'b' => Some(Class::B),
            b'c' => Some(Class::C),
            b'd' => Some(Class::D),
            _ => None,
        }
    }

    /// Complete days held: the Code's number.
    pub const fn complete_days(self) -> usize {
        match self {
            Class::A => 20,
            Class::B => 100,
            Class::C => 250,
            Class::D => 450,
        }
    }

    /// Days held, each in a room: the complete ones, and the current day besides.
    pub const fn days(self) -> usize {
        self.complete_days() + 1
    }

    pub const fn store_length(self) -> StoreLength {
        StoreLength::of_rooms(self.days())
    }

    /// The room of a day.
    pub fn room(self, day: u64) -> usize {
        (day % self.days() as u64) as usize
    }
}
