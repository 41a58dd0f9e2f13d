//! Where two answers are compared. At the first difference the program says all about it, saves the section and ends.

use std::fmt::Debug;
use std::process::exit;

use crate::copy::Copy;
use crate::ffi::{Answer, Index};
use crate::name::Name;
use crate::ours::Ours;
use crate::tally::{Call, Tally, Told};
use crate::twin::View;
use gimli::bytes::Order;
use gimli::case::Case;
use gimli::lent::{Lent, Memory};
use gimli::random::Random;

/// A list of more than this is asked for its first numbers, its last and some between.
const MOST: u32 = 8;

/// A section, lent to both sides.
pub struct Desk<'a> {
    pub name: Name,
    pub case: &'a Case,
    /// The byte order of the calls that are compared now, most often the section's.
    pub order: Order,
    pub ours: Ours<'a>,
    pub lent: Lent<'a>,
    /// The handle of the calls that are compared now.
    pub index: Index,
    /// For the choice of the calls.
    pub random: Random,
    pub tally: &'a mut Tally,
    /// What to query: hashes and names.
    pub asked: Vec<(u32, Vec<u8>)>,
}

impl<'a> Desk<'a> {
    pub fn new(name: Name, case: &'a Case, memory: &'a Memory, mut random: Random, tally: &'a mut Tally) -> Desk<'a> {
        let lent = memory.lend();
        let order = number_of(case.order, &mut random);
        let ours = Ours { order, names: lent.names.slice(), strings: lent.strings.slice() };
        let index = Index::default();
        Desk { name, case, order: case.order, ours, lent, index, random, tally, asked: Vec::new() }
    }

    /// The other byte order from here on.
    pub fn turn(&mut self) {
        self.order = other(self.order);
        self.ours.order = number_of(self.order, &mut self.random);
    }

    /// The section that gimli reads for the handle of now.
    pub fn copy(&self) -> Copy {
        Copy::of(self.case, self.order, &self.index)
    }

    /// How gimli sees the section itself.
    pub fn view(&self) -> View<'a> {
        View { lent: self.lent, shift: 0, bad: None }
    }

    /// The answers of both sides to a call must be equal. `words` are the call's arguments.
    pub fn same<T: Debug + PartialEq + Told>(&mut self, call: Call, words: impl FnOnce() -> String, ours: T, theirs: T) {
        if ours != theirs {
            self.difference(call.name(), &words(), &ours, &theirs);
        }
        self.tally.count(call, &theirs);
    }

    /// Nothing that was lent is changed.
    pub fn nothing_changed(&self) {
        if self.ours.names != self.case.names || self.ours.strings != self.case.strings {
            self.difference("any", "the lent bytes", &(self.ours.names, self.ours.strings), &(&self.case.names, &self.case.strings));
        }
    }

    pub fn difference(&self, call: &str, words: &str, ours: &dyn Debug, theirs: &dyn Debug) -> ! {
        println!("DIFFERENCE at {} (byte order {})", self.name, self.ours.order);
        println!("call {call} {words}");
        println!("index {:?}", self.index);
        println!("ours     {ours:?}");
        println!("expected {theirs:?}");
        self.name.save(self.case);
        exit(1)
    }

    /// Numbers to ask a list of that many for: the first, the last, two past it, and large ones.
    pub fn numbers(&mut self, count: u32) -> Vec<u32> {
        let mut numbers: Vec<u32> = (0..count.min(MOST)).collect();
        if count > MOST {
            numbers.extend([count - 1, self.random.below(count as usize) as u32, self.random.below(count as usize) as u32]);
        }
        numbers.extend([count, count + 1, count + 2]);
        numbers.push(self.random.pick(&[0x1000_0000, 0x2000_0000, 0x4000_0000, 0x8000_0000, u32::MAX]));
        numbers.push(self.random.next() as u32);
        numbers
    }
}

/// The other byte order.
pub fn other(order: Order) -> Order {
    match order {
        Order::Little => Order::Big,
        Order::Big => Order::Little,
    }
}

/// The number of a byte order in a call: any but 0 is big.
fn number_of(order: Order, random: &mut Random) -> u32 {
    match order {
        Order::Little => 0,
        Order::Big => random.pick(&[1, 1, 1, 2, 256, u32::MAX]),
    }
}

/// A refusal without a value.
pub fn refused(status: u32) -> Answer {
    Answer { status, kind: 0, value: 0 }
}
