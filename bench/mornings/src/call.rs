//! A call, as a line and on a board.

use std::io::Write;

use reference::board::{Board, Sizes};
use reference::console::JOURNAL;

#[derive(Clone, Copy, Debug)]
pub enum Call {
    Open(Sizes),
    Book(u32, u32),
    Step(u32),
    Drive(u32, u32),
    Collect(u32),
    Drop(u32),
    Back(u32),
    Show(u32),
}

impl Call {
    /// Makes the call and says whether it was accepted.
    pub fn play(&self, board: &mut Board) -> bool {
        match *self {
            Call::Open(sizes) => board.open(sizes).is_ok(),
            Call::Book(start, length) => board.book(start, length).is_ok(),
            Call::Step(number) => board.step(number).is_ok(),
            Call::Drive(number, budget) => board.drive(number, budget, JOURNAL).is_ok(),
            Call::Collect(number) => board.collect(number).is_ok(),
            Call::Drop(number) => board.withdraw(number).is_ok(),
            Call::Back(number) => board.back(number).is_ok(),
            Call::Show(column) => board.show(column).is_ok(),
        }
    }

    /// Adds the line of the call, with its LF.
    pub fn write(&self, text: &mut Vec<u8>) {
        let written = match *self {
            Call::Open(s) => writeln!(
                text,
                "open\t{}\t{}\t{}\t{}\t{}",
                s.rows, s.columns, s.places, s.lead, s.first_number
            ),
            Call::Book(start, length) => writeln!(text, "book\t{start}\t{length}"),
            Call::Step(number) => writeln!(text, "step\t{number}"),
            Call::Drive(number, budget) => writeln!(text, "drive\t{number}\t{budget}"),
            Call::Collect(number) => writeln!(text, "collect\t{number}"),
            Call::Drop(number) => writeln!(text, "drop\t{number}"),
            Call::Back(number) => writeln!(text, "back\t{number}"),
            Call::Show(column) => writeln!(text, "show\t{column}"),
        };
        written.expect("memory can always be written to");
    }
}
