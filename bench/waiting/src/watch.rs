//! A board that is watched: every report is counted, and how many of them each booking saw.

use std::collections::HashMap;

use reference::board::{Action, Board, Report, Sizes, Stage, View};

/// What was seen of a board.
#[derive(Clone, Copy, Default)]
pub struct Seen {
    pub bookings: u64,
    pub reports: u64,
    pub longest: u64,
}

impl Seen {
    /// Both, one after the other.
    pub fn and(self, other: Seen) -> Seen {
        Seen {
            bookings: self.bookings + other.bookings,
            reports: self.reports + other.reports,
            longest: self.longest.max(other.longest),
        }
    }
}

pub struct Watch {
    board: Board,
    seen: Seen,
    /// For each undecided booking, the count of reports at the time that it was taken.
    taken_at: HashMap<u32, u64>,
}

impl Watch {
    pub fn new(sizes: Sizes) -> Watch {
        let mut board = Board::new();
        board
            .open(sizes)
            .expect("the sizes are within their limits");
        Watch {
            board,
            seen: Seen::default(),
            taken_at: HashMap::new(),
        }
    }

    pub fn board(&self) -> &Board {
        &self.board
    }

    pub fn reports(&self) -> u64 {
        self.seen.reports
    }

    /// The tickets, lowest number first.
    pub fn tickets(&self) -> Vec<View> {
        let mut tickets: Vec<View> = self.board.tickets().collect();
        tickets.sort_unstable_by_key(|ticket| ticket.number);
        tickets
    }

    /// The numbers of the tickets in a stage, lowest first.
    pub fn numbers(&self, stage: Stage) -> Vec<u32> {
        let in_stage = self.board.tickets().filter(|ticket| ticket.stage == stage);
        let mut numbers: Vec<u32> = in_stage.map(|ticket| ticket.number).collect();
        numbers.sort_unstable();
        numbers
    }

    pub fn book(&mut self, start: u32, length: u32) -> Option<u32> {
        let number = self.board.book(start, length).ok()?;
        self.seen.bookings += 1;
        self.taken_at.insert(number, self.seen.reports);
        Some(number)
    }

    pub fn step(&mut self, number: u32) -> Option<Report> {
        let report = self.board.step(number).ok()?;
        self.seen.reports += 1;
        if matches!(report.action, Action::Grant | Action::Without) {
            self.no_longer_waits(report.number);
        }
        Some(report)
    }

    pub fn collect(&mut self, number: u32) -> bool {
        self.board.collect(number).is_ok()
    }

    pub fn withdraw(&mut self, number: u32) -> bool {
        let dropped = self.board.withdraw(number).is_ok();
        if dropped {
            self.no_longer_waits(number);
        }
        dropped
    }

    pub fn back(&mut self, number: u32) -> bool {
        self.board.back(number).is_ok()
    }

    /// What was seen, with those that still wait counted as far as they got.
    pub fn close(mut self) -> Seen {
        let waiting: Vec<u32> = self.taken_at.keys().copied().collect();
        for number in waiting {
            self.no_longer_waits(number);
        }
        self.seen
    }

    fn no_longer_waits(&mut self, number: u32) {
        let taken_at = self
            .taken_at
            .remove(&number)
            .expect("a booking is decided once");
        self.seen.longest = self.seen.longest.max(self.seen.reports - taken_at);
    }
}
