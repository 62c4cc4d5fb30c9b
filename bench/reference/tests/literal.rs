//! The board against two slow models: one that follows the tables of RULES.md word for word, with
//! nothing kept that could be looked up, and the plain ledger of section 9.

use reference::board::{Action, Board, Refusal, Report, Sizes, Stage};

/// A slot table that holds numbers, and tickets in the order of their numbers.
struct Literal {
    sizes: Sizes,
    next_number: u32,
    count: u64,
    slots: Vec<Vec<Option<u32>>>,
    tickets: Vec<Card>,
}

#[derive(Clone)]
struct Card {
    number: u32,
    start: usize,
    length: usize,
    f: usize,
    k: usize,
    seen: u64,
    backing_out_to: Option<usize>,
    stage: Stage,
}

impl Card {
    fn soft(&self) -> bool {
        matches!(self.stage, Stage::Seeking | Stage::Closing)
    }
}

impl Literal {
    fn new(sizes: Sizes) -> Literal {
        Literal {
            sizes,
            next_number: sizes.first_number,
            count: 0,
            slots: vec![vec![None; sizes.rows as usize]; sizes.columns as usize],
            tickets: Vec::new(),
        }
    }

    fn find(&self, number: u32) -> Result<usize, Refusal> {
        let at = self.tickets.iter().position(|t| t.number == number);
        at.ok_or(Refusal::Unknown)
    }

    fn need(&self, number: u32, good: &[Stage]) -> Result<usize, Refusal> {
        let at = self.find(number)?;
        if good.contains(&self.tickets[at].stage) {
            Ok(at)
        } else {
            Err(Refusal::Stage)
        }
    }

    fn book(&mut self, start: u32, length: u32) -> Result<u32, Refusal> {
        if !(1..=64).contains(&length) || start + length > self.sizes.columns {
            return Err(Refusal::Range);
        }
        if self.tickets.len() == self.sizes.places as usize {
            return Err(Refusal::Places);
        }
        self.tickets.push(Card {
            number: self.next_number,
            start: start as usize,
            length: length as usize,
            f: start as usize,
            k: 0,
            seen: self.count,
            backing_out_to: None,
            stage: Stage::Seeking,
        });
        self.next_number += 1;
        Ok(self.next_number - 1)
    }

    fn booked(&self, column: usize, row: usize) -> bool {
        self.slots[column][row].is_some_and(|number| {
            let stage = self.tickets[self.find(number).unwrap()].stage;
            matches!(stage, Stage::Granted | Stage::Out)
        })
    }

    fn wall(&self, column: usize) -> bool {
        (0..self.sizes.rows as usize).all(|row| self.booked(column, row))
    }

    fn full(&self, column: usize) -> bool {
        self.slots[column].iter().all(Option::is_some)
    }

    fn blocked(&self, t: &Card) -> bool {
        t.stage == Stage::Seeking
            && t.backing_out_to.is_none()
            && t.k < t.length
            && t.f + t.length <= self.sizes.columns as usize
            && self.full(t.f + t.k)
            && !self.wall(t.f + t.k)
    }

    fn step(&mut self, number: u32) -> Result<Report, Refusal> {
        let mut at = self.need(number, &[Stage::Seeking, Stage::Closing])?;
        let o = self.tickets.iter().position(Card::soft).unwrap();
        if number - self.tickets[o].number > self.sizes.lead {
            at = o;
        }
        while self.blocked(&self.tickets[at]) {
            let column = self.tickets[at].f + self.tickets[at].k;
            let holds = |t: &Card| t.soft() && self.slots[column].contains(&Some(t.number));
            at = self.tickets.iter().position(holds).unwrap();
        }
        Ok(self.act(at))
    }

    fn act(&mut self, at: usize) -> Report {
        let columns = self.sizes.columns as usize;
        let t = self.tickets[at].clone();
        let past_end = t.f + t.length > columns;
        let (action, column, row) = if t.stage == Stage::Closing || t.backing_out_to.is_some() {
            let column = t.f + t.k - 1;
            let holds = |slot: &Option<u32>| *slot == Some(t.number);
            let row = self.slots[column].iter().position(holds).unwrap();
            self.slots[column][row] = None;
            self.tickets[at].k -= 1;
            if self.tickets[at].k == 0 {
                if let Some(next) = t.backing_out_to {
                    let ticket = &mut self.tickets[at];
                    ticket.f = next;
                    ticket.backing_out_to = None;
                    if next == t.start {
                        ticket.seen = self.count;
                    }
                } else {
                    self.tickets.remove(at);
                }
            }
            (Action::Wipe, column, row + 1)
        } else if t.seen != self.count && (t.k == t.length || past_end) {
            self.turn(at, t.start);
            if t.k == 0 {
                self.tickets[at].seen = self.count;
            }
            (Action::Over, t.start, 0)
        } else if past_end {
            self.tickets[at].stage = Stage::Without;
            (Action::Without, t.start, 0)
        } else if t.k == t.length {
            self.tickets[at].stage = Stage::Granted;
            (Action::Grant, t.f, 0)
        } else if let Some(row) = self.slots[t.f + t.k].iter().position(Option::is_none) {
            self.slots[t.f + t.k][row] = Some(t.number);
            self.tickets[at].k += 1;
            (Action::Mark, t.f + t.k, row + 1)
        } else {
            assert!(self.wall(t.f + t.k));
            self.turn(at, t.f + t.k + 1);
            (Action::Wall, t.f + t.k, 0)
        };
        Report {
            number: t.number,
            action,
            column: column as u32,
            row: row as u32,
        }
    }

    fn turn(&mut self, at: usize, g: usize) {
        if self.tickets[at].k > 0 {
            self.tickets[at].backing_out_to = Some(g);
        } else {
            self.tickets[at].f = g;
        }
    }

    fn collect(&mut self, number: u32) -> Result<Option<(usize, usize)>, Refusal> {
        let at = self.need(number, &[Stage::Granted, Stage::Without])?;
        if self.tickets[at].stage == Stage::Without {
            self.tickets.remove(at);
            return Ok(None);
        }
        self.tickets[at].stage = Stage::Out;
        Ok(Some((self.tickets[at].f, self.tickets[at].length)))
    }

    fn withdraw(&mut self, number: u32) -> Result<(), Refusal> {
        let at = self.need(number, &[Stage::Seeking])?;
        if self.tickets[at].k == 0 {
            self.tickets.remove(at);
        } else {
            self.tickets[at].stage = Stage::Closing;
            self.tickets[at].backing_out_to = None;
        }
        Ok(())
    }

    fn back(&mut self, number: u32) -> Result<(), Refusal> {
        let at = self.need(number, &[Stage::Out])?;
        self.tickets[at].stage = Stage::Closing;
        self.count += 1;
        Ok(())
    }
}

/// The ledger: spans with the numbers that they belong to.
struct Ledger {
    rows: usize,
    columns: usize,
    spans: Vec<(u32, usize, usize)>,
}

impl Ledger {
    fn load(&self, column: usize) -> usize {
        let covers = |s: &&(u32, usize, usize)| s.1 <= column && column < s.1 + s.2;
        self.spans.iter().filter(covers).count()
    }

    fn enter(&mut self, number: u32, start: usize, length: usize) -> Option<usize> {
        let fits = |f: &usize| (*f..*f + length).all(|c| self.load(c) < self.rows);
        let first = (start..self.columns)
            .take_while(|f| f + length <= self.columns)
            .find(fits)?;
        self.spans.push((number, first, length));
        Some(first)
    }

    fn back(&mut self, number: u32) {
        self.spans.retain(|s| s.0 != number);
    }
}

struct Dice(u64);

impl Dice {
    fn below(&mut self, limit: u32) -> u32 {
        self.0 = self.0.wrapping_add(0x9e37_79b9_7f4a_7c15);
        let mut x = self.0;
        x = (x ^ (x >> 30)).wrapping_mul(0xbf58_476d_1ce4_e5b9);
        x = (x ^ (x >> 27)).wrapping_mul(0x94d0_49bb_1331_11eb);
        ((x ^ (x >> 31)) % u64::from(limit)) as u32
    }
}

#[test]
fn random_calls_on_small_racks() {
    let mut dice = Dice(7);
    let mut seen = [0u32; 7];
    for _ in 0..600 {
        let sizes = Sizes {
            rows: 1 + dice.below(3),
            columns: 1 + dice.below(12),
            places: 1 + dice.below(8),
            lead: dice.below(9),
            first_number: 1 + dice.below(3) * 250,
        };
        let mut board = Board::new();
        board.open(sizes).unwrap();
        let mut literal = Literal::new(sizes);
        let mut ledger = Ledger {
            rows: sizes.rows as usize,
            columns: sizes.columns as usize,
            spans: Vec::new(),
        };
        let mut windows: Vec<(u32, u32, u32)> = Vec::new();
        let longest = 1 + dice.below(sizes.columns);
        for _ in 0..500 {
            let back = dice.below(sizes.places + 3);
            let number = board.next_number().saturating_sub(back);
            match dice.below(20) {
                0..4 => {
                    let (start, length) = (dice.below(sizes.columns), dice.below(longest + 1));
                    let booked = board.book(start, length);
                    assert_eq!(booked, literal.book(start, length));
                    if let Ok(number) = booked {
                        windows.push((number, start, length));
                    }
                }
                4..6 => {
                    let span = board.collect(number);
                    let span = span.map(|s| s.map(|s| (s.first as usize, s.length as usize)));
                    assert_eq!(span, literal.collect(number));
                }
                6 => assert_eq!(board.withdraw(number), literal.withdraw(number)),
                7 => {
                    let answer = board.back(number);
                    assert_eq!(answer, literal.back(number));
                    if answer.is_ok() {
                        ledger.back(number);
                    }
                }
                _ => {
                    let report = board.step(number);
                    assert_eq!(report, literal.step(number));
                    let Ok(report) = report else { continue };
                    seen[report.action as usize] += 1;
                    if matches!(report.action, Action::Grant | Action::Without) {
                        let of = |w: &&(u32, u32, u32)| w.0 == report.number;
                        let &(number, start, length) = windows.iter().find(of).unwrap();
                        let first = ledger.enter(number, start as usize, length as usize);
                        match report.action {
                            Action::Grant => assert_eq!(first, Some(report.column as usize)),
                            _ => assert_eq!(first, None),
                        }
                    }
                }
            }
            for column in 0..sizes.columns {
                let marks = literal.slots[column as usize].iter().flatten().count();
                assert_eq!(board.show(column), Ok(marks as u32));
            }
            assert_eq!(
                board.idle_places() as usize,
                sizes.places as usize - literal.tickets.len()
            );
            for card in &literal.tickets {
                assert_eq!(board.stage(card.number), card.stage);
                if card.stage == Stage::Out {
                    for j in 0..card.length {
                        let row = board.row(card.number, j as u32).unwrap();
                        assert_eq!(
                            literal.slots[card.f + j][row as usize - 1],
                            Some(card.number)
                        );
                    }
                }
            }
        }
    }
    assert!(seen[1..].iter().all(|&n| n > 100), "{seen:?}");
}

/// Tickets that stay out while hundreds of others come and go are still found by their number.
#[test]
fn old_tickets_are_found() {
    let mut board = Board::new();
    let sizes = Sizes {
        rows: 16,
        columns: 256,
        places: 64,
        lead: 64,
        first_number: 1,
    };
    board.open(sizes).unwrap();
    for number in 1..=60 {
        assert_eq!(board.book(0, 1), Ok(number));
        while board.stage(number) == Stage::Seeking {
            board.step(number).unwrap();
        }
        board.collect(number).unwrap();
    }
    for number in 61..2000 {
        assert_eq!(board.book(0, 1), Ok(number));
        for old in 1..=60 {
            assert_eq!(board.stage(old), Stage::Out);
        }
        assert_eq!(board.withdraw(number), Ok(()));
        assert_eq!(board.withdraw(number), Err(Refusal::Unknown));
    }
}
