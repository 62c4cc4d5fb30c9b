//! The rules of the board (RULES.md, sections 2 to 11), with the chooser "lowest".
//!
//! How the table is kept:
//!
//! - `vacant[c]` has one bit for each row of column c, set while the slot is vacant.
//! - `holders[c]` has one bit for each place, set while the ticket in that place has a mark in
//!   column c. A ticket has one mark in a column at most, so this says who stands in a full column.
//! - `soft` has one bit for each place, set while the ticket in it is soft. A full column is a wall
//!   exactly when `holders[c] & soft` is 0, so nothing has to be counted when a ticket is granted
//!   or handed back.
//! - `rows[p][j]` is the row of the mark that the ticket in place p has in column f + j.
//! - `lowest` is the place of the lowest-numbered soft ticket, kept from call to call.

pub const MOST_ROWS: u32 = 16;
pub const MOST_COLUMNS: u32 = 256;
pub const MOST_PLACES: u32 = 64;
pub const MOST_LEAD: u32 = 64;
pub const MOST_LENGTH: u32 = 64;
pub const MOST_FIRST_NUMBER: u32 = 1_000_000_000;
pub const MOST_NUMBER: u32 = 2_000_000_000;

const COLUMNS: usize = MOST_COLUMNS as usize;
const PLACES: usize = MOST_PLACES as usize;
const LENGTH: usize = MOST_LENGTH as usize;
/// Entries of the table that leads from a number to its place.
const HINTS: usize = 256;

/// Why a call was refused, by its number in section 11.
#[derive(Clone, Copy, Debug, PartialEq, Eq)]
pub enum Refusal {
    /// 1: a figure of an opening is outside its limits.
    Sizes = 1,
    /// 2: a length, start or column is outside its limits.
    Range = 2,
    /// 3: the numbers have run out.
    Numbers = 3,
    /// 4: no place is idle.
    Places = 4,
    /// 5: no ticket has that number.
    Unknown = 5,
    /// 6: the ticket is in the wrong stage.
    Stage = 6,
}

/// The stages of section 5.
#[derive(Clone, Copy, Debug, PartialEq, Eq)]
pub enum Stage {
    Idle,
    Seeking,
    Without,
    Granted,
    Out,
    Closing,
}

impl Stage {
    pub const fn word(self) -> &'static str {
        match self {
            Stage::Idle => "idle",
            Stage::Seeking => "seeking",
            Stage::Without => "without",
            Stage::Granted => "granted",
            Stage::Out => "out",
            Stage::Closing => "closing",
        }
    }
}

/// The actions of rule 3, with their numbers.
#[derive(Clone, Copy, Debug, PartialEq, Eq)]
pub enum Action {
    Wipe = 1,
    Over = 2,
    Without = 3,
    Grant = 4,
    Mark = 5,
    Wall = 6,
}

/// What a step answers.
#[derive(Clone, Copy, Debug, PartialEq, Eq)]
pub struct Report {
    pub number: u32,
    pub action: Action,
    pub column: u32,
    pub row: u32,
}

/// A window: its first column and its length.
#[derive(Clone, Copy, Debug, PartialEq, Eq)]
pub struct Span {
    pub first: u32,
    pub length: u32,
}

/// The five figures of an opening.
#[derive(Clone, Copy, Debug, PartialEq, Eq)]
pub struct Sizes {
    pub rows: u32,
    pub columns: u32,
    pub places: u32,
    pub lead: u32,
    pub first_number: u32,
}

impl Sizes {
    /// The sizes of a board never opened.
    pub const NEVER_OPENED: Sizes = Sizes {
        rows: 1,
        columns: 1,
        places: 1,
        lead: 0,
        first_number: 1,
    };

    fn within_limits(&self) -> bool {
        (1..=MOST_ROWS).contains(&self.rows)
            && (1..=MOST_COLUMNS).contains(&self.columns)
            && (1..=MOST_PLACES).contains(&self.places)
            && self.lead <= MOST_LEAD
            && (1..=MOST_FIRST_NUMBER).contains(&self.first_number)
    }
}

/// What a place is busy with: the stages, with seeking told apart by its direction.
#[derive(Clone, Copy, Debug, PartialEq, Eq)]
enum State {
    Idle,
    Forward,
    BackingOut,
    Without,
    Granted,
    Out,
    Closing,
}

/// One place and the ticket in it. An idle place has number 0, which no booking ever gets.
#[derive(Clone, Copy, Debug)]
struct Ticket {
    number: u32,
    start: u16,
    length: u16,
    /// f, the first column of the window being tried.
    first: u16,
    /// k, the count of marks.
    marks: u16,
    /// The next first column, while backing out.
    next: u16,
    state: State,
    /// The hand-back count that the search goes by.
    seen: u64,
}

impl Ticket {
    const NONE: Ticket = Ticket {
        number: 0,
        start: 0,
        length: 0,
        first: 0,
        marks: 0,
        next: 0,
        state: State::Idle,
        seen: 0,
    };

    fn stage(&self) -> Stage {
        match self.state {
            State::Idle => Stage::Idle,
            State::Forward | State::BackingOut => Stage::Seeking,
            State::Without => Stage::Without,
            State::Granted => Stage::Granted,
            State::Out => Stage::Out,
            State::Closing => Stage::Closing,
        }
    }
}

/// What can be seen of a ticket from outside, for the tools beside this program.
#[derive(Clone, Copy, Debug, PartialEq, Eq)]
pub struct View {
    pub number: u32,
    pub stage: Stage,
    pub start: u32,
    pub length: u32,
    pub first: u32,
    pub marks: u32,
    /// The next first column, while it backs out.
    pub backing_out_to: Option<u32>,
    /// Whether something was handed back that its search does not go by.
    pub outdated: bool,
}

#[derive(Clone)]
pub struct Board {
    sizes: Sizes,
    next_number: u32,
    hand_backs: u64,
    idle: u64,
    soft: u64,
    lowest: usize,
    vacant: [u16; COLUMNS],
    holders: [u64; COLUMNS],
    tickets: [Ticket; PLACES],
    rows: [[u8; LENGTH]; PLACES],
    hints: [u8; HINTS],
}

impl Default for Board {
    fn default() -> Self {
        Self::new()
    }
}

impl Board {
    /// A board never opened.
    pub fn new() -> Board {
        let mut board = Board {
            sizes: Sizes::NEVER_OPENED,
            next_number: 0,
            hand_backs: 0,
            idle: 0,
            soft: 0,
            lowest: 0,
            vacant: [0; COLUMNS],
            holders: [0; COLUMNS],
            tickets: [Ticket::NONE; PLACES],
            rows: [[0; LENGTH]; PLACES],
            hints: [0; HINTS],
        };
        board.clear(Sizes::NEVER_OPENED);
        board
    }

    /// Makes the board new. `rows` and `hints` may keep old entries: a row is written before it is
    /// read, and a hint is only believed when the place that it names has the number sought.
    fn clear(&mut self, sizes: Sizes) {
        self.sizes = sizes;
        self.next_number = sizes.first_number;
        self.hand_backs = 0;
        self.idle = u64::MAX >> (MOST_PLACES - sizes.places);
        self.soft = 0;
        self.lowest = 0;
        self.vacant.fill(u16::MAX >> (MOST_ROWS - sizes.rows));
        self.holders.fill(0);
        self.tickets.fill(Ticket::NONE);
    }

    // ---- The calls of section 10 ----

    pub fn open(&mut self, sizes: Sizes) -> Result<(), Refusal> {
        if !sizes.within_limits() {
            return Err(Refusal::Sizes);
        }
        self.clear(sizes);
        Ok(())
    }

    pub fn book(&mut self, start: u32, length: u32) -> Result<u32, Refusal> {
        let end = u64::from(start) + u64::from(length);
        if !(1..=MOST_LENGTH).contains(&length) || end > u64::from(self.sizes.columns) {
            return Err(Refusal::Range);
        }
        if self.next_number > MOST_NUMBER {
            return Err(Refusal::Numbers);
        }
        if self.idle == 0 {
            return Err(Refusal::Places);
        }
        let place = self.idle.trailing_zeros() as usize;
        let number = self.next_number;
        self.next_number += 1;
        self.tickets[place] = Ticket {
            number,
            start: start as u16,
            length: length as u16,
            first: start as u16,
            marks: 0,
            next: 0,
            state: State::Forward,
            seen: self.hand_backs,
        };
        self.idle &= !bit(place);
        // The newest ticket has the highest number of all.
        if self.soft == 0 {
            self.lowest = place;
        }
        self.soft |= bit(place);
        self.hints[number as usize % HINTS] = place as u8;
        Ok(number)
    }

    pub fn step(&mut self, number: u32) -> Result<Report, Refusal> {
        let named = self.find_soft(number)?;
        Ok(self.step_place(named))
    }

    /// Makes steps until the ticket named is soft no more, or `budget` or `room` of them are made.
    /// The program keeps no reports of a drive, so the journal is no more than its room here.
    pub fn drive(&mut self, number: u32, budget: u32, room: u32) -> Result<(u32, Stage), Refusal> {
        let named = self.find_soft(number)?;
        let most = budget.min(room);
        let mut made = 0;
        while made < most && self.soft & bit(named) != 0 {
            self.step_place(named);
            made += 1;
        }
        // No booking is taken during a drive, so the place is still this ticket's, or it is idle.
        Ok((made, self.tickets[named].stage()))
    }

    pub fn collect(&mut self, number: u32) -> Result<Option<Span>, Refusal> {
        let place = self.find(number).ok_or(Refusal::Unknown)?;
        let ticket = &mut self.tickets[place];
        match ticket.state {
            State::Granted => {
                ticket.state = State::Out;
                Ok(Some(Span {
                    first: u32::from(ticket.first),
                    length: u32::from(ticket.length),
                }))
            }
            State::Without => {
                self.vacate(place);
                Ok(None)
            }
            _ => Err(Refusal::Stage),
        }
    }

    pub fn withdraw(&mut self, number: u32) -> Result<(), Refusal> {
        let place = self.find(number).ok_or(Refusal::Unknown)?;
        let ticket = &mut self.tickets[place];
        if !matches!(ticket.state, State::Forward | State::BackingOut) {
            return Err(Refusal::Stage);
        }
        if ticket.marks > 0 {
            ticket.state = State::Closing;
        } else {
            self.harden(place);
            self.vacate(place);
        }
        Ok(())
    }

    pub fn back(&mut self, number: u32) -> Result<(), Refusal> {
        let place = self.find(number).ok_or(Refusal::Unknown)?;
        let ticket = &mut self.tickets[place];
        if ticket.state != State::Out {
            return Err(Refusal::Stage);
        }
        ticket.state = State::Closing;
        self.hand_backs += 1;
        if self.soft == 0 || number < self.tickets[self.lowest].number {
            self.lowest = place;
        }
        self.soft |= bit(place);
        Ok(())
    }

    pub fn row(&self, number: u32, offset: u32) -> Result<u32, Refusal> {
        let place = self.find(number).ok_or(Refusal::Unknown)?;
        let ticket = &self.tickets[place];
        if ticket.state != State::Out {
            return Err(Refusal::Stage);
        }
        if offset >= u32::from(ticket.length) {
            return Err(Refusal::Range);
        }
        Ok(u32::from(self.rows[place][offset as usize]))
    }

    pub fn show(&self, column: u32) -> Result<u32, Refusal> {
        if column >= self.sizes.columns {
            return Err(Refusal::Range);
        }
        Ok(self.sizes.rows - self.vacant[column as usize].count_ones())
    }

    pub fn stage(&self, number: u32) -> Stage {
        self.find(number)
            .map_or(Stage::Idle, |place| self.tickets[place].stage())
    }

    // ---- Looking on, for the tools beside this program ----

    pub fn sizes(&self) -> Sizes {
        self.sizes
    }

    pub fn next_number(&self) -> u32 {
        self.next_number
    }

    pub fn idle_places(&self) -> u32 {
        self.idle.count_ones()
    }

    /// The tickets on the board, in no particular order.
    pub fn tickets(&self) -> impl Iterator<Item = View> + '_ {
        let used = self.tickets.iter().filter(|t| t.state != State::Idle);
        used.map(|t| View {
            number: t.number,
            stage: t.stage(),
            start: u32::from(t.start),
            length: u32::from(t.length),
            first: u32::from(t.first),
            marks: u32::from(t.marks),
            backing_out_to: (t.state == State::BackingOut).then_some(u32::from(t.next)),
            outdated: t.seen != self.hand_backs,
        })
    }

    /// What a step naming this ticket would do: the ticket that it would work on and the action.
    pub fn foresee(&self, number: u32) -> Result<(u32, Action), Refusal> {
        let (worker, action) = self.plan(self.find_soft(number)?);
        Ok((self.tickets[worker].number, action))
    }

    // ---- A step (section 7) ----

    #[inline]
    fn step_place(&mut self, named: usize) -> Report {
        let (worker, action) = self.plan(named);
        self.perform(worker, action)
    }

    /// What a step naming the ticket in this place does: the place of the ticket that it works on
    /// (rules 1 and 2) and the action (rule 3).
    ///
    /// Rule 2 asks the same questions as the table of rule 3, so one walk answers both: a ticket that
    /// is due for none of the first five actions meets a full column, which is a wall or blocks it.
    #[inline]
    fn plan(&self, named: usize) -> (usize, Action) {
        let ahead = self.tickets[named].number - self.tickets[self.lowest].number;
        let mut place = if ahead > self.sizes.lead {
            self.lowest
        } else {
            named
        };
        loop {
            let ticket = &self.tickets[place];
            if ticket.state != State::Forward {
                return (place, Action::Wipe);
            }
            let past_end = u32::from(ticket.first + ticket.length) > self.sizes.columns;
            if past_end || ticket.marks == ticket.length {
                let action = if ticket.seen != self.hand_backs {
                    Action::Over
                } else if past_end {
                    Action::Without
                } else {
                    Action::Grant
                };
                return (place, action);
            }
            let column = usize::from(ticket.first + ticket.marks);
            if self.vacant[column] != 0 {
                return (place, Action::Mark);
            }
            match self.lowest_of(self.holders[column] & self.soft) {
                Some(other) => place = other,
                None => return (place, Action::Wall),
            }
        }
    }

    #[inline]
    fn perform(&mut self, place: usize, action: Action) -> Report {
        let ticket = &mut self.tickets[place];
        let number = ticket.number;
        let (column, row) = match action {
            Action::Wipe => {
                ticket.marks -= 1;
                let column = ticket.first + ticket.marks;
                let row = self.rows[place][usize::from(ticket.marks)];
                self.vacant[usize::from(column)] |= 1 << (row - 1);
                self.holders[usize::from(column)] &= !bit(place);
                if ticket.marks == 0 {
                    if ticket.state == State::Closing {
                        self.harden(place);
                        self.vacate(place);
                    } else {
                        ticket.state = State::Forward;
                        ticket.first = ticket.next;
                        if ticket.first == ticket.start {
                            ticket.seen = self.hand_backs;
                        }
                    }
                }
                (column, row)
            }
            Action::Over => {
                let start = ticket.start;
                if ticket.marks == 0 {
                    ticket.first = start;
                    ticket.seen = self.hand_backs;
                } else {
                    ticket.next = start;
                    ticket.state = State::BackingOut;
                }
                (start, 0)
            }
            Action::Without => {
                ticket.state = State::Without;
                let start = ticket.start;
                self.harden(place);
                (start, 0)
            }
            Action::Grant => {
                ticket.state = State::Granted;
                let first = ticket.first;
                self.harden(place);
                (first, 0)
            }
            Action::Mark => {
                let column = ticket.first + ticket.marks;
                let mask = &mut self.vacant[usize::from(column)];
                // The chooser "lowest": the lowest vacant row.
                let row = mask.trailing_zeros() as u8 + 1;
                *mask &= *mask - 1;
                self.holders[usize::from(column)] |= bit(place);
                self.rows[place][usize::from(ticket.marks)] = row;
                ticket.marks += 1;
                (column, row)
            }
            Action::Wall => {
                let column = ticket.first + ticket.marks;
                if ticket.marks == 0 {
                    ticket.first = column + 1;
                } else {
                    ticket.next = column + 1;
                    ticket.state = State::BackingOut;
                }
                (column, 0)
            }
        };
        Report {
            number,
            action,
            column: u32::from(column),
            row: u32::from(row),
        }
    }

    // ---- Finding tickets ----

    /// The place of the ticket with that number.
    #[inline]
    fn find(&self, number: u32) -> Option<usize> {
        let hint = usize::from(self.hints[number as usize % HINTS]);
        if self.tickets[hint].number == number && number != 0 {
            return Some(hint);
        }
        self.search(number)
    }

    /// The long way, for numbers that are not on the board and the few whose hint was overwritten.
    #[cold]
    fn search(&self, number: u32) -> Option<usize> {
        if number == 0 || number >= self.next_number {
            return None;
        }
        self.tickets.iter().position(|t| t.number == number)
    }

    #[inline]
    fn find_soft(&self, number: u32) -> Result<usize, Refusal> {
        let place = self.find(number).ok_or(Refusal::Unknown)?;
        if self.soft & bit(place) == 0 {
            return Err(Refusal::Stage);
        }
        Ok(place)
    }

    /// Of a set of places, the one whose ticket has the lowest number.
    #[inline]
    fn lowest_of(&self, mut set: u64) -> Option<usize> {
        let mut best = None;
        let mut least = u32::MAX;
        while set != 0 {
            let place = set.trailing_zeros() as usize;
            set &= set - 1;
            if self.tickets[place].number < least {
                least = self.tickets[place].number;
                best = Some(place);
            }
        }
        best
    }

    /// The ticket in this place is soft no more.
    fn harden(&mut self, place: usize) {
        self.soft &= !bit(place);
        if place == self.lowest {
            self.lowest = self.lowest_of(self.soft).unwrap_or(0);
        }
    }

    /// The place turns idle and forgets its ticket.
    fn vacate(&mut self, place: usize) {
        self.tickets[place] = Ticket::NONE;
        self.idle |= bit(place);
    }
}

#[inline]
const fn bit(place: usize) -> u64 {
    1 << place
}
