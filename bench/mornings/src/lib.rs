//! Writes console inputs ("mornings") of several shapes. The same shape, seed and sizes always give
//! the same bytes.

pub mod bad;
pub mod call;
pub mod dice;
pub mod shapes;

use std::io::{self, Write};

use reference::board::{Action, Board, MOST_FIRST_NUMBER, Sizes, Stage, View};

use call::Call;
use dice::Dice;
pub use shapes::{Habits, Shape};

/// Sizes that the user asked for. What is not asked for is drawn from the shape's own ranges, anew
/// at each opening.
#[derive(Clone, Copy, Default)]
pub struct Asked {
    pub rows: Option<u32>,
    pub columns: Option<u32>,
    pub places: Option<u32>,
    pub lead: Option<u32>,
}

/// Writes one morning. It has exactly `lines` lines; the last of a `bad` one may lack its LF.
pub fn write(
    shape: Shape,
    seed: u64,
    lines: u64,
    asked: Asked,
    out: &mut impl Write,
) -> io::Result<()> {
    let mut morning = Morning::new(shape, seed, asked);
    let mut text = Vec::new();
    for line in 0..lines {
        text.clear();
        morning.line(&mut text);
        if shape == Shape::Bad && line + 1 == lines && morning.dice.percent(50) {
            // A line that is just an LF would leave nothing at all.
            text.insert(0, b'x');
            text.pop();
        }
        out.write_all(&text)?;
    }
    Ok(())
}

/// A morning in the making. It plays its own calls on a board, so it knows which tickets there are
/// and what they are up to.
pub struct Morning {
    habits: Habits,
    asked: Asked,
    dice: Dice,
    board: Board,
    /// Lines until the board is opened again.
    until_open: u32,
    tickets: Vec<View>,
}

impl Morning {
    pub fn new(shape: Shape, seed: u64, asked: Asked) -> Morning {
        Morning {
            habits: shape.habits(),
            asked,
            dice: Dice::new(seed ^ (shape as u64) << 56),
            board: Board::new(),
            until_open: 0,
            tickets: Vec::new(),
        }
    }

    /// Adds one line, with its LF.
    pub fn line(&mut self, text: &mut Vec<u8>) {
        if self.dice.percent(self.habits.bad) {
            bad::line(&mut self.dice, text);
            return;
        }
        let call = if self.until_open == 0 {
            self.open()
        } else {
            self.until_open -= 1;
            self.look();
            if self.dice.percent(self.habits.refused) {
                self.refused_call()
            } else {
                self.good_call()
            }
        };
        call.play(&mut self.board);
        call.write(text);
    }

    fn open(&mut self) -> Call {
        let habits = self.habits;
        self.until_open = self.dice.within(habits.opened_every);
        let dice = &mut self.dice;
        let mut size = |asked: Option<u32>, range| {
            let drawn = dice.within(range);
            asked.unwrap_or(drawn)
        };
        let sizes = Sizes {
            rows: size(self.asked.rows, habits.rows),
            columns: size(self.asked.columns, habits.columns),
            places: size(self.asked.places, habits.places),
            lead: size(self.asked.lead, habits.lead),
            first_number: match self.dice.below(4) {
                0 => 1,
                1 => MOST_FIRST_NUMBER,
                _ => self.dice.within((1, MOST_FIRST_NUMBER)),
            },
        };
        Call::Open(sizes)
    }

    /// Takes down the tickets, lowest number first.
    fn look(&mut self) {
        self.tickets.clear();
        self.tickets.extend(self.board.tickets());
        self.tickets.sort_unstable_by_key(|t| t.number);
    }

    /// A ticket in one of the stages, picked by habit: the newest, the oldest or any.
    fn pick(&mut self, good: impl Fn(&View) -> bool) -> Option<View> {
        let count = self.tickets.iter().filter(|t| good(t)).count();
        if count == 0 {
            return None;
        }
        let roll = self.dice.below(100);
        let nth = if roll < self.habits.newest {
            count - 1
        } else if roll < self.habits.newest + self.habits.oldest {
            0
        } else {
            self.dice.below(count as u32) as usize
        };
        self.tickets.iter().filter(|t| good(t)).nth(nth).copied()
    }

    fn any(&mut self, stages: &[Stage]) -> Option<u32> {
        self.pick(|t| stages.contains(&t.stage)).map(|t| t.number)
    }

    fn has(&self, stages: &[Stage]) -> bool {
        self.tickets.iter().any(|t| stages.contains(&t.stage))
    }

    /// A call that the board accepts.
    fn good_call(&mut self) -> Call {
        let habits = self.habits;
        let soft = self.has(&[Stage::Seeking, Stage::Closing]);
        let decided = self.has(&[Stage::Granted, Stage::Without]);
        let weigh = |possible: bool, weight: u32| if possible { weight } else { 0 };
        let mut weights = [
            weigh(self.board.idle_places() > 0, habits.book),
            weigh(soft, habits.step),
            weigh(soft, habits.drive),
            weigh(decided, habits.collect),
            weigh(self.has(&[Stage::Seeking]), habits.drop),
            weigh(self.has(&[Stage::Out]), habits.back),
            habits.show,
        ];
        // With nothing to move on and no place left, only hand-backs get the morning going again.
        if !soft && !decided && weights[0] == 0 {
            weights[5] = 100;
        }
        let columns = self.board.sizes().columns;
        let call = match self.dice.weighted(&weights) {
            0 => Some(self.booking()),
            1 => self.any(&[Stage::Seeking, Stage::Closing]).map(Call::Step),
            2 => self
                .any(&[Stage::Seeking, Stage::Closing])
                .map(|number| Call::Drive(number, self.budget())),
            3 => self
                .any(&[Stage::Granted, Stage::Without])
                .map(Call::Collect),
            4 => self.drop(),
            5 => self.back(),
            _ => None,
        };
        call.unwrap_or_else(|| Call::Show(self.dice.below(columns)))
    }

    fn booking(&mut self) -> Call {
        let columns = self.board.sizes().columns;
        let (least, most) = self.habits.length;
        let most = most.min(columns);
        let length = self.dice.within((least.min(most), most));
        let start = if self.dice.percent(self.habits.from_first) {
            0
        } else {
            self.dice.within((0, columns - length))
        };
        Call::Book(start, length)
    }

    fn budget(&mut self) -> u32 {
        match self.dice.below(100) {
            0 => 0,
            1 => u32::MAX,
            roll if roll < self.habits.full_drives => self.dice.within((4000, 5000)),
            _ => self.dice.within(self.habits.budget),
        }
    }

    /// Tangled mornings drop those whom others wait for: a ticket that has marks.
    fn drop(&mut self) -> Option<Call> {
        let spiteful = self.habits.spiteful;
        let found = self.pick(|t| t.stage == Stage::Seeking && (t.marks > 0 || !spiteful));
        found.map(|t| Call::Drop(t.number))
    }

    /// Tangled mornings hand back when a search is about to end, so that it must start over.
    fn back(&mut self) -> Option<Call> {
        if self.habits.spiteful && self.dice.percent(80) {
            let nearly = |t: &View| {
                t.stage == Stage::Seeking
                    && matches!(
                        self.board.foresee(t.number),
                        Ok((_, Action::Grant | Action::Without))
                    )
            };
            if !self.tickets.iter().any(nearly) {
                return self.any(&[Stage::Seeking, Stage::Closing]).map(Call::Step);
            }
        }
        self.any(&[Stage::Out]).map(Call::Back)
    }

    /// A call with good figures that the board refuses, or at least may refuse.
    fn refused_call(&mut self) -> Call {
        let sizes = self.board.sizes();
        let next = self.board.next_number();
        let stages = [
            Stage::Seeking,
            Stage::Without,
            Stage::Granted,
            Stage::Out,
            Stage::Closing,
        ];
        let number = match self.dice.below(6) {
            0 => self.dice.below(next),
            1 => next + self.dice.below(3),
            2 => [0, u32::MAX, next.saturating_sub(200)][self.dice.below(3) as usize],
            _ => self.any(&stages).unwrap_or(next),
        };
        let far = [sizes.columns, sizes.columns + 1, u32::MAX][self.dice.below(3) as usize];
        let stage = self.board.stage(number);
        let seeking = stage == Stage::Seeking;
        let soft = seeking || stage == Stage::Closing;
        match self.dice.below(12) {
            0 => Call::Book(far, 1 + self.dice.below(64)),
            1 => Call::Book(
                self.dice.below(sizes.columns),
                [0, 65, u32::MAX][self.dice.below(3) as usize],
            ),
            2 => Call::Book(sizes.columns - 1, 2),
            3 if self.board.idle_places() == 0 => Call::Book(0, 1),
            4 => Call::Show(far),
            5 => {
                let mut wrong = sizes;
                match self.dice.below(5) {
                    0 => wrong.rows = [0, 17, u32::MAX][self.dice.below(3) as usize],
                    1 => wrong.columns = [0, 257, u32::MAX][self.dice.below(3) as usize],
                    2 => wrong.places = [0, 65, u32::MAX][self.dice.below(3) as usize],
                    3 => wrong.lead = [65, 66, u32::MAX][self.dice.below(3) as usize],
                    _ => {
                        wrong.first_number =
                            [0, MOST_FIRST_NUMBER + 1, u32::MAX][self.dice.below(3) as usize]
                    }
                }
                Call::Open(wrong)
            }
            6 | 7 if !soft => Call::Step(number),
            8 if !soft => Call::Drive(number, self.budget()),
            9 if !matches!(stage, Stage::Granted | Stage::Without) => Call::Collect(number),
            10 if !seeking => Call::Drop(number),
            _ if stage != Stage::Out => Call::Back(number),
            _ => Call::Step(number),
        }
    }
}
