//! Orders of calls, from harmless ones to those that try to keep a booking waiting.

use mornings::dice::Dice;
use reference::board::{Action, MOST_LENGTH, Sizes, Stage, View};

use crate::watch::{Seen, Watch};

#[derive(Clone, Copy, PartialEq, Eq)]
pub enum Order {
    /// Everything at random.
    Random,
    /// Every step names the newest soft ticket; bookings come as soon as there is a place, and
    /// windows are handed back soon.
    Newest,
    /// As tangled as the mornings of that shape: the newest named most, and drops and hand-backs when
    /// somebody's search is nearly done.
    Tangled,
    /// Looks one step ahead: never lets a search end as long as any other step can be made, and
    /// then hands something back so that all searches start over.
    Spoiler,
    /// A rack set up for the purpose: every search goes through all columns and finds nothing, and
    /// there are as many hand-backs as can be had, each when all searches are one step from their
    /// end.
    Built,
}

impl Order {
    pub const ALL: [Order; 5] = [
        Order::Random,
        Order::Newest,
        Order::Tangled,
        Order::Spoiler,
        Order::Built,
    ];

    pub fn name(self) -> &'static str {
        match self {
            Order::Random => "random",
            Order::Newest => "newest",
            Order::Tangled => "tangled",
            Order::Spoiler => "spoiler",
            Order::Built => "built",
        }
    }

    pub fn run(self, sizes: Sizes, scale: f64) -> Seen {
        let mut seen = Seen::default();
        if self == Order::Built {
            // Where the searches begin, and how many of them are older than the booking that is kept
            // waiting, in eighths of the places.
            let mut begins = vec![0, 1, 2, 3, sizes.columns / 4, sizes.columns / 2];
            begins.extend((1..4).map(|walls| sizes.columns.saturating_sub(walls * MOST_LENGTH)));
            begins.sort_unstable();
            begins.dedup();
            for begin in begins {
                for eighths in 0..=8 {
                    seen = seen.and(built(sizes, begin, eighths));
                }
            }
            return seen;
        }
        let steps = (150_000.0 * scale) as u64;
        for seed in 1..=4 {
            let mut watch = Watch::new(sizes);
            let mut dice = Dice::new(seed * 1_000 + self as u64);
            let longest = longest_booking(sizes, seed);
            while watch.reports() < steps {
                match self {
                    Order::Random => random(&mut watch, &mut dice, longest),
                    Order::Newest => newest(&mut watch, &mut dice, longest),
                    Order::Tangled => tangled(&mut watch, &mut dice, longest),
                    _ => spoiler(&mut watch, &mut dice, longest),
                }
            }
            seen = seen.and(watch.close());
        }
        seen
    }
}

/// Other lengths in other runs: from short ones to all columns.
fn longest_booking(sizes: Sizes, seed: u64) -> u32 {
    let most = sizes.columns.min(MOST_LENGTH);
    (most * seed as u32 / 4).max(1)
}

fn one_of(numbers: &[u32], dice: &mut Dice) -> Option<u32> {
    (!numbers.is_empty()).then(|| numbers[dice.below(numbers.len() as u32) as usize])
}

fn soft(watch: &Watch) -> Vec<u32> {
    let is_soft = |t: &View| matches!(t.stage, Stage::Seeking | Stage::Closing);
    let soft = watch.tickets().into_iter().filter(is_soft);
    soft.map(|ticket| ticket.number).collect()
}

fn book_at_random(watch: &mut Watch, dice: &mut Dice, longest: u32) {
    let columns = watch.board().sizes().columns;
    let length = dice.within((1, longest));
    let start = if dice.percent(60) {
        0
    } else {
        dice.within((0, columns - length))
    };
    watch.book(start, length);
}

fn collect_all(watch: &mut Watch) {
    for stage in [Stage::Granted, Stage::Without] {
        for number in watch.numbers(stage) {
            watch.collect(number);
        }
    }
}

fn random(watch: &mut Watch, dice: &mut Dice, longest: u32) {
    match dice.below(20) {
        0 | 1 => book_at_random(watch, dice, longest),
        2 => collect_all(watch),
        3 => {
            if let Some(number) = one_of(&watch.numbers(Stage::Out), dice) {
                watch.back(number);
            }
        }
        4 if dice.percent(10) => {
            if let Some(number) = one_of(&watch.numbers(Stage::Seeking), dice) {
                watch.withdraw(number);
            }
        }
        _ => {
            if let Some(number) = one_of(&soft(watch), dice) {
                watch.step(number);
            } else if watch.board().idle_places() > 0 {
                book_at_random(watch, dice, longest);
            } else {
                free_a_place(watch, dice);
            }
        }
    }
}

fn free_a_place(watch: &mut Watch, dice: &mut Dice) {
    collect_all(watch);
    if let Some(number) = one_of(&watch.numbers(Stage::Out), dice) {
        watch.back(number);
    }
}

fn newest(watch: &mut Watch, dice: &mut Dice, longest: u32) {
    collect_all(watch);
    while watch.board().idle_places() > 0 {
        book_at_random(watch, dice, longest);
    }
    let soft = soft(watch);
    match soft.last() {
        Some(&number) if !dice.percent(2) => {
            watch.step(number);
        }
        _ => free_a_place(watch, dice),
    }
}

/// Whether a step naming this ticket would decide one.
fn would_decide(watch: &Watch, number: u32) -> bool {
    matches!(
        watch.board().foresee(number),
        Ok((_, Action::Grant | Action::Without))
    )
}

fn tangled(watch: &mut Watch, dice: &mut Dice, longest: u32) {
    if dice.percent(70) {
        collect_all(watch);
    }
    if dice.percent(70) {
        book_at_random(watch, dice, longest);
    }
    let soft = soft(watch);
    let Some(&last) = soft.last() else {
        free_a_place(watch, dice);
        return;
    };
    if soft.iter().any(|&number| would_decide(watch, number))
        && dice.percent(40)
        && let Some(number) = one_of(&watch.numbers(Stage::Out), dice)
    {
        watch.back(number);
    }
    if dice.percent(1) {
        // Not the lowest one: that is the one to keep waiting.
        let seeking = watch.numbers(Stage::Seeking);
        if let Some(number) = seeking.get(1..).and_then(|rest| one_of(rest, dice)) {
            watch.withdraw(number);
        }
        return;
    }
    let number = if dice.percent(50) {
        last
    } else {
        one_of(&soft, dice).unwrap_or(last)
    };
    watch.step(number);
}

fn spoiler(watch: &mut Watch, dice: &mut Dice, longest: u32) {
    collect_all(watch);
    while watch.board().idle_places() > 0 {
        // Short ones to hand back, and long ones that search in vain.
        let length = if dice.percent(50) { 1 } else { longest };
        let columns = watch.board().sizes().columns;
        let start = if length == 1 { dice.below(columns) } else { 0 };
        watch.book(start, length);
    }
    let soft = soft(watch);
    // A step that decides nothing, naming the newest ticket possible: the oldest gets the least.
    let harmless = soft
        .iter()
        .rev()
        .find(|&&number| !would_decide(watch, number));
    if let Some(&number) = harmless {
        watch.step(number);
        return;
    }
    // Everybody is one step from the end. Now start all searches over, with the shortest window.
    let outs = watch
        .tickets()
        .into_iter()
        .filter(|t| t.stage == Stage::Out);
    if let Some(short) = outs.min_by_key(|t| (t.length, t.number)) {
        watch.back(short.number);
        return;
    }
    // Nothing to hand back: one must be decided. A grant can be handed back later.
    let grant = soft.iter().rev().find(|&&number| {
        let foreseen = watch.board().foresee(number);
        matches!(foreseen, Ok((worker, Action::Grant)) if worker != soft[0])
    });
    if let Some(&number) = grant.or(soft.last()) {
        watch.step(number);
    }
}

/// The rack set up to keep one booking waiting.
///
/// From column `begin` on there is a wall every so many columns, made of windows of one column, so
/// that a search for a long window marks and wipes all these columns and finds nothing. One row of
/// the columns between the walls stays vacant. The places left are shared out: some are searches older
/// than the booking that is kept waiting, the rest hold windows of one column, to be handed back. A
/// hand-back comes whenever all searches are one step from their end. Its place goes to one more
/// search; when there is nothing more to hand back, a new booking of one column is granted and handed
/// back, as long as the lead lets its number be named.
fn built(sizes: Sizes, begin: u32, eighths: u32) -> Seen {
    let Sizes {
        rows,
        columns,
        places,
        lead,
        ..
    } = sizes;
    let mut watch = Watch::new(sizes);
    if begin >= columns {
        return watch.close();
    }
    let length = (columns - begin).min(MOST_LENGTH);
    // The walls: as few as will do, the last one in the last column.
    let is_wall = |column: u32| column >= begin && (columns - 1 - column).is_multiple_of(length);
    let walls: Vec<u32> = (0..columns).filter(|&column| is_wall(column)).collect();
    // Slots for windows to hand back: all of the columns before, and between the walls all rows but
    // one.
    let mut spare = Vec::new();
    for column in (0..columns).filter(|&column| !is_wall(column)) {
        let count = if column < begin { rows } else { rows - 1 };
        spare.extend((0..count).map(|_| column));
    }
    let spent = walls.len() as u32 * rows;
    if spent + 2 > places || spare.is_empty() {
        return watch.close();
    }
    for &column in &walls {
        for _ in 0..rows {
            grant_one_column(&mut watch, column);
        }
    }
    let wall_numbers = watch.numbers(Stage::Out);
    let free = places - spent - 1;
    let older = free * eighths / 8;
    for &column in spare.iter().take((free - older) as usize) {
        grant_one_column(&mut watch, column);
    }
    for _ in 0..older {
        watch.book(begin, length);
    }
    let target = watch.book(begin, length).expect("a place was left for it");

    loop {
        // Every search goes on until it is one step from its end.
        for number in watch.numbers(Stage::Seeking) {
            while !would_decide(&watch, number) {
                watch.step(number).expect("a seeking ticket can be stepped");
            }
        }
        let seeking = watch.numbers(Stage::Seeking);
        let (Some(&oldest), Some(&latest)) = (seeking.first(), seeking.last()) else {
            break;
        };
        if !seeking.contains(&target) {
            break;
        }
        let nameable = watch.board().next_number() <= oldest + lead;

        // Start all searches over, and let one more join them. The last place is kept for later.
        let mut outs = watch.numbers(Stage::Out);
        outs.retain(|number| !wall_numbers.contains(number));
        if let Some(&number) = outs.first() {
            watch.back(number);
            while watch.board().stage(number) == Stage::Closing {
                watch.step(number);
            }
            if nameable && outs.len() > 1 {
                watch.book(begin, length);
            }
            continue;
        }

        // Nothing to hand back. A new window of one column, if the lead lets it be named.
        if nameable && watch.board().idle_places() > 0 {
            grant_one_column(&mut watch, spare[0]);
            continue;
        }

        // Somebody has to go: the oldest, so that the lead reaches further, or else the latest.
        let leaves = if oldest != target { oldest } else { latest };
        watch.step(leaves);
        collect_all(&mut watch);
    }
    watch.close()
}

/// Takes a booking of one column, grants and collects it.
fn grant_one_column(watch: &mut Watch, column: u32) {
    if let Some(number) = watch.book(column, 1) {
        while watch.board().stage(number) == Stage::Seeking {
            watch.step(number);
        }
        watch.collect(number);
    }
}
