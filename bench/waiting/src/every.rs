//! Tries every order of calls on a very small rack, and finds the longest wait that there can be.
//!
//! Two positions are taken as the same when the board cannot tell them apart: rows do not matter, the
//! hand-back count only matters as far as searches are out of date, and of the numbers only the gaps
//! matter, those above the lead all alike.
//!
//! One call is left out: dropping a ticket that stands as if it had just been taken (at its start,
//! without marks, its search up to date). It could be followed by the same booking again, for ever
//! and without a report. Without it no call can be undone unless a report came in between, so a
//! position that comes again within one wait means a wait without end.

use std::collections::{HashMap, HashSet};

use reference::board::{Board, Sizes, Stage, View};

pub struct Every {
    /// Positions met, with and without a booking that waits.
    pub positions: usize,
    pub longest: u32,
}

#[derive(Clone, Copy)]
enum Move {
    Book(u32, u32),
    Step(u32),
    Collect(u32),
    Drop(u32),
    Back(u32),
}

type Key = Vec<u8>;

pub fn run(sizes: Sizes) -> Every {
    let mut start = Board::new();
    start
        .open(sizes)
        .expect("the sizes are within their limits");
    let mut met = HashSet::from([key(&start, None)]);
    let mut waits = HashMap::new();
    let mut longest = 0;
    let mut open = vec![Box::new(start)];
    while let Some(board) = open.pop() {
        for call in moves(&board, None) {
            let mut after = board.clone();
            play(&mut after, call);
            if let Move::Book(..) = call {
                let target = board.next_number();
                longest = longest.max(wait(&after, target, &mut waits));
            }
            if met.insert(key(&after, None)) {
                open.push(after);
            }
        }
    }
    Every {
        positions: met.len() + waits.len(),
        longest,
    }
}

/// The most reports that can come from here on until the target is decided or withdrawn.
fn wait(board: &Board, target: u32, waits: &mut HashMap<Key, Option<u32>>) -> u32 {
    let key = key(board, Some(target));
    match waits.get(&key) {
        Some(Some(longest)) => return *longest,
        Some(None) => panic!("a wait without end"),
        None => waits.insert(key.clone(), None),
    };
    let mut longest = 0;
    for call in moves(board, Some(target)) {
        let mut after = Box::new(board.clone());
        let reports = play(&mut after, call);
        let more = if after.stage(target) == Stage::Seeking {
            wait(&after, target, waits)
        } else {
            0
        };
        longest = longest.max(reports + more);
    }
    waits.insert(key, Some(longest));
    longest
}

/// All calls that are accepted and change something, but for the drops left out. The target is not
/// dropped either: that would end its wait.
fn moves(board: &Board, target: Option<u32>) -> Vec<Move> {
    let mut moves = Vec::new();
    for ticket in board.tickets() {
        let number = ticket.number;
        match ticket.stage {
            Stage::Seeking => {
                moves.push(Move::Step(number));
                let fresh = ticket.marks == 0 && ticket.first == ticket.start && !ticket.outdated;
                if !fresh && Some(number) != target {
                    moves.push(Move::Drop(number));
                }
            }
            Stage::Closing => moves.push(Move::Step(number)),
            Stage::Granted | Stage::Without => moves.push(Move::Collect(number)),
            Stage::Out => moves.push(Move::Back(number)),
            Stage::Idle => {}
        }
    }
    if board.idle_places() > 0 {
        let columns = board.sizes().columns;
        for length in 1..=columns {
            moves.extend((0..=columns - length).map(|start| Move::Book(start, length)));
        }
    }
    moves
}

/// Makes a call, and answers how many reports it gave.
fn play(board: &mut Board, call: Move) -> u32 {
    match call {
        Move::Book(start, length) => board.book(start, length).map(|_| 0),
        Move::Step(number) => board.step(number).map(|_| 1),
        Move::Collect(number) => board.collect(number).map(|_| 0),
        Move::Drop(number) => board.withdraw(number).map(|()| 0),
        Move::Back(number) => board.back(number).map(|()| 0),
    }
    .expect("only calls that are accepted are tried")
}

/// What can be told of a position.
fn key(board: &Board, target: Option<u32>) -> Key {
    let gap = |from: u32, to: u32| (to - from).min(board.sizes().lead + 1) as u8;
    let mut tickets: Vec<View> = board.tickets().collect();
    tickets.sort_unstable_by_key(|ticket| ticket.number);
    let mut key = Vec::with_capacity(8 * tickets.len() + 1);
    let mut last = tickets.first().map_or(0, |ticket| ticket.number);
    for ticket in &tickets {
        let searching = ticket.stage == Stage::Seeking;
        key.extend([
            gap(last, ticket.number),
            ticket.stage as u8 | u8::from(Some(ticket.number) == target) << 7,
            ticket.start as u8,
            ticket.length as u8,
            ticket.first as u8,
            ticket.marks as u8,
            ticket.backing_out_to.map_or(u8::MAX, |column| column as u8),
            u8::from(searching && ticket.outdated),
        ]);
        last = ticket.number;
    }
    if !tickets.is_empty() {
        key.push(gap(last, board.next_number()));
    }
    key
}

#[cfg(test)]
mod tests {
    use super::*;

    #[test]
    fn no_wait_is_longer_than_the_bound() {
        for (rows, columns, places, lead) in [(1, 1, 1, 0), (1, 1, 2, 1), (1, 2, 2, 0)] {
            let sizes = Sizes {
                rows,
                columns,
                places,
                lead,
                first_number: 1,
            };
            let every = run(sizes);
            assert!(every.positions > 1);
            assert!(every.longest > 0);
            assert!(every.longest <= (places + lead).pow(2) * (2 * columns + 1));
        }
    }
}
