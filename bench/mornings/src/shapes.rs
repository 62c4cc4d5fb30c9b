//! The shapes that a morning can have.

#[derive(Clone, Copy, Debug, PartialEq, Eq)]
pub enum Shape {
    /// A large rack, little of it used.
    Sparse,
    /// Columns nearly full all the time, with many bookings that find no window.
    Crowded,
    /// Many bookings of one to three columns.
    Small,
    /// Long windows on the largest rack.
    Long,
    /// Windows are handed back all the time.
    Backs,
    /// Many tickets searching the same columns at once, stepped one mark at a time, the newest
    /// named most, with drops and hand-backs when they hurt most.
    Tangled,
    /// Bad lines of every kind among good ones.
    Bad,
}

/// What a shape does how often. Shares are percentages, weights count against each other, and
/// ranges have both ends.
#[derive(Clone, Copy, Debug)]
pub struct Habits {
    pub rows: (u32, u32),
    pub columns: (u32, u32),
    pub places: (u32, u32),
    pub lead: (u32, u32),
    pub length: (u32, u32),
    /// Share of bookings that may begin in any column.
    pub from_first: u32,
    /// Weights of the verbs, as long as they are possible.
    pub book: u32,
    pub step: u32,
    pub drive: u32,
    pub collect: u32,
    pub drop: u32,
    pub back: u32,
    pub show: u32,
    /// Budgets of drives, and the share of drives with a budget above 4,000.
    pub budget: (u32, u32),
    pub full_drives: u32,
    /// Shares of the calls that name the newest and the oldest ticket that will do.
    pub newest: u32,
    pub oldest: u32,
    /// Drops and hand-backs are timed to upset others' searches.
    pub spiteful: bool,
    /// Shares of lines that the board refuses, and of those that the console refuses.
    pub refused: u32,
    pub bad: u32,
    /// Lines from one opening to the next.
    pub opened_every: (u32, u32),
}

const PLAIN: Habits = Habits {
    rows: (4, 16),
    columns: (96, 256),
    places: (32, 64),
    lead: (0, 64),
    length: (2, 24),
    from_first: 30,
    book: 20,
    step: 50,
    drive: 15,
    collect: 30,
    drop: 1,
    back: 10,
    show: 2,
    budget: (1, 40),
    full_drives: 40,
    newest: 20,
    oldest: 40,
    spiteful: false,
    refused: 4,
    bad: 0,
    opened_every: (3_000, 9_000),
};

impl Shape {
    pub const ALL: [Shape; 7] = [
        Shape::Sparse,
        Shape::Crowded,
        Shape::Small,
        Shape::Long,
        Shape::Backs,
        Shape::Tangled,
        Shape::Bad,
    ];

    pub const fn name(self) -> &'static str {
        match self {
            Shape::Sparse => "sparse",
            Shape::Crowded => "crowded",
            Shape::Small => "small",
            Shape::Long => "long",
            Shape::Backs => "backs",
            Shape::Tangled => "tangled",
            Shape::Bad => "bad",
        }
    }

    pub fn named(name: &str) -> Option<Shape> {
        Shape::ALL.into_iter().find(|shape| shape.name() == name)
    }

    pub const fn habits(self) -> Habits {
        match self {
            Shape::Sparse => Habits {
                rows: (8, 16),
                columns: (200, 256),
                length: (1, 12),
                from_first: 5,
                back: 60,
                ..PLAIN
            },
            Shape::Crowded => Habits {
                rows: (2, 4),
                columns: (64, 128),
                places: (48, 64),
                length: (2, 20),
                from_first: 70,
                back: 4,
                ..PLAIN
            },
            Shape::Small => Habits {
                rows: (2, 8),
                columns: (16, 64),
                places: (40, 64),
                length: (1, 3),
                from_first: 50,
                back: 25,
                ..PLAIN
            },
            Shape::Long => Habits {
                rows: (2, 12),
                columns: (256, 256),
                places: (40, 64),
                length: (40, 64),
                from_first: 80,
                step: 80,
                back: 4,
                budget: (1, 200),
                ..PLAIN
            },
            Shape::Backs => Habits {
                rows: (2, 6),
                columns: (48, 128),
                length: (2, 12),
                from_first: 80,
                back: 90,
                budget: (1, 12),
                full_drives: 15,
                ..PLAIN
            },
            Shape::Tangled => Habits {
                rows: (1, 4),
                columns: (12, 64),
                places: (8, 64),
                length: (2, 12),
                from_first: 75,
                book: 60,
                step: 90,
                drive: 2,
                collect: 60,
                drop: 2,
                back: 30,
                show: 1,
                budget: (1, 4),
                full_drives: 3,
                newest: 50,
                oldest: 5,
                spiteful: true,
                ..PLAIN
            },
            Shape::Bad => Habits {
                rows: (1, 16),
                columns: (1, 256),
                places: (1, 64),
                length: (1, 64),
                refused: 25,
                bad: 50,
                opened_every: (5, 400),
                ..PLAIN
            },
        }
    }
}
