//! How long bookings wait: the largest number of reports that any booking saw between being taken
//! and being decided or withdrawn, for several racks and orders of steps, against the promised
//! bound of (N + H)² × (2C + 1).

mod every;
mod orders;
mod watch;

use std::process::ExitCode;

use reference::board::Sizes;

use orders::Order;

/// Rows, columns, places and lead.
type Rack = (u32, u32, u32, u32);

/// Racks for the single orders.
const RACKS: [Rack; 14] = [
    (1, 4, 2, 0),
    (1, 6, 3, 2),
    (2, 8, 4, 0),
    (2, 8, 4, 4),
    (2, 8, 4, 16),
    (2, 16, 12, 8),
    (3, 24, 16, 16),
    (2, 32, 16, 64),
    (2, 64, 32, 32),
    (4, 64, 32, 0),
    (2, 64, 64, 64),
    (2, 256, 64, 64),
    (16, 256, 64, 0),
    (16, 256, 64, 64),
];

/// Racks so small that every order of calls can be tried.
const SMALLEST: [Rack; 14] = [
    (1, 1, 1, 0),
    (1, 2, 1, 0),
    (1, 1, 2, 0),
    (1, 1, 2, 1),
    (1, 1, 2, 3),
    (1, 1, 3, 0),
    (1, 2, 2, 0),
    (1, 2, 2, 1),
    (2, 2, 2, 1),
    (1, 3, 2, 0),
    (1, 1, 3, 1),
    (1, 1, 4, 0),
    (2, 2, 3, 0),
    (1, 2, 3, 0),
];

fn sizes((rows, columns, places, lead): Rack) -> Sizes {
    Sizes {
        rows,
        columns,
        places,
        lead,
        first_number: 1,
    }
}

fn bound(sizes: Sizes) -> u64 {
    u64::from(sizes.places + sizes.lead).pow(2) * u64::from(2 * sizes.columns + 1)
}

fn main() -> ExitCode {
    let mut arguments = std::env::args().skip(1);
    let scale: f64 = match arguments.next().map(|text| text.parse()) {
        None => 1.0,
        Some(Ok(scale)) if arguments.next().is_none() && scale > 0.0 => scale,
        _ => {
            eprintln!(
                "usage: waiting [SCALE]\n  SCALE multiplies the steps of the open-ended orders"
            );
            return ExitCode::from(2);
        }
    };
    println!(
        "{:>4} {:>7} {:>6} {:>4}  {:<9} {:>9} {:>11} {:>12} {:>12} {:>8}",
        "rows",
        "columns",
        "places",
        "lead",
        "order",
        "bookings",
        "reports",
        "longest wait",
        "bound",
        "percent"
    );
    let mut kept = true;
    for rack in RACKS {
        let sizes = sizes(rack);
        let bound = bound(sizes);
        for order in Order::ALL {
            let seen = order.run(sizes, scale);
            if seen.bookings == 0 {
                // The rack is too small for this one.
                continue;
            }
            let percent = seen.longest as f64 * 100.0 / bound as f64;
            println!(
                "{:>4} {:>7} {:>6} {:>4}  {:<9} {:>9} {:>11} {:>12} {bound:>12} {percent:>8.3}",
                sizes.rows,
                sizes.columns,
                sizes.places,
                sizes.lead,
                order.name(),
                seen.bookings,
                seen.reports,
                seen.longest
            );
            kept &= seen.longest <= bound;
        }
    }
    println!("\nEvery order of calls, on the smallest racks:\n");
    println!(
        "{:>4} {:>7} {:>6} {:>4}  {:>9} {:>12} {:>12} {:>8}",
        "rows", "columns", "places", "lead", "positions", "longest wait", "bound", "percent"
    );
    for rack in SMALLEST {
        let sizes = sizes(rack);
        let bound = bound(sizes);
        let every = every::run(sizes);
        let percent = f64::from(every.longest) * 100.0 / bound as f64;
        println!(
            "{:>4} {:>7} {:>6} {:>4}  {:>9} {:>12} {bound:>12} {percent:>8.3}",
            sizes.rows, sizes.columns, sizes.places, sizes.lead, every.positions, every.longest
        );
        kept &= u64::from(every.longest) <= bound;
    }
    if kept {
        println!("\nNo booking waited longer than the bound.");
        ExitCode::SUCCESS
    } else {
        println!("\nA booking waited longer than the bound!");
        ExitCode::FAILURE
    }
}
