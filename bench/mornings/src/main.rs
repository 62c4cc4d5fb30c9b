//! Writes a morning of a given shape to standard output.

use std::fs::File;
use std::io::{self, BufWriter, Write};
use std::os::fd::AsFd;
use std::process::ExitCode;

use mornings::{Asked, Shape};

const USAGE: &str = "usage: mornings SHAPE SEED LINES [ROWS [COLUMNS [PLACES [LEAD]]]]
  SHAPE is sparse, crowded, small, long, backs, tangled or bad
  a size given as - is left to the shape";

fn main() -> ExitCode {
    let arguments: Vec<String> = std::env::args().skip(1).collect();
    let Some((shape, seed, lines, asked)) = understand(&arguments) else {
        eprintln!("{USAGE}");
        return ExitCode::from(2);
    };
    match work(shape, seed, lines, asked) {
        Ok(()) => ExitCode::SUCCESS,
        Err(error) => {
            eprintln!("mornings: {error}");
            ExitCode::FAILURE
        }
    }
}

fn work(shape: Shape, seed: u64, lines: u64, asked: Asked) -> io::Result<()> {
    let output = File::from(io::stdout().as_fd().try_clone_to_owned()?);
    let mut output = BufWriter::with_capacity(64 * 1024, output);
    mornings::write(shape, seed, lines, asked, &mut output)?;
    output.flush()
}

fn understand(arguments: &[String]) -> Option<(Shape, u64, u64, Asked)> {
    let [shape, seed, lines, sizes @ ..] = arguments else {
        return None;
    };
    if sizes.len() > 4 {
        return None;
    }
    let size = |place: usize, least: u32, most: u32| match sizes.get(place).map(String::as_str) {
        None | Some("-") => Some(None),
        Some(text) => {
            let value = text.parse().ok()?;
            (least..=most).contains(&value).then_some(Some(value))
        }
    };
    let asked = Asked {
        rows: size(0, 1, 16)?,
        columns: size(1, 1, 256)?,
        places: size(2, 1, 64)?,
        lead: size(3, 0, 64)?,
    };
    Some((
        Shape::named(shape)?,
        seed.parse().ok()?,
        lines.parse().ok()?,
        asked,
    ))
}
