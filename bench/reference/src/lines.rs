//! Cuts the input into lines (CONSOLE.md, section 1) and answers them, block by block (section 9).

use std::io::{self, ErrorKind, Read, Write};

use crate::console::{Console, LONGEST_LINE, PAGE, Page};

/// Bytes that are read or written at once, at most.
const BLOCK: usize = 64 * 1024;

/// Answers gathered for one write.
struct Answers<W> {
    bytes: Box<[u8]>,
    length: usize,
    to: W,
}

impl<W: Write> Answers<W> {
    fn new(to: W) -> Self {
        Answers {
            bytes: vec![0; BLOCK].into_boxed_slice(),
            length: 0,
            to,
        }
    }

    /// Adds the text of a page. The page is copied in full, which is one quick move of fixed size,
    /// and the next text goes over the part behind this one.
    #[inline]
    fn add(&mut self, page: &Page) -> io::Result<()> {
        if self.bytes.len() - self.length < PAGE {
            self.flush()?;
        }
        self.bytes[self.length..self.length + PAGE].copy_from_slice(page.bytes());
        self.length += page.length();
        Ok(())
    }

    fn flush(&mut self) -> io::Result<()> {
        self.to.write_all(&self.bytes[..self.length])?;
        self.length = 0;
        self.to.flush()
    }
}

/// Answers all of the input, then writes the closing lines.
pub fn run(mut input: impl Read, output: impl Write) -> io::Result<()> {
    let mut console = Console::new();
    let mut page = Page::new();
    let mut answers = Answers::new(output);
    // The block begins with what is known of a line whose LF has not come yet.
    let mut block = vec![0; BLOCK].into_boxed_slice();
    let mut pending = 0;
    // That line is already too long, and its bytes are not kept.
    let mut too_long = false;

    loop {
        let brought = match input.read(&mut block[pending..]) {
            Ok(0) => break,
            Ok(brought) => brought,
            Err(error) if error.kind() == ErrorKind::Interrupted => continue,
            Err(error) => return Err(error),
        };
        let end = pending + brought;
        let mut at = 0;
        while let Some(length) = next_line(&block[at..end]) {
            let line = &block[at..at + length];
            at += length;
            let body = if too_long || length > LONGEST_LINE {
                too_long = false;
                None
            } else {
                Some(&line[..length - 1])
            };
            console.line(body, &mut page);
            answers.add(&page)?;
        }
        pending = end - at;
        if too_long || pending >= LONGEST_LINE {
            too_long = true;
            pending = 0;
        } else {
            block.copy_within(at..end, 0);
        }
        // Whoever wrote these lines may be waiting for the answers before writing more.
        answers.flush()?;
    }

    if too_long || pending > 0 {
        console.line(None, &mut page);
        answers.add(&page)?;
    }
    for &(line, fault) in console.kept_faults() {
        page.write_kept_fault(line, fault);
        answers.add(&page)?;
    }
    console.write_end(&mut page);
    answers.add(&page)?;
    answers.flush()
}

/// The length of the first line, its LF included, if its LF is there. Lines are short, so eight bytes
/// are looked at together.
#[inline]
fn next_line(bytes: &[u8]) -> Option<usize> {
    const ONES: u64 = u64::from_le_bytes([1; 8]);
    const HIGHS: u64 = ONES << 7;
    const LFS: u64 = ONES * b'\n' as u64;
    let mut at = 0;
    while let Some(eight) = bytes[at..].first_chunk() {
        // The bytes that were LF are 0 now, and the lowest high bit left marks the first of them.
        let eight = u64::from_le_bytes(*eight) ^ LFS;
        let found = eight.wrapping_sub(ONES) & !eight & HIGHS;
        if found != 0 {
            return Some(at + found.trailing_zeros() as usize / 8 + 1);
        }
        at += 8;
    }
    let rest = bytes[at..].iter().position(|&byte| byte == b'\n')?;
    Some(at + rest + 1)
}
