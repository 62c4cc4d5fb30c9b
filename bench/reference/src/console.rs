//! The console's texts (CONSOLE.md, sections 2 to 8): one line in, one line out.

use crate::board::{Board, Refusal, Sizes};

/// The longest line, its LF included.
pub const LONGEST_LINE: usize = 80;
/// Room enough for every answer, fault and closing line.
pub const PAGE: usize = 64;
/// Reports that a drive may enter before the journal is full.
pub const JOURNAL: u32 = 4096;
/// Faults that are kept for the closing lines.
pub const KEPT_FAULTS: usize = 256;

/// The digits of 0 to 99, two for each.
const PAIRS: [[u8; 2]; 100] = {
    let mut pairs = [[b'0'; 2]; 100];
    let mut value = 0;
    while value < 100 {
        pairs[value] = [b'0' + value as u8 / 10, b'0' + value as u8 % 10];
        value += 1;
    }
    pairs
};

/// A text of at most 64 bytes: the page that an answer is written on.
pub struct Page {
    bytes: [u8; PAGE],
    length: usize,
}

impl Default for Page {
    fn default() -> Self {
        Self::new()
    }
}

impl Page {
    pub fn new() -> Page {
        Page {
            bytes: [0; PAGE],
            length: 0,
        }
    }

    /// The whole page. Only the first `length` bytes of it are text.
    pub fn bytes(&self) -> &[u8; PAGE] {
        &self.bytes
    }

    pub fn length(&self) -> usize {
        self.length
    }

    pub fn text(&self) -> &[u8] {
        &self.bytes[..self.length]
    }

    /// Begins a text anew with its first word.
    #[inline(always)]
    fn begin(&mut self, word: &str) -> &mut Page {
        self.length = 0;
        self.put(word)
    }

    #[inline(always)]
    fn put(&mut self, word: &str) -> &mut Page {
        let end = self.length + word.len();
        self.bytes[self.length..end].copy_from_slice(word.as_bytes());
        self.length = end;
        self
    }

    /// A tab and a word.
    #[inline(always)]
    fn word(&mut self, word: &str) -> &mut Page {
        self.put("\t").put(word)
    }

    /// A tab and a figure.
    #[inline]
    fn figure(&mut self, mut value: u32) -> &mut Page {
        self.put("\t");
        let count = value.checked_ilog10().unwrap_or(0) as usize + 1;
        let end = self.length + count;
        let digits = &mut self.bytes[self.length..end];
        // Two digits at a time, from the right.
        let mut at = count;
        while at >= 2 {
            at -= 2;
            digits[at..at + 2].copy_from_slice(&PAIRS[(value % 100) as usize]);
            value /= 100;
        }
        if at == 1 {
            digits[0] = b'0' + value as u8;
        }
        self.length = end;
        self
    }

    /// A tab and a figure of 64 bits.
    fn long_figure(&mut self, mut value: u64) -> &mut Page {
        self.put("\t");
        let end = self.length + value.checked_ilog10().unwrap_or(0) as usize + 1;
        for byte in self.bytes[self.length..end].iter_mut().rev() {
            *byte = b'0' + (value % 10) as u8;
            value /= 10;
        }
        self.length = end;
        self
    }

    #[inline(always)]
    fn end(&mut self) {
        self.put("\n");
    }

    /// The `no` line of a fault.
    pub fn write_fault(&mut self, fault: Fault) {
        self.begin("no")
            .word(fault.layer())
            .figure(u32::from(fault.number))
            .figure(u32::from(fault.field))
            .end();
    }

    /// A closing line for one fault.
    pub fn write_kept_fault(&mut self, line: u64, fault: Fault) {
        self.begin("fault")
            .long_figure(line)
            .word(fault.layer())
            .figure(u32::from(fault.number))
            .figure(u32::from(fault.field))
            .end();
    }

    /// The very last line.
    pub fn write_end(&mut self, lines: u64, refusals: u64) {
        self.begin("end")
            .long_figure(lines)
            .long_figure(refusals)
            .end();
    }
}

/// Why a line was refused.
#[derive(Clone, Copy, Debug, PartialEq, Eq)]
pub struct Fault {
    pub number: u8,
    pub field: u8,
}

impl Fault {
    pub const NOT_A_LINE: Fault = Fault {
        number: 11,
        field: 0,
    };
    const NO_VERB: Fault = Fault {
        number: 8,
        field: 1,
    };

    fn field_count(found: usize) -> Fault {
        Fault {
            number: 9,
            field: found as u8,
        }
    }

    fn bad_figure(field: usize) -> Fault {
        Fault {
            number: 10,
            field: field as u8,
        }
    }

    fn layer(self) -> &'static str {
        if self.number >= 8 { "line" } else { "board" }
    }
}

impl From<Refusal> for Fault {
    fn from(refusal: Refusal) -> Fault {
        Fault {
            number: refusal as u8,
            field: 0,
        }
    }
}

/// Reads the field that begins at `begin`, a figure: 1 to 10 digits, no leading zero, at most
/// 4,294,967,295. Answers its value, if it is one, and where the field ends.
#[inline]
fn read_figure(body: &[u8], begin: usize) -> (Option<u32>, usize) {
    let mut value = 0u64;
    let mut at = begin;
    // Ten digits at most, so the value cannot grow beyond 64 bits.
    while let Some(&byte) = body.get(at) {
        let digit = byte.wrapping_sub(b'0');
        if digit > 9 || at - begin == 10 {
            break;
        }
        value = value * 10 + u64::from(digit);
        at += 1;
    }
    let digits = at - begin;
    if at < body.len() && body[at] != b'\t' {
        return (None, field_end(body, at));
    }
    if digits == 0 || (digits > 1 && body[begin] == b'0') {
        return (None, at);
    }
    (u32::try_from(value).ok(), at)
}

/// Where the field ends that goes on at `at`: at a tab, or with the line.
fn field_end(body: &[u8], at: usize) -> usize {
    let tab = body[at..].iter().position(|&byte| byte == b'\t');
    tab.map_or(body.len(), |length| at + length)
}

/// Reads the figures after the verb, if there are `N` of them and all are good.
#[inline]
fn figures<const N: usize>(body: &[u8], verb: usize) -> Result<[u32; N], Fault> {
    let mut values = [0; N];
    let mut found = 1;
    let mut bad = 0;
    let mut at = verb;
    // `at` is the place of a tab, or the end of the line.
    while at < body.len() {
        let (value, end) = read_figure(body, at + 1);
        at = end;
        found += 1;
        match (value, values.get_mut(found - 2)) {
            (Some(value), Some(place)) => *place = value,
            (None, Some(_)) if bad == 0 => bad = found,
            _ => {}
        }
    }
    if found != N + 1 {
        Err(Fault::field_count(found))
    } else if bad != 0 {
        Err(Fault::bad_figure(bad))
    } else {
        Ok(values)
    }
}

/// Answers one line, handed over without its LF. The answer is on the page if it was accepted; the
/// board is as it was if it was not.
#[inline]
pub fn answer(board: &mut Board, body: &[u8], page: &mut Page) -> Result<(), Fault> {
    let verb = body
        .iter()
        .position(|&byte| byte == b'\t')
        .unwrap_or(body.len());
    match &body[..verb] {
        b"step" => {
            let [number] = figures(body, verb)?;
            let report = board.step(number)?;
            page.begin("ok")
                .figure(report.number)
                .figure(report.action as u32)
                .figure(report.column)
                .figure(report.row)
                .end();
        }
        b"drive" => {
            let [number, budget] = figures(body, verb)?;
            let (steps, stage) = board.drive(number, budget, JOURNAL)?;
            page.begin("ok").figure(steps).word(stage.word()).end();
        }
        b"book" => {
            let [start, length] = figures(body, verb)?;
            let number = board.book(start, length)?;
            page.begin("ok").figure(number).end();
        }
        b"collect" => {
            let [number] = figures(body, verb)?;
            match board.collect(number)? {
                Some(span) => page
                    .begin("ok")
                    .figure(number)
                    .figure(span.first)
                    .figure(span.length)
                    .end(),
                None => page.begin("ok").figure(number).word("none").end(),
            }
        }
        b"drop" => {
            let [number] = figures(body, verb)?;
            board.withdraw(number)?;
            page.begin("ok").end();
        }
        b"back" => {
            let [number] = figures(body, verb)?;
            board.back(number)?;
            page.begin("ok").end();
        }
        b"show" => {
            let [column] = figures(body, verb)?;
            let count = board.show(column)?;
            page.begin("ok").figure(count).end();
        }
        b"open" => {
            let [rows, columns, places, lead, first_number] = figures(body, verb)?;
            board.open(Sizes {
                rows,
                columns,
                places,
                lead,
                first_number,
            })?;
            page.begin("ok").end();
        }
        _ => return Err(Fault::NO_VERB),
    }
    Ok(())
}

/// The console: a board, and the counts and faults for the closing lines.
pub struct Console {
    pub board: Board,
    lines: u64,
    refusals: u64,
    kept: Vec<(u64, Fault)>,
}

impl Default for Console {
    fn default() -> Self {
        Self::new()
    }
}

impl Console {
    pub fn new() -> Console {
        Console {
            board: Board::new(),
            lines: 0,
            refusals: 0,
            kept: Vec::with_capacity(KEPT_FAULTS),
        }
    }

    /// Puts the answer to one line on the page. `None` stands for a line that is none: too long, or
    /// without an LF. Otherwise the line comes without its LF.
    #[inline]
    pub fn line(&mut self, body: Option<&[u8]>, page: &mut Page) {
        self.lines += 1;
        let answered = match body {
            Some(body) => answer(&mut self.board, body, page),
            None => Err(Fault::NOT_A_LINE),
        };
        if let Err(fault) = answered {
            self.refuse(fault, page);
        }
    }

    fn refuse(&mut self, fault: Fault, page: &mut Page) {
        self.refusals += 1;
        if self.kept.len() < KEPT_FAULTS {
            self.kept.push((self.lines, fault));
        }
        page.write_fault(fault);
    }

    pub fn kept_faults(&self) -> &[(u64, Fault)] {
        &self.kept
    }

    pub fn write_end(&self, page: &mut Page) {
        page.write_end(self.lines, self.refusals);
    }
}

#[cfg(test)]
mod tests {
    use super::*;

    #[test]
    fn figures_have_one_spelling() {
        let good: [(&[u8], u32); 5] = [
            (b"0", 0),
            (b"7", 7),
            (b"10", 10),
            (b"999999999", 999_999_999),
            (b"4294967295", u32::MAX),
        ];
        for (text, value) in good {
            assert_eq!(read_figure(text, 0), (Some(value), text.len()));
        }
        let bad: [&[u8]; 14] = [
            b"",
            b"00",
            b"01",
            b"-1",
            b"+1",
            b" 1",
            b"1 ",
            b"1\r",
            b"x",
            b"4294967296",
            b"9999999999",
            b"10000000000",
            b"1\x00",
            b"\xff",
        ];
        for text in bad {
            assert_eq!(read_figure(text, 0), (None, text.len()));
        }
    }

    #[test]
    fn the_longest_texts_fit_the_page() {
        let mut page = Page::new();
        let fault = Fault {
            number: 10,
            field: 80,
        };
        page.write_kept_fault(u64::MAX, fault);
        assert_eq!(page.text(), b"fault\t18446744073709551615\tline\t10\t80\n");
        page.write_end(u64::MAX, u64::MAX);
        assert_eq!(
            page.text(),
            b"end\t18446744073709551615\t18446744073709551615\n"
        );
        page.begin("ok")
            .figure(0)
            .figure(10)
            .figure(909)
            .figure(u32::MAX)
            .end();
        assert_eq!(page.text(), b"ok\t0\t10\t909\t4294967295\n");
    }

    #[test]
    fn checks_come_in_their_order() {
        let cases: [(&[u8], u8, u8); 12] = [
            (b"", 8, 1),
            (b"stop\t01", 8, 1),
            (b"Book\t0\t1", 8, 1),
            (b" book\t0\t1", 8, 1),
            (b"book\t01", 9, 2),
            (b"book", 9, 1),
            (b"book\t0\t1\t", 9, 4),
            (b"book\t01\tx", 10, 2),
            (b"book\t9999999999\t1", 10, 2),
            (b"book\t0\t", 10, 3),
            (b"open\t1\t1\t1\t1\t1\t1", 9, 7),
            (b"book\t1\t1", 2, 0),
        ];
        let mut board = Board::new();
        let mut page = Page::new();
        for (body, number, field) in cases {
            let answered = answer(&mut board, body, &mut page);
            assert_eq!(answered, Err(Fault { number, field }), "{body:?}");
        }
    }
}
