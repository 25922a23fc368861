//! The records of the program `roundbook` in plain Rust, for `bench/books` to count beside the
//! proved one.
//!
//! A book is a slice of exactly its bytes, and no byte of it is copied. It is read from its end:
//! the trailer there says where the last sheet starts, and the sheet before ends there. A book is
//! tested once; a lookup then goes back without testing a sheet again. The sentences in quotes are
//! document 02's, K1, and document 01's.

use std::io::{self, BufWriter, Read, Write};

const MOST_DESKS: u8 = 16;
const MOST_CELLS: u8 = 64;
const ENTRY: usize = 6;
const TRAILER: usize = 12;
/// A desk's last turn number. No sheet has it.
const LAST_TURN: u32 = u32::MAX;
/// Kinds as an entry has them: "1 open, 2 day".
const OPEN: u8 = 1;
const DAY: u8 = 2;
/// What `roundbook` reads of its input.
const MOST_INPUT: u64 = 524_685;

/// A call's answer, or the number of its refusal.
type Answer<T> = Result<T, u8>;

// ---- Sheets

enum Content {
    Open,
    Day(i32),
}

/// A good sheet: its entries where they lie, and its numbers.
#[derive(Clone, Copy)]
struct Sheet<'a> {
    entries: &'a [[u8; ENTRY]],
    sender: u8,
    desks: u8,
    cells: u8,
    turn: u32,
}

impl<'a> Sheet<'a> {
    /// The good sheet that ends where these bytes end, if one does, and the bytes before it.
    fn split_last(bytes: &'a [u8]) -> Option<(&'a [u8], Sheet<'a>)> {
        let (before, trailer) = bytes.split_last_chunk::<TRAILER>()?;
        let &[d0, d1, count, sender, desks, cells, z0, z1, t0, t1, t2, t3] = trailer;
        let distance = usize::from(u16::from_le_bytes([d0, d1]));
        let turn = u32::from_le_bytes([t0, t1, t2, t3]);
        let start = before.len().checked_sub(ENTRY * usize::from(count))?;
        let (before, body) = before.split_at(start);
        let (entries, _) = body.as_chunks::<ENTRY>();
        let good = distance == body.len()
            && (1..=MOST_DESKS).contains(&desks)
            && (1..=MOST_CELLS).contains(&cells)
            && sender < desks
            && [z0, z1] == [0, 0]
            && turn < LAST_TURN
            && turn % u32::from(desks) == u32::from(sender)
            && entries_are_good(entries, cells);
        let sheet = Sheet {
            entries,
            sender,
            desks,
            cells,
            turn,
        };
        good.then_some((before, sheet))
    }

    /// The same of bytes that were tested: nothing is tested again.
    fn split_known(bytes: &'a [u8]) -> Option<(&'a [u8], Sheet<'a>)> {
        let (before, trailer) = bytes.split_last_chunk::<TRAILER>()?;
        let &[_, _, count, sender, desks, cells, _, _, t0, t1, t2, t3] = trailer;
        let start = before.len().checked_sub(ENTRY * usize::from(count))?;
        let (before, body) = before.split_at(start);
        let (entries, _) = body.as_chunks::<ENTRY>();
        let turn = u32::from_le_bytes([t0, t1, t2, t3]);
        let sheet = Sheet {
            entries,
            sender,
            desks,
            cells,
            turn,
        };
        Some((before, sheet))
    }

    fn content(&self, cell: u8) -> Option<Content> {
        let entry = self.entries.iter().find(|entry| entry[0] == cell)?;
        Some(match entry[1] {
            OPEN => Content::Open,
            _ => Content::Day(day(entry)),
        })
    }

    /// "all have the same desks and cells, and turn numbers rise by 1"
    fn goes_before(&self, next: &Sheet) -> bool {
        self.desks == next.desks && self.cells == next.cells && self.turn + 1 == next.turn
    }
}

fn day(entry: &[u8; ENTRY]) -> i32 {
    i32::from_le_bytes([entry[2], entry[3], entry[4], entry[5]])
}

/// "entries' cells rise strictly and are below cells; kinds, days .. are as above"
fn entries_are_good(entries: &[[u8; ENTRY]], cells: u8) -> bool {
    entries.is_sorted_by(|a, b| a[0] < b[0])
        && entries.last().is_none_or(|last| last[0] < cells)
        && entries.iter().all(|entry| match entry[1] {
            OPEN => day(entry) == 0,
            DAY => true,
            _ => false,
        })
}

// ---- Books

/// "A reader keeps the book and the place it has got to": the bytes before that place.
struct Reader<'a> {
    before: &'a [u8],
}

impl<'a> Iterator for Reader<'a> {
    type Item = Sheet<'a>;

    /// "A step back gives none at the front or where no good sheet ends"
    fn next(&mut self) -> Option<Sheet<'a>> {
        let sheet;
        (self.before, sheet) = Sheet::split_last(self.before)?;
        Some(sheet)
    }
}

/// What a test of a good book finds: how many sheets it has, and the newest.
struct Tested<'a> {
    sheets: usize,
    newest: Option<Sheet<'a>>,
}

/// "A book is good if every sheet is, all have the same desks and cells, and turn numbers rise by
/// 1; the first number may be any, and a book of no bytes is good." Refusal 23.
fn test(book: &[u8]) -> Answer<Tested<'_>> {
    let mut reader = Reader { before: book };
    let newest = reader.next();
    let mut sheets = 0;
    if let Some(mut next) = newest {
        sheets += 1;
        for sheet in &mut reader {
            if !sheet.goes_before(&next) {
                return Err(23);
            }
            next = sheet;
            sheets += 1;
        }
    }
    if !reader.before.is_empty() {
        return Err(23);
    }
    Ok(Tested { sheets, newest })
}

/// "A lookup gives the newest entry for a cell with its sheet's turn number, or blank if no sheet
/// has one". Refusals 23, 6.
fn lookup(book: &[u8], cell: u8) -> Answer<Option<(Content, u32)>> {
    let newest = test(book)?.newest;
    // "a book of no bytes counts as having 64 cells"
    let cells = newest.map_or(MOST_CELLS, |sheet| sheet.cells);
    if cell >= cells {
        return Err(6);
    }
    let mut before = book;
    while let Some((older, sheet)) = Sheet::split_known(before) {
        if let Some(content) = sheet.content(cell) {
            return Ok(Some((content, sheet.turn)));
        }
        before = older;
    }
    Ok(None)
}

/// The book's new length. Refusals: "13, then 23 for the book as it would become or a length
/// beyond its room, then 11 for room".
fn add(room: &mut [u8], len: usize, bytes: &[u8]) -> Answer<usize> {
    let (before, sheet) = Sheet::split_last(bytes).ok_or(13)?;
    if !before.is_empty() {
        return Err(13);
    }
    let (book, free) = room.split_at_mut_checked(len).ok_or(23)?;
    if test(book)?
        .newest
        .is_some_and(|newest| !newest.goes_before(&sheet))
    {
        return Err(23);
    }
    free.get_mut(..bytes.len())
        .ok_or(11)?
        .copy_from_slice(bytes);
    Ok(len + bytes.len())
}

/// Start and end of the sheet that ends at this place, if there is one.
fn step_back(book: &[u8], place: usize) -> Option<(usize, usize)> {
    let (before, _) = Sheet::split_last(book.get(..place)?)?;
    Some((before.len(), place))
}

// ---- Records: crates/roundbook/src/records.rt says how they are made

/// A number of N bytes at the front, if there are so many.
fn number<const N: usize>(rest: &mut &mut [u8]) -> Option<usize> {
    let mut bytes = [0; 8];
    bytes[..N].copy_from_slice(rest.split_off_mut(..N)?);
    Some(usize::from_le_bytes(bytes))
}

/// A length of 4 bytes, and so many bytes behind it.
fn sized<'a>(rest: &mut &'a mut [u8]) -> Option<&'a mut [u8]> {
    let len = number::<4>(rest)?;
    rest.split_off_mut(..len)
}

/// Plays the record at the front. None ends the run: one of another letter, or cut short.
fn play_first(rest: &mut &mut [u8], out: &mut impl Write) -> Option<io::Result<()>> {
    Some(match number::<1>(rest)? as u8 {
        b's' => {
            let book = sized(rest)?;
            print_sheets(out, book)
        }
        b'c' => {
            let book = sized(rest)?;
            print_count(out, test(book))
        }
        b'l' => {
            let cell = number::<1>(rest)? as u8;
            let book = sized(rest)?;
            print_found(out, lookup(book, cell))
        }
        b'b' => {
            let place = number::<8>(rest)?;
            let book = sized(rest)?;
            print_step(out, step_back(book, place))
        }
        b'a' => {
            let len = number::<8>(rest)?;
            let sheet_len = number::<2>(rest)?;
            let room_len = number::<4>(rest)?;
            let sheet = rest.split_off_mut(..sheet_len)?;
            let room = rest.split_off_mut(..room_len)?;
            let added = add(room, len, sheet);
            print_added(out, added, room)
        }
        _ => return None,
    })
}

// ---- What is printed

fn print_sheets(out: &mut impl Write, book: &[u8]) -> io::Result<()> {
    match test(book) {
        Ok(_) => {
            let mut reader = Reader { before: book };
            let mut end = book.len();
            while let Some(sheet) = reader.next() {
                let (start, entries) = (reader.before.len(), sheet.entries.len());
                let Sheet { turn, sender, .. } = sheet;
                writeln!(out, "{start} {end} {turn} {sender} {entries}")?;
                end = start;
            }
        }
        Err(number) => writeln!(out, "refused {number}")?,
    }
    writeln!(out, "end")
}

fn print_count(out: &mut impl Write, tested: Answer<Tested>) -> io::Result<()> {
    match tested {
        Ok(Tested { sheets, .. }) => writeln!(out, "sheets {sheets}"),
        Err(number) => writeln!(out, "refused {number}"),
    }
}

fn print_found(out: &mut impl Write, found: Answer<Option<(Content, u32)>>) -> io::Result<()> {
    match found {
        Ok(Some((Content::Open, turn))) => writeln!(out, "open {turn}"),
        Ok(Some((Content::Day(day), turn))) => writeln!(out, "day {day} {turn}"),
        Ok(None) => writeln!(out, "blank"),
        Err(number) => writeln!(out, "refused {number}"),
    }
}

fn print_step(out: &mut impl Write, step: Option<(usize, usize)>) -> io::Result<()> {
    match step {
        Some((start, end)) => writeln!(out, "{start} {end}"),
        None => writeln!(out, "none"),
    }
}

fn print_added(out: &mut impl Write, added: Answer<usize>, room: &[u8]) -> io::Result<()> {
    match added {
        Ok(len) => write!(out, "added {len} ")?,
        Err(number) => write!(out, "refused {number} ")?,
    }
    for byte in room {
        write!(out, "{byte:02x}")?;
    }
    writeln!(out)
}

fn main() -> io::Result<()> {
    let mut input = Vec::new();
    io::stdin()
        .lock()
        .take(MOST_INPUT)
        .read_to_end(&mut input)?;
    let mut out = BufWriter::new(io::stdout().lock());
    let mut rest = &mut input[..];
    while let Some(printed) = play_first(&mut rest, &mut out) {
        printed?;
    }
    out.flush()
}
