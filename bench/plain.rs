//! The program `rounds` of document 01 in plain Rust, for `bench/run` to count beside the proved
//! one.
//!
//! It does the same job with the same refusals, those too that no schedule reaches: every call
//! tests the record (5), a delivery the tray's length (12), the sheet (13) and its shelf (14), a
//! take what the place holds (21). The tests of a call stand in document 01's order, which decides
//! the number that is given. The sentences in quotes are document 01's.

use std::io::{self, Read, Write};

const MOST_DESKS: usize = 16;
const MOST_CELLS: usize = 64;
const ENTRY: usize = 6;
const TRAILER: usize = 12;
const MOST_SHEET: usize = ENTRY * MOST_CELLS + TRAILER;
/// "A tray has one place of 398 bytes per desk"
const PLACE: usize = 2 + MOST_SHEET;
/// A desk's last turn number. No sheet has it.
const LAST_TURN: u32 = u32::MAX;
const MOST_INPUT: usize = 16_384;
/// "steps (lines after the first)"
const MOST_STEPS: usize = 1_000;

const SEQUENTIAL: u8 = 1;
const CAUSAL: u8 = 2;
const CACHE: u8 = 3;

/// Kinds as an entry has them, "1 open, 2 day"; blank, which no sheet carries, is 0.
const BLANK: u8 = 0;
const OPEN: u8 = 1;
const DAY: u8 = 2;

/// A call's answer, or the number of its refusal.
type Answer<T> = Result<T, u8>;

fn refuse_if(applies: bool, number: u8) -> Answer<()> {
    if applies {
        return Err(number);
    }
    Ok(())
}

#[derive(Clone, Copy, PartialEq)]
enum Content {
    Blank,
    Open,
    Day(i32),
}

// ---- The cells of a record

/// 64 places, a kind and a day number each.
#[derive(Clone)]
struct Cells {
    kind: [u8; MOST_CELLS],
    day: [i32; MOST_CELLS],
}

impl Cells {
    const BLANK: Cells = Cells {
        kind: [BLANK; MOST_CELLS],
        day: [0; MOST_CELLS],
    };

    fn get(&self, cell: usize) -> Content {
        match self.kind[cell] {
            OPEN => Content::Open,
            DAY => Content::Day(self.day[cell]),
            _ => Content::Blank,
        }
    }

    fn put(&mut self, cell: usize, content: Content) {
        (self.kind[cell], self.day[cell]) = match content {
            Content::Blank => (BLANK, 0),
            Content::Open => (OPEN, 0),
            Content::Day(day) => (DAY, day),
        };
    }

    fn filled(&self, cell: usize) -> bool {
        self.kind[cell] != BLANK
    }

    fn filled_count(&self) -> usize {
        self.kind.iter().filter(|&&kind| kind != BLANK).count()
    }

    /// "day numbers are 0 unless the content is a day; cells from m up are blank". The loops here
    /// and in `pending_fits_shelf` do not stop at the first fault: they then go over several
    /// places at a time, which is quicker for a record that is sound, as nearly every one is.
    fn are_sound(&self, m: usize) -> bool {
        let mut kinds_good = true;
        for &kind in &self.kind {
            kinds_good &= kind <= DAY;
        }
        let mut stray = 0;
        for (&kind, &day) in self.kind.iter().zip(&self.day) {
            stray |= if kind == DAY { 0 } else { day };
        }
        kinds_good && stray == 0 && self.kind[m..].iter().all(|&kind| kind == BLANK)
    }
}

// ---- Sheets

/// The numbers of a good sheet's trailer.
struct Trailer {
    entries: usize,
    sender: usize,
    desks: usize,
    cells: usize,
    turn: u32,
}

fn u32_at(bytes: &[u8], at: usize) -> u32 {
    u32::from_le_bytes([bytes[at], bytes[at + 1], bytes[at + 2], bytes[at + 3]])
}

/// The trailer of these bytes if they are a good sheet, and 13 otherwise.
fn read_sheet(sheet: &[u8]) -> Answer<Trailer> {
    let body_len = sheet.len().checked_sub(TRAILER).ok_or(13)?;
    let (body, end) = sheet.split_at(body_len);
    let distance = usize::from(u16::from_le_bytes([end[0], end[1]]));
    let trailer = Trailer {
        entries: end[2].into(),
        sender: end[3].into(),
        desks: end[4].into(),
        cells: end[5].into(),
        turn: u32_at(end, 8),
    };
    let good = distance == ENTRY * trailer.entries
        && distance == body_len
        && (1..=MOST_DESKS).contains(&trailer.desks)
        && (1..=MOST_CELLS).contains(&trailer.cells)
        && trailer.sender < trailer.desks
        && end[6..8] == [0, 0]
        && trailer.turn < LAST_TURN
        && trailer.turn as usize % trailer.desks == trailer.sender
        && entries_are_good(body, trailer.cells);
    refuse_if(!good, 13)?;
    Ok(trailer)
}

/// "entries' cells rise strictly and are below cells; kinds, days .. are as above"
fn entries_are_good(body: &[u8], cells: usize) -> bool {
    let mut least = 0;
    for entry in body.chunks_exact(ENTRY) {
        let cell = usize::from(entry[0]);
        let kind_and_day = entry[1] == DAY || entry[1] == OPEN && u32_at(entry, 2) == 0;
        if cell < least || cell >= cells || !kind_and_day {
            return false;
        }
        least = cell + 1;
    }
    true
}

/// Lays the trailer into 12 bytes.
fn write_trailer(end: &mut [u8], trailer: &Trailer) {
    end[..2].copy_from_slice(&((ENTRY * trailer.entries) as u16).to_le_bytes());
    end[2] = trailer.entries as u8;
    end[3] = trailer.sender as u8;
    end[4] = trailer.desks as u8;
    end[5] = trailer.cells as u8;
    end[6..8].fill(0);
    end[8..].copy_from_slice(&trailer.turn.to_le_bytes());
}

// ---- A desk, call by call

/// "A record holds n, m, the desk's own number, mode (1 sequential, 2 causal, 3 cache), turn
/// number, shelf, pending entries, and the waiting read if any." A filled place of `pending` is an
/// entry.
struct Desk {
    n: usize,
    m: usize,
    own: usize,
    mode: u8,
    turn: u32,
    shelf: Cells,
    pending: Cells,
    waiting: Option<usize>,
}

enum Seen {
    Cell(Content),
    Waits,
}

struct Sent {
    turn: u32,
    entries: usize,
}

struct Taken {
    turn: u32,
    entries: usize,
    applied: usize,
    waited: Option<Content>,
}

impl Desk {
    /// "All cells blank, nothing pending, turn number 0. Mode 0 means the default: causal."
    fn open(n: u32, m: u32, own: u32, mode: u32) -> Answer<Desk> {
        let (n, m, own) = (n as usize, m as usize, own as usize);
        refuse_if(!(1..=MOST_DESKS).contains(&n), 1)?;
        refuse_if(!(1..=MOST_CELLS).contains(&m), 2)?;
        refuse_if(own >= n, 3)?;
        let mode = match mode {
            0 => CAUSAL,
            1..=3 => mode as u8,
            _ => return Err(4),
        };
        Ok(Desk {
            n,
            m,
            own,
            mode,
            turn: 0,
            shelf: Cells::BLANK,
            pending: Cells::BLANK,
            waiting: None,
        })
    }

    /// "The cell takes the content; the content becomes that cell's pending entry, replacing an
    /// earlier one."
    fn write(&mut self, cell: u32, content: Content) -> Answer<()> {
        let cell = self.tested_cell(cell)?;
        refuse_if(content == Content::Blank, 7)?;
        refuse_if(self.waiting.is_some(), 8)?;
        self.shelf.put(cell, content);
        self.pending.put(cell, content);
        Ok(())
    }

    /// "It waits exactly if the mode is sequential, something is pending, this cell is not, and
    /// the turn is elsewhere."
    fn read(&mut self, cell: u32) -> Answer<Seen> {
        let cell = self.tested_cell(cell)?;
        refuse_if(self.waiting.is_some(), 8)?;
        if self.mode == SEQUENTIAL && self.must_wait(cell) {
            self.waiting = Some(cell);
            return Ok(Seen::Waits);
        }
        Ok(Seen::Cell(self.shelf.get(cell)))
    }

    /// "Writes one sheet with every pending entry .. Bytes of the lent buffer past the sheet
    /// stay." The buffer may be too short (11).
    fn send(&mut self, buffer: &mut [u8]) -> Answer<Sent> {
        self.test_record()?;
        refuse_if(self.turn_desk() != self.own, 9)?;
        refuse_if(self.turn == LAST_TURN, 10)?;
        let entries = self.pending.filled_count();
        let sheet = buffer.get_mut(..ENTRY * entries + TRAILER).ok_or(11)?;
        self.write_sheet(sheet, entries);
        let turn = self.turn;
        self.pending = Cells::BLANK;
        self.turn += 1;
        Ok(Sent { turn, entries })
    }

    /// "Puts a sheet in the sender's place in the lent tray. The record stays."
    fn deliver(&self, tray: &mut [u8], sheet: &[u8]) -> Answer<()> {
        self.test_record()?;
        self.test_tray(tray)?;
        let trailer = read_sheet(sheet)?;
        refuse_if(trailer.desks != self.n || trailer.cells != self.m, 14)?;
        refuse_if(trailer.sender == self.own, 15)?;
        refuse_if(trailer.turn < self.turn, 16)?;
        refuse_if(trailer.turn - self.turn >= self.n as u32, 17)?;
        let place = place_of(tray, trailer.sender);
        // "deliver counts it free if its first two bytes are zero, and overwrites all 398"
        refuse_if(place[..2] != [0, 0], 18)?;
        let (length, rest) = place.split_at_mut(2);
        let (held, zeros) = rest.split_at_mut(sheet.len());
        length.copy_from_slice(&(sheet.len() as u16).to_le_bytes());
        held.copy_from_slice(sheet);
        zeros.fill(0);
        Ok(())
    }

    /// "Takes the sheet of the desk whose turn it is. .. Pending entries never change. The place
    /// becomes zeros, the turn number goes up by 1."
    fn take(&mut self, tray: &mut [u8]) -> Answer<Taken> {
        self.test_record()?;
        self.test_tray(tray)?;
        let sender = self.turn_desk();
        refuse_if(sender == self.own, 19)?;
        refuse_if(self.turn == LAST_TURN, 10)?;
        let place = place_of(tray, sender);
        let body = self.due_entries(place, sender)?;
        let entries = body.len() / ENTRY;
        let applied = self.apply(body);
        place.fill(0);
        let turn = self.turn;
        self.turn += 1;
        Ok(Taken {
            turn,
            entries,
            applied,
            waited: self.end_of_wait(),
        })
    }

    fn turn_desk(&self) -> usize {
        self.turn as usize % self.n
    }

    fn must_wait(&self, cell: usize) -> bool {
        !self.pending.filled(cell)
            && self.turn_desk() != self.own
            && self.pending.filled_count() > 0
    }

    fn test_record(&self) -> Answer<()> {
        refuse_if(!self.is_sound(), 5)
    }

    /// "cell not below m", once the record is known to be sound.
    fn tested_cell(&self, cell: u32) -> Answer<usize> {
        self.test_record()?;
        let cell = cell as usize;
        refuse_if(cell >= self.m, 6)?;
        Ok(cell)
    }

    fn test_tray(&self, tray: &[u8]) -> Answer<()> {
        refuse_if(tray.len() != PLACE * self.n, 12)
    }

    fn is_sound(&self) -> bool {
        (1..=MOST_DESKS).contains(&self.n)
            && (1..=MOST_CELLS).contains(&self.m)
            && self.own < self.n
            && (SEQUENTIAL..=CACHE).contains(&self.mode)
            && self.shelf.are_sound(self.m)
            && self.pending.are_sound(self.m)
            && self.pending_fits_shelf()
            && self.waiting.is_none_or(|cell| self.wait_is_sound(cell))
    }

    /// "a pending cell is not blank on the shelf; in modes 1 and 3 pending and shelf content
    /// agree"
    fn pending_fits_shelf(&self) -> bool {
        let (shelf, pending) = (&self.shelf, &self.pending);
        let mut kinds_fit = true;
        for (&kind, &own) in shelf.kind.iter().zip(&pending.kind) {
            kinds_fit &= own == BLANK || kind == own || (self.mode == CAUSAL && kind != BLANK);
        }
        if self.mode == CAUSAL {
            return kinds_fit;
        }
        let mut apart = 0;
        for cell in 0..MOST_CELLS {
            let change = pending.day[cell] ^ shelf.day[cell];
            apart |= if pending.filled(cell) { change } else { 0 };
        }
        kinds_fit && apart == 0
    }

    /// "a waiting read has mode 1, a cell below m that is not pending, something pending, and the
    /// turn elsewhere"
    fn wait_is_sound(&self, cell: usize) -> bool {
        self.mode == SEQUENTIAL && cell < self.m && self.must_wait(cell)
    }

    fn write_sheet(&self, sheet: &mut [u8], entries: usize) {
        let (body, end) = sheet.split_at_mut(ENTRY * entries);
        let cells = (0..self.m).filter(|&cell| self.pending.filled(cell));
        for (entry, cell) in body.chunks_exact_mut(ENTRY).zip(cells) {
            entry[0] = cell as u8;
            entry[1] = self.pending.kind[cell];
            entry[2..].copy_from_slice(&self.pending.day[cell].to_le_bytes());
        }
        write_trailer(
            end,
            &Trailer {
                entries,
                sender: self.own,
                desks: self.n,
                cells: self.m,
                turn: self.turn,
            },
        );
    }

    /// The entries of the sheet that is due, as they lie in the place. Refusals 20, 21: "a good
    /// sheet of this shelf with that sender and turn number, followed by zeros".
    fn due_entries<'a>(&self, place: &'a [u8], sender: usize) -> Answer<&'a [u8]> {
        let length = usize::from(u16::from_le_bytes([place[0], place[1]]));
        refuse_if(length == 0, 20)?;
        let (sheet, rest) = place[2..].split_at_checked(length).ok_or(21)?;
        let trailer = read_sheet(sheet).map_err(|_| 21)?;
        let due = trailer.desks == self.n
            && trailer.cells == self.m
            && trailer.sender == sender
            && trailer.turn == self.turn
            && *rest == [0; MOST_SHEET][length..];
        refuse_if(!due, 21)?;
        Ok(&sheet[..ENTRY * trailer.entries])
    }

    /// "Each entry goes to the shelf in causal mode always, in the other modes only if that cell
    /// is not pending."
    fn apply(&mut self, body: &[u8]) -> usize {
        let mut applied = 0;
        for entry in body.chunks_exact(ENTRY) {
            let cell = usize::from(entry[0]);
            if self.mode == CAUSAL || !self.pending.filled(cell) {
                self.shelf.kind[cell] = entry[1];
                self.shelf.day[cell] = u32_at(entry, 2) as i32;
                applied += 1;
            }
        }
        applied
    }

    /// "If the turn is now the desk's own and a read waits, the answer carries that cell's content
    /// and the read is over."
    fn end_of_wait(&mut self) -> Option<Content> {
        if self.turn_desk() != self.own {
            return None;
        }
        self.waiting.take().map(|cell| self.shelf.get(cell))
    }
}

fn place_of(tray: &mut [u8], sender: usize) -> &mut [u8] {
    &mut tray[PLACE * sender..][..PLACE]
}

// ---- A schedule's lines

enum Step {
    Write {
        desk: usize,
        cell: u32,
        content: Content,
    },
    Read {
        desk: usize,
        cell: u32,
    },
    Send {
        desk: usize,
    },
    Deliver {
        sender: usize,
        receiver: usize,
    },
    Take {
        desk: usize,
    },
}

/// "decimal without leading zeros", of 32 bits.
fn number(word: &[u8]) -> Option<u32> {
    match word {
        [b'0'] => Some(0),
        [b'1'..=b'9', ..] => word.iter().try_fold(0u32, |number, &byte| match byte {
            b'0'..=b'9' => number.checked_mul(10)?.checked_add(u32::from(byte - b'0')),
            _ => None,
        }),
        _ => None,
    }
}

/// "a minus only before a day below 0"
fn day(word: &[u8]) -> Option<i32> {
    match word {
        [b'-', b'0', ..] => None,
        [b'-', rest @ ..] => 0i32.checked_sub_unsigned(number(rest)?),
        _ => 0i32.checked_add_unsigned(number(word)?),
    }
}

fn content(word: &[u8]) -> Option<Content> {
    if word == b"open" {
        Some(Content::Open)
    } else {
        day(word).map(Content::Day)
    }
}

/// A desk that is there.
fn desk(word: &[u8], desks: usize) -> Option<usize> {
    number(word)
        .map(|number| number as usize)
        .filter(|&desk| desk < desks)
}

/// The line's words, or none if it does not end by a line feed. Two spaces make an empty word,
/// which no form has.
fn words(line: &[u8]) -> Option<impl Iterator<Item = &[u8]>> {
    Some(line.strip_suffix(b"\n")?.split(|&byte| byte == b' '))
}

/// Desks, cells, mode.
fn read_start(line: &[u8]) -> Option<(u32, u32, u32)> {
    let mut words = words(line)?;
    let start = (
        number(words.next()?)?,
        number(words.next()?)?,
        mode_number(words.next()?)?,
    );
    words.next().is_none().then_some(start)
}

fn mode_number(word: &[u8]) -> Option<u32> {
    match word {
        b"-" => Some(0),
        b"s" => Some(1),
        b"c" => Some(2),
        b"k" => Some(3),
        _ => None,
    }
}

fn mode_letter(mode: u8) -> &'static str {
    match mode {
        SEQUENTIAL => "s",
        CAUSAL => "c",
        _ => "k",
    }
}

fn read_step(line: &[u8], desks: usize) -> Option<Step> {
    let mut words = words(line)?;
    let letter = words.next()?;
    let first = desk(words.next()?, desks)?;
    let step = match letter {
        b"w" => Step::Write {
            desk: first,
            cell: number(words.next()?)?,
            content: content(words.next()?)?,
        },
        b"r" => Step::Read {
            desk: first,
            cell: number(words.next()?)?,
        },
        b"s" => Step::Send { desk: first },
        b"d" => Step::Deliver {
            sender: first,
            receiver: desk(words.next()?, desks)?,
        },
        b"t" => Step::Take { desk: first },
        _ => return None,
    };
    words.next().is_none().then_some(step)
}

// ---- A run

/// All desks of a shelf, each with its tray and the latest sheet that it has sent.
struct Run {
    desks: Vec<Desk>,
    trays: Vec<Vec<u8>>,
    latest: Vec<Option<Vec<u8>>>,
}

impl Run {
    fn open(n: u32, m: u32, mode: u32) -> Answer<Run> {
        // A run has a desk at least, so that a shelf of none is refused too.
        let desks = (0..n.clamp(1, MOST_DESKS as u32))
            .map(|own| Desk::open(n, m, own, mode))
            .collect::<Answer<Vec<_>>>()?;
        let count = desks.len();
        Ok(Run {
            desks,
            trays: vec![vec![0; PLACE * count]; count],
            latest: vec![None; count],
        })
    }

    /// Makes the step's call and prints its answer.
    fn play(&mut self, step: Step, out: &mut Vec<u8>) {
        let printed = match step {
            Step::Write {
                desk,
                cell,
                content,
            } => self.desks[desk]
                .write(cell, content)
                .map(|()| put(out, "stored")),
            Step::Read { desk, cell } => {
                self.desks[desk].read(cell).map(|seen| put_seen(out, seen))
            }
            Step::Send { desk } => self.send(desk).map(|sent| put_sent(out, &sent)),
            Step::Deliver { sender, receiver } => match &self.latest[sender] {
                Some(sheet) => self.desks[receiver]
                    .deliver(&mut self.trays[receiver], sheet)
                    .map(|()| put(out, "held")),
                None => Ok(put(out, "nothing sent")),
            },
            Step::Take { desk } => self.desks[desk]
                .take(&mut self.trays[desk])
                .map(|taken| put_taken(out, &taken)),
        };
        if let Err(number) = printed {
            put(out, "refused ");
            put_number(out, number.into());
        }
    }

    /// "`s` lends 396 bytes."
    fn send(&mut self, desk: usize) -> Answer<Sent> {
        let mut buffer = [0; MOST_SHEET];
        let sent = self.desks[desk].send(&mut buffer)?;
        self.latest[desk] = Some(buffer[..ENTRY * sent.entries + TRAILER].to_vec());
        Ok(sent)
    }
}

// ---- What is printed

fn put(out: &mut Vec<u8>, text: &str) {
    out.extend_from_slice(text.as_bytes());
}

fn put_number(out: &mut Vec<u8>, mut number: u32) {
    let mut digits = [0; 10];
    let mut first = digits.len();
    loop {
        first -= 1;
        digits[first] = b'0' + (number % 10) as u8;
        number /= 10;
        if number == 0 {
            break;
        }
    }
    out.extend_from_slice(&digits[first..]);
}

fn put_numbers(out: &mut Vec<u8>, word: &str, numbers: &[u32]) {
    put(out, word);
    for &number in numbers {
        out.push(b' ');
        put_number(out, number);
    }
}

fn put_content(out: &mut Vec<u8>, content: Content) {
    match content {
        Content::Blank => put(out, "blank"),
        Content::Open => put(out, "open"),
        Content::Day(day) => {
            put(out, if day < 0 { "day -" } else { "day " });
            put_number(out, day.unsigned_abs());
        }
    }
}

fn put_seen(out: &mut Vec<u8>, seen: Seen) {
    match seen {
        Seen::Cell(content) => put_content(out, content),
        Seen::Waits => put(out, "waits"),
    }
}

fn put_sent(out: &mut Vec<u8>, sent: &Sent) {
    put_numbers(out, "sent", &[sent.turn, sent.entries as u32]);
}

fn put_taken(out: &mut Vec<u8>, taken: &Taken) {
    put_numbers(
        out,
        "taken",
        &[taken.turn, taken.entries as u32, taken.applied as u32],
    );
    out.push(b' ');
    match taken.waited {
        Some(content) => put_content(out, content),
        None => put(out, "-"),
    }
}

/// "Header: desks, cells, letter of the mode in force (never `-`)."
fn put_header(out: &mut Vec<u8>, desk: &Desk) {
    put_numbers(out, "desks", &[desk.n as u32]);
    put_numbers(out, " cells", &[desk.m as u32]);
    put(out, " mode ");
    put(out, mode_letter(desk.mode));
    out.push(b'\n');
}

/// What the program prints for this input.
fn rounds(input: &[u8]) -> Vec<u8> {
    let lines: Vec<&[u8]> = input.split_inclusive(|&byte| byte == b'\n').collect();
    if input.len() > MOST_INPUT || lines.len() > 1 + MOST_STEPS {
        return b"too long\n".to_vec();
    }
    let start = lines.first().and_then(|line| read_start(line));
    let Some(mut run) = start.and_then(|(n, m, mode)| Run::open(n, m, mode).ok()) else {
        return b"bad start\n".to_vec();
    };
    let mut out = Vec::new();
    put_header(&mut out, &run.desks[0]);
    for (number, line) in (1..).zip(&lines[1..]) {
        put_number(&mut out, number);
        out.push(b' ');
        let Some(step) = read_step(line, run.desks.len()) else {
            put(&mut out, "bad line\n");
            break;
        };
        run.play(step, &mut out);
        out.push(b'\n');
    }
    out
}

fn main() -> io::Result<()> {
    let mut input = Vec::new();
    io::stdin().read_to_end(&mut input)?;
    io::stdout().write_all(&rounds(&input))
}
