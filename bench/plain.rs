//! The reading of a trace in plain Rust, as a measure for the proved one: the same structure, with no
//! contract, but it keeps no lines that came before, and looks up each word by its whole field. It reads a
//! file into a window of bytes, finds the end of each line by `memchr`, reads the line field by field into
//! one place of a `Record`, and looks at a line that has a fault once more.
//!
//! Build with `rustc -O`. `plain lint FILE` prints how many records the file has. `plain records FILE`
//! looks at each record, and prints the sum of their tags and requests too.

// Not each field that is read is looked at here.
#![allow(dead_code)]

use std::env;
use std::fmt;
use std::fs::File;
use std::io::{self, Read};
use std::process::ExitCode;

const GREATEST_COMM: u16 = 4095;
const GREATEST_RANK: u16 = 1023;
const MOST_BYTES: u32 = 2_147_483_647;
const GREATEST_TAG: u32 = 2_147_483_647;
const GREATEST_REQUEST: u32 = 2_147_483_647;
const GREATEST_COLOUR: u32 = 2_147_483_647;
const GREATEST_KEY: u32 = 2_147_483_647;
const MOST_REQUESTS: usize = 64;
const MOST_LINE_BYTES: usize = 1024;
const CAPACITY: usize = 16384;

#[derive(Clone, Copy, Debug)]
enum Peer {
    Rank(u16),
    Null,
}

#[derive(Clone, Copy, Debug)]
enum Mode {
    Standard,
    Synchronous,
    Buffered,
}

#[derive(Clone, Copy, Debug)]
enum Kind {
    Barrier,
    Bcast(u16),
    Gather(u16),
    Scatter(u16),
    Reduce(u16),
    Allgather,
    Alltoall,
    Allreduce,
    Scan,
    Exscan,
}

/// The requests that one wait names, held in place.
#[derive(Clone, Copy, Debug)]
struct Reqs {
    cells: [u32; MOST_REQUESTS],
    len: u8,
}

impl Reqs {
    fn of_one(number: u32) -> Reqs {
        let mut cells = [0; MOST_REQUESTS];
        cells[0] = number;
        Reqs { cells, len: 1 }
    }

    fn is_full(&self) -> bool {
        usize::from(self.len) == MOST_REQUESTS
    }

    fn push(&mut self, number: u32) {
        self.cells[usize::from(self.len)] = number;
        self.len += 1;
    }

    fn count(&self) -> usize {
        usize::from(self.len)
    }

    fn as_slice(&self) -> &[u32] {
        &self.cells[..self.count()]
    }
}

#[derive(Clone, Copy, Debug)]
enum Call {
    Send { mode: Mode, comm: u16, dest: Peer, tag: u32, bytes: Option<u32> },
    Recv { comm: u16, source: Peer, tag: u32 },
    Isend { req: u32, mode: Mode, comm: u16, dest: Peer, tag: u32, bytes: Option<u32> },
    Irecv { req: u32, comm: u16, source: Peer, tag: u32 },
    Sendrecv { comm: u16, dest: Peer, send_tag: u32, source: Peer, recv_tag: u32, bytes: Option<u32> },
    Probe { comm: u16, source: Peer, tag: u32 },
    Wait { req: u32 },
    Waitall { reqs: Reqs },
    Waitany { chosen: u8, reqs: Reqs },
    Coll { comm: u16, kind: Kind },
    Icoll { req: u32, comm: u16, kind: Kind },
    Dup { comm: u16, new: u16 },
    Split { comm: u16, colour: Option<u32>, key: i32, new: Option<u16> },
    Finalize,
    Open,
}

/// A call whose fields lie in their ranges.
#[derive(Clone, Copy, Debug)]
struct Record {
    call: Call,
}

impl Record {
    fn finalize() -> Record {
        Record { call: Call::Finalize }
    }
}

#[derive(Clone, Copy, Debug)]
enum LineFault {
    EmptyField,
    UnknownWord,
    FieldCount,
    FieldForm,
    Wildcard,
    TooLong,
    NoLineFeed,
}

#[derive(Clone, Copy, Debug)]
enum SourceFault {
    Line(LineFault),
    TextAfterFinalize,
    NoFinalize,
    ReadFailed,
}

impl fmt::Display for LineFault {
    fn fmt(&self, f: &mut fmt::Formatter<'_>) -> fmt::Result {
        f.write_str(match self {
            LineFault::EmptyField => "empty field",
            LineFault::UnknownWord => "unknown word",
            LineFault::FieldCount => "number of fields",
            LineFault::FieldForm => "field out of form or range",
            LineFault::Wildcard => "wildcard",
            LineFault::TooLong => "line too long",
            LineFault::NoLineFeed => "no line feed",
        })
    }
}

impl fmt::Display for SourceFault {
    fn fmt(&self, f: &mut fmt::Formatter<'_>) -> fmt::Result {
        match self {
            SourceFault::Line(fault) => fault.fmt(f),
            SourceFault::TextAfterFinalize => f.write_str("text after finalize"),
            SourceFault::NoFinalize => f.write_str("no finalize"),
            SourceFault::ReadFailed => f.write_str("read failed"),
        }
    }
}

#[derive(Clone, Copy)]
enum Collective {
    Barrier,
    Bcast,
    Gather,
    Scatter,
    Reduce,
    Allgather,
    Alltoall,
    Allreduce,
    Scan,
    Exscan,
}

#[derive(Clone, Copy)]
enum Operation {
    Send(Mode),
    Recv,
    Coll(Collective),
}

#[derive(Clone, Copy)]
enum Word {
    Blocking(Operation),
    Started(Operation),
    Sendrecv,
    Probe,
    Wait,
    Waitall,
    Waitany,
    Dup,
    Split,
    Finalize,
    Open,
}

fn collective_of(field: &[u8]) -> Option<Collective> {
    Some(match field {
        b"barrier" => Collective::Barrier,
        b"bcast" => Collective::Bcast,
        b"gather" => Collective::Gather,
        b"scatter" => Collective::Scatter,
        b"reduce" => Collective::Reduce,
        b"allgather" => Collective::Allgather,
        b"alltoall" => Collective::Alltoall,
        b"allreduce" => Collective::Allreduce,
        b"scan" => Collective::Scan,
        b"exscan" => Collective::Exscan,
        _ => return None,
    })
}

fn operation_of(field: &[u8]) -> Option<Operation> {
    match field {
        b"send" => Some(Operation::Send(Mode::Standard)),
        b"recv" => Some(Operation::Recv),
        b"ssend" => Some(Operation::Send(Mode::Synchronous)),
        b"bsend" => Some(Operation::Send(Mode::Buffered)),
        _ => collective_of(field).map(Operation::Coll),
    }
}

fn started_of(field: &[u8]) -> Option<Word> {
    operation_of(field.strip_prefix(b"i")?).map(Word::Started)
}

fn other_of(field: &[u8]) -> Option<Word> {
    Some(match field {
        b"waitall" => Word::Waitall,
        b"wait" => Word::Wait,
        b"waitany" => Word::Waitany,
        b"sendrecv" => Word::Sendrecv,
        b"probe" => Word::Probe,
        b"dup" => Word::Dup,
        b"split" => Word::Split,
        b"finalize" => Word::Finalize,
        b"open" => Word::Open,
        _ => return None,
    })
}

fn word_of(field: &[u8]) -> Option<Word> {
    if let Some(operation) = operation_of(field) {
        return Some(Word::Blocking(operation));
    }
    started_of(field).or_else(|| other_of(field))
}

/// The number that digits write, if it is at most `limit`.
fn read_digits(limit: u32, field: &[u8]) -> Option<u32> {
    let mut value = 0;
    for byte in field {
        if !byte.is_ascii_digit() {
            return None;
        }
        let next = u64::from(value) * 10 + u64::from(byte - b'0');
        if next > u64::from(limit) {
            return None;
        }
        value = next as u32;
    }
    Some(value)
}

/// The number that a field spells, if it is a canonical one of at most `limit`.
fn read_number(limit: u32, field: &[u8]) -> Option<u32> {
    if field.is_empty() || (field.len() > 1 && field[0] == b'0') {
        return None;
    }
    read_digits(limit, field)
}

fn read_signed(field: &[u8]) -> Option<i32> {
    match field.strip_prefix(b"-") {
        Some(digits) => match read_number(GREATEST_KEY + 1, digits)? {
            0 => None,
            number => Some((-i64::from(number)) as i32),
        },
        None => Some(read_number(GREATEST_KEY, field)? as i32),
    }
}

/// The fields of a line's body: what lies between its single spaces.
#[derive(Clone)]
struct Fields<'a> {
    rest: Option<&'a [u8]>,
}

impl<'a> Fields<'a> {
    fn of(body: &'a [u8]) -> Fields<'a> {
        Fields { rest: Some(body) }
    }

    /// No more, where all the fields have come.
    fn end(&self) -> Option<()> {
        self.rest.is_none().then_some(())
    }

    fn next_number(&mut self, greatest: u32) -> Option<u32> {
        read_number(greatest, self.next()?)
    }

    fn next_comm(&mut self) -> Option<u16> {
        Some(self.next_number(u32::from(GREATEST_COMM))? as u16)
    }

    fn next_tag(&mut self) -> Option<u32> {
        self.next_number(GREATEST_TAG)
    }

    fn next_request(&mut self) -> Option<u32> {
        self.next_number(GREATEST_REQUEST)
    }

    fn next_root(&mut self) -> Option<u16> {
        Some(self.next_number(u32::from(GREATEST_RANK))? as u16)
    }

    fn next_peer(&mut self) -> Option<Peer> {
        match self.next()? {
            b"null" => Some(Peer::Null),
            field => Some(Peer::Rank(read_number(u32::from(GREATEST_RANK), field)? as u16)),
        }
    }

    fn next_colour(&mut self) -> Option<Option<u32>> {
        match self.next()? {
            b"undefined" => Some(None),
            field => Some(Some(read_number(GREATEST_COLOUR, field)?)),
        }
    }

    fn next_key(&mut self) -> Option<i32> {
        read_signed(self.next()?)
    }

    /// The next field, where it is a new communicator, or `none`.
    fn next_new(&mut self) -> Option<Option<u16>> {
        match self.next()? {
            b"none" => Some(None),
            field => Some(Some(read_number(u32::from(GREATEST_COMM), field)? as u16)),
        }
    }

    /// A communicator, a peer and a tag, as each message has them.
    fn next_message(&mut self) -> Option<(u16, Peer, u32)> {
        Some((self.next_comm()?, self.next_peer()?, self.next_tag()?))
    }

    /// The bytes that a send records, if there is a further field.
    fn next_bytes(&mut self) -> Option<Option<u32>> {
        match self.next() {
            None => Some(None),
            Some(field) => Some(Some(read_number(MOST_BYTES, field)?)),
        }
    }

    /// The same for a send of a mode: standard ones alone may tell bytes.
    fn next_bytes_of(&mut self, mode: Mode) -> Option<Option<u32>> {
        match mode {
            Mode::Standard => self.next_bytes(),
            _ => Some(None),
        }
    }

    /// The kind of a collective, whose root is the next field if it has one.
    fn next_kind(&mut self, collective: Collective) -> Option<Kind> {
        Some(match collective {
            Collective::Barrier => Kind::Barrier,
            Collective::Bcast => Kind::Bcast(self.next_root()?),
            Collective::Gather => Kind::Gather(self.next_root()?),
            Collective::Scatter => Kind::Scatter(self.next_root()?),
            Collective::Reduce => Kind::Reduce(self.next_root()?),
            Collective::Allgather => Kind::Allgather,
            Collective::Alltoall => Kind::Alltoall,
            Collective::Allreduce => Kind::Allreduce,
            Collective::Scan => Kind::Scan,
            Collective::Exscan => Kind::Exscan,
        })
    }

    /// The requests that all the fields spell, where they are as many as one wait may name.
    fn requests(mut self) -> Option<Reqs> {
        let mut reqs = Reqs::of_one(self.next_request()?);
        for field in self {
            if reqs.is_full() {
                return None;
            }
            reqs.push(read_number(GREATEST_REQUEST, field)?);
        }
        Some(reqs)
    }
}

impl<'a> Iterator for Fields<'a> {
    type Item = &'a [u8];

    fn next(&mut self) -> Option<&'a [u8]> {
        let rest = self.rest?;
        match rest.iter().position(|byte| *byte == b' ') {
            None => {
                self.rest = None;
                Some(rest)
            }
            Some(at) => {
                self.rest = Some(&rest[at + 1..]);
                Some(&rest[..at])
            }
        }
    }
}

/// Reads what follows an operation's word: blocking, or started with a request.
#[inline(always)]
fn read_operation(operation: Operation, req: Option<u32>, mut fields: Fields<'_>, into: &mut Call) -> Option<()> {
    match operation {
        Operation::Send(mode) => {
            let (comm, dest, tag) = fields.next_message()?;
            let bytes = fields.next_bytes_of(mode)?;
            fields.end()?;
            *into = match req {
                None => Call::Send { mode, comm, dest, tag, bytes },
                Some(req) => Call::Isend { req, mode, comm, dest, tag, bytes },
            };
        }
        Operation::Recv => {
            let (comm, source, tag) = fields.next_message()?;
            fields.end()?;
            *into = match req {
                None => Call::Recv { comm, source, tag },
                Some(req) => Call::Irecv { req, comm, source, tag },
            };
        }
        Operation::Coll(collective) => {
            let comm = fields.next_comm()?;
            let kind = fields.next_kind(collective)?;
            fields.end()?;
            *into = match req {
                None => Call::Coll { comm, kind },
                Some(req) => Call::Icoll { req, comm, kind },
            };
        }
    }
    Some(())
}

fn read_sendrecv(mut fields: Fields<'_>, into: &mut Call) -> Option<()> {
    let (comm, dest, send_tag) = fields.next_message()?;
    let source = fields.next_peer()?;
    let recv_tag = fields.next_tag()?;
    let bytes = fields.next_bytes()?;
    fields.end()?;
    *into = Call::Sendrecv { comm, dest, send_tag, source, recv_tag, bytes };
    Some(())
}

fn read_probe(mut fields: Fields<'_>, into: &mut Call) -> Option<()> {
    let (comm, source, tag) = fields.next_message()?;
    fields.end()?;
    *into = Call::Probe { comm, source, tag };
    Some(())
}

fn read_waitall(fields: Fields<'_>, into: &mut Call) -> Option<()> {
    let reqs = fields.requests()?;
    *into = Call::Waitall { reqs };
    Some(())
}

fn read_waitany(mut fields: Fields<'_>, into: &mut Call) -> Option<()> {
    let chosen = fields.next_number(MOST_REQUESTS as u32 - 1)?;
    let reqs = fields.requests()?;
    if chosen as usize >= reqs.count() {
        return None;
    }
    *into = Call::Waitany { chosen: chosen as u8, reqs };
    Some(())
}

fn read_wait(mut fields: Fields<'_>, into: &mut Call) -> Option<()> {
    let req = fields.next_request()?;
    fields.end()?;
    *into = Call::Wait { req };
    Some(())
}

fn read_dup(mut fields: Fields<'_>, into: &mut Call) -> Option<()> {
    let comm = fields.next_comm()?;
    let new = fields.next_comm()?;
    fields.end()?;
    *into = Call::Dup { comm, new };
    Some(())
}

fn read_split(mut fields: Fields<'_>, into: &mut Call) -> Option<()> {
    let comm = fields.next_comm()?;
    let colour = fields.next_colour()?;
    let key = fields.next_key()?;
    let new = fields.next_new()?;
    fields.end()?;
    *into = Call::Split { comm, colour, key, new };
    Some(())
}

/// Reads an end record, which has no fields.
fn read_end_record(call: Call, fields: Fields<'_>, into: &mut Call) -> Option<()> {
    fields.end()?;
    *into = call;
    Some(())
}

/// Reads the call of a word and the fields after it, if there is one, and else leaves the place alone.
fn read_behind(word: Word, mut fields: Fields<'_>, into: &mut Call) -> Option<()> {
    match word {
        Word::Blocking(operation) => read_operation(operation, None, fields, into),
        Word::Started(operation) => read_operation(operation, Some(fields.next_request()?), fields, into),
        Word::Waitall => read_waitall(fields, into),
        Word::Wait => read_wait(fields, into),
        Word::Waitany => read_waitany(fields, into),
        Word::Sendrecv => read_sendrecv(fields, into),
        Word::Probe => read_probe(fields, into),
        Word::Dup => read_dup(fields, into),
        Word::Split => read_split(fields, into),
        Word::Finalize => read_end_record(Call::Finalize, fields, into),
        Word::Open => read_end_record(Call::Open, fields, into),
    }
}

/// Reads the call of the fields of a line, its word first, if there is one.
fn read_fields(mut fields: Fields<'_>, into: &mut Call) -> Option<()> {
    let word = word_of(fields.next()?)?;
    read_behind(word, fields, into)
}

/// How many fields an operation takes, where there are so many.
fn field_count(operation: Operation, count: usize) -> usize {
    match operation {
        Operation::Send(Mode::Standard) if count == 4 => 4,
        Operation::Send(_) | Operation::Recv => 3,
        Operation::Coll(
            Collective::Bcast | Collective::Gather | Collective::Scatter | Collective::Reduce,
        ) => 2,
        Operation::Coll(_) => 1,
    }
}

fn takes_count(word: Word, count: usize) -> bool {
    match word {
        Word::Blocking(operation) => count == field_count(operation, count),
        Word::Started(operation) => count >= 1 && count == 1 + field_count(operation, count - 1),
        Word::Sendrecv => count == 5 || count == 6,
        Word::Probe => count == 3,
        Word::Wait => count == 1,
        Word::Waitall => (1..=MOST_REQUESTS).contains(&count),
        Word::Waitany => (2..=MOST_REQUESTS + 1).contains(&count),
        Word::Dup => count == 2,
        Word::Split => count == 4,
        Word::Finalize | Word::Open => count == 0,
    }
}

/// How many fields stand before the source of a receive.
fn source_place(word: Word) -> Option<usize> {
    match word {
        Word::Blocking(Operation::Recv) | Word::Probe => Some(1),
        Word::Started(Operation::Recv) => Some(2),
        Word::Sendrecv => Some(3),
        _ => None,
    }
}

/// The first fault of fields that don't fit.
fn fault_of_fields(mut fields: Fields<'_>) -> LineFault {
    if fields.clone().any(<[u8]>::is_empty) {
        return LineFault::EmptyField;
    }
    let Some(word) = fields.next().and_then(word_of) else {
        return LineFault::UnknownWord;
    };
    if !takes_count(word, fields.clone().count()) {
        return LineFault::FieldCount;
    }
    match source_place(word) {
        Some(place) if fields.skip(place).take(2).any(|field| field == b"any") => LineFault::Wildcard,
        _ => LineFault::FieldForm,
    }
}

/// The body of a line: its bytes without the last line feed.
fn body_of(line: &[u8]) -> Result<&[u8], LineFault> {
    if line.len() > MOST_LINE_BYTES {
        return Err(LineFault::TooLong);
    }
    match line.split_last() {
        Some((b'\n', body)) => Ok(body),
        _ => Err(LineFault::NoLineFeed),
    }
}

/// Reads the record of a line into one place, which a line with a fault leaves alone.
fn read_into(line: &[u8], into: &mut Record) -> Result<(), LineFault> {
    let body = body_of(line)?;
    read_fields(Fields::of(body), &mut into.call).ok_or_else(|| fault_of_fields(Fields::of(body)))
}

/// The C library's search for a byte, in place of the crate `memchr` of the proved reader.
fn memchr(wanted: u8, bytes: &[u8]) -> Option<usize> {
    mod c {
        unsafe extern "C" {
            pub fn memchr(from: *const u8, byte: i32, count: usize) -> *const u8;
        }
    }
    // SAFETY: `memchr` reads the bytes of the slice alone, and answers null or a place within it.
    let found = unsafe { c::memchr(bytes.as_ptr(), i32::from(wanted), bytes.len()) };
    (!found.is_null()).then(|| found as usize - bytes.as_ptr() as usize)
}

/// The bytes that were read ahead of an input, held in place.
struct Window {
    buffer: [u8; CAPACITY],
    start: usize,
    end: usize,
}

impl Window {
    fn new() -> Window {
        Window { buffer: [0; CAPACITY], start: 0, end: 0 }
    }

    fn held(&self) -> &[u8] {
        &self.buffer[self.start..self.end]
    }

    /// Makes room after the held bytes; they go to the buffer's front where that is needed.
    fn make_room(&mut self) {
        if self.start == self.end {
            self.start = 0;
            self.end = 0;
        }
        if self.end == CAPACITY {
            self.buffer.copy_within(self.start..self.end, 0);
            self.end -= self.start;
            self.start = 0;
        }
    }

    /// Reads once, straight after the held bytes, and answers how many bytes came.
    fn fill(&mut self, input: &mut impl Read) -> io::Result<usize> {
        self.make_room();
        let count = input.read(&mut self.buffer[self.end..])?;
        self.end += count;
        Ok(count)
    }

    /// Reads on until the next line is held or too long, or no bytes are left; says how many of the
    /// held bytes it has.
    fn line_end(&mut self, input: &mut impl Read) -> io::Result<usize> {
        let mut searched = 0;
        loop {
            if let Some(at) = memchr(b'\n', &self.held()[searched..]) {
                return Ok(searched + at + 1);
            }
            searched = self.held().len();
            if searched > MOST_LINE_BYTES || self.fill(input)? == 0 {
                return Ok(searched);
            }
        }
    }

    /// Whether any bytes are left, held or in the input.
    fn has_more(&mut self, input: &mut impl Read) -> io::Result<bool> {
        Ok(self.start < self.end || self.fill(input)? > 0)
    }
}

#[derive(Clone, Copy)]
enum Stage {
    Reading,
    Ended,
    Done,
    Failed(SourceFault),
}

/// A source of records over an input.
struct Source<I> {
    input: I,
    window: Window,
    stage: Stage,
}

impl<I: Read> Source<I> {
    fn new(input: I) -> Source<I> {
        Source { input, window: Window::new(), stage: Stage::Reading }
    }

    /// Reads the next record into one place, and says whether there was one.
    fn next_into(&mut self, into: &mut Record) -> Result<bool, SourceFault> {
        match self.stage {
            Stage::Reading => self.read_record(into).map(|()| true),
            Stage::Ended => self.read_end().map(|()| false),
            Stage::Done => Ok(false),
            Stage::Failed(fault) => Err(fault),
        }
    }

    fn fail<T>(&mut self, fault: SourceFault) -> Result<T, SourceFault> {
        self.stage = Stage::Failed(fault);
        Err(fault)
    }

    fn read_record(&mut self, into: &mut Record) -> Result<(), SourceFault> {
        let len = match self.window.line_end(&mut self.input) {
            Ok(0) => return self.fail(SourceFault::NoFinalize),
            Ok(len) => len,
            Err(_) => return self.fail(SourceFault::ReadFailed),
        };
        if let Err(fault) = read_into(&self.window.held()[..len], into) {
            return self.fail(SourceFault::Line(fault));
        }
        self.window.start += len;
        if let Call::Finalize | Call::Open = into.call {
            self.stage = Stage::Ended;
        }
        Ok(())
    }

    /// Looks for bytes after the end record.
    fn read_end(&mut self) -> Result<(), SourceFault> {
        match self.window.has_more(&mut self.input) {
            Ok(false) => {
                self.stage = Stage::Done;
                Ok(())
            }
            Ok(true) => self.fail(SourceFault::TextAfterFinalize),
            Err(_) => self.fail(SourceFault::ReadFailed),
        }
    }
}

/// Reads a source to its end and shows each record: how many there are, or the call and the fault with which it ends.
fn read_all<I: Read>(source: &mut Source<I>, mut show: impl FnMut(&Record)) -> Result<u64, (u64, SourceFault)> {
    let mut count: u64 = 0;
    let mut record = Record::finalize();
    loop {
        match source.next_into(&mut record) {
            Ok(true) => count = count.saturating_add(1),
            Ok(false) => return Ok(count),
            Err(fault) => return Err((count, fault)),
        }
        show(&record);
    }
}

/// The sum of a record's tags and requests.
fn number_of(record: &Record) -> u64 {
    match &record.call {
        Call::Send { tag, .. } | Call::Recv { tag, .. } | Call::Probe { tag, .. } => u64::from(*tag),
        Call::Isend { req, tag, .. } | Call::Irecv { req, tag, .. } => u64::from(*req) + u64::from(*tag),
        Call::Sendrecv { send_tag, recv_tag, .. } => u64::from(*send_tag) + u64::from(*recv_tag),
        Call::Wait { req } | Call::Icoll { req, .. } => u64::from(*req),
        Call::Waitall { reqs } | Call::Waitany { reqs, .. } => reqs.as_slice().iter().map(|req| u64::from(*req)).sum(),
        _ => 0,
    }
}

fn main() -> ExitCode {
    let words: Vec<String> = env::args().skip(1).collect();
    let [way, path] = words.as_slice() else {
        eprintln!("usage: plain lint|records FILE");
        return ExitCode::from(3);
    };
    let Ok(file) = File::open(path) else {
        eprintln!("fault open {path}");
        return ExitCode::from(4);
    };
    let mut source = Source::new(file);
    let mut sum: u64 = 0;
    let said = match way.as_str() {
        "lint" => read_all(&mut source, |_| ()).map(|count| format!("{count}")),
        _ => read_all(&mut source, |record| sum = sum.wrapping_add(number_of(record)))
            .map(|count| format!("{count} {sum}")),
    };
    match said {
        Ok(said) => {
            println!("{said}");
            ExitCode::SUCCESS
        }
        Err((call, fault)) => {
            eprintln!("refused call {call} {fault}");
            ExitCode::from(2)
        }
    }
}
