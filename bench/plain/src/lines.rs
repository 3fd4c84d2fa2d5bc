//! The lines of an input and their answers.

use std::io::{BufRead, ErrorKind, Write};

/// The bytes that a line has at most, without its line feed.
const MOST_BYTES: usize = 65_536;
const MOST_LINES: usize = 1_000_000;

/// How a run ends that is not answered as a whole.
#[derive(Clone, Copy)]
pub enum Fault {
    Read,
    Write,
    TooManyLines,
    LongLine,
}

impl Fault {
    /// Its number.
    pub fn code(self) -> &'static str {
        match self {
            Fault::Read => "V1",
            Fault::Write => "V2",
            Fault::TooManyLines => "V4",
            Fault::LongLine => "V5",
        }
    }
}

/// Answers lines one by one, and holds the answers until they go out.
struct Answering<A> {
    answer: A,
    lines: usize,
    replies: Vec<u8>,
}

/// Answers each line that is not empty. What was answered goes out before more is read.
pub fn answer_all(
    mut input: impl BufRead,
    mut output: impl Write,
    answer: impl FnMut(&[u8], &mut Vec<u8>),
) -> Result<(), Fault> {
    let mut answering = Answering { answer, lines: 0, replies: Vec::new() };
    let mut begun = Vec::new();
    loop {
        let block = match input.fill_buf() {
            Ok(block) => block,
            Err(error) if error.kind() == ErrorKind::Interrupted => continue,
            Err(_) => return Err(Fault::Read),
        };
        let is_end = block.is_empty();
        let taken = if is_end { answering.take_last(&begun) } else { answering.take_block(block, &mut begun) };
        let size = block.len();
        input.consume(size);
        output.write_all(&answering.replies).and_then(|()| output.flush()).map_err(|_| Fault::Write)?;
        answering.replies.clear();
        taken?;
        if is_end {
            return Ok(());
        }
    }
}

impl<A: FnMut(&[u8], &mut Vec<u8>)> Answering<A> {
    /// Answers the lines that end in a block; the first may have begun in an earlier one.
    fn take_block(&mut self, block: &[u8], begun: &mut Vec<u8>) -> Result<(), Fault> {
        let mut start = 0;
        for end in memchr::memchr_iter(b'\n', block) {
            self.take_end(&block[start..end], begun)?;
            start = end + 1;
        }
        if start < block.len() {
            self.check_count()?;
            begin(&block[start..], begun)?;
        }
        Ok(())
    }

    /// Answers a line by its end, or its last part.
    fn take_end(&mut self, end: &[u8], begun: &mut Vec<u8>) -> Result<(), Fault> {
        if begun.is_empty() {
            return self.take_line(end);
        }
        begin(end, begun)?;
        self.take_line(begun)?;
        begun.clear();
        Ok(())
    }

    /// Answers what stands behind the last line feed, if anything does.
    fn take_last(&mut self, line: &[u8]) -> Result<(), Fault> {
        if line.is_empty() {
            return Ok(());
        }
        self.take_line(line)
    }

    fn take_line(&mut self, line: &[u8]) -> Result<(), Fault> {
        self.check_count()?;
        if line.len() > MOST_BYTES {
            return Err(Fault::LongLine);
        }
        self.lines += 1;
        let line = line.strip_suffix(b"\r").unwrap_or(line);
        if !line.is_empty() {
            (self.answer)(line, &mut self.replies);
            self.replies.push(b'\n');
        }
        Ok(())
    }

    /// Refuses a line more than a run may have.
    fn check_count(&self) -> Result<(), Fault> {
        if self.lines == MOST_LINES {
            return Err(Fault::TooManyLines);
        }
        Ok(())
    }
}

/// Keeps a part of a line, which ends later.
fn begin(part: &[u8], begun: &mut Vec<u8>) -> Result<(), Fault> {
    begun.extend_from_slice(part);
    if begun.len() > MOST_BYTES {
        return Err(Fault::LongLine);
    }
    Ok(())
}
