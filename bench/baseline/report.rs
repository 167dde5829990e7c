//! The same job as `lasso_lines` without options, over any pool of texts.
use memchr::{memchr_iter, memrchr};
use std::io::{self, Read, Write};

/// A pool of distinct texts, each with its position.
pub trait Numbers {
    fn new() -> Self;

    /// The position of the text, which joins the pool if it is absent.
    fn intern(&mut self, text: &str) -> usize;

    /// How many texts there are.
    fn len(&self) -> usize;

    /// How many bytes the pool counts for them.
    fn bytes(&self) -> usize;
}

/// The bytes of a buffer of input or output.
pub const BUFFER: usize = 1 << 16;

/// Bytes for the standard output, in one buffer.
struct Output {
    buffer: Vec<u8>,
}

impl Output {
    #[inline]
    fn number(&mut self, number: usize) {
        let mut digits = [0u8; 20];
        let mut at = digits.len();
        let mut left = number;
        loop {
            at -= 1;
            digits[at] = b'0' + (left % 10) as u8;
            left /= 10;
            if left == 0 {
                break;
            }
        }
        self.buffer.extend_from_slice(&digits[at..]);
    }

    #[inline]
    fn answer(&mut self, position: usize, line: &str) -> io::Result<()> {
        if self.buffer.len() + line.len() + 22 > BUFFER {
            self.flush()?;
        }
        self.number(position);
        self.buffer.push(b' ');
        self.buffer.extend_from_slice(line.as_bytes());
        self.buffer.push(b'\n');
        Ok(())
    }

    #[cold]
    fn flush(&mut self) -> io::Result<()> {
        io::stdout().lock().write_all(&self.buffer)?;
        self.buffer.clear();
        Ok(())
    }
}

fn text_of(bytes: &[u8]) -> io::Result<&str> {
    std::str::from_utf8(bytes).map_err(|error| io::Error::new(io::ErrorKind::Other, error))
}

/// Hands each line of standard input to the work.
#[inline(always)]
pub fn for_each_line(mut work: impl FnMut(&str) -> io::Result<()>) -> io::Result<()> {
    let mut input = io::stdin().lock();
    let mut buffer = vec![0u8; BUFFER];
    let mut filled = 0;
    loop {
        if filled == buffer.len() {
            buffer.resize(2 * filled, 0);
        }
        let count = input.read(&mut buffer[filled..])?;
        if count == 0 {
            break;
        }
        let before = filled;
        filled += count;
        let last = match memrchr(b'\n', &buffer[before..filled]) {
            Some(last) => last,
            None => continue,
        };
        let end = before + last + 1;
        let lines = text_of(&buffer[..end])?;
        let mut start = 0;
        for at in memchr_iter(b'\n', lines.as_bytes()) {
            // A line feed is a character, so the line between two of them is text.
            work(unsafe { lines.get_unchecked(start..at) })?;
            start = at + 1;
        }
        buffer.copy_within(end..filled, 0);
        filled -= end;
    }
    if filled > 0 {
        work(text_of(&buffer[..filled])?)?;
    }
    Ok(())
}

/// Writes each line of standard input after its number, and then the count of texts and their bytes.
pub fn run<N: Numbers>() -> io::Result<()> {
    let mut output = Output { buffer: Vec::with_capacity(BUFFER) };
    let mut pool = N::new();
    for_each_line(|line| output.answer(pool.intern(line), line))?;
    output.number(pool.len());
    output.buffer.extend_from_slice(b" texts, ");
    output.number(pool.bytes());
    output.buffer.extend_from_slice(b" bytes\n");
    output.flush()
}
