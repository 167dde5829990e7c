//! Writes each line of a file behind the code of its text, and checks that decoding gives the lines again.

use std::error::Error;
use std::io::{self, BufWriter, Write};
use std::{env, fs};

/// What a call tells beside its status; `lasso.h` says when it is which.
#[repr(C)]
#[derive(Default)]
struct Report {
    texts: usize,
    bytes: usize,
    at: usize,
}

// A slice crosses as a pointer and a length, as `lasso.h` declares it.
#[rustfmt::skip]
extern "C" {
    fn lasso_encode(
        bytes: *const u8, bytes_length: usize, offsets: *const i32, offsets_length: usize,
        codes: *mut u32, codes_length: usize,
        dictionary_bytes: *mut u8, dictionary_bytes_length: usize,
        dictionary_offsets: *mut i32, dictionary_offsets_length: usize,
        report: *mut Report,
    ) -> u32;
    fn lasso_decode(
        dictionary_bytes: *const u8, dictionary_bytes_length: usize,
        dictionary_offsets: *const i32, dictionary_offsets_length: usize,
        codes: *const u32, codes_length: usize,
        bytes: *mut u8, bytes_length: usize, offsets: *mut i32, offsets_length: usize,
        report: *mut Report,
    ) -> u32;
    fn lasso_status_text(status: u32, text: *mut u8, text_length: usize) -> usize;
}

/// Texts in one buffer of bytes, beside a buffer of offsets.
#[derive(PartialEq)]
struct Layout {
    bytes: Vec<u8>,
    offsets: Vec<i32>,
}

impl Layout {
    fn with_room(bytes: usize, offsets: usize) -> Self {
        Layout {
            bytes: vec![0; bytes],
            offsets: vec![0; offsets],
        }
    }

    /// The lines of some bytes, without their line feeds.
    fn of_lines(bytes: &[u8]) -> Result<Self, Box<dyn Error>> {
        let mut lines = Layout {
            bytes: Vec::new(),
            offsets: vec![0],
        };
        for line in bytes.split_inclusive(|byte| *byte == b'\n') {
            lines
                .bytes
                .extend_from_slice(line.strip_suffix(b"\n").unwrap_or(line));
            lines.offsets.push(i32::try_from(lines.bytes.len())?);
        }
        Ok(lines)
    }

    /// How many texts there are.
    fn len(&self) -> usize {
        self.offsets.len() - 1
    }

    fn text(&self, number: usize) -> &[u8] {
        &self.bytes[self.offsets[number] as usize..self.offsets[number + 1] as usize]
    }

    /// The codes of the texts and their dictionary.
    fn encode(&self) -> Result<(Vec<u32>, Layout), Box<dyn Error>> {
        // The dictionary never needs more room than the texts.
        let mut dictionary = Layout::with_room(self.bytes.len(), self.offsets.len());
        let mut codes = vec![0; self.len()];
        let mut report = Report::default();
        // SAFETY: each pointer and length are those of one slice, and no slice that is written overlaps another.
        #[rustfmt::skip]
        let status = unsafe {
            lasso_encode(
                self.bytes.as_ptr(), self.bytes.len(), self.offsets.as_ptr(), self.offsets.len(),
                codes.as_mut_ptr(), codes.len(),
                dictionary.bytes.as_mut_ptr(), dictionary.bytes.len(),
                dictionary.offsets.as_mut_ptr(), dictionary.offsets.len(),
                &mut report,
            )
        };
        done(status, &report)?;
        dictionary.bytes.truncate(report.bytes);
        dictionary.offsets.truncate(report.texts + 1);
        Ok((codes, dictionary))
    }

    /// The texts that the codes name, where this is the dictionary and they have so many bytes.
    fn decode(&self, codes: &[u32], bytes: usize) -> Result<Layout, Box<dyn Error>> {
        let mut texts = Layout::with_room(bytes, codes.len() + 1);
        let mut report = Report::default();
        // SAFETY: as in `encode`.
        #[rustfmt::skip]
        let status = unsafe {
            lasso_decode(
                self.bytes.as_ptr(), self.bytes.len(), self.offsets.as_ptr(), self.offsets.len(),
                codes.as_ptr(), codes.len(),
                texts.bytes.as_mut_ptr(), texts.bytes.len(), texts.offsets.as_mut_ptr(), texts.offsets.len(),
                &mut report,
            )
        };
        done(status, &report)?;
        texts.bytes.truncate(report.bytes);
        Ok(texts)
    }
}

/// The last of the statuses that tell at which text or code a call was refused; `lasso.h` has them all.
const TOO_MANY_BYTES: u32 = 5;

/// An error that says what the status means, and the line where there is one, unless it is that of a call that was done.
fn done(status: u32, report: &Report) -> Result<(), Box<dyn Error>> {
    if status == 0 {
        return Ok(());
    }
    let mut text = [0; 80];
    // SAFETY: the pointer and the length are those of one slice.
    let length = unsafe { lasso_status_text(status, text.as_mut_ptr(), text.len()) };
    let meaning = String::from_utf8_lossy(&text[..length.min(text.len())]);
    if status <= TOO_MANY_BYTES {
        return Err(format!("{meaning}, at line {}", report.at + 1).into());
    }
    Err(meaning.into())
}

fn main() -> Result<(), Box<dyn Error>> {
    let name = env::args().nth(1).ok_or("give the name of a file")?;
    let lines = Layout::of_lines(&fs::read(name)?)?;
    let (codes, dictionary) = lines.encode()?;

    let mut output = BufWriter::new(io::stdout().lock());
    for (number, code) in codes.iter().enumerate() {
        write!(output, "{code} ")?;
        output.write_all(lines.text(number))?;
        output.write_all(b"\n")?;
    }
    output.flush()?;

    if dictionary.decode(&codes, lines.bytes.len())? != lines {
        return Err("decoding gave other lines".into());
    }
    Ok(())
}
