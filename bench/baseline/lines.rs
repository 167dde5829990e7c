//! The same jobs as `lasso_lines` without options, `lasso_codes counts` and `lasso_codes distinct`, as a Rust programmer writes them
//! over std.
use std::collections::{HashMap, HashSet};
use std::io::{self, BufRead, BufReader, BufWriter, Write};

// Hands each line of standard input to the work.
fn for_each_line(mut work: impl FnMut(&str) -> io::Result<()>) -> io::Result<()> {
    let mut reader = BufReader::with_capacity(1 << 16, io::stdin().lock());
    let mut line = Vec::new();
    loop {
        line.clear();
        if reader.read_until(b'\n', &mut line)? == 0 {
            return Ok(());
        }
        if line.last() == Some(&b'\n') {
            line.pop();
        }
        work(std::str::from_utf8(&line).map_err(|error| io::Error::new(io::ErrorKind::Other, error))?)?;
    }
}

fn numbered(writer: &mut impl Write) -> io::Result<()> {
    let mut positions: HashMap<Box<str>, u32> = HashMap::new();
    let mut texts: Vec<Box<str>> = Vec::new();
    let mut bytes = 0;
    for_each_line(|text| {
        let position = match positions.get(text) {
            Some(position) => *position,
            None => {
                let position = texts.len() as u32;
                positions.insert(text.into(), position);
                texts.push(text.into());
                bytes += text.len();
                position
            }
        };
        writeln!(writer, "{position} {text}")
    })?;
    writeln!(writer, "{} texts, {bytes} bytes", texts.len())
}

fn counts(writer: &mut impl Write) -> io::Result<()> {
    let mut counts: HashMap<Box<str>, u64> = HashMap::new();
    for_each_line(|line| {
        match counts.get_mut(line) {
            Some(count) => *count += 1,
            None => {
                counts.insert(line.into(), 1);
            }
        }
        Ok(())
    })?;
    let mut order: Vec<_> = counts.into_iter().collect();
    order.sort_unstable_by(|left, right| right.1.cmp(&left.1).then_with(|| left.0.cmp(&right.0)));
    for (line, count) in order {
        writeln!(writer, "{count} {line}")?;
    }
    Ok(())
}

fn distinct(writer: &mut impl Write) -> io::Result<()> {
    let mut seen: HashSet<Box<str>> = HashSet::new();
    for_each_line(|line| {
        if !seen.contains(line) {
            seen.insert(line.into());
            writeln!(writer, "{line}")?;
        }
        Ok(())
    })
}

fn main() -> io::Result<()> {
    let mut writer = BufWriter::with_capacity(1 << 16, io::stdout().lock());
    match std::env::args().nth(1).as_deref() {
        Some("numbered") => numbered(&mut writer)?,
        Some("counts") => counts(&mut writer)?,
        Some("distinct") => distinct(&mut writer)?,
        _ => return Err(io::Error::new(io::ErrorKind::Other, "usage: lines numbered|counts|distinct")),
    }
    writer.flush()
}
