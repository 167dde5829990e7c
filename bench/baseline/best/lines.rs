//! The same jobs as `lasso_lines` without options, `lasso_codes counts` and `lasso_codes distinct`, as fast as they are written in
//! Rust over these crates. For the first the word says which hash: `fx`, `ahash` or `fold`.
mod pool;
#[path = "../report.rs"]
mod report;

use pool::{Fold, Fx, Pool, TextHash, A};
use report::{for_each_line, run, Numbers, BUFFER};
use std::io::{self, BufWriter, Write};

impl<H: TextHash> Numbers for Pool<H> {
    fn new() -> Self {
        Pool::new()
    }

    #[inline]
    fn intern(&mut self, text: &str) -> usize {
        self.intern(text.as_bytes()) as usize
    }

    fn len(&self) -> usize {
        self.len()
    }

    fn bytes(&self) -> usize {
        self.bytes()
    }
}

fn counts(writer: &mut impl Write) -> io::Result<()> {
    let mut pool = Pool::<Fold>::new();
    let mut counts: Vec<u64> = Vec::new();
    for_each_line(|line| {
        let code = pool.intern(line.as_bytes()) as usize;
        if code == counts.len() {
            counts.push(0);
        }
        counts[code] += 1;
        Ok(())
    })?;
    let mut order: Vec<u32> = (0..pool.len() as u32).collect();
    let count_of = |code: u32| counts[code as usize];
    order.sort_unstable_by(|left, right| {
        count_of(*right).cmp(&count_of(*left)).then_with(|| pool.resolve(*left).cmp(&pool.resolve(*right)))
    });
    for code in order {
        write!(writer, "{} ", count_of(code))?;
        writer.write_all(pool.resolve(code).unwrap())?;
        writer.write_all(b"\n")?;
    }
    Ok(())
}

fn distinct(writer: &mut impl Write) -> io::Result<()> {
    let mut pool = Pool::<Fold>::new();
    let mut count = 0;
    for_each_line(|line| {
        if pool.intern(line.as_bytes()) as usize == count {
            count += 1;
            writer.write_all(line.as_bytes())?;
            writer.write_all(b"\n")?;
        }
        Ok(())
    })
}

fn main() -> io::Result<()> {
    let mut writer = BufWriter::with_capacity(BUFFER, io::stdout().lock());
    match std::env::args().nth(1).as_deref() {
        Some("counts") => counts(&mut writer)?,
        Some("distinct") => distinct(&mut writer)?,
        other => {
            drop(writer);
            return numbered(other);
        }
    }
    writer.flush()
}

fn numbered(hash: Option<&str>) -> io::Result<()> {
    match hash {
        Some("fx") => run::<Pool<Fx>>(),
        Some("ahash") => run::<Pool<A>>(),
        Some("fold") => run::<Pool<Fold>>(),
        _ => Err(io::Error::new(io::ErrorKind::Other, "usage: lines fx|ahash|fold|counts|distinct")),
    }
}
