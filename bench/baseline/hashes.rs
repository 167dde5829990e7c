//! How well hashes of texts spread: a model of `TextState` beside std's SipHash-1-3.
//!
//! `hashes vectors` prints the table that `bench/text_hash.py` prints, so that the model is compared with the definition and, by the tests'
//! vectors, with the proved hash. `hashes quality` prints for sets of texts how many hashes are equal and how many slots a look-up reads
//! in an index that is built as ours is; the lines of each file that is named are one more set. `hashes attack` has the texts of
//! somebody who knows everything but the seed: lanes that are zero or a public constant, and pairs from a search.
use std::collections::hash_map::DefaultHasher;
use std::collections::HashSet;
use std::hash::Hasher;

const PI: [u64; 2] = [0x243f_6a88_85a3_08d3, 0x1319_8a2e_0370_7344];
const TEXTS: usize = 1_000_000;

#[derive(Clone, Copy)]
struct Seed(u64, u64);

fn folded(a: u64, b: u64) -> u64 {
    let product = a as u128 * b as u128;
    product as u64 ^ (product >> 64) as u64
}

fn word(text: &[u8], at: usize) -> u64 {
    u64::from_le_bytes(text[at..at + 8].try_into().unwrap())
}

fn half_word(text: &[u8], at: usize) -> u64 {
    u32::from_le_bytes(text[at..at + 4].try_into().unwrap()) as u64
}

fn ends(text: &[u8]) -> (u64, u64) {
    let len = text.len();
    if len >= 8 {
        (word(text, 0), word(text, len - 8))
    } else if len >= 4 {
        (half_word(text, 0), half_word(text, len - 4))
    } else if len > 0 {
        let few = [text[0], text[len / 2], text[len - 1]].map(u64::from);
        (few[0] | few[1] << 8 | few[2] << 16, 0)
    } else {
        (0, 0)
    }
}

fn text_hash(seed: Seed, text: &[u8]) -> u64 {
    let (mut state, factor) = (seed.0 ^ PI[0], seed.1 ^ PI[1]);
    let last = factor.rotate_left((text.len() % 64) as u32);
    if text.len() <= 16 {
        let (head, tail) = ends(text);
        return folded(head ^ state, tail ^ last);
    }
    for lane in 0..(text.len() - 1) / 16 {
        state = folded(word(text, 16 * lane) ^ state, word(text, 16 * lane + 8) ^ factor);
    }
    folded(word(text, text.len() - 16) ^ state, word(text, text.len() - 8) ^ last)
}

fn sip_hash(text: &[u8]) -> u64 {
    let mut hasher = DefaultHasher::new();
    hasher.write(text);
    hasher.write_u8(0xff);
    hasher.finish()
}

/// Numbers that look random, each from the one before.
struct Draws(u64);

impl Draws {
    fn next(&mut self) -> u64 {
        self.0 = self.0.wrapping_add(0x9e37_79b9_7f4a_7c15);
        let mut mixed = self.0;
        mixed = (mixed ^ mixed >> 30).wrapping_mul(0xbf58_476d_1ce4_e5b9);
        mixed = (mixed ^ mixed >> 27).wrapping_mul(0x94d0_49bb_1331_11eb);
        mixed ^ mixed >> 31
    }

    fn text(&mut self, len: usize) -> Vec<u8> {
        (0..len).map(|_| b'a' + (self.next() % 26) as u8).collect()
    }
}

/// How many of the hashes are equal to another, and how many slots a look-up reads on the average: slots in one row, each hash in the
/// first free one from the slot that its lowest bits name, in a table of a power of two that is at most three quarters full.
fn measure(hashes: &[u64]) -> (usize, f64) {
    let distinct: HashSet<u64> = hashes.iter().copied().collect();
    let slots = (hashes.len() * 4 / 3 + 1).next_power_of_two();
    let mut is_used = vec![false; slots];
    let mut read = 0;
    for hash in hashes {
        let mut slot = *hash as usize % slots;
        read += 1;
        while is_used[slot] {
            slot = (slot + 1) % slots;
            read += 1;
        }
        is_used[slot] = true;
    }
    (hashes.len() - distinct.len(), read as f64 / hashes.len() as f64)
}

/// Sets of texts, each with a name.
fn sets() -> Vec<(&'static str, Vec<Vec<u8>>)> {
    let mut draws = Draws(1);
    let mut sets: Vec<(&'static str, Vec<Vec<u8>>)> = Vec::new();
    let numbers = |format: &dyn Fn(usize) -> String| (0..TEXTS).map(|number| format(number).into_bytes()).collect();
    sets.push(("numbers", numbers(&|number| number.to_string())));
    sets.push(("numbers of 8 digits", numbers(&|number| format!("{number:08}"))));
    sets.push(("text number", numbers(&|number| format!("text number {number}"))));
    sets.push(("numbers first", numbers(&|number| format!("{number:07} is the number of this text"))));
    sets.push(("texts of 1 to 4 letters", (0..475_254).map(letters).collect()));
    sets.push(("paths", numbers(&|number| {
        format!("/home/user{}/project{}/src/module_{}/file_{}.rs", number % 10, number / 10 % 100, number / 1000 % 50, number / 50_000)
    })));
    let mut bits = Vec::new();
    for len in [7, 16, 35, 200] {
        while bits.len() < TEXTS / 4 * (1 + [7, 16, 35, 200].iter().position(|&each| each == len).unwrap()) {
            let base = draws.text(len);
            for bit in (0..8 * len).filter(|bit| bit % 8 != 7) {
                let mut text = base.clone();
                text[bit / 8] ^= 1 << (bit % 8);
                bits.push(text);
            }
            bits.push(base);
        }
    }
    bits.sort();
    bits.dedup();
    sets.push(("one bit", bits));
    let mut lengths = Vec::new();
    for letter in [0, b' ', b'a', b'z', 0x7f] {
        lengths.extend((usize::from(letter != 0)..2000).map(|len| vec![letter; len]));
    }
    sets.push(("lengths", lengths));
    for path in std::env::args().skip(2) {
        let mut lines: Vec<Vec<u8>> = std::fs::read(&path).unwrap().split(|&byte| byte == b'\n').map(<[u8]>::to_vec).collect();
        lines.sort();
        lines.dedup();
        sets.push((path.leak(), lines));
    }
    sets
}

/// The texts of one to four letters, in their order.
fn letters(number: usize) -> Vec<u8> {
    let mut rest = number + 1;
    let mut text = Vec::new();
    while rest > 0 {
        rest -= 1;
        text.push(b'a' + (rest % 26) as u8);
        rest /= 26;
    }
    text
}

fn quality() {
    let mut draws = Draws(u64::from(std::process::id()) << 32 ^ std::time::SystemTime::now().elapsed().map_or(7, |age| age.as_nanos() as u64));
    let seeds: Vec<Seed> = (0..20).map(|_| Seed(draws.next(), draws.next())).collect();
    println!("{:<26}{:>9}{:>11}{:>9}{:>9}{:>9}{:>9}", "texts", "count", "collisions", "sip", "fixed", "mean", "most");
    for (name, texts) in sets() {
        let sip = measure(&texts.iter().map(|text| sip_hash(text)).collect::<Vec<_>>());
        let fixed = measure(&texts.iter().map(|text| text_hash(Seed(0, 0), text)).collect::<Vec<_>>());
        let seeded: Vec<(usize, f64)> = seeds.iter().map(|seed| measure(&texts.iter().map(|text| text_hash(*seed, text)).collect::<Vec<_>>())).collect();
        let collisions = fixed.0 + seeded.iter().map(|one| one.0).sum::<usize>();
        let mean = seeded.iter().map(|one| one.1).sum::<f64>() / seeds.len() as f64;
        let most = seeded.iter().map(|one| one.1).fold(0.0, f64::max);
        println!("{name:<26}{:>9}{collisions:>11}{:>9.4}{:>9.4}{:>9.4}{:>9.4}", texts.len(), sip.1, fixed.1 / sip.1, mean / sip.1, most / sip.1);
    }
}

/// Texts that are made of the lanes given and a number, at each place: in front, in the middle and at the end.
fn with_lanes(lane: [u8; 8], count: usize) -> Vec<Vec<u8>> {
    let mut texts = Vec::new();
    for number in 0..count {
        let digits = format!("{number:08}").into_bytes();
        let mut text = vec![lane; 6];
        text[number % 6] = digits.try_into().unwrap();
        texts.push(text.concat());
    }
    texts
}

/// How much longer look-ups of the texts are than of others, and how many hashes are equal, over several seeds.
fn attack() {
    let mut draws = Draws(7);
    let seeds: Vec<Seed> = (0..20).map(|_| Seed(draws.next(), draws.next())).collect();
    println!("{:<34}{:>9}{:>11}{:>9}{:>9}", "texts", "count", "collisions", "mean", "most");
    let constants = [("zero", 0), ("the first constant", PI[0]), ("the second constant", PI[1]), ("their xor", PI[0] ^ PI[1]), ("all ones", u64::MAX)];
    for count in [2_500, 5_000, 10_000, 100_000] {
        let others: Vec<Vec<u8>> = (0..count).map(|_| draws.text(48)).collect();
        for (name, constant) in constants {
            let texts = with_lanes(constant.to_le_bytes(), count);
            let mut ratios = Vec::new();
            let mut collisions = 0;
            for seed in &seeds {
                let of = |texts: &[Vec<u8>]| measure(&texts.iter().map(|text| text_hash(*seed, text)).collect::<Vec<_>>());
                let found = of(&texts);
                collisions += found.0;
                ratios.push(found.1 / of(&others).1);
            }
            let mean = ratios.iter().sum::<f64>() / ratios.len() as f64;
            let most = ratios.iter().copied().fold(0.0, f64::max);
            println!("{:<34}{count:>9}{collisions:>11}{mean:>9.3}{most:>9.3}", format!("lanes that are {name}"));
        }
    }
    search(&mut draws);
}

/// A word that differs from another in a way that a search for collisions tries: a bit, a run of bits, all bits, a rotation, a product.
fn changed(word: u64, draws: &mut Draws) -> u64 {
    let by = (draws.next() % 64) as u32;
    match draws.next() % 8 {
        0 => word,
        1 => word ^ 1 << by,
        2 => word ^ u64::MAX << by,
        3 => word ^ u64::MAX >> by,
        4 => !word,
        5 => word.rotate_left(by),
        6 => word.wrapping_mul(2 * u64::from(by) + 3),
        _ => word ^ draws.next(),
    }
}

/// Searches for pairs of texts that collide under more seeds than chance would have it: 1,000,000 pairs, each under 16 seeds, and those
/// that share the lowest sixteen bits twice under 100,000 more.
fn search(draws: &mut Draws) {
    let seeds: Vec<Seed> = (0..16).map(|_| Seed(draws.next(), draws.next())).collect();
    let (mut full, mut kept) = (0, Vec::new());
    for _ in 0..1_000_000 {
        let words = [draws.next() % 4 * draws.next(), draws.next() % 4 * draws.next(), draws.next(), draws.next()];
        let others = words.map(|word| changed(word, draws));
        let len = [4, 7, 8, 12, 16, 24, 32][(draws.next() % 7) as usize];
        let other_len = if draws.next() % 4 == 0 { [8, 16, 24, 32][(draws.next() % 4) as usize] } else { len };
        let bytes = |words: [u64; 4], len: usize| words.map(u64::to_le_bytes).concat()[..len].to_vec();
        let (one, other) = (bytes(words, len), bytes(others, other_len));
        if one == other {
            continue;
        }
        let differences: Vec<u64> = seeds.iter().map(|seed| text_hash(*seed, &one) ^ text_hash(*seed, &other)).collect();
        full += differences.iter().filter(|&&difference| difference == 0).count();
        if differences.iter().filter(|&&difference| difference % 65_536 == 0).count() > 1 {
            kept.push((one, other));
        }
    }
    println!("search: {full} collisions of 1,000,000 pairs under 16 seeds; {} pairs share sixteen bits twice", kept.len());
    let mut found: Vec<(usize, usize, String)> = kept.iter().map(|(one, other)| {
        let differences: Vec<u64> = (0..100_000).map(|_| Seed(draws.next(), draws.next())).map(|seed| text_hash(seed, one) ^ text_hash(seed, other)).collect();
        let alike = differences.iter().filter(|&&difference| difference % 65_536 == 0).count();
        let equal = differences.iter().filter(|&&difference| difference == 0).count();
        (alike, equal, format!("{one:02x?} {other:02x?}"))
    }).collect();
    found.sort();
    for (alike, equal, texts) in found.iter().rev().take(5) {
        println!("{alike} of 100,000 seeds share sixteen bits, {equal} all: {texts}");
    }
}

fn vectors() {
    let seeds = [Seed(0, 0), Seed(0x0706_0504_0302_0100, 0x0f0e_0d0c_0b0a_0908), Seed(u64::MAX, 1)];
    for size in [0, 1, 2, 3, 4, 7, 8, 9, 15, 16, 17, 31, 32, 33, 48, 63, 64, 65, 80] {
        let text: Vec<u8> = (0..size).map(|index: usize| 97 + ((index * index / 3 + 7 * index + size) % 26) as u8).collect();
        let hashes = seeds.map(|seed| format!("{:016x}", text_hash(seed, &text))).join(" ");
        println!("(\"{}\", \"{hashes}\"),", String::from_utf8_lossy(&text));
    }
}

fn main() {
    match std::env::args().nth(1).as_deref() {
        Some("vectors") => vectors(),
        Some("quality") => quality(),
        Some("attack") => attack(),
        _ => {
            eprintln!("usage: hashes vectors|quality|attack");
            std::process::exit(2);
        }
    }
}
