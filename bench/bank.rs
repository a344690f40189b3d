//! The cases of crates/bank_bench over std's map of hashes with a cheap hasher: `rustc -O bank.rs`.
//!
//! The words are those of bank_bench, and the checksum is the same.
use std::collections::HashMap;
use std::hash::{BuildHasherDefault, Hasher};

/// A multiplicative hasher, as compilers use it.
#[derive(Default)]
struct Multiplying(u64);

impl Hasher for Multiplying {
    fn finish(&self) -> u64 {
        self.0
    }
    fn write(&mut self, bytes: &[u8]) {
        for chunk in bytes.chunks(8) {
            let mut word = [0; 8];
            word[..chunk.len()].copy_from_slice(chunk);
            self.write_u64(u64::from_ne_bytes(word));
        }
    }
    fn write_u64(&mut self, n: u64) {
        self.0 = (self.0.rotate_left(5) ^ n).wrapping_mul(0x517cc1b727220a95);
    }
    fn write_u8(&mut self, n: u8) {
        self.write_u64(n as u64);
    }
    fn write_u16(&mut self, n: u16) {
        self.write_u64(n as u64);
    }
    fn write_u32(&mut self, n: u32) {
        self.write_u64(n as u64);
    }
    fn write_usize(&mut self, n: usize) {
        self.write_u64(n as u64);
    }
}

/// A term: a variable, or a symbol with its arguments.
enum Term {
    Var(u16),
    App(u8, Vec<Term>),
}
use Term::{App, Var};

/// A cell: a variable, or a symbol with the numbers of its arguments.
#[derive(Clone, PartialEq, Eq, Hash)]
enum Cell {
    Variable(u16),
    Apply(u8, Vec<u32>),
}

/// Terms by number.
#[derive(Default)]
struct Bank {
    cells: Vec<Cell>,
    numbers: HashMap<Cell, u32, BuildHasherDefault<Multiplying>>,
}

impl Bank {
    fn intern(&mut self, t: &Term) -> u32 {
        let cell = match t {
            Var(n) => Cell::Variable(*n),
            App(f, ts) => Cell::Apply(*f, ts.iter().map(|u| self.intern(u)).collect()),
        };
        if let Some(n) = self.numbers.get(&cell) {
            return *n;
        }
        let n = self.cells.len() as u32;
        self.cells.push(cell.clone());
        self.numbers.insert(cell, n);
        n
    }

    fn lookup(&self, t: &Term) -> Option<u32> {
        let cell = match t {
            Var(n) => Cell::Variable(*n),
            App(f, ts) => Cell::Apply(*f, ts.iter().map(|u| self.lookup(u)).collect::<Option<_>>()?),
        };
        self.numbers.get(&cell).copied()
    }

    fn view(&self, n: u32) -> Term {
        match &self.cells[n as usize] {
            Cell::Variable(x) => Var(*x),
            Cell::Apply(f, ns) => App(*f, ns.iter().map(|m| self.view(*m)).collect()),
        }
    }
}

fn drawn(seed: &mut u32) -> u32 {
    *seed = seed.wrapping_mul(1664525).wrapping_add(1013904223);
    *seed >> 16
}

fn grown(seed: &mut u32, depth: u32) -> Term {
    let n = drawn(seed);
    if depth == 0 || n % 8 == 0 {
        return Var((drawn(seed) % 8) as u16);
    }
    let symbol = (drawn(seed) % 8) as u8;
    App(symbol, (0..symbol % 4).map(|_| grown(seed, depth - 1)).collect())
}

fn size(t: &Term) -> usize {
    match t {
        Var(_) => 1,
        App(_, ts) => 1 + ts.iter().map(size).sum::<usize>(),
    }
}

fn intern_all(bank: &mut Bank, terms: &[Term]) -> u32 {
    terms.iter().fold(0u32, |sum, t| sum.wrapping_add(bank.intern(t)))
}

fn main() {
    let words: Vec<String> = std::env::args().collect();
    let repetitions: u32 = words[2].parse().unwrap();
    let mut seed = 1;
    let mut terms: Vec<Term> = (0..2000).map(|_| grown(&mut seed, 6)).collect();
    terms.retain(|t| size(t) <= 512);
    if words[1] == "shape" {
        let sizes: Vec<usize> = terms.iter().map(size).collect();
        println!("{} terms, {} symbols and variables, at most {} in one", sizes.len(), sizes.iter().sum::<usize>(), sizes.iter().max().unwrap());
        return;
    }
    let mut bank = Bank::default();
    let mut sum = intern_all(&mut bank, &terms);
    for _ in 0..repetitions {
        sum = sum.wrapping_add(match words[1].as_str() {
            "intern" => {
                bank = Bank::default();
                intern_all(&mut bank, &terms)
            }
            "again" => intern_all(&mut bank, &terms),
            "lookup" => terms.iter().filter_map(|t| bank.lookup(t)).fold(0, u32::wrapping_add),
            _ => (0..bank.cells.len() as u32).fold(0, |sum, n| match bank.view(n) {
                Var(x) => sum.wrapping_add(x as u32),
                App(f, _) => sum.wrapping_add(f as u32),
            }),
        });
    }
    println!("{}", sum.wrapping_add(bank.cells.len() as u32));
}
