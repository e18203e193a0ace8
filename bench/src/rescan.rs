//! The straightforward sweep: before each step the term is scanned from place 0, and each step copies it.

use crate::terms::{End, FIRST_VARIABLE, MOST_TERM, Sweeper, System};

pub struct Rescan<'a> {
    pub system: &'a System,
    next: [u16; MOST_TERM],
}

impl<'a> Rescan<'a> {
    pub fn new(system: &'a System) -> Self {
        Rescan { system, next: [0; MOST_TERM] }
    }
}

type Bindings = [Option<(usize, usize)>; 8];

fn match_at(system: &System, left: &[u16], term: &[u16], place: usize) -> Option<Bindings> {
    let mut bindings: Bindings = [None; 8];
    let mut at = place;
    for code in left {
        if *code < FIRST_VARIABLE {
            if term[at] != *code {
                return None;
            }
            at += 1;
            continue;
        }
        let v = (code - FIRST_VARIABLE) as usize;
        let end = at + system.span(&term[at..]);
        match bindings[v] {
            Some((from, to)) if term[from..to] != term[at..end] => return None,
            _ => bindings[v] = Some((at, end)),
        }
        at = end;
    }
    Some(bindings)
}

fn first_redex(system: &System, term: &[u16]) -> Option<(usize, usize, Bindings)> {
    (0..term.len()).find_map(|place| {
        let rules = system.rules.iter().enumerate();
        rules.filter(|(_, rule)| rule.left[0] == term[place]).find_map(|(number, rule)| {
            match_at(system, &rule.left, term, place).map(|bindings| (place, number, bindings))
        })
    })
}

impl Rescan<'_> {
    /// The next term's size, if it is not too long; its codes are in `next`.
    fn rewrite(&mut self, term: &[u16], place: usize, rule: usize, bindings: &Bindings) -> Option<usize> {
        let end = place + self.system.span(&term[place..]);
        let mut size = 0;
        let mut put = |codes: &[u16]| -> Option<()> {
            self.next.get_mut(size..size + codes.len())?.copy_from_slice(codes);
            size += codes.len();
            Some(())
        };
        put(&term[..place])?;
        for code in &self.system.rules[rule].right {
            match code.checked_sub(FIRST_VARIABLE) {
                None => put(&[*code])?,
                Some(v) => {
                    let (from, to) = bindings[v as usize]?;
                    put(&term[from..to])?
                }
            }
        }
        put(&term[end..])?;
        Some(size)
    }
}

impl Sweeper for Rescan<'_> {
    fn sweep(&mut self, slot: &mut [u16], size: usize, most: u64) -> (End, u64, usize) {
        assert!(self.system.is_term(&slot[..size]));
        let mut size = size;
        let mut steps = 0;
        loop {
            let Some((place, rule, bindings)) = first_redex(self.system, &slot[..size]) else {
                return (End::Normal, steps, size);
            };
            if steps == most {
                return (End::More, steps, size);
            }
            let Some(next) = self.rewrite(&slot[..size], place, rule, &bindings) else {
                return (End::TooLong, steps, size);
            };
            slot[..next].copy_from_slice(&self.next[..next]);
            size = next;
            steps += 1;
        }
    }
}
