//! The fast sweep. The term lies in one array in two halves with a gap between them. In front of the gap stands
//! what was scanned, behind it what is to be scanned, up to the array's end:
//!
//!     codes[..gap]  free  codes[front..]
//!
//! Invariants, between any two calls of `Walk`:
//!
//! - **Term**: the term is codes[..gap] followed by codes[front..], at most 1,024 codes. So the gap has room for
//!   1,024 more.
//! - **Scanned**: no place below `gap` is a redex. So if there is a redex at `front`, it is the first.
//! - **Open**: an ancestor of the place `gap` is called open. `open[..opened]` are exactly these, outermost first,
//!   each with its place and with the index in the right half where its subterm ends. A rewrite at `front` or below
//!   leaves what stands behind it where it is, so the ends stay right while the sizes of these subterms change.
//! - **Sizes**: sizes[i] is the size of the subterm that begins at i, for every i from `front` on, and for every i
//!   below `gap` that is not open. (A subterm that begins below `gap` and is not open lies below `gap` as a whole.)
//!   It depends on the subterm alone, and so is copied and moved with its codes.
//!
//! A match is only ever tried at `front`, where the whole subterm lies in one piece and has all its sizes.
//!
//! Between `rewrite` and `back` all of this holds but that open places may be redexes. No other place below `gap`
//! can be, since its subterm is the same as before; nor can an open one, if every left side that begins with its
//! symbol is linear, and has no symbol as many levels below its top as the rewritten place is below the open one:
//! no rule looks that far (`reach`). Of those that can, the outermost becomes the new `front`, and the scan goes on
//! from there.
//!
//! What is not needed for answers, only for the cost: that parts at a right side's end stay where they are, and
//! that scans go on from an ancestor instead of place 0.

use crate::terms::{End, FIRST_VARIABLE, MOST_TERM, Sweeper, System};

const ROOM: usize = 2 * MOST_TERM;
const SYMBOLS: usize = 32;
const ANY: usize = usize::MAX;

/// The rules of a system by the symbol that their left sides begin with.
pub struct Index {
    /// Rules of the symbol f, in order: rules[first[f]..first[f + 1]].
    first: [usize; SYMBOLS + 1],
    rules: [usize; 32],
    /// How far below an ancestor with this symbol a rewrite can make it a redex: 0 is never, ANY at any level.
    reach: [usize; SYMBOLS],
    /// The highest reach.
    farthest: usize,
}

impl Index {
    pub fn new(system: &System) -> Index {
        let mut index = Index { first: [0; SYMBOLS + 1], rules: [0; 32], reach: [0; SYMBOLS], farthest: 0 };
        let mut count = 0;
        for symbol in 0..SYMBOLS {
            index.first[symbol] = count;
            for (number, rule) in system.rules.iter().enumerate() {
                if rule.left[0] as usize == symbol {
                    index.rules[count] = number;
                    index.reach[symbol] = index.reach[symbol].max(reach_of(system, &rule.left));
                    count += 1;
                }
            }
            index.farthest = index.farthest.max(index.reach[symbol]);
        }
        index.first[SYMBOLS] = count;
        index
    }
}

/// The level of the lowest symbol of a left side; ANY if it is not linear.
fn reach_of(system: &System, left: &[u16]) -> usize {
    let mut deepest = 0;
    for (at, code) in left.iter().enumerate() {
        if *code >= FIRST_VARIABLE && left[..at].contains(code) {
            return ANY;
        }
        // Its level is the number of subterms that begin above it and end behind it.
        let level = (0..at).filter(|above| at < above + system.span(&left[*above..])).count();
        if *code < FIRST_VARIABLE {
            deepest = deepest.max(level);
        }
    }
    deepest
}

#[derive(Clone, Copy)]
struct Open {
    place: usize,
    end: usize,
}

/// What a variable is bound to: a subterm of the right half.
#[derive(Clone, Copy)]
struct Part {
    at: usize,
    size: usize,
}

pub struct Walk<'a> {
    pub system: &'a System,
    index: &'a Index,
    codes: [u16; ROOM],
    sizes: [u16; ROOM],
    gap: usize,
    front: usize,
    open: [Open; MOST_TERM],
    opened: usize,
    bound: [Part; 8],
}

impl<'a> Walk<'a> {
    pub fn new(system: &'a System, index: &'a Index) -> Self {
        Walk {
            system,
            index,
            codes: [0; ROOM],
            sizes: [0; ROOM],
            gap: 0,
            front: ROOM,
            open: [Open { place: 0, end: 0 }; MOST_TERM],
            opened: 0,
            bound: [Part { at: 0, size: 0 }; 8],
        }
    }

    /// All of the term is to be scanned.
    fn load(&mut self, term: &[u16]) {
        self.gap = 0;
        self.opened = 0;
        self.front = ROOM - term.len();
        self.codes[self.front..].copy_from_slice(term);
        for at in (self.front..ROOM).rev() {
            self.measure(at);
        }
    }

    fn store(&self, term: &mut [u16]) -> usize {
        let size = self.gap + ROOM - self.front;
        term[..self.gap].copy_from_slice(&self.codes[..self.gap]);
        term[self.gap..size].copy_from_slice(&self.codes[self.front..]);
        size
    }

    /// The size of the subterm at a place of the right half, by those of its arguments.
    fn measure(&mut self, at: usize) {
        let mut end = at + 1;
        for _ in 0..self.system.arity(self.codes[at]) {
            end += self.sizes[end] as usize;
        }
        self.sizes[at] = (end - at) as u16;
    }

    /// Whether a left side matches at the front. If it does, its variables are bound.
    fn matches(&mut self, left: &[u16]) -> bool {
        let mut at = self.front;
        let mut seen = 0u8;
        for code in left {
            if *code < FIRST_VARIABLE {
                if self.codes[at] != *code {
                    return false;
                }
                at += 1;
                continue;
            }
            let v = (code - FIRST_VARIABLE) as usize;
            let size = self.sizes[at] as usize;
            if seen >> v & 1 == 1 {
                let held = self.bound[v];
                if self.codes[held.at..held.at + held.size] != self.codes[at..at + size] {
                    return false;
                }
            } else {
                self.bound[v] = Part { at, size };
                seen |= 1 << v;
            }
            at += size;
        }
        true
    }

    /// The lowest rule that matches at the front.
    fn lowest_rule(&mut self) -> Option<usize> {
        let (system, index) = (self.system, self.index);
        let symbol = self.codes[self.front] as usize;
        if symbol >= SYMBOLS {
            return None;
        }
        let rules = &index.rules[index.first[symbol]..index.first[symbol + 1]];
        rules.iter().copied().find(|rule| self.matches(&system.rules[*rule].left))
    }

    /// The front is no redex, and goes over the gap. A subterm that ends there is open no more.
    fn pass(&mut self) {
        let size = self.sizes[self.front];
        self.codes[self.gap] = self.codes[self.front];
        self.sizes[self.gap] = size;
        if size > 1 {
            self.open[self.opened] = Open { place: self.gap, end: self.front + size as usize };
            self.opened += 1;
        }
        self.gap += 1;
        self.front += 1;
        while self.opened > 0 && self.open[self.opened - 1].end == self.front {
            self.opened -= 1;
            let place = self.open[self.opened].place;
            self.sizes[place] = (self.gap - place) as u16;
        }
    }

    /// Goes on to the first redex; its rule.
    fn look(&mut self) -> Option<usize> {
        while self.front < ROOM {
            if let Some(rule) = self.lowest_rule() {
                return Some(rule);
            }
            self.pass();
        }
        None
    }

    fn copy(&mut self, from: usize, to: usize, size: usize) {
        self.codes.copy_within(from..from + size, to);
        self.sizes.copy_within(from..from + size, to);
    }

    /// The step at the front, by a rule that has just matched there; false, and nothing is changed, if the next term is too
    /// long. Parts at the right side's end that stand where they are wanted already stay there.
    fn rewrite(&mut self, rule: usize) -> bool {
        let system = self.system;
        let right = &system.rules[rule].right;
        let end = self.front + self.sizes[self.front] as usize;
        let size: usize = right.iter().map(|code| self.size_of(*code)).sum();
        if self.gap + size + (ROOM - end) > MOST_TERM {
            return false;
        }
        let mut written = right.len();
        let mut stays = end;
        while let Some(part) = written.checked_sub(1).and_then(|last| self.part_of(right[last])) {
            if part.at + part.size != stays {
                break;
            }
            stays = part.at;
            written -= 1;
        }
        let changed = size - (end - stays);
        self.write(&right[..written], self.front - changed);
        self.copy(self.front - changed, stays - changed, changed);
        self.front = end - size;
        let mut at = stays;
        for code in right[..written].iter().rev() {
            at -= self.size_of(*code);
            if *code < FIRST_VARIABLE {
                self.measure(at);
            }
        }
        true
    }

    /// Codes of a right side into the gap's end, just below the subterm whose parts are copied.
    fn write(&mut self, codes: &[u16], at: usize) {
        let mut at = at;
        for code in codes {
            match self.part_of(*code) {
                None => self.codes[at] = *code,
                Some(part) => self.copy(part.at, at, part.size),
            }
            at += self.size_of(*code);
        }
    }

    fn part_of(&self, code: u16) -> Option<Part> {
        code.checked_sub(FIRST_VARIABLE).map(|v| self.bound[v as usize])
    }

    fn size_of(&self, code: u16) -> usize {
        self.part_of(code).map_or(1, |part| part.size)
    }

    /// After a step at the front: goes back to the outermost ancestor that may have become a redex, if there is one.
    fn back(&mut self) {
        for nth in self.opened.saturating_sub(self.index.farthest)..self.opened {
            let symbol = self.codes[self.open[nth].place] as usize;
            if self.index.reach[symbol] >= self.opened - nth {
                return self.reopen(nth);
            }
        }
    }

    /// Moves an open subterm and all that was scanned behind it back over the gap.
    fn reopen(&mut self, nth: usize) {
        let place = self.open[nth].place;
        for open in &self.open[nth..self.opened] {
            self.sizes[open.place] = (self.gap - open.place + open.end - self.front) as u16;
        }
        self.opened = nth;
        let scanned = self.gap - place;
        self.copy(place, self.front - scanned, scanned);
        self.gap = place;
        self.front -= scanned;
    }
}

impl Sweeper for Walk<'_> {
    fn sweep(&mut self, slot: &mut [u16], size: usize, most: u64) -> (End, u64, usize) {
        assert!(self.system.is_term(&slot[..size]));
        self.load(&slot[..size]);
        let mut steps = 0;
        let end = loop {
            let Some(rule) = self.look() else { break End::Normal };
            if steps == most {
                break End::More;
            }
            if !self.rewrite(rule) {
                break End::TooLong;
            }
            self.back();
            steps += 1;
        };
        (end, steps, self.store(slot))
    }
}
