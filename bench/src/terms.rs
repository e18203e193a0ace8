//! Systems and terms as prefix codes, and the texts they are read from and printed as. A code is a symbol's number,
//! or 32,768 plus a variable's; symbols are numbered by first appearance, as the product numbers them.

pub const FIRST_VARIABLE: u16 = 32_768;
pub const MOST_TERM: usize = 1024;

pub struct Rule {
    pub left: Vec<u16>,
    pub right: Vec<u16>,
}

pub struct System {
    pub text: String,
    pub variables: Vec<String>,
    pub symbols: Vec<String>,
    pub arities: Vec<u8>,
    pub rules: Vec<Rule>,
}

#[derive(Clone, Copy, PartialEq, Eq, Debug)]
pub enum End {
    Normal,
    More,
    TooLong,
}

#[derive(Clone, PartialEq, Eq, Debug)]
pub struct Swept {
    pub end: End,
    pub steps: u64,
    pub codes: Vec<u16>,
}

/// What sweeps terms of one system.
pub trait Sweeper {
    /// Sweeps the term at the front of the slot and writes its last term there; the answer has its size, too.
    fn sweep(&mut self, slot: &mut [u16], size: usize, most: u64) -> (End, u64, usize);
}

struct Words<'a> {
    words: Vec<&'a str>,
    at: usize,
}

impl<'a> Words<'a> {
    fn new(text: &'a str) -> Self {
        let mut words = Vec::new();
        let mut rest = text.trim_start();
        while let Some(first) = rest.chars().next() {
            let size = match first {
                '(' | ')' | ',' => 1,
                '-' => 2,
                _ => rest.find(|c: char| !c.is_ascii_alphanumeric() && c != '_' && c != '\'').unwrap_or(rest.len()),
            };
            words.push(&rest[..size]);
            rest = rest[size..].trim_start();
        }
        Words { words, at: 0 }
    }

    fn next(&mut self) -> &'a str {
        self.at += 1;
        self.words[self.at - 1]
    }

    fn peek(&self) -> &'a str {
        self.words.get(self.at).copied().unwrap_or("")
    }
}

impl System {
    pub fn new(text: &str) -> System {
        let mut words = Words::new(text);
        let mut system = System {
            text: text.to_string(),
            variables: Vec::new(),
            symbols: Vec::new(),
            arities: Vec::new(),
            rules: Vec::new(),
        };
        assert_eq!((words.next(), words.next()), ("(", "VAR"));
        while words.peek() != ")" {
            system.variables.push(words.next().to_string());
        }
        assert_eq!((words.next(), words.next(), words.next()), (")", "(", "RULES"));
        while words.peek() != ")" {
            let left = system.read_side(&mut words);
            assert_eq!(words.next(), "->");
            let right = system.read_side(&mut words);
            system.rules.push(Rule { left, right });
        }
        system
    }

    fn read_side(&mut self, words: &mut Words) -> Vec<u16> {
        let mut codes = Vec::new();
        self.read_into(words, &mut codes);
        codes
    }

    fn read_into(&mut self, words: &mut Words, codes: &mut Vec<u16>) {
        let name = words.next();
        if let Some(v) = self.variables.iter().position(|known| known == name) {
            codes.push(FIRST_VARIABLE + v as u16);
            return;
        }
        let symbol = self.symbols.iter().position(|known| known == name).unwrap_or_else(|| {
            self.symbols.push(name.to_string());
            self.arities.push(0);
            self.symbols.len() - 1
        });
        codes.push(symbol as u16);
        if words.peek() != "(" {
            return;
        }
        let mut arity = 0;
        while words.peek() != ")" {
            words.next();
            self.read_into(words, codes);
            arity += 1;
        }
        words.next();
        self.arities[symbol] = arity;
    }

    pub fn read_term(&mut self, text: &str) -> Vec<u16> {
        let known = self.symbols.len();
        let codes = self.read_side(&mut Words::new(text));
        assert_eq!(self.symbols.len(), known, "unknown name in {text}");
        codes
    }

    pub fn code(&self, name: &str) -> u16 {
        self.symbols.iter().position(|known| known == name).unwrap_or_else(|| panic!("no symbol {name}")) as u16
    }

    pub fn arity(&self, code: u16) -> usize {
        self.arities.get(code as usize).map_or(0, |arity| *arity as usize)
    }

    /// How many codes the first term of these takes.
    pub fn span(&self, codes: &[u16]) -> usize {
        let mut need = 1;
        for (taken, code) in codes.iter().enumerate() {
            if need == 0 {
                return taken;
            }
            need = need - 1 + self.arity(*code);
        }
        codes.len()
    }

    pub fn is_term(&self, codes: &[u16]) -> bool {
        let mut need: usize = 1;
        for code in codes {
            let known =
                if *code < FIRST_VARIABLE { (*code as usize) < self.arities.len() } else { *code < FIRST_VARIABLE + 8 };
            if need == 0 || !known {
                return false;
            }
            need = need - 1 + self.arity(*code);
        }
        need == 0 && codes.len() <= MOST_TERM
    }

    pub fn print(&self, codes: &[u16]) -> String {
        let mut out = String::new();
        let mut pending: Vec<usize> = Vec::new();
        for code in codes {
            match code.checked_sub(FIRST_VARIABLE) {
                Some(v) => out += &self.variables[v as usize],
                None => out += &self.symbols[*code as usize],
            }
            let arity = self.arity(*code);
            if arity > 0 {
                out.push('(');
                pending.push(arity);
                continue;
            }
            while let Some(left) = pending.last_mut() {
                *left -= 1;
                if *left > 0 {
                    out.push(',');
                    break;
                }
                out.push(')');
                pending.pop();
            }
        }
        out
    }
}
