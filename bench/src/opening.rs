//! Opening in full: a straightforward twin that reads the three texts, measures the term and reviews the rules; and inputs
//! that are as large as the limits allow.

use crate::terms::{FIRST_VARIABLE, System};

type Vector = [u64; 4];
type Matrix = [Vector; 4];

const REACH: u64 = 1_099_511_627_775;

struct Part {
    dimension: usize,
    constants: Vec<Vector>,
    factors: Vec<Vec<Matrix>>,
}

/// A constant, and a matrix for each variable.
#[derive(Clone, Copy)]
struct Form {
    constant: Vector,
    variables: [Matrix; 8],
}

struct Bytes<'a>(&'a [u8]);

impl Bytes<'_> {
    fn next(&mut self) -> Option<u64> {
        let (first, rest) = self.0.split_first()?;
        self.0 = rest;
        Some(*first as u64)
    }

    fn pair(&mut self) -> Option<u64> {
        Some(self.next()? + 256 * self.next()?)
    }

    fn vector(&mut self, dimension: usize) -> Option<Vector> {
        let mut vector = [0; 4];
        for entry in &mut vector[..dimension] {
            *entry = self.next()?;
        }
        Some(vector)
    }

    fn matrix(&mut self, dimension: usize) -> Option<Matrix> {
        let mut matrix = [[0; 4]; 4];
        for row in &mut matrix[..dimension] {
            *row = self.vector(dimension)?;
        }
        (matrix[0][0] > 0).then_some(matrix)
    }

    /// A linear part is read as a matrix part of dimension 1.
    fn part(&mut self, arities: &[u8]) -> Option<Part> {
        let (length, kind) = (self.pair()? as usize, self.pair()?);
        let whole = self.0.len();
        let dimension = match kind {
            16 => 1,
            17 => self.next()? as usize,
            _ => return None,
        };
        let mut part = Part { dimension, constants: Vec::new(), factors: Vec::new() };
        for arity in arities.iter().filter(|_| (1..=4).contains(&dimension)) {
            part.constants.push(self.vector(dimension)?);
            part.factors.push((0..*arity).map(|_| self.matrix(dimension)).collect::<Option<_>>()?);
        }
        (whole - self.0.len() == length).then_some(part)
    }

    fn parts(mut self, arities: &[u8]) -> Option<Vec<Part>> {
        let header = [self.pair()?, self.pair()?];
        let (count, symbols) = (self.next()?, self.next()?);
        if header != [2, 1] || !(1..=4).contains(&count) || symbols as usize != arities.len() {
            return None;
        }
        let parts = (0..count).map(|_| self.part(arities)).collect::<Option<_>>()?;
        self.0.is_empty().then_some(parts)
    }
}

impl Part {
    fn apply(&self, matrix: &Matrix, column: impl Fn(usize) -> u64, row: usize) -> u64 {
        (0..self.dimension).map(|k| matrix[row][k] * column(k)).sum()
    }

    fn value(&self, symbol: usize, arguments: &[Vector]) -> Vector {
        let mut value = self.constants[symbol];
        for (matrix, argument) in self.factors[symbol].iter().zip(arguments.iter().rev()) {
            for (row, entry) in value[..self.dimension].iter_mut().enumerate() {
                *entry += self.apply(matrix, |k| argument[k], row);
            }
        }
        value
    }

    fn height(&self, codes: &[u16]) -> Option<u64> {
        let mut stack: Vec<Vector> = Vec::with_capacity(codes.len());
        for code in codes.iter().rev() {
            let mut value = [0; 4];
            if *code < FIRST_VARIABLE {
                let rest = stack.len() - self.factors[*code as usize].len();
                value = self.value(*code as usize, &stack[rest..]);
                stack.truncate(rest);
            }
            if value.iter().any(|entry| *entry > REACH) {
                return None;
            }
            stack.push(value);
        }
        Some(stack[0][0])
    }

    fn symbol_form(&self, symbol: usize, arguments: &[Form]) -> Form {
        let mut form = Form { constant: self.constants[symbol], variables: [[[0; 4]; 4]; 8] };
        for (matrix, argument) in self.factors[symbol].iter().zip(arguments.iter().rev()) {
            for row in 0..self.dimension {
                form.constant[row] += self.apply(matrix, |k| argument.constant[k], row);
                for (variable, sum) in argument.variables.iter().zip(&mut form.variables) {
                    for (column, entry) in sum[row][..self.dimension].iter_mut().enumerate() {
                        *entry += self.apply(matrix, |k| variable[k][column], row);
                    }
                }
            }
        }
        form
    }

    fn form(&self, codes: &[u16]) -> Option<Form> {
        let mut stack: Vec<Form> = Vec::with_capacity(codes.len());
        for code in codes.iter().rev() {
            let mut form = Form { constant: [0; 4], variables: [[[0; 4]; 4]; 8] };
            if let Some(variable) = code.checked_sub(FIRST_VARIABLE) {
                (0..self.dimension).for_each(|row| form.variables[variable as usize][row][row] = 1);
            } else {
                let rest = stack.len() - self.factors[*code as usize].len();
                form = self.symbol_form(*code as usize, &stack[rest..]);
                stack.truncate(rest);
            }
            if entries(&form).any(|entry| entry > REACH) {
                return None;
            }
            stack.push(form);
        }
        Some(stack[0])
    }
}

fn entries(form: &Form) -> impl Iterator<Item = u64> {
    form.constant.iter().chain(form.variables.iter().flatten().flatten()).copied()
}

/// Whether a rule is weak in all parts, and strict in one.
fn is_strict(parts: &[Part], left: &[u16], right: &[u16]) -> Option<bool> {
    let mut strict = false;
    for part in parts {
        let (left, right) = (part.form(left)?, part.form(right)?);
        if entries(&left).zip(entries(&right)).any(|(one, other)| one < other) {
            return Some(false);
        }
        strict |= left.constant[0] > right.constant[0];
    }
    Some(strict)
}

/// The height that a job is opened with.
pub fn open(rules: &str, certificate: &[u8], start: &str) -> Option<u64> {
    let mut system = System::new(rules);
    let parts = Bytes(certificate).parts(&system.arities)?;
    let term = system.read_term(start);
    if !system.is_term(&term) {
        return None;
    }
    let height = parts.iter().map(|part| part.height(&term)).sum::<Option<u64>>()?;
    for rule in &system.rules {
        if !is_strict(&parts, &rule.left, &rule.right)? {
            return None;
        }
    }
    Some(height)
}

pub struct Inputs {
    pub rules: String,
    pub certificate: Vec<u8>,
    pub start: String,
}

/// A term of so many codes, from symbols of 0, 1, 2 and 4 arguments.
fn filled(size: usize) -> String {
    match size {
        1 => "nothing_of_all_c".into(),
        2 | 4 => format!("single_symbol__u({})", filled(size - 1)),
        3 => format!("pair_of_terms__p({0},{0})", filled(1)),
        _ => {
            let part = (size - 1) / 4;
            let last = filled(size - 1 - 3 * part);
            format!("grown_symbol__{:02}({1},{1},{1},{last})", size % 28, filled(part))
        }
    }
}

/// 32 symbols and 32 rules with left sides of 32 codes, names of 16 bytes, four parts of dimension 4 that count
/// symbols, and a term of 1,024 codes.
pub fn largest() -> Inputs {
    let variable = |n: usize| format!("variable_named_{n}");
    let argument = |singles: usize, n: usize| {
        let pair = format!("pair_of_terms__p({},{})", variable(2 * n), variable(2 * n + 1));
        format!("{}{pair}{}", "single_symbol__u(".repeat(singles), ")".repeat(singles))
    };
    let side = |symbol: usize, singles: [usize; 4]| {
        let arguments: Vec<String> = (0..4).map(|n| argument(singles[n], n)).collect();
        format!("grown_symbol__{symbol:02}({})", arguments.join(","))
    };
    let mut rules = format!("(VAR {})\n(RULES\n", (0..8).map(variable).collect::<Vec<_>>().join(" "));
    for number in 0..31 {
        let singles = [[5, 5, 5, 4], [4, 5, 5, 5]][number / 28];
        rules += &format!("  {} -> {}\n", side(number % 28, singles), side((number + 1) % 28, [4, 5, 5, 4]));
    }
    let last = format!("kept_for_later_h(single_symbol__u({}),{},{})", variable(0), variable(1), variable(2));
    rules += &format!("  {last} -> nothing_of_all_c\n)\n");
    let system = System::new(&rules);
    assert_eq!((system.arities.len(), system.rules.len()), (32, 32));
    let mut certificate = vec![2, 0, 1, 0, 4, 32];
    for _ in 0..4 {
        let mut body = vec![4];
        for arity in &system.arities {
            body.extend([1, 0, 0, 0]);
            (0..*arity).for_each(|_| body.extend([1, 0, 0, 0, 0, 1, 0, 0, 0, 0, 1, 0, 0, 0, 0, 1]));
        }
        certificate.extend([(body.len() % 256) as u8, (body.len() / 256) as u8, 17, 0]);
        certificate.extend(body);
    }
    Inputs { rules, certificate, start: filled(1024) }
}
