//! The systems, and start terms made by a fixed seed.

use crate::terms::{FIRST_VARIABLE, MOST_TERM, System};

pub struct Rng(u64);

impl Rng {
    pub fn new(seed: u64) -> Rng {
        Rng(seed.wrapping_mul(0x9E37_79B9_7F4A_7C15) | 1)
    }

    /// A number below another one.
    pub fn below(&mut self, bound: usize) -> usize {
        self.0 ^= self.0 << 13;
        self.0 ^= self.0 >> 7;
        self.0 ^= self.0 << 17;
        ((self.0 >> 33) % bound as u64) as usize
    }

    fn between(&mut self, low: usize, high: usize) -> usize {
        low + self.below(high - low + 1)
    }
}

pub struct Workload {
    pub name: &'static str,
    pub system: System,
    pub terms: Vec<Vec<u16>>,
}

const NATURALS: &str = "
  add(z,y) -> y
  add(s(x),y) -> s(add(x,y))
  mul(z,y) -> z
  mul(s(x),y) -> add(y,mul(x,y))";

const BOOLEANS: &str = "
  and(tt,x) -> x
  and(ff,x) -> ff
  or(tt,x) -> tt
  or(ff,x) -> x
  not(tt) -> ff
  not(ff) -> tt
  xor(tt,x) -> not(x)
  xor(ff,x) -> x";

const LISTS: &str = "
  app(nil,m) -> m
  app(cons(x,l),m) -> cons(x,app(l,m))
  rev(nil) -> nil
  rev(cons(x,l)) -> app(rev(l),cons(x,nil))
  sort(nil) -> nil
  sort(cons(x,l)) -> insert(x,sort(l))
  insert(x,nil) -> cons(x,nil)
  insert(x,cons(y,l)) -> pick(leq(x,y),x,y,l)
  pick(tt,x,y,l) -> cons(x,cons(y,l))
  pick(ff,x,y,l) -> cons(y,insert(x,l))
  leq(z,y) -> tt
  leq(s(x),z) -> ff
  leq(s(x),s(y)) -> leq(x,y)";

const EQUALITY: &str = "
  eq(x,x) -> tt
  eq(node(a,b),node(x,y)) -> and(eq(a,x),eq(b,y))
  eq(left,right) -> ff
  eq(right,left) -> ff
  eq(left,node(a,b)) -> ff
  eq(node(a,b),left) -> ff
  eq(right,node(a,b)) -> ff
  eq(node(a,b),right) -> ff
  and(x,x) -> x
  and(tt,x) -> x
  and(ff,x) -> ff
  or(tt,x) -> tt
  or(ff,x) -> x
  member(x,nil) -> ff
  member(x,cons(y,l)) -> or(eq(x,y),member(x,l))";

const MORE: &str = "
  len(nil) -> z
  len(cons(x,l)) -> s(len(l))
  sum(nil) -> z
  sum(cons(x,l)) -> add(x,sum(l))
  double(z) -> z
  double(s(x)) -> s(s(double(x)))
  quad(x,y,l,m) -> zip(pair(x,y),pair(l,m),unit,mark(one,two,three,box(lid(four))))";

const TARIFF: &str = "
  price(home) -> zero
  price(trip(leg,way)) -> plus(fare(leg),price(way))
  fare(ride(zone,far)) -> plus(base(zone),distance(zone,far))
  fare(night(leg)) -> plus(fare(leg),fare(leg))
  fare(unladen(leg)) -> zero
  fare(shared(leg)) -> half(fare(leg))
  base(town) -> euro(euro(zero))
  base(country) -> euro(zero)
  distance(town,here) -> zero
  distance(town,km(far)) -> euro(euro(distance(town,far)))
  distance(country,here) -> zero
  distance(country,km(far)) -> euro(distance(country,far))
  half(zero) -> zero
  half(euro(zero)) -> zero
  half(euro(euro(sum))) -> euro(half(sum))
  plus(zero,sum) -> sum
  plus(euro(amount),sum) -> euro(plus(amount,sum))";

pub fn system(variables: &str, rules: &[&str]) -> System {
    System::new(&format!("(VAR {variables})\n(RULES{}\n)\n", rules.concat()))
}

/// A symbol over terms.
fn over(system: &System, name: &str, arguments: &[Vec<u16>]) -> Vec<u16> {
    let mut codes = vec![system.code(name)];
    assert_eq!(arguments.len(), system.arity(codes[0]), "{name}");
    codes.extend(arguments.iter().flatten());
    codes
}

/// A unary symbol so many times over a term.
fn times(system: &System, name: &str, count: usize, inner: Vec<u16>) -> Vec<u16> {
    let mut codes = vec![system.code(name); count];
    codes.extend(inner);
    codes
}

fn number(system: &System, value: usize) -> Vec<u16> {
    times(system, "s", value, over(system, "z", &[]))
}

fn tree(system: &System, depth: usize, make: &mut impl FnMut(bool) -> &'static str) -> Vec<u16> {
    if depth == 0 {
        return over(system, make(true), &[]);
    }
    let name = make(false);
    let left = tree(system, depth - 1, make);
    over(system, name, &[left, tree(system, depth - 1, make)])
}

fn list(system: &System, rng: &mut Rng, length: usize, highest: usize) -> Vec<u16> {
    let nil = over(system, "nil", &[]);
    (0..length).fold(nil, |rest, _| over(system, "cons", &[number(system, rng.below(highest + 1)), rest]))
}

fn multiplication(rng: &mut Rng) -> (System, Vec<u16>) {
    let system = system("x y", &[NATURALS]);
    let (a, b) = (rng.between(28, 30), rng.between(29, 31));
    let term = over(&system, "mul", &[number(&system, a), number(&system, b)]);
    (system, term)
}

fn booleans(rng: &mut Rng) -> (System, Vec<u16>) {
    let system = system("x", &[BOOLEANS]);
    let term = tree(&system, 9, &mut |leaf| match leaf {
        true => ["tt", "ff"][rng.below(2)],
        false => ["xor", "xor", "xor", "xor", "xor", "xor", "and", "or"][rng.below(8)],
    });
    (system, term)
}

fn sorting(rng: &mut Rng) -> (System, Vec<u16>) {
    let system = system("x y l m", &[LISTS]);
    let term = match rng.below(4) {
        0 => {
            let front = list(&system, rng, 60, 12);
            over(&system, "app", &[front, list(&system, rng, 60, 12)])
        }
        1 => over(&system, "rev", &[list(&system, rng, 36, 20)]),
        _ => over(&system, "sort", &[list(&system, rng, 24, 16)]),
    };
    (system, term)
}

/// A tree is looked for in a list of trees that differ from it in one leaf; one in four lists has it at its end.
fn equality(rng: &mut Rng) -> (System, Vec<u16>) {
    let system = system("a b x y l", &[EQUALITY]);
    let seed = rng.below(1 << 30) as u64;
    let copy = |differs: usize| {
        let (mut rng, mut leaves) = (Rng::new(seed), 0);
        tree(&system, 6, &mut |leaf| {
            if !leaf {
                return "node";
            }
            leaves += 1;
            ["left", "right"][rng.below(2) ^ (leaves == differs) as usize]
        })
    };
    let mut list = over(&system, "nil", &[]);
    for nth in 0..5 {
        let differs = if nth == 0 && rng.below(4) == 0 { 0 } else { 1 + rng.below(64) };
        list = over(&system, "cons", &[copy(differs), list]);
    }
    let term = over(&system, "member", &[copy(0), list]);
    (system, term)
}

fn library_system() -> System {
    system("x y l m", &[NATURALS, BOOLEANS, LISTS, MORE])
}

fn library(rng: &mut Rng) -> (System, Vec<u16>) {
    let system = library_system();
    let mut numbers = |length, highest| list(&system, rng, length, highest);
    let (a, b, c) = (numbers(20, 6), numbers(16, 8), numbers(16, 8));
    let sorted = over(&system, "sort", &[over(&system, "app", &[a, b.clone()])]);
    let total = over(&system, "sum", &[over(&system, "rev", &[b.clone()])]);
    let count = over(&system, "double", &[over(&system, "len", &[c.clone()])]);
    let within = over(&system, "leq", &[count.clone(), total.clone()]);
    let parity = over(&system, "xor", &[within, over(&system, "tt", &[])]);
    let term = over(&system, "quad", &[sorted, total, count, parity]);
    (system, term)
}

fn tariff(rng: &mut Rng) -> (System, Vec<u16>) {
    let system = system("leg way zone far sum amount", &[TARIFF]);
    let mut way = over(&system, "home", &[]);
    for _ in 0..rng.between(24, 32) {
        let zone = over(&system, ["town", "country"][rng.below(2)], &[]);
        let far = times(&system, "km", rng.below(12), over(&system, "here", &[]));
        let mut leg = over(&system, "ride", &[zone, far]);
        if rng.below(3) == 0 {
            leg = over(&system, ["night", "unladen", "shared"][rng.below(3)], &[leg]);
        }
        way = over(&system, "trip", &[leg, way]);
    }
    let term = over(&system, "price", &[way]);
    (system, term)
}

fn normal_forms(rng: &mut Rng) -> (System, Vec<u16>) {
    let system = library_system();
    let (length, highest) = (rng.between(60, 90), rng.between(12, 18));
    let term = list(&system, rng, length, highest);
    (system, term)
}

/// Terms that fit, of one system.
pub fn batch(name: &'static str, count: usize, make: fn(&mut Rng) -> (System, Vec<u16>)) -> Workload {
    let mut rng = Rng::new(name.len() as u64 * 1_000_003);
    let (system, _) = make(&mut rng);
    let mut terms = Vec::new();
    while terms.len() < count {
        let (_, term) = make(&mut rng);
        if term.len() <= MOST_TERM {
            terms.push(term);
        }
    }
    Workload { name, system, terms }
}

pub fn all(count: usize) -> Vec<Workload> {
    vec![
        batch("multiplication", count, multiplication),
        batch("boolean trees", count, booleans),
        batch("lists", count, sorting),
        batch("equality, non-linear", count, equality),
        batch("32 symbols, 32 rules", count, library),
        batch("trip tariff", count, tariff),
        batch("normal forms", count, normal_forms),
    ]
}

/// A term of which each step costs the same but for its place, and how many steps to make.
pub struct Stepping {
    pub system: System,
    pub term: Vec<u16>,
    pub steps: u64,
}

/// The redex goes down a chain: place by place, and all of the chain stays. Above it stand symbols with a non-linear rule.
pub fn deep(size: usize, under: usize, more_rules: &str) -> Stepping {
    let system = system("x y", &[more_rules, NATURALS]);
    let length = size - 3 - 2 * under;
    let mut term = over(&system, "add", &[number(&system, length), number(&system, 0)]);
    for _ in 0..under {
        term = over(&system, "both", &[number(&system, 0), term]);
    }
    Stepping { system, term, steps: length as u64 }
}

pub const BOTH: &str = "\n  both(x,x) -> x";

/// A balanced tree is rewritten leaf by leaf, under symbols that have a rule.
pub fn wide(depth: usize) -> Stepping {
    let system = system("x", &["\n  old -> new\n  node(stop,stop) -> stop"]);
    let term = tree(&system, depth, &mut |leaf| if leaf { "old" } else { "node" });
    Stepping { system, term, steps: 1 << depth }
}

/// Half of a chain shrinks code by code under the other half.
pub fn shrinking(size: usize) -> Stepping {
    let system = system("x", &["\n  drop(s(x)) -> drop(x)\n  drop(z) -> z"]);
    let half = size / 2 - 1;
    let term = times(&system, "s", half, over(&system, "drop", &[number(&system, half)]));
    Stepping { system, term, steps: half as u64 }
}

/// 28 rules that match nowhere in sums: under symbols of their own, or all under the symbol that is rewritten.
pub fn other_rules(same_symbol: bool) -> String {
    let rule = |n: usize| match same_symbol {
        true if n < 14 => format!("\n  add(s(mul(x,y)),{}z{}) -> z", "s(".repeat(n), ")".repeat(n)),
        true => format!("\n  add(s(s(mul(x,y))),{}z{}) -> z", "s(".repeat(n - 14), ")".repeat(n - 14)),
        false => format!("\n  g{n}(s(x),y) -> g{n}(x,s(y))"),
    };
    (0..28).map(rule).collect()
}

/// Products that outgrow 1,024 codes; in half of them the first step leads to 1,023, 1,024 or 1,025.
pub fn too_large(rng: &mut Rng) -> (System, Vec<u16>) {
    let system = system("x y", &[NATURALS]);
    let b = rng.between(200, 300);
    let a = if rng.below(2) == 0 { 1020 - 2 * b + rng.below(3) } else { rng.between(20, 200) };
    let term = over(&system, "mul", &[number(&system, a), number(&system, b)]);
    (system, term)
}

/// A random term: its variables are below a bound, its symbols of one of the arities.
fn random_term(rng: &mut Rng, arities: &[u8], variables: usize, depth: usize, out: &mut Vec<u16>) {
    if variables > 0 && rng.below(3) == 0 {
        return out.push(FIRST_VARIABLE + rng.below(variables) as u16);
    }
    let symbol = if depth == 0 { rng.below(2) } else { rng.below(arities.len()) };
    out.push(symbol as u16);
    for _ in 0..arities[symbol] {
        random_term(rng, arities, variables, depth - 1, out);
    }
}

/// A random system, some of whose rules are not linear, and random terms, some of them with variables.
pub fn random(rng: &mut Rng, count: usize) -> Workload {
    // Its first rule uses each symbol, in order.
    let own = System::new("(VAR x y w)(RULES a -> a b -> b f(a) -> g(h(a,k(a,t(a,a,a)))))");
    let mut text = String::from("(VAR x y w)(RULES\n  t(a,b,f(g(h(k(a,a),a)))) -> a");
    let mut rules = 0;
    while rules < 6 {
        let (mut left, mut right) = (Vec::new(), Vec::new());
        let (depth, variables) = (rng.between(1, 3), rng.between(1, 3));
        random_term(rng, &own.arities, variables, depth, &mut left);
        random_term(rng, &own.arities, variables, 2, &mut right);
        let bound = right.iter().all(|code| *code < FIRST_VARIABLE || left.contains(code));
        if left[0] >= 2 && left[0] < FIRST_VARIABLE && bound && left.len() <= 32 && right.len() <= 32 {
            text += &format!("\n  {} -> {}", own.print(&left), own.print(&right));
            rules += 1;
        }
    }
    let mut system = System::new(&(text + "\n)\n"));
    let mut terms = Vec::new();
    while terms.len() < count {
        let (mut term, variables) = (Vec::new(), rng.below(3));
        random_term(rng, &own.arities, variables, 12, &mut term);
        if term.len() <= MOST_TERM {
            terms.push(system.read_term(&own.print(&term)));
        }
    }
    Workload { name: "random", system, terms }
}
