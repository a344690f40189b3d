//! The cases of crates/kb_bench by straightforward algorithms in plain Rust: `rustc -O plain.rs`.
//!
//! The words are those of kb_bench, the name of a case and the number of repetitions, and the checksum is the same.

/// A term: a variable, or a symbol with its arguments.
#[derive(Clone, PartialEq, Eq)]
enum Term {
    Var(u16),
    App(u8, Vec<Term>),
}
use Term::{App, Var};

type Rule = (Term, Term);
type Row = (u8, Vec<u8>);

// ---- the path order

fn occurs(x: u16, t: &Term) -> bool {
    match t {
        Var(n) => *n == x,
        App(_, ts) => ts.iter().any(|u| occurs(x, u)),
    }
}

/// The path order, where `above(f, g)` says whether f is above g. One case decides.
fn greater(above: &dyn Fn(u8, u8) -> bool, s: &Term, t: &Term) -> bool {
    let (App(f, ss), App(g, ts)) = (s, t) else {
        return match (s, t) {
            (App(_, ss), Var(x)) => ss.iter().any(|u| occurs(*x, u)),
            _ => false,
        };
    };
    if f == g {
        for i in 0..ss.len().min(ts.len()) {
            if ss[i] != ts[i] {
                if greater(above, &ss[i], &ts[i]) {
                    return ts[i + 1..].iter().all(|u| greater(above, s, u));
                }
                return ss[i + 1..].iter().any(|u| u == t || greater(above, u, t));
            }
        }
        false
    } else if above(*f, *g) {
        ts.iter().all(|u| greater(above, s, u))
    } else {
        ss.iter().any(|u| u == t || greater(above, u, t))
    }
}

/// Whether the precedence, the greatest symbol first, orients the rule. A symbol that is not listed is below all.
fn orients(prec: &[u8], rule: &Rule) -> bool {
    let above = |f, g| prec.iter().find(|x| **x == f || **x == g) == Some(&f);
    greater(&above, &rule.0, &rule.1)
}

/// Bit g of row f: f doesn't stand behind g. Closed under transitivity.
type Table = [u32; 24];

fn is_from(known: &Table, f: u8, g: u8) -> bool {
    known[f as usize] >> g & 1 == 1
}

fn put(known: &Table, f: u8, g: u8) -> Table {
    let below = known[g as usize];
    known.map(|row| if row >> f & 1 == 1 { row | below } else { row })
}

/// What both ways share, or the one that is left.
fn either(a: Option<Table>, b: Option<Table>) -> Option<Table> {
    match (a, b) {
        (Some(a), Some(b)) => Some(std::array::from_fn(|f| a[f] & b[f])),
        (a, b) => a.or(b),
    }
}

/// Whether s may be above t under some precedence that fits: an undecided question is answered by yes.
fn possible(known: &Table, s: &Term, t: &Term) -> bool {
    let (App(f, ss), App(g, ts)) = (s, t) else {
        return matches!((s, t), (App(..), Var(x)) if occurs(*x, s));
    };
    let each = |us: &[Term]| us.iter().all(|u| possible(known, s, u));
    let some = |us: &[Term]| us.iter().any(|u| u == t || possible(known, u, t));
    if f == g {
        return match (0..ss.len().min(ts.len())).find(|i| ss[*i] != ts[*i]) {
            Some(i) if possible(known, &ss[i], &ts[i]) => each(&ts[i + 1..]),
            Some(i) => some(&ss[i + 1..]),
            None => false,
        };
    }
    if is_from(known, *g, *f) { some(ss) } else { each(ts) }
}

/// What every precedence that fits and has s above t fulfils; none where there is none.
fn force(known: &Table, s: &Term, t: &Term, fuel: &mut u32) -> Option<Table> {
    if *fuel == 0 {
        return Some(*known);
    }
    *fuel -= 1;
    let (App(f, ss), App(g, ts)) = (s, t) else {
        return match (s, t) {
            (App(..), Var(x)) if occurs(*x, s) => Some(*known),
            _ => None,
        };
    };
    if f != g && is_from(known, *f, *g) {
        return force_each(Some(*known), s, ts, fuel);
    }
    if f != g && is_from(known, *g, *f) {
        return force_some(known, ss, t, fuel);
    }
    if f != g {
        let first = force_each(Some(put(known, *f, *g)), s, ts, fuel);
        return either(first, force_some(&put(known, *g, *f), ss, t, fuel));
    }
    for i in 0..ss.len().min(ts.len()) {
        if ss[i] != ts[i] {
            let first = force_each(force(known, &ss[i], &ts[i], fuel), s, &ts[i + 1..], fuel);
            if first == Some(*known) {
                return first;
            }
            return either(first, force_some(known, &ss[i + 1..], t, fuel));
        }
    }
    None
}

fn force_each(first: Option<Table>, s: &Term, ts: &[Term], fuel: &mut u32) -> Option<Table> {
    ts.iter().try_fold(first?, |known, u| force(&known, s, u, fuel))
}

fn force_some(known: &Table, ss: &[Term], t: &Term, fuel: &mut u32) -> Option<Table> {
    let mut shared = None;
    for u in ss {
        if u == t {
            return Some(*known);
        }
        if !possible(known, u, t) {
            continue;
        }
        let here = force(known, u, t, fuel);
        if here == Some(*known) {
            return here;
        }
        shared = either(shared, here);
    }
    shared
}

fn propagate(known: &Table, rules: &[Rule]) -> Option<Table> {
    let mut now = *known;
    loop {
        let before = now;
        for (l, r) in rules {
            now = force(&now, l, r, &mut 1000)?;
        }
        if now == before {
            return Some(now);
        }
    }
}

/// Two symbols that some rule compares first of all that are undecided: the first place at which it fails under the table,
/// where what isn't known is taken as open.
fn open_pair(known: &Table, s: &Term, t: &Term) -> Result<bool, (u8, u8)> {
    let each = |us: &[Term]| {
        for u in us {
            if !open_pair(known, s, u)? {
                return Ok(false);
            }
        }
        Ok(true)
    };
    let some = |us: &[Term]| {
        let mut open = Ok(false);
        for u in us {
            if u == t {
                return Ok(true);
            }
            match open_pair(known, u, t) {
                Ok(true) => return Ok(true),
                Ok(false) => {}
                pair => open = pair,
            }
        }
        open
    };
    let (App(f, ss), App(g, ts)) = (s, t) else {
        return Ok(matches!((s, t), (App(..), Var(x)) if occurs(*x, s)));
    };
    if f == g {
        return match (0..ss.len().min(ts.len())).find(|i| ss[*i] != ts[*i]) {
            Some(i) if open_pair(known, &ss[i], &ts[i])? => each(&ts[i + 1..]),
            Some(i) => some(&ss[i + 1..]),
            None => Ok(false),
        };
    }
    match (is_from(known, *f, *g), is_from(known, *g, *f)) {
        (true, _) => each(ts),
        (_, true) => some(ss),
        _ => Err((*f, *g)),
    }
}

/// A table by which the rules are decided. What is known decides those before the first that is open.
fn decide(known: &Table, rules: &[Rule]) -> Option<Table> {
    let is_open = |(at, (l, r)): (usize, &Rule)| open_pair(known, l, r).err().map(|pair| (at, pair));
    let Some((at, (f, g))) = rules.iter().enumerate().find_map(is_open) else {
        return Some(*known);
    };
    let rest = &rules[at..];
    [(f.min(g), f.max(g)), (f.max(g), f.min(g))].iter().find_map(|(f, g)| {
        propagate(&put(known, *f, *g), rest).and_then(|more| decide(&more, rest))
    })
}

/// The prefix, continued each time by the least symbol that may follow.
fn first_fitting(known: &Table, count: u8, prefix: &[u8]) -> Vec<u8> {
    let mut prec = prefix.to_vec();
    while prec.len() < count as usize {
        let is_free = |f: &u8| {
            let is_first = |g| g == *f || prec.contains(&g) || !is_from(known, g, *f);
            !prec.contains(f) && (0..count).all(is_first)
        };
        let Some(f) = (0..count).find(is_free) else { break };
        prec.push(f);
    }
    prec
}

/// Places the symbols one by one, each time the least with which the rules can be decided. A table by which they were
/// decided goes on to the next place where its symbol fits it.
fn place(
    known: &Table,
    count: u8,
    rules: &[Rule],
    prefix: &mut Vec<u8>,
    before: Option<Table>,
) -> Option<Vec<u8>> {
    let prec = first_fitting(known, count, prefix);
    if prec.len() == count as usize && rules.iter().all(|rule| orients(&prec, rule)) {
        return Some(prec);
    }
    if prefix.len() == count as usize {
        return None;
    }
    let table = before.or_else(|| decide(known, rules))?;
    for f in 0..count {
        let behind = |g: &u8| *g != f && !prefix.contains(g);
        if prefix.contains(&f) || (0..count).filter(behind).any(|g| is_from(known, g, f)) {
            continue;
        }
        let more = (0..count).filter(behind).fold(*known, |known, g| put(&known, f, g));
        let Some(more) = propagate(&more, rules) else { continue };
        let fits = !(0..count).filter(behind).any(|g| is_from(&table, g, f));
        prefix.push(f);
        if let Some(prec) = place(&more, count, rules, prefix, fits.then_some(table)) {
            return Some(prec);
        }
        prefix.pop();
    }
    None
}

fn has_symbol(t: &Term, f: u8) -> bool {
    match t {
        Var(_) => false,
        App(g, ts) => *g == f || ts.iter().any(|u| has_symbol(u, f)),
    }
}

/// Places each time the least symbol with which each rule is possible.
fn first_possible(known: &Table, count: u8, rules: &[Rule]) -> Vec<u8> {
    let mut known = *known;
    let mut prec: Vec<u8> = vec![];
    while prec.len() < count as usize {
        let next = (0..count).filter(|f| !prec.contains(f)).find_map(|f| {
            let behind = |g: &u8| *g != f && !prec.contains(g);
            if (0..count).filter(behind).any(|g| is_from(&known, g, f)) {
                return None;
            }
            let more = (0..count).filter(behind).fold(known, |known, g| put(&known, f, g));
            rules.iter().all(|(l, r)| !has_symbol(r, f) || possible(&more, l, r)).then_some((f, more))
        });
        let Some((f, more)) = next else { break };
        known = more;
        prec.push(f);
    }
    prec
}

fn search_path(count: u8, rules: &[Rule]) -> Option<Vec<u8>> {
    let mut known: Table = std::array::from_fn(|f| 1 << f);
    for (l, r) in rules {
        known = force(&known, l, r, &mut 30)?;
    }
    let tested = |prec: Vec<u8>| {
        let is_whole = prec.len() == count as usize;
        (is_whole && rules.iter().all(|rule| orients(&prec, rule))).then_some(prec)
    };
    let fitting = tested(first_fitting(&known, count, &[]));
    if let Some(prec) = fitting.or_else(|| tested(first_possible(&known, count, rules))) {
        return Some(prec);
    }
    place(&propagate(&known, rules)?, count, rules, &mut vec![], None)
}

// ---- the linear interpretations

/// The constant and the coefficients of the variables of a term.
fn value(rows: &[Row], t: &Term, factor: u128, form: &mut (u128, [u128; 64])) {
    match t {
        Var(n) => form.1[*n as usize] += factor,
        App(f, ts) => {
            let row = &rows[*f as usize];
            form.0 += factor * u128::from(row.0);
            for (c, u) in row.1.iter().zip(ts) {
                value(rows, u, factor * u128::from(*c), form);
            }
        }
    }
}

fn linear_greater(rows: &[Row], s: &Term, t: &Term) -> bool {
    let mut left = (0, [0; 64]);
    let mut right = (0, [0; 64]);
    value(rows, s, 1, &mut left);
    value(rows, t, 1, &mut right);
    left.0 > right.0 && left.1.iter().zip(&right.1).all(|(a, b)| a >= b)
}

/// The next interpretation in lexicographic order, with constants up to `top`.
fn advance(rows: &mut [Row], top: u8) -> bool {
    for row in rows.iter_mut().rev() {
        for c in row.1.iter_mut().rev() {
            if *c == 1 {
                *c = 2;
                return true;
            }
            *c = 1;
        }
        if row.0 < top {
            row.0 += 1;
            return true;
        }
        row.0 = 0;
    }
    false
}

/// One after the other; each is left at the first rule that it does not orient.
fn search_linear(arities: &[u8], rules: &[Rule]) -> Option<Vec<Row>> {
    let count = arities.len() as u32;
    let sum: u32 = arities.iter().map(|n| u32::from(*n)).sum();
    let top = if 2 * count + sum <= 16 {
        3
    } else if count + sum <= 16 {
        1
    } else {
        return None;
    };
    let mut rows: Vec<Row> = arities.iter().map(|n| (0, vec![1; *n as usize])).collect();
    loop {
        if rules.iter().all(|(l, r)| linear_greater(&rows, l, r)) {
            return Some(rows);
        }
        if !advance(&mut rows, top) {
            return None;
        }
    }
}

// ---- Knuth-Bendix orders

/// What decides a comparison at equal weights: nothing does, or the first symbol has to be above the second, or the next level.
#[derive(Clone, Copy)]
enum Tie {
    Refused,
    Above(u8, u8),
    Next,
}

/// One level of a comparison: how much more often each symbol, and variables in all, occur on the left.
struct Level {
    symbols: [i32; 8],
    variables: i32,
    tie: Tie,
}

fn count(t: &Term, by: i32, symbols: &mut [i32; 8], variables: &mut [i32; 64]) {
    match t {
        Var(n) => variables[*n as usize] += by,
        App(f, ts) => {
            symbols[*f as usize] += by;
            ts.iter().for_each(|u| count(u, by, symbols, variables));
        }
    }
}

/// The levels of the comparison; none where some variable occurs more often on the right, so that nothing at this level helps.
fn levels(s: &Term, t: &Term, out: &mut Vec<Option<Level>>) {
    let mut symbols = [0; 8];
    let mut variables = [0; 64];
    count(s, 1, &mut symbols, &mut variables);
    count(t, -1, &mut symbols, &mut variables);
    if variables.iter().any(|n| *n < 0) {
        return out.push(None);
    }
    let mut level = Level { symbols, variables: variables.iter().sum(), tie: Tie::Refused };
    let (App(f, ss), App(g, ts)) = (s, t) else {
        return out.push(Some(level));
    };
    if f != g {
        level.tie = Tie::Above(*f, *g);
        return out.push(Some(level));
    }
    match (0..ss.len().min(ts.len())).find(|i| ss[*i] != ts[*i]) {
        Some(i) => {
            level.tie = Tie::Next;
            out.push(Some(level));
            levels(&ss[i], &ts[i], out);
        }
        None => out.push(Some(level)),
    }
}

/// The sign of the level's difference of weights, each symbol's from least to most, at the most helpful ones.
fn difference(level: &Level, least: &[i32; 8], most: &[i32; 8]) -> i32 {
    let each = |f: usize| level.symbols[f] * if level.symbols[f] < 0 { least[f] } else { most[f] };
    level.variables + (0..8).map(each).sum::<i32>()
}

/// What the rule needs of the precedence: nothing, one symbol above another, or more than there is.
fn demand(rule: &[Option<Level>], weights: &[i32; 8]) -> Option<Option<(u8, u8)>> {
    for level in rule {
        let level = level.as_ref()?;
        match (difference(level, weights, weights), level.tie) {
            (n, _) if n > 0 => return Some(None),
            (n, _) if n < 0 => return None,
            (_, Tie::Refused) => return None,
            (_, Tie::Above(f, g)) => return Some(Some((f, g))),
            (_, Tie::Next) => {}
        }
    }
    None
}

/// The first precedence with which these weights orient all rules.
fn weighed(count: usize, rules: &[Vec<Option<Level>>], weights: &[i32; 8]) -> Option<Vec<u8>> {
    let mut above = [[false; 8]; 8];
    for rule in rules {
        if let Some((f, g)) = demand(rule, weights)? {
            above[f as usize][g as usize] = true;
        }
    }
    let mut prec: Vec<u8> = vec![];
    while prec.len() < count {
        let free = |f: &u8| !prec.contains(f);
        let next = (0..count as u8).filter(free).find(|f| {
            !(0..count as u8).filter(free).any(|g| above[g as usize][*f as usize])
        })?;
        prec.push(next);
    }
    Some(prec)
}

fn search_weights(
    count: usize,
    rules: &[Vec<Option<Level>>],
    at: usize,
    least: &mut [i32; 8],
    most: &mut [i32; 8],
) -> Option<Vec<u8>> {
    let may = |rule: &Vec<Option<Level>>| matches!(&rule[0], Some(l) if difference(l, least, most) >= 0);
    if !rules.iter().all(may) {
        return None;
    }
    if at == count {
        return weighed(count, rules, least);
    }
    for w in 1..=3 {
        (least[at], most[at]) = (w, w);
        if let Some(prec) = search_weights(count, rules, at + 1, least, most) {
            return Some(prec);
        }
    }
    (least[at], most[at]) = (1, 3);
    None
}

/// The first weights from 1 to 3 with a precedence that orient all rules over at most 8 symbols.
fn search_kbo(count: usize, rules: &[Rule]) -> Option<(Vec<u8>, Vec<u8>)> {
    let read = |(s, t): &Rule| {
        let mut out = vec![];
        levels(s, t, &mut out);
        out
    };
    let table: Vec<_> = rules.iter().map(read).collect();
    let (mut least, mut most) = ([1; 8], [3; 8]);
    let prec = search_weights(count, &table, 0, &mut least, &mut most)?;
    Some((least[..count].iter().map(|w| *w as u8).collect(), prec))
}

// ---- unification

/// The term that the bindings lead to, as far as it is a bound variable.
fn walk<'a>(mut t: &'a Term, bound: &[Option<&'a Term>]) -> &'a Term {
    while let Var(n) = t {
        match bound[*n as usize] {
            Some(u) => t = u,
            None => break,
        }
    }
    t
}

/// Robinson's algorithm with triangular bindings; the occurs check is made at the end, where the terms are built.
fn solve<'a>(s: &'a Term, t: &'a Term, bound: &mut [Option<&'a Term>]) -> bool {
    let mut stack = vec![(s, t)];
    while let Some((s, t)) = stack.pop() {
        match (walk(s, bound), walk(t, bound)) {
            (Var(x), Var(y)) if x == y => {}
            (Var(x), u) => bound[*x as usize] = Some(u),
            (u, Var(y)) => bound[*y as usize] = Some(u),
            (App(f, ss), App(g, ts)) => {
                if f != g || ss.len() != ts.len() {
                    return false;
                }
                stack.extend(ss.iter().zip(ts));
            }
        }
    }
    true
}

#[derive(Clone, Copy, PartialEq)]
enum Extent {
    Unknown,
    Open,
    Known(u64, u64),
}

/// The size and depth of the term under the bindings; none where a variable leads to itself.
fn extent(t: &Term, bound: &[Option<&Term>], known: &mut [Extent]) -> Option<(u64, u64)> {
    match t {
        Var(n) => match (known[*n as usize], bound[*n as usize]) {
            (Extent::Known(size, depth), _) => Some((size, depth)),
            (Extent::Open, _) => None,
            (Extent::Unknown, None) => Some((1, 0)),
            (Extent::Unknown, Some(u)) => {
                known[*n as usize] = Extent::Open;
                let (size, depth) = extent(u, bound, known)?;
                known[*n as usize] = Extent::Known(size, depth);
                Some((size, depth))
            }
        },
        App(_, ts) => {
            let (mut size, mut depth) = (1u64, 0);
            for u in ts {
                let (s, d) = extent(u, bound, known)?;
                size = size.saturating_add(s);
                depth = depth.max(d + 1);
            }
            Some((size, depth))
        }
    }
}

fn build(t: &Term, bound: &[Option<&Term>]) -> Term {
    match walk(t, bound) {
        Var(n) => Var(*n),
        App(f, ts) => App(*f, ts.iter().map(|u| build(u, bound)).collect()),
    }
}

/// The variables that get a term, with their terms; the error is a limit that one of them passes.
fn unify(s: &Term, t: &Term) -> Result<Option<Vec<(u16, Term)>>, ()> {
    let mut bound = [None; 128];
    if !solve(s, t, &mut bound) {
        return Ok(None);
    }
    let mut known = [Extent::Unknown; 128];
    for n in 0..128 {
        match extent(&Var(n), &bound, &mut known) {
            None => return Ok(None),
            Some((size, depth)) if size > 512 || depth > 64 => return Err(()),
            Some(_) => {}
        }
    }
    let mut entries = vec![];
    for n in 0..128u16 {
        if let Some(u) = bound[n as usize] {
            entries.push((n, build(u, &bound)));
        }
    }
    Ok(Some(entries))
}

// ---- rewriting

/// Whether the pattern becomes the term by the bindings, to which its variables are added.
fn matches<'a>(pattern: &Term, t: &'a Term, bound: &mut Vec<(u16, &'a Term)>) -> bool {
    match (pattern, t) {
        (Var(x), _) => match bound.iter().find(|entry| entry.0 == *x) {
            Some(entry) => entry.1 == t,
            None => {
                bound.push((*x, t));
                true
            }
        },
        (App(f, ps), App(g, ts)) => {
            f == g && ps.len() == ts.len() && ps.iter().zip(ts).all(|(p, u)| matches(p, u, bound))
        }
        _ => false,
    }
}

fn instance(t: &Term, bound: &[(u16, &Term)]) -> Term {
    match t {
        Var(x) => bound.iter().find(|entry| entry.0 == *x).map_or(Var(*x), |entry| entry.1.clone()),
        App(f, ts) => App(*f, ts.iter().map(|u| instance(u, bound)).collect()),
    }
}

/// Rewrites the term in place at the first redex in preorder, by the first rule there; false where there is none.
fn rewrite_first(rules: &[Rule], t: &mut Term) -> bool {
    for (left, right) in rules {
        let mut bound = vec![];
        if matches(left, t, &mut bound) {
            let made = instance(right, &bound);
            *t = made;
            return true;
        }
    }
    match t {
        Var(_) => false,
        App(_, ts) => ts.iter_mut().any(|u| rewrite_first(rules, u)),
    }
}

fn size(t: &Term) -> u32 {
    match t {
        Var(_) => 1,
        App(_, ts) => 1 + ts.iter().map(size).sum::<u32>(),
    }
}

fn depth(t: &Term) -> u32 {
    match t {
        Var(_) => 1,
        App(_, ts) => 1 + ts.iter().map(depth).max().unwrap_or(0),
    }
}

/// The normal form with the number of steps; the error is 1 after 10,000 steps, 2 at a limit.
fn normal_form(rules: &[Rule], t: &Term) -> Result<(Term, u32), u64> {
    let mut term = t.clone();
    for count in 0..10000 {
        if !rewrite_first(rules, &mut term) {
            return Ok((term, count));
        }
        if size(&term) > 512 || depth(&term) > 64 {
            return Err(2);
        }
    }
    if rewrite_first(rules, &mut term) { Err(1) } else { Ok((term, 10000)) }
}

// ---- the cases, as in crates/kb_bench/src

/// A word of four letters of five over the term, behind a symbol.
fn word(number: u16, t: Term) -> Term {
    let letters = (0..4).map(|k| number / 5u16.pow(k) % 5);
    App(6, vec![letters.fold(t, |t, l| App(l as u8 + 1, vec![t]))])
}

fn next(seed: &mut u32, bound: u32) -> u32 {
    *seed = seed.wrapping_mul(1664525).wrapping_add(1013904223);
    (*seed >> 16) % bound
}

fn some_term(seed: &mut u32, arities: &[u8], depth: u8) -> Term {
    if depth == 0 || next(seed, 7) == 0 {
        return Var(next(seed, 3) as u16);
    }
    let f = next(seed, arities.len() as u32) as usize;
    let ts = (0..arities[f]).map(|_| some_term(seed, arities, depth - 1));
    App(f as u8, ts.collect())
}

fn guided_rules(
    above: &dyn Fn(&Term, &Term) -> bool,
    arities: &[u8],
    count: usize,
    depth: u8,
    is_turned: bool,
) -> Vec<Rule> {
    let mut seed = 5;
    let mut rules: Vec<Rule> = vec![];
    for _ in 0..100000 {
        if rules.len() >= count {
            break;
        }
        let s = some_term(&mut seed, arities, depth);
        let t = some_term(&mut seed, arities, depth);
        if above(&s, &t) {
            let turned = is_turned && (rules.len() == 7 || rules.len() == 11);
            rules.push(if turned { (t, s) } else { (s, t) });
        }
    }
    rules
}

fn path_rules(arities: &[u8], count: usize, depth: u8, is_turned: bool) -> Vec<Rule> {
    let n = arities.len();
    let prec: Vec<u8> = (0..n).map(|f| ((f * 5 + 3) % n) as u8).collect();
    let above = |f, g| prec.iter().find(|x| **x == f || **x == g) == Some(&f);
    let order = |s: &Term, t: &Term| greater(&above, s, t);
    guided_rules(&order, arities, count, depth, is_turned)
}

fn linear_rules(arities: &[u8], count: usize, depth: u8, is_turned: bool) -> Vec<Rule> {
    let rows: Vec<Row> = (0..arities.len() as u8).map(|f| (f * 3 % 4, vec![1 + f % 2])).collect();
    let order = |s: &Term, t: &Term| linear_greater(&rows, s, t);
    guided_rules(&order, arities, count, depth, is_turned)
}

/// Weights 1, 2, 3, 1, .. and the precedence that puts every fifth symbol next.
fn weighted_rules(arities: &[u8], count: usize, depth: u8, is_turned: bool) -> Vec<Rule> {
    let n = arities.len();
    let weights: [i32; 8] = std::array::from_fn(|f| f as i32 % 3 + 1);
    let prec: Vec<u8> = (0..n).map(|f| ((f * 5 + 3) % n) as u8).collect();
    let order = |s: &Term, t: &Term| {
        let mut out = vec![];
        levels(s, t, &mut out);
        match demand(&out, &weights) {
            None => false,
            Some(None) => true,
            Some(Some((f, g))) => prec.iter().find(|x| **x == f || **x == g) == Some(&f),
        }
    };
    guided_rules(&order, arities, count, depth, is_turned)
}

fn group_rules() -> Vec<Rule> {
    let m = |a: &Term, b: &Term| App(0, vec![a.clone(), b.clone()]);
    let i = |a: &Term| App(1, vec![a.clone()]);
    let (e, x, y, z) = (&App(2, vec![]), &Var(0), &Var(1), &Var(2));
    vec![
        (m(e, x), x.clone()),
        (m(&i(x), x), e.clone()),
        (m(&m(x, y), z), m(x, &m(y, z))),
        (m(&i(x), &m(x, y)), y.clone()),
        (i(e), e.clone()),
        (m(x, e), x.clone()),
        (i(&i(x)), x.clone()),
        (m(x, &i(x)), e.clone()),
        (m(x, &m(&i(x), y)), y.clone()),
        (i(&m(x, y)), m(&i(y), &i(x))),
    ]
}

fn full_tree(height: u8, at: u16, step: u16, half: u16) -> Term {
    if height == 0 {
        return Var(at * step % 64 + half * 64);
    }
    App(
        0,
        vec![full_tree(height - 1, 2 * at, step, half), full_tree(height - 1, 2 * at + 1, step, half)],
    )
}

fn comb(leaves: u16, step: u16, half: u16) -> Term {
    (0..leaves).fold(Var(half * 64), |t, n| App(0, vec![Var(n * step % 64 + half * 64), t]))
}

fn with_next(sum: u64, number: u64) -> u64 {
    sum.wrapping_mul(31).wrapping_add(number)
}

fn repeat(repetitions: u32, run: &dyn Fn() -> u64) -> u64 {
    (0..repetitions).fold(0, |sum, _| with_next(sum, run()))
}

fn path_case(count: usize, rules: Vec<Rule>, repetitions: u32) -> u64 {
    repeat(repetitions, &|| {
        let found = search_path(count as u8, std::hint::black_box(&rules));
        found.unwrap_or_default().iter().fold(1, |sum, f| with_next(sum, u64::from(*f)))
    })
}

fn selectors(pairs: u8) -> Vec<Rule> {
    let word = |symbols: &[u8]| symbols.iter().rev().fold(Var(0), |t, f| App(*f, vec![t]));
    let mut rules = vec![
        (word(&[0, 0]), word(&[1, 1])),
        (word(&[1, 1, 0]), word(&[0, 1, 1])),
    ];
    for n in 0..pairs {
        let pair = App(2 + pairs + n, vec![Var(0), Var(1)]);
        rules.push((App(2 + n, vec![pair]), Var(0)));
    }
    rules
}

fn shuffled(seed: &mut u32, count: usize) -> Vec<u8> {
    let mut symbols: Vec<u8> = (0..count as u8).collect();
    for f in 1..count {
        let other = next(seed, 24) as usize;
        if other < f {
            symbols.swap(f, other);
        }
    }
    symbols
}

/// From 5 to 60 rules over 3 to 24 symbols. Every third set has an answer; in the others each eighth rule is oriented by a
/// precedence of its own.
fn random_set(number: u32) -> (Vec<u8>, Vec<Rule>) {
    let seed = &mut number.clone();
    let count = 3 + next(seed, 22);
    let arities: Vec<u8> = (0..count).map(|_| next(seed, 4) as u8).collect();
    let first = shuffled(seed, arities.len());
    let second = if number % 3 == 0 { first.clone() } else { shuffled(seed, arities.len()) };
    let wanted = 5 + next(seed, 56) as usize;
    let mut rules = vec![];
    for _ in 0..20000 {
        if rules.len() >= wanted {
            break;
        }
        let s = some_term(seed, &arities, 3);
        let t = some_term(seed, &arities, 2);
        let rule = (s, t);
        if orients(if rules.len() % 8 == 7 { &second } else { &first }, &rule) {
            rules.push(rule);
        }
    }
    (arities, rules)
}

/// A line for each set: the checksum of the answer, and the nanoseconds of the search, the least of five times.
fn print_sets(sets: u32) {
    for number in 0..sets {
        let (arities, rules) = random_set(number);
        let count = arities.len() as u8;
        let mut least = u128::MAX;
        let mut code = 0;
        for _ in 0..5 {
            let start = std::time::Instant::now();
            let found = search_path(count, std::hint::black_box(&rules));
            code = found.unwrap_or_default().iter().fold(1, |sum, f| with_next(sum, u64::from(*f)));
            least = least.min(start.elapsed().as_nanos());
        }
        println!("{code} {least}");
    }
}

fn linear_case(arities: &[u8], rules: Vec<Rule>, repetitions: u32) -> u64 {
    repeat(repetitions, &|| {
        let found = search_linear(arities, std::hint::black_box(&rules));
        found.unwrap_or_default().iter().fold(1, |sum, row| {
            let sum = with_next(sum, u64::from(row.0));
            row.1.iter().fold(sum, |sum, c| with_next(sum, u64::from(*c)))
        })
    })
}

fn weighted_case(count: usize, rules: Vec<Rule>, repetitions: u32) -> u64 {
    repeat(repetitions, &|| match search_kbo(count, std::hint::black_box(&rules)) {
        None => 1,
        Some((weights, prec)) => {
            weights.iter().chain(&prec).fold(1, |sum, n| with_next(sum, u64::from(*n)))
        }
    })
}

fn unify_case(s: Term, t: Term, repetitions: u32) -> u64 {
    repeat(repetitions, &|| match unify(std::hint::black_box(&s), &t) {
        Ok(Some(entries)) => std::hint::black_box(&entries).len() as u64 + 1000,
        Ok(None) => 1,
        Err(()) => 2,
    })
}

fn term_code(t: &Term) -> u64 {
    match t {
        Var(n) => u64::from(*n),
        App(f, ts) => ts.iter().fold(u64::from(*f), |code, u| with_next(code, term_code(u))),
    }
}

fn normal_case(rules: Vec<Rule>, t: Term, repetitions: u32) -> u64 {
    repeat(repetitions, &|| match normal_form(std::hint::black_box(&rules), &t) {
        Ok((form, steps)) => with_next(term_code(&form), u64::from(steps)),
        Err(code) => code,
    })
}

fn numeral(n: u8) -> Term {
    (0..n).fold(App(0, vec![]), |t, _| App(1, vec![t]))
}

fn numeral_rules() -> Vec<Rule> {
    let s = |t: Term| App(1, vec![t]);
    let sum = |t: Term, u: Term| App(2, vec![t, u]);
    let product = |t: Term, u: Term| App(3, vec![t, u]);
    vec![
        (sum(numeral(0), Var(0)), Var(0)),
        (sum(s(Var(0)), Var(1)), s(sum(Var(0), Var(1)))),
        (product(numeral(0), Var(0)), numeral(0)),
        (product(s(Var(0)), Var(1)), sum(Var(1), product(Var(0), Var(1)))),
    ]
}

const GROUP: [u8; 3] = [2, 1, 0];
const UNARY: [u8; 12] = [1; 12];
const FIVE: [u8; 5] = [1; 5];
const EIGHT: [u8; 8] = [1; 8];
const MIXED: [u8; 8] = [2, 1, 1, 2, 0, 1, 3, 0];
const WIDE: [u8; 24] =
    [2, 3, 2, 0, 1, 2, 3, 1, 3, 0, 0, 3, 2, 1, 1, 3, 2, 2, 1, 1, 1, 1, 2, 3];

// ---- reading problems

fn write_term(out: &mut String, t: &Term) {
    match t {
        Var(n) => {
            out.push('x');
            out.push_str(&(n + 1).to_string());
        }
        App(f, arguments) => {
            out.push((b'a' + *f as u8) as char);
            out.push('(');
            for (k, argument) in arguments.iter().enumerate() {
                if k > 0 {
                    out.push(',');
                }
                write_term(out, argument);
            }
            out.push(')');
        }
    }
}

fn rules_text() -> Vec<u8> {
    let mut out = String::from("(VAR");
    for n in 1..65 {
        out.push_str(&format!(" x{n}"));
    }
    out.push_str(")\n(RULES\n");
    for _ in 0..256 {
        write_term(&mut out, &full_tree(8, 0, 1, 0));
        out.push_str(" == ");
        write_term(&mut out, &full_tree(8, 0, 5, 0));
        out.push('\n');
    }
    out.push_str(")\n");
    out.into_bytes()
}

fn variables_text() -> Vec<u8> {
    let mut out = b"(VAR".to_vec();
    for number in 0..149_000u32 {
        out.push(b' ');
        let mut rest = number;
        for _ in 0..6 {
            out.push(b'a' + (rest % 16) as u8);
            rest /= 16;
        }
    }
    out.extend_from_slice(b")(RULES f(aaaaaa) == aaaaaa)");
    out
}

/// A reader by recursive descent, with the limits of the language and no more care than a careful Rust programmer takes.
struct Reader<'a> {
    text: &'a [u8],
    at: usize,
    variables: std::collections::HashSet<&'a [u8]>,
    symbols: Vec<(&'a [u8], Option<usize>)>,
    local: Vec<&'a [u8]>,
    count: usize,
}

impl<'a> Reader<'a> {
    fn space(&mut self) {
        while matches!(self.text.get(self.at), Some(b' ' | b'\n' | b'\t' | b'\r')) {
            self.at += 1;
        }
    }

    fn mark(&mut self, mark: &[u8]) -> Result<(), usize> {
        self.space();
        if self.text[self.at..].starts_with(mark) {
            self.at += mark.len();
            return Ok(());
        }
        Err(self.at)
    }

    fn is_end(&self, at: usize) -> bool {
        let rest = &self.text[at..];
        matches!(rest.first(), None | Some(b' ' | b'\n' | b'\t' | b'\r' | b'(' | b')' | b',' | b'|' | b'"'))
            || rest.starts_with(b"->")
            || rest.starts_with(b"==")
    }

    fn name(&mut self) -> Result<&'a [u8], usize> {
        self.space();
        let start = self.at;
        while !self.is_end(self.at) {
            self.at += 1;
        }
        if self.at == start || self.at - start > 64 { Err(start) } else { Ok(&self.text[start..self.at]) }
    }

    fn term(&mut self, depth: usize) -> Result<Term, usize> {
        let name = self.name()?;
        let place = self.at - name.len();
        self.count += 1;
        if self.count > 512 || depth > 64 {
            return Err(place);
        }
        if self.variables.contains(name) {
            let n = match self.local.iter().position(|v| *v == name) {
                Some(n) => n,
                None => {
                    self.local.push(name);
                    self.local.len() - 1
                }
            };
            return if n < 64 { Ok(Var(n as u16)) } else { Err(place) };
        }
        let f = match self.symbols.iter().position(|s| s.0 == name) {
            Some(f) => f,
            None => {
                self.symbols.push((name, None));
                self.symbols.len() - 1
            }
        };
        if f >= 24 {
            return Err(place);
        }
        let mut arguments = Vec::new();
        if self.mark(b"(").is_ok() && self.mark(b")").is_err() {
            loop {
                arguments.push(self.term(depth + 1)?);
                if self.mark(b",").is_err() {
                    break;
                }
                if arguments.len() == 8 {
                    return Err(self.at - 1);
                }
            }
            self.mark(b")")?;
        }
        match self.symbols[f].1 {
            None => self.symbols[f].1 = Some(arguments.len()),
            Some(arity) if arity == arguments.len() => {}
            Some(_) => return Err(place),
        }
        Ok(App(f as u8, arguments))
    }

    fn side(&mut self) -> Result<Term, usize> {
        self.count = 0;
        self.term(1)
    }

    fn problem(&mut self) -> Result<Vec<(Term, Term)>, usize> {
        let mut equations = Vec::new();
        while {
            self.space();
            self.at < self.text.len()
        } {
            self.mark(b"(")?;
            match self.name()? {
                b"VAR" => {
                    while self.mark(b")").is_err() {
                        let name = self.name()?;
                        if !self.variables.insert(name) {
                            return Err(self.at - name.len());
                        }
                    }
                }
                b"RULES" => {
                    while self.mark(b")").is_err() {
                        self.local.clear();
                        let left = self.side()?;
                        if self.mark(b"==").is_err() {
                            self.mark(b"->")?;
                        }
                        equations.push((left, self.side()?));
                        if equations.len() > 256 {
                            return Err(self.at);
                        }
                    }
                }
                _ => return Err(self.at),
            }
        }
        Ok(equations)
    }
}

fn reading_case(text: &[u8], times: u32) -> u64 {
    let mut sum = text.len() as u64;
    for _ in 0..times {
        let valid = std::str::from_utf8(text).is_ok();
        let mut reader =
            Reader { text, at: 0, variables: Default::default(), symbols: Vec::new(), local: Vec::new(), count: 0 };
        let code = match reader.problem() {
            Ok(equations) if valid => equations.len() as u64 + 2_000_000,
            Ok(_) => 0,
            Err(at) => at as u64,
        };
        sum = with_next(sum, code);
    }
    sum
}

fn main() {
    let words: Vec<String> = std::env::args().skip(1).collect();
    let times: u32 = words[1].parse().unwrap();
    if words[0] == "sets" {
        return print_sets(times);
    }
    let sum = match words[0].as_str() {
        "lpo_group" => path_case(3, group_rules(), times),
        "lpo_unary" => path_case(12, path_rules(&UNARY, 20, 4, false), times),
        "lpo_wide" => path_case(24, path_rules(&WIDE, 60, 4, false), times),
        "lpo_wide_none" => path_case(24, path_rules(&WIDE, 60, 4, true), times),
        "lpo_selectors" => path_case(14, selectors(6), times),
        "lpo_selectors_wide" => path_case(24, selectors(11), times),
        "linear_group" => linear_case(&GROUP, group_rules(), times),
        "linear_unary" => linear_case(&FIVE, linear_rules(&FIVE, 20, 5, false), times),
        "linear_unary_none" => linear_case(&FIVE, linear_rules(&FIVE, 20, 5, true), times),
        "linear_unary_eight" => linear_case(&EIGHT, linear_rules(&EIGHT, 20, 5, false), times),
        "kbo_group" => weighted_case(3, group_rules(), times),
        "kbo_eight" => weighted_case(8, weighted_rules(&MIXED, 60, 4, false), times),
        "kbo_eight_none" => weighted_case(8, weighted_rules(&MIXED, 60, 4, true), times),
        "kbo_words" => weighted_case(8, weighted_rules(&EIGHT, 60, 5, false), times),
        "kbo_words_none" => weighted_case(8, weighted_rules(&EIGHT, 60, 5, true), times),
        "linear_unary_eight_none" => {
            linear_case(&EIGHT, linear_rules(&EIGHT, 20, 5, true), times)
        }
        "unify_tree" => unify_case(
            App(2, vec![full_tree(8, 0, 1, 0)]),
            App(2, vec![full_tree(8, 0, 5, 1)]),
            times,
        ),
        "unify_comb" => {
            unify_case(App(2, vec![comb(255, 1, 0)]), App(2, vec![comb(255, 5, 1)]), times)
        }
        "unify_doubling" => {
            let double = |n| App(0, vec![Var(n), Var(n)]);
            let left = App(1, (0..8).map(Var).collect());
            unify_case(left, App(1, (1..9).map(double).collect()), times)
        }
        "rewrite_product" => {
            normal_case(numeral_rules(), App(3, vec![numeral(7), numeral(7)]), times)
        }
        "rewrite_tree" => normal_case(
            vec![(App(0, vec![Var(0), Var(1)]), App(1, vec![Var(1), Var(0)]))],
            App(2, vec![full_tree(8, 0, 1, 0)]),
            times,
        ),
        "rewrite_words_index" | "rewrite_words_scan" => {
            let rules = (0..300).map(|n| (word(n, App(0, vec![])), App(0, vec![]))).collect();
            normal_case(rules, (0..12).fold(App(0, vec![]), |t, k| word(k * 97 % 300, t)), times)
        }
        "read_rules" => reading_case(&rules_text(), times),
        "read_variables" => reading_case(&variables_text(), times),
        name => panic!("no case {name}"),
    };
    println!("{sum}");
}
