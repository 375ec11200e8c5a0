//! Reads as much of the definitions' language as the table of entries is written in.

use std::collections::{HashMap, HashSet};

/// What a definition comes to.
#[derive(Clone, Debug, PartialEq)]
pub enum Value {
    Number(u64),
    Text(String),
    /// A constructor, an operator or `,` with what it is applied to.
    Made(String, Vec<Value>),
}

#[derive(Clone, Debug)]
enum Term {
    Number(u64),
    Text(String),
    Apply(String, Vec<Term>),
}

struct Clause {
    patterns: Vec<Term>,
    body: Vec<String>,
}

type Names = HashMap<String, Value>;

/// What the files define.
#[derive(Default)]
pub struct Definitions {
    /// Constructors and how many arguments they take.
    constructors: HashMap<String, usize>,
    clauses: HashMap<String, Vec<Clause>>,
}

impl Definitions {
    /// Adds what a file defines. Bodies are read when they are asked for.
    pub fn read(&mut self, source: &str) -> Result<(), String> {
        let before: HashSet<String> = self.clauses.keys().cloned().collect();
        for block in blocks(source) {
            if before.contains(&block[0]) || self.constructors.contains_key(&block[0]) {
                return Err(format!("{} is defined twice", block[0]));
            }
            match block[0].as_str() {
                "use" | "infixr" | "abbrev" | "unfoldable" => {}
                "pub" => self.constructors_of(&block)?,
                _ => self.clause(block)?,
            }
        }
        Ok(())
    }

    /// `pub data NAME : Type 0 where`, then `NAME : TYPE` for each constructor.
    fn constructors_of(&mut self, block: &[String]) -> Result<(), String> {
        let start = block.iter().position(|word| word == "where");
        let start = start.ok_or_else(|| unknown("declaration", block))?;
        let words = &block[start + 1..];
        let colons: Vec<usize> = (0..words.len()).filter(|&at| words[at] == ":").collect();
        for (number, &colon) in colons.iter().enumerate() {
            let end = colons.get(number + 1).map_or(words.len(), |next| next - 1);
            let arrows = words[colon..end].iter().filter(|word| *word == "→");
            let name = words[colon - 1].trim_matches('◌').to_string();
            self.constructors.insert(name, arrows.count());
        }
        Ok(())
    }

    fn clause(&mut self, block: Vec<String>) -> Result<(), String> {
        let equals = block.iter().position(|word| word == "=");
        let equals = equals.ok_or_else(|| unknown("line", &block))?;
        let mut words = Words::new(&block[1..equals]);
        let mut patterns = vec![];
        while words.next.is_some() {
            patterns.push(words.atom()?);
        }
        let clause = Clause {
            patterns,
            body: block[equals + 1..].to_vec(),
        };
        let of_name = self.clauses.entry(block[0].clone()).or_default();
        of_name.push(clause);
        Ok(())
    }

    /// What a name stands for.
    pub fn value(&self, name: &str) -> Result<Value, String> {
        self.apply(name, vec![])
    }

    fn apply(&self, name: &str, arguments: Vec<Value>) -> Result<Value, String> {
        match (name, &arguments[..]) {
            ("zero", []) => return Ok(Value::Number(0)),
            ("suc", [Value::Number(n)]) => return Ok(Value::Number(n + 1)),
            ("+", [Value::Number(a), Value::Number(b)]) => return Ok(Value::Number(a + b)),
            ("++", [first, second]) => return joined(first, second),
            ("[]", []) | ("∷", [_, _]) | (",", [_, _]) => {
                return Ok(Value::Made(name.to_string(), arguments))
            }
            _ => {}
        }
        if let Some(&count) = self.constructors.get(name) {
            if count == arguments.len() {
                return Ok(Value::Made(name.to_string(), arguments));
            }
            return Err(format!("{name} takes {count} arguments"));
        }
        let clauses = self.clauses.get(name);
        for clause in clauses.ok_or_else(|| format!("unknown name: {name}"))? {
            if let Some(names) = self.fits_all(&clause.patterns, &arguments)? {
                let mut words = Words::new(&clause.body);
                let body = words.term()?;
                if let Some(word) = words.next {
                    return Err(format!("in {name}: {word} was not expected"));
                }
                return self.evaluate(&body, &names);
            }
        }
        Err(format!("no clause of {name} fits its arguments"))
    }

    fn evaluate(&self, term: &Term, names: &Names) -> Result<Value, String> {
        match term {
            Term::Number(number) => Ok(Value::Number(*number)),
            Term::Text(text) => Ok(Value::Text(text.clone())),
            Term::Apply(name, terms) => {
                if let (Some(value), true) = (names.get(name), terms.is_empty()) {
                    return Ok(value.clone());
                }
                let values = terms.iter().map(|term| self.evaluate(term, names));
                self.apply(name, values.collect::<Result<_, _>>()?)
            }
        }
    }

    fn fits_all(&self, patterns: &[Term], values: &[Value]) -> Result<Option<Names>, String> {
        if patterns.len() != values.len() {
            return Err(format!(
                "{} arguments, not {}",
                values.len(),
                patterns.len()
            ));
        }
        let mut names = Names::new();
        let mut pairs = patterns.iter().zip(values);
        let fit = pairs.all(|(pattern, value)| self.fits(pattern, value, &mut names));
        Ok(fit.then_some(names))
    }

    fn fits(&self, pattern: &Term, value: &Value, names: &mut Names) -> bool {
        match (pattern, value) {
            (Term::Number(a), Value::Number(b)) => a == b,
            (Term::Apply(name, parts), Value::Number(n)) if name == "suc" => {
                *n > 0 && self.fits(&parts[0], &Value::Number(n - 1), names)
            }
            (Term::Apply(name, _), _) if name == "zero" => *value == Value::Number(0),
            (Term::Apply(name, parts), _) if !parts.is_empty() || self.fixed(name) => {
                let Value::Made(made, values) = value else {
                    return false;
                };
                let mut pairs = parts.iter().zip(values);
                name == made
                    && parts.len() == values.len()
                    && pairs.all(|(part, value)| self.fits(part, value, names))
            }
            (Term::Apply(name, _), _) => {
                names.insert(name.clone(), value.clone());
                true
            }
            _ => false,
        }
    }

    fn fixed(&self, name: &str) -> bool {
        name == "[]" || self.constructors.contains_key(name)
    }
}

/// The elements of a list.
pub fn elements(list: &Value) -> Result<Vec<&Value>, String> {
    let mut found = vec![];
    let mut rest = list;
    loop {
        match rest {
            Value::Made(name, parts) if name == "∷" => {
                found.push(&parts[0]);
                rest = &parts[1];
            }
            Value::Made(name, _) if name == "[]" => return Ok(found),
            _ => return Err(format!("not a list: {rest:?}")),
        }
    }
}

fn joined(first: &Value, second: &Value) -> Result<Value, String> {
    let front = elements(first)?;
    let pair = |rest, value: &Value| Value::Made("∷".to_string(), vec![value.clone(), rest]);
    Ok(front.into_iter().rev().fold(second.clone(), pair))
}

fn unknown(what: &str, words: &[String]) -> String {
    format!("unknown {what}: {}", words.join(" "))
}

/// The words of each line that starts at the margin, with the lines that follow it.
fn blocks(source: &str) -> Vec<Vec<String>> {
    let mut blocks: Vec<Vec<String>> = vec![];
    for line in source.lines() {
        let words = words_of(line);
        if words.is_empty() {
            continue;
        }
        match blocks.last_mut() {
            Some(block) if line.starts_with(' ') => block.extend(words),
            _ => blocks.push(words),
        }
    }
    blocks
}

/// Words stand between blanks, brackets and commas; a text keeps its first quote.
fn words_of(line: &str) -> Vec<String> {
    let mut words = vec![];
    let mut rest = line.trim_start();
    while !rest.is_empty() && !rest.starts_with("--") {
        let length = match rest.chars().next() {
            Some('(' | ')' | ',') => 1,
            Some('"') => 1 + rest[1..].find('"').unwrap_or(rest.len() - 1),
            _ => {
                let ends = |c: char| c.is_whitespace() || "(),".contains(c);
                rest.find(ends).unwrap_or(rest.len())
            }
        };
        words.push(rest[..length].to_string());
        rest = rest[length..].trim_start_matches('"').trim_start();
    }
    words
}

const OPERATORS: [&str; 4] = ["·", "∷", "++", "+"];

struct Words<'a> {
    next: Option<&'a str>,
    rest: std::slice::Iter<'a, String>,
}

impl<'a> Words<'a> {
    fn new(words: &'a [String]) -> Words<'a> {
        let mut rest = words.iter();
        let next = rest.next().map(String::as_str);
        Words { next, rest }
    }

    fn take(&mut self) -> Option<&'a str> {
        let taken = self.next;
        self.next = self.rest.next().map(String::as_str);
        taken
    }

    /// All operators bind to the right; only `∷` and `++` may be mixed.
    fn term(&mut self) -> Result<Term, String> {
        self.term_after(None)
    }

    fn term_after(&mut self, before: Option<&str>) -> Result<Term, String> {
        let first = self.application()?;
        let Some(operator) = self.next.filter(|word| OPERATORS.contains(word)) else {
            return Ok(first);
        };
        let of_lists = |word: &str| word == "∷" || word == "++";
        let mixed = |before| before != operator && !(of_lists(before) && of_lists(operator));
        if before.is_some_and(mixed) {
            return Err(format!("{operator} mixed with another operator"));
        }
        self.take();
        let rest = self.term_after(Some(operator))?;
        Ok(Term::Apply(operator.to_string(), vec![first, rest]))
    }

    fn application(&mut self) -> Result<Term, String> {
        let first = self.atom()?;
        let mut arguments = vec![];
        let ends = |word: &str| OPERATORS.contains(&word) || word == ")" || word == ",";
        while self.next.is_some_and(|word| !ends(word)) {
            arguments.push(self.atom()?);
        }
        match first {
            _ if arguments.is_empty() => Ok(first),
            Term::Apply(name, none) if none.is_empty() => Ok(Term::Apply(name, arguments)),
            _ => Err(format!("cannot be applied: {first:?}")),
        }
    }

    fn atom(&mut self) -> Result<Term, String> {
        let word = self.take().ok_or("a term is missing")?;
        if word == "(" {
            return self.bracketed();
        }
        if let Some(text) = word.strip_prefix('"') {
            return Ok(Term::Text(text.to_string()));
        }
        if word.starts_with(|c: char| c.is_ascii_digit()) {
            let number = word.parse().map_err(|_| format!("not a number: {word}"))?;
            return Ok(Term::Number(number));
        }
        if OPERATORS.contains(&word) || [")", ",", "=", ":"].contains(&word) {
            return Err(format!("{word} was not expected"));
        }
        Ok(Term::Apply(word.to_string(), vec![]))
    }

    /// A term in brackets, or a pair; a comma may stand at its end.
    fn bracketed(&mut self) -> Result<Term, String> {
        let mut terms = vec![self.term()?];
        loop {
            match self.take() {
                Some(")") => break,
                Some(",") if self.next == Some(")") => {}
                Some(",") => terms.push(self.term()?),
                word => return Err(format!("{word:?} in place of a closing bracket")),
            }
        }
        match terms.len() {
            1 => Ok(terms.remove(0)),
            _ => Ok(Term::Apply(",".to_string(), terms)),
        }
    }
}
