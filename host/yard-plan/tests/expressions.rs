//! Expressions mean what their code means: generated code is shown, the text is read back and worked out, and the reference runs the words.

use std::collections::BTreeMap;

use compare::generate;
use compare::rng::Rng;
use reference::code;
use reference::draft::{self, Draft};
use reference::lane::Lane;
use reference::plan::{Plan, Span};
use reference::sums::{self, Past};
use yard_plan::expression;

/// Works out an expression's text on a lane. Its grammar has no ranks of its own: operators of one kind go from left to right, and of two
/// kinds side by side only those that the rules of `parts` know.
struct Text<'a> {
    tokens: Vec<&'a str>,
    at: usize,
    lane: &'a Lane,
    values: &'a BTreeMap<String, i32>,
}

impl Text<'_> {
    fn peek(&self) -> &str {
        self.tokens.get(self.at).copied().unwrap_or("")
    }

    fn take(&mut self) -> String {
        self.at += 1;
        self.tokens[self.at - 1].to_string()
    }

    fn expect(&mut self, token: &str) {
        assert_eq!(self.take(), token);
    }

    /// Implies, or, and: no two of them stand side by side, and implies stands once.
    fn whole(&mut self) -> i32 {
        let mut left = self.not();
        let joint = self.peek().to_string();
        if !["implies", "or", "and"].contains(&&joint[..]) {
            return left;
        }
        while self.peek() == joint {
            self.take();
            let right = self.not();
            let (l, r) = (left != 0, right != 0);
            left = i32::from(match &joint[..] {
                "implies" => !l || r,
                "or" => l || r,
                _ => l && r,
            });
            assert!(joint != "implies" || self.peek() != "implies");
        }
        left
    }

    fn not(&mut self) -> i32 {
        if self.peek() == "not" {
            self.take();
            let value = self.atom();
            assert!(!["+", "-", "*", "=", ">="].contains(&self.peek()));
            return i32::from(value == 0);
        }
        self.comparison()
    }

    fn comparison(&mut self) -> i32 {
        let left = self.sum();
        if !["=", ">="].contains(&self.peek()) {
            return left;
        }
        let equal = self.take() == "=";
        let right = self.sum();
        assert!(!["=", ">="].contains(&self.peek()));
        i32::from(if equal { left == right } else { left >= right })
    }

    /// Each sum and each difference is held, a product with what is added to it once.
    fn sum(&mut self) -> i32 {
        let mut left = self.atom();
        if self.peek() == "*" {
            left = self.extended(left.into());
        }
        while ["+", "-"].contains(&self.peek()) {
            let add = self.take() == "+";
            let right = self.atom();
            assert_ne!(self.peek(), "*");
            left = match add {
                true => left.saturating_add(right),
                false => left.saturating_sub(right),
            };
        }
        left
    }

    fn extended(&mut self, left: i64) -> i32 {
        self.expect("*");
        let product = left * i64::from(self.atom());
        self.expect("+");
        let exact = product + i64::from(self.atom());
        exact.clamp(i32::MIN.into(), i32::MAX.into()) as i32
    }

    fn number(&mut self) -> usize {
        self.take().parse().unwrap()
    }

    fn atom(&mut self) -> i32 {
        let token = self.take();
        match &token[..] {
            "(" => {
                let value = self.whole();
                self.expect(")");
                value
            }
            "at" | "last" => self.test(token == "at"),
            name if name.starts_with(['v', 't']) => self.values[name],
            number => number.parse().unwrap(),
        }
    }

    fn test(&mut self, location: bool) -> i32 {
        self.expect("(");
        let component = self.number();
        self.expect(",");
        let holds = if location {
            self.lane.locations[component] == self.number()
        } else if self.peek() == "none" {
            self.take();
            self.lane.last_ports[component].is_none()
        } else {
            self.lane.last_ports[component] == Some(self.number())
        };
        self.expect(")");
        holds.into()
    }
}

/// The text's tokens: words, numbers and signs.
fn tokens(text: &str) -> Vec<&str> {
    let mut tokens = Vec::new();
    for word in text.split_whitespace() {
        let mut rest = word;
        while !rest.is_empty() {
            let sign = rest.find(['(', ')', ',']);
            let length = match sign {
                Some(0) => 1,
                Some(before) => before,
                None => rest.len(),
            };
            tokens.push(&rest[..length]);
            rest = &rest[length..];
        }
    }
    tokens
}

fn value(text: &str, lane: &Lane, values: &BTreeMap<String, i32>) -> i32 {
    let tokens = tokens(text);
    let mut reader = Text {
        tokens,
        at: 0,
        lane,
        values,
    };
    let value = reader.whole();
    assert_eq!(reader.at, reader.tokens.len(), "{text}");
    value
}

fn named(lane: &Lane) -> BTreeMap<String, i32> {
    let values = lane.values.iter().enumerate();
    values.map(|(n, &value)| (format!("v{n}"), value)).collect()
}

/// The lane's values after an action's or transfer's text.
fn values_after(text: &str, lane: &Lane) -> Vec<i32> {
    let mut values = named(lane);
    for statement in text.split("; ") {
        let (name, from) = match statement.strip_prefix("let ") {
            Some(kept) => kept.split_once(" = ").unwrap(),
            None => statement.split_once(" := ").unwrap(),
        };
        let value = value(from, lane, &values);
        values.insert(name.to_string(), value);
    }
    (0..lane.values.len())
        .map(|n| values[&format!("v{n}")])
        .collect()
}

fn random_lane(rng: &mut Rng, plan: &Plan) -> Lane {
    let components = plan.components.iter();
    Lane {
        locations: components.clone().map(|c| rng.below(c.locations)).collect(),
        last_ports: components
            .map(|c| Some(rng.below(c.ports + 1)).filter(|&port| port < c.ports))
            .collect(),
        values: plan
            .variables
            .iter()
            .map(|_| generate::value(rng))
            .collect(),
        oracles: vec![0; plan.oracles.len()],
    }
}

fn text(words: &[u16], span: draft::Span) -> Option<String> {
    let words = &words[span.start.into()..usize::from(span.start + span.length)];
    (!words.is_empty()).then(|| expression::read(words).unwrap().to_string())
}

fn read(span: draft::Span) -> Span {
    Span {
        start: span.start.into(),
        length: span.length.into(),
    }
}

/// The spans of guards and propositions.
fn tests(draft: &Draft) -> Vec<draft::Span> {
    let transitions = draft.transitions.iter().map(|t| t.guard);
    let guards = transitions.chain(draft.interactions.iter().map(|i| i.guard));
    guards.chain(draft.propositions.iter().copied()).collect()
}

/// The spans of actions and transfers.
fn updates(draft: &Draft) -> Vec<draft::Span> {
    let actions = draft.transitions.iter().map(|t| t.action);
    let transfers = draft.interactions.iter().map(|i| i.transfer);
    actions.chain(transfers).collect()
}

#[test]
fn the_text_means_what_the_words_mean() {
    let mut rng = Rng::new(16);
    let (mut tested, mut updated, mut kept, mut held) = (0, 0, 0, 0);
    for _ in 0..500 {
        let draft = generate::plan(&mut rng).draft;
        let plan = Plan::read(&draft.bytes()).unwrap();
        let lane = random_lane(&mut rng, &plan);
        for span in tests(&draft) {
            let Some(text) = text(&draft.code, span) else {
                continue;
            };
            let (holds, past) = sums::counted(|| code::holds(&plan, read(span), &lane));
            assert_eq!(value(&text, &lane, &named(&lane)) != 0, holds, "{text}");
            tested += 1;
            held += usize::from(past != Past::default());
        }
        for span in updates(&draft) {
            let Some(text) = text(&draft.code, span) else {
                continue;
            };
            let mut after = lane.clone();
            let ((), past) = sums::counted(|| code::update(&plan, read(span), &mut after));
            assert_eq!(values_after(&text, &lane), after.values, "{text}");
            kept += usize::from(text.contains("let "));
            updated += 1;
            held += usize::from(past != Past::default());
        }
    }
    println!("{tested} guards and propositions, {updated} actions and transfers, {kept} of them with kept values; {held} with held results");
    assert!(tested > 1000 && updated > 1000 && kept > 100 && held > 1000);
}
