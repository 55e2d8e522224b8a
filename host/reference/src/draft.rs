//! A plan being written: its records, lawful or not, and their bytes.

#[derive(Clone, Copy, Debug, Default, PartialEq, Eq)]
pub struct Span {
    pub start: u16,
    pub length: u16,
}

#[derive(Clone, Copy, Debug)]
pub struct Component {
    pub locations: u8,
    pub start: u8,
    pub ports: u8,
    pub zero: u8,
}

#[derive(Clone, Copy, Debug)]
pub struct Variable {
    pub owner: u8,
    pub zeros: [u8; 3],
    pub value: i32,
}

#[derive(Clone, Copy, Debug)]
pub struct Transition {
    pub component: u8,
    pub source: u8,
    pub port: u8,
    pub destination: u8,
    pub guard: Span,
    pub action: Span,
}

#[derive(Clone, Copy, Debug)]
pub struct Interaction {
    pub ports: [u8; 16],
    pub guard: Span,
    pub transfer: Span,
    pub rank: u64,
}

#[derive(Clone, Debug)]
pub struct OracleState {
    pub verdict: u8,
    pub next: Vec<u8>,
}

#[derive(Clone, Debug, Default)]
pub struct Draft {
    pub number: u32,
    pub first: u16,
    pub components: Vec<Component>,
    pub variables: Vec<Variable>,
    pub transitions: Vec<Transition>,
    pub interactions: Vec<Interaction>,
    pub propositions: Vec<Span>,
    pub oracle: Vec<OracleState>,
    /// The added oracles, each with its states; three at most in a lawful plan.
    pub added: Vec<Vec<OracleState>>,
    pub code: Vec<u16>,
}

impl Draft {
    /// The plan's bytes, with counts, offsets and length as the records give.
    pub fn bytes(&self) -> Vec<u8> {
        let sections = self.sections();
        let mut offsets = Vec::new();
        let mut end = 48;
        for section in &sections {
            offsets.push(end as u16);
            end += section.len();
        }
        let mut bytes = b"PLAN".to_vec();
        bytes.extend(self.number.to_le_bytes());
        for field in [end as u16].iter().chain(&self.counts()).chain(&offsets) {
            bytes.extend(field.to_le_bytes());
        }
        bytes.extend(self.added_counts());
        bytes.extend([0; 2]);
        bytes.extend(sections.concat());
        bytes
    }

    /// The fields at 10 to 24.
    fn counts(&self) -> [u16; 8] {
        [
            self.components.len() as u16,
            self.variables.len() as u16,
            self.transitions.len() as u16,
            self.interactions.len() as u16,
            self.propositions.len() as u16,
            self.oracle.len() as u16,
            self.first,
            self.code.len() as u16,
        ]
    }

    /// The bytes 42 to 45: how many oracles are added, and the states of each.
    fn added_counts(&self) -> [u8; 4] {
        let states = |k: usize| self.added.get(k).map_or(0, |oracle| oracle.len() as u8);
        [self.added.len() as u8, states(0), states(1), states(2)]
    }

    fn sections(&self) -> [Vec<u8>; 8] {
        let added = self.added.iter().flatten();
        [
            self.components.iter().flat_map(component).collect(),
            self.variables.iter().flat_map(variable).collect(),
            self.transitions.iter().flat_map(transition).collect(),
            self.interactions.iter().flat_map(interaction).collect(),
            self.interactions
                .iter()
                .flat_map(|i| i.rank.to_le_bytes())
                .collect(),
            self.propositions.iter().flat_map(|p| span(*p)).collect(),
            self.oracle
                .iter()
                .chain(added)
                .flat_map(oracle_state)
                .collect(),
            self.code
                .iter()
                .flat_map(|word| word.to_le_bytes())
                .collect(),
        ]
    }
}

fn span(span: Span) -> [u8; 4] {
    let [s0, s1] = span.start.to_le_bytes();
    let [l0, l1] = span.length.to_le_bytes();
    [s0, s1, l0, l1]
}

fn component(c: &Component) -> [u8; 4] {
    [c.locations, c.start, c.ports, c.zero]
}

fn variable(v: &Variable) -> Vec<u8> {
    let mut record = vec![v.owner];
    record.extend(v.zeros);
    record.extend(v.value.to_le_bytes());
    record
}

fn transition(t: &Transition) -> Vec<u8> {
    let mut record = vec![t.component, t.source, t.port, t.destination];
    record.extend(span(t.guard));
    record.extend(span(t.action));
    record
}

fn interaction(i: &Interaction) -> Vec<u8> {
    let mut record = i.ports.to_vec();
    record.extend(span(i.guard));
    record.extend(span(i.transfer));
    record
}

fn oracle_state(state: &OracleState) -> Vec<u8> {
    let mut record = vec![state.verdict];
    record.extend(&state.next);
    record
}
