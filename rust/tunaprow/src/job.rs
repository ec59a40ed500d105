//! Jobs, and how they are written for the program.

use crate::json::{push_list, push_numbers, Object};

/// The fields of the program. Elements stand as numbers below the size: of the base field in a table, and of the
/// extension in claims, rounds and challenges.
#[derive(Clone, Copy, Debug, PartialEq, Eq)]
pub enum Field {
    /// The integers modulo 65537, as their own extension.
    Modulo65537,
    /// The integers modulo 257, and their extension by u with u^2 = 3: a + 257 b is the element a + b u.
    Modulo257Squared,
    /// A field of 16 elements, as its own extension. Sums are exclusive ors; the bits, from the lowest on, are those of
    /// 1, w, y and wy, where w^2 = w + 1 and y^2 = y + w.
    Sixteen,
}

impl Field {
    /// The name in a job.
    pub fn name(self) -> &'static str {
        match self {
            Field::Modulo65537 => "65537",
            Field::Modulo257Squared => "257x2",
            Field::Sixteen => "16",
        }
    }

    /// How many elements the base field has, whose numbers a table holds.
    pub fn base_size(self) -> u64 {
        match self {
            Field::Modulo65537 => 65_537,
            Field::Modulo257Squared => 257,
            Field::Sixteen => 16,
        }
    }

    /// How many elements the extension has.
    pub fn size(self) -> u64 {
        match self {
            Field::Modulo257Squared => 257 * 257,
            _ => self.base_size(),
        }
    }
}

/// Where challenges come from.
#[derive(Clone, Debug, PartialEq, Eq)]
pub enum Challenger {
    /// SHA-256 over what the rounds sent, with the bytes of `docs/FORMATS.md`.
    Hash,
    /// A script, for challenges that are known: those of a prover of your own, say.
    Script {
        /// Draw number d, of a base element, is entry d, and 0 past the end. An element of the extension takes as many
        /// draws as it has parts.
        draws: Vec<u64>,
        /// Entry t has the base numbers that pass test number t; past the end nothing passes.
        witnesses: Vec<Vec<u64>>,
    },
}

/// Which variable a round binds, and which end a selector is taken from.
#[derive(Clone, Copy, Debug, PartialEq, Eq)]
pub enum Order {
    /// The first one that is left, that of the highest binary digit of a row's number.
    Prefix,
    /// The last one.
    Suffix,
}

/// What the numbers of the table are.
#[derive(Clone, Copy, Debug, PartialEq, Eq)]
pub enum Basis {
    /// The values at the rows.
    Evaluation,
    /// Coefficients: row b has that of the product of the variables whose digit in b is 1.
    Projective,
}

/// A statement on a table of n variables: the sum, over all rows, of the entry times the row's weight is `value`, an
/// extension number.
#[derive(Clone, Debug, PartialEq, Eq)]
pub enum Statement {
    /// The table's multilinear extension has this value at a point of n extension numbers, that of the highest digit
    /// first. The weights are the equality weights of the point.
    Value {
        /// The point.
        point: Vec<u64>,
        /// The claimed value.
        value: u64,
    },
    /// The value through the successor map: the weight of a row is the selector's equality weight at its part of the
    /// digits, times the sum of the point's equality weights over all numbers whose next is the rest. The next of the
    /// greatest number is itself. Selector and point have n numbers together.
    Successor {
        /// The selector, which may be empty.
        selector: Vec<u64>,
        /// The point.
        point: Vec<u64>,
        /// With `Prefix` the selector's part are the highest digits, with `Suffix` the lowest.
        order: Order,
        /// The claimed value.
        value: u64,
    },
    /// The weight of row b is the power b of a base number; the power 0 of 0 is 1.
    Powers {
        /// The base number.
        of: u64,
        /// The claimed sum.
        value: u64,
    },
    /// The weight of a row is the product of those of n base numbers whose digit in the row is 1.
    Products {
        /// The base numbers, that of the highest digit first.
        of: Vec<u64>,
        /// The claimed sum.
        value: u64,
    },
}

impl Statement {
    /// The kind of the group that it stands in, and the name of the group's list.
    fn kind(&self) -> (&'static str, &'static str) {
        match self {
            Statement::Value { .. } => ("eq", "claims"),
            Statement::Successor { .. } => ("next", "claims"),
            Statement::Powers { .. } => ("select", "scalars"),
            Statement::Products { .. } => ("select", "points"),
        }
    }

    fn push(&self, text: &mut String) {
        let mut object = Object::open(text);
        match self {
            Statement::Value { point, value } => object.numbers("point", point).number("value", *value),
            Statement::Successor { selector, point, order, value } => object
                .numbers("selector", selector)
                .numbers("point", point)
                .word("order", order.name())
                .number("value", *value),
            Statement::Powers { of, value } => object.number("at", *of).number("value", *value),
            Statement::Products { of, value } => object.numbers("at", of).number("value", *value),
        };
        object.close();
    }
}

/// How rounds are built. The report is the same in each case, but for the grids of `SmallValue`.
#[derive(Clone, Copy, Debug, PartialEq, Eq)]
pub enum Strategy {
    /// On tables of the extension.
    Plain,
    /// On tables of another form of the extension.
    Represented,
    /// The first rounds, so many, off grids of sums over the table of base numbers: 1 to 12, and at most one for each
    /// variable.
    SmallValue(u64),
}

/// Rounds that were made elsewhere.
#[derive(Clone, Debug, Default, PartialEq, Eq)]
pub struct Proof {
    /// The two extension numbers of each round: the constant (with [`Basis::Projective`] the value at 1) and the leading
    /// coefficient of its polynomial.
    pub rounds: Vec<[u64; 2]>,
    /// The witness of each round, a base number; none without a difficulty.
    pub witnesses: Vec<u64>,
}

/// What is wanted of a job.
#[derive(Clone, Debug, PartialEq, Eq)]
pub enum Mode {
    /// Rounds of the true statements.
    Build(Strategy),
    /// A replay of the rounds that are handed in; there are none only for a table without variables.
    Check(Option<Proof>),
}

/// A table, statements on it, and how rounds are played.
#[derive(Clone, Debug, PartialEq, Eq)]
pub struct Job {
    /// The field that all numbers are of.
    pub field: Field,
    /// Where challenges come from.
    pub challenger: Challenger,
    /// Which variable a round binds.
    pub order: Order,
    /// What the numbers of the table are.
    pub basis: Basis,
    /// The difficulty of each round's test, in bits: 0 for no test, at most 16.
    pub bits: u32,
    /// 2^n base numbers, row 0 first; n is at most 24.
    pub table: Vec<u64>,
    /// At most 4,096 of them.
    pub statements: Vec<Statement>,
    /// Statement i is batched with the power i of this extension number.
    pub batching: u64,
    /// What is wanted.
    pub mode: Mode,
}

impl Job {
    /// A job without statements, to be built plainly under the hash challenger, in prefix order and without a test.
    /// `batching` is 1.
    pub fn new(field: Field, table: Vec<u64>) -> Job {
        Job {
            field,
            challenger: Challenger::Hash,
            order: Order::Prefix,
            basis: Basis::Evaluation,
            bits: 0,
            table,
            statements: Vec::new(),
            batching: 1,
            mode: Mode::Build(Strategy::Plain),
        }
    }

    /// The number of variables of the table: the least n such that it has at most 2^n entries. A point with another
    /// number of coordinates makes the job one that is refused for its member `groups`.
    pub fn variables(&self) -> u32 {
        self.table.len().next_power_of_two().ilog2()
    }

    /// The text that the program reads.
    ///
    /// ```
    /// use tunaprow::{Challenger, Field, Job, Statement};
    ///
    /// let mut job = Job::new(Field::Modulo65537, vec![1, 2]);
    /// job.challenger = Challenger::Script { draws: vec![3], witnesses: vec![] };
    /// job.statements.push(Statement::Value { point: vec![0], value: 1 });
    /// assert_eq!(
    ///     job.to_json(),
    ///     concat!(
    ///         r#"{"field":"65537","challenger":{"draws":[3],"witnesses":[]},"order":"prefix","bits":0,"table":[1,2],"#,
    ///         r#""variables":1,"groups":[{"kind":"eq","claims":[{"point":[0],"value":1}]}],"batching":1,"#,
    ///         r#""mode":{"build":"plain"}}"#,
    ///     ),
    /// );
    /// ```
    pub fn to_json(&self) -> String {
        let mut text = String::new();
        let mut object = Object::open(&mut text);
        object.word("field", self.field.name());
        self.challenger.push(object.member("challenger"));
        object
            .word("order", self.order.name())
            .number("bits", u64::from(self.bits))
            .numbers("table", &self.table)
            .number("variables", u64::from(self.variables()));
        push_groups(object.member("groups"), &self.statements);
        object.number("batching", self.batching);
        self.mode.push(object.member("mode"));
        if self.basis == Basis::Projective {
            object.word("basis", "projective");
        }
        object.close();
        text
    }
}

impl Order {
    /// The name in a job.
    pub fn name(self) -> &'static str {
        match self {
            Order::Prefix => "prefix",
            Order::Suffix => "suffix",
        }
    }
}

impl Challenger {
    fn push(&self, text: &mut String) {
        match self {
            Challenger::Hash => text.push_str("\"hash\""),
            Challenger::Script { draws, witnesses } => {
                let mut object = Object::open(text);
                object.numbers("draws", draws);
                push_list(object.member("witnesses"), witnesses, |text, passing| push_numbers(text, passing));
                object.close();
            }
        }
    }
}

impl Mode {
    fn push(&self, text: &mut String) {
        let mut object = Object::open(text);
        match self {
            Mode::Build(Strategy::Plain) => {
                object.word("build", "plain");
            }
            Mode::Build(Strategy::Represented) => {
                object.word("build", "represented");
            }
            Mode::Build(Strategy::SmallValue(rounds)) => {
                let mut inner = Object::open(object.member("build"));
                inner.number("small-value", *rounds);
                inner.close();
            }
            Mode::Check(None) => object.member("check").push_str("null"),
            Mode::Check(Some(proof)) => proof.push(object.member("check")),
        }
        object.close();
    }
}

impl Proof {
    fn push(&self, text: &mut String) {
        let mut object = Object::open(text);
        push_list(object.member("rounds"), &self.rounds, |text, values| push_numbers(text, values));
        object.numbers("witnesses", &self.witnesses);
        object.close();
    }
}

/// Writes statements as groups, of which each has the statements of one kind that stand side by side.
fn push_groups(text: &mut String, statements: &[Statement]) {
    let groups: Vec<&[Statement]> = statements.chunk_by(|a, b| a.kind() == b.kind()).collect();
    push_list(text, &groups, |text, group| {
        let (kind, list) = group[0].kind();
        let mut object = Object::open(text);
        object.word("kind", kind);
        push_list(object.member(list), group, |text, statement| statement.push(text));
        object.close();
    });
}
