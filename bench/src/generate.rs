//! Tables to compare the readers on: valid ones, ones at and just beyond each limit, and damaged ones.
//!
//! Everything comes from one generator of pseudo-random numbers with a fixed seed, so each run has the same tables.
//! "Valid" here is what a reader accepts: types, clocks and definitions are not looked at.

use crate::reader::{kind, MAX_EQUATIONS, MAX_NODES, MAX_WORDS};

/// The generator xorshift64*: small, fast and the same on every machine.
pub struct Random(u64);

impl Random {
    /// A generator of the numbers that belong to a seed, which is not 0.
    pub fn new(seed: u64) -> Self {
        Random(seed)
    }

    pub fn word(&mut self) -> u32 {
        self.0 ^= self.0 >> 12;
        self.0 ^= self.0 << 25;
        self.0 ^= self.0 >> 27;
        (self.0.wrapping_mul(0x2545_f491_4f6c_dd1d) >> 32) as u32
    }

    /// A number below `end`, which is not 0.
    pub fn below(&mut self, end: usize) -> usize {
        ((u64::from(self.word()) * end as u64) >> 32) as usize
    }

    /// A number from `low` to `high`, both of them included.
    fn between(&mut self, low: usize, high: usize) -> usize {
        low + self.below(high - low + 1)
    }

    /// Whether a chance of one in `n` comes true.
    fn one_in(&mut self, n: usize) -> bool {
        self.below(n) == 0
    }

    /// One of some values.
    fn pick<T: Copy>(&mut self, of: &[T]) -> T {
        of[self.below(of.len())]
    }

    fn shuffle<T>(&mut self, values: &mut [T]) {
        for i in (1..values.len()).rev() {
            values.swap(i, self.below(i + 1));
        }
    }
}

/// A word of a kind.
fn of_kind(kind: u32, fields: u32) -> u32 {
    kind << 28 | fields
}

fn node_word(inputs: usize, outputs: usize, locals: usize) -> u32 {
    of_kind(kind::NODE, (inputs << 16 | outputs << 8 | locals) as u32)
}

/// How many words of a long table its calls get.
#[derive(Clone, Copy, PartialEq, Eq)]
pub enum Calls {
    /// As few as the length allows: a table of more than 8,257 words cannot do without.
    Few,
    /// As many as fit.
    Many,
}

/// A table in the making, valid up to where it is written.
struct Builder<'a> {
    random: &'a mut Random,
    words: Vec<u32>,
    /// The inputs and outputs of the nodes that are closed.
    ports: Vec<(usize, usize)>,
    /// The ports and the number of variables of the node that is open.
    open: (usize, usize),
    variables: usize,
}

impl<'a> Builder<'a> {
    fn new(random: &'a mut Random, set: u8) -> Self {
        Builder {
            random,
            words: vec![of_kind(kind::HEAD, u32::from(set))],
            ports: Vec::new(),
            open: (0, 0),
            variables: 0,
        }
    }

    fn push(&mut self, kind: u32, fields: u32) {
        self.words.push(of_kind(kind, fields));
    }

    /// A variable of the open node, often its last one.
    fn variable(&mut self) -> u32 {
        let last = self.variables - 1;
        (if self.random.one_in(4) {
            last
        } else {
            self.random.below(self.variables)
        }) as u32
    }

    /// NODE and its VARIABLEs.
    fn open(&mut self, inputs: usize, outputs: usize, locals: usize) {
        self.words.push(node_word(inputs, outputs, locals));
        self.open = (inputs, outputs);
        self.variables = inputs + outputs + locals;
        for _ in 0..self.variables {
            let ty = (self.random.word() % 16) << 24;
            let clock = match self.random.below(3) {
                0 => 0x80 | self.variable(),
                1 => 0xc0 | self.variable(),
                _ => 0,
            };
            self.push(kind::VARIABLE, ty | clock);
        }
    }

    /// NODE and its VARIABLEs, so many in all, that is 2 to 64.
    fn open_with(&mut self, variables: usize) {
        let inputs = self.random.between(1, 16.min(variables - 1));
        let outputs = self.random.between(1, 16.min(variables - inputs));
        self.open(inputs, outputs, variables - inputs - outputs);
    }

    fn close(&mut self) {
        self.push(kind::END, 0);
        self.ports.push(self.open);
    }

    fn literal(&mut self) {
        let fields = self.random.word() >> 4;
        self.push(kind::LITERAL, fields);
    }

    fn operands(&mut self, count: usize) {
        for _ in 0..count {
            if self.random.one_in(3) {
                self.literal();
            } else {
                let variable = self.variable();
                self.push(kind::TAKE, variable);
            }
        }
    }

    /// A CALL, restarted or not, with its operands and GIVEs.
    fn call(&mut self, called: usize) {
        let restart = if self.random.one_in(2) {
            0x8000 | self.variable() << 8
        } else {
            0
        };
        self.push(kind::CALL, (called as u32) << 20 | restart);
        let (inputs, outputs) = self.ports[called];
        self.operands(inputs);
        for _ in 0..outputs {
            let variable = self.variable();
            self.push(kind::GIVE, variable);
        }
    }

    /// An equation that is no CALL, of two words or three.
    fn short_equation(&mut self, words: usize) {
        let defined = self.variable();
        if words == 2 {
            match self.random.below(2) {
                0 => {
                    let operator = self.random.pick(&[0, 1, 2, 3, 126, 127]);
                    self.push(kind::OPERATE, operator << 20 | defined);
                }
                _ => self.push(kind::SAMPLE, defined),
            }
            self.operands(1);
            return;
        }
        let selector = self.variable() << 8;
        match self.random.below(4) {
            0 => {
                let operator = self.random.pick(&[128, 129, 133, 138, 200, 255]);
                self.push(kind::OPERATE, operator << 20 | defined);
                self.operands(2);
            }
            1 => {
                self.push(kind::MERGE, selector | defined);
                self.operands(2);
            }
            2 => {
                self.push(kind::CHOOSE, selector | defined);
                self.operands(2);
            }
            _ => {
                self.push(kind::DELAY, defined);
                self.literal();
                self.operands(1);
            }
        }
    }

    /// An equation of any form.
    fn equation(&mut self) {
        if !self.ports.is_empty() && self.random.one_in(4) {
            let called = self.random.below(self.ports.len());
            self.call(called);
        } else {
            let words = self.random.between(2, 3);
            self.short_equation(words);
        }
    }

    /// A whole node, of so many words. Node 0 has 16 inputs and 16 outputs, so that a call of it has 33 words.
    fn node_of_length(&mut self, length: usize, calls: Calls) {
        let mut variables = match calls {
            Calls::Few => self.random.between(2, 64.min(length - 2)),
            Calls::Many => 32.min(length - 2),
        };
        // No equation has one word.
        if length - 2 - variables == 1 {
            variables -= 1;
        }
        let mut left = length - 2 - variables;
        let mut lengths = Vec::new();
        while left > 0 {
            let free = MAX_EQUATIONS - lengths.len();
            let fits = |rest: usize| rest != 1 && rest <= 3 * (free - 1);
            let needs_call = left > 3 * free;
            let next = if needs_call || calls == Calls::Many && left >= 33 && left != 34 {
                33
            } else if left >= 2 && fits(left - 2) && self.random.one_in(2) {
                2
            } else if left >= 3 && fits(left - 3) {
                3
            } else {
                2
            };
            lengths.push(next);
            left -= next;
        }
        self.random.shuffle(&mut lengths);
        self.open_with(variables);
        for words in lengths {
            if words == 33 {
                self.call(0);
            } else {
                self.short_equation(words);
            }
        }
        self.close();
    }
}

/// A valid table: mostly small, sometimes of up to 32 nodes, sometimes with as much in a node as may be.
pub fn valid(random: &mut Random, set: u8) -> Vec<u32> {
    let nodes = match random.below(16) {
        0 => MAX_NODES,
        1 => random.between(1, MAX_NODES),
        _ => random.between(1, 4),
    };
    let largest_node = 1 + 64 + MAX_EQUATIONS * 33 + 1;
    let mut table = Builder::new(random, set);
    for _ in 0..nodes {
        if table.words.len() + largest_node > MAX_WORDS {
            break;
        }
        let variables = match table.random.below(8) {
            0 => 64,
            1 => 2,
            _ => table.random.between(2, 12),
        };
        table.open_with(variables);
        let equations = match table.random.below(16) {
            0 => MAX_EQUATIONS,
            1 => 0,
            _ => table.random.between(0, 8),
        };
        for _ in 0..equations {
            table.equation();
        }
        table.close();
    }
    table.words
}

/// A table of so many words, 200 and more; valid but for its length where that is more than a table may have.
pub fn of_length(random: &mut Random, set: u8, length: usize, calls: Calls) -> Vec<u32> {
    let mut table = Builder::new(random, set);
    table.open(16, 16, 0);
    table.close();
    let most = match calls {
        Calls::Few => (length / MAX_NODES).max(100),
        Calls::Many => 2 + 32 + MAX_EQUATIONS * 33,
    };
    while table.words.len() < length {
        let left = length - table.words.len();
        let nodes_left = MAX_NODES - table.ports.len();
        let size = if nodes_left == 1 || left <= most {
            left
        } else {
            // At least 40 words stay for the last node.
            (left / nodes_left).max(most).min(left - 40)
        };
        table.node_of_length(size, calls);
    }
    table.words
}

/// The longest table without calls: 32 nodes of 64 variables and 64 equations of three words.
pub fn without_calls(random: &mut Random, set: u8) -> Vec<u32> {
    let mut table = Builder::new(random, set);
    for _ in 0..MAX_NODES {
        table.open_with(64);
        for _ in 0..MAX_EQUATIONS {
            table.short_equation(3);
        }
        table.close();
    }
    table.words
}

/// Tables at each limit and one beyond it.
pub fn limits(random: &mut Random, set: u8) -> Vec<Vec<u32>> {
    let mut tables = vec![Vec::new()];
    ports(random, set, &mut tables);
    equation_counts(random, set, &mut tables);
    node_counts(random, set, &mut tables);
    numbers(random, set, &mut tables);
    for calls in [Calls::Few, Calls::Many] {
        for length in [MAX_WORDS - 1, MAX_WORDS, MAX_WORDS + 1, MAX_WORDS + 100] {
            tables.push(of_length(random, set, length, calls));
        }
    }
    tables.push(without_calls(random, set));
    // Every set number in HEAD.
    for number in 0..=255 {
        let mut table = valid(random, set);
        table[0] = number;
        tables.push(table);
    }
    tables
}

/// Counts of inputs, outputs and locals around their limits.
fn ports(random: &mut Random, set: u8, tables: &mut Vec<Vec<u32>>) {
    let around = [0, 1, 2, 15, 16, 17, 18, 255];
    for inputs in around {
        for outputs in around {
            for locals in [0, 1, 31, 32, 33, 47, 48, 62, 63, 64, 255] {
                let mut table = Builder::new(random, set);
                table.open(inputs, outputs, locals);
                if table.variables > 0 {
                    table.equation();
                }
                table.close();
                tables.push(table.words);
            }
        }
    }
}

/// Nodes of 63 to 66 equations, and what else can stand where a 65th would.
fn equation_counts(random: &mut Random, set: u8, tables: &mut Vec<Vec<u32>>) {
    for equations in 63..=66 {
        let mut table = Builder::new(random, set);
        for _ in 0..3 {
            table.open_with(9);
            for _ in 0..equations {
                table.equation();
            }
            table.close();
        }
        tables.push(table.words);
    }
    for kind in 0..16 {
        for fields in [
            0, 1, 8, 9, 63, 0x40, 0x80, 0x800, 0x900, 0x8000, 0x8800, 0x8900, 0x10_0000, 0x800_0000,
        ] {
            for equations in [63, 64] {
                let mut table = Builder::new(random, set);
                table.open_with(9);
                for _ in 0..equations {
                    table.short_equation(3);
                }
                table.push(kind, fields);
                table.operands(2);
                table.close();
                tables.push(table.words);
            }
        }
    }
}

/// Tables of 31 to 34 nodes, and what else can stand where a 33rd would.
fn node_counts(random: &mut Random, set: u8, tables: &mut Vec<Vec<u32>>) {
    for nodes in 31..=34 {
        for _ in 0..4 {
            let mut table = Builder::new(random, set);
            for _ in 0..nodes {
                table.open_with(3);
                table.equation();
                table.close();
            }
            tables.push(table.words);
        }
    }
    let good = node_word(1, 1, 1);
    let thirty_third = [
        good,
        good | 0x0100_0000,
        node_word(0, 1, 0),
        node_word(17, 1, 0),
        node_word(16, 16, 33),
        of_kind(kind::END, 0),
        of_kind(15, 0),
    ];
    for nodes in [1, 31, 32] {
        for last in thirty_third {
            let mut table = Builder::new(random, set);
            for _ in 0..nodes {
                table.open_with(3);
                table.close();
            }
            table.words.push(last);
            tables.push(table.words);
        }
    }
}

/// Every variable number and called node, with and without a restart, in a node of few and of many variables.
fn numbers(random: &mut Random, set: u8, tables: &mut Vec<Vec<u32>>) {
    for variables in [2, 3, 33, 63, 64] {
        for number in 0..64 {
            let words = [
                of_kind(kind::OPERATE, number),
                of_kind(kind::OPERATE, 128 << 20 | number),
                of_kind(kind::SAMPLE, number),
                of_kind(kind::MERGE, number),
                of_kind(kind::MERGE, number << 8),
                of_kind(kind::CHOOSE, number),
                of_kind(kind::CHOOSE, number << 8),
                of_kind(kind::DELAY, number),
                of_kind(kind::CALL, number << 20),
                of_kind(kind::CALL, 0x8000 | number << 8),
                of_kind(kind::CALL, number << 20 | 0x8000 | number << 8),
                of_kind(kind::CALL, number << 8),
            ];
            for head in words {
                let mut table = Builder::new(random, set);
                for _ in 0..3 {
                    table.open(1, 1, 0);
                    table.close();
                }
                table.open_with(variables);
                table.words.push(head);
                if head >> 28 == kind::DELAY {
                    table.literal();
                }
                table.operands(1);
                match head >> 28 {
                    kind::MERGE | kind::CHOOSE => table.operands(1),
                    kind::OPERATE if head >> 20 & 128 != 0 => table.operands(1),
                    kind::CALL => table.push(kind::GIVE, number),
                    _ => {}
                }
                table.close();
                tables.push(table.words);
            }
            // As a sampler, with either sense, and as a field of a variable that is not sampled.
            for clock in [0x80, 0xc0, 0x00, 0x40] {
                let mut table = Builder::new(random, set);
                table.open_with(variables);
                table.words[2] = of_kind(kind::VARIABLE, clock | number);
                table.close();
                tables.push(table.words);
            }
        }
    }
}

/// A word that may stand in a table, or nearly.
pub fn any_word(random: &mut Random) -> u32 {
    match random.below(4) {
        0 => random.word(),
        1 => of_kind(random.word() % 16, 0),
        2 => of_kind(random.word() % 16, 1 << random.below(28)),
        _ => {
            let low = random.word() % 64;
            let middle = random.pick(&[0, 0, 0x8000, 0x8100, 0x8200, 0x100, 0x200]);
            let high = random.pick(&[0, 0, 1 << 20, 2 << 20, 128 << 20, 1 << 24, 2 << 24]);
            of_kind(random.word() % 16, high | middle | low)
        }
    }
}

/// Damages a table in one way or a few.
pub fn damage(random: &mut Random, words: &mut Vec<u32>) {
    let times = random.pick(&[1, 1, 1, 2, 3]);
    for _ in 0..times {
        damage_once(random, words);
    }
}

fn damage_once(random: &mut Random, words: &mut Vec<u32>) {
    if words.is_empty() {
        words.push(any_word(random));
        return;
    }
    let at = random.below(words.len());
    match random.below(13) {
        // Flip a bit, or two of one word.
        0 => words[at] ^= 1 << random.below(32),
        1 => words[at] ^= 1 << random.below(32) | 1 << random.below(32),
        // Another kind.
        2 => words[at] = (words[at] & 0x0fff_ffff) | ((random.word() % 16) << 28),
        // Other fields.
        3 => words[at] = words[at] & 0xf000_0000 | random.word() & 0x0fff_ffff,
        4 => words[at] = words[at] & !0x3f | random.word() & 0x3f,
        // Another word.
        5 => words[at] = any_word(random),
        // Drop, insert, duplicate, swap.
        6 => {
            words.remove(at);
        }
        7 => words.insert(at, any_word(random)),
        8 => words.insert(at, words[at]),
        9 => {
            let other = random.below(words.len());
            words.swap(at, other);
        }
        10 => {
            let next = (at + 1) % words.len();
            words.swap(at, next);
        }
        // End early, or late.
        11 => words.truncate(at),
        _ => {
            for _ in 0..random.between(1, 4) {
                words.push(any_word(random));
            }
        }
    }
}

/// Words of every kind, good and bad ones, out of which all short sequences are tried behind `opening`.
pub fn alphabet() -> [u32; 28] {
    [
        of_kind(kind::HEAD, 0),
        of_kind(kind::NODE, 0x01_0100),
        of_kind(kind::NODE, 0x01_0000),
        of_kind(kind::VARIABLE, 0x0100_0000),
        of_kind(kind::VARIABLE, 0x81),
        of_kind(kind::VARIABLE, 0x01),
        of_kind(kind::OPERATE, 1),
        of_kind(kind::OPERATE, 128 << 20 | 1),
        of_kind(kind::OPERATE, 128 << 20 | 2),
        of_kind(kind::SAMPLE, 1),
        of_kind(kind::SAMPLE, 0x41),
        of_kind(kind::MERGE, 0x0001),
        of_kind(kind::MERGE, 0x0201),
        of_kind(kind::CHOOSE, 0x0100),
        of_kind(kind::CHOOSE, 0x0141),
        of_kind(kind::DELAY, 1),
        of_kind(kind::CALL, 0),
        of_kind(kind::CALL, 0x8000),
        of_kind(kind::CALL, 0x0100),
        of_kind(kind::CALL, 1 << 20),
        of_kind(kind::TAKE, 0),
        of_kind(kind::TAKE, 2),
        of_kind(kind::LITERAL, 0x0123_4567),
        of_kind(kind::GIVE, 1),
        of_kind(kind::GIVE, 0x100),
        of_kind(kind::END, 0),
        of_kind(kind::END, 1),
        of_kind(13, 0),
    ]
}

/// A table up to where the equations of its second node begin: both nodes have an input and an output.
pub fn opening(set: u8) -> Vec<u32> {
    let node = [
        node_word(1, 1, 0),
        of_kind(kind::VARIABLE, 0),
        of_kind(kind::VARIABLE, 0),
    ];
    let mut words = vec![of_kind(kind::HEAD, u32::from(set))];
    words.extend(node);
    words.push(of_kind(kind::END, 0));
    words.extend(node);
    words
}
