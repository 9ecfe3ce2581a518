//! A reader of table words in plain Rust, written from the rules of the format alone.
//!
//! It shares no code with the proved reader, so that a comparison of the two can find a mistake in either.
//!
//! # The format
//!
//! Bits 31-28 of a word are its kind, and every bit that is not named here is zero.
//!
//! | Kind | Name | Fields |
//! |---|---|---|
//! | 0 | HEAD | set number 7-0 |
//! | 1 | NODE | inputs 23-16, outputs 15-8, locals 7-0 |
//! | 2 | VARIABLE | type 27-24; bit 7 says sampled, then sense 6 and sampler 5-0 |
//! | 3 | OPERATE | operator 27-20, defined variable 5-0 |
//! | 4, 7 | SAMPLE, DELAY | defined variable 5-0 |
//! | 5, 6 | MERGE, CHOOSE | selector 13-8, defined variable 5-0 |
//! | 8 | CALL | node 27-20; bit 15 says restarted, then restart variable 13-8 |
//! | 9, 11 | TAKE, GIVE | variable 5-0 |
//! | 10 | LITERAL | type 27-24, payload 23-0 |
//! | 12 | END | none |
//!
//! A table is HEAD and then 1 to 32 nodes. A node is NODE, a VARIABLE for each of its variables, up to 64 equations, END.
//! An operand is TAKE or LITERAL. Behind its head, OPERATE has one operand for operators 0-127 and two for 128-255,
//! SAMPLE one, MERGE and CHOOSE two, DELAY a LITERAL and then an operand, CALL one operand for each input of the
//! called node and then one GIVE for each of its outputs.
//!
//! # The refusals
//!
//! 1. The table is empty, or longer than 16,384 words.
//! 2. A word of a wrong kind, or the table ends early: then the place is its length.
//! 3. A bit that must be zero.
//! 4. The set number is not the set's.
//! 5. A count beyond its limit: 1-16 inputs, 1-16 outputs, 64 variables, 64 equations, 32 nodes.
//! 6. A variable number that is not below the node's variables, or a CALL of a node that is not below its own.
//!
//! Words are read front to back, and at one word the smaller number wins. A refusal carries the number of the last NODE
//! read, and a NODE word is read once its kind is right: 0 before any, and 32 at a 33rd.

/// The most words that a table may have.
pub const MAX_WORDS: usize = 16_384;
/// The most nodes of a table.
pub const MAX_NODES: usize = 32;
/// The most inputs of a node, and the most outputs.
pub const MAX_PORTS: u32 = 16;
/// The most variables of a node.
pub const MAX_VARIABLES: u32 = 64;
/// The most equations of a node.
pub const MAX_EQUATIONS: usize = 64;

/// The kinds of word, as they stand in bits 31-28.
pub mod kind {
    pub const HEAD: u32 = 0;
    pub const NODE: u32 = 1;
    pub const VARIABLE: u32 = 2;
    pub const OPERATE: u32 = 3;
    pub const SAMPLE: u32 = 4;
    pub const MERGE: u32 = 5;
    pub const CHOOSE: u32 = 6;
    pub const DELAY: u32 = 7;
    pub const CALL: u32 = 8;
    pub const TAKE: u32 = 9;
    pub const LITERAL: u32 = 10;
    pub const GIVE: u32 = 11;
    pub const END: u32 = 12;
}

/// A refusal: its number, the node it was found in and the place of the word.
#[derive(Clone, Copy, Debug, PartialEq, Eq)]
pub struct Refusal {
    pub number: u32,
    pub node: u32,
    pub place: u32,
}

/// Where a node and its equations stand, and how many ports it has.
#[derive(Clone, Copy)]
pub struct NodeOutline {
    pub start: u16,
    pub inputs: u8,
    pub outputs: u8,
    /// How many equations it has, whose heads stand at the first so many of `heads`.
    pub equations: u8,
    pub heads: [u16; MAX_EQUATIONS],
}

/// Where the parts of a table stand: the first `count` of `nodes` are the table's.
pub struct Outline {
    pub count: usize,
    pub nodes: [NodeOutline; MAX_NODES],
}

/// A reader in the middle of a table.
struct Reader<'a> {
    words: &'a [u32],
    /// The place of the next word.
    place: usize,
    /// The number of the last NODE read; 0 before any.
    node: usize,
    /// The number of variables of the last node.
    variables: u32,
    outline: Outline,
}

/// Reads a whole table for the set of number `set`.
pub fn read(set: u8, words: &[u32]) -> Result<Outline, Refusal> {
    if words.is_empty() || words.len() > MAX_WORDS {
        return Err(Refusal {
            number: 1,
            node: 0,
            place: 0,
        });
    }
    let empty = NodeOutline {
        start: 0,
        inputs: 0,
        outputs: 0,
        equations: 0,
        heads: [0; MAX_EQUATIONS],
    };
    let outline = Outline {
        count: 0,
        nodes: [empty; MAX_NODES],
    };
    Reader {
        words,
        place: 0,
        node: 0,
        variables: 0,
        outline,
    }
    .table(set)
}

/// Bits `low..=high` of a word.
fn bits(word: u32, high: u32, low: u32) -> u32 {
    (word >> low) & (u32::MAX >> (31 - (high - low)))
}

impl Reader<'_> {
    /// Refuses the word at the current place.
    fn refuse<T>(&self, number: u32) -> Result<T, Refusal> {
        Err(Refusal {
            number,
            node: self.node as u32,
            place: self.place as u32,
        })
    }

    /// Refuses the current word unless `fine`.
    fn ensure(&self, fine: bool, number: u32) -> Result<(), Refusal> {
        if fine {
            Ok(())
        } else {
            self.refuse(number)
        }
    }

    /// The word at the current place, which is not passed yet; 2 where the table has ended.
    fn peek(&self) -> Result<u32, Refusal> {
        match self.words.get(self.place) {
            Some(&word) => Ok(word),
            None => self.refuse(2),
        }
    }

    /// The word at the current place, which has to be of one kind.
    fn expect(&self, wanted: u32) -> Result<u32, Refusal> {
        let word = self.peek()?;
        self.ensure(word >> 28 == wanted, 2)?;
        Ok(word)
    }

    /// 3 unless the bits of `mask` are zero in `word`.
    fn zero(&self, word: u32, mask: u32) -> Result<(), Refusal> {
        self.ensure(word & mask == 0, 3)
    }

    /// 6 unless the variable is one of the node's.
    fn variable_number(&self, variable: u32) -> Result<(), Refusal> {
        self.ensure(variable < self.variables, 6)
    }

    fn table(mut self, set: u8) -> Result<Outline, Refusal> {
        let head = self.expect(kind::HEAD)?;
        self.zero(head, 0x0fff_ff00)?;
        self.ensure(bits(head, 7, 0) == u32::from(set), 4)?;
        self.place += 1;
        // The first node has to be there: a table of HEAD alone ends early.
        while self.outline.count == 0 || self.place < self.words.len() {
            self.node(self.outline.count)?;
            self.outline.count += 1;
        }
        Ok(self.outline)
    }

    fn node(&mut self, number: usize) -> Result<(), Refusal> {
        let word = self.expect(kind::NODE)?;
        self.node = number;
        self.zero(word, 0x0f00_0000)?;
        let (inputs, outputs, locals) = (bits(word, 23, 16), bits(word, 15, 8), bits(word, 7, 0));
        let variables = inputs + outputs + locals;
        let within = number < MAX_NODES
            && (1..=MAX_PORTS).contains(&inputs)
            && (1..=MAX_PORTS).contains(&outputs)
            && variables <= MAX_VARIABLES;
        self.ensure(within, 5)?;
        let outline = &mut self.outline.nodes[number];
        outline.start = self.place as u16;
        outline.inputs = inputs as u8;
        outline.outputs = outputs as u8;
        self.variables = variables;
        self.place += 1;
        for _ in 0..variables {
            self.variable()?;
        }
        while self.equation()? {}
        Ok(())
    }

    fn variable(&mut self) -> Result<(), Refusal> {
        let word = self.expect(kind::VARIABLE)?;
        self.zero(word, 0x00ff_ff00)?;
        if bits(word, 7, 7) == 1 {
            self.variable_number(bits(word, 5, 0))?;
        } else {
            self.zero(word, 0x7f)?;
        }
        self.place += 1;
        Ok(())
    }

    /// Reads the next equation of the node, or its END; answers whether it was an equation.
    fn equation(&mut self) -> Result<bool, Refusal> {
        let word = self.peek()?;
        let kind = word >> 28;
        let unnamed = match kind {
            kind::OPERATE => 0x000f_ffc0,
            kind::SAMPLE | kind::DELAY => 0x0fff_ffc0,
            kind::MERGE | kind::CHOOSE => 0x0fff_c0c0,
            kind::CALL if bits(word, 15, 15) == 1 => 0x000f_40ff,
            kind::CALL => 0x000f_7fff,
            kind::END => 0x0fff_ffff,
            _ => return self.refuse(2),
        };
        self.zero(word, unnamed)?;
        if kind == kind::END {
            self.place += 1;
            return Ok(false);
        }
        let earlier = usize::from(self.outline.nodes[self.node].equations);
        self.ensure(earlier < MAX_EQUATIONS, 5)?;
        if kind == kind::CALL {
            self.ensure((bits(word, 27, 20) as usize) < self.node, 6)?;
            if bits(word, 15, 15) == 1 {
                self.variable_number(bits(word, 13, 8))?;
            }
        } else {
            self.variable_number(bits(word, 5, 0))?;
            if kind == kind::MERGE || kind == kind::CHOOSE {
                self.variable_number(bits(word, 13, 8))?;
            }
        }
        let outline = &mut self.outline.nodes[self.node];
        outline.heads[earlier] = self.place as u16;
        outline.equations += 1;
        self.place += 1;
        match kind {
            kind::CALL => {
                let NodeOutline {
                    inputs, outputs, ..
                } = self.outline.nodes[bits(word, 27, 20) as usize];
                self.operands(inputs)?;
                self.gives(outputs)?;
            }
            kind::OPERATE if bits(word, 27, 20) < 128 => self.operands(1)?,
            kind::SAMPLE => self.operands(1)?,
            kind::DELAY => {
                self.expect(kind::LITERAL)?;
                self.place += 1;
                self.operands(1)?;
            }
            _ => self.operands(2)?,
        }
        Ok(true)
    }

    fn gives(&mut self, count: u8) -> Result<(), Refusal> {
        for _ in 0..count {
            let word = self.expect(kind::GIVE)?;
            self.variable_word(word)?;
        }
        Ok(())
    }

    fn operands(&mut self, count: u8) -> Result<(), Refusal> {
        for _ in 0..count {
            let word = self.peek()?;
            match word >> 28 {
                kind::TAKE => self.variable_word(word)?,
                kind::LITERAL => self.place += 1,
                _ => return self.refuse(2),
            }
        }
        Ok(())
    }

    /// Passes a TAKE or a GIVE, whose kind is known.
    fn variable_word(&mut self, word: u32) -> Result<(), Refusal> {
        self.zero(word, 0x0fff_ffc0)?;
        self.variable_number(bits(word, 5, 0))?;
        self.place += 1;
        Ok(())
    }
}
