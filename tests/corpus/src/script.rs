//! Scripts that look like real Miden Assembly, from one item to a whole file.

use crate::random::Random;

const NAMES: [&str; 14] = [
    "add", "balance", "check_sig", "account_id", "note_script", "u64_mul", "x", "tx_hash",
    "store_word", "\"quoted-name\"", "$kernel", "a1_b2", "verify", "_tmp",
];
const TYPES: [&str; 8] =
    ["felt", "u32", "word", "i64", "ptr<u8, addrspace(felt)>", "[u8; 4]", "Point", "ptr<felt>"];
const INSTRUCTIONS: [&str; 30] = [
    "add", "sub.1", "mul", "push.1.2.3", "push.0x01ff", "push.[1,2,3,4]", "dup.3", "swap", "drop",
    "movup.4", "movdn.12", "mem_load.100", "mem_storew_be", "loc_store.0", "adv_push.4", "hperm",
    "assert.err=\"not equal\"", "assertz.err=ERR_CODE", "u32wrapping_add", "exec.::std::math::add",
    "exec.foo", "call.0x1234abcd", "syscall.kernel_proc", "emit.event(\"miden::note\")", "eq.0",
    "push.ADDRESS", "procref.bar", "debug.stack.8", "trace.1", "cdrop",
];
const COMMENTS: [&str; 6] = [
    "# => [value, ptr, ...]", "# TODO: check the range", "#", "# stack: [a, b]", "# naïve — ÷ λ",
    "#todo!",
];
const DOCS: [&str; 4] =
    ["#! Adds two words.", "#! Inputs:  [a, b]", "#!", "#! Panics if: the note is spent «»."];
const VALUES: [&str; 9] = [
    "1", "0xff", "0b101", "A + 1", "(A * 2) // 3", "word(\"miden::slot\")", "event(\"x\")",
    "[1, 2, 3, 4]", "\"text with spaces\"",
];

/// Deepest nesting of control flow that a script is given.
const DEEPEST: usize = 6;

/// A script of about `size` bytes, and not longer than that by more than one item.
pub fn script(random: &mut Random, size: usize) -> String {
    let mut script = Script { random, text: String::new() };
    if script.random.one_in(3) {
        script.line(0, "namespace miden::account::wallet");
    }
    while script.text.len() < size {
        script.item();
    }
    script.text
}

struct Script<'r> {
    random: &'r mut Random,
    text: String,
}

impl Script<'_> {
    fn name(&mut self) -> &'static str {
        self.random.pick(&NAMES)
    }

    /// Writes one line; now and then a comment or a blank line follows.
    fn line(&mut self, indent: usize, line: &str) {
        self.text.extend(std::iter::repeat_n("    ", indent));
        self.text += line;
        if self.random.one_in(8) {
            self.text.push(' ');
            self.text += self.random.pick(&COMMENTS);
        }
        self.text += if self.random.one_in(40) { "\r\n" } else { "\n" };
        if self.random.one_in(12) {
            self.text.push('\n');
        }
    }

    fn item(&mut self) {
        if self.random.one_in(3) {
            self.comment();
        }
        match self.random.below(10) {
            0 => self.constant(),
            1 => self.type_alias(),
            2 => self.enumeration(),
            3 => self.advice_map(),
            4 => self.submodule(),
            5 => self.begin(),
            _ => self.procedure(),
        }
    }

    fn comment(&mut self) {
        let list: &[&str] = if self.random.one_in(2) { &DOCS } else { &COMMENTS };
        for _ in 0..self.random.between(1, 4) {
            let comment = self.random.pick(list);
            self.line(0, comment);
        }
    }

    fn visibility(&mut self) -> &'static str {
        self.random.pick(&["", "pub ", "pub(package) "])
    }

    fn constant(&mut self) {
        let line =
            format!("{}const {} = {}", self.visibility(), self.name(), self.random.pick(&VALUES));
        self.line(0, &line);
    }

    fn type_alias(&mut self) {
        let head = format!("{}type {} = ", self.visibility(), self.name());
        if self.random.one_in(2) {
            let line = head + self.random.pick(&TYPES);
            return self.line(0, &line);
        }
        self.line(0, &(head + "struct {"));
        for _ in 0..self.random.between(1, 4) {
            let field = format!("{}: {},", self.name(), self.random.pick(&TYPES));
            self.line(1, &field);
        }
        self.line(0, "}");
    }

    fn enumeration(&mut self) {
        let head = format!("{}enum {} : u8 {{", self.visibility(), self.name());
        self.line(0, &head);
        for number in 0..self.random.between(1, 4) {
            let variant = format!("{} = {number},", self.name());
            self.line(1, &variant);
        }
        self.line(0, "}");
    }

    fn advice_map(&mut self) {
        let key = self.random.pick(&["", "(0x0001)", "(0x20a1f0)"]);
        let line = format!("adv_map {}{key} = [1, 2, 3, 4]", self.name());
        self.line(0, &line);
    }

    fn submodule(&mut self) {
        let line = format!("{}mod {}", self.visibility(), self.name());
        self.line(0, &line);
    }

    fn begin(&mut self) {
        self.line(0, "begin");
        self.block(1);
        self.line(0, "end");
    }

    fn procedure(&mut self) {
        let attributes = ["@locals(4)", "@callconv(\"C\")", "@note_script", "@storage(a = 1)"];
        for _ in 0..self.random.below(3) {
            let attribute = self.random.pick(&attributes);
            self.line(0, attribute);
        }
        let mut head = format!("{}proc {}", self.visibility(), self.name());
        if self.random.one_in(2) {
            head += &self.signature();
        }
        self.line(0, &head);
        self.block(1);
        self.line(0, "end");
    }

    fn signature(&mut self) -> String {
        let parameters: Vec<String> = (0..self.random.below(4))
            .map(|_| format!("{}: {}", self.name(), self.random.pick(&TYPES)))
            .collect();
        let result = self.random.pick(&["", " -> felt", " -> (felt, word)", " -> ptr<u8>"]);
        format!("({}){result}", parameters.join(", "))
    }

    fn block(&mut self, indent: usize) {
        for _ in 0..self.random.between(1, 7) {
            match self.random.below(12) {
                0 if indent < DEEPEST => self.control_flow(indent),
                1 => {
                    let comment = self.random.pick(&COMMENTS);
                    self.line(indent, comment);
                },
                _ => self.instructions(indent),
            }
        }
    }

    fn instructions(&mut self, indent: usize) {
        let count = self.random.between(1, 4);
        let words: Vec<&str> = (0..count).map(|_| self.random.pick(&INSTRUCTIONS)).collect();
        self.line(indent, &words.join(" "));
    }

    fn control_flow(&mut self, indent: usize) {
        let heads = ["if.true", "if.eq", "while.true", "repeat.5", "repeat.COUNT", "do"];
        let head = self.random.pick(&heads);
        self.line(indent, head);
        self.block(indent + 1);
        let middle = match head {
            "do" => "while",
            "if.true" if self.random.one_in(2) => "else",
            _ => "",
        };
        if !middle.is_empty() {
            self.line(indent, middle);
            self.block(indent + 1);
        }
        self.line(indent, "end");
    }
}
