//! Control forms nested as deep as a limit allows and deeper: alike and mixed, side by side, and where a word opens a form or ends one.

use crate::random::Random;

/// What opens a form up to the place of the next in it, and what closes it behind that.
type Form = (&'static str, &'static str);

/// The next stands in the first or the second block of an `if`, in the body or the condition of a `do`, or in a loop.
const FORMS: [Form; 8] = [
    ("if ", "end "),
    ("if.true ", "else add end\n"),
    ("if.x else ", "end "),
    ("while.true\n", "end "),
    ("do ", "while end "),
    ("do\nwhile ", "end "),
    ("do add\nwhile add ", "end\n"),
    ("repeat.3 ", "end "),
];

/// How many mixtures there are of each depth.
const MIXTURES: usize = 8;

/// In the place of the last form that is allowed, and in that of one more.
const LAST: [&str; 14] = [
    "do while.a",
    "do while .a",
    "do while",
    "do\nwhile\n.a end",
    "do while.a end end",
    "do while .a end end",
    "do while a end end",
    "do add while.x end while end end",
    "do while while.a end end end",
    "if.x else if.y end end end",
    "if.x if.y end else end end",
    "if end if end while end do while end repeat end end",
    "repeat end do while end do end if end",
    "else while.a end",
];

/// The sources for a limit.
pub fn all(limit: usize) -> impl Iterator<Item = Vec<u8>> {
    let nested = (limit..=limit + 2).flat_map(|depth| alike(depth).chain(mixed(depth)));
    let lasts = [limit - 1, limit].into_iter().flat_map(last);
    nested.flat_map(standing).chain(beside(limit)).chain(lasts).map(String::into_bytes)
}

/// Each form in itself.
fn alike(depth: usize) -> impl Iterator<Item = Vec<Form>> {
    FORMS.into_iter().map(move |form| vec![form; depth])
}

/// Any form in any other.
fn mixed(depth: usize) -> impl Iterator<Item = Vec<Form>> {
    let mut random = Random::new(depth as u64);
    (0..MIXTURES).map(move |_| (0..depth).map(|_| random.pick(&FORMS)).collect())
}

/// All forms in turn, one in the other and closed.
pub fn nest(depth: usize) -> String {
    let forms: Vec<Form> = FORMS.into_iter().cycle().skip(depth).take(depth).collect();
    let [opened, closed] = ends(&forms);
    format!("{opened}add {closed}")
}

/// What opens the forms and what closes them.
fn ends(forms: &[Form]) -> [String; 2] {
    let opened = forms.iter().map(|(open, _)| *open).collect();
    let closed = forms.iter().rev().map(|(_, close)| *close).collect();
    [opened, closed]
}

/// Closed, left open and half closed, in both owners, with text behind.
fn standing(forms: Vec<Form>) -> [String; 6] {
    let [opened, closed] = ends(&forms);
    let [_, half] = ends(&forms[forms.len().div_ceil(2)..]);
    [
        format!("begin {opened}add {closed}end\n"),
        format!("proc a {opened}{closed}end\nproc b if add end end\nbegin exec.a end\n"),
        format!("begin {opened}"),
        format!("proc a\n{opened}add # c\n#! d\nproc b )\nend\n"),
        format!("begin {opened}else end while.a end end"),
        format!("pub proc a {opened}{half}\nconst X = ( é\nbegin if end $x"),
    ]
}

/// Blocks side by side, of which one may be too deep: in one item, in two, in the parts of a form.
fn beside(limit: usize) -> [String; 12] {
    let nested = |depth: usize| format!("{}add {}", "if ".repeat(depth), "end ".repeat(depth));
    let [less, deep, deeper] = [limit - 1, limit, limit + 1].map(nested);
    [
        format!("begin {deep}{deep}{deep}end\n"),
        format!("begin {deep}repeat.2 end {deeper}{deep}end\nproc b end"),
        format!("proc a {deep}end\nproc b {deeper}end\nbegin {deep}end\n"),
        format!("proc a {deep}end\nproc b {deep}end\nbegin {deep}end\n"),
        format!("proc a {deeper}end\nproc b {deeper}end\n"),
        format!("begin if.x {less}else {deep}end end\n"),
        format!("begin if.x {deep}else add end end\n"),
        format!("begin if.x {less}else {less}end {deep}end\n"),
        format!("begin do {less}while {deep}end end\n"),
        format!("begin do {deep}while add end end\n"),
        format!("begin while.x {deep}end end\n"),
        format!("@a pub proc a {deep}end\n#! d\nbegin repeat.4 {deep}"),
    ]
}

/// So many open forms, then each of the last ones.
fn last(depth: usize) -> impl Iterator<Item = String> {
    LAST.iter().flat_map(move |last| {
        ["if ", "do "].map(|open| {
            let closed = if open == "if " { "end " } else { "while end " };
            format!("begin {}{last} {}end\n", open.repeat(depth), closed.repeat(depth))
        })
    })
}

/// Five sources: all forms just deep enough and closed, one form too deep and left open, a second procedure, an `else` and a
/// `while` that are too deep.
pub fn few(limit: usize) -> impl Iterator<Item = Vec<u8>> {
    let closed = format!("begin {}end\n", nest(limit));
    let [.., open, _, _, _] = standing(vec![FORMS[4]; limit + 1]);
    let [_, _, second, _, _, otherwise, ..] = beside(limit);
    let loops = format!("begin {}do while.a", "repeat.2 ".repeat(limit - 1));
    [closed, open, second, otherwise, loops].into_iter().map(String::into_bytes)
}

#[cfg(test)]
mod tests {
    use super::*;
    use reference::{LIMITS, messages::DEPTH, parsed};

    /// Each form is one level: as deep as a limit allows nothing is wrong, and one deeper that alone.
    #[test]
    fn closed_forms_are_as_deep_as_they_say() {
        for (limit, more) in LIMITS.into_iter().flat_map(|limit| [(limit, 0), (limit, 1)]) {
            let depth = limit as usize + more;
            for forms in alike(depth).chain(mixed(depth)) {
                let [closed, ..] = standing(forms);
                let found = parsed(limit, &closed).diagnostics;
                let messages: Vec<u16> = found.iter().map(|found| found.message).collect();
                assert_eq!(messages, vec![DEPTH; more], "limit {limit}: {closed}");
            }
        }
    }
}
