//! Every spelling in every place of the grammar, trivia between all tokens, and sources cut off everywhere.

use reference::parsed::tokens;

use crate::spellings::SPELLINGS;

/// A place is marked by `%`.
const PLACES: [&str; 101] = [
    "begin while. % end end", "begin repeat. % end end", "const A = % proc a end",
    "begin\n#!d\n% proc", "begin a.1%", "@a((%))", "namespace::%", "begin do %",
    "begin a(\n%)b end", "%", "% a", "%a", "a\n%", "begin a % b end", "begin a% b end",
    "begin a %b end", "begin a%b end", "begin a\n% b end", "begin a\n%", "begin % b end",
    "begin %", "begin a.%", "begin a. % b end", "begin a.%b end", "begin a(% b) end",
    "begin a( % b end", "begin a(%", "begin a % % b end", "begin a(b) % c end",
    "begin a #c\n% b end", "begin\n#!d\n%", "begin\n#!d\n% a end", "begin if % end end",
    "begin if% end end", "begin if.% end end", "begin if. % end end", "begin if.a% end end",
    "begin if.a % end end", "begin if.a\n% end end", "begin if.a else % end end",
    "begin if.a else% end end", "begin if.a else % else end end", "begin if.a % else",
    "begin if.[% ] end end", "begin while % end end", "begin while.a% end end", "begin while.%",
    "begin do % while end end", "begin do% while a end end", "begin do a % end end",
    "begin do while % end end", "begin do while% end end", "begin do a while.% end",
    "begin repeat % end end", "begin repeat.% end end", "begin repeat.1% end end", "begin repeat%",
    "begin a end %", "begin a end%b", "const % = 1", "const A % 1", "const A = %",
    "const A = %\nb", "const A = 1 %", "const A = 1% b", "const A = (% 1)\nb",
    "const A = ( 1 %\n)", "const A = 1\n%", "const %", "pub % A = 1", "pub(%) const A = 1",
    "pub % proc a end", "pub (%)proc a end", "pub ( package % proc a end",
    "pub( % package ) proc a end", "begin a pub % a", "begin a pub ( % ) proc b end",
    "const A = 1 pub % b", "type % = a", "type T % a", "type T = % a", "type T = a\n%",
    "type T = a\n% b", "type T = (a\n%\n)\nb", "enum E : % {\n}", "adv_map % = 1",
    "adv_map A% = 1", "adv_map A(%) = 1", "adv_map A % 1", "namespace %", "namespace a%",
    "namespace a::%", "namespace a % b", "mod %", "mod a% b", "@% proc a end", "@a% proc b end",
    "@a(%) proc b end", "@a % b", "proc % end", "proc a% b end",
];

/// The same behind a procedure's name, in and behind its signature.
const SIGNATURES: [&str; 10] = [
    "proc a % end", "proc a(%) end", "proc a() % end", "proc a()%->b\nend", "proc a()->% b\nend",
    "proc a() -> %\nb end", "proc a() -> b % c\nend", "proc a() -> (%)\nend",
    "proc a() -> b(%\n)\nend", "pub proc a\n% end",
];

/// Sources in whose tokens every form of the grammar occurs.
const FORMS: [&str; 16] = [
    "namespace a::b\nmod c",
    "pub mod a #c\n",
    "pub ( package ) const A = ( 1 + 2 ) #c\nproc a end",
    "const A = 1 proc a end",
    "type T = a\nconst A = 1",
    "pub enum E : u8 { A, B }\n#!d\nproc a end",
    "adv_map A ( 1 ) = [ 2 ]\nbegin end",
    "#!d\n@a ( b ) @c pub proc d ( e ) -> f #c\n g end",
    "proc a ( b ) -> ( c ) d end",
    "pub ( x ) proc a\nb end",
    "begin a . b ( c , d ) = e [ f ] end\n",
    "begin if . a b else c end end",
    "begin while . [ a ] b end end",
    "begin do a while b end repeat . 1 c end end",
    "proc a if . b else else end end",
    "begin a #c\n#!d\nb end\n#!e\nbegin end",
];

/// What is put between two tokens.
const TRIVIA: [&str; 8] = ["", " ", "\n", "#c\n", "#!d\n", " #c\n", "\n#!d\n", " \n "];

pub fn all() -> impl Iterator<Item = Vec<u8>> {
    filled().chain(between()).map(String::into_bytes)
}

/// The places filled with every spelling, and with nothing.
fn filled() -> impl Iterator<Item = String> {
    PLACES.iter().chain(&SIGNATURES).flat_map(|place| {
        let spellings = ["", " ", "#c\n", "#!d\n", "end\n"].into_iter().chain(SPELLINGS);
        spellings.map(|spelling| place.replace('%', spelling))
    })
}

/// The forms with other trivia between two of their tokens, and cut off there.
fn between() -> impl Iterator<Item = String> {
    FORMS.iter().flat_map(|form| {
        let ends = tokens(form).into_iter().map(|token| token.end as usize);
        [0].into_iter().chain(ends).flat_map(move |at| {
            let (before, behind) = form.split_at(at);
            let (bare_before, bare_behind) = (before.trim_end(), behind.trim_start());
            TRIVIA.into_iter().flat_map(move |trivia| {
                [
                    [before, trivia, behind].concat(),
                    [bare_before, trivia, bare_behind].concat(),
                    [before, trivia].concat(),
                    [bare_before, trivia].concat(),
                ]
            })
        })
    })
}
