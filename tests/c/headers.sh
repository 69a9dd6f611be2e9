# Part of tests/c/run: the headers in C and C++, their names and texts, and what the archive needs.

echo "== headers: rooms, limits, hostile text, C++, what the archive needs"
careful=(-Wall -Wextra -Wconversion -pedantic -Werror -Iinclude)
for header in include/*.h; do gcc -x c -std=c11 "${careful[@]}" -fsyntax-only "$header"; done
for test in macros_test messages_test escape_test; do
    build "$test" "tests/c/$test.c" -- -Wconversion -pedantic "${sanitized[@]}"
    "$out/$test"
done
if command -v g++ >/dev/null; then
    cpp=(g++ "${careful[@]}" -Wold-style-cast)
    for header in include/*.h; do "${cpp[@]}" -x c++ -fsyntax-only "$header"; done
    "${cpp[@]}" -x c++ tests/c/macros_test.c -o "$out/macros_test_cpp"
    "${cpp[@]}" "${sanitized[@]}" tests/c/vector_test.cpp "$archive" -o "$out/vector_test"
    "$out/macros_test_cpp"
    "$out/vector_test"
else
    echo "no g++: the headers are not tried in C++"
fi
nm -g --defined-only "$archive" | awk 'NF == 3 { print $3 }' | sort -u >"$out/defined"
nm -u "$archive" | awk 'NF == 2 { print $2 }' | sort -u | comm -23 - "$out/defined" >"$out/needed"
diff <(printf 'masm_lines\nmasm_parse_text\n') "$out/defined" || stop "the archive defines other names than the calls"
[ -z "$(grep -vx memset "$out/needed")" ] || stop "masm_cst.h tells wrong what the archive needs"

echo "== names"
build print_names tests/c/print_names.c -- -O2
"$out/print_names" >"$out/names" || stop "masm_names.h names a number that is none"
sed -nE '/^enum masm_kind/,/^};/ s/^    MASM_([A-Z_]+) = ([0-9]+),?$/\2 \1/p' include/masm_cst.h |
    sed -E 's/([A-Z])([A-Z]*)_?/\1\L\2\E/g' | diff - "$out/names" || stop "masm_cst.h has other kinds"
syntax=${MASM_CST_SRC:-../shared/docs/src/crates/assembly-syntax-cst/src}/syntax.rs
if [ -f "$syntax" ]; then
    sed -nE '/^pub enum SyntaxKind/,/^}/ s/^    ([A-Z][A-Za-z]*)( = 0)?,$/\1/p' "$syntax" |
        awk '{ print NR - 1, $0 }' | diff - "$out/names" || stop "syntax.rs has other kinds"
else
    echo "no syntax.rs: the names are not compared with the Rust's"
fi

echo "== messages"
build print_messages tests/c/print_messages.c -- -O2
sed -nE 's/^\| ([0-9]+) \| (.*) \| `.*$/\1 \2/p' docs/MESSAGES.md >"$out/messages"
for limit in 256 64 1; do
    sed "/^49 /s/256\$/$limit/" "$out/messages" | diff - <("$out/print_messages" "$limit") ||
        stop "masm_messages.h at limit $limit and docs/MESSAGES.md differ"
done

echo "== each wrong header is found"
wrong() { # HEADER EDIT TEST: with this edit of sed the test meets a static assertion, or fails
    local status=0
    rm -rf "$out/include"
    cp -r include "$out"
    sed -i "$2" "$out/include/$1"
    ! cmp -s "include/$1" "$out/include/$1" || stop "no fault is made by $2"
    faults=$((faults + 1))
    if ! gcc -std=c11 "${sanitized[@]}" -I"$out/include" "tests/c/$3.c" -o "$out/wrong" 2>"$out/found"; then
        grep -q 'static assertion failed' "$out/found" || stop "$1 with $2 is no header"
        return
    fi
    "$out/wrong" >"$out/found" 2>&1 || status=$?
    [ "$status" = 1 ] || stop "$1 with $2 is not found"
}
for edit in 's/_NESTING 256u/_NESTING 255u/' 's/OUT_OF_RANGE = 9/OUT_OF_RANGE = 7/' \
    's/(limit) + 4)/(limit) + 3)/' 's/(limit) + 4)/(limit) + 5)/' 's/(2 \* MASM_SIZE(limit)/(MASM_SIZE(2 * limit)/' \
    's/(2 \* MASM_SIZE(limit)/(MASM_SIZE(limit) + MASM_SIZE(limit)/' 's/(limit) + 4)/(limit) + 4u/; s/(2 \* MASM/2 * MASM/' \
    's/(256 \* MASM_SIZE(limit)/(240 * MASM_SIZE(limit)/' 's/ + 16384)/ + 8192)/' \
    's/(256 \* MASM_SIZE(limit)/(MASM_SIZE(256 * limit)/'; do
    wrong masm_cst.h "$edit" macros_test
done
for edit in 's/number(texts\[number\], limit/number(texts[number], 256/' 's/, limit, text)/, (uint8_t)limit, text)/' \
    's/, limit, text)/, (uint32_t)limit, text)/' 's/, limit, text)/, limit + 1, text)/' 's/_ROOM 78u/_ROOM 77u/' 's/_ROOM 78u/_ROOM 79u/' \
    's/TOO_DEEP 49u/TOO_DEEP 48u/' "/= '\\\\0';/d" 's/digits\[20\]/digits[19]/' 's/10) > 0/10) > 9/' \
    's/<= MASM_MESSAGES ?/< MASM_MESSAGES ?/'; do
    wrong masm_messages.h "$edit" messages_test
done
for edit in 's/from 1 to 256/from 1 to 255/' '/case MASM_LIMIT_OUT_OF_RANGE/d' 's/default: return ""/default: return "x"/'; do
    wrong masm_names.h "$edit" print_names
done
