# Part of tests/c/run: the programs to start from, examples/read.c and examples/preview.c, against the outputs stored in tests/c/read and
# tests/c/preview. `STORE=yes tests/c/run` writes them anew.

echo "== read and preview"
scripts=$out/scripts
rm -rf "$scripts"
mkdir -p "$scripts/folder.masm"
cp examples/*.masm "$scripts"
printf '' >"$scripts/empty.masm"
printf 'const FEE = 10 * (2 + 3\nproc a end\n' >"$scripts/open.masm"
printf '# c\r\rconst A = "b\\\rc"\rproc d\r  $\rend\r\nbegin\r' >"$scripts/cr.masm"
printf '# c\nproc a\n  use b\nend\n' >"$scripts/use.masm"
printf '# c\nbegin \xff end\n' >"$scripts/not_utf8.masm"
printf 'begin\n"\x1b[2J`\\\t\xe2\x80\xae\n"%0300d\nend\n\xe2\x82\xac' 0 >"$scripts/hostile.masm"
printf '%1048576s' '' >"$scripts/longest.masm"
printf '%1048577s' '' >"$scripts/too_long.masm"
printf 'type A = felt\ntype B = struct {\na: felt\n}\n' >"$scripts/types.masm"
# Nodes in each other, each with its `end`: as many as preview reads, one more, and as many as read does, and one more.
for depth in 64 65 256 257; do
    printf '%s\n' begin $(yes if.true | head -n "$depth") $(yes end | head -n "$depth") end >"$scripts/deep_$depth.masm"
done

shows() { # EXAMPLE NAME WORDS...
    local example=$1 name=$2 expected=tests/c/$1/$2 status=0
    shift 2
    (cd "$scripts" && "../$example" "$@" 2>&1) >"$out/shown" || status=$?
    echo "exit status $status" >>"$out/shown"
    if [ "${STORE:-}" = yes ]; then cp "$out/shown" "$expected"; fi
    diff "$expected" "$out/shown" || stop "$example $* prints something else"
    if LC_ALL=C grep -q '[^ -~]' "$expected"; then stop "$example $* prints raw bytes"; fi
    # A report of the sanitizers or of valgrind would stand among the lines.
    (cd "$scripts" && "../${example}_sanitized" "$@" 2>&1 || true) | cmp - <(sed '$d' "$expected")
    (cd "$scripts" && "${valgrind[@]}" "../$example" "$@" 2>&1 || true) | cmp - <(sed '$d' "$expected")
}
shows_all() { # EXAMPLE FLAGS...
    local example=$1 file status=0
    shift
    gcc "${strict[@]}" "$@" "examples/$example.c" "$archive" -o "$out/$example"
    build "${example}_sanitized" "examples/$example.c" -- "$@" "${sanitized[@]}"
    for file in "$scripts"/*.masm missing.masm; do
        shows "$example" "$(basename "$file" .masm)" "$(basename "$file")"
    done
    shows "$example" usage
    "$out/$example" "$scripts/wallet.masm" >/dev/full 2>&1 || status=$?
    [ "$status" = 3 ] || stop "$example ends with $status where nothing can be written"
}
shows_all read
shows_all preview -pthread

# The stack of preview's thread: MASM_STACK(64), and PTHREAD_STACK_MIN.
seen() { # SOURCE
    gcc -std=c11 -w -pthread -Iinclude "$1" tests/c/stack_seen.c -o "$out/stack_seen"
    "$out/stack_seen" "$scripts/wallet.masm" | head -n 1
}
stack='limit 64, stack 49152'
[ "$(seen examples/preview.c)" = "$stack" ] || stop "preview reads on another stack, or at another limit"

echo "== each wrong example is found"
spoil() { # EXAMPLE EDIT: the example with this edit of sed
    sed "$2" "examples/$1.c" >"$out/wrong.c"
    ! cmp -s "examples/$1.c" "$out/wrong.c" || stop "no fault is made by $2"
    faults=$((faults + 1))
}
misprints() { # EXAMPLE NAME EDIT: something else of this script than what is stored
    local status=0
    spoil "$1" "$3"
    gcc -std=c11 -w -pthread -Iinclude "$out/wrong.c" "$archive" -o "$out/wrong"
    (cd "$scripts" && ../wrong "$2.masm" 2>&1) >"$out/shown" || status=$?
    echo "exit status $status" >>"$out/shown"
    ! cmp -s "tests/c/$1/$2" "$out/shown" || stop "$1 with $3 is not found"
}
misprints read deep_65 's/text(MASM_MAX_CONTROL_FLOW_NESTING,/text(64,/'
misprints read deep_256 's/text(MASM_MAX_CONTROL_FLOW_NESTING,/text(255,/'
misprints read wallet 's/token == 0 ? 1 : lines\[token - 1\]/token < 2 ? 1 : lines[token - 2]/'
misprints read broken 's/: counts\[2\] > 0;/: 0;/'
misprints preview deep_64 's/LIMIT 64/LIMIT 63/'
misprints preview deep_65 's/LIMIT 64/LIMIT 65/'
misprints preview deep_65 's/text(LIMIT,/text(MASM_MAX_CONTROL_FLOW_NESTING,/'
misprints preview deep_65 's/message(LIMIT,/message(MASM_MAX_CONTROL_FLOW_NESTING,/'
misprints preview open 's/ - (columns\[token - 1\] == 1)//'
misprints preview wallet 's/token == 0 ? 1 : lines\[token - 1\]/token < 2 ? 1 : lines[token - 2]/'
misprints preview wallet 's/size_t last = lines\[token - 1\]/size_t last = lines[token]/'
misprints preview wallet 's/kind = events\[i\];//'
misprints preview cr 's/masm_lines(source, length, starts,/masm_lines(source, length, ends,/'
misprints preview hostile 's/(unsigned)columns\[i\]/0u/'
misprints preview hostile 's/masm_escape(source + starts\[i\], /snprintf(token, sizeof token, "%.*s", (int)(/; s/ends\[i\] - starts\[i\], token, sizeof token)/ends[i] - starts[i]), source + starts[i])/'
misprints preview hostile 's/token\[201\]/token[101]/'
misprints preview broken 's/== MASM_UNRECOGNIZED/== 0/'
misprints preview broken 's/: counts\[2\] > 0;/: 0;/'
misprints preview use 's/return 2;/return 1;/'
for edit in 's/MASM_STACK(LIMIT)/MASM_STACK(1)/' 's/MASM_STACK(LIMIT)/MASM_STACK(256)/' 's/ + PTHREAD_STACK_MIN//' \
    's/(errno = run_thread())/read_script(NULL)/'; do
    spoil preview "$edit"
    [ "$(seen "$out/wrong.c")" != "$stack" ] || stop "preview with $edit is not found"
done
