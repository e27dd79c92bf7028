#!/usr/bin/env bash
# The archive for the cores of cores.sh, with the kit and binutils alone.
#   build.sh modules   target/firmware/NAME.ll for each entry: the LLVM module that `rt lib` makes on its way to the archive for x86-64, as text
#   build.sh [CORE...] target/firmware/CORE/libhoglidra.a: the kit's clang over those texts, with their target's three lines changed; all cores if none is named
# EXTRA has further words for clang, as -mfloat-abi=hard -mfpu=fpv5-d16; ALLOW has further symbols that may stay undefined.
set -euo pipefail
cd "$(dirname "$0")/.."
. firmware/cores.sh
out=target/firmware shipped=target/libhoglidra.a
kit=$(dirname "$(dirname "$(readlink -f "$(command -v rt)")")")
bin=toolchain/bin

fail() {
    echo "firmware: $*" >&2
    exit 1
}

# Has rt build the entries' static libraries once more, over a kit that is the kit link by link but for its clang: that keeps the module and the words it is
# given, and then is the kit's. What comes out has to be what is there, byte for byte, which is put back, as old as it was.
keep_modules() {
    local name made
    rm -rf "$out" && mkdir -p "$out/kit"
    cp -as "$kit/bin" "$kit/toolchain" "$out/kit"
    for made in "$kit"/*; do [ -e "$out/kit/${made##*/}" ] || ln -s "$made" "$out/kit"; done
    # rt finds its kit by where these two lie
    rm "$out/kit/bin/rt" "$out/kit/bin/rtlib.py" "$out/kit/$bin/clang" && cp "$kit/bin/rt" "$kit/bin/rtlib.py" "$out/kit/bin"
    cat >"$out/kit/$bin/clang" <<END
#!/bin/sh
for word; do case \$word in *.bc) cp "\$word" "$PWD/$out/module.bc" ;; esac; done
printf '%s\n' "\$@" >"$PWD/$out/words"
exec "$kit/$bin/clang" "\$@"
END
    chmod +x "$out/kit/$bin/clang"
    for name in "${entries[@]}"; do
        made=crates/${name}_c/out/lib${name}_c.a
        # rt ci sets it aside
        [ -e "$made" ] || (cd "crates/${name}_c" && rt lib) >"$out/rt.log" 2>&1 || { cat "$out/rt.log"; fail "rt lib failed"; }
        cp -p "$made" "$out/made.a"
        rm -f "$out/module.bc"
        (cd "crates/${name}_c" && "$OLDPWD/$out/kit/bin/rt" lib) >"$out/rt.log" 2>&1 || { cat "$out/rt.log"; fail "rt lib failed"; }
        cmp "$made" "$out/made.a" || fail "$name comes out otherwise than it was"
        mv "$out/made.a" "$made"
        "$kit/$bin/clang" --no-default-config -x ir -S -emit-llvm -O0 -Xclang -disable-llvm-passes "$out/module.bc" -o "$out/$name.ll"
    done
    rm -rf "$out/kit" "$out/module.bc"
}

# Compiles as rattle had it done, but for the files and the words that are given.
compile() { # MODULE OBJECT WORDS...
    local from=$1 to=$2 words
    shift 2
    mapfile -t words < <(sed -e '/^--target=/d' -e '/^-march=/d' -e '/^--sysroot=/d' -e "s|^module\.bc$|$from|" -e "s|^module\.o$|$to|" "$out/words")
    "$kit/$bin/clang" "$@" "${words[@]}"
}

# Writes what the objects are, a file each: code (with constants) of each entry and variables in bytes, the bytes of all frames, what is left undefined. Frames
# have a fixed size.
measure() { # DIRECTORY
    local name objects=("${entries[@]/%/.o}") frames=("${entries[@]/%/.su}")
    for name in "${entries[@]}"; do size -A "$1/$name.o" | awk '/^\.(text|rodata)/ { n += $2 } END { print n + 0 }'; done >"$1/code"
    size -A "${objects[@]/#/$1/}" | awk '/^\.(data|bss)/ { n += $2 } END { print n + 0 }' >"$1/variables"
    awk -F'\t' '$3 != "static" { exit 1 } { n += $2 } END { print n + 0 }' "${frames[@]/#/$1/}" >"$1/frames" || fail "$1: a frame without a fixed size"
    nm -u "${objects[@]/#/$1/}" | sed -n 's/^ *U //p' | sort -u >"$1/undefined"
}

# The text is the module: compiled for x86-64 it gives the object in the archive, byte for byte.
check_same() {
    local dir=$out/x86-64 name
    mkdir -p "$dir"
    for name in "${entries[@]}"; do
        # shellcheck disable=SC2046
        compile "$out/$name.ll" "$dir/$name.o" -fstack-usage $(grep -e '^--target=' -e '^-march=' "$out/words")
        "$kit/$bin/llvm-ar" p "$shipped" "$name.o" | cmp - "$dir/$name.o" || fail "the module's text gives another object than the archive has"
    done
    measure "$dir"
}

# Everything that functions of the module are made of means the same on every core: integers to 64 bits, addresses that are no numbers, branches, calls, pairs
# of these as results. So no vector, no float, no variable, no code of a processor. Prints what else there is; nothing, if the module is portable.
unportable() { # MODULE
    local same=(add align alloca and br call define eq extractvalue false getelementptr i1 i8 i16 i32 i64 icmp inbounds internal label load lshr mul ne noundef null nuw or ptr
        ret sext shl store sub switch to true trunc udiv ule ult unreachable urem void x xor zeroext zext)
    sed -n '/^define /,/^}/p' "$1" | sed -e 's/;.*//' -e 's/[@%]"[^"]*"//g' -e 's/[@%!][A-Za-z0-9_.]*//g' -e 's/^[a-z]*\(\.[0-9]*\)\{0,1\}:.*//' |
        grep -oE '[A-Za-z_][A-Za-z0-9_]*|[^][A-Za-z0-9_ #(),.:={}-]' | sort -u | grep -vxF "$(printf '%s\n' "${same[@]}")" || true
    # of constants only one without bytes
    grep -E '^@' "$1" | grep -vE '^@static\.[0-9]+ = private unnamed_addr constant \[0 x i8\] zeroinitializer, align 1$' || true
    grep -E '^declare ' "$1" | grep -vE '@llvm\.(memmove\.p0\.p0\.i64|memset\.p0\.i64|ctpop\.i(32|64)|cttz\.i(32|64)|trap)\(' || true
    grep -E '^define ' "$1" | grep -v '^define internal ' | sed 's/ %[a-z0-9]*//g' | grep -vE '^define noundef i64 @[a-z_]+\(((i64|ptr) noundef(, )?)*\) #0 \{$' || true
    # a cycle of calls, which would leave the stack without a bound
    awk '/^define /{ match($0, /@("[^"]*"|[A-Za-z0-9_.]+)/); f = substr($0, RSTART + 1, RLENGTH - 1); gsub(/[" ]/, "", f) }
        / call /{ s = $0; sub(/.* call [^@]*@/, "", s); sub(/^"/, "", s); sub(/["(].*/, "", s); print f, s; if (f == s) print f, f "+\n" f "+", f }' "$1" | { tsort >/dev/null; } 2>&1 || true
}

# ... and it is seen if it does not: a line of each sort, put into the first function, is objected to; one calls that function.
check_portable() { # NAME
    local line found first
    found=$(unportable "$out/$1.ll")
    [ -z "$found" ] || fail "the module has what may mean something else on another core (if it does not, add it to 'same'):" "$found"
    first=$(sed -n '/^define /{s/^[^@]*@\("[^"]*"\|[A-Za-z0-9_.]*\)(.*/\1/p;q}' "$out/$1.ll")
    while read -r line; do
        line=${line/FIRST/$first}
        awk -v line="$line" '{ print } /^start:/ && !done { print line; done = 1 }' "$out/$1.ll" >"$out/unportable.ll"
        [ -n "$(unportable "$out/unportable.ll")" ] || fail "this was not objected to: $line"
    done <<'END'
@n = internal global i64 0
%n = ptrtoint ptr %a to i64
%p = inttoptr i64 %n to ptr
%v = load <4 x i32>, ptr %a, align 1
%f = uitofp i64 %n to double
%w = zext i64 %n to i128
%s = load i64, ptr addrspace(1) %a, align 8
%t = load volatile i64, ptr %a, align 8
call void asm sideeffect "nop", ""()
%r = call i8 @FIRST(i64 0)
END
    rm -f "$out/unportable.ll"
}

archive() { # CORE
    local dir=$out/$1 words target undefined name
    words="$(field "$1" 2) ${EXTRA:-}"
    rm -rf "$dir" && mkdir -p "$dir"
    # what clang itself says of the target takes the place of what the module says of x86-64; the attributes of that processor go, and from the functions that are
    # not put in line (#1) too: nothing whose processor is another would be put into them
    # shellcheck disable=SC2086
    target=$(echo 'void f(void) {}' | "$kit/$bin/clang" --no-default-config $words -x c -S -emit-llvm -O0 - -o - | grep '^target ')
    for name in "${entries[@]}"; do
        awk -v target="$target" '/^target datalayout = / { print target; n++; next } /^target triple = / { n++; next }
            /^attributes #[01] = / { n += sub(/ "target-cpu"="x86-64-v2"/, ""); n += sub(/ "probe-stack"="inline-asm" "stack-probe-size"="3072"/, "") } { print } END { exit n != 6 }' \
            "$out/$name.ll" >"$dir/$name.ll" || fail "the module names its target in another way than is known here"
        # shellcheck disable=SC2086
        compile "$dir/$name.ll" "$dir/$name.o" -fstack-usage -mllvm -max-store-memset=64 $words
    done
    (cd "$dir" && "$kit/$bin/llvm-ar" rcsD --format=gnu libhoglidra.a "${entries[@]/%/.o}")
    measure "$dir"
    undefined=$(grep -vxF -e "$(tr ' ' '\n' <<<"$(field "$1" 3) ${ALLOW:-}")" "$dir/undefined") && fail "$1: undefined, and not allowed there: $undefined"
    [ "$(cat "$dir/variables")" = 0 ] || fail "$1: it has variables"
    echo "$1: $(paste -sd '+' "$dir/code" | sed 's/+/ + /') bytes of code and constants, $(cat "$dir/frames") bytes in all frames, left undefined: $(paste -sd ' ' "$dir/undefined" | grep . || echo nothing)"
}

if [ "${1:-}" = modules ]; then
    keep_modules
    check_same
    for name in "${entries[@]}"; do
        check_portable "$name"
        echo "$name: $(grep -c '^define' "$out/$name.ll") functions, portable; its text compiled for x86-64 is the object of the archive"
    done
    exit
fi
mapfile -t all < <(core_names)
[ $# -gt 0 ] || set -- "${all[@]}"
for core; do archive "$core"; done
