#!/usr/bin/env bash
# The archives that build.sh made, run under qemu: test.sh [CORE...], all cores unless some are named. Each runs the C cases with every buffer before a page that
# may not be touched (guard.c), the README's examples, the example, the measure of the stack, and random gathers (random.c) that have to come out as they do from
# the archive for x86-64, which is run so too. Then the tables of docs/FIRMWARE.md are printed. GATHERS is the number of random gathers,
# for each four of which there is a random batch; SEED is their seed.
set -euo pipefail
cd "$(dirname "$0")/.."
. firmware/cores.sh
cores+='x86-64 | | | gcc | | qemu-x86_64'
out=target/firmware gathers=${GATHERS:-20000} seed=${SEED:-0}
warnings=(-std=c99 -pedantic -Wall -Wextra -Werror -O2 -Iinclude -Itarget)

fail() { # CORE WHAT
    echo "$1: FAILED: $2" >&2
    exit 1
}

# Says every tool that is missing, not just the first.
check_tools() { # CORE...
    local core tool words missing=0
    { printf '%s\n' gcc qemu-x86_64 qemu-system-arm arm-none-eabi-gcc; for core; do field "$core" 4; field "$core" 6 | sed 's/ .*//'; done; } | sort -u >"$out/tools"
    while read -r tool; do
        words=-static
        [ "$tool" != arm-none-eabi-gcc ] || words=--specs=rdimon.specs
        case $tool in
        *-gcc) printf '#include <stdio.h>\nint main(void) { return puts(""); }\n' | "$tool" $words -x c - -o "$out/tool" 2>/dev/null ;;
        *) command -v "$tool" >/dev/null ;;
        esac || { echo "missing: $tool$(case $tool in *-gcc) echo ', or its C library' ;; esac)" >&2; missing=1; }
    done <"$out/tools"
    [ "$missing" = 0 ] || { echo "test-firmware: nothing was run; 'make firmware-tools' installs what is missing" >&2; exit 1; }
}

# A program for Linux on a core, with its archive.
compiled() { # CORE WORDS...
    local core=$1 lib=$out/$1/libhoglidra.a name
    shift
    case $core in
    x86-64) lib=target/libhoglidra.a ;;
    cortex-m7*) # Linux on a core with the same instructions: by the object's attributes ld would take the whole program for a Cortex-M's.
        lib=$out/$core/for-linux.a
        for name in "${entries[@]}"; do arm-linux-gnueabi-objcopy --remove-section=.ARM.attributes "$out/$core/$name.o" "$out/$core/$name-for-linux.o"; done
        arm-linux-gnueabi-ar rcs "$lib" "$out/$core/"*-for-linux.o ;;
    esac
    # shellcheck disable=SC2046
    "$(field "$core" 4)" $(field "$core" 5) -static "${warnings[@]}" "$@" "$lib"
}

# Where the code of the archive's objects lies in a program, as words for count.c.
range() { # DIRECTORY PROGRAM
    local objects=("${entries[@]/%/.o}")
    { nm --defined-only "${objects[@]/#/$1/}" | sed -n 's/^[0-9a-f]* [tT] /have /p'; nm -S --defined-only "$2"; } | while read -r at size kind name; do
        [ "$at" != have ] || { echo "have ${size}${kind:+ $kind}${name:+ $name}"; continue; }
        case $kind in t | T) echo "$((16#$at)) $((16#$size)) $name" ;; esac
    done | awk '$1 == "have" { have[substr($0, 6)] = 1; next } { n = $0; sub(/^[0-9]+ [0-9]+ /, "", n) }
        n in have { if (!lo || $1 < lo) lo = $1; if ($1 + $2 > hi) hi = $1 + $2 } END { printf "from=%x,to=%x\n", lo - lo % 2, hi }'
}

run_core() { # CORE
    local dir=$out/$1 run accesses unaligned
    run=$(field "$1" 6)
    compiled "$1" -DNVALGRIND tests/c/cases.c firmware/guard.c -Wl,--wrap=malloc,--wrap=free -o "$dir/cases"
    compiled "$1" tests/c/readme.c -o "$dir/readme"
    compiled "$1" tests/c/stack.c -o "$dir/stack"
    compiled "$1" examples/ingredients.c -o "$dir/ingredients"
    compiled "$1" firmware/random.c -o "$dir/random"
    compiled "$1" firmware/everyday.c -o "$dir/everyday"
    # shellcheck disable=SC2086
    {
        $run -plugin "$out/count.so,$(range "$dir" "$dir/cases")" "$dir/cases" crates/vectors/data/*.txt >"$dir/cases.stdout" 2>"$dir/cases.count" ||
            { tail -n 1 "$dir/cases.stdout"; fail "$1" "the cases"; }
        $run "$dir/readme" >/dev/null || fail "$1" "the README's examples"
        $run "$dir/stack" >"$dir/stack.stdout" || { cat "$dir/stack.stdout"; fail "$1" "the stack, of which the header promises less"; }
        $run "$dir/ingredients" | diff examples/ingredients.stdout - || fail "$1" "the example"
        $run "$dir/random" "$gathers" "$seed" | cmp - "$out/random.stdout" || fail "$1" "random gathers"
    }
    read -r accesses unaligned < <(sed -n 's/.*accesses \([0-9]*\), unaligned \([0-9]*\) .*/\1 \2/p' "$dir/cases.count") || fail "$1" "no count of accesses"
    [ "$accesses" != 0 ] || fail "$1" "no access of the archive was seen"
    case $(field "$1" 2) in *armv5te* | *riscv64* | *-mno-unaligned-access*) [ "$unaligned" = 0 ] || fail "$1" "unaligned accesses: $(cat "$dir/cases.count")" ;; esac
    echo "$unaligned" >"$dir/unaligned"
    case $1 in cortex-m7*) run_board "$1" ;; esac
    echo "$1: $(awk '/cases$/ { n += $(NF - 1) } END { print n }' "$dir/cases.stdout") cases$(case $1 in cortex-m7*) echo ', also without an operating system' ;; esac)," \
        "$gathers random gathers and $((gathers / 4)) batches, README, example: passed; $(paste -sd ';' "$dir/stack.stdout" | sed 's/;/; /'); $unaligned of $accesses accesses unaligned"
}

# The cases and the example without an operating system: an emulated board with a Cortex-M7, newlib over semihosting.
run_board() { # CORE
    local m7=(-mcpu=cortex-m7 -mthumb -mfloat-abi=soft --specs=rdimon.specs '-Wl,-z,noexecstack' -T firmware/m7.ld firmware/m7.c) dir=$out/$1 words=arg=cases file
    local qemu=(timeout 300 qemu-system-arm -M mps2-an500 -nographic -monitor none -serial none)
    arm-none-eabi-gcc "${m7[@]}" "${warnings[@]}" -DNVALGRIND tests/c/cases.c "$dir/libhoglidra.a" -o "$dir/cases.elf"
    arm-none-eabi-gcc "${m7[@]}" "${warnings[@]}" examples/ingredients.c "$dir/libhoglidra.a" -o "$dir/ingredients.elf"
    for file in crates/vectors/data/*.txt; do words=$words,arg=$file; done
    "${qemu[@]}" -semihosting-config "enable=on,target=native,$words" -kernel "$dir/cases.elf" | cmp - "$dir/cases.stdout" || fail "$1" "the cases on the board"
    "${qemu[@]}" -semihosting-config enable=on,target=native -kernel "$dir/ingredients.elf" | diff examples/ingredients.stdout - || fail "$1" "the example on the board"
}

# Instructions of one call of everyday.c: two runs that differ by 100 calls.
instructions() { # PROGRAM LAYOUT NULLS EMULATOR...
    local program=$1 layout=$2 nulls=$3 few many
    shift 3
    few=$("$@" -plugin "$out/count.so" "$program" "$layout" "$nulls" 10 2>&1 | sed -n 's/^instructions //p')
    many=$("$@" -plugin "$out/count.so" "$program" "$layout" "$nulls" 110 2>&1 | sed -n 's/^instructions //p')
    echo $(((many - few) / 100))
}

# The layouts of everyday.c that stand for the kinds in the table by core, and the batch of them.
of_each_kind=('kind 1, width 4' 'kind 2' 'kind 3, rows of 12, offsets of 4' 'kind 4, rows of 3 by 4, offsets of 4' 'kind 5, 3 by 4' 'kind 6, size 12')
in_one_call='kinds 1 to 6 in one call'

stack_of() { # CORE ENTRY
    sed -n "s/^stack of $2: \([0-9]*\) .*/\1/p" "$out/$1/stack.stdout"
}

tables() { # CORE...
    local core layout name nulls run
    { "$out/x86-64/everyday" || true; } >"$out/layouts"
    for core; do
        run=$(field "$core" 6)
        while read -r layout name; do
            # shellcheck disable=SC2086
            for nulls in 0 10; do echo "$name, $([ $nulls = 0 ] && echo 'no nulls' || echo '10 % null')|$(instructions "$out/$core/everyday" "$layout" $nulls $run </dev/null)"; done
        done <"$out/layouts" >"$out/$core/counts"
    done
    echo
    echo "| core | code and constants | stack, \`take\` | stack, \`take_arrays\` | all frames | left undefined | unaligned accesses |$(printf ' %.6s |' "${of_each_kind[@]}") all in one call |"
    echo "|---|---|---|---|---|---|---|$(printf -- '---|%.0s' "${of_each_kind[@]}" "$in_one_call")"
    for core; do
        echo "| $core | $(paste -sd "+" "$out/$core/code" | sed "s/+/ + /") | $(stack_of "$core" hoglidra_take) | $(stack_of "$core" hoglidra_take_arrays) | $(cat "$out/$core/frames")" \
            "| $(sed 's/.*/`&`/' "$out/$core/undefined" | paste -sd ' ' | grep . || echo none) | $(sed 's/^0$/none/; s/^[1-9].*/yes/' "$out/$core/unaligned") |$(for name in "${of_each_kind[@]}" "$in_one_call"; do grep -F "$name, 10 % null|" "$out/$core/counts" | sed 's/.*|\(.*\)/ \1 |/'; done | tr -d '\n')"
    done
    echo
    echo "| instructions, 40 rows of 4,096 |$(printf ' %s |' "$@")"
    echo "|---|$(printf -- '---|%.0s' "$@")"
    cut -d'|' -f1 "$out/x86-64/counts" | while read -r name; do
        echo "| $name |$(for core; do grep -F "$name|" "$out/$core/counts" | sed 's/.*|\(.*\)/ \1 |/'; done | tr -d '\n')"
    done
}

mapfile -t all < <(core_names)
[ $# -gt 0 ] || set -- "${all[@]}"
[[ " $* " = *' x86-64 '* ]] || set -- "$@" x86-64
check_tools "$@"
gcc -O2 -Wall -Wextra -Werror -fPIC -shared firmware/count.c -o "$out/count.so"
compiled x86-64 firmware/random.c -o "$out/random"
"$out/random" "$gathers" "$seed" >"$out/random.stdout" || fail x86-64 "random gathers"
for core; do run_core "$core"; done
tables "$@" | tee "$out/tables.md"
echo
echo "test-firmware: passed on $*"
