# shellcheck shell=bash
# The cores, a line each, and a reader of a field; for build.sh and test.sh.
#   core | words for the kit's clang | what the archive may leave undefined | C compiler of the tests | its words | emulator
# "-aligned" is for memory in which an unaligned access faults, as a Cortex-M7's external memory that no MPU region makes normal.
# The entries: each has a module, and an object of the archive, of its own, so that the stages of one are inlined into it and not shared with the other.
# shellcheck disable=SC2034
entries=(hoglidra hoglidra_arrays)
cores='
aarch64           | --target=aarch64-linux-gnu -mcpu=cortex-a53                                         |                               | aarch64-linux-gnu-gcc   | -mcpu=cortex-a53               | qemu-aarch64 -cpu cortex-a53
armv7             | --target=armv7a-linux-gnueabihf -mfpu=vfpv3-d16                                     |                               | arm-linux-gnueabihf-gcc | -march=armv7-a -mfpu=vfpv3-d16 | qemu-arm -cpu cortex-a7
armv5te           | --target=armv5te-linux-gnueabi -mcpu=arm926ej-s -mfloat-abi=soft                    |                               | arm-linux-gnueabi-gcc   | -mcpu=arm926ej-s               | qemu-arm -cpu arm926
cortex-m7         | --target=thumbv7em-none-eabi -mcpu=cortex-m7 -mfloat-abi=soft                       |                               | arm-linux-gnueabi-gcc   |                                | qemu-arm -cpu cortex-a7
cortex-m7-aligned | --target=thumbv7em-none-eabi -mcpu=cortex-m7 -mfloat-abi=soft -mno-unaligned-access |                               | arm-linux-gnueabi-gcc   |                                | qemu-arm -cpu cortex-a7
riscv64           | --target=riscv64-linux-gnu -march=rv64gc -mabi=lp64d                                |                               | riscv64-linux-gnu-gcc   |                                | qemu-riscv64
'

core_names() {
    awk -F'|' 'NF > 1 { gsub(/ /, "", $1); print $1 }' <<<"$cores"
}

field() { # CORE NUMBER
    awk -F'|' -v core="$1" -v n="$2" '{ name = $1; gsub(/ /, "", name) } name == core { gsub(/^ +| +$/, "", $n); print $n; found = 1 } END { exit !found }' <<<"$cores" ||
        { echo "no core '$1'; there are: $(core_names | tr '\n' ' ')" >&2; return 1; }
}
