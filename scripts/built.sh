# Read by ./build, ./install, ./test and the scripts beside this one, which set root: what is built, and of which sources.
#
# Sources are all that says what is built and what is promised of it: code and contracts (src), definitions (specs), the list of crates, HANDLES,
# and for the library bpf.h. Proofs (proofs) aren't: they decide whether something is built, and change neither what it does nor what is said of it.
#
# Beside each file that is built stands SOURCES: the line of the kit that made it, a sum of its sources, and sums of the files. No time is asked for.

built_command=crates/bpf/out/bpf
built_library=crates/bpf_host/out/host/libbpf_host.a

# The greatest version of glibc that the command asks for.
wanted_glibc=2.34

# fails WORDS: says why and ends, with the command's status for what can't be read or written. says_it is who says so.
fails() {
    echo "${says_it:-${0##*/}}: $1" >&2
    exit 3
}

# wants_kit WHAT: sets kit to the folder of the Rattle kit, or ends where there is none.
wants_kit() {
    command -v rt >/dev/null || fails "$1 the Rattle kit is wanted, and its command rt isn't in the PATH"
    kit=$(dirname "$(dirname "$(readlink -f "$(command -v rt)")")")
}

# kit_tool NAME WORD..: runs a tool of the kit's LLVM, whose one program goes by the name that it is called by.
kit_tool() (
    name=$1
    shift
    exec -a "$name" "$kit/toolchain/bin/clang" "$@"
)

# crates_of CRATE..: sets crates to the folders of these and of those that they stand on. crates.txt has each behind those that it uses.
crates_of() {
    local lines line name i
    local -A used
    for name in "$@"; do used[$name]=1; done
    mapfile -t lines <"$root/crates.txt"
    crates=()
    for ((i = ${#lines[@]} - 1; i >= 0; i--)); do
        line=${lines[i]%%#*}
        name=${line%%[: ]*}
        [ -n "$name" ] && [ -n "${used[$name]-}" ] || continue
        crates+=("$root/crates/$name")
        for name in ${line#*:}; do used[$name]=1; done
    done
}

# sum_of CRATE..: the sum of all sources of these crates and of those that they stand on.
sum_of() (
    crates_of "$@"
    cd "$root" || exit
    from=(crates.txt HANDLES)
    [[ " $* " != *" bpf_host "* ]] || from+=(include/bpf.h)
    for crate in "${crates[@]#"$root"/}"; do
        for folder in "$crate/src" "$crate/specs"; do
            [ ! -d "$folder" ] || from+=("$folder")
        done
    done
    find "${from[@]}" -type f '(' -name '*.rt' -o -name '*.antt' -o ! -path 'crates/*' ')' -print0 |
        LC_ALL=C sort -z | xargs -0 sha256sum | sha256sum | cut -d ' ' -f 1
)

# notes FILE CRATE..: writes SOURCES beside a file that was built of these crates' sources, as they are.
notes() {
    local folder=${1%/*} sum
    sum=$(sum_of "${@:2}")
    (cd "$folder" && { rt version && echo "$sum  the sources" && sha256sum "${1##*/}"; } >SOURCES.new && mv SOURCES.new SOURCES)
}

# is_named FILE: whether SOURCES beside a file names it, and each file that it names is as it says.
is_named() (
    cd "${1%/*}" || exit
    tail -n +3 SOURCES | grep -q "  ${1##*/}\$" && tail -n +3 SOURCES | sha256sum --check --status
)

# is_of FILE CRATE..: whether SOURCES beside a file is of these crates' sources, and names it.
is_of() {
    local sum
    [ -f "$1" ] && { read -r _ && read -r sum _; } 2>/dev/null <"${1%/*}/SOURCES" && [ "$sum" = "$(sum_of "${@:2}")" ] && is_named "$1"
}

# Ends where what is prebuilt can't run on this machine, and says why.
wants_machine() {
    local flags word lacks= glibc
    flags=$(grep -m 1 '^flags' /proc/cpuinfo) || fails "prebuilt/ is for x86-64, and this machine has another processor"
    for word in cx16 lahf_lm popcnt pni sse4_1 sse4_2 ssse3; do
        [[ " $flags " == *" $word "* ]] || lacks+=" $word"
    done
    [ -z "$lacks" ] || fails "what is built wants a processor of x86-64-v2, and this one lacks$lacks"
    [ -e /lib64/ld-linux-x86-64.so.2 ] || fails "prebuilt/ is for Linux with glibc, and /lib64/ld-linux-x86-64.so.2 isn't there"
    # `glibc 2.36`; where getconf isn't there, the last word of the loader's own first line.
    glibc=$(getconf GNU_LIBC_VERSION 2>/dev/null || ldd --version 2>/dev/null) || return 0
    glibc=${glibc%%$'\n'*}
    glibc=${glibc##* }
    [[ "$glibc" =~ ^[0-9]+\.[0-9]+$ ]] || return 0
    ((${glibc%.*} * 1000 + ${glibc#*.} >= ${wanted_glibc%.*} * 1000 + ${wanted_glibc#*.})) ||
        fails "what is built wants glibc $wanted_glibc or later, and this machine has $glibc"
}

# finds BUILT CRATE PREBUILT: sets found to what ./build made of these sources, or else to what prebuilt/ has of them; ends where neither is there.
finds() {
    local built=$root/$1 kept=$root/prebuilt/$3 why="$3 isn't built"
    if is_of "$built" "$2"; then
        found=$built
    elif is_of "$kept" bpf bpf_host; then
        wants_machine
        found=$kept
    else
        [ ! -e "$built" ] && [ ! -e "$root/prebuilt" ] || why="the sources were changed since $3 was built"
        [ ! -e "$kept" ] || is_named "$kept" 2>/dev/null || why="prebuilt/ has other files than its SOURCES says"
        [ ! -e "$built" ] || is_named "$built" 2>/dev/null || why="nobody noted of which sources $1 is"
        fails "$why: ./build proves and builds it, which takes half an hour to an hour and wants the Rattle kit"
    fi
}
finds_command() { finds "$built_command" bpf bpf; }
finds_library() { finds "$built_library" bpf_host libbpf_host.a; }
