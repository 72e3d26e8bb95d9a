#!/usr/bin/env bash
# install.sh: what ./bpf runs and ./install takes is of the sources that are there. Tried on a small tree, with a kit whose `rt` builds at once
# and writes down what it was asked for: what ./build made, what rt ci left, what prebuilt/ has, with and without the kit, behind each kind of change,
# what the gate says of it, and what ./test runs. Then what this tree has is installed, and hosts are built against it. The small tree wants the kit.
set -eu
root=$(cd "$(dirname "${BASH_SOURCE[0]}")/.." && pwd)
. "$root/scripts/built.sh"
dir=$(mktemp -d)
trap 'rm -rf "$dir"' EXIT
export TMPDIR=$dir
tree=$dir/tree
failed=0
complains() {
    echo "install: $1" >&2
    failed=1
}

# runs WORD HOW: what ./bpf prints, with status 0; HOW is with or without, the kit.
runs() {
    local said
    said=$("$2" "$tree/bpf" 2>&1) && [ "$said" = "$1" ] || complains "line ${BASH_LINENO[0]}: ./bpf says '$said', and not '$1'"
}
# refuses WORDS HOW COMMAND: that a command does nothing but say so, with status 3.
refuses() {
    local said status=0
    said=$("${@:2}" 2>&1) || status=$?
    [ "$status" -eq 3 ] && [[ "$said" == *"$1"* ]] || complains "line ${BASH_LINENO[0]}: status $status, '$said', and not '$1'"
}
# does HOW COMMAND: that it ends with status 0.
does() {
    "$@" >"$dir/said" 2>&1 || complains "line ${BASH_LINENO[0]}: ${*:2}: $(tail -n 1 "$dir/said")"
}
# installs HOW: ./install puts what ./bpf runs, and the library.
installs() {
    rm -rf "$dir/prefix"
    does "$1" "$tree/install" "$dir/prefix"
    [ "$("$dir/prefix/bin/bpf")" = "$(cat "$tree/crates/bpf/src/main.rt")" ] || complains "line ${BASH_LINENO[0]}: it put another command"
    [ -s "$dir/prefix/lib/libbpf_host.a" ] || complains "line ${BASH_LINENO[0]}: it put no library"
}
# changed_and_back WORDS FILE COMMAND..: that a change of a source ends what COMMAND does, with the kit and without, and that with its old bytes it is as before.
changed_and_back() {
    local words=$1 file=$2
    cp -p "$file" "$dir/kept"
    echo changed >>"$file"
    refuses "$words" without "${@:3}"
    cp "$dir/kept" "$file"
    does without "${@:3}"
    # The same with an older time, as tar, rsync and cp -p leave it.
    { cat "$dir/kept" && echo changed; } >"$dir/older"
    touch -d 2001-01-01 "$dir/older"
    cp -p "$dir/older" "$file"
    refuses "$words" without "${@:3}"
    rm "$file"
    refuses "$words" without "${@:3}"
    cp "$dir/kept" "$file"
    does without "${@:3}"
}
with() { PATH=$dir/kit/bin:$PATH "$@"; }
without() { PATH=$dir/bin "$@"; }

# A small tree, a kit for it, and a machine without.
makes_tree() {
    local tool
    mkdir -p "$dir/kit/bin" "$dir/bin" "$tree/tests" "$tree"/crates/{bpf,bpf_host,other}/src "$tree/crates/bpf_host/specs" "$tree/crates/bpf/proofs"
    cp -r "$root/install" "$root/bpf" "$root/build" "$root/test" "$root/.ci" "$root/scripts" "$root/docs" "$root/examples" "$root/include" "$root/HANDLES" "$root"/*.md "$root/bench" "$tree"
    cp "$root/tests/prebuilt.sh" "$root/tests/library.sh" "$tree/tests"
    printf 'bpf_host staticlib:\nother:\nbpf:\n' >"$tree/crates.txt"
    echo one >"$tree/crates/bpf/src/main.rt"
    touch "$tree"/crates/bpf_host/src/{lib,explaining,certifying,converting,trapping}.rt "$tree/crates/bpf_host/specs/Lib.antt" "$tree/crates/other/src/lib.rt" "$tree/crates/bpf/proofs/Answers.antt"
    ln -s "$kit/toolchain" "$kit/c" "$kit/rlibs" "$dir/kit"
    cat >"$dir/kit/bin/rattle" <<'RATTLE'
#!/usr/bin/env bash
# The library, to the last word's file.
echo 'void *rattle_alloc(unsigned long); void *bpf_host_version(void) { return rattle_alloc(8); }' | "${CC:-cc}" -x c - -fPIC -c -o "${!#}.o"
ar rcsD "${!#}" "${!#}.o"
rm "${!#}.o"
RATTLE
    cat >"$dir/kit/bin/rt" <<'RT'
#!/usr/bin/env bash
command() {
    mkdir -p out
    printf '#include <stdio.h>\nint main(void) { return puts("%s") < 0; }\n' "$(cat src/main.rt)" | "${CC:-cc}" -x c - -o out/bpf
}
case $1 in
version) echo a kit && exit ;;
all) printf '== %s\n' bpf_host other bpf ;;
lib) mkdir -p out && "$(dirname "$0")/rattle" -o out/libbpf_host.a ;;
run) command ;;
ci)
    rm -rf crates/*/out
    for crate in other bpf; do mkdir -p "crates/$crate/out"; done
    mkdir -p crates/other/out/rlib
    (cd crates/bpf && command)
    ;;
esac
echo "$(basename "$PWD") $1" >>"$(dirname "$0")/asked"
exit "${RT_FAILS:-0}"
RT
    chmod +x "$dir/kit/bin/rt" "$dir/kit/bin/rattle"
    for tool in env bash dirname readlink find du grep sha256sum sort xargs cut tail mktemp mv rm cat cp install basename realpath touch chmod sleep mkdir ln; do
        ln -s "$(builtin command -v "$tool")" "$dir/bin"
    done
    # Each sum that is asked for is written down.
    rm "$dir/bin/sha256sum"
    printf '#!/bin/sh\necho >>"%s"\nexec "%s" "$@"\n' "$dir/sums" "$(builtin command -v sha256sum)" >"$dir/bin/sha256sum"
    chmod +x "$dir/bin/sha256sum"
}

tries_nothing_built() {
    refuses "bpf isn't built" without "$tree/bpf"
    refuses "isn't built" without "$tree/install" "$dir/none"
    refuses "the Rattle kit is wanted" without "$tree/build"
    refuses "nothing is built of these sources" with "$tree/tests/prebuilt.sh" --renew
    does with "$tree/tests/prebuilt.sh"
    grep -q 'there is no prebuilt/' "$dir/said" || complains "nothing is said where prebuilt/ isn't there"
}

tries_build() {
    local source changed="the sources were changed since bpf was built: ./build"
    does with "$tree/build"
    [ "$(tr '\n' , <"$dir/kit/bin/asked")" = 'tree all,bpf run,bpf_host lib,' ] || complains "rt was asked for $(cat "$dir/kit/bin/asked")"
    grep -q '^build: 3 of 3, bpf' "$dir/said" || complains "./build tells no progress: $(cat "$dir/said")"
    runs one without
    installs without
    for source in crates/bpf/src/main.rt crates.txt HANDLES; do
        changed_and_back "$changed" "$tree/$source" "$tree/bpf"
    done
    changed_and_back "$changed" "$tree/crates/bpf/src/main.rt" "$tree/install" "$dir/prefix"
    for source in crates/bpf_host/specs/Lib.antt include/bpf.h; do
        changed_and_back "the sources were changed since libbpf_host.a was built: ./build" "$tree/$source" "$tree/install" "$dir/prefix"
    done
    # What isn't a source, or has its old bytes again, changes nothing.
    for source in crates/other/src/lib.rt crates/bpf/proofs/Answers.antt; do
        echo more >>"$tree/$source"
        runs one without
    done
    touch "$tree/crates/bpf/src/main.rt"
    runs one without
    rm "$dir/sums"
    runs one without
    [ ! -e "$dir/sums" ] || complains "nothing was touched, and ./bpf compares again"
    # A change is built, a part alone too.
    echo two >"$tree/crates/bpf/src/main.rt"
    refuses "$changed" with "$tree/bpf"
    does with "$tree/build" command
    runs two with
    installs with
    RT_FAILS=1 refuses "not proved, or not built" with "$tree/build"
    # What others built in the same place is of no sources that anybody knows, and other bytes aren't what was built.
    (cd "$tree/crates/bpf" && with rt run)
    runs two with
    echo one >"$tree/crates/bpf/src/main.rt"
    (cd "$tree/crates/bpf" && with rt run)
    refuses "nobody noted of which sources crates/bpf/out/bpf is: ./build" without "$tree/bpf"
    echo two >"$tree/crates/bpf/src/main.rt"
    refuses "nobody noted of which sources crates/bpf/out/bpf is: ./build" without "$tree/bpf"
    rm "$tree/crates/bpf/out/SOURCES"
    refuses "nobody noted of which sources crates/bpf/out/bpf is: ./build" without "$tree/bpf"
    echo one >"$tree/crates/bpf/src/main.rt"
    does with "$tree/build"
    runs one without
}

tries_stamp() {
    local changed="the sources were changed since bpf was built: ./build" main=$tree/crates/bpf/src/main.rt
    # Of a clock that was ahead, and copied.
    runs one without
    touch -d '+1 hour' "$tree/.compared"
    rm -f "$dir/sums"
    runs one without
    [ -e "$dir/sums" ] || complains "what was changed later than now is taken for old"
    echo two >"$main"
    refuses "$changed" without "$tree/bpf"
    # As many bytes, of an older time, in the same file.
    touch -d 2001-01-01 "$main"
    refuses "$changed" without "$tree/bpf"
    echo one >"$main"
    runs one without
    echo two >"$dir/older"
    touch -d 2001-01-01 "$dir/older"
    cp -p "$dir/older" "$main"
    refuses "$changed" without "$tree/bpf"
    echo one >"$main"
    runs one without
    echo two >"$main"
    cp -r "$tree" "$dir/copy"
    touch "$dir/copy/.compared"
    refuses "$changed" without "$dir/copy/bpf"
    rm -r "$dir/copy"
    echo one >"$main"
    runs one without
    # From another machine; and a link to ./bpf, from elsewhere.
    sed -i 's/^[^ ]* /elsewhere /' "$tree/.compared"
    rm -f "$dir/sums"
    runs one without
    [ -e "$dir/sums" ] || complains "what another machine compared is taken"
    ln -s "$tree/bpf" "$dir/linked"
    [ "$(cd / && without "$dir/linked")" = one ] && [ "$(cd "$tree" && without /bin/sh bpf)" = one ] || complains "a link to ./bpf, or sh bpf, runs something else"
    # A folder of sources that is gone, or one more; a file more.
    mv "$tree/crates/bpf/src" "$dir/src"
    refuses "$changed" without "$tree/bpf"
    mv "$dir/src" "$tree/crates/bpf/src"
    runs one without
    for more in "$tree/crates/bpf/src/more.rt" "$tree/crates/bpf/src/deep/more.rt"; do
        mkdir -p "${more%/*}"
        : >"$more"
        refuses "$changed" without "$tree/bpf"
        rm "$more"
        runs one without
    done
    rmdir "$tree/crates/bpf/src/deep"
    # No code comes of a definition, so it is seen where all is compared again, and by ./install.
    runs one without
    mkdir "$tree/crates/bpf/specs"
    echo more >"$tree/crates/bpf/specs/More.antt"
    runs one without
    refuses "$changed" without "$tree/install" "$dir/none"
    rm "$tree/.compared"
    refuses "$changed" without "$tree/bpf"
    rm -r "$tree/crates/bpf/specs"
    runs one without
    # What was looked at isn't told any more, or is told of less.
    for said in '' 'crates.txt'; do
        printf '%s' "$said" >"$tree/.compared.of"
        rm -f "$dir/sums"
        runs one without
        [ -e "$dir/sums" ] || complains "nothing says what was looked at, and it is taken for untouched"
    done
    # A link in the place of the command: what it leads to is looked at.
    mv "$tree/crates/bpf/out/bpf" "$dir/led"
    ln -s "$dir/led" "$tree/crates/bpf/out/bpf"
    runs one without
    runs one without
    printf x >>"$dir/led"
    refuses "nobody noted of which sources crates/bpf/out/bpf is" without "$tree/bpf"
    rm "$tree/crates/bpf/out/bpf"
    does with "$tree/build"
    runs one without
    # Words that nobody wrote there.
    for said in "$(cat /proc/sys/kernel/hostname) ../false" "$(cat /proc/sys/kernel/hostname) ../false"$'\n1\t1.0\ttotal' '' 'vm'; do
        echo "$said" >"$tree/.compared"
        runs one without
    done
}

tries_prebuilt() {
    local changed="the sources were changed since bpf was built: ./build" flags='fpu cx16 lahf_lm pni sse4_1 ssse3'
    does with "$tree/tests/prebuilt.sh" --renew
    does with "$tree/tests/prebuilt.sh"
    rm -r "$tree"/crates/*/out
    runs one without
    [ -f "$tree/.compared" ] || complains "the comparison isn't kept"
    # What the README says of a clone without the kit.
    (cd "$tree/prebuilt" && tail -n 2 SOURCES | sha256sum --check --status) || complains "the sums of SOURCES aren't those of both files"
    runs one without
    installs without
    [ ! -e "$dir/prefix/lib/libbpf_host.so.0" ] && grep -q 'the shared library libbpf_host.so.0 is left out' "$dir/said" || complains "it isn't told that no shared library is made without cc"
    for source in crates/bpf/src/main.rt crates.txt HANDLES; do
        changed_and_back "$changed" "$tree/$source" "$tree/bpf"
    done
    # The command isn't made of the library, which ./install takes along.
    for source in crates/bpf_host/src/lib.rt crates/bpf_host/specs/Lib.antt include/bpf.h; do
        changed_and_back "$changed" "$tree/$source" "$tree/install" "$dir/prefix"
    done
    touch "$tree/crates/bpf/src/more.rt"
    refuses "$changed" without "$tree/bpf"
    rm "$tree/crates/bpf/src/more.rt"
    runs one without
    # A processor that can't run it, one of another kind, an older C library; nothing is left behind.
    rm "$tree/.compared"
    sed -i "s|/proc/cpuinfo|$dir/cpuinfo|" "$tree/scripts/built.sh"
    printf 'flags\t\t: %s\n' "$flags" >"$dir/cpuinfo"
    refuses "what is built wants a processor of x86-64-v2, and this one lacks popcnt sse4_2" without "$tree/bpf"
    refuses "what is built wants a processor of x86-64-v2, and this one lacks popcnt sse4_2" without "$tree/install" "$dir/none"
    echo 'Features : fp asimd' >"$dir/cpuinfo"
    refuses "prebuilt/ is for x86-64, and this machine has another processor" without "$tree/bpf"
    cp "$root/scripts/built.sh" "$tree/scripts"
    for said in 'glibc 2.31' 'glibc 1.99'; do
        printf '#!/bin/sh\necho %s\n' "$said" >"$dir/bin/getconf"
        chmod +x "$dir/bin/getconf"
        refuses "what is built wants glibc $wanted_glibc or later, and this machine has ${said#* }" without "$tree/bpf"
    done
    # Where getconf isn't there, or knows nothing of glibc.
    printf '#!/bin/sh\nexit 1\n' >"$dir/bin/getconf"
    printf '#!/bin/sh\necho "ldd (Ubuntu GLIBC 2.31-0ubuntu9) 2.31"\necho more\n' >"$dir/bin/ldd"
    chmod +x "$dir/bin/ldd"
    refuses "what is built wants glibc $wanted_glibc or later, and this machine has 2.31" without "$tree/bpf"
    [ -z "$(find "$tree" -maxdepth 1 -name '.compared*')" ] || complains "a refusal leaves files behind"
    for said in '(GNU libc) 2.34' '(GNU libc) 2.100' '(GNU libc) 3.0' 'musl libc'; do
        printf '#!/bin/sh\necho "ldd %s"\n' "$said" >"$dir/bin/ldd"
        rm -f "$tree/.compared"
        runs one without
    done
    rm "$dir/bin/getconf" "$dir/bin/ldd"
    # Files that aren't what was built.
    cp -p "$tree/prebuilt/bpf" "$dir/kept"
    printf x >>"$tree/prebuilt/bpf"
    refuses "prebuilt/ has other files than its SOURCES says: ./build" without "$tree/bpf"
    cp -p "$dir/kept" "$tree/prebuilt/bpf"
    runs one without
    printf x >>"$tree/prebuilt/libbpf_host.a"
    refuses "prebuilt/ has other files than its SOURCES says: ./build" without "$tree/install" "$dir/none"
}

tries_gate() {
    local renew='./build && tests/prebuilt.sh --renew makes it anew' kept=$tree/prebuilt
    refuses "nothing is built of these sources" with "$tree/tests/prebuilt.sh"
    does with "$tree/build"
    refuses "prebuilt/libbpf_host.a isn't what the proofs made: $renew" with "$tree/tests/prebuilt.sh"
    does with "$tree/tests/prebuilt.sh" --renew
    # A command that no proof made, with its sum, as of another kit and as of this one.
    printf '#!/bin/sh\necho yes length 0 bound 23\n' >"$kept/bpf"
    sed -i "1s/.*/another kit/; 3s/.*/$(sha256sum "$kept/bpf" | cut -d ' ' -f 1)  bpf/" "$kept/SOURCES"
    refuses "prebuilt/ was made with another kit, and here is a kit: $renew" with "$tree/tests/prebuilt.sh"
    sed -i '1s/.*/a kit/' "$kept/SOURCES"
    refuses "prebuilt/bpf isn't what the proofs made: $renew" with "$tree/tests/prebuilt.sh"
    # Another kit's line by itself, too.
    does with "$tree/tests/prebuilt.sh" --renew
    sed -i '1s/.*/another kit/' "$kept/SOURCES"
    refuses "prebuilt/ was made with another kit, and here is a kit: $renew" with "$tree/tests/prebuilt.sh"
    does with "$tree/tests/prebuilt.sh" --renew
    sed -i '3s/^./x/' "$kept/SOURCES"
    refuses "prebuilt/SOURCES has other sums" with "$tree/tests/prebuilt.sh"
    does with "$tree/tests/prebuilt.sh" --renew
    # A link to the same bytes, which may be others elsewhere.
    mv "$kept/bpf" "$dir/same"
    ln -s "$dir/same" "$kept/bpf"
    refuses "prebuilt/bpf isn't there, or it is a link: $renew" with "$tree/tests/prebuilt.sh"
    rm "$kept/bpf"
    refuses "prebuilt/bpf isn't there, or it is a link: $renew" with "$tree/tests/prebuilt.sh"
    does with "$tree/tests/prebuilt.sh" --renew
    echo two >"$tree/crates/bpf/src/main.rt"
    does with "$tree/build"
    refuses "prebuilt/ isn't of these sources: $renew" with "$tree/tests/prebuilt.sh"
    does with "$tree/tests/prebuilt.sh" --renew
    # What is tracked where ./bpf looks for what was built, by its own name and as a link at the folder's; with and without prebuilt/.
    git -C "$tree" init -q
    does with "$tree/tests/prebuilt.sh"
    git -C "$tree" add -f crates/bpf/out/bpf
    refuses "no proof made these tracked files" with "$tree/tests/prebuilt.sh"
    refuses "no proof made these tracked files" with "$tree/tests/prebuilt.sh" --renew
    mv "$kept" "$dir/aside"
    refuses "no proof made these tracked files" with "$tree/tests/prebuilt.sh"
    mv "$dir/aside" "$kept"
    git -C "$tree" rm -q --cached crates/bpf/out/bpf
    ln -s "$dir" "$tree/crates/other/out"
    git -C "$tree" add -f crates/other/out
    refuses "git rm --cached crates/other/out" with "$tree/tests/prebuilt.sh"
    git -C "$tree" rm -q --cached crates/other/out
    rm "$tree/crates/other/out"
    git -C "$tree" add -f .compared
    refuses "git rm --cached .compared" with "$tree/tests/prebuilt.sh"
    git -C "$tree" rm -q --cached .compared
    does with "$tree/tests/prebuilt.sh"
    rm -rf "$tree/.git"
}

# What rt ci leaves is as good as what ./build made, once the library is built over it.
tries_ci() {
    local sum main=$tree/crates/bpf/src/main.rt
    echo three >"$main"
    # A folder's birth is told from what was changed a moment before.
    sleep 0.1
    (cd "$tree" && with rt ci)
    refuses "nothing is built of these sources" with "$tree/tests/prebuilt.sh" --renew
    does with "$tree/tests/library.sh"
    does with "$tree/tests/prebuilt.sh" --renew
    does with "$tree/tests/prebuilt.sh"
    runs three without
    touch "$main"
    refuses "the sources were changed since rt ci began" with "$tree/tests/library.sh"
    sleep 0.1
    (cd "$tree" && with rt ci)
    sum=$("$tree/tests/library.sh" --sum)
    echo four >"$main"
    refuses "the sources were changed since rt ci began" with "$tree/tests/library.sh" "$sum"
    echo three >"$main"
    does with "$tree/tests/library.sh" "$sum"
    does with "$tree/tests/prebuilt.sh"
}

# What ./test and .ci/run call, with their tests in the place of which each says its name.
tries_test() {
    local name names status=0 quick
    names=$(grep -oE 'tests/[a-z_]+\.(sh|py)' "$root/test" | sort -u)
    for name in $names; do
        [ "$name" = tests/library.sh ] || printf '#!/bin/sh\necho "%s $*" >>"%s/ran"\n' "$name" "$dir" >"$tree/$name"
        chmod +x "$tree/$name"
    done
    for name in nproc awk; do ln -s "$(builtin command -v "$name")" "$dir/bin"; done
    # The whole, where the kit is: each of them.
    rm -f "$dir/ran" "$dir/kit/bin/asked"
    does with "$tree/.ci/run"
    grep -qx 'tree ci' "$dir/kit/bin/asked" || complains "./test doesn't call rt ci"
    for name in $names; do
        [ "$name" = tests/library.sh ] || grep -q "^$name" "$dir/ran" || complains "./test doesn't call $name"
    done
    [ "$(tail -n 2 "$dir/said")" = $'test: all is proved, and every test passed\nprebuilt: both files are what the proofs made' ] || complains "the gate ends in: $(tail -n 2 "$dir/said")"
    # Nothing is proved with --quick, or without the kit: the last line says so.
    for quick in with without; do
        rm -f "$dir/ran" "$dir/kit/bin/asked"
        [ "$quick" = without ] || does with "$tree/test" --quick
        [ "$quick" = with ] || does without "$tree/test"
        [ ! -e "$dir/kit/bin/asked" ] || ! grep -q ' ci$' "$dir/kit/bin/asked" || complains "something is proved"
        [[ "$(tail -n 1 "$dir/said")" == "test: proofs weren't tried"*"; all else passed, of crates/bpf/out/bpf and crates/bpf_host/out/host/libbpf_host.a" ]] ||
            complains "./test ends in: $(tail -n 1 "$dir/said")"
        grep -q "^tests/rows.py $tree/crates/bpf/out/bpf" "$dir/ran" || complains "./test tries another command"
    done
    mkdir "$dir/outs"
    mv "$tree"/crates/bpf/out "$dir/outs"
    does without "$tree/test"
    [[ "$(tail -n 1 "$dir/said")" == "test: proofs weren't tried, since the Rattle kit isn't there; all else passed, of prebuilt/bpf and "* ]] ||
        complains "./test ends in: $(tail -n 1 "$dir/said")"
    mv "$dir/outs/out" "$tree/crates/bpf"
    refuses "usage: ./test" without "$tree/test" --quicker
    # The gate is always whole, and ends as rt ci does, or as a test does.
    refuses "the gate wants the Rattle kit" without "$tree/.ci/run"
    (RT_FAILS=7 with "$tree/.ci/run") >"$dir/said" 2>&1 || status=$?
    [ "$status" -eq 7 ] || complains "rt ci ends with 7, and the gate with $status"
    printf '#!/bin/sh\nexit 9\n' >"$tree/tests/harden.py"
    status=0
    with "$tree/.ci/run" >"$dir/said" 2>&1 || status=$?
    [ "$status" -eq 9 ] || complains "a test ends with 9, and the gate with $status"
}

if command -v rt >/dev/null; then
    wants_kit "to test,"
    makes_tree
    tries_nothing_built
    tries_build
    tries_stamp
    tries_prebuilt
    tries_gate
    tries_ci
    tries_test
else
    echo "install: the small tree is left out: it wants the Rattle kit"
fi

# ---- what this tree has

"$root/install" "$dir/real" >"$dir/said"
while read -r path; do
    [ -s "$path" ] || complains "$path isn't there"
done <"$dir/said"
for path in bin/bpf bin/bpf-cc lib/libbpf_host.{a,so.0} lib/bpf_host/libbpf_host.so lib/pkgconfig/bpf_host{,-shared}.pc lib/cmake/bpf_host/bpf_hostConfig{,Version}.cmake \
    include/bpf.h include/bpf.hpp include/bpf/filter.h share/man/man1/bpf{,-cc}.1 share/bash-completion/completions/bpf share/doc/bpf/docs/GUIDE.md; do
    grep -qx "$dir/real/$path" "$dir/said" || complains "$path isn't said"
done
lost=$(python3 - "$dir/real/share/doc/bpf" <<'LINKS'
import pathlib, re, sys
for page in pathlib.Path(sys.argv[1]).rglob('*.md'):
    for link in re.findall(r'\]\(([^)#\s]+)', page.read_text()):
        if '://' not in link and not (page.parent / link).exists():
            print(page, link)
LINKS
)
[ -z "$lost" ] || complains "links of documents that were put lead nowhere: $lost"
version=$(sed -n 's/^Version: //p' "$dir/real/lib/pkgconfig/bpf_host.pc")
number=$(sed -n 's/^#define BPF_HOST_VERSION //p' "$root/include/bpf.h")
for named in "CHANGELOG.md:## $version, " "examples/hosts/bpf-host/Cargo.toml:version = \"$version\"" "examples/hosts/bpf-host/src/lib.rs:pub const VERSION: u32 = $number;" \
    "include/bpf.h:/* The version of this header, $version, "; do
    grep -m 1 -e '^## [0-9]' -e '^version = ' -e '^pub const VERSION' -e 'The version of this header' "$root/${named%%:*}" | grep -qF -- "${named#*:}" ||
        complains "${named%%:*} has another version than $version"
done
[ "$("$dir/real/bin/bpf" --version 2>&1 | head -n 1)" = "bpf $version" ] || complains "bpf --version isn't $version"
cat >"$dir/host.c" <<'HOST'
#include <bpf.h>
#include <stdio.h>
#include <stdlib.h>

/* What a library of another kit may bring along. */
void *rattle_alloc(size_t size) { (void)size; abort(); }
void *rattle_realloc(void *at, size_t size) { (void)at, (void)size; abort(); }
void rattle_dealloc(void *at) { (void)at; abort(); }

static size_t bytes_of(const char *name, char *bytes, size_t most) {
    FILE *file = fopen(name, "rb");
    size_t len = file ? fread(bytes, 1, most, file) : 0;
    if (file) fclose(file);
    return len;
}

int main(int count, char **words) {
    static char image[4096], certificate[4096];
    struct bpf_verdict verdict;
    struct bpf_refusal refusal;
    size_t image_len = count > 2 ? bytes_of(words[1], image, sizeof image) : 0;
    size_t certificate_len = count > 2 ? bytes_of(words[2], certificate, sizeof certificate) : 0;
    if (bpf_version() != BPF_HOST_VERSION) return 2;
    if (bpf_verify(image, image_len, BPF_LITTLE, certificate, certificate_len, &verdict, &refusal) != BPF_YES) return 1;
    return printf("%u %u %u\n", (unsigned)verdict.least, (unsigned)verdict.most, (unsigned)verdict.bound) < 0;
}
HOST
# hosts FLAG..: a host that is built so says yes, by the library's own memory.
hosts() {
    local said
    "${CC:-cc}" -O2 -Wall -Wextra -Werror "$dir/host.c" -o "$dir/host" "$@" || complains "no host is built with $*"
    said=$("$dir/host" "$root/examples/countdown.img" "$root/examples/countdown.cert") || true
    [ "$said" = '0 0 23' ] || complains "a host says '$said' of examples/countdown.img, and not '0 0 23'"
}
hosts "-I$dir/real/include" "-L$dir/real/lib" -lbpf_host
if command -v pkg-config >/dev/null; then
    hosts $(PKG_CONFIG_PATH="$dir/real/lib/pkgconfig" pkg-config --cflags --libs bpf_host)
fi
others=$(nm -g --defined-only "$dir/real/lib/libbpf_host.a" | awk 'NF == 3 && $3 !~ /^bpf_/ { print $3 }')
[ -z "$others" ] || complains "libbpf_host.a has names besides bpf_..: $others"
wanted=$(nm -u "$dir/real/lib/libbpf_host.a" | awk 'NF == 2 { print $2 }' | sort | tr '\n' ' ')
[ "$wanted" = '__divti3 free malloc memcpy memmove memset realloc ' ] || complains "libbpf_host.a takes other names from outside than docs/HOSTS.md says: $wanted"
"${CC:-cc}" -shared -fPIC -O2 "$dir/host.c" -o "$dir/host.so" -Wl,-z,defs,-z,text "-I$dir/real/include" "-L$dir/real/lib" -lbpf_host || complains "no shared library is built with it"

# The shared library: its name, the calls that bpf.h declares and nothing else, and a host that is linked with it.
shared=$dir/real/lib/libbpf_host.so.0
readelf -d "$shared" | grep -q 'SONAME.*\[libbpf_host\.so\.0\]' || complains "libbpf_host.so.0 has another soname"
[ "$(readelf -d "$shared" | sed -n 's/.*NEEDED.*\[\(.*\)\]/\1/p')" = libc.so.6 ] || complains "libbpf_host.so.0 wants more than libc.so.6"
names=$(nm -D --defined-only "$shared" | awk '{ print $3 }' | sort)
declared=$(sed -n 's/^[a-z0-9_]* \(bpf_host_[a-z_]*\)(.*/\1/p' "$root/include/bpf.h" | sort)
[ "$names" = "$declared" ] && [ -n "$names" ] || complains "libbpf_host.so.0 gives other names than bpf.h declares: $(diff <(echo "$names") <(echo "$declared") | tr '\n' ' ')"
LD_LIBRARY_PATH=$dir/real/lib hosts "-I$dir/real/include" "-L$dir/real/lib/bpf_host" -lbpf_host
readelf -d "$dir/host" | grep -q 'NEEDED.*libbpf_host\.so\.0' || complains "a host that asks for the shared library gets another"
if command -v cmake >/dev/null; then
    mkdir "$dir/cmake"
    cat >"$dir/cmake/CMakeLists.txt" <<CMAKE
cmake_minimum_required(VERSION 3.13)
project(host C)
find_package(bpf_host ${version%.*} REQUIRED)
foreach(kind bpf_host shared)
  add_executable(by_\${kind} ../host.c)
  target_link_libraries(by_\${kind} bpf_host::\${kind})
endforeach()
find_package(bpf_host 99.0 QUIET)
if(bpf_host_FOUND)
  message(FATAL_ERROR "any version is taken")
endif()
CMAKE
    { cmake -S "$dir/cmake" -B "$dir/cmake/built" "-DCMAKE_PREFIX_PATH=$dir/real" && cmake --build "$dir/cmake/built"; } >"$dir/said.cmake" 2>&1 ||
        complains "find_package(bpf_host): $(tail -n 5 "$dir/said.cmake")"
    for kind in bpf_host shared; do
        said=$("$dir/cmake/built/by_$kind" "$root/examples/countdown.img" "$root/examples/countdown.cert") || true
        [ "$said" = '0 0 23' ] || complains "a host by bpf_host::$kind says '$said'"
    done
fi

# The greatest version of glibc that the command asks for is what is told where it is missing.
greatest=$(readelf -V "$dir/real/bin/bpf" | grep -o 'GLIBC_[0-9.]*' | sort -uV | tail -n 1)
[ "$greatest" = "GLIBC_$wanted_glibc" ] || complains "the command wants $greatest, and scripts/built.sh says $wanted_glibc"
grep -qF "glibc $wanted_glibc or later" "$root/README.md" || complains "README.md doesn't name glibc $wanted_glibc"

# Completion gives the commands, and the long options of each, that the help tells.
completes() {
    (
        . "$dir/real/share/bash-completion/completions/bpf"
        PATH=$dir/real/bin:$PATH COMP_WORDS=("$@") COMP_CWORD=$(($# - 1))
        _bpf
        echo "${COMPREPLY[*]}"
    )
}
commands=$(completes bpf '')
for command in $commands; do
    told=$("$dir/real/bin/bpf" help "$command" 2>&1 | grep -oE -e '^ +(-[a-zA-Z], )?--[a-z]+' | grep -oE -e '--[a-z]+' | tr '\n' ' ') || true
    [ "$command" = help ] || [ "$(completes bpf "$command" -)" = "${told% }" ] || complains "of $command '$(completes bpf "$command" -)' are completed, and not '$told'"
done
for command in $(sed -n 's/^| `bpf \([a-z-]*\).*/\1/p' "$root/docs/COMMAND.md" | sort -u); do
    [[ " $commands " == *" $command "* ]] || complains "$command isn't completed among $commands"
done
[ "$(completes bpf ha)" = harden ] && [ "$(completes bpf harden --unp)" = --unproved ] && [ -z "$(completes bpf list x)" ] || complains "a word is completed to something else"

# A folder where a file is to go: nothing is put.
mkdir -p "$dir/taken/bin/bpf"
status=0
said=$("$root/install" "$dir/taken" 2>&1) || status=$?
[ "$status" -eq 3 ] && [[ "$said" == "install: $dir/taken/bin/bpf is a folder, and a file is to go there: nothing was put" ]] && [ "$(find "$dir/taken" -mindepth 1 | wc -l)" -eq 2 ] ||
    complains "./install over a folder: status $status, '$said'"

[ "$failed" -eq 0 ] && echo "install: takes what is of the sources that are there, with and without the kit, and puts $(wc -l <"$dir/said") files"
exit "$failed"
