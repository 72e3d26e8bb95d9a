#!/usr/bin/env bash
# found.sh: prints which command ./bpf runs, as a path below the repository. That it was compared is kept in .compared:
# the machine's name, that path, and how all that .compared.of names looked, before it was compared and after. The time
# of .compared is that of the last change. If this can't be written, or du isn't GNU's, each call of ./bpf compares.
set -eu
root=$(cd "$(dirname "${BASH_SOURCE[0]}")/.." && pwd)
. "$root/scripts/built.sh"
. "$root/scripts/looked.sh"
says_it=bpf
rm -f "$root/.compared" 2>/dev/null || true
new=$(mktemp "$root/.compared.XXXXXX" 2>/dev/null) || new=
is_kept=
trap '[ -z "$new" ] || rm -f "$new"; [ -n "$is_kept" ] || rm -f "$root/.compared.of"' EXIT

# looks: names the code of the command, and what may be found. Sets looked to how they look, and changed to the time of
# the last change.
looks() {
    local path paths=(crates.txt HANDLES)
    [ -r "$root/crates.txt" ] || return
    crates_of bpf
    for path in "${crates[@]/%//src}" \
        "$root"/{"$built_command","${built_command%/*}/SOURCES",prebuilt/bpf,prebuilt/SOURCES}; do
        [ ! -e "$path" ] || paths+=("${path#"$root"/}")
    done
    printf '%s\0' "${paths[@]}" >"$new" && chmod 644 "$new" && cp "$new" "$root/.compared.of" || return
    looked=$(looked_at) && [[ "$looked" =~ ^[0-9]+$'\t'([0-9]+\.[0-9]+)$'\t'total$ ]] && changed=${BASH_REMATCH[1]}
}
looked= changed=
if [ -n "$new" ] && looks 2>/dev/null; then
    # A file that is changed in the tick of the clock in which it was looked at isn't told from an older one.
    sleep 0.05 2>/dev/null || sleep 1
fi
finds_command
found=${found#"$root"/}
if [ -n "$changed" ] && [ "$(looked_at)" = "$looked" ] && read -r machine </proc/sys/kernel/hostname; then
    printf '%s %s\n%s\n' "$machine" "$found" "$looked" >"$new" && touch -d "@$changed" "$new" &&
        mv "$new" "$root/.compared" && is_kept=1
fi
echo "$found"
