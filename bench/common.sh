# Read by each benchmark: the repository, the command (BPF names another than the one that ./bpf runs), and a folder that goes at the end.
root=$(cd "$(dirname "${BASH_SOURCE[0]}")/.." && pwd)
. "$root/scripts/built.sh"
[ -n "${BPF-}" ] || finds_command
bpf=${BPF:-$found}
dir=$(mktemp -d)
trap 'rm -rf "$dir"' EXIT
