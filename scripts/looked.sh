# Read by ./bpf and found.sh, which set root.
#
# looked_at: how many bytes all that .compared.of names has, and when any of it was changed last, by the time that no
# program can set (ctime). Each file that comes or goes changes its folder. What is gone is said, too. It ends its
# shell, so it is called as "$(looked_at)".
looked_at() {
    cd "$root" && LC_ALL=C TZ=UTC0 exec du -bcDs --time=ctime --time-style=+%s.%N --threshold=1E \
        --files0-from=.compared.of 2>&1
}
