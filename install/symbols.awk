# SPDX-License-Identifier: MIT OR Apache-2.0
# The version script of the shared library, from include/tagetessash.h: each function under the version that the comment before it names ("Since 3.6."). A
# program that calls a function is then not started with a library from before it. The exit status is 1 where a function has none, or a later one than the
# header's own.
/^#define TAGETESSASH_VERSION / { version = $3 }
/^#define TAGETESSASH_MINOR / { newest = $3 }
# the last such word of a comment counts
match($0, /Since [0-9]+\.[0-9]+\. \*\//) { since = substr($0, RSTART + 6, RLENGTH - 10) }
/^uint16_t tagetessash_[a-z]*\(/ {
    name = $2
    sub(/\(.*/, "", name)
    split(since, part, ".")
    if (since == "" || part[1] != version || part[2] > newest) {
        printf "include/tagetessash.h: the comment before %s does not say since when it is there, up to %s.%s\n", name, version, newest > "/dev/stderr"
        bad = 1
    }
    at[part[2]] = at[part[2]] " " name ";"
    since = ""
}
END {
    if (bad) exit 1
    last = ""
    for (minor = 0; minor <= newest; minor++)
        if (minor in at) {
            node = "TAGETESSASH_" version "." minor
            printf "%s {\n  global:%s\n%s}%s;\n", node, at[minor], last == "" ? "  local: *;\n" : "", last
            last = " " node
        }
}
