# How the proved program is built, as ./nfsd and ./check do it; scripts/unproved.bash has the other one. They set `root`, the
# checkout's top, and read stamp.bash first.

# The last crate that was announced.
announced=
# After how many seconds without a line a build says what it is at, also while rt is silent; and when it said something last.
every=30
said=0
# The command that this process waits for, and the folder that is removed when the build ends before it is done.
child=
room=

say() {
    said=$SECONDS
    echo "$*" >&2 || true
}

stop() {
    say "${0##*/}: $*"
    exit 1
}

find_rt() {
    local it
    for it in "$(command -v rt || true)" /usr/local/bin/rt /opt/rattle/bin/rt; do
        if [ -x "$it" ]; then
            echo "$it"
            return
        fi
    done
    return 1
}

# Whether a file or folder can be written, or made where it isn't there.
can_write() {
    if [ -e "$1" ]; then
        [ -w "$1" ]
    else
        [ -w "${1%/*}" ]
    fi
}

# Where a build can't be written, says so before an hour is spent on it. What it writes beside its own files is given.
stop_unless_writable() {
    local it
    mkdir -p "$kept" 2>/dev/null || true
    for it in "$kept" "$lock_file" "$log" "$begun" "$stamp" "$list" "$@"; do
        if ! can_write "$it"; then
            stop "$it can't be written, and the program has to be built in this checkout first:" \
                "run $root/$builder --help as a user who may write there"
        fi
    done
}

# The folders in which rt keeps what it proves.
proof_folders() {
    local name
    for name in "${order[@]}"; do
        echo "$root/crates/$name/out"
    done
}

# Keeps other builds of this checkout out until this process and its build have ended. Each try is short, so that none
# goes on for long when this process is stopped while it waits. flock's other statuses than 75 are those of a file
# system that knows no locks, where rt goes on without one too.
hold_lock() {
    local status=0
    exec {lock}>>"$lock_file"
    flock -n -E 75 "$lock" || status=$?
    if [ "$status" = 75 ]; then
        say "${0##*/}: waiting for another build of this checkout. A ./$builder keeps what it prints in $log"
    fi
    while [ "$status" = 75 ]; do
        status=0
        flock -w 1 -E 75 "$lock" || status=$?
    done
}

# Others may build again. What is run later must not keep them out.
release_lock() {
    exec {lock}>&-
}

# Ends what was begun, when this process ends before it is done. A build of another process is left alone.
give_up() {
    if [ -n "$child" ]; then
        kill "$child" 2>/dev/null || true
    fi
    if [ "$has_begun" = yes ]; then
        rm -f "$begun" "$begun.text"
        if [ -n "$room" ]; then
            wait "$child" 2>/dev/null || true
            rm -rf "$room"
        fi
    fi
}

# Says that rt has come to a crate.
announce() {
    local at
    if [ "$1" = "$announced" ]; then
        return
    fi
    for at in "${!order[@]}"; do
        if [ "${order[at]}" = "$1" ]; then
            announced=$1
            say "proving $1: $((at + 1)) of ${#order[@]}, $(((SECONDS - began) / 60)) min"
        fi
    done
}

# Says which crate is at work, where nothing was said for a while.
remind() {
    local work="rt is reading the crates"
    if [ -n "$announced" ]; then
        work="still proving $announced"
    fi
    if ((SECONDS - said >= every)); then
        say "$work, $(((SECONDS - began) / 60)) min"
    fi
}

# Keeps what rt prints in the log, and announces each crate: rt names it before its proof and, in any case, behind
# it. That rt waits for another rt is told too.
keep_line() {
    local name
    printf '%s\n' "$1"
    case $1 in
        "rt: chose --jobs "*" for "*) announce "${1##* }" ;;
        "rt: waiting for "*) say "$1" ;;
        "crate "*": modules "*)
            name=${1#crate }
            announce "${name%%:*}"
            ;;
    esac
}

# Follows what rt prints to its end. (Where the time of a read runs out, what came of a line so far is kept.)
follow() {
    local line= piece status=0
    while [ "$status" = 0 ] || ((status > 128)); do
        status=0
        IFS= read -rt "$every" piece || status=$?
        line+=$piece
        if [ "$status" = 0 ] || { ((status <= 128)) && [ -n "$line" ]; }; then
            keep_line "$line"
            line=
        fi
        remind
    done >>"$log"
}

# Proves, builds and stamps the program. `rt run` builds it and then runs it; the argument ends it at once, with
# any status.
prove_and_build() {
    local began=$SECONDS lines
    say "${0##*/}: proving and building the program. From nothing that takes one to two hours, more than 8.4 GB of memory" \
        "and 5 GB of disk; after a change minutes. What rt prints goes into $log"
    : >"$log"
    exec {lines}< <(cd "$root/crates/nfsd" && exec "$rt" run -- --help </dev/null 2>&1)
    child=$!
    follow <&"$lines"
    exec {lines}<&-
    wait "$child" || true
    child=
    # rt prints this line between the build and the run.
    if [ ! -x "$program" ] || ! grep -q '^rt: running out/nfsd' "$log"; then
        grep -v -e ': proved$' -e '^statements ' -e '^library ' "$log" | tail -n 40 >&2 || true
        stop "the program was not built. All that rt printed is in $log"
    fi
    end_stamp
    say "${0##*/}: built in $(((SECONDS - began) / 60)) min: $program"
}

# Builds the program by this command, unless it is the same still, or another call built it while this one waited. What the
# command writes beside the files of the build is given.
build() {
    order_crates
    if is_same; then
        return
    fi
    rt=$(find_rt) || stop "the kit's command rt is not found"
    mapfile -t places < <("$2")
    stop_unless_writable "${places[@]}"
    trap give_up EXIT
    hold_lock
    if ! is_built && ! is_same; then
        begin_stamp
        "$1"
    fi
    trap - EXIT
    release_lock
}
