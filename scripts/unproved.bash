# How the program is built without its proofs, as ./try does it. It sets `root`, the checkout's top, and reads stamp.bash and
# build.bash first. `rt try` links its program, which looks for mistakes while it runs, as `program` in a folder below
# TMPDIR, runs it on each file of another folder, and removes both. A link to the program that is made meanwhile stays.

# A folder of this build alone, on the file system of what is kept, since no link leads out of that.
room=$kept/try.room
# How often the program is run unless the build ends `rt try` before: for some seconds, so that it can be linked to.
runs=400

# What is written beside the files of the build.
unproved_places() {
    echo "$room"
    echo "${program%/*}"
}

# Lays the folder out.
make_room() {
    local at
    rm -rf "$room"
    mkdir -p "$room/cases" "$room/tmp"
    for ((at = 0; at < runs; at++)); do
        : >"$room/cases/$at"
    done
}

# Whether the program that was linked to is whole: it tells how it is used.
is_whole() {
    local status=0
    "$room/program" --help >/dev/null 2>&1 </dev/null || status=$?
    [ "$status" = 2 ]
}

# Links to the program as soon as `rt try` has made it, and fails where that ends before.
catch_program() {
    local it waited=0
    while kill -0 "$child" 2>/dev/null; do
        for it in "$room"/tmp/*/*/program; do
            if [ -e "$it" ] && ln -f "$it" "$room/program" 2>/dev/null && is_whole; then
                return
            fi
        done
        # (a pause that starts no process)
        read -rt 0.02 _ <>"$room/never" || true
        if ((SECONDS - began >= 60 * (waited + 1))); then
            waited=$((waited + 1))
            say "building: $waited min"
        fi
    done
    return 1
}

# Says why there is no program, with the end of what rt printed.
stop_unbuilt() {
    local free
    tail -n 40 "$log" >&2 || true
    free=$(df --output=avail -m "$kept" | tail -n 1) || free=
    if [ -n "$free" ] && [ "$free" -lt 200 ]; then
        stop "the program was not built, and $kept has only $((free)) MB of room left: a build takes 200"
    fi
    stop "the program was not built. All that rt printed is in $log"
}

# Builds and stamps the program, without any proof.
build_unproved() {
    local began=$SECONDS
    say "try: building the program, without its proofs. That takes one to five minutes, now and after a change of its source." \
        "What rt prints goes into $log"
    if ! make_room || ! mkfifo "$room/never" || ! : >"$log"; then
        stop_unbuilt
    fi
    (cd "$root/crates/nfsd" && TMPDIR=$room/tmp exec "$rt" try --cases "$room/cases" -- --help) </dev/null >"$log" 2>&1 &
    child=$!
    if ! catch_program; then
        child=
        stop_unbuilt
    fi
    kill "$child" 2>/dev/null || true
    wait "$child" || true
    child=
    mkdir -p "${program%/*}"
    chmod 755 "$room/program"
    mv -f "$room/program" "$program"
    rm -rf "$room"
    end_stamp
    say "try: built in $(((SECONDS - began) / 60)) min: $program"
}
