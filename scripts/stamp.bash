# Whether a program is built: the proved one for ./nfsd and ./check, the unproved one for ./try. They set `root`, the
# checkout's top, and read build.bash too.

# What has to outlast `rt ci` lies here, since that moves crates/*/out aside.
kept=$root/out
# Whether a build of this process has begun and not ended.
has_begun=no

# Has all that follows speak of the program that the command of this name builds, which lies here and is made from these
# folders of each crate.
name_program() {
    program=$1
    builder=$2
    # A sum of the program and of what it was made from, and the files and folders that it was made from, below the top,
    # each ended by a zero byte. The stamp is as old as the beginning of the build; it is written last.
    stamp=$kept/$2.stamp
    list=$kept/$2.parts
    # As old as a build that hasn't ended.
    begun=$kept/$2.begun
    log=$kept/$2.log
    lock_file=$kept/$2.lock
    folders=("${@:3}")
}
name_program "$root/crates/nfsd/out/nfsd" nfsd src specs proofs

# The crates that the program is made from, each after those that it uses, and what the lines of crates.txt name.
order=()
declare -A uses=()

# Reads crates.txt into `uses` and `order`.
order_crates() {
    local line
    while IFS= read -r line || [ -n "$line" ]; do
        line=${line%%#*}
        if [[ $line == *:* ]]; then
            uses[${line%%[: ]*}]=${line#*:}
        fi
    done <"$root/crates.txt"
    add_crate nfsd
}

# Appends a crate to `order`, after those that it uses. The kit's own libraries have no line in crates.txt.
add_crate() {
    local library
    if [[ " ${order[*]} " == *" $1 "* ]]; then
        return
    fi
    for library in ${uses[$1]}; do
        if [[ -v uses[$library] ]]; then
            add_crate "$library"
        fi
    done
    order+=("$1")
}

# Prints the files and folders, below the top, that the program is made from and that pass the given tests of find,
# each ended by a zero byte. It works in a shell of its own, so the caller stays in its folder.
parts() (
    local name part rooms=(crates.txt)
    cd "$root"
    for name in "${order[@]}"; do
        for part in "${folders[@]}"; do
            if [ -d "crates/$name/$part" ]; then
                rooms+=("crates/$name/$part")
            fi
        done
    done
    find "${rooms[@]}" \( -type d -o -name '*.rt' -o -name '*.antt' -o -name crates.txt \) "$@" -print0 | LC_ALL=C sort -z
)

# Prints a sum of the names and bytes of what the program is made from, and of the program, which a call of rt may
# have made from other files meanwhile.
made_from() {
    (
        cd "$root"
        parts -type d
        parts -type f | xargs -0 sha256sum "${program#"$root/"}"
    ) | sha256sum
}

# Prints one of the listed files and folders that has changed since a file was written. A folder changes when a file
# comes into it or leaves it. Times of change (ctime) are compared, which nothing sets back. It fails where one of the
# list isn't there. The list is read by find itself: each call of ./nfsd passes here.
changed_since() {
    cd "$root"
    exec find -files0-from "$list" -maxdepth 0 -cnewer "$1" -print -quit 2>/dev/null
}

# Whether the program stands, and nothing that it is made from has changed since its build began. Nothing is summed.
is_built() {
    local changed
    [ -x "$program" ] && [ -s "$stamp" ] && [ -s "$list" ] || return 1
    changed=$(changed_since "$stamp") && [ -z "$changed" ]
}

# Whether the program stands, and what it is made from has the same bytes still: only times, owners or modes changed.
# The stamp is then as old as this look, where it can be written, so that the next call need not sum again.
is_same() {
    local look
    [ -x "$program" ] && [ -s "$stamp" ] && [ -s "$list" ] || return 1
    look=$(mktemp "$stamp.look.XXXXXX" 2>/dev/null) || look=
    if [ "$(made_from)" != "$(<"$stamp")" ]; then
        rm -f "$look"
        return 1
    fi
    if [ -n "$look" ]; then
        touch -c -r "$look" "$stamp" 2>/dev/null || true
        rm -f "$look"
    fi
}

begin_stamp() {
    has_begun=yes
    rm -f "$stamp"
    : >"$begun"
}

# The program that was built is that of the files that stand here, unless one changed meanwhile: then it gets no
# stamp.
end_stamp() {
    local changed
    made_from >"$begun.text"
    parts >"$list"
    changed=$(changed_since "$begun") || changed="a folder"
    if [ -n "$changed" ]; then
        say "${0##*/}: $changed changed in mid-build, so the next ./$builder builds again"
        rm -f "$begun.text"
    else
        touch -r "$begun" "$begun.text"
        mv -f "$begun.text" "$stamp"
    fi
    rm -f "$begun"
    has_begun=no
}
