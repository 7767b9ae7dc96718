# For scripts that build what crates are the source of: ./jenturik and ./library. The script sets
#   me      its name, for what it says
#   top     the project's folder
#   target  where things are built
#   crate   the crate, or several, with blanks between them
#   log     where what rt says is kept

# refuse STATUS WHY: ends the run
refuse() {
    echo "$me: $2" >&2
    exit "$1"
}

# crates: the project's crates that the crate is made of, itself among them, each once
crates() {
    awk -F: -v wanted="$crate" '
        function visit(n,    a, k, m) {
            if (seen[n]++) return
            m = split(deps[n], a, " ")
            for (k = 1; k <= m; k++) if (a[k] in deps) visit(a[k])
            print n
        }
        { sub(/#.*/, "") }
        NF > 1 { gsub(/[ \t]/, "", $1); deps[$1] = $2 }
        END {
            m = split(wanted, of, " ")
            for (k = 1; k <= m; k++) visit(of[k])
        }' "$top/crates.txt"
}

# sources: a sum of all that the crate is made from, the kit included
sources() {
    local folders
    mapfile -t folders < <(crates)
    {
        rt version
        cd "$top/crates" &&
            find "${folders[@]}" \( -name must-fail -o -name out \) -prune -o -type f -print0 |
            sort -z | xargs -0 sha256sum ../crates.txt
    } 2>/dev/null | sha256sum
}

# lock WHAT: one build at a time, since rt does not run twice at once; WHAT is to be built
lock() {
    { mkdir -p "$target" && exec 8>"$target/jenturik.lock"; } 2>/dev/null ||
        refuse 2 "$1 must be built, and $target cannot be written"
    flock -n 8 || echo "$me: waiting for another build to end" >&2
    flock 8
}

# stop SIGNAL: ends the build, with every process that it started, and then this script
# shellcheck disable=SC2317
stop() {
    [ -z "$builder" ] || kill -TERM -- "-$builder" 2>/dev/null
    echo "$me: the build was stopped" >&2
    trap - "$1"
    kill -s "$1" $$
}

# progress: keeps what rt says in the log and tells each crate that was proved or was not. rt begins
# with the name of a crate that it proves, and ends with the verdict on it
progress() {
    local line name=
    while IFS= read -r line; do
        printf '%s\n' "$line" >&7
        case $line in
        'rt: chose --jobs '*' for '*) name=${line##* } ;;
        logic=proved*) [ -z "$name" ] || echo "$me: $name is proved" >&2 ;;
        logic=not-proved*) [ -z "$name" ] || echo "$me: $name is not proved" >&2 ;;
        *) continue ;;
        esac
        case $line in logic=*) name= ;; esac
    done
}

# build FOLDER COMMAND..: runs a command that builds in a folder of the project, with its own
# session, so that Ctrl-C can end all of it. It reads $input, if that is set. Its output goes to the
# log, and each crate that it proves is told
build() {
    local signal folder=$1
    shift
    { exec 7>>"$log"; } 2>/dev/null || refuse 2 "$log cannot be written"
    builder=
    # shellcheck disable=SC2064
    for signal in INT TERM HUP; do trap "stop $signal" "$signal"; done
    exec 6< <(cd "$top/$folder" && exec setsid "$@" <"${input:-/dev/null}" 2>&1 7>&- 8>&-)
    builder=$!
    progress <&6
    wait "$builder" || refuse 2 "the build failed; its log is $log"
    trap - INT TERM HUP
    exec 6<&- 7>&-
}
