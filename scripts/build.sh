# What ./run and ./install share: whether a file that is built is up to date, and how the prover builds it. The script that reads this
# file has set `me`, the name by which it speaks, and `home`, the root of the repository.

# Ends with the status and one line.
fail() {
    printf '%s: %s\n' "$me" "$2" >&2
    exit "$1"
}

# The crates of ours that those named are made of, themselves too, one on each line, in the order of crates.txt, in which a
# crate stands below those that it uses.
made_of() {
    awk -v names="$*" '
        /^[a-z]/ { line[++lines] = $0 }
        END {
            count = split(names, name, " ")
            for (i = 1; i <= count; i++) used[name[i]] = 1
            for (i = lines; i > 0; i--) {
                words = split(line[i], word, /[: ]+/)
                if (!(word[1] in used)) continue
                found = word[1] "\n" found
                for (k = 2; k <= words; k++) used[word[k]] = 1
            }
            printf "%s", found
        }' "$home/crates.txt"
}

# How many words there are.
count() {
    echo $#
}

# Whether a file is built and nothing is newer in the files and folders named after it, but for what cargo and the prover build there.
is_newest() {
    built=$1
    shift
    [ -f "$built" ] && newer=$(find "$@" \( -name target -o -name out \) -prune -o -newer "$built" -print 2>/dev/null) && [ -z "$newer" ]
}

# Whether a file that the prover builds is there and nothing of its sources is newer.
is_built() {
    is_newest "$1" "$home/crates" "$home/crates.txt"
}

# Begins a log of what is built, and remembers when.
begin_log() {
    log=$home/target/$me.log
    began=$home/target/$me.began
    mkdir -p "$home/target" && touch "$began" && : >"$log" || exit 1
}

# Says on standard error which step begins and about how long it takes on two processors.
step() {
    echo "$me: $1; about $2 on two processors" >&2
}

# Begins to build what the first word names, out of the crates that stand after the minutes that it takes. Ends if the command rt is
# missing, which is said of the file. Each crate's folder gets the folder out, in which rt works, before that, so that it is not newer
# than what is built.
begin_build() {
    what=$1 file=$2 minutes=$3
    shift 3
    command -v rt >/dev/null 2>&1 ||
        fail 1 "$file is missing or older than its sources, and the command rt, which builds it, is not on PATH"
    for folder in "$home"/crates/*/; do
        [ ! -d "$folder" ] || [ -d "${folder}out" ] || mkdir "${folder}out" || exit 1
    done
    begin_log
    step "proving $(count $(made_of "$@")) crates and building $what, unless they are proved already" "$minutes minutes"
}

# Builds it by the command rt with these words, which is run in the folder that stands before them. What the prover says goes to the
# log, and so does what a program prints: it is run once, in the folder of its crate.
build_in() {
    folder=$1
    shift
    if ! (cd "$home/$folder" && rt "$@") >>"$log" 2>&1 </dev/null; then
        tail -n 5 "$log" >&2
        fail 1 "$what is not built; the prover's whole output is in $log"
    fi
}

# Gives the files that were built the time at which this began, so that whatever was changed during it is newer.
end_build() {
    touch -r "$began" "$@" || exit 1
}
