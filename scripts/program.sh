# What the launcher, the gate and the scripts of a release share: where the program is, what it is made of, and how it is
# proved and built. It is read by `.`, where $root is the top of the repository.

built=$root/crates/mapchain/out/mapchain
released=$root/release/mapchain
record=$root/release/record
# What is kept beside the release, and not committed: the sum of the tree's sources, and the verdict on the program that was
# built last.
beside=$root/release/out

fail() {
    echo "mapchain: $2" >&2
    exit "$1"
}

# The lines of crates.txt of the crates that the program is made of: its own, and those that it stands on.
crate_lines() {
    awk '
        function take(crate,    each, i, n) {
            if (crate in taken || !(crate in stands)) return
            taken[crate] = 1
            n = split(stands[crate], each, " ")
            for (i = 1; i <= n; i++) take(each[i])
        }
        !/^#/ && $1 ~ /:$/ { name = substr($1, 1, length($1) - 1); order[++crates] = name; line[name] = $0; $1 = ""; stands[name] = $0 }
        END { take("mapchain"); for (i = 1; i <= crates; i++) if (order[i] in taken) print line[order[i]] }' "$root/crates.txt"
}

# The folders of the files that the program is made of.
source_folders() {
    crate_lines | sed 's|:.*||' | while read -r crate; do
        for part in src specs proofs; do
            if [ -d "$root/crates/$crate/$part" ]; then echo "crates/$crate/$part"; fi
        done
    done
}

# Whether a source is newer than a file, by its time or by that of its last change, which is noted where a file is written, named, or put
# there with an older time. A folder is newer where a file in it came or went. Where `find` can't tell, a source counts as newer.
is_older_than_sources() {
    newer=$(cd "$root" && find crates.txt $(source_folders) \( -newer "$1" -o -newercm "$1" \) -print 2>/dev/null) || return 0
    [ -n "$newer" ]
}

sum_of() {
    sha256sum <"$1" | cut -c 1-64
}

# The sum of all that the program is made of: the lines of crates.txt, and each file with its path.
take_sum() {
    (
        cd "$root" || exit
        {
            crate_lines
            find $(source_folders) -type f -print 2>/dev/null | LC_ALL=C sort | tr '\n' '\0' | xargs -0 sha256sum
        } | sha256sum | cut -c 1-64
    )
}

# The same, as it was kept the last time, where no source is newer.
sum_of_sources() {
    if [ -f "$beside/sum" ] && ! is_older_than_sources "$beside/sum"; then
        cat "$beside/sum"
        return
    fi
    # A source that is saved while the sum is taken is newer than this file.
    if mark=$(mkdir -p "$beside" 2>/dev/null && mktemp "$beside/mark.XXXXXX" 2>/dev/null); then
        sum=$(take_sum)
        echo "$sum" >"$mark.sum" && touch -r "$mark" "$mark.sum" && mv -f "$mark.sum" "$beside/sum"
        rm -f "$mark"
    else
        sum=$(take_sum)
    fi
    echo "$sum"
}

# What the release's record has of it: its sources, its program, its verdict or its kit.
told() {
    sed -n "s/^$1 //p" "$record" 2>/dev/null
}

# Whether this is a file that may be run.
is_program() {
    [ -f "$1" ] && [ -x "$1" ]
}

is_released() {
    [ -f "$released" ] && [ "$(told sources)" = "$(sum_of_sources)" ]
}

is_whole() {
    [ "$(told program)" = "$(sum_of "$released")" ]
}

# Keeps the verdict on the program that was built: the prover's line in what `rt ci` said, where it proved the program in that run;
# else the one that is told of the same program already; else rt's word that an earlier run on this machine proved it.
keep_verdict() {
    built_sum=$(sum_of "$built")
    line=$(sed -n '/^== mapchain$/,/^rt: mapchain /{/^logic=/p;}' "$1")
    [ -n "$line" ] || line=$(sed -n "s/^$built_sum //p" "$beside/verdict" 2>/dev/null)
    [ -n "$line" ] || [ "$(told program)" != "$built_sum" ] || line=$(told verdict)
    [ -n "$line" ] || line=$(sed -n 's/^rt: \(mapchain is kept: .*\)/\1/p' "$1")
    mkdir -p "$beside" && printf '%s %s\n' "$built_sum" "$line" >"$beside/verdict"
}

# Reads what `rt ci` says: keeps it, and reports each crate that has ended. The last line is its status.
follow() {
    ended=0
    while IFS= read -r line; do
        printf '%s\n' "$line" >>"$room/log"
        case $line in
            "rt: "*" proved" | "rt: "*" is kept: "*)
                ended=$((ended + 1))
                line=${line#rt: }
                echo "mapchain: $ended of $total: ${line%%:*}, after $(($(date +%s) - began)) seconds" >&2
                ;;
        esac
    done
}

# Proves and builds the program, by `rt ci` over a copy of just the crates that it is made of, without their must-fail edits.
# With the word --anew all is proved from nothing, else over what earlier runs on this machine proved of the same files.
prove_and_build() {
    [ ! -d "$built" ] || fail 125 "crates/mapchain/out/mapchain is a folder, so no program can be built there"
    command -v rt >/dev/null || fail 127 "the program has to be proved and built, and the toolchain's command 'rt' isn't on PATH"
    room=$(mktemp -d) || fail 125 "there is no room for a temporary folder"
    trap 'rm -rf "$room"' EXIT
    trap 'exit 130' INT TERM
    began=$(date +%s)
    crate_lines >"$room/crates.txt"
    total=$(wc -l <"$room/crates.txt")
    cp "$root/HANDLES" "$room"
    # (rt ci takes the top of a repository)
    mkdir "$room/.git" "$room/crates"
    while read -r crate _; do
        crate=${crate%:}
        cp -R "$root/crates/$crate" "$room/crates" || fail 125 "the sources can't be copied"
        rm -rf "$room/crates/$crate/out" "$room/crates/$crate/must-fail"
    done <"$room/crates.txt"
    echo "mapchain: proving $total crates, which takes half an hour on four processors where none is proved yet" >&2
    # (an rt that keeps no proofs proves all from nothing in any case, and doesn't know the word)
    if [ "${1:-}" = --anew ] && ! rt --help | grep -q -e --anew; then
        shift
    fi
    { (cd "$room" && rt ci "$@") 2>&1; echo "status $?"; } | follow
    if [ "$(tail -n 1 "$room/log")" != "status 0" ]; then
        cat "$room/log" >&2
        fail 125 "the program isn't proved"
    fi
    # A source that was saved while rt ran is newer than the program.
    {
        mkdir -p "$(dirname "$built")" &&
            cp "$room/crates/mapchain/out/mapchain" "$built.new" &&
            touch -r "$room/crates.txt" "$built.new" &&
            mv -f "$built.new" "$built"
    } || fail 125 "the program can't be put into crates/mapchain/out"
    keep_verdict "$room/log"
    echo "mapchain: proved and built after $(($(date +%s) - began)) seconds" >&2
    rm -rf "$room"
    trap - EXIT INT TERM
}

# Chooses the program that ./mapchain runs: the one that was built here, where no source is newer; else the released one, where it
# was made of these very sources and is whole; else one that is proved and built first. It is said, with status 125, where the released
# one would be run and may not: its permission takes a word, and a proof takes half an hour.
choose_program() {
    program=$built
    if is_program "$built" && ! is_older_than_sources "$built"; then
        return
    fi
    if ! is_released; then
        echo "mapchain: release/ has no program that was made of these very sources" >&2
    elif ! is_whole; then
        echo "mapchain: release/mapchain isn't the program whose sum release/record has, so it isn't run" >&2
    else
        is_program "$released" || fail 125 "release/mapchain may not be run: it takes 'chmod +x release/mapchain', and a file system that runs programs"
        program=$released
        return
    fi
    prove_and_build
}
