#!/bin/sh
# Puts the program, its documents, its man page, the completions of three shells and the script that draws pictures in place, and takes them
# away again:
#
#     scripts/install.sh ~/.local                     the program of ./mapchain, which is proved and built first where it has to be
#     scripts/install.sh /usr/local path/to/mapchain  another program with the same commands
#     scripts/install.sh --uninstall ~/.local         takes all of it away
#
# What goes where, below the folder that is named:
#
#     bin/mapchain
#     bin/mapchain-picture                            scripts/picture.py, which takes Python 3
#     share/doc/mapchain/                             README.md and its like, docs/ with the guide and its pictures, and examples/
#     share/man/man1/mapchain.1
#     share/bash-completion/completions/mapchain
#     share/zsh/site-functions/_mapchain
#     share/fish/vendor_completions.d/mapchain.fish
set -eu

root=$(dirname "$(dirname "$(readlink -f "$0")")")
documents=share/doc/mapchain
man=share/man/man1/mapchain.1
bash=share/bash-completion/completions/mapchain
zsh=share/zsh/site-functions/_mapchain
fish=share/fish/vendor_completions.d/mapchain.fish

usage() {
    echo "install: scripts/install.sh PREFIX [PROGRAM], or scripts/install.sh --uninstall PREFIX" >&2
    exit 2
}

# Whether this can be the folder below which all goes: a word that begins with a dash would be an option of what it is given to.
is_prefix() {
    [ -n "$1" ] && [ "${1#-}" = "$1" ]
}

# Puts a file in place. Everybody can read it, whatever the umask is, in the folders that are made for it; those that exist stay as they are.
put() {
    folder=$(dirname "$prefix/$3")
    [ -d "$folder" ] || install -d -m 755 "$folder"
    install -m "$1" -- "$2" "$prefix/$3"
    echo "$prefix/$3"
}

put_all() {
    put 755 "$program" bin/mapchain
    put 755 "$root/scripts/picture.py" bin/mapchain-picture
    for file in "$root"/*.md "$root"/docs/* "$root"/examples/*.* "$root"/examples/web/*; do
        put 644 "$file" "$documents/${file#"$root"/}"
    done
    put 644 "$root/docs/mapchain.1" "$man"
    put 644 "$root/completions/mapchain.bash" "$bash"
    put 644 "$root/completions/_mapchain" "$zsh"
    put 644 "$root/completions/mapchain.fish" "$fish"
}

take_away() {
    for file in bin/mapchain bin/mapchain-picture "$man" "$bash" "$zsh" "$fish"; do
        rm -f "$prefix/$file"
    done
    rm -rf "${prefix:?}/$documents"
}

if [ "${1:-}" = --uninstall ]; then
    if [ $# -ne 2 ] || ! is_prefix "$2"; then usage; fi
    prefix=$2
    take_away
    exit
fi
if [ $# -lt 1 ] || [ $# -gt 2 ] || ! is_prefix "$1"; then usage; fi
prefix=$1
program=${2:-}
if [ -z "$program" ]; then
    program=$("$root/scripts/program-path.sh")
fi
put_all
case ":$PATH:" in
    *":$prefix/bin:"*) ;;
    *) echo "install: $prefix/bin isn't on PATH" >&2 ;;
esac
