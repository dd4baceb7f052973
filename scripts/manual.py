#!/usr/bin/env python3
"""Makes the man page and the completions of the help that the program gives, or compares them with it:

    scripts/manual.py                     compares docs/mapchain.1 and completions/ with the help of ./mapchain
    scripts/manual.py path/to/mapchain    with that of another program
    scripts/manual.py --write ..          writes them again

The version is that of CHANGELOG.md, and the program's --version must tell it. The status is 0 where all three completions and the page are as
they would be written.
"""
import argparse
import re
import subprocess
import sys
from pathlib import Path

ROOT = Path(__file__).resolve().parent.parent
HEADING = re.compile(r"([A-Z][a-z]+(?: [a-z]+)?):(?: (.+))?")


class Help:
    """The text of help, cut at its headings: what stands before the first, and the lines below each."""

    def __init__(self, text):
        self.about, self.parts, lines = [], {}, []
        self.about = lines
        for line in text.rstrip("\n").split("\n"):
            match = HEADING.fullmatch(line)
            if match and (match[2] is None or match[1] == "Usage"):
                lines = self.parts.setdefault(match[1], [])
                if match[2]:
                    lines.append(match[2])
            else:
                lines.append(line)

    def part(self, heading):
        """The lines below a heading, as far as they are indented or empty; and what follows them."""
        lines = self.parts.get(heading, [])
        end = next((i for i, line in enumerate(lines) if line and not line.startswith(" ")), len(lines))
        return lines[:end], lines[end:]

    def usage(self):
        return self.parts["Usage"][0]

    def items(self, heading):
        """What is listed below a heading, each with the lines that describe it."""
        found = []
        for line in self.part(heading)[0]:
            at = len(line) - len(line.lstrip())
            if line.strip() and at < 8:
                name, _, rest = line.strip().partition("  ")
                found.append((name, [rest.strip()] if rest else []))
            elif found:
                found[-1][1].append(line.strip())
        return found


class Program:
    def __init__(self, path):
        self.path = path
        self.top = Help(self.help("--help"))
        self.commands = [name for name, _ in self.top.items("Commands") if name != "help"]
        self.full = {name: Help(self.help(name, "--help")) for name in self.commands}
        self.short = {name: Help(self.help(name, "-h")) for name in self.commands}
        self.about = {name: " ".join(lines) for name, lines in self.top.items("Commands")}

    def help(self, *words):
        return subprocess.run([self.path, *words], check=True, capture_output=True, text=True).stdout

    def options(self, command):
        """The options of a command, without -h: the letter or none, the long name, the value's name or none, and a line on it."""
        for name, lines in self.short[command].items("Options"):
            match = re.fullmatch(r"(?:-(\w), )?--([\w-]+)(?: <(.+)>)?", name)
            if match[2] != "help":
                yield match[1], match[2], match[3], " ".join(lines)

    def explain(self):
        """The line on the option that may stand before the command, too."""
        return next(about for _, name, _, about in self.options(self.commands[0]) if name == "explain")

    def arguments(self, command):
        return [name for name, _ in self.full[command].items("Arguments")]


def troff(text):
    """A line of text as troff takes it: words in single quotation marks are bold."""
    text = text.replace("\\", "\\e")
    text = re.sub(r"(?<![A-Za-z0-9])-|-(?=-)|(?<=-)-", r"\\-", text)
    text = re.sub(r"(?<!\w)'([^'\n]+)'(?!\w)", r"\\fB\1\\fR", text)
    return ("\\&" if text[:1] in ".'" else "") + text


def running(lines):
    """Lines of help as paragraphs; those that begin with two blanks and have two columns are a list, others an example."""
    is_listed = False
    for line in lines:
        if not line:
            yield ".PP"
            is_listed = False
        elif match := re.fullmatch(r"  (\S+)  +(.*)", line):
            yield from [".TP", f"\\fB{troff(match[1])}\\fR", troff(match[2])]
            is_listed = True
        elif line.startswith("  "):
            yield from [".EX", troff(line), ".EE"]
        else:
            if is_listed:
                yield ".PP"
            yield troff(line)
            is_listed = False


def tidied(lines):
    """Without paragraphs that hold nothing."""
    kept = []
    for line in lines:
        if line == ".PP" and (not kept or kept[-1] == ".PP" or kept[-1].startswith((".SH", ".SS"))):
            continue
        if line.startswith((".SH", ".SS", ".TP")) and kept and kept[-1] == ".PP":
            kept.pop()
        kept.append(line)
    return kept


def synopsis(usage):
    """The words of a usage line: names in bold, what stands for something in italics."""
    words = re.sub(r"<([^>]+)>(\.\.\.)?", lambda m: "\\fI" + m[1] + "\\fR" + (" .." if m[2] else ""), usage.replace("-", "\\-"))
    words = words.replace("[OPTIONS]", "[\\fIoptions\\fR]")
    return re.sub(r"^mapchain( \w+)?", lambda m: "\\fB" + m[0] + "\\fR", words)


def listed(items):
    for name, lines in items:
        shown = re.sub(r"(?<!\w)-", r"\\-", name).replace("-", "\\-").replace("\\\\-", "\\-")
        shown = re.sub(r"<([^>]+)>(\.\.\.)?", lambda m: "\\fI" + m[1] + "\\fB" + (" .." if m[2] else ""), shown)
        yield from [".TP", f"\\fB{shown}\\fR", *(troff(line) for line in lines)]


def command_page(program, name):
    page = program.full[name]
    yield f".SS {name}"
    yield from [synopsis(page.usage()), ".PP"]
    yield from running(page.about)
    yield from listed(page.items("Arguments"))
    yield from listed(item for item in page.items("Options") if "--help" not in item[0])
    for heading, lines in page.parts.items():
        if heading in ("Usage", "Arguments", "Options"):
            continue
        inside, behind = page.part(heading)
        yield from [".PP", f"{heading}:", *running(inside)]
        yield from [".PP", *running(line for line in behind if "lists the exit statuses" not in line)]


def manual(program, version):
    top = program.top
    yield f'.TH MAPCHAIN 1 "" "mapchain {version}" "User commands"'
    yield from [".ad l", ".SH NAME", "mapchain \\- " + troff(top.about[0][0].lower() + top.about[0][1:].rstrip(".")), ".SH SYNOPSIS"]
    for name in program.commands:
        yield from [".PP" if name == program.commands[0] else ".br", synopsis(program.full[name].usage())]
    yield from [".SH DESCRIPTION", *running(top.about[2:]), ".SH COMMANDS"]
    for name in program.commands:
        yield from command_page(program, name)
    for heading in top.parts:
        if heading in ("Usage", "Commands", "Options"):
            continue
        inside, behind = top.part(heading)
        yield f".SH {heading.upper()}"
        if all(re.fullmatch(r"  (\S+)  +.*", line) for line in inside if line):
            yield from listed(top.items(heading))
        else:
            yield from running(inside)
        yield from [".PP", *running(line for line in behind if "--help' and the like" not in line)]
    yield from [
        ".SH DIAGNOSTICS",
        "What is refused is reported by one line on standard error, as",
        ".EX", "  error: layer 0 G8 ShortRing feature 2", ".EE",
        "Layers and features count from zero, so this is the third feature of the first layer.",
        "\\fIdocs/FAULTS.md\\fR explains each code by an example and says what to do,",
        "\\fIdocs/FORMATS.md\\fR describes all texts exactly, and \\fIdocs/GUIDE.md\\fR makes a map step by step.",
        ".SH SEE ALSO",
        "\\fBogr2ogr\\fR(1), \\fBgzip\\fR(1)",
        ".PP",
        "RFC 7946, The GeoJSON Format; The TopoJSON Format Specification 1.0;",
        "M. Visvalingam and J. D. Whyatt, Line generalisation by repeated elimination of points, 1993.",
    ]


BASH = r"""# Completion of mapchain for bash; made by scripts/manual.py. A shell reads it from share/bash-completion/completions, or by `source`.

# Layers of the files here that begin with a word, or of those in a folder that it names: each under its name without the ending. And folders.
_mapchain_layers() {
    local folder= file layer
    if [[ $1 == */* ]]; then folder=${1%/*}/; fi
    for file in "$folder"*.json "$folder"*.geojson; do
        layer=${file#"$folder"}
        printf -v layer %q "${layer%.*}=$file"
        if [ -f "$file" ] && [[ $layer == "$1"* || $folder && $file == "$1"* ]]; then COMPREPLY+=("$layer"); fi
    done
    for file in "$1"*/; do
        if [ -d "$file" ]; then COMPREPLY+=("$(printf %q "$file")"); fi
    done
    if [ ${#COMPREPLY[@]} = 1 ] && [[ ${COMPREPLY[0]} == */ ]]; then compopt -o nospace; fi
}

_mapchain_files() {
    compopt -o filenames
    mapfile -t COMPREPLY < <(compgen -f -- "$1")
}

# The files and folders for what stands after = in a text that is not parted there. What was typed of name and folder stays as it is, and what
# comes after it is quoted; but where a quotation mark is open, as a second argument says, bash itself quotes the whole of it.
_mapchain_layer_files() {
    local start=${1%%=*}= typed=${1#*=} file slash
    if [ "$2" ]; then
        compopt -o filenames
    elif [[ $typed == */* ]]; then
        start+=${typed%/*}/
    fi
    while IFS= read -r file; do
        slash=
        if [ -d "$file" ]; then slash=/; fi
        if [ -z "$2" ]; then printf -v file %q "${file##*/}"; fi
        COMPREPLY+=("$start$file$slash")
    done < <(compgen -f -- "$typed")
    if [ ${#COMPREPLY[@]} = 1 ] && [[ ${COMPREPLY[0]} == */ ]]; then compopt -o nospace; fi
}

# The objects of the topologies among all words, as `stat` names them, but for names that JSON escapes.
_mapchain_objects() {
    local file name
    for file in "${COMP_WORDS[@]:2}"; do
        if [ ! -f "$file" ]; then continue; fi
        while IFS= read -r name; do
            printf -v name %q "$name"
            if [[ $name == "$1"* ]]; then COMPREPLY+=("$name"); fi
        done < <("${COMP_WORDS[0]}" stat -- "$file" 2>/dev/null | sed -n 's/^"\([^\\]*\)" [0-9]*$/\1/p')
    done
}

_mapchain_words() {
    mapfile -t COMPREPLY < <(compgen -W "$2" -- "$1")
}

_mapchain() {
    local word=${COMP_WORDS[COMP_CWORD]} at=$((COMP_CWORD - 1)) command= quoted= i
    COMPREPLY=()
    # Where a quotation mark is open, the text to complete, $2, begins behind it.
    if [[ ${COMP_LINE:0:COMP_POINT} == *[\"\']"$2" ]]; then quoted=yes; fi
    for ((i = 1; i < COMP_CWORD; i++)); do
        case ${COMP_WORDS[i]} in
            -*) ;;
            *) command=${COMP_WORDS[i]}; break ;;
        esac
    done
    # Where = parts words, what stands after it is a word of its own.
    if [ "$word" = = ]; then
        word= at=$COMP_CWORD
    fi
    local before=${COMP_WORDS[at]}
    if [ "$before" = = ] && [[ ${COMP_WORDS[at-1]} == --* ]]; then
        before=${COMP_WORDS[at-1]}
    fi
    case $before in
        @FILES@) _mapchain_files "$word"; return ;;
        --object) _mapchain_objects "$word"; return ;;
        @VALUED@) return ;;
    esac
    case $command in
        '') _mapchain_words "$word" '@COMMANDS@' ;;
@CASES@
        help) _mapchain_words "$word" '@NAMES@' ;;
    esac
}
complete -F _mapchain mapchain
"""

def spellings(option):
    """An option as a word: by its letter, if it has one, and by its name."""
    letter, name, _, _ = option
    return [f"-{letter}"] * bool(letter) + [f"--{name}"]


BASH_FILES = """                *) _mapchain_files "$word" ;;"""
BASH_LAYERS = """                *)
                    if [ "$before" = = ]; then
                        _mapchain_files "$word"
                    elif [[ $2 == *=* ]]; then
                        _mapchain_layer_files "$2" "$quoted"
                    elif [[ $quoted && $word == *=* ]]; then
                        _mapchain_files "$2"
                    elif [ -z "$quoted" ]; then
                        _mapchain_layers "$word"
                    fi
                    ;;"""


def bash(program):
    options = [option for each in program.commands for option in program.options(each)]
    valued = sorted({f"--{name}" for _, name, value, _ in options if value and value != "FILE" and name != "object"})
    files = sorted({word for option in options if option[2] == "FILE" for word in spellings(option)})
    cases = []
    for command in program.commands:
        words = " ".join([word for option in program.options(command) for word in spellings(option)] + ["--help"])
        takes_layers = any("=" in name for name in program.arguments(command))
        cases += [
            f"        {command})",
            "            case $word in",
            f"                -*) _mapchain_words \"$word\" '{words}' ;;",
            BASH_LAYERS if takes_layers else BASH_FILES,
            "            esac",
            "            ;;",
        ]
    commands = " ".join(program.commands)
    names = f"{commands} help --help --version --explain"
    filled = BASH.replace("@VALUED@", " | ".join(valued)).replace("@FILES@", " | ".join(files))
    return filled.replace("@COMMANDS@", names).replace("@NAMES@", commands).replace("@CASES@", "\n".join(cases))


ZSH = r"""#compdef mapchain
# Completion of mapchain for zsh; made by scripts/manual.py. A shell reads it from a folder of $fpath, under the name _mapchain.

# A layer: its name, and after = its file.
_mapchain_layer() {
    if compset -P '*='; then
        _files
        return
    fi
    local -a layers
    local file
    for file in *.json(N) *.geojson(N); do layers+=("${file%.*}=$file"); done
    compadd -a layers || _message 'NAME=PATH'
}

# The objects of the topologies among all words, as `stat` names them, but for names that JSON escapes.
_mapchain_objects() {
    local file
    local -a objects
    for file in ${(Q)words}; do
        if [[ ! -f $file ]]; then continue; fi
        objects+=(${(f)"$($program stat -- $file 2>/dev/null | sed -n 's/^"\([^\\]*\)" [0-9]*$/\1/p')"})
    done
    compadd -a objects || _message NAME
}

_mapchain() {
    local state line program=${(Q)words[1]}
    local -a commands=(
@COMMANDS@
        'help:Print the help of a command'
    )
    _arguments -C '(- *)'{-h,--help}'[print help]' '(- *)'{-V,--version}'[print the version]' '--explain[@EXPLAIN@]' '1: :->command' '*:: :->words'
    case $state in
        command) _describe command commands ;;
        words)
            case $line[1] in
@CASES@
                help) _describe command commands ;;
            esac ;;
    esac
}

_mapchain "$@"
"""


def zsh_text(text):
    return text.replace("'", "'\\''").replace("[", "\\[").replace("]", "\\]").replace(":", "\\:")


def zsh(program):
    commands = [f"        '{name}:{zsh_text(program.about[name])}'" for name in program.commands]
    cases = []
    for command in program.commands:
        words = ["'(- *)'{-h,--help}'[print help]'"]
        for letter, name, value, about in program.options(command):
            text, files = zsh_text(about), "_files" if value == "FILE" else "_mapchain_objects" if name == "object" else " "
            if letter and value:
                words.append(f"'(-{letter} --{name})'{{-{letter}+,--{name}=}}'[{text}]:{value}:{files}'")
            elif letter:
                words.append(f"'(-{letter} --{name})'{{-{letter},--{name}}}'[{text}]'")
            else:
                words.append(f"'--{name}=[{text}]:{value}:{files}'" if value else f"'--{name}[{text}]'")
        takes_layers = any("=" in name for name in program.arguments(command))
        words.append("'*:layer:_mapchain_layer'" if takes_layers else "'1:topology:_files'")
        cases.append(f"                {command}) _arguments " + " \\\n                    ".join(words) + " ;;")
    filled = ZSH.replace("@COMMANDS@", "\n".join(commands)).replace("@CASES@", "\n".join(cases))
    return filled.replace("@EXPLAIN@", zsh_text(program.explain()))


FISH = r"""# Completion of mapchain for fish; made by scripts/manual.py. A shell reads it from share/fish/vendor_completions.d.

# Layers of the files here: each under its name without the ending.
function __mapchain_layers
    for file in *.json *.geojson
        echo (string replace -r '\.[^.]*$' '' -- $file)=$file
    end
end

# The objects of the topologies among all words, as `stat` names them, but for names that JSON escapes.
function __mapchain_objects
    set -l words (commandline -op)
    for file in $words[2..]
        if test -f $file
            $words[1] stat -- $file 2>/dev/null | string replace -rf '^"([^\\\\]*)" \d+$' '$1'
        end
    end
end

complete -c mapchain -n __fish_use_subcommand -f
complete -c mapchain -s h -l help -d 'Print help'
complete -c mapchain -n __fish_use_subcommand -s V -l version -d 'Print the version'
complete -c mapchain -n __fish_use_subcommand -l explain -d '@EXPLAIN@'
"""


def fish_text(text):
    return text.replace("\\", "\\\\").replace("'", "\\'")


def fish(program):
    lines = [FISH.rstrip("\n").replace("@EXPLAIN@", fish_text(program.explain()))]
    for name in program.commands:
        lines.append(f"complete -c mapchain -n __fish_use_subcommand -a {name} -d '{fish_text(program.about[name])}'")
    lines.append("complete -c mapchain -n __fish_use_subcommand -a help -d 'Print the help of a command'")
    lines.append(f"complete -c mapchain -n '__fish_seen_subcommand_from help' -f -a '{' '.join(program.commands)}'")
    for command in program.commands:
        seen = f"'__fish_seen_subcommand_from {command}'"
        for letter, name, value, about in program.options(command):
            takes = " -r -F" if value == "FILE" else " -x" if value else ""
            takes += " -a '(__mapchain_objects)'" if name == "object" else ""
            short = f" -s {letter}" if letter else ""
            lines.append(f"complete -c mapchain -n {seen}{short} -l {name}{takes} -d '{fish_text(about)}'")
        if any("=" in name for name in program.arguments(command)):
            lines.append(f"complete -c mapchain -n {seen} -a '(__mapchain_layers)' -d Layer")
    return "\n".join(lines) + "\n"


def main():
    parser = argparse.ArgumentParser(description="Makes the man page and the completions of the help that the program gives.")
    parser.add_argument("program", nargs="?", help="the program; without it, that of ./mapchain")
    parser.add_argument("--write", action="store_true", help="write them again")
    words = parser.parse_args()
    path = words.program
    if not path:
        path = subprocess.run([ROOT / "scripts" / "program-path.sh"], check=True, capture_output=True, text=True).stdout.strip()
    program = Program(str(Path(path).resolve()))
    version = re.search(r"^## (\d+\.\d+\.\d+)", (ROOT / "CHANGELOG.md").read_text(), re.MULTILINE)[1]
    files = {
        "docs/mapchain.1": "\n".join(tidied(manual(program, version))) + "\n",
        "completions/mapchain.bash": bash(program),
        "completions/_mapchain": zsh(program),
        "completions/mapchain.fish": fish(program),
    }
    otherwise = 0
    if program.help("--version") != f"mapchain {version}\n":
        otherwise += 1
        print(f"manual: --version doesn't tell that of CHANGELOG.md, {version}")
    for name, text in files.items():
        file = ROOT / name
        if file.exists() and file.read_text() == text:
            continue
        otherwise += 1
        print(f"manual: {name} {'is written again' if words.write else 'is not what the help gives; scripts/manual.py --write makes it'}")
        if words.write:
            file.parent.mkdir(exist_ok=True)
            file.write_text(text)
    print(f"manual: {len(files)} files of the help of {len(program.commands)} commands, {otherwise} otherwise than they stood")
    sys.exit(0 if words.write or not otherwise else 1)


if __name__ == "__main__":
    main()
