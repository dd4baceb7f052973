# Completion of mapchain for bash; made by scripts/manual.py. A shell reads it from share/bash-completion/completions, or by `source`.

# Layers of the files here that begin with a word, or of those in a folder that it names: each under its name without the ending. And folders.
_mapchain_layers() {
    local folder= file layer
    if [[ $1 == */* ]]; then folder=${1%/*}/; fi
    for file in "$folder"*.json "$folder"*.geojson; do
        layer=${file#"$folder"}
        printf -v layer %q "${layer%.*}=$file"
        if [ -f "$file" ] && [[ $layer == "$1"* || $folder && $file == "$1"* ]]; then COMPREPLY+=("$layer"); fi
    done
    for file in "$1"*/; do
        if [ -d "$file" ]; then COMPREPLY+=("$(printf %q "$file")"); fi
    done
    if [ ${#COMPREPLY[@]} = 1 ] && [[ ${COMPREPLY[0]} == */ ]]; then compopt -o nospace; fi
}

_mapchain_files() {
    compopt -o filenames
    mapfile -t COMPREPLY < <(compgen -f -- "$1")
}

# The files and folders for what stands after = in a text that is not parted there. What was typed of name and folder stays as it is, and what
# comes after it is quoted; but where a quotation mark is open, as a second argument says, bash itself quotes the whole of it.
_mapchain_layer_files() {
    local start=${1%%=*}= typed=${1#*=} file slash
    if [ "$2" ]; then
        compopt -o filenames
    elif [[ $typed == */* ]]; then
        start+=${typed%/*}/
    fi
    while IFS= read -r file; do
        slash=
        if [ -d "$file" ]; then slash=/; fi
        if [ -z "$2" ]; then printf -v file %q "${file##*/}"; fi
        COMPREPLY+=("$start$file$slash")
    done < <(compgen -f -- "$typed")
    if [ ${#COMPREPLY[@]} = 1 ] && [[ ${COMPREPLY[0]} == */ ]]; then compopt -o nospace; fi
}

# The objects of the topologies among all words, as `stat` names them, but for names that JSON escapes.
_mapchain_objects() {
    local file name
    for file in "${COMP_WORDS[@]:2}"; do
        if [ ! -f "$file" ]; then continue; fi
        while IFS= read -r name; do
            printf -v name %q "$name"
            if [[ $name == "$1"* ]]; then COMPREPLY+=("$name"); fi
        done < <("${COMP_WORDS[0]}" stat -- "$file" 2>/dev/null | sed -n 's/^"\([^\\]*\)" [0-9]*$/\1/p')
    done
}

_mapchain_words() {
    mapfile -t COMPREPLY < <(compgen -W "$2" -- "$1")
}

_mapchain() {
    local word=${COMP_WORDS[COMP_CWORD]} at=$((COMP_CWORD - 1)) command= quoted= i
    COMPREPLY=()
    # Where a quotation mark is open, the text to complete, $2, begins behind it.
    if [[ ${COMP_LINE:0:COMP_POINT} == *[\"\']"$2" ]]; then quoted=yes; fi
    for ((i = 1; i < COMP_CWORD; i++)); do
        case ${COMP_WORDS[i]} in
            -*) ;;
            *) command=${COMP_WORDS[i]}; break ;;
        esac
    done
    # Where = parts words, what stands after it is a word of its own.
    if [ "$word" = = ]; then
        word= at=$COMP_CWORD
    fi
    local before=${COMP_WORDS[at]}
    if [ "$before" = = ] && [[ ${COMP_WORDS[at-1]} == --* ]]; then
        before=${COMP_WORDS[at-1]}
    fi
    case $before in
        --output | --report | -o) _mapchain_files "$word"; return ;;
        --object) _mapchain_objects "$word"; return ;;
        --grid | --keep | --max-positions | --min-area | --min-ring-area) return ;;
    esac
    case $command in
        '') _mapchain_words "$word" 'build simplify geo stat help --help --version --explain' ;;
        build)
            case $word in
                -*) _mapchain_words "$word" '--grid --min-area --keep --min-ring-area --no-crossings --keep-shapes --exact -o --output --report --explain -q --quiet --help' ;;
                *)
                    if [ "$before" = = ]; then
                        _mapchain_files "$word"
                    elif [[ $2 == *=* ]]; then
                        _mapchain_layer_files "$2" "$quoted"
                    elif [[ $quoted && $word == *=* ]]; then
                        _mapchain_files "$2"
                    elif [ -z "$quoted" ]; then
                        _mapchain_layers "$word"
                    fi
                    ;;
            esac
            ;;
        simplify)
            case $word in
                -*) _mapchain_words "$word" '--min-area --keep --min-ring-area --no-crossings --keep-shapes -o --output --report --explain -q --quiet --help' ;;
                *) _mapchain_files "$word" ;;
            esac
            ;;
        geo)
            case $word in
                -*) _mapchain_words "$word" '--object --max-positions -o --output --report --explain --help' ;;
                *) _mapchain_files "$word" ;;
            esac
            ;;
        stat)
            case $word in
                -*) _mapchain_words "$word" '--crossings -o --output --report --explain --help' ;;
                *) _mapchain_files "$word" ;;
            esac
            ;;
        help) _mapchain_words "$word" 'build simplify geo stat' ;;
    esac
}
complete -F _mapchain mapchain
