# Completion of pdbmerge for bash. It needs only builtins.

# Offers the paths that compgen finds. One may have line feeds. So // stands behind each: no path ends so.
_pdbmerge_paths() { # COMPGEN-WORDS..
    local line path=
    # This fails where no completion is under way, as in a test.
    compopt -o filenames 2>/dev/null
    while IFS= read -r line; do
        path+=$line
        if [[ $path == *// ]]; then
            COMPREPLY+=("${path%//}")
            path=
        else
            path+=$'\n'
        fi
    done < <(compgen -S // "$@")
}

# Offers the files that end in .pdb, and the folders.
_pdbmerge_files() { # WORD
    _pdbmerge_paths -f -X '!*.pdb' -- "$1"
    _pdbmerge_paths -d -- "$1"
}

# Offers the folders.
_pdbmerge_folders() { # WORD
    _pdbmerge_paths -d -- "$1"
}

# Offers all files and folders.
_pdbmerge_any_files() { # WORD
    _pdbmerge_paths -f -- "$1"
}

# Offers those of the given words that begin as WORD does.
_pdbmerge_words() { # WORD WORDS
    mapfile -t COMPREPLY < <(compgen -W "$2" -- "$1")
}

_pdbmerge() {
    local commands='merge diff members records record types check streams info explain help'
    local sizes='512 1024 2048 4096 8192 16384 32768'
    local word=${COMP_WORDS[COMP_CWORD]}
    local before=${COMP_WORDS[COMP_CWORD - 1]}
    local command=${COMP_WORDS[1]}
    local options given k
    COMPREPLY=()
    if ((COMP_CWORD == 1)); then
        if [[ $word == -* ]]; then
            _pdbmerge_words "$word" '-h --help -V --version'
        else
            _pdbmerge_words "$word" "$commands"
        fi
        return
    fi
    case $command in
        merge) options='--guid --age --limit --block-size --max-bytes --files-from -0 --null --map --progress --no-clobber --replace --skip-refused -v --verbose -h --help' ;;
        diff) options='--origins --members --max-bytes -v --verbose -h --help' ;;
        members | records | record | types | check | streams | info) options='--max-bytes -v --verbose -h --help' ;;
        explain) options='-v --verbose -h --help' ;;
        help) options='-v --verbose' ;;
        *) return ;;
    esac
    # Bash takes = for a word of its own.
    if [[ $word == '=' ]]; then
        word=
    elif [[ $before == '=' ]]; then
        before=${COMP_WORDS[COMP_CWORD - 2]}
    fi
    case $before in
        --block-size)
            _pdbmerge_words "$word" "$sizes"
            return
            ;;
        --guid)
            _pdbmerge_words "$word" types
            return
            ;;
        --files-from | --map)
            _pdbmerge_any_files "$word"
            return
            ;;
        --age | --limit | --max-bytes) return ;;
    esac
    if [[ $word == -* ]]; then
        # Of each of these pairs one is enough.
        case " ${COMP_WORDS[*]:0:COMP_CWORD} " in
            *' --origins '* | *' --members '*) options=${options#--origins --members } ;;
            *' --no-clobber '* | *' --replace '*) options=${options/--no-clobber --replace /} ;;
        esac
        _pdbmerge_words "$word" "$options"
        return
    fi
    # How many files were given. The value behind an option is none.
    given=0
    for ((k = 2; k < COMP_CWORD; k++)); do
        case ${COMP_WORDS[k - 1]} in
            = | --guid | --age | --limit | --block-size | --max-bytes | --files-from | --map) continue ;;
        esac
        if [[ ${COMP_WORDS[k]} != -* && ${COMP_WORDS[k]} != '=' ]]; then
            given=$((given + 1))
        fi
    done
    # merge reads any number of files, diff two, explain and help none, and each other command one. The first path of
    # merge is the file that it writes: no file that is there is offered, since it would be written over.
    case $command in
        merge) if ((given < 1)); then _pdbmerge_folders "$word"; else _pdbmerge_files "$word"; fi ;;
        diff) ((given < 2)) && _pdbmerge_files "$word" ;;
        explain) ((given < 1)) && _pdbmerge_words "$word" "$(echo {1..41})" ;;
        help) ((given < 1)) && _pdbmerge_words "$word" "$commands" ;;
        *) ((given < 1)) && _pdbmerge_files "$word" ;;
    esac
}

complete -F _pdbmerge pdbmerge
