# Completions of figpliers for bash, written by tools/shell_files.py.
_figpliers() {
    local word=${COMP_WORDS[COMP_CWORD]} before=${COMP_WORDS[COMP_CWORD-1]} options=
    if [ "$COMP_CWORD" -eq 1 ]; then
        COMPREPLY=($(compgen -W 'errors tree links markdown text check select normal clean --help --version' -- "$word"))
        return
    fi
    case "${COMP_WORDS[1]} $before" in
        'errors --encoding') return ;;
        'tree --encoding'|'tree --fragment') return ;;
        'links --encoding'|'links --base') return ;;
        'markdown --encoding') return ;;
        'text --encoding') return ;;
        'check --encoding') return ;;
        'select --encoding'|'select --attr') return ;;
        'normal --encoding') return ;;
        'clean --print-policy'|'clean --element'|'clean --attribute'|'clean --beginning'|'clean --add'|'clean --scheme') return ;;
    esac
    case "${COMP_WORDS[1]}" in
        errors) options='--encoding --utf-8 --lossy -o --output -h --help -V --version' ;;
        tree) options='--encoding --utf-8 --lossy -o --output --fragment -h --help -V --version' ;;
        links) options='--encoding --utf-8 --lossy -o --output -h --no-filename --help -H --with-filename --base --anchors --kind --json -V --version' ;;
        markdown) options='--encoding --utf-8 --lossy -o --output -h --help -V --version' ;;
        text) options='--encoding --utf-8 --lossy -o --output -h --help -V --version' ;;
        check) options='--encoding --utf-8 --lossy -o --output -h --help -V --version' ;;
        select) options='--encoding --utf-8 --lossy -o --output --text --attr --count --json -h --help -V --version' ;;
        normal) options='--encoding --utf-8 --lossy -o --output -h --help -V --version' ;;
        clean) options='--policy --print-policy --document --table --element --attribute --beginning --add --scheme -o --output -h --help -V --version' ;;
    esac
    case "$word" in
        -*) COMPREPLY=($(compgen -W "$options" -- "$word")) ;;
        *) COMPREPLY=($(compgen -f -- "$word")) ;;
    esac
}
complete -o filenames -F _figpliers figpliers
