# Completion of the words of `hume` for bash. `hume install PREFIX` puts it where bash-completion finds it; else source it.

# The ports that the streams of a source name.
_hume_ports() {
    sed -n 's/^ *stream  *[a-z][A-Za-z0-9_]*  *\(from\|to\)  *"\([^"]*\)".*/\2/p' -- "$1" 2>/dev/null | grep -v '^std_\(in\|out\)$'
}

# _hume_options WORD: the options of a word
_hume_options() {
    case $1 in
    test) echo --bless --cover ;;
    go) echo -j --force ;;
    watch) echo -w --until --width ;;
    net) echo --svg ;;
    c) echo --name --force ;;
    esac
}

# _hume_files KIND: the files of that kind, and folders on the way to them
_hume_files() {
    case $1 in
    source) compgen -o plusdirs -f -X '!*.hume' -- "$2" ;;
    folder) compgen -d -- "$2" ;;
    *) compgen -f -- "$2" ;;
    esac
}

_hume() {
    local word=${COMP_WORDS[COMP_CWORD]} kind='' ports=''
    COMPREPLY=()
    if ((COMP_CWORD == 1)); then
        mapfile -t COMPREPLY < <(compgen -W 'check run trace calc union record verify demo console why bounds net hints c test go live watch cover vcd waves page server install uninstall help --help --version --rebuild' -- "$word")
        return
    fi
    # Where the SOURCE stands, behind which there are ports, and where the last word does.
    local source=0 last=100
    case ${COMP_WORDS[1]} in
    check | why | bounds | net | hints) source=2 last=2 ;;
    live) source=2 ;;
    run | trace | calc) source=4 ;;
    union) source=5 ;;
    watch | cover | vcd | page | console) source=3 ;;
    record | verify)
        source=3
        ((COMP_CWORD != 4)) || kind=file
        ;;
    go) kind=source ;;
    c)
        kind=source
        ((COMP_CWORD != 2)) || mapfile -t COMPREPLY < <(compgen -W 'header main' -- "$word")
        ;;
    waves) [ "$COMP_CWORD" -eq 2 ] && kind=file || kind=source ;;
    test | install | uninstall) kind=folder ;;
    esac
    ((source == 0 || COMP_CWORD != source)) || kind=source
    if [[ $word == -* ]]; then
        mapfile -t COMPREPLY < <(compgen -W "$(_hume_options "${COMP_WORDS[1]}")" -- "$word")
        return
    fi
    if [ -z "$kind" ] && ((source > 0 && COMP_CWORD > source && COMP_CWORD <= last)); then
        ports=$(_hume_ports "${COMP_WORDS[source]}")
        mapfile -t COMPREPLY < <(compgen -W "$ports" -- "$word")
        return
    fi
    [ -z "$kind" ] || mapfile -t -O "${#COMPREPLY[@]}" COMPREPLY < <(_hume_files "$kind" "$word")
}

complete -o filenames -F _hume hume ./hume
