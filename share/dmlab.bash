# Completion of dmlab's words for bash: its commands, their options at a dash, and else files
# behind a command, < and >. bash-completion finds it by its name; without bash-completion,
# `source` reads it.

# the command among the words before the one that is completed, where a file behind < or > is none
_dmlab_command() {
    local word before=''
    for word in "${COMP_WORDS[@]:1:COMP_CWORD-1}"; do
        case $before:$word in
            *'<:'* | *'>:'*) ;;
            *:check | *:sim | *:threads | *:audit | *:trace | *:trace-history | *:disks | *:disks-history | *:sweep) echo "$word"; return ;;
        esac
        before=$word
    done
}

# the words that may come next
_dmlab() {
    local words='' word=${COMP_WORDS[COMP_CWORD]} before=${COMP_WORDS[COMP_CWORD-1]}
    COMPREPLY=()
    case $before in
        *'<' | *'>' | '>|') compopt -o default 2> /dev/null; return ;;
        --seed | --first | --last | =) return ;;
    esac
    case $(_dmlab_command):$word in
        :*) words='check sim threads audit trace trace-history disks disks-history sweep --help --version' ;;
        sim:-*) words='--seed --prompt --history --eio --lost --corrupt --stale --misplaced --broken-sync --fail --help' ;;
        threads:-*) words='--history --help' ;;
        trace:-* | disks:-*) words='--seed --prompt --help' ;;
        sweep:-*) words='--first --last --prompt --eio --lost --corrupt --stale --misplaced --broken-sync --fail --by-line --disks --help' ;;
        check:-*) words='--all --help' ;;
        audit:-* | trace-history:-* | disks-history:-*) words='--help' ;;
        *) compopt -o default 2> /dev/null; return ;;
    esac
    mapfile -t COMPREPLY < <(compgen -W "$words" -- "$word")
}

# the options of a tool, as its help has them, at a dash, and else files
_dmlab_tool() {
    local word=${COMP_WORDS[COMP_CWORD]}
    COMPREPLY=()
    case $word in
        -*) mapfile -t COMPREPLY < <(compgen -W "$("$1" --help 2> /dev/null | grep -oE -- '(^|[ [(])-{1,2}[a-z][a-z-]*' | tr -d ' [(' | sort -u) --help" -- "$word") ;;
        *) compopt -o default 2> /dev/null ;;
    esac
}

complete -F _dmlab dmlab
complete -F _dmlab_tool dmlab-aftermath dmlab-bundle dmlab-compare dmlab-iolog3to2 dmlab-outages dmlab-shrink dmlab-sweep dmlab-timeline
