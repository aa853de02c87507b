# Completions of committees and of the tools for bash: `source` this file, or put it where the package bash-completion
# looks.

# Sets `word`, the word at the cursor, and `before`. Of --rule=se the word is `se`: bash cuts it at the `=`, or leaves it
# whole if COMP_WORDBREAKS has no `=`, and then `glued` is `--rule=`.
_committees_cut() {
    word=${COMP_WORDS[COMP_CWORD]} before=${COMP_WORDS[COMP_CWORD - 1]} glued=''
    if [ "$word" = = ]; then
        word=''
    elif [ "$before" = = ] && [ "$COMP_CWORD" -gt 2 ]; then
        before=${COMP_WORDS[COMP_CWORD - 2]}
    elif [[ $word == --*=* ]]; then
        before=${word%%=*} glued=${word%%=*}= word=${word#*=}
    fi
}

# Sets `words` to the values of the option $1, if it has a list of them.
_committees_values() {
    case $1 in
    --rule) words="av pav cc geom2 geom3 geom4 sav minimax seqpav seqcc revseqpav" ;;
    --property) words="jr pjr ejr ejrplus" ;;
    --method) words="hamilton dhondt saintelague huntington adams dean" ;;
    --kind) words="cat soc soi toc toi" ;;
    *) return 1 ;;
    esac
}

_committees() {
    local word before glued command=${COMP_WORDS[1]} words='' files='' given at
    local input="--kind --category --setsize --classes --names --help -h"
    COMPREPLY=()
    _committees_cut
    if [ "$COMP_CWORD" -eq 1 ]; then
        words="elect check share help --help -h"
    elif [[ " ${COMP_WORDS[*]:1:COMP_CWORD-1} " == *" -- "* ]]; then
        files=yes
    elif ! _committees_values "$before"; then
        case $before in
        --size | --committee | --seats | --votes | --after | --limit | --category | --setsize | --classes) return ;;
        *)
            files=yes
            case $command in
            elect) words="--rule --size --after --limit $input" ;;
            check) words="--property --committee $input" ;;
            share) words="--method --seats --votes --after --limit $input" ;;
            help) words="elect check share" files= ;;
            *) files= ;;
            esac
            # an option is given once
            for ((at = 2; at < ${#COMP_WORDS[@]}; at++)); do
                given=${COMP_WORDS[at]%%=*}
                if [ "$at" -ne "$COMP_CWORD" ] && [[ $given == -* ]]; then
                    words=" $words "
                    words=${words/ $given / }
                fi
            done
            ;;
        esac
    fi
    mapfile -t COMPREPLY < <(compgen -P "$glued" -W "$words" -- "$word")
    if [ -n "$files" ] && [ "${word#-}" = "$word" ]; then
        mapfile -t -O "${#COMPREPLY[@]}" COMPREPLY < <(compgen -f -- "$word")
    fi
}
complete -o filenames -F _committees committees

# A tool's options are those that its --help lists. Other words are files, or values of the option before them.
_committees_tool() {
    local word before glued words=''
    _committees_cut
    if ! _committees_values "$before" && [[ $word == -* ]]; then
        words=$("${COMP_WORDS[0]}" --help 2>/dev/null | grep -o -e '^  --[a-z-]*' -e '^  -h, --help' | sed 's/.* //')
    fi
    if [ -n "$words" ]; then
        mapfile -t COMPREPLY < <(compgen -P "$glued" -W "$words" -- "$word")
    else
        mapfile -t COMPREPLY < <(compgen -f -- "$word")
    fi
}
