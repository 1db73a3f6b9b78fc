# Completes the calls of `flow` in bash, files of workflows and stores: source completion.bash

# Offers files that end in .$1, and the folders on the way to one.
_flow_files() {
    local IFS=$'\n'
    COMPREPLY=($(compgen -f -X "!*.$1" -- "$2") $(compgen -d -- "$2"))
    compopt -o filenames 2>/dev/null
}

_flow_words() {
    COMPREPLY=($(compgen -W "$1" -- "$2"))
}

# Offers what may be the word at the cursor: an option if it begins with a dash, else by the call and how many words are before it.
_flow() {
    local word=${COMP_WORDS[COMP_CWORD]} before=${COMP_WORDS[COMP_CWORD - 1]} call=${COMP_WORDS[1]}
    COMPREPLY=()
    case $COMP_CWORD:$call:$before:$word in
        1:*) _flow_words 'check safe settle replay drive work serve history open verify' "$word" ;;
        *:work:--settings:* | *:serve:--settings:*) _flow_files toml "$word" ;;
        *:work:*:-*) _flow_words '--settings --leave-unknown' "$word" ;;
        *:serve:*:-*) _flow_words --settings "$word" ;;
        *:drive:*:-*) _flow_words '--batch --cache' "$word" ;;
        2:check:* | [23]:safe:* | [23]:settle:* | 2:replay:*) _flow_files flow "$word" ;;
        3:replay:*) COMPREPLY=($(compgen -f -- "$word")) && compopt -o filenames 2>/dev/null ;;
        2:drive:* | 2:work:* | 2:serve:* | 2:history:* | 2:open:* | 2:verify:*) _flow_files db "$word" ;;
    esac
}
complete -F _flow flow

# The page of a store.
_flow_page() {
    ((COMP_CWORD == 1)) && _flow_files db "${COMP_WORDS[1]}"
}
complete -F _flow_page page
