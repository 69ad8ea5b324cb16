# Completions for bash of kelindap-sheet, kelindap-trace, kelindap-unit, kelindap-device and kelindap-tool: commands, options and forms, as the synopsis of the
# program's own --help has them, so that what is offered is what there is; and names of files.
# Installed for each program under its name, where bash-completion finds it.

_kelindap() {
    local program=$1 word=$2 help command='' offered='' line rest i
    help=$("$program" --help 2> /dev/null) || return 0
    COMPREPLY=()
    # the synopsis, without the program's name
    local forms
    forms=$(awk '/^SYNOPSIS$/ { on = 1; next } /^[^ ]/ { on = 0 } on && NF { sub(/^ *[^ ]+ */, ""); print }' <<< "$help")
    # the command is the first word; of two words where a form has both
    if ((COMP_CWORD > 1)); then
        command=${COMP_WORDS[1]}
        if ((COMP_CWORD > 2)) && grep -q "^$command ${COMP_WORDS[2]} " <<< "$forms"; then
            command+=" ${COMP_WORDS[2]}"
        fi
    fi
    if [ -z "$command" ]; then
        # commands, and options that stand alone
        offered=$(awk '/^COMMAND / { next } NF { print $1 }' <<< "$forms")
        mapfile -t COMPREPLY < <(compgen -W "$offered" -- "$word")
        return 0
    fi
    line=$(grep -e "^$command " <<< "$forms" | awk -v words="$(wc -w <<< "$command")" '{ for (i = words + 1; i <= NF; i++) printf "%s ", $i }')
    # and what every command has
    line+=$(sed -n 's/^COMMAND \.\. //p' <<< "$forms")
    case $word in
    -*)
        # the command's options that do not stand there yet
        offered=--help
        for rest in $(tr -d '[]' <<< "$line"); do
            case $rest in
            --*) case " ${COMP_WORDS[*]:0:COMP_CWORD} " in *" $rest "*) ;; *) offered+=" $rest" ;; esac ;;
            esac
        done
        mapfile -t COMPREPLY < <(compgen -W "$offered" -- "$word")
        return 0
        ;;
    esac
    # the words that the command takes now: a second one of its name, a form of recordings
    i=$((COMP_CWORD))
    if ((i == 2)); then
        offered=$(awk -v first="$command" '$1 == first && $2 ~ /^[a-z]+$/ { print $2 }' <<< "$forms")
        case $line in
        FORM\ *) offered=$(awk '/^FORMS$/ { on = 1; next } /^[^ ]/ { on = 0 } on && /^    [a-z]/ { print $1 }' <<< "$help") ;;
        esac
    fi
    if [ -n "$offered" ]; then
        mapfile -t COMPREPLY < <(compgen -W "$offered" -- "$word")
        case $line in FORM\ *) return 0 ;; esac
    fi
    # names of files; of folders where one is asked for
    local files=-f
    case "$line" in
    DIR\ *) [ "$i" != 2 ] || files=-d ;;
    esac
    mapfile -t -O "${#COMPREPLY[@]}" COMPREPLY < <(compgen "$files" -- "$word")
    compopt -o filenames 2> /dev/null || true
}

complete -F _kelindap kelindap-sheet kelindap-trace kelindap-unit kelindap-device kelindap-tool
