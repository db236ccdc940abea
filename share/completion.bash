# Completes the words of rpki_verify and rpki_objects in bash, 4.0 or later. tools/install puts this
# file where bash-completion finds it; without that package, write `source FILE` into ~/.bashrc.
#
# rpki_verify tells its own words: `rpki_verify --options` prints its table of commands and options.
# The calls of rpki_objects are those of SYNOPSIS in docs/rpki_objects.1, to which
# `tools/program completion --check` holds them; a word in capitals stands for what the user chooses.

_rpki_objects_calls='[--relaxed] [--registered] [--wide] content KIND FILE
[--relaxed] [--registered] [--wide] show KIND FILE
[--relaxed] [--registered] [--wide] show rta FILE
[--relaxed] [--registered] [--wide] show tal FILE
[--relaxed] [--registered] [--wide] check KIND FILE MOMENT VERDICTS TA [CA ..]
[--relaxed] [--registered] [--wide] walk FILE MOMENT VERDICTS TA [CA ..] with NAME=PATH ..
[--relaxed] [--registered] [--wide] rta FILE MOMENT VERDICTS ANCHOR ..'
_rpki_kinds='aspa manifest roa rsc'
_rpki_shown_kinds='rta'
_rpki_anchors='tal= ca='

# ---- both

# Puts the words up to the cursor into `words`. (Bash cuts words at = and : too.)
_rpki_words() {
    local line=${COMP_LINE:0:COMP_POINT} at gap word
    words=()
    for ((at = 0; at <= COMP_CWORD; at++)); do
        gap=${line%%[![:space:]]*}
        line=${line#"$gap"}
        word=${COMP_WORDS[at]}
        ((at < COMP_CWORD)) || word=$line
        line=${line#"$word"}
        if ((at == 0)) || [[ $gap ]]; then
            words+=("$word")
        else
            words[${#words[@]}-1]+=$word
        fi
    done
}

# Offers for the word $1 the words $2, and what $3 stands for, if anything.
_rpki_offer() {
    local found=$2 line
    if [[ $3 == ANCHOR && $1 != *=* ]]; then
        found+=" $_rpki_anchors"
        compopt -o nospace
    fi
    # Where nothing is found here, readline offers files, except after `+o default`.
    COMPREPLY=($(compgen -W "$found" -- "$1"))
    case $3 in
        COPY | FOLDER) compopt +o default -o plusdirs ;;
        '' | N) compopt +o default ;;
        ANCHOR) [[ $1 == *=* ]] || compopt +o default ;;
        *)
            [[ $found ]] || return 0
            compopt -o filenames
            while IFS= read -r line; do
                COMPREPLY+=("$line")
            done < <(compgen -f -- "$1")
            ;;
    esac
}

# ---- rpki_verify

# Reads the table: the commands, and of the command $1 its operands, those where no option stands,
# and of each option its value, how often it stands, and the words that its value may be, if it may
# not be any.
_rpki_rows() {
    local line choice
    local -a row forms
    while IFS= read -r line; do
        # (A tab as IFS would join empty fields.)
        line=${line//$'\t'/$'\x1f'}
        IFS=$'\x1f' read -ra row <<<"$line"
        if ((${#row[@]} == 4)); then
            commands+=" ${row[0]}"
            [[ ${row[0]} != "$1" ]] || operands=${row[1]} bare=${row[2]}
        elif [[ ${row[0]} == "$1" ]]; then
            values[${row[1]}]=${row[2]} times[${row[1]}]=${row[3]}
            line=${row[4]// or /,}
            IFS=, read -ra forms <<<"${line//, /,}"
            for choice in "${forms[@]}"; do
                [[ ! $choice =~ ^[a-z-]+$ ]] || choices[${row[1]}]+=" $choice"
            done
        fi
    done < <(rpki_verify --options 2>/dev/null)
}

# Goes over the words between the command and the cursor: puts the options among them into `stands`,
# counts the operands, and puts the option whose value is at the cursor into `option`.
_rpki_gone_past() {
    local at
    for ((at = 2; at < ${#words[@]} - 1; at++)); do
        option=
        if [[ $ended || ${words[at]} != -?* ]]; then
            ((++count))
        elif [[ ${words[at]} == -- ]]; then
            ended=yes
        else
            stands[${words[at]%%=*}]=yes
            if [[ ${values[${words[at]}]} ]]; then
                option=${words[at]}
                ((++at))
            fi
        fi
    done
    ((at == ${#words[@]})) || option=
}

# What the operand at the cursor is called.
_rpki_operand() {
    local -a forms=($operands)
    [[ ! $bare || ${stands[--ta]} ]] || ((!count)) || forms=($bare)
    local last=$((${#forms[@]} - 1))
    if ((last > 0 && count >= last)) && [[ ${forms[last]} == ... ]]; then
        echo "${forms[last - 1]}"
    else
        echo "${forms[count]}"
    fi
}

_rpki_verify() {
    local commands= operands= bare= option= ended= count=0 found=
    local -a words
    local -A values times choices stands
    _rpki_words
    local current=${words[${#words[@]}-1]}
    _rpki_rows "${words[1]}"
    if ((${#words[@]} == 2)); then
        _rpki_offer "$current" "$commands --help --version"
        return
    fi
    _rpki_gone_past
    if [[ ! $option && ! $ended && $current == -*=* ]]; then
        option=${current%%=*} current=${current#*=}
    fi
    if [[ $option ]]; then
        [[ ! ${choices[$option]} ]] || values[$option]=
        _rpki_offer "$current" "${choices[$option]}" "${values[$option]}"
    elif [[ ! $ended && $current == -* ]]; then
        for option in "${!values[@]}"; do
            [[ ${stands[$option]} && ${times[$option]} != often ]] || found+=" $option"
        done
        _rpki_offer "$current" "$found"
    else
        for option in "${!values[@]}"; do
            [[ $ended || ${stands[$option]} || ${times[$option]} != always ]] || found+=" $option"
        done
        _rpki_offer "$current" "$found" "$(_rpki_operand)"
    fi
}

# ---- rpki_objects

# Adds to `heads` each word with which the call $1 may begin, then a tab and the rest of the call.
_rpki_heads() {
    local optional='^\[([^]]*)\] ?(.*)$' many='^([^ ]+) \.\. ?(.*)$' one='^([^ ]+) ?(.*)$'
    local word rest
    if [[ $1 =~ $optional ]]; then
        word=${BASH_REMATCH[1]} rest=${BASH_REMATCH[2]}
        if [[ $word == *' ..' ]]; then
            heads+=("${word% ..}"$'\t'"$1")
        else
            heads+=("$word"$'\t'"$rest")
        fi
        _rpki_heads "$rest"
    elif [[ $1 =~ $many ]]; then
        heads+=("${BASH_REMATCH[1]}"$'\t'"[${BASH_REMATCH[1]} ..] ${BASH_REMATCH[2]}")
    elif [[ $1 =~ $one ]]; then
        heads+=("${BASH_REMATCH[1]}"$'\t'"${BASH_REMATCH[2]}")
    fi
}

# Puts into `heads` what may stand at the cursor in one of the calls.
_rpki_at_cursor() {
    local at call head
    local -a calls kinds
    IFS=$'\n' read -rd '' -a calls <<<"$_rpki_objects_calls"
    for ((at = 1; at < ${#words[@]}; at++)); do
        heads=()
        for call in "${calls[@]}"; do
            _rpki_heads "$call"
        done
        ((at < ${#words[@]} - 1)) || return 0
        calls=() kinds=()
        # A word of a call, or of a kind, goes before a file of this name.
        for head in "${heads[@]}"; do
            [[ ${head%%$'\t'*} == "${words[at]}" ]] && calls+=("${head#*$'\t'}")
            [[ $head == KIND$'\t'* ]] && kinds+=("${head#*$'\t'}")
        done
        ((${#calls[@]})) && continue
        if ((!${#kinds[@]})) || [[ " $_rpki_kinds " != *" ${words[at]} "* ]]; then
            for head in "${heads[@]}"; do
                [[ $head == [[:upper:]]* && $head != KIND$'\t'* ]] && calls+=("${head#*$'\t'}")
            done
        fi
        ((${#calls[@]})) || calls=("${kinds[@]}")
    done
}

_rpki_objects() {
    local head found= form=
    local -a words heads=()
    _rpki_words
    _rpki_at_cursor
    for head in "${heads[@]}"; do
        head=${head%%$'\t'*}
        case $head in
            KIND)
                found+=" $_rpki_kinds"
                [[ ${words[${#words[@]}-2]} == check ]] || found+=" $_rpki_shown_kinds"
                ;;
            MOMENT) found+=" $(date -u +%Y%m%d%H%M%SZ)" ;;
            [[:upper:]]*) form=$head ;;
            *) found+=" $head" ;;
        esac
    done
    _rpki_offer "${words[${#words[@]}-1]}" "$found" "$form"
}

complete -o default -F _rpki_verify rpki_verify
complete -o default -F _rpki_objects rpki_objects
