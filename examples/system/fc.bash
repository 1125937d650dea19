# fc keeps a petrol station's site: what bash completes of its words. cases/system/words holds them against --help.
# In bash fc is a command of the shell's own too. These words are completed where the program is called by its path, as
# /usr/local/bin/fc, and behind `enable -n fc`.

# Sets `takes` to the number of words that a command takes, `options` to its own options, and `kinds` to the words of
# which the first has to be one; all others are files.
_fc_command() {
    takes=0 kinds='' options=''
    case $1 in
        asm) takes=1 ;;
        dis) takes=1 options='--units' ;;
        verify) takes=1 options='--counters --context' ;;
        play | carry | report) takes=2 options='--opening' ;;
        audit) takes=2 options='--opening --days' ;;
        export) takes=3 kinds='sales decisions events' options='--json --opening' ;;
        explain) takes=3 options='--json --opening --days' ;;
        run) takes=1 options='--counters --context --trace --json' ;;
        whatif) takes=3 options='--slot --counters --context --carry --json --summary --opening --days' ;;
        follow) takes=2 ;;
        serve) takes=1 options='--journal --sync --opening --days --new-day --check' ;;
    esac
}

# Takes away the options that don't go with this one.
_fc_besides() {
    case $1 in
        --journal | --opening) options=${options/--days/} options=${options/--new-day/} options=${options/--check/} ;;
        --days | --new-day | --check) options=${options/--journal/} options=${options/--opening/} ;;
    esac
}

_fc_files() {
    compopt -o filenames 2>/dev/null
    mapfile -t COMPREPLY < <(compgen -f -- "$1")
}

_fc_folders() {
    compopt -o filenames 2>/dev/null
    mapfile -t COMPREPLY < <(compgen -d -- "$1")
}

_fc_words() { mapfile -t COMPREPLY < <(compgen -W "$1" -- "$2"); }

# The words behind an option that takes one: `--context 2`, or `--context=2`, which bash parts at its '='.
_fc_value() {
    case $1 in
        --context) _fc_words '1 2' "$2" ;;
        --journal | --opening) _fc_files "$2" ;;
        --days) _fc_folders "$2" ;;
    esac
}

_fc() {
    local commands='asm dis verify play audit carry report export explain run whatif follow serve help' takes kinds options
    local word before name='' files=0 at
    COMPREPLY=()
    word=${COMP_WORDS[COMP_CWORD]}
    before=${COMP_WORDS[COMP_CWORD - 1]}
    if [ "$word" = = ]; then
        word=''
    elif [ "$before" = = ]; then
        before=${COMP_WORDS[COMP_CWORD - 2]}
    fi
    if [ "$COMP_CWORD" = 1 ]; then
        _fc_words "$commands -h --help -V --version" "$word"
        return
    fi
    name=${COMP_WORDS[1]}
    if [ "$name" = help ]; then
        [ "$COMP_CWORD" != 2 ] || _fc_words "$commands" "$word"
        return
    fi
    case $before in
        --counters | --context | --slot | --journal | --opening | --days)
            _fc_value "$before" "$word"
            return
            ;;
    esac

    # The files that stand before this word, with a kind, and the options that don't.
    _fc_command "$name"
    for ((at = 2; at < COMP_CWORD; at++)); do
        case ${COMP_WORDS[at]} in
            --counters | --context | --slot | --journal | --opening | --days)
                # All days of a folder are audited, and other rules tried on them, without a journal.
                [ "$name ${COMP_WORDS[at]}" != 'audit --days' ] || takes=1
                [ "$name ${COMP_WORDS[at]}" != 'whatif --days' ] || takes=2
                options=${options/${COMP_WORDS[at]}/}
                _fc_besides "${COMP_WORDS[at]}"
                at=$((at + 1))
                [ "${COMP_WORDS[at]}" != = ] || at=$((at + 1))
                ;;
            -?*)
                options=${options/${COMP_WORDS[at]}/}
                _fc_besides "${COMP_WORDS[at]}"
                ;;
            *) files=$((files + 1)) ;;
        esac
    done
    case $word in
        -*) _fc_words "$options -h --help" "$word" ;;
        *)
            if [ -n "$kinds" ] && [ "$files" = 0 ]; then
                _fc_words "$kinds" "$word"
            elif [ "$files" -lt "$takes" ]; then
                _fc_files "$word"
            fi
            ;;
    esac
}
complete -F _fc fc
