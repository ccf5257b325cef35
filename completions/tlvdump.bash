# Completion of tlvdump and tlvdump-show for bash.

# The words of $1 that begin with the word that is completed, or the files.
_tlvdump_words() {
    mapfile -t COMPREPLY < <(compgen -W "$1" -- "$word")
}

_tlvdump_files() {
    compopt -o filenames 2>/dev/null
    mapfile -t COMPREPLY < <(compgen -f -- "$word")
}

# Completes the value of the option $before, if it has one. An option with "=" is one word, or three if "=" splits words.
_tlvdump_value() {
    case $before in
    --names) _tlvdump_files ;;
    --rules) _tlvdump_words "ber der cer" ;;
    --as) _tlvdump_words "octets ber der cer pem dump hex numbers base64 runs" ;;
    --limit | --offset | --inside) ;;
    *) return 1 ;;
    esac
}

# Completes the value after "=", with the text before it if both are one word.
_tlvdump_assigned() {
    local front=
    case $word in
    --*=*)
        before=${word%%=*}
        front=$before=
        word=${word#*=}
        ;;
    =)
        word=
        ;;
    *)
        [ "$before" = = ] || return 1
        before=${COMP_WORDS[COMP_CWORD - 2]}
        ;;
    esac
    _tlvdump_value && COMPREPLY=("${COMPREPLY[@]/#/$front}")
}

_tlvdump_complete() {
    if _tlvdump_assigned || _tlvdump_value; then
        return
    fi
    if [ "${word#-}" != "$word" ]; then
        _tlvdump_words "$1"
    else
        _tlvdump_files
    fi
}

_tlvdump() {
    local word=${COMP_WORDS[COMP_CWORD]} before=${COMP_WORDS[COMP_CWORD - 1]} options=
    COMPREPLY=()
    if [ "$COMP_CWORD" -eq 1 ]; then
        _tlvdump_words "dump check extract indef --help --version"
        return
    fi
    case ${COMP_WORDS[1]} in
    dump) options="--rules --limit --pure --names --inside --padding --help" ;;
    check) options="--rules --inside --padding --help" ;;
    extract) options="--offset --contents --inside --padding --help" ;;
    indef) options="--padding --help" ;;
    esac
    _tlvdump_complete "$options"
}

_tlvdump_show() {
    local word=${COMP_WORDS[COMP_CWORD]} before=${COMP_WORDS[COMP_CWORD - 1]}
    COMPREPLY=()
    _tlvdump_complete "$(_tlvdump_show_options)"
}

# The options of tlvdump-show that go with what it is to do, which is said by a word before.
_tlvdump_show_options() {
    case " ${COMP_WORDS[*]:1:COMP_CWORD-1} " in
    *" --check "*) echo "--as --rules --closed --padding --help" ;;
    *" --offset"[\ =]*) echo "--as --contents --padding --help" ;;
    *" --offsets "* | *" --raw "*) echo "--as --padding --help" ;;
    *" --why "*) echo "--as --closed --padding --help" ;;
    *)
        echo "--as --rules --limit --pure --names --closed --no-text --padding --check --offset --contents --offsets --raw" \
            "--why --help --version"
        ;;
    esac
}

complete -F _tlvdump tlvdump
complete -F _tlvdump_show tlvdump-show
