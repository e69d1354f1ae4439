# Completion for bash of svcs, svcadm, svccfg, svcprop, smf and smfd: their words and options, and the names of services, for which the
# server in SMF_DIR is asked.

# _smf_names WORD: the names of services and instances, without svc:/ unless WORD begins with that.
_smf_names() {
    local states name names=()
    states=$(svcs -H -a 2> /dev/null) || return
    while read -r _ name; do
        case $1 in
        svc*) names+=("$name") ;;
        *)
            name=${name#svc:/}
            names+=("$name" "${name%:*}")
            ;;
        esac
    done <<< "$states"
    printf '%s\n' "${names[@]}" | sort -u
}

# _smf_offer WORD CHOICE..: offers the choices that begin with WORD. Bash begins a new word after a colon, so what stands before
# the last one is left out.
_smf_offer() {
    local word=$1 before=
    shift
    [[ $word != *:* || $COMP_WORDBREAKS != *:* ]] || before=${word%"${word##*:}"}
    mapfile -t COMPREPLY < <(compgen -W "$*" -- "$word" | cut -c $((${#before} + 1))-)
}

# _smf_files WORD: offers files and folders.
_smf_files() {
    compopt -o filenames 2> /dev/null
    mapfile -t COMPREPLY < <(compgen -f -- "$1")
}

_smf_svcs() {
    case $1 in
    -*) _smf_offer "$1" -H -a -d -D -L -j -l -o -p -R -s -S -v -x --well --why --follow --metrics --trail ;;
    *) _smf_offer "$1" "$(_smf_names "$1")" ;;
    esac
}

_smf_svcprop() {
    case $1 in
    -*) _smf_offer "$1" -c -p ;;
    *) _smf_offer "$1" "$(_smf_names "$1")" ;;
    esac
}

_smf_svcadm() {
    local word=$1
    shift 2
    case ${1:-} in
    '') _smf_offer "$word" enable disable restart refresh clear mark signal upgrade plan sim ;;
    upgrade) _smf_files "$word" ;;
    plan)
        case "$word $*" in
        -*) _smf_offer "$word" -x -- ;;
        *' --') _smf_offer "$word" enable disable restart refresh clear mark ;;
        *' -- '*) _smf_offer "$word" "$(_smf_names "$word")" ;;
        *) _smf_files "$word" ;;
        esac
        ;;
    refresh) [[ $word = -* ]] && _smf_offer "$word" -f || _smf_offer "$word" "$(_smf_names "$word")" ;;
    enable) [[ $word = -* ]] && _smf_offer "$word" -r -s -T -t || _smf_offer "$word" "$(_smf_names "$word")" ;;
    disable) [[ $word = -* ]] && _smf_offer "$word" -s -T -t || _smf_offer "$word" "$(_smf_names "$word")" ;;
    restart) [[ $word = -* ]] && _smf_offer "$word" -s -T || _smf_offer "$word" "$(_smf_names "$word")" ;;
    signal) [[ $word = -* ]] && _smf_offer "$word" "$(kill -l | tr -s ' \t' '\n' | sed -n 's/^SIG/-/p')" || _smf_offer "$word" "$(_smf_names "$word")" ;;
    mark)
        case "$word $*" in
        -*) _smf_offer "$word" -I ;;
        *\ degraded* | *\ maintenance*) _smf_offer "$word" "$(_smf_names "$word")" ;;
        *) _smf_offer "$word" degraded maintenance ;;
        esac
        ;;
    *) _smf_offer "$word" "$(_smf_names "$word")" ;;
    esac
}

_smf_svccfg() {
    local word=$1 before=$2
    shift 2
    case $before in
    --plan | --within) ;;
    -f) _smf_files "$word" ;;
    -s | select | delete) _smf_offer "$word" "$(_smf_names "${word:-svc:}")" ;;
    *)
        if [ "${1:-}" = apply ]; then
            [[ $word = -* ]] && _smf_offer "$word" -n -x --plan --within || _smf_files "$word"
            return
        fi
        _smf_offer "$word" -s -f -k apply add delete select unselect list addpg delpg listpg setprop delprop listprop addpropvalue \
            delpropvalue listsnap selectsnap revert
        ;;
    esac
}

_smf_smf() {
    local word=$1
    shift 2
    case "${1:-} $word" in
    ' '*) _smf_offer "$word" sim run cfg why check compile export diff backup show metrics prop plan-stop audit replay serve ask --version ;;
    'sim -'*) _smf_offer "$word" --why ;;
    'run -'*) _smf_offer "$word" --follow --why ;;
    'cfg -'*) _smf_offer "$word" -f ;;
    'diff -'*) _smf_offer "$word" --exact --script --undo ;;
    'ask -'*) _smf_offer "$word" --script --whole --place ;;
    'show -'*) _smf_offer "$word" -j -l -H -o -s -S -R --json --long --metrics --well ;;
    'prop -'*) _smf_offer "$word" -c -p ;;
    'plan-stop -'*) _smf_offer "$word" --patience --method-timeout ;;
    'replay -'*) _smf_offer "$word" --until --with --then ;;
    'serve -'*) _smf_offer "$word" --record ;;
    *) _smf_files "$word" ;;
    esac
}

_smf_smfd() {
    case "$2 $1" in
    '--log '*) _smf_offer "$1" stdout ;;
    '--method-timeout '*) COMPREPLY=() ;;
    *' -'*) _smf_offer "$1" --boot --namespace --log --method-timeout --record ;;
    *) _smf_files "$1" ;;
    esac
}

# _smf: completes the word before the cursor. It has the word as it was typed, the one before it, and all that stand after the
# command and before it.
_smf() {
    local line=${COMP_LINE:0:COMP_POINT} words word=
    read -ra words <<< "$line"
    if [[ $line != *[[:blank:]] ]]; then
        word=${words[-1]}
        unset 'words[-1]'
    fi
    COMPREPLY=()
    "_smf_${words[0]##*/}" "$word" "${words[-1]}" "${words[@]:1}"
}

complete -F _smf svcs svcadm svccfg svcprop smf smfd
