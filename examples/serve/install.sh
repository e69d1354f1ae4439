#!/bin/sh
# install.sh [--unproved] PREFIX   puts smf, smfd, svcs, svcadm, svccfg, svcprop, graph, manifest2cfg, page, survive, timeline and
#                                  unit2cfg, with what they need, smf_exec and smf_ready, which methods find by SMF_LIBEXEC, all pages,
#                                  and the completion of bash, below PREFIX
# install.sh --check PREFIX        says what PREFIX/bin/smf is, and fails if it is not the program that was installed there
# The program is the one that SMF names, or that ./smf would run. It has to be the proved one, which `./smf --prove` or the gate
# has built of these sources; with --unproved it may be any. The status is 1 if it is refused. What is known of it goes into
# the file PREFIX/libexec/smf_version, which `smf --version` shows.
set -eu

# check PREFIX: shows the version that was noted, and compares the program's sum with it.
check() {
    if [ "$(tail -n 1 "$1/libexec/smf_version" 2> /dev/null)" = "sha256 $(sha256sum < "$1/bin/smf" 2> /dev/null | cut -d ' ' -f 1)" ]; then
        cat "$1/libexec/smf_version"
    else
        echo "install.sh: $1/libexec/smf_version does not tell of $1/bin/smf" >&2
        exit 1
    fi
}

if [ "${1:-}" = --check ] && [ $# = 2 ]; then
    check "$2"
    exit
fi
unproved=
if [ "${1:-}" = --unproved ]; then
    unproved=1
    shift
fi
if [ $# != 1 ] || [ -z "$1" ]; then
    echo 'usage: install.sh [--unproved | --check] PREFIX' >&2
    exit 2
fi
prefix=$1
top=$(cd "$(dirname "$(readlink -f "$0")")/../.." && pwd)
proved=$("$top/smf" --proved) || proved=
program=${SMF:-$proved}
if [ -z "$unproved" ] && { [ -z "$proved" ] || [ "$(readlink -f "$program")" != "$(readlink -f "$proved")" ]; }; then
    echo 'install.sh: the program is not proved: ./smf --prove proves it; --unproved installs it as it is' >&2
    exit 1
fi
[ -n "$program" ] || program=$("$top/smf" --program)
install -d "$prefix/bin" "$prefix/libexec" "$prefix/share/man/man1" "$prefix/share/man/man7" "$prefix/share/man/man8"
install -m 755 "$program" "$prefix/bin/smf"
install -m 755 "$top/bin/smfd" "$top/bin/svcs" "$top/bin/svcadm" "$top/bin/svccfg" "$top/bin/svcprop" "$prefix/bin"
install -m 755 "$top/tools/graph" "$top/tools/manifest2cfg" "$top/tools/page" "$top/tools/survive" "$top/tools/timeline" "$top/tools/unit2cfg" "$prefix/bin"
install -m 755 "$top/libexec/smf_client" "$top/libexec/smf_hold" "$top/libexec/smf_log" "$prefix/libexec"
install -m 755 "$top/libexec/smf_exec" "$top/libexec/smf_plan" "$top/libexec/smf_ready" "$top/libexec/smf_rollout" "$top/libexec/smf_signal" "$prefix/libexec"
install -m 644 "$top/libexec/svccfg_lines.py" "$prefix/libexec"
# These are for a terminal, where SMF_LIBEXEC is not set.
ln -sf ../libexec/smf_exec ../libexec/smf_ready "$prefix/bin"
"$top/tools/version" ${unproved:+--unproved} "$program" > "$prefix/libexec/smf_version"
chmod 644 "$prefix/libexec/smf_version"
for section in 1 7 8; do
    install -m 644 "$top"/man/*."$section" "$prefix/share/man/man$section"
done
# bash looks for a file with the name of the program.
completions=$prefix/share/bash-completion/completions
install -d "$completions"
install -m 644 "$top/share/smf.bash" "$completions/smf"
for program in smfd svcs svcadm svccfg svcprop; do ln -sf smf "$completions/$program"; done
