#!/bin/sh
# Installs the programs, their manual pages, samples, the unit and the completions below PREFIX, or takes them
# away again. Where rt is at hand it builds them first, which proves what was not proved yet; else it takes those
# that were built here. A configuration file that is there stays as it is, and stays behind when the rest goes.
#
#     tools/install.sh PREFIX
#     tools/install.sh --uninstall PREFIX
#
# DESTDIR=FOLDER      puts FOLDER before each path that is written, as a package wants it
# SYSCONFDIR=FOLDER   has the folder sarquteb with the configuration: /etc where PREFIX is /usr, else PREFIX/etc
# NTPD=FILE NTPQ=FILE are programs that were built elsewhere
set -eu

usage() {
    echo "usage: tools/install.sh [--uninstall] PREFIX" >&2
    exit 1
}

here=$(cd "$(dirname "$0")/.." && pwd)
action=install
if [ "${1-}" = --uninstall ]; then
    action=uninstall
    shift
fi
[ $# -eq 1 ] || usage
case $1 in
    /*) prefix=${1%/} ;;
    *) usage ;;
esac
if [ "$prefix" = /usr ]; then
    conf=${SYSCONFDIR:-/etc}/sarquteb
else
    conf=${SYSCONFDIR:-$prefix/etc}/sarquteb
fi
to=${DESTDIR-}

# Below the prefix, each file that is installed.
files="sbin/ntpd bin/ntpq share/man/man8/ntpd.8 share/man/man1/ntpq.1 share/man/man5/ntpd.conf.5
share/man/man5/ntpd.keys.5 share/doc/sarquteb/ntpd.conf.sample share/doc/sarquteb/ntpd.keys.sample
share/doc/sarquteb/README.md share/bash-completion/completions/ntpd share/bash-completion/completions/ntpq
lib/systemd/system/sarquteb-ntpd.service"

if [ "$action" = uninstall ]; then
    for file in $files; do
        rm -f "$to$prefix/$file"
    done
    rmdir "$to$prefix/share/doc/sarquteb" 2> /dev/null || :
    for file in ntpd.conf ntpd.keys; do
        if [ -e "$to$conf/$file" ]; then
            echo "left: $to$conf/$file"
        fi
    done
    exit 0
fi

# The program of this crate as it is built here. A run that is proved and up to date takes a second.
built() {
    if command -v rt > /dev/null; then
        (cd "$here/crates/$1" && rt run -- --version) >&2 || exit 1
    fi
    echo "$here/crates/$1/out/$1"
}

ntpd=${NTPD:-$(built ntpd_serve)}
ntpq=${NTPQ:-$(built ntpq_tool)}
for program in "$ntpd" "$ntpq"; do
    if [ ! -f "$program" ]; then
        echo "install.sh: there is no program $program" >&2
        exit 1
    fi
done

# Puts the file $1 to $2 below the prefix, with the mode $3.
put() {
    install -d "$(dirname "$to$prefix/$2")"
    install -m "$3" "$1" "$to$prefix/$2"
}

# Writes a text with the paths of this installation in place of those of a package.
placed() {
    sed -e "s|/etc/sarquteb/|$conf/|g" -e "s|/usr/sbin/ntpd|$prefix/sbin/ntpd|g" "$1"
}

put "$ntpd" sbin/ntpd 755
put "$ntpq" bin/ntpq 755
for page in ntpd.8 ntpq.1 ntpd.conf.5 ntpd.keys.5; do
    put "$here/man/$page" "share/man/man${page##*.}/$page" 644
done
put "$here/README.md" share/doc/sarquteb/README.md 644
put "$here/completions/sarquteb.bash" share/bash-completion/completions/ntpd 644
put "$here/completions/sarquteb.bash" share/bash-completion/completions/ntpq 644

work=$(mktemp -d)
trap 'rm -rf "$work"' EXIT
for file in ntpd.conf:ntpd.conf.sample ntpd.keys.sample:ntpd.keys.sample; do
    placed "$here/etc/${file%:*}" > "$work/${file#*:}"
    put "$work/${file#*:}" "share/doc/sarquteb/${file#*:}" 644
done
placed "$here/etc/sarquteb-ntpd.service" > "$work/unit"
put "$work/unit" lib/systemd/system/sarquteb-ntpd.service 644

install -d "$to$conf"
for file in ntpd.conf:644 ntpd.keys:600; do
    name=${file%:*}
    if [ -e "$to$conf/$name" ]; then
        echo "kept: $to$conf/$name"
    else
        install -m "${file#*:}" "$work/$name.sample" "$to$conf/$name"
    fi
done
