#!/bin/sh
# The built server takes the sample files, as they stand and with the lines that they offer behind a #, and the examples of
# the README and of ntpd.conf.5; it refuses each line that the manual pages say is refused, where they say; and where
# mandoc or groff is there, it finds nothing in the manual pages. With --all, shellcheck and systemd-analyze look at the
# scripts and the unit too, where they are there. Prints what is not so, and fails where there is any. Run at the top of
# the repository.
#
#     tools/check_samples.sh [--all] [NTPD NTPQ]
set -u
all=
if [ "${1-}" = --all ]; then
    all=yes
    shift
fi
ntpd=${1:-crates/ntpd_serve/out/ntpd_serve}
ntpq=${2:-crates/ntpq_tool/out/ntpq_tool}
work=$(mktemp -d) || exit 1
trap 'rm -rf "$work"' EXIT
bad=0
# A host of the loopback for this run alone.
at=127.77.$(($$ / 250 % 250)).$(($$ % 250 + 1)):11123

complain() {
    echo "samples: $1"
    bad=1
}

# Whether a server begins by this configuration, which listens at the address above.
begins() {
    "$ntpd" serve "$1" > "$work/out" &
    server=$!
    status=1
    for _ in 1 2 3 4 5; do
        if "$ntpq" "$at" rv 0 stratum > /dev/null; then
            status=0
            break
        fi
        kill -0 $server 2> /dev/null || break
    done
    kill $server 2> /dev/null
    wait $server 2> /dev/null
    return $status
}

# The configuration on standard input at the address above, where this host may ask, and with this key file.
placed() {
    echo "listen $at"
    sed -e "s|^keys [^ ]*|keys $1|" -e '/^listen /d'
    echo "restrict 127.0.0.1"
}

# The sample configuration, likewise.
sample() {
    placed "$1" < etc/ntpd.conf
}

# The lines that a sample offers: their # goes.
offered() {
    sed -e 's/^#\([a-z0-9]\)/\1/' "$1"
}

sample etc/ntpd.keys.sample > "$work/conf"
begins "$work/conf" || complain "etc/ntpd.conf: $(cat "$work/out")"
offered etc/ntpd.keys.sample > "$work/keys"
sample "$work/keys" > "$work/conf.1"
offered "$work/conf.1" > "$work/conf"
cmp -s "$work/conf.1" "$work/conf" && complain "etc/ntpd.conf offers no lines"
begins "$work/conf" || complain "etc/ntpd.conf with the lines that it offers: $(cat "$work/out")"
grep -q "^keys /run/credentials/sarquteb-ntpd.service/ntpd.keys$" etc/ntpd.conf ||
    complain "etc/ntpd.conf does not name the keys that the unit hands over"

# The lines that the acceptance test reads are those of the sample.
sed -n '/^const SAMPLE/,/^";/p' crates/acceptance_samples/src/tests.rt |
    sed -e 's/^const SAMPLE.*= b"//' -e '/^";$/d' > "$work/lines"
grep -v '^#\|^$' etc/ntpd.conf | cmp -s "$work/lines" - ||
    complain "crates/acceptance_samples/src/tests.rt does not read etc/ntpd.conf"

# Between two headings, what stands in blocks: of the README, and of a manual page.
sed -n '/^## Configuration by example/,/^## /{/^...text$/,/^...$/p;}' README.md | grep -v '^...$\|^...text$' > "$work/lines"
placed "$work/keys" < "$work/lines" > "$work/conf"
[ "$(wc -l < "$work/lines")" -ge 5 ] || complain "README.md has no example"
begins "$work/conf" || complain "README.md, the example: $(cat "$work/out")"
for section in 'CONFIGURATION LINES' 'EXAMPLES'; do
    sed -n "/^\\.Sh $section/,/^\\.Sh /{/^\\.Bd/,/^\\.Ed/p;}" man/ntpd.conf.5 | grep -v '^\.\|  ntpd: ' > "$work/lines"
    [ "$(wc -l < "$work/lines")" -ge 5 ] || complain "ntpd.conf.5 has no $section"
    placed "$work/keys" < "$work/lines" > "$work/conf"
    begins "$work/conf" || complain "ntpd.conf.5, $section: $(cat "$work/out")"
done

# Lines of the manual pages with what is printed of them, as a first line.
printed() {
    sed -n 's/  *\(ntpd: '"$2"' line 1 word [0-9]\)$/|\1/p' "$1"
}

refuses() {
    while IFS='|' read -r line wanted; do
        printf '%s\n' "$line" > "$work/$1"
        seen=$(timeout 5 "$ntpd" serve "$work/conf")
        [ "$seen" = "$wanted" ] || complain "$line: $seen in place of $wanted"
    done
}

printed man/ntpd.conf.5 conf > "$work/lines"
[ "$(wc -l < "$work/lines")" -ge 10 ] || complain "ntpd.conf.5 has no refused lines"
refuses conf < "$work/lines"
printed man/ntpd.keys.5 keys > "$work/lines"
[ "$(wc -l < "$work/lines")" -ge 5 ] || complain "ntpd.keys.5 has no refused lines"
printf 'listen %s\nkeys %s\n' "$at" "$work/keys" > "$work/conf"
refuses keys < "$work/lines"

# A page that is not installed is not found, whatever it says.
if command -v mandoc > /dev/null; then
    mandoc -T lint man/*.[158] 2> /dev/null | grep -v 'referenced manual not found' > "$work/out"
    [ ! -s "$work/out" ] || complain "$(cat "$work/out")"
elif command -v groff > /dev/null; then
    for page in man/*.[158]; do
        groff -ww -mandoc -Tutf8 "$page" 2> "$work/out" > /dev/null
        [ ! -s "$work/out" ] || complain "$(cat "$work/out")"
    done
fi
[ "$all" ] || exit $bad
if command -v shellcheck > /dev/null; then
    shellcheck tools/install.sh tools/deb.sh tools/check_samples.sh completions/sarquteb.bash || bad=1
fi
# Programs and pages are where they are installed, so they are left out here.
if command -v systemd-analyze > /dev/null; then
    sed -e 's|^ExecStart=.*|ExecStart=/bin/true|' -e '/^Documentation=/d' etc/sarquteb-ntpd.service \
        > "$work/sarquteb-ntpd.service"
    systemd-analyze verify "$work/sarquteb-ntpd.service" > "$work/out" 2>&1 || bad=1
    [ ! -s "$work/out" ] || complain "$(cat "$work/out")"
fi
exit $bad
