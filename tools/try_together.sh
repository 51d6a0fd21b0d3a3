#!/bin/sh
# Starts the server and asks it by the query tool, both as they are built here, over the loopback of IPv4 and IPv6,
# and compares what they print with what is written below. It builds them first, which proves them where that was not
# done yet. Prints each difference, and fails where there is one. Run at the top of the repository.
set -u
for program in ntpd_serve ntpq_tool; do
    (cd "crates/$program" && rt run -- --version) > /dev/null 2>&1 || exit 1
done
bad=0

# What `ntpq` prints for these words, asked of a server that serves one datagram at this address.
ask() {
    crates/ntpd_serve/out/ntpd_serve once "$1" > /dev/null &
    address=$1
    shift
    crates/ntpq_tool/out/ntpq_tool "$address" "$@"
    wait
}

# Compares what is printed for these words with what stands on standard input.
check() {
    wanted=$(cat)
    printed=$(ask "$@")
    if [ "$printed" != "$wanted" ]; then
        printf 'together: ntpq %s printed\n%s\nin place of\n%s\n' "$*" "$printed" "$wanted"
        bad=1
    fi
}

for address in 127.0.0.1:11123 '[::1]:11123'; do
    check "$address" rv <<'END'
associd=0 status=c011
version="ntpd profile 1",
leap=3,
stratum=16,
precision=-20,
rootdelay=0.000000,
rootdisp=16000.000000,
refid=INIT,
reftime=0x00000000.00000000,
peer=0,
tc=6,
mintc=3,
offset=0.000000,
frequency=0.000000,
sys_jitter=0.000000,
state=1,
epoch=0
END
    check "$address" rv 0 stratum offset <<'END'
associd=0 status=c011
stratum=16,
offset=0.000000
END
    check "$address" as <<'END'
no associations
END
    check "$address" rv 1 <<'END'
ntpq: refused 4
END
done
exit $bad
