#!/bin/sh
# Makes a Debian package of what tools/install.sh installs below /usr, in the folder OUT. The package has no
# programs but ntpd and ntpq, which have to run where it is made.
#
#     tools/deb.sh OUT
#
# NTPD=FILE NTPQ=FILE are programs that were built elsewhere.
set -eu

if [ $# -ne 1 ]; then
    echo "usage: tools/deb.sh OUT" >&2
    exit 1
fi
here=$(cd "$(dirname "$0")/.." && pwd)
out=$(cd "$1" && pwd)
work=$(mktemp -d)
trap 'rm -rf "$work"' EXIT
umask 022
root=$work/root
mkdir -p "$root/DEBIAN"

DESTDIR=$root "$here/tools/install.sh" /usr >&2
find "$root/usr/share/man" -type f -exec gzip -9n {} +
# The programs stay as they were built, symbols and all: what is installed is what was run by the gate.

# Both programs tell the same version.
version=$("$root/usr/sbin/ntpd" --version)
version=${version#ntpd }
package=sarquteb
arch=$(dpkg --print-architecture)

cat > "$root/DEBIAN/control" << END
Package: $package
Version: $version-1
Architecture: $arch
Maintainer: the administrators of this host <root@localhost>
Section: net
Priority: optional
Installed-Size: $(du -sk --exclude=DEBIAN "$root" | cut -f1)
Depends: libc6 (>= 2.34)
Conflicts: ntpsec, openntpd, ntp
Description: NTP server with a clock of its own, and its query tool
 ntpd serves the time by a clock of its own, which it keeps by other NTP
 servers. It never sets the system's clock, so it can run beside a program
 that does, where that leaves it the port 123.
 .
 ntpq asks an NTP server for its variables, its associations and its clients.
END

printf '/etc/%s/ntpd.conf\n/etc/%s/ntpd.keys\n' $package $package > "$root/DEBIAN/conffiles"

# The unit has a user of its own for as long as it runs, so there is none to make. It is not enabled here: the
# sample asks servers that do not exist.
cat > "$root/DEBIAN/postinst" << 'END'
#!/bin/sh
set -e
if [ -d /run/systemd/system ]; then
    systemctl daemon-reload
    systemctl try-restart sarquteb-ntpd.service
fi
END
cat > "$root/DEBIAN/prerm" << 'END'
#!/bin/sh
set -e
if [ "$1" = remove ] && [ -d /run/systemd/system ]; then
    systemctl disable --now sarquteb-ntpd.service
fi
END
cat > "$root/DEBIAN/postrm" << 'END'
#!/bin/sh
set -e
if [ -d /run/systemd/system ]; then
    systemctl daemon-reload
fi
END
chmod 755 "$root/DEBIAN/postinst" "$root/DEBIAN/prerm" "$root/DEBIAN/postrm"

(cd "$root" && find usr -type f -exec md5sum {} +) > "$root/DEBIAN/md5sums"
dpkg-deb --root-owner-group --build "$root" "$out/${package}_$version-1_$arch.deb"
