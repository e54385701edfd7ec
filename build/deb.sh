#!/usr/bin/env bash
# Builds the Debian package of the program, from the files that `make install PREFIX=/usr` installs, and prints its name.
#
#   build/deb.sh [PROGRAM]      PROGRAM: dist/st2110_timing, unless another is named
#
# The package is out/st2110-timing_VERSION_amd64.deb; `help` of the program has the version. Ends with 0, with 1 if the
# package couldn't be built, and with 2 if dpkg-deb or a file isn't there.
set -u
umask 022
export LC_ALL=C
top=$(cd "$(dirname "$(readlink -f "$0")")/.." && pwd) || exit 2
program=${1:-$top/dist/st2110_timing}

say() { printf 'deb: %s\n' "$*" >&2; }

control() {
    cat << END
Package: st2110-timing
Version: $version
Section: net
Priority: optional
Architecture: amd64
Depends: libc6 (>= 2.34)
Installed-Size: $(du -sk --apparent-size "$folder/root/usr" | cut -f 1)
Maintainer: Darmwoft maintainers <maintainers@users.noreply.darmwoft.example>
Description: checks the packet timing of SMPTE ST 2110-21 video senders
 st2110_timing reads packet captures (pcap or pcapng) of uncompressed video over
 RTP (SMPTE ST 2110-20) and their session description (SDP). It reports for each
 video whether the packets keep the limits of a narrow, narrow linear or wide
 sender after SMPTE ST 2110-21:2017: the network compatibility model (C_MAX) and
 the virtual receiver buffer model (VRX_FULL).
 .
 For a violation it names the packets that show it. The report is text, JSON or an
 HTML page with pictures. Other commands measure a flow, list its packets as CSV,
 compare two redundant paths, and draft an SDP from a capture.
END
}

command -v dpkg-deb > /dev/null || { say "there is no dpkg-deb here"; exit 2; }
version=$("$top/build/version.sh" "$program") || exit 2
program=$(readlink -f "$program")
package=$top/out/st2110-timing_${version}_amd64.deb

folder=$(mktemp -d) || exit 2
trap 'rm -rf "$folder"' EXIT
mkdir -p "$folder/root/DEBIAN" "$top/out" || exit 2
# (zsh of Debian looks for the completions of packages in a folder of its own)
make --no-print-directory -s -C "$top" install PREFIX=/usr DESTDIR="$folder/root" PROGRAM="$program" \
    ZSHDIR=share/zsh/vendor-completions > "$folder/said" || exit 2
control > "$folder/root/DEBIAN/control" || exit 2
(cd "$folder/root" && find usr -type f -print0 | sort -z | xargs -0 md5sum > DEBIAN/md5sums) || exit 2
dpkg-deb --root-owner-group --build "$folder/root" "$package" > "$folder/said" || { say "dpkg-deb failed"; exit 1; }
echo "${package#"$top/"}"
