#!/usr/bin/env bash
# dist.sh NAME MAKE: makes the archive NAME twice, under different settings, and compares; then unpacks it elsewhere,
# holds the files to their sums, runs the programs, and builds one of them anew from nothing but what was unpacked.
set -euo pipefail
cd "$(dirname "$0")/../.."
name=$1 make=$2
stop() { echo "the archive: $1"; exit 1; }
work=$(mktemp -d)
trap 'rm -rf "$work"' EXIT

(umask 022; TZ=UTC $make dist DISTDIR="$work/first" > /dev/null)
(umask 077; LC_ALL=C.UTF-8 TZ=Asia/Tokyo $make dist DISTDIR="$work/second" > /dev/null)
cmp "$work/first/$name.tar.gz" "$work/second/$name.tar.gz" || stop "made twice, it is not the same"

tar -C "$work" -xzf "$work/first/$name.tar.gz"
cp examples/collector.c samples/elv.bin "$work"
pages=$(find docs/man -name '*.[1-9]' 2> /dev/null | sed -E 's|.*/(.*\.(.))$|share/man/man\2/\1|' || true)
programs=$(for source in examples/*.c; do echo "bin/$(basename "$source" .c)"; done)
here=$PWD
cd "$work/$name"
sha256sum --check --quiet SHA256SUMS || stop "a file differs from its sum"
for file in bin/list_times $programs include/radio_clock.h lib/libradio_clock.a lib/pkgconfig/radio_clock.pc README.md CHANGELOG.md \
    docs/FORMATS.md \
    SHA256SUMS $pages; do
    test -s "$file" || stop "$file is missing"
done
[ "$(find . -type f | wc -l)" -eq "$(($(wc -l < SHA256SUMS) + 1))" ] || stop "SHA256SUMS does not have every file"
! grep -rlF "$here" . || stop "the files above name the folder where it was made"

version=${name#umrikhosh-} version=${version%-x86_64-linux}
[ "$(bin/list_times --version)" = "list_times $version" ] || stop "list_times is of another version"
bin/collector -e "$work/elv.bin" > "$work/packed" 2> /dev/null
flags="-Iinclude -Llib -lradio_clock"
if command -v pkg-config > /dev/null; then
    export PKG_CONFIG_PATH=$PWD/lib/pkgconfig
    [ "$(pkg-config --modversion radio_clock)" = "$version" ] || stop "pkg-config has another version"
    flags=$(pkg-config --cflags --libs radio_clock)
fi
# shellcheck disable=SC2086
"${CC:-cc}" -std=c99 "$work/collector.c" $flags -o "$work/collector"
"$work/collector" -e "$work/elv.bin" 2> /dev/null | cmp - "$work/packed" || stop "a program built with it differs"
echo "the archive is the same when it is made twice, and what it holds works where it is unpacked"
