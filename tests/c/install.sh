#!/usr/bin/env bash
# install.sh MAKE: installs into a new folder, builds the collector there from nothing but what was installed, and
# uninstalls; once with PREFIX alone, once with a LIBDIR of its own below DESTDIR.
set -euo pipefail
cd "$(dirname "$0")/../.."
make=$1
stop() { echo "$1"; exit 1; }
work=$(mktemp -d)
trap 'rm -rf "$work"' EXIT
version=$(sed -n 's/^#define RADIO_CLOCK_VERSION "\(.*\)"$/\1/p' include/radio_clock.h)
pages=$(find docs/man -name '*.[1-9]' 2> /dev/null || true)
cp examples/collector.c "$work"

# Whether just these files are in a folder.
holds() { # FOLDER FILE...
    diff <(cd "$1" && find . ! -type d -printf '%P\n' | sort) <(shift; printf '%s\n' "$@" | sed '/^$/d' | sort)
}

# The man pages as they are installed below a prefix.
installed_pages() {
    for page in $pages; do echo "share/man/man${page##*.}/$(basename "$page")"; done
}

builds() { # FLAGS
    # shellcheck disable=SC2086
    "${CC:-cc}" -std=c99 "$work/collector.c" $1 -o "$work/collector"
    printf '06-11-08-14-39-39-00\r' | "$work/collector" -e - 2> /dev/null |
        grep -q '^2006-11-08 13:39:39  2006-11-08 14:39:39' || stop "a program built with $1 does not run"
}

(umask 077; $make install PREFIX="$work/usr" > /dev/null)
# shellcheck disable=SC2046
holds "$work/usr" bin/list_times lib/libradio_clock.a include/radio_clock.h lib/pkgconfig/radio_clock.pc \
    $(installed_pages) || stop "this is installed, and other files should be"
[ -z "$(find "$work/usr" -type f ! -perm -444)" ] || stop "a file is installed that others can't read"
for page in $pages; do
    cmp "$page" "$work/usr/share/man/man${page##*.}/$(basename "$page")"
done
printf '' | "$work/usr/bin/list_times" | grep -qx 'frames 0 refused 0 dropped 0'
[ "$("$work/usr/bin/list_times" --version)" = "list_times $version" ] || stop "list_times is of another version"
builds "-I$work/usr/include -L$work/usr/lib -lradio_clock"
if command -v pkg-config > /dev/null; then
    export PKG_CONFIG_PATH=$work/usr/lib/pkgconfig
    [ "$(pkg-config --modversion radio_clock)" = "$version" ] || stop "pkg-config has another version"
    builds "$(pkg-config --cflags --libs radio_clock)"
fi
touch "$work/usr/lib/another"
$make uninstall PREFIX="$work/usr" > /dev/null
holds "$work/usr" lib/another || stop "this is left after make uninstall"

# As a distribution does it: libraries in a folder of their own, all of it below DESTDIR.
set -- DESTDIR="$work/root" PREFIX=/usr LIBDIR=/usr/lib/x86_64-linux-gnu
$make install "$@" > /dev/null
# shellcheck disable=SC2046
holds "$work/root/usr" bin/list_times lib/x86_64-linux-gnu/libradio_clock.a include/radio_clock.h \
    lib/x86_64-linux-gnu/pkgconfig/radio_clock.pc $(installed_pages) || stop "LIBDIR is not where the library is"
if command -v pkg-config > /dev/null; then
    export PKG_CONFIG_PATH=$work/root/usr/lib/x86_64-linux-gnu/pkgconfig
    libdir=$(pkg-config --variable=libdir radio_clock)
    [ "$libdir" = /usr/lib/x86_64-linux-gnu ] || stop "pkg-config has another LIBDIR: $libdir"
    builds "$(PKG_CONFIG_SYSROOT_DIR=$work/root PKG_CONFIG_ALLOW_SYSTEM_LIBS=1 PKG_CONFIG_ALLOW_SYSTEM_CFLAGS=1 \
        pkg-config --cflags --libs radio_clock)"
fi
$make uninstall "$@" > /dev/null
holds "$work/root" || stop "this is left below DESTDIR after make uninstall"
echo "what is installed builds and runs, and make uninstall takes all of it away"
