#!/usr/bin/env bash
# Makes the packages twice, in two folders, and runs what they hold where nothing else is.
#
#     edge/test/package.sh PROGRAM
#
# The bytes must be the same both times; lintian must find no error; the sums must be right; and the command, unpacked by
# dpkg-deb into a folder that holds nothing else and run there by chroot (with /proc, from which it runs the program
# inside), must answer each capture of examples/cases as PROGRAM does, but for those of `file`, `unfile` and `resend`, which it
# doesn't have. Without lintian, or where no chroot can be made, that part is left out, and that is said.
set -u
program=$(realpath "$1")
cd "$(dirname "$0")/../.." || exit 1
room=$(mktemp -d)
mounted=
finish() {
    [ -z "$mounted" ] || umount "$mounted"
    rm -rf "$room"
}
trap finish EXIT
failed=0
wrong() { echo "wrong: $*"; failed=1; }

# What this checkout has, committed or not, as one commit in two folders of different names.
git ls-files -z --cached --others --exclude-standard | tar --null -T - -cf "$room/files.tar" \
    || { wrong "not all files of this checkout could be copied"; exit 1; }
export GIT_AUTHOR_DATE='2026-01-02T03:04:05Z' GIT_COMMITTER_DATE='2026-01-02T03:04:05Z'
make() {
    local folder=$room/$1
    mkdir -p "$folder"
    tar xf "$room/files.tar" -C "$folder"
    (cd "$folder" && git init -q && git add -A && git -c user.name=test -c user.email=test@invalid commit -qm test \
        && tools/package --program "$program" --out "$folder/made") >"$room/said.$2" 2>&1
}
# Both at once: what one leaves the other mustn't need.
make one 1 &
first=$!
make another/longer/name 2 || { cat "$room/said.2"; wrong "tools/package in another/longer/name"; exit 1; }
wait "$first" || { cat "$room/said.1"; wrong "tools/package in one"; exit 1; }
diff -r "$room/one/made" "$room/another/longer/name/made" >"$room/differ" || wrong "not the same bytes: $(cat "$room/differ")"
(cd "$room/one/made" && sha256sum --check --quiet SHA256SUMS) || wrong "the sums of the packages"
package=$(echo "$room"/one/made/*.deb) tarball=$(echo "$room"/one/made/*.tar.gz)

mkdir "$room/tarball" "$room/root"
tar xzf "$tarball" -C "$room/tarball" --strip-components=1
(cd "$room/tarball" && sha256sum --check --quiet SHA256SUMS) || wrong "the sums of the tarball's files"
dpkg-deb -x "$package" "$room/root"
cmp "$room/tarball/bin/otap" "$room/root/usr/bin/otap" || wrong "the packages hold two commands"
for file in share/man/man1/otap.1.gz share/man/man1/otap-encode.1.gz share/bash-completion/completions/otap share/doc/finavoluth/licences/golang-1.19-go; do
    [ -s "$room/root/usr/$file" ] && [ -s "$room/tarball/$file" ] || wrong "there is no $file"
done
while read -r linked; do
    [ -s "$room/root/usr/share/doc/finavoluth/licences/$linked" ] || wrong "no licence text of $linked"
done <<'L'
golang-google-protobuf-dev
golang-github-spf13-cobra-dev
golang-github-klauspost-compress-dev
libc6-dev
L

if command -v lintian >/dev/null; then
    lintian --no-cfg --fail-on error "$package" >"$room/lintian" 2>&1 || { cat "$room/lintian"; wrong "lintian"; }
else
    echo "left out, as there is no lintian: what it says of the package"
fi

# The chroot: as root, else in a user namespace of its own. /proc is mounted and nothing else is there.
mkdir "$room/root/proc"
if [ "$(id -u)" = 0 ] && mount -t proc proc "$room/root/proc" 2>/dev/null; then
    mounted=$room/root/proc
    inside() { chroot "$room/root" "$@"; }
elif unshare -rmpf sh -c 'mount -t proc proc "$1/proc"' sh "$room/root" 2>/dev/null; then
    inside() { unshare -rmpf sh -c 'mount -t proc proc "$0/proc" && exec chroot "$0" "$@"' "$room/root" "$@"; }
else
    echo "left out, as no chroot can be made: the command where nothing else is"
    exit $failed
fi
inside /usr/bin/otap --version >"$room/version" || wrong "otap --version"
grep -q "^program: embedded, sha256 [0-9a-f]\{64\}$" "$room/version" || wrong "$(cat "$room/version")"

# one CAPTURE: the command's answers are the program's; its own lines, which begin with "otap: ", aside.
one() {
    local capture=$1 words made status
    words=$(basename "$(dirname "$capture")" | tr - ' ')
    made=$(mktemp -d -p "$room")
    # shellcheck disable=SC2086
    "$program" $words <"$capture" >"$made/want.out" 2>"$made/want.err"
    echo "status $?" >>"$made/want.err"
    # shellcheck disable=SC2086
    inside /usr/bin/otap $words --from capture --no-check <"$capture" >"$made/out" 2>"$made/said"
    status=$?
    { grep -v '^otap: ' "$made/said"; echo "status $status"; } >"$made/err"
    cmp "$made/want.out" "$made/out" && cmp "$made/want.err" "$made/err" || echo "$capture $(grep -m 1 '^otap: ' "$made/said")"
    rm -r "$made"
}
export -f one inside
export room program
captures=$(find examples/cases -type f ! -path '*/file-*' ! -path '*/unfile-*' ! -path '*/resend-*' \
    ! -name '*.stdout' ! -name '*.stderr' | sort)
[ -n "$captures" ] || wrong "no captures"
for capture in $captures; do echo "$capture"; done | xargs -P 4 -I{} bash -c 'one {}' >"$room/differs"
[ ! -s "$room/differs" ] || wrong "other answers than the program's: $(cat "$room/differs")"
[ $failed = 0 ] && echo "package: the same bytes twice, and $(echo "$captures" | wc -l) captures as the program answers them"
exit $failed
