#!/bin/sh
# Sets up the Swift compiler of Debian trixie (6.0.3) in a folder of its own, with the libraries and headers that it wants. It installs nothing: apt fetches
# the packages by lists of its own, and they are unpacked below FOLDER/root. Some 540 MB are fetched, and 2.4 GB unpacked.
# Usage: set_up.sh FOLDER
set -e
keys=/usr/share/keyrings/debian-archive-keyring.gpg

fails() {
    echo "set_up: $*" >&2
    exit 1
}

[ $# -eq 1 ] || fails "the folder is wanted, and nothing else"
mkdir -p "$1"
folder=$(cd "$1" && pwd)
[ ! -e "$folder/root" ] || fails "$folder/root is there already"
for tool in apt-get dpkg-deb; do
    command -v $tool >/dev/null || fails "$tool is not there: this is for Debian, and what is like it"
done
[ -f "$keys" ] || fails "$keys is not there: the package debian-archive-keyring has it"

# The mirror that this machine uses, where it has one of Debian.
mirror=$(grep -rhoE 'https?://[^ /]+/debian\b' /etc/apt/sources.list /etc/apt/sources.list.d 2>/dev/null | head -n 1)
made=$folder/made
rm -rf "$made"
mkdir -p "$made/lists/partial" "$made/cache/archives/partial" "$made/root"
echo "deb [signed-by=$keys] ${mirror:-http://deb.debian.org/debian} trixie main" >"$made/sources.list"
cat >"$made/apt.conf" <<END
Dir::Etc::sourcelist "$made/sources.list";
Dir::Etc::sourceparts "-";
Dir::State::lists "$made/lists";
Dir::State::status "/dev/null";
Dir::Cache "$made/cache";
APT::Install-Recommends "false";
APT::Sandbox::User "";
END
export APT_CONFIG="$made/apt.conf"
apt-get update -qq
apt-get install -qq -y --download-only swiftlang libc6-dev
for package in "$made"/cache/archives/*.deb; do
    dpkg-deb -x "$package" "$made/root"
done
mv "$made/root" "$folder/root"
rm -rf "$made"
