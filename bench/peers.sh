#!/bin/sh
# Builds the programs that bench/beside.sh compares with: html5ever 0.40 and lexbor 3, as Debian's sid has them. They are unpacked in the
# folder that the argument names, and not installed; it then has html5ever_normal, lexbor_normal and, below root/, lexbor's header and
# library. Needs cargo 1.85, a C compiler, a network that has deb.debian.org or another mirror of Debian (MIRROR), and 300 MB.
set -eu
here=$(cd "$(dirname "$0")" && pwd)
folder=${1:?the folder for the peers}
mirror=${MIRROR:-http://deb.debian.org/debian}
mkdir -p "$folder/apt/lists/partial" "$folder/apt/cache/archives/partial" "$folder/packages" "$folder/html5ever/src" "$folder/html5ever/.cargo"
folder=$(cd "$folder" && pwd)
cat > "$folder/apt/apt.conf" <<CONF
Dir::Etc::sourcelist "$folder/apt/sources.list";
Dir::Etc::sourceparts "/dev/null";
Dir::State::lists "$folder/apt/lists";
Dir::Cache "$folder/apt/cache";
Acquire::Languages "none";
APT::Sandbox::User "root";
CONF
echo "deb [signed-by=/usr/share/keyrings/debian-archive-keyring.gpg] $mirror sid main" > "$folder/apt/sources.list"
export APT_CONFIG="$folder/apt/apt.conf"
apt-get -qq update
cd "$folder/packages"
crates="cfg-if html5ever libc lock-api log markup5ever markup5ever-rcdom memchr new-debug-unreachable once-cell parking-lot
    parking-lot-core phf phf-codegen phf-generator phf-shared precomputed-hash proc-macro2 quote rand-0.8 rand-core-0.6 scopeguard
    siphasher smallvec string-cache string-cache-codegen tendril unicode-ident utf-8 web-atoms xml5ever"
apt-get -qq download liblexbor-dev liblexbor3 $(for crate in $crates; do echo "librust-$crate-dev"; done)
for package in *.deb; do dpkg -x "$package" "$folder/root"; done

cc -O3 -o "$folder/lexbor_normal" "$here/peers/lexbor_normal.c" -I "$folder/root/usr/include" \
    "$(find "$folder/root" -name liblexbor_static.a)" -lm

cd "$folder/html5ever"
cp "$here/peers/html5ever_normal.rs" src/main.rs
cat > Cargo.toml <<TOML
[package]
name = "html5ever_normal"
version = "0.1.0"
edition = "2021"

[dependencies]
html5ever = "*"
markup5ever_rcdom = "*"

[profile.release]
opt-level = 3
lto = "fat"
codegen-units = 1
panic = "abort"
TOML
cat > .cargo/config.toml <<TOML
[source.crates-io]
replace-with = "debian"

[source.debian]
directory = "$folder/root/usr/share/cargo/registry"

[net]
offline = true
TOML
cargo build -q --release
cp target/release/html5ever_normal "$folder/html5ever_normal"
ls -l "$folder/html5ever_normal" "$folder/lexbor_normal"
