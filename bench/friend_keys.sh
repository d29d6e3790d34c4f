#!/bin/sh
# Numbers a million keys of a friend and looks a million up, by hash and in sorted lists, from any folder:
#     bench/friend_keys.sh
# It builds bench/friend_keys with cargo (Debian: apt-get install librust-indexmap-dev) and prints the best of nine turns.
set -u
top=$(cd "$(dirname "$0")/.." && pwd -P) || exit 1
# cargo looks for its settings in the folder where it is called
cd "$top/bench/friend_keys" && CARGO_TARGET_DIR=target cargo build --quiet --release --offline || {
    echo "friend_keys.sh: bench/friend_keys can't be built; it needs cargo and Debian's librust-indexmap-dev" >&2
    exit 1
}
exec target/release/friend_keys
