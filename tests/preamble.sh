# What the scripts of this folder begin with; they source it. An error ends the script. `root` is the repository,
# `library` is the static library, which `need_library "$root"` builds, and `work` is a folder for the script's own
# files, which goes when the script ends.
set -euo pipefail
root=$(cd "$(dirname "${BASH_SOURCE[0]}")/.." && pwd)
. "$root/tests/library.sh"
library=$root/target/staticlib/libleanlantern.a
work=$(mktemp -d)
trap 'rm -rf "$work"' EXIT
