# Sourced by the scripts beside it: `here` is the top of the repository, `program` the proved program, which is
# built where it isn't there yet, and `folder` a room for files that is gone at the end.
here=$(cd "$(dirname "$0")/.." && pwd)
"$here/ibos" run "$here/examples/hosts" "$here/examples/first/script" >/dev/null
program=$here/crates/ibos_cli/out/ibos_cli
folder=$(mktemp -d)
trap 'rm -rf "$folder"' EXIT
