#!/usr/bin/env bash
# `lsm` with --compare, which compares each part of a file that it reads with what was written, or
# was read whole (`Images` of lsm_folder): of it the theorems on reads have no premise. Without, all is
# let through, so here is shown what that costs: over a disk that lies where no checksum shows it
# (lie.c) `get` and `scan` tell the lie, and `compact` makes it stay. With --compare they are refused
# 9 Device, a compaction 35 with that 9, and the folder gives what it gave. Then `lsm` is killed and
# cut off from its disk with --compare at each command that knows it, as `killed` and `power_cuts` do
# without.
#
#   run.sh [KILLS [CUTS]]      how many of each (100 and 200)
#
# LSM=/path/to/lsm names a program. Needs what killed/run.sh and power_cuts/run.sh need.
set -euo pipefail
here=$(cd "$(dirname "$0")" && pwd)
top=$(cd "$here/../.." && pwd)
mute=$(readlink -f "${LSM:-$("$top/tools/program")}")
work=$(mktemp -d)
trap 'rm -rf "$work"' EXIT
gcc -O2 -Wall -shared -fPIC -o "$work/lie.so" "$here/lie.c" -ldl
cat > "$work/lsm" <<END
#!/usr/bin/env bash
case \$1 in
  check | list | get | scan | ingest | put | delete | load | import | recover | compact | shell)
    exec "$mute" "\$1" --compare "\${@:2}" ;;
esac
exec "$mute" "\$@"
END
chmod +x "$work/lsm"
cd "$work"

make_folder() { # DIR: four tables, so that a compaction is due
  mkdir "$1"
  for each in 1 2 3 4; do
    printf 'a=TRUTH\nb%s=other\n' "$each" > batch
    "$mute" ingest "$1" batch --text > said
  done
}

lied_to() { # WORDS..: what the program says over the disk that lies, on both outputs
  LD_PRELOAD=$work/lie.so "$mute" "$@" 2>&1 || true
}

want() { # WANTED SAID
  [[ $2 == "$1" ]] && return
  printf 'compared: wanted:\n%s\nbut it is:\n%s\n' "$1" "$2" >&2
  exit 1
}

others=$'b1=other\nb2=other\nb3=other\nb4=other'
refused="refused 9 Device"
make_folder mute
make_folder compared
want "value LYING" "$(lied_to get mute a --text)"
want "a=LYING"$'\n'"$others" "$(lied_to scan mute --text)"
want "installed 1" "$(lied_to compact mute)"
want "a=LYING"$'\n'"$others" "$("$mute" scan mute --text)"
for quick in "" --quick; do
  want "$refused"$'\n'"read compared/000008.ldb: other bytes than before" \
    "$(lied_to get compared a --text --compare $quick)"
  want "$refused" "$(lied_to scan compared --text --compare $quick | head -n 1)"
done
want "refused 35 ReadFailed 8 9" "$(lied_to compact compared --compare | head -n 1)"
want "a=TRUTH"$'\n'"$others" "$("$mute" scan compared --text)"
want "installed 1" "$("$mute" compact compared --compare)"
want "a=TRUTH"$'\n'"$others" "$("$mute" scan compared --text)"
echo "a disk that lies: refused with --compare, and told without"

LSM=$work/lsm "$here/../killed/run.sh" "${1:-100}"
CRASHES=${2:-200} "$here/../power_cuts/run.sh" "$work/lsm"
