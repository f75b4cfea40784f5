#!/usr/bin/env bash
# Builds the C library: build.sh FOLDER [OBJECT], into FOLDER, which is made:
#
#   libtiswenor.a, libtiswenor.so                  the server as a child process
#   libtiswenor_inside.a, libtiswenor_inside.so    the server inside the process, where OBJECT is
#                                                  named: the lsm_server.o of a build of lsm_server
#   tiswenor.pc, tiswenor_inside.pc                for pkg-config
#
# Needs gcc and binutils; with OBJECT also the C parts of the Rattle kit, whose folder RATTLE_C
# names, or else that of the kit's `rt`. CC and CFLAGS as usual.
set -euo pipefail
here=$(cd "$(dirname "$(readlink -f "${BASH_SOURCE[0]}")")" && pwd)
folder=${1:?the folder to build into}
object=${2:-}
mkdir -p "$folder/parts"
folder=$(cd "$folder" && pwd)
compiler=${CC:-gcc}
read -ra flags <<< "-std=c11 -Wall -Wextra -Werror -fPIC ${CFLAGS:--O2 -g}"

compile() { # SOURCE
  "$compiler" "${flags[@]}" -I"$here" -c "$here/$1" -o "$folder/parts/${1%.*}.o"
}

library() { # NAME PARTS..
  local name=$1
  shift
  rm -f "$folder/lib$name.a"
  ar rcs "$folder/lib$name.a" "$@"
  "$compiler" "${flags[@]}" -shared -Wl,-soname,"lib$name.so" -Wl,-z,defs \
    -Wl,--version-script="$here/exports.map" "$@" -o "$folder/lib$name.so" -lpthread -lm
  sed -e "s|@prefix@|$folder|" -e "s|@libdir@|$folder|" -e "s|@includedir@|$here|" \
    -e "s|@name@|$name|" "$here/tiswenor.pc.in" > "$folder/$name.pc"
}

compile tiswenor.c
compile child.c
library tiswenor "$folder/parts/tiswenor.o" "$folder/parts/child.o"
if [[ -n $object ]]; then
  "$here/program.sh" "$object" "${RATTLE_C:-$(dirname "$(rt doc)")/c}" "$folder/parts/program.o"
  compile inside.c
  compile stacks.S
  library tiswenor_inside "$folder"/parts/{tiswenor,inside,stacks,program}.o
fi
