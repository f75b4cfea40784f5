#!/usr/bin/env bash
# Builds the clients and runs their tests over a server: run.sh [WORD], all parts, or those whose
# name has the word. Goes on to the end whatever failed. The last line is `N passed, M failed`;
# what could not be run counts as failed, and is said.
#
# The server is the one that LSM_SERVER names, or the proved one, or else an unproved one that is
# built first. LSM_SERVER_OBJECT, or its object beside it, is linked into the process. Needs gcc,
# g++, python3 (PYTHON) with pytest, mypy, setuptools and wheel, valgrind, cmake, pkg-config,
# libleveldb-dev.
# TISWENOR_CALLS and STORM: how many calls are drawn in C and in Python (3,000), seconds of each
# storm (5). MINUTES and PYTHON_MINUTES: how long a test in C, and those of Python, may take (10,
# 60).
# PLYVEL_TESTS: the file test_plyvel.py of plyvel's sources, to be run too.
set -uo pipefail
here=$(cd "$(dirname "$(readlink -f "${BASH_SOURCE[0]}")")" && pwd)
top=$(cd "$here/../.." && pwd)
clients=$top/clients
word=${1:-}
python=${PYTHON:-python3}
work=$(mktemp -d)
trap 'rm -rf "$work"' EXIT
passed=0 failed=0
channels=62 # the most that a story opens

tell_missing() {
  local tool
  for tool in gcc g++ "$python" valgrind cmake pkg-config; do
    command -v "$tool" > /dev/null || echo "missing: $tool"
  done
  for tool in pytest mypy setuptools wheel; do
    "$python" -c "import $tool" 2> /dev/null || echo "missing: $tool of $python"
  done
}

find_server() {
  local proved=$top/crates/lsm_server/out/lsm_server
  server=${LSM_SERVER:-$proved}
  if [[ ! -x $server ]]; then
    server=$work/lsm_server
    echo "clients: no proved server; building an unproved one, in some minutes"
    "$top/tools/unproved.sh" "$server" lsm_server > "$work/server.log" 2>&1 || tail -n 20 "$work/server.log"
  fi
  server=$(readlink -f "$server")
  object=${LSM_SERVER_OBJECT:-$server.o}
  [[ -x $server ]] || echo "missing: a server (LSM_SERVER)"
  [[ -f $object ]] || echo "missing: the server's object (LSM_SERVER_OBJECT), for the server inside the process"
}

part() { # NAME COMMAND..: runs a part, in a new folder `$folder`; its output is shown where it fails
  local name=$1
  shift
  [[ $name == *"$word"* || $name == *": build" ]] || return 0
  folder=$(mktemp -d -p "$work")
  if "$@" > "$work/log" 2>&1 < /dev/null; then
    passed=$((passed + 1))
    echo "$name: passed $(grep -hE ': ok|passed|^changed' "$work/log" | tail -n 1)"
  else
    failed=$((failed + 1))
    echo "$name: FAILED"
    tail -n 30 "$work/log" | sed 's/^/    /'
  fi
  rm -rf "$folder"
}

strict=(-std=c11 -Wall -Wextra -Werror -I"$clients/c")
child=("$clients/c/tiswenor.c" "$clients/c/child.c" -lpthread)
inside=("$work/c/libtiswenor_inside.a" -lpthread -lm)
inside_sources=("$clients/c/tiswenor.c" "$clients/c/inside.c" "$clients/c/stacks.S" "$work/c/parts/program.o" -lpthread -lm)

compile() { # PROGRAM WORDS..
  gcc "${strict[@]}" -g "${@:2}" -o "$work/$1"
}

with_child() { # TEST FLAGS..: builds a test with the library's sources, and runs it
  local test=$1
  shift
  compile "$test" -O1 "$@" "$clients/c/tests/$test.c" "${child[@]}" || return 1
  run "$test"
}

with_inside() { # TEST FLAGS.. : with the archive, or, where there are flags, with the library's sources
  local test=$1
  shift
  if (($# == 0)); then
    compile "$test" -O1 "$clients/c/tests/$test.c" "${inside[@]}" || return 1
  else
    compile "$test" -O1 "$@" "$clients/c/tests/$test.c" "${inside_sources[@]}" || return 1
  fi
  run "$test"
}

run() { # TEST [WRAPPER..]: in ten minutes at most
  local test=$1
  shift
  set -- timeout -k 10 "${MINUTES:-10}m" "$@"
  case $test in
    pages*) "$@" "$work/$test" "$folder/db" ;;
    storm* | readers*) "$@" "$work/$test" "$folder/db" "${STORM:-5}" ;;
    recovered*) "$@" "$work/$test" "$folder" "${SEED:-1}" ;;
    drawn*) "$@" "$work/$test" "$folder/db" "${TISWENOR_CALLS:-3000}" "${SEED:-1}" ;;
    killed*) TISWENOR_SERVER=$work/telling "$@" "$work/$test" "$folder/db" "$work/number" ;;
    malformed*) "$@" "$work/$test" "$server" "$folder" 3 "${SEED:-1}" ;;
    lied_to*) TISWENOR_SERVER=$work/liar "$@" "$work/$test" "$folder" 200 ;;
    ended*) NO_MEMORY=$folder/left TISWENOR_SERVER=$work/wanting "$@" "$work/$test" "$folder/db" ;;
    host*) "$@" "$work/$test" "$folder" ;;
    stays*) "$@" "$work/$test" "$folder/db" "$work/$test" ;;
    story_cpp) "$@" "$work/$test" "$folder" ;;
    *) "$@" "$work/$test" "$folder" "$channels" ;;
  esac
}

leaks=(valgrind -q --error-exitcode=9 --leak-check=full --errors-for-leak-kinds=definite)
sanitized=(-fsanitize=address,undefined -fno-sanitize-recover=undefined)

build() { CFLAGS=${1:-} "$clients/c/build.sh" "$work/c" ${object:+"$object"}; }
build_child() { "$clients/c/build.sh" "$work/child"; }

cpp() { # LIBRARY..
  g++ -std=c++17 -Wall -Wextra -Wpedantic -Werror -g -I"$clients/c" "$clients/c/tests/story.cpp" "$@" -o "$work/story_cpp" &&
    run story_cpp
}

valgrind_child() { compile story -O1 "$clients/c/tests/story.c" "${child[@]}" && run story "${leaks[@]}"; }
valgrind_inside() {
  local channels=4
  compile story -O1 "$clients/c/tests/story.c" "${inside[@]}" && run story "${leaks[@]}" --fair-sched=yes
}

lied_to() { compile liar -O1 "$clients/c/tests/liar.c" && with_child lied_to "${sanitized[@]}"; }

recovered() { # FLAGS..
  compile recovered -O1 "$@" "$clients/c/tests/recovered.c" "${child[@]}" -lleveldb && run recovered
}

malformed() { compile malformed -O1 "${sanitized[@]}" "$clients/c/tests/malformed.c" && run malformed; }

# In the server's process memory is refused on demand: a library that is loaded before it, or a part
# of the program that it is in.
ended_child() {
  compile no_memory.so -shared -fPIC "$clients/c/tests/no_memory.c" || return 1
  printf '#!/bin/sh\nLD_PRELOAD=%s exec %s\n' "$work/no_memory.so" "$server" > "$work/wanting"
  chmod +x "$work/wanting"
  truncate -s 4 "$folder/left" && with_child ended
}
ended_inside() {
  truncate -s 4 "$folder/left" && compile ended -O1 "$clients/c/tests/"{ended,no_memory}.c "${inside[@]}" && run ended
}

few_descriptors() { # a host that may have 64, and a database of 20 channels
  local channels=20
  compile story -O1 "$clients/c/tests/story.c" "${child[@]}" && (ulimit -n 64 && run story)
}

# Of each status that an answer may have, and of lines behind its name, both libraries say the same.
texts() {
  printf '#!/bin/sh\nexec "%s" "%s/texts.py"\n' "$(command -v "$python")" "$here" > "$work/texts_server"
  chmod +x "$work/texts_server"
  compile texts -O1 "$clients/c/tests/texts.c" "${child[@]}" &&
    TISWENOR_SERVER=$work/texts_server "$work/texts" "$folder/db" > "$folder/c" &&
    TISWENOR_SERVER=$work/texts_server PYTHONPATH=$clients/python/src "$python" "$here/texts.py" "$folder/db" > "$folder/python" &&
    diff "$folder/c" "$folder/python" && (($(wc -l < "$folder/c") == 116))
}

thread_sanitizer_inside() { # TEST
  TSAN_OPTIONS=suppressions=$here/thread.suppressions with_inside "$1" -fsanitize=thread
}

types() { (cd "$clients/python" && "$python" -m mypy --cache-dir "$folder/mypy" --strict src); }

pytests() { (cd "$clients/python" && timeout -k 10 "${PYTHON_MINUTES:-60}m" "$python" -X dev -m pytest -q -p no:cacheprovider --basetemp="$folder/pytest"); }

plyvel_tests() {
  cp "$PLYVEL_TESTS" "$here/plyvel/"*.py "$folder" &&
    (cd "$folder" && PYTHONPATH=$folder:$clients/python/src timeout -k 10 "${PYTHON_MINUTES:-60}m" "$python" -m pytest -q -p no:cacheprovider -rx .)
}

wheel() { # a wheel, without a network, and a program that uses it
  cp -r "$clients/python" "$folder/source" &&
    "$python" -m pip wheel --no-deps --no-build-isolation -w "$folder" "$folder/source" &&
    "$python" -m pip install --no-deps --no-index --target "$folder/site" "$folder"/*.whl &&
    test -f "$folder/site/tiswenor/py.typed" &&
    PYTHONPATH=$folder/site first_is "$python" "$clients/examples/first.py"
}

first_is() { # COMMAND..: a first program, which makes /tmp/fruit, says of what colour apples are
  local status=0
  if [[ -e /tmp/fruit ]]; then
    echo "/tmp/fruit is there: it is not touched"
    return 1
  fi
  "$@" > "$folder/said" && grep -q "^apple.*red" "$folder/said" || status=1
  rm -rf /tmp/fruit
  return $status
}

sizes_are() { # FIRST COMMAND..: behind a first program, one tells of /tmp/fruit's sizes
  sizes=$folder/sizes first_is sh -c '"$0" && "$@" > "$sizes"' "$@" &&
    grep -Eq "^[1-9][0-9]+ bytes on the disk, [1-9][0-9]+ of data$" "$folder/sizes"
}

examples() {
  gcc "${strict[@]}" -g "$clients/examples/first.c" "$work/child/libtiswenor.a" -lpthread -o "$work/first" &&
    first_is "${leaks[@]}" "$work/first" &&
    g++ -std=c++17 -I"$clients/c" "$clients/examples/first.cpp" "$work/child/libtiswenor.a" -lpthread -o "$work/first" && first_is "$work/first" &&
    PYTHONPATH=$clients/python/src first_is "$python" "$clients/examples/first.py" &&
    gcc "${strict[@]}" -g "$clients/examples/sizes.c" "$work/child/libtiswenor.a" -lpthread -o "$work/sizes" &&
    sizes_are "$work/first" "${leaks[@]}" "$work/sizes" &&
    PYTHONPATH=$clients/python/src sizes_are "$work/first" "$python" "$clients/examples/sizes.py"
}

cmake_and_pkg_config() { # LIBRARY WORDS..: installed, found, and used by both
  local library=$1 flags
  shift
  cmake -S "$clients/c" -B "$folder/build" -DCMAKE_INSTALL_PREFIX="$folder/installed" "$@" &&
    cmake --build "$folder/build" && cmake --install "$folder/build" &&
    cmake -S "$here/use" -B "$folder/use" -DCMAKE_PREFIX_PATH="$folder/installed" -DSOURCE="$clients/examples/first.c" -DLIBRARY="$library" &&
    cmake --build "$folder/use" && first_is "$folder/use/first" || return 1
  flags=$(PKG_CONFIG_PATH=$(dirname "$(find "$folder/installed" -name "$library.pc")") pkg-config --cflags --libs --static "$library") &&
    gcc "$clients/examples/first.c" $flags -Wl,-rpath,"$(dirname "$(find "$folder/installed" -name "lib$library.*" | head -n 1)")" -o "$work/first" &&
    first_is "$work/first"
}

tell_missing
find_server
export TISWENOR_SERVER=$server
printf '#!/bin/sh\necho $$ > %s/number\nexec %s\n' "$work" "$server" > "$work/telling"
chmod +x "$work/telling"

part "server: others may read its object" test -n "$(find "$object" -perm -a=r)"
part "C, child: build" build_child
part "C, inside: build" build
part "C, child: story" with_child story
part "C, child: story, address sanitizer" with_child story "${sanitized[@]}"
part "C, child: story, valgrind" valgrind_child
part "C, child: storm" with_child storm
part "C, child: storm, address sanitizer" with_child storm "${sanitized[@]}"
part "C, child: storm, thread sanitizer" with_child storm -fsanitize=thread
part "C, child: killed server, killed host" with_child killed
part "C, child: killed, address sanitizer" with_child killed "${sanitized[@]}"
part "C, child: a server that lies, address sanitizer" lied_to
part "server: malformed frames, drawn bytes" malformed
part "C, child: logs that LevelDB left" recovered
part "C, child: logs that LevelDB left, address sanitizer" recovered "${sanitized[@]}"
part "C, child: drawn calls beside a table" with_child drawn
part "C, child: eight threads read, one writes" with_child readers
part "C, child: iterators over many pages" with_child pages
part "C, child: iterators over many pages, address sanitizer" with_child pages "${sanitized[@]}"
part "C, child: iterators over many pages, thread sanitizer" with_child pages -fsanitize=thread
part "C, child: channels that the server ends" ended_child
part "C, child: a server that stays behind its channels" with_child stays
part "C, child: few descriptors" few_descriptors
part "C, child: what a host does beside" with_child host
part "C, inside: story" with_inside story
part "C, inside: story, address sanitizer" with_inside story "${sanitized[@]}"
part "C, inside: story, thread sanitizer" thread_sanitizer_inside story
part "C, inside: story, valgrind" valgrind_inside
part "C, inside: storm" with_inside storm
part "C, inside: storm, address sanitizer" with_inside storm "${sanitized[@]}"
part "C, inside: storm, thread sanitizer" thread_sanitizer_inside storm
part "C, inside: drawn calls beside a table" with_inside drawn
part "C, inside: eight threads read, one writes" with_inside readers
part "C, inside: iterators over many pages" with_inside pages
part "C, inside: channels that the server ends" ended_inside
part "C, inside: what a host does beside" with_inside host
part "C, inside: what a host does beside, address sanitizer" with_inside host "${sanitized[@]}"
part "C++, child: story" cpp "$work/child/libtiswenor.a" -lpthread
part "C++, inside: story" cpp "${inside[@]}"
part "first programs" examples
part "cmake, pkg-config: archives" cmake_and_pkg_config tiswenor
part "cmake, pkg-config: shared" cmake_and_pkg_config tiswenor -DBUILD_SHARED_LIBS=ON
part "cmake, pkg-config: inside" cmake_and_pkg_config tiswenor_inside -DTISWENOR_OBJECT="$object" -DRATTLE_C="$(dirname "$(rt doc)")/c"
part "C and Python: the same texts" texts
part "Python: strict types" types
part "Python: tests" pytests
[[ -z ${PLYVEL_TESTS:-} ]] || part "Python: plyvel's own tests" plyvel_tests
part "Python: wheel" wheel
echo "$passed passed, $failed failed"
((failed == 0))
