# Sourced by run.sh here and by that of checks/recover: what makes folders beside LevelDB, as far
# as it can be had.

make_makers() { # FOLDER: puts them there, and their paths into `makers`, each behind a colon
  local here python
  here=$(dirname "${BASH_SOURCE[0]}")
  makers=
  for python in python3 /usr/bin/python3; do
    if "$python" -c 'import plyvel' 2> /dev/null; then
      printf '#!/bin/sh\nexec %s -B %s "$@"\n' "$python" "$(realpath "$here/by_plyvel.py")" > "$1/by_plyvel"
      chmod +x "$1/by_plyvel"
      makers+=:$1/by_plyvel
      break
    fi
  done
  [[ $makers ]] || echo "not tried: plyvel, for want of it (python3-plyvel)"
  if GO111MODULE=off GOPATH=/usr/share/gocode GOCACHE=$1/go go build -o "$1/by_goleveldb" "$here/by_goleveldb.go" 2> /dev/null; then
    makers+=:$1/by_goleveldb
  else
    echo "not tried: goleveldb, for want of it (golang-go, golang-github-syndtr-goleveldb-dev)"
  fi
}

make_rocksdb() { # FOLDER: the same of RocksDB
  if g++ -std=c++17 -O1 -Wall -o "$1/by_rocksdb" "$(dirname "${BASH_SOURCE[0]}")/by_rocksdb.cc" -lrocksdb 2> /dev/null; then
    makers+=:$1/by_rocksdb
  else
    echo "not tried: RocksDB, for want of it (librocksdb-dev)"
  fi
}
