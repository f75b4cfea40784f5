#!/usr/bin/env bash
# Makes the server's object one that can stand in a library: program.sh OBJECT RATTLE_C OUT. OBJECT
# is the lsm_server.o of a build of lsm_server, RATTLE_C the Rattle kit's folder of C parts. OUT has
# one name for others, tiswenor_inside_main, and calls inside.c in the place of read, write, _exit,
# signal and pthread_create.
set -euo pipefail
object=$1 parts=$2 out=$3
objcopy --redefine-sym main=tiswenor_inside_main --redefine-sym read=tiswenor_inside_read \
  --redefine-sym write=tiswenor_inside_write --redefine-sym _exit=tiswenor_inside_exit \
  --redefine-sym __sysv_signal=tiswenor_inside_signal \
  --redefine-sym pthread_create=tiswenor_inside_pthread_create "$object" "$out.renamed"
ld -r -o "$out" "$out.renamed" "$parts/libos_c.a" "$parts/liblibc_c.a"
objcopy --keep-global-symbol=tiswenor_inside_main "$out"
rm "$out.renamed"
