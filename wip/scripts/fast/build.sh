#!/bin/bash
# build.sh TOP OUT [dropped names]: unproved program as the real backend would compile it
top=$1; out=$2; shift 2
here=$(dirname -- "$(readlink -f -- "$0")")
d=$(mktemp -d)
python3 $here/tryir.py $top $d || exit 1
C=/opt/rattle/toolchain/bin/clang
$C --no-default-config -x ir $d/module.bc -S -emit-llvm -O0 -Xclang -disable-llvm-passes -o $d/m.ll
python3 $here/conv.py $d/m.ll $d/m2.ll $top "$@"
F="--target=x86_64-unknown-linux-gnu -march=x86-64 -mllvm -no-trap-after-noreturn -ffunction-sections -fdata-sections -mllvm -trap-unreachable -mllvm -no-x86-call-frame-opt -mllvm -disable-machine-licm -mllvm -disable-postra-machine-licm -mllvm -sink-common-insts=false --no-default-config -no-canonical-prefixes -fno-crash-diagnostics"
$C $F -c -x ir $d/m2.ll -o $d/m.o -fPIE -O3 -Xclang -fmerge-functions -mllvm -mergefunc-use-aliases 2>&1 | grep -v warning
gcc -o $out $d/m.o /opt/rattle/c/libos_c.a /opt/rattle/c/liblibc_c.a -lm -lpthread
cp $d/m2.ll $out.ll; rm -rf $d; ls -la $out
