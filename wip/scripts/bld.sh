#!/bin/bash
# bld.sh TREE CRATE LIBS : builds the statements of a crate into TREE/crates/CRATE/out/rlib, and links it into LIBS
mkdir -p /tmp/st
tree=$1; crate=$2; libs=$3; K=/opt/rattle
PYTHONPATH=$(dirname -- "$(readlink -f -- "$0")") python3 - "$tree" "$crate" "$libs" > /tmp/st/$(basename $tree)-$crate.bwords <<'P'
import sys,os
tree,crate,libs=sys.argv[1:4]; K='/opt/rattle'
from below import below
deps,seen=below(tree,crate); own=set(deps)
w=['--crate-name',crate,'src/lib.rt']
for k in sorted({'std'}|{d for d in deps[crate] if d not in own}): w+=['--extern',f'{k}={K}/rlibs/{k}.rlib']
w+=['-L',f'dependency={K}/rlibs']
for d in deps[crate]:
    if d in own: w+=['--extern',f'{d}={libs}/crates/{d}/out/rlib/{d}.rlib']
for d in seen: w+=['-L',f'dependency={libs}/crates/{d}/out/rlib']
print('\n'.join(w))
P
mapfile -t words < /tmp/st/$(basename $tree)-$crate.bwords
cd $tree/crates/$crate; rm -rf out/rlib; mkdir -p out/rlib
$K/bin/rattle build "${words[@]}" --antt-project $K/rattle/logic/antt-project.json --logic-built $K/logic_built --links $crate= --jobs ${4:-1} --statements -o $PWD/out/rlib/$crate.rlib 2>&1 | grep -v '^statements'
rm -f $libs/crates/$crate; ln -s $tree/crates/$crate $libs/crates/$crate
