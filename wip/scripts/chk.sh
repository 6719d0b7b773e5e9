#!/bin/bash
# chk.sh TREE CRATE LIBSREPO INCDIR [flags]
mkdir -p /tmp/st
tree=$1; crate=$2; libs=$3; inc=$4; shift 4
K=/opt/rattle
PYTHONPATH=$(dirname -- "$(readlink -f -- "$0")") python3 - "$tree" "$crate" "$libs" > /tmp/st/$(basename $tree)-$crate.words <<'P'
import sys,os
tree,crate,libs=sys.argv[1:4]; K='/opt/rattle'
from below import below
deps,seen=below(tree,crate); own=set(deps)
w=['--crate-name',crate,'src/main.rt' if os.path.exists(f'{tree}/crates/{crate}/src/main.rt') else 'src/lib.rt']
for k in sorted({'std'}|{d for d in deps[crate] if d not in own}): w+=['--extern',f'{k}={K}/rlibs/{k}.rlib']
w+=['-L',f'dependency={K}/rlibs']
for d in deps[crate]:
    if d in own: w+=['--extern',f'{d}={libs}/crates/{d}/out/rlib/{d}.rlib']
for d in seen: w+=['-L',f'dependency={libs}/crates/{d}/out/rlib']
print('\n'.join(w))
P
mapfile -t words < /tmp/st/$(basename $tree)-$crate.words
mkdir -p "$inc"
cd $tree/crates/$crate
exec $K/bin/rattle check "${words[@]}" --antt-project $K/rattle/logic/antt-project.json --logic-built $K/logic_built --incremental "$inc" "$@"
