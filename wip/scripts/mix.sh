#!/bin/bash
# mix.sh CRATE LIBS [flags]: checks a crate of this repository over the libraries in LIBS/crates/NAME/out/rlib, where there is one, and over the sources of the other crates below it. INC=FOLDER is where what was proved is remembered; crates may share it. It is no verdict.
top=$(dirname -- "$(dirname -- "$(dirname -- "$(readlink -f -- "$0")")")")
crate=$1; libs=$(readlink -f -- "$2"); shift 2
mkdir -p "$top/out"
PYTHONPATH=$top/wip/scripts python3 - "$crate" "$top" "$libs/crates" >"$top/out/mix-$crate.words" <<'P'
import sys, os
from below import below
crate, top, libs = sys.argv[1:4]; K = '/opt/rattle'
deps, seen = below(top, crate); own = set(deps)
built = {c for c in seen if os.path.exists(f'{libs}/{c}/out/rlib/{c}.rlib/format')}
src = [c for c in seen if c not in built]
w = ['--crate-name', crate, 'src/lib.rt']
for k in sorted({'std'} | {d for c in src + [crate] for d in deps[c] if d not in own}): w += ['--extern', f'{k}={K}/rlibs/{k}.rlib']
w += ['-L', f'dependency={K}/rlibs']
for d in sorted({d for c in src + [crate] for d in deps[c] if d in built}): w += ['--extern', f'{d}={libs}/{d}/out/rlib/{d}.rlib']
for d in built: w += ['-L', f'dependency={libs}/{d}/out/rlib']
for c in src: w += ['--lib', f'{c}:{",".join(["std"] + [d for d in deps[c] if d != "std"])}={top}/crates/{c}/src/lib.rt']
print('\n'.join(w + ['--links', crate + '=']))
P
mapfile -t words <"$top/out/mix-$crate.words"
inc=${INC:-$top/out/inc/$crate}
mkdir -p "$inc"
cd "$top/crates/$crate" || exit 2
exec /opt/rattle/bin/rattle check "${words[@]}" --antt-project /opt/rattle/rattle/logic/antt-project.json --logic-built /opt/rattle/logic_built --incremental "$inc" --jobs 1 "$@"
