#!/bin/bash
# prof.sh PROG SCRIPT [LINES]: in a folder with SCRIPT.js, a policy p and an input i
valgrind --tool=callgrind --callgrind-out-file=cg.$2 $1 run $2.js p i >/dev/null 2>&1; callgrind_annotate --threshold=97 cg.$2 2>/dev/null | grep -v "^--" | sed -n '/Ir/,$p' | sed -E 's/ \[.*//; s/\?\?\?://; s/::<[^>]*>//' | cut -c1-140 | head -${3:-45}
