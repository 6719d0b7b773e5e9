#!/bin/sh
# raw.sh CRATE [flags]: checks a crate of this repository over the sources of the crates below it, as `raw.sh object_heap --only table`. So one module can be proved before the libraries below are built. It is no verdict: the gate still has to run.
TOP=$(dirname -- "$(dirname -- "$(readlink -f -- "$0")")")
export TOP CRATE=$1; shift
cd "$TOP/crates/$CRATE" || exit 2
exec nice -n 5 python3 - "$@" <<'P'
import sys,os
K='/opt/rattle'; T=os.environ['TOP']; C=os.environ['CRATE']
d={}
for l in open(T+'/crates.txt'):
    if ':' in l:
        n,_,r=l.partition(':'); d[n.split()[0]]=r.split()
seen=[]
def go(n):
    for x in d.get(n,[]):
        if x in d and x not in seen:
            go(x); seen.append(x)
go(C)
kit=sorted({x for c in seen+[C] for x in d[c] if x not in d})
w=[K+'/bin/rattle','check','--crate-name',C,'src/lib.rt','--extern','std=%s/rlibs/std.rlib'%K]
for x in kit: w+=['--extern','%s=%s/rlibs/%s.rlib'%(x,K,x)]
w+=['-L','dependency=%s/rlibs'%K]
for x in seen:
    # std is listed among what a library uses
    used=','.join(d[x])
    w+=['--lib','%s:std,%s=%s/crates/%s/src/lib.rt'%(x,used,T,x)] if used else ['--lib','%s:std=%s/crates/%s/src/lib.rt'%(x,T,x)]
kept=T+'/out/raw/'+C
w+=['--antt-project',K+'/rattle/logic/antt-project.json','--logic-built',K+'/logic_built','--links',C+'=','--jobs','1','--progress','--incremental',kept]
w+=sys.argv[1:]
os.makedirs(kept,exist_ok=True)
os.execv(w[0],w)
P
