#!/usr/bin/env python3
# prof.py TREE CRATE [--test]: checks the crate of TREE over the gate's libraries with one job, and tells seconds per function and per kind of module
import sys,os,subprocess,re,collections,time,shutil
tree,crate=sys.argv[1:3]; extra=sys.argv[3:]
K='/opt/rattle'; G=os.environ.get('LIBS','/work/tmp/gate')
deps={}
for l in open(f'{tree}/crates.txt'):
    l=l.split('#')[0].strip()
    if ':' in l:
        n,d=l.split(':'); deps[n.split()[0]]=d.split()
own=set(deps)
def below(n,f):
    for d in deps[n]:
        if d in own:
            below(d,f)
            if d not in f: f.append(d)
    return f
words=[f'{K}/bin/rattle','check','--crate-name',crate,'src/main.rt' if os.path.exists(f'{tree}/crates/{crate}/src/main.rt') else 'src/lib.rt']
kit={'std'}|{d for d in deps[crate] if d not in own}
for k in kit: words+=['--extern',f'{k}={K}/rlibs/{k}.rlib']
words+=['-L',f'dependency={K}/rlibs']
for d in deps[crate]:
    if d in own: words+=['--extern',f'{d}={G}/crates/{d}/out/rlib/{d}.rlib']
for d in below(crate,[]): words+=['-L',f'dependency={G}/crates/{d}/out/rlib']
inc=f'/tmp/inc/{crate}'
shutil.rmtree(inc,ignore_errors=True); os.makedirs(inc)
words+=['--antt-project',f'{K}/rattle/logic/antt-project.json','--logic-built',f'{K}/logic_built','--jobs','1','--incremental',inc,'--stage-times',f'/tmp/st/{crate}.st']+extra
t0=time.time()
p=subprocess.run(words,cwd=f'{tree}/crates/{crate}',stdout=open(f'/tmp/st/{crate}.log','w'),stderr=subprocess.STDOUT)
import resource
ru=resource.getrusage(resource.RUSAGE_CHILDREN)
print(crate,'status',p.returncode,'wall %.1f user %.1f sys %.1f'%(time.time()-t0,ru.ru_utime,ru.ru_stime))
f=[]
for r,_,fs in os.walk(inc):
    for n in fs:
        q=os.path.join(r,n); s=os.stat(q); f.append((s.st_mtime_ns,s.st_size,n))
f.sort()
prev=f[0][0]; kinds=collections.Counter(); fns=collections.Counter(); rows=[]
for m,s,n in f:
    t=(m-prev)/1e9; prev=m
    n=re.sub(r'(\.decls)?\.oantt$','',n)
    parts=n.split('.')
    last=parts[-1] if len(parts)>1 else n
    kinds[last if last in('Lts','Proof','Answers','Tie','Code','Mir','Statement','Met','TheLink','TheLinks','Invariants','Frames','Routine','Borrows') else (parts[0] if parts[0].endswith('specs') else 'other:'+parts[0])]+=t
    fns['.'.join(parts[1:4])]+=t
    rows.append((t,s,n))
print('kinds',[(k,round(v,1)) for k,v in kinds.most_common(16)])
print('functions'); 
for k,v in fns.most_common(25): print('  %.1f %s'%(v,k))
print('modules')
for t,s,n in sorted(rows,reverse=True)[:25]: print('  %.2f %8d %s'%(t,s,n))
