import os,re,sys,collections
inc=sys.argv[1]
f=[]
for r,_,fs in os.walk(inc):
    for n in fs:
        q=os.path.join(r,n); s=os.stat(q); f.append((s.st_mtime_ns,s.st_size,n))
f.sort(); prev=f[0][0]; d=collections.defaultdict(dict)
for m,s,n in f:
    t=(m-prev)/1e9; prev=m
    n=re.sub(r'(\.decls)?\.oantt$','',n)
    b,_,k=n.rpartition('.')
    if k in('Lts','Mir','Code','Tie','Proof','Statement','Reads','Kinds'): d[b.replace('.Code','')][k]=(d[b.replace('.Code','')].get(k,(0,0))[0]+t,d[b.replace('.Code','')].get(k,(0,0))[1]+s)
rows=[]
for b,v in d.items():
    if 'Lts' in v: rows.append((v['Lts'][0],v['Lts'][1]//1000,v.get('Mir',(0,0))[1]//1000,v.get('Code',(0,0))[1]//1000,v.get('Tie',(0,0))[0],v.get('Proof',(0,0))[0],b))
rows.sort(reverse=True)
for r in rows[:int(sys.argv[2]) if len(sys.argv)>2 else 40]: print('lts %.1fs %dk mir %dk code %dk tie %.1f proof %.1f %s'%r)
