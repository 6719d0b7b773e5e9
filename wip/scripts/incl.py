import os,re,sys,collections
inc=sys.argv[1]
f=[]
for r,_,fs in os.walk(inc):
    for n in fs:
        q=os.path.join(r,n); s=os.stat(q); f.append((s.st_mtime_ns,s.st_size,n))
f.sort(); prev=f[0][0]; rows=[]; fns=collections.Counter(); kinds=collections.Counter()
for m,s,n in f:
    t=(m-prev)/1e9; prev=m
    n=re.sub(r'(\.decls)?\.oantt$','',n); p=n.split('.')
    rows.append((t,s,n)); fns['.'.join(p[1:4])]+=t; kinds[p[-1]]+=t
print(len(f),(f[-1][0]-f[0][0])/1e9)
for k,v in kinds.most_common(12): print('K %.1f %s'%(v,k))
for k,v in fns.most_common(20): print('F %.1f %s'%(v,k))
for t,s,n in sorted(rows,reverse=True)[:25]: print('M %.1f %8d %s'%(t,s,n))
