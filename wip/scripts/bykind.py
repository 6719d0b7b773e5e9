import os,re,sys,collections
for crate in sys.argv[1:]:
    f=[]
    for r,_,fs in os.walk('/work/tmp/seeds/'+crate):
        for n in fs:
            s=os.stat(os.path.join(r,n)); f.append((s.st_mtime_ns,s.st_size,n))
    f.sort(); prev=f[0][0]; c=collections.Counter(); cnt=collections.Counter(); tot=0; seen=set()
    for m,s,n in f:
        t=(m-prev)/1e9; prev=m; tot+=t
        n=re.sub(r'(\.decls)?\.oantt$','',n)
        k='other'
        for pat,name in ((r'Debug(\.fmt|\b)','Debug'),(r'PartialEq(\.eq|\b)|Eq\b','PartialEq'),(r'PartialOrd|Ord\b','Ord'),(r'Clone','Clone'),(r'\.drop\.|Destruct','drop'),(r'Display','Display'),(r'Error\b','Error'),(r'\bFrom|From','From')):
            if re.search(pat,n): k=name; break
        c[k]+=t
        g=re.sub(r'\.(Lts|Proof|Tie|Reads|Layout|Named|Kinds|Met|Mir|Code|Statement|Goals|Answers|Given|View|TheLaws)\b.*','',n)
        if (k,g) not in seen: seen.add((k,g)); cnt[k]+=1
    print(crate,'%.0f'%tot,{k:round(v,1) for k,v in c.most_common()})
