import sys,json,subprocess,importlib.util,importlib.machinery
from gen import G
a,b=int(sys.argv[1]),int(sys.argv[2]); prog=sys.argv[3] if len(sys.argv)>3 else None
ids=list(range(a,b)); scripts=[G(i).script() for i in ids]
json.dump(scripts,open('in%d.json'%a,'w'))
subprocess.run(['node','node.js','in%d.json'%a,'out%d.json'%a],check=True)
exp=json.load(open('out%d.json'%a))
keep=[i for i in range(len(exp)) if exp[i][1]!='timeout' and len(exp[i][0])<600]
ids=[ids[i] for i in keep]; scripts=[scripts[i] for i in keep]; exp=[exp[i] for i in keep]
from collections import Counter
print(Counter(e[1][:40] for e in exp), 'lines', sum(len(e[0]) for e in exp)//len(exp))
if prog:
    ld=importlib.machinery.SourceFileLoader('runmod','/work/shared/cases/run'); sp=importlib.util.spec_from_loader('runmod',ld); R=importlib.util.module_from_spec(sp); ld.exec_module(R)
    class C: pass
    cs=[]
    for s in scripts:
        c=C(); c.script=s; c.policy=R.POLICY; c.input=''; cs.append(c)
    if prog=='try':
        got={}
        for k in range(0,len(cs),400):
            part=R.by_try('/work/tmp/tree/crates/jsflow',cs[k:k+400],3600)
            got.update({k+n:v for n,v in part.items()})
    else:
        import tempfile,os
        got={}
        for n,c in enumerate(cs):
            with tempfile.TemporaryDirectory() as d:
                for nm,t in (('script',c.script),('policy',c.policy),('input','')): open(os.path.join(d,nm),'w').write(t)
                p=subprocess.run([prog,'run','script','policy','input'],cwd=d,stdout=subprocess.PIPE,stderr=subprocess.PIPE)
                got[n]=[p.stdout,p.returncode]
    cnt=Counter(); bad=[]
    for n,c in enumerate(cs):
        out,st=got.get(n,[b'','none'])
        ls=out.decode('utf8','replace').split('\n')[:-1]
        rep=ls[-1] if ls and ls[-1].startswith('!') else ''
        ls=ls[:-1] if rep else ls
        e,end=exp[n]
        if rep.startswith('! left') or rep.startswith('! out of'):
            cnt[rep]+=1
            if e[:len(ls)]!=ls: bad.append((n,'prefix'))
            continue
        kind='done' if rep=='! done' else 'threw' if rep.startswith('! threw') else rep
        cnt[kind[:30]]+=1
        if e!=ls or kind!=end: bad.append((n,kind+' vs '+end))
    print(cnt); print(len(bad),bad[:40])
    json.dump([(ids[n],w,scripts[n],exp[n],got.get(n,[b''])[0].decode('utf8','replace')) for n,w in bad],open('bad%d.json'%a,'w'))
