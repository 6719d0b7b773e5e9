"""getlibs.py LIBS [NAMES]: links the libraries that rt ci kept on this machine into LIBS/crates/NAME/out/rlib, for chk.sh and mix.sh. The newest of each crate is taken, so see that its text is the one that is wanted."""
import os,json,sys,re
dst=sys.argv[1]; want=set(sys.argv[2:])
for d in sorted(os.listdir('/opt/rattle-kept'), key=lambda d: os.path.getmtime('/opt/rattle-kept/'+d)):
    p='/opt/rattle-kept/'+d; mj=p+'/made.json'
    if not d.startswith('proof-') or not os.path.exists(mj): continue
    name=re.match(r'proof-(.+)-[0-9a-f]{64}$',d).group(1)
    if want and name not in want: continue
    m=json.load(open(mj))
    if not any(f[0].startswith('rlib/') for f in m['files']): continue
    base=f'{dst}/crates/{name}'
    if os.path.islink(base): continue
    n=0
    for i,(f,s) in enumerate(m['files']):
        if not f.startswith('rlib/'): continue
        t=f'{base}/out/{f}'; os.makedirs(os.path.dirname(t),exist_ok=True)
        if os.path.exists(t): os.unlink(t)
        os.link(f'{p}/{i}',t); n+=1
    print(name,n)
