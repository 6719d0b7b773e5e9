import os,re,time,collections,subprocess
KEEP={'js_faults','js_functions','js_parse_parts'}
done={}
end=time.time()+10000
def listing(d):
    n=0;last=0;names=[]
    for r,_,fs in os.walk(d):
        for f in fs:
            n+=1
            try: last=max(last,os.stat(os.path.join(r,f)).st_mtime)
            except OSError: pass
            m=re.match(r'Rattle-(\w+?)-proofs\.',f)
            if m: names.append(m.group(1))
    return n,last,collections.Counter(names).most_common(1)
while time.time()<end:
    for x in os.listdir('/tmp'):
        if not x.startswith('rt-edits-'): continue
        d=f'/tmp/{x}/seed'
        if not os.path.isdir(d): continue
        try:
            n,last,c=listing(d)
            if not c: continue
            crate=c[0][0]
            if done.get((x,crate))==n: continue
            # finished when others than the seed began (an edit of it) or no change for 40 s
            if time.time()-last<40: continue
            done[(x,crate)]=n
            out=subprocess.run(['python3','/work/main/WIP-laws/incl.py',d],capture_output=True,text=True).stdout
            open(f'/work/tmp/profiles/{crate}.txt','w').write(out)
            if True:
                t=f'/work/tmp/seeds/{crate}'
                subprocess.run(['rm','-rf',t]); subprocess.run(['cp','-al',d,t])
        except Exception as e: open('/work/tmp/profiles/errors','a').write(repr(e)+'\n')
    time.sleep(15)
