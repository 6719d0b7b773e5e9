import os,time,re,sys
out=sys.argv[1]; end=time.time()+float(sys.argv[2])
last={}
tick=os.sysconf('SC_CLK_TCK')
while time.time()<end:
    for p in os.listdir('/proc'):
        if not p.isdigit(): continue
        try:
            cmd=open(f'/proc/{p}/cmdline','rb').read().split(b'\0')
            if not cmd or not cmd[0].endswith(b'bin/rattle'): continue
            st=open(f'/proc/{p}/stat').read(); f=st[st.rindex(')')+2:].split()
            cpu=(int(f[11])+int(f[12])+int(f[13])+int(f[14]))/tick
            start=int(f[19])
            a=[c.decode() for c in cmd]
            name=a[a.index('--crate-name')+1] if '--crate-name' in a else '?'
            mode=a[1]
            cwd=os.readlink(f'/proc/{p}/cwd')
            tags=[t for t in ('--test','--statements','--incremental','--empty-contracts') if t in a]
            rss=0
            for l in open(f'/proc/{p}/status'):
                if l.startswith('VmHWM'): rss=int(l.split()[1])//1024
            last[(p,start)]=(name,mode,' '.join(tags),cpu,rss,cwd,time.time())
        except Exception: pass
    with open(out+'.new','w') as o:
        for k,v in sorted(last.items(),key=lambda x:x[0][1]): o.write(f'{k[0]}\t{k[1]}\t'+'\t'.join(str(x) for x in v)+'\n')
    os.replace(out+'.new',out)
    time.sleep(8)
