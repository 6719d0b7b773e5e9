"""instr.py PROG SCRIPT FUNC-substring [min]: disassembly of a function with counts, in a folder with SCRIPT.js, a policy p and an input i"""
import sys,re,subprocess,os
prog,script,fun=sys.argv[1:4]; mn=int(sys.argv[4]) if len(sys.argv)>4 else 1
subprocess.run(['valgrind','--tool=callgrind','--dump-instr=yes','--callgrind-out-file=cgi',prog,'run',script+'.js','p','i'],stdout=subprocess.DEVNULL,stderr=subprocess.DEVNULL)
cnt={}; cur=0; skip=False
for l in open('cgi'):
    if l.startswith('calls='): skip=True; continue
    m=re.match(r'(0x[0-9a-f]+|\+\d+|-\d+|\*) \S+ (\d+)',l)
    if m:
        a=m.group(1)
        if a=='*': pass
        elif a[0] in '+-': cur+=int(a)
        else: cur=int(a,16)
        if skip: skip=False; continue
        cnt[cur]=cnt.get(cur,0)+int(m.group(2))
    elif re.match(r'(0x[0-9a-f]+|\+\d+|-\d+|\*)',l): 
        a=l.split()[0]
        if a=='*': pass
        elif a[0] in '+-': cur+=int(a)
        else: cur=int(a,16)
        skip=False
out=subprocess.run(['objdump','-d','--no-show-raw-insn',prog],capture_output=True,text=True).stdout
show=False; base=0
tot=0
for l in out.splitlines():
    m=re.match(r'([0-9a-f]+) <(.*)>:$',l)
    if m: show= fun in m.group(2); 
    if show:
        m=re.match(r'\s*([0-9a-f]+):\s+(.*)',l)
        if m:
            a=int(m.group(1),16)
            c=cnt.get(a,0) or cnt.get(a+0x4000000,0) or cnt.get(a+0x108000,0)
            if c>=mn: print('%9d %6x %s'%(c,a,m.group(2)[:100])); tot+=c
        else: print(l[:90])
print(tot)
