"""expand.py LL regex: expanded size (IR lines without alloca/memset) of always-inline functions"""
import sys,re,functools
sys.setrecursionlimit(10000)
size={};callees={};attr={};cur=None
for l in open(sys.argv[1]):
    if l.startswith('define '):
        cur=re.search(r'@("[^"]*"|[\w.]+)\(',l).group(1).strip('"'); size[cur]=0; callees[cur]=[]; attr[cur]=re.search(r'#(\d+) \{',l).group(1)
    elif l.startswith('}'): cur=None
    elif cur:
        if re.match(r'\s+\S',l): size[cur]+=1
        m=re.search(r'call [^@]*@("[^"]*"|[\w.]+)\(',l)
        if m: callees[cur].append(m.group(1).strip('"'))
memo={}
def ex(n):
    if n in memo: return memo[n]
    memo[n]=0
    memo[n]=ex2(n)
    return memo[n]
def ex2(n):
    return size[n]+sum(ex(c) for c in callees[n] if attr.get(c)=='91' or attr.get(c)=='3')
rx=re.compile(sys.argv[2])
rows=[(ex(n),size[n],attr[n],n) for n in size if rx.search(n)]
for r in sorted(rows,reverse=True)[:int(sys.argv[3])]: print(*r[:3],re.sub('::<.*','',r[3]))
