"""setattr.py TOP ATTR crate::module::fn.. : sets the inline attribute (always, never, none)"""
import sys,re
top,at=sys.argv[1:3]
for name in sys.argv[3:]:
    p=name.split('::'); c,mods,fn=p[0],p[1:-1],p[-1]
    f=f'{top}/crates/{c}/src/'+'/'.join(mods)+'.rt'
    L=open(f).read().split('\n'); done=0; i=0
    while i<len(L):
        if re.match(r'\s*(pub(\([a-z]+\))? )?fn '+fn+r'\b',L[i]):
            ind=re.match(r'\s*',L[i]).group(0)
            k=i
            while k>0 and (L[k-1].strip().startswith('#[')): k-=1
            block=[x for x in L[k:i] if 'inline' not in x and x.strip()!='#[cold]']
            if at!='none': block.insert(0,f'{ind}#[inline({at})]')
            L[k:i]=block; i=k+len(block); done+=1
        i+=1
    if done: open(f,'w').write('\n'.join(L))
    else: print('not',name)
