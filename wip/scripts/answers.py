import sys
sys.path.insert(0,'/tmp/genlaws')
from gen import ROLE
# arm, fields (code names in constructor order; None role for others), law, calls
def E(*a): return a
EXPR=[
('Paren','paren',[('inner','E')]),
('Array','array',[('items','Items'),('comma',None)]),
('Object','object',[('properties','Props'),('comma',None)]),
('Function','function',[('f','F')]),
('Member','member',[('base','E'),('name',None)]),
('Index','index',[('base','E'),('index','E')]),
('Call','call',[('callee','E'),('args','Es')]),
('Postfix','postfix',[('operand','E'),('operator',None)]),
('Unary','unary',[('operator',None),('operand','E')]),
('Binary','binary',[('left','E'),('operator',None),('right','E')]),
('Comma','comma',[('left','E'),('right','E')]),
('Assign','assign',[('target','E'),('operator',None),('value','E')]),
('Conditional','conditional',[('test','E'),('then','E'),('other','E')]),
]
STMT=[
('Block','block',[('list','Ss')]),
('Var','var',[('declarations','D'),('semi',None)]),
('Expr','expression',[('expr','E'),('semi',None)]),
('DoWhile','do_while',[('body','S'),('test','E'),('semi',None)]),
('While','while',[('test','E'),('body','S')]),
('For','for',[('first','First'),('test','M'),('update','M'),('body','S')]),
('ForIn','for_in',[('target','T'),('object','E'),('body','S')]),
('Return','return',[('value','M'),('semi',None)]),
('Throw','throw',[('value','E'),('semi',None)]),
('Switch','switch',[('value','E'),('clauses','Cs')]),
('Labelled','labelled',[('label',None),('body','S')]),
('TryCatch','try_catch',[('block','B'),('param',None),('handler','B')]),
('TryFinally','try_finally',[('block','B'),('finalizer','B')]),
('TryBoth','try_both',[('block','B'),('param',None),('handler','B'),('finalizer','B')]),
('Function','function',[('f','F')]),
]
CALLEE={'E':('expr','e'),'F':('function','f'),'S':('statement','s'),'B':('block','block'),'D':('declarations','declarations'),'T':('target','target'),'First':('first','first'),'M':('maybe','e'),'Items':('items','list'),'Props':('properties','list'),'Es':('exprs','list'),'Ss':('list','list'),'Cs':('clauses','list')}
class Names:
    """the names that rattle gives calls and marks in a match, in the order of the code"""
    def __init__(self,prefix): self.prefix=prefix; self.seen=set(); self.per={}
    def call(self,role,arm):
        f=self.prefix+CALLEE[role][0]
        if f not in self.seen:
            self.seen.add(f); return f   # the first keeps its plain name
        k=self.per.get((f,arm),0)+1; self.per[f,arm]=k
        base=f'{f}-in-{arm}'
        return base if k==1 else f'{base}-{k}'
def answers(fn,rows,T,prefix,goalprefix=''):
    names=Names(prefix)
    names.seen|={prefix+'exprs'} if fn=='mark_expr' else {prefix+'statement'}; out=[]; laws=set(); okseen={}
    for arm,law,fields in rows:
        parts=[(f,r) for f,r in fields if r]
        news={}; calls=[]
        for f,r in parts:
            c=names.call(r,arm); calls.append(c); news[f]=f'c.{c}.new.{CALLEE[r][1]}'
        oks=[]
        for i in range(len(parts)-1):
            oks.append(f'in_ok-next-in-{arm}' if i==0 else f'in_ok-next-in-{arm}-{i+1}')
        goal=f'{goalprefix}returns-in-{arm}' if not oks else f'{goalprefix}returns-{oks[-1]}'
        def old(f): return f'c.in-{arm}.{f}'
        n='c.args.next'; prem=[]
        for i,(f,r) in enumerate(parts):
            m='b' if i==len(parts)-1 else f'c.{oks[i]}.next'
            fact='y' if i==len(parts)-1 else f'c.{oks[i]}.ensures'
            w=ROLE[r][1]
            rel=ROLE[r][0]
            prem.append(f"(subst (λ x. {rel} c.args.strict {n} {w.format('x')} {w.format(news[f])} {m}) c.in-{arm}.{f}-is {fact})"); n=m
        plain=all(r for _,r in fields) and len(parts)>1
        new='refl' if plain else f'(rw c.in-{arm}.is refl)'
        unf='' if plain else 'unfolding out-ExprKind denote.Hole.Carrier.out\n'
        args=' '.join([old(f) for f,_ in fields]+[news[f] for f,_ in parts])
        out.append(f"pub {goal} : goal.{goal}\n{unf}{goal} c = answered c.{calls[-1]}.result (λ b y. {law}_marked {T} {args} _ (sym c.deref_mut.ensures.value ∙ c.in-{arm}.is) {new} {' '.join(prem)}) c.{calls[-1]}.ensures\n")
        laws.add(law+'_marked')
    return out,laws
if __name__=='__main__':
    fn=sys.argv[1]; prefix=sys.argv[2]
    rows,T=(EXPR,'c.args.e.now') if fn=='mark_expr' else (STMT,'c.args.s.now')
    o,l=answers(fn,rows,T,prefix)
    print('\n'.join(o))
