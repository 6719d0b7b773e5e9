# writes answers for default arms over the kinds of statement
import os,sys
R=lambda a,p,v: f"(record {{ at = {a}; kind = record {{ ptr = {p}.ptr; alloc = {p}.alloc; value = {v} }} }})"
# kind -> (parameter names with types, patterns [(pattern, args)])
KINDS={
'DoWhile':('(body : Stmt) (test : Expr) (semi : _)','body test semi',[("stmt.DoWhile' a p s b q e semi",f"{R('a','p','s')} {R('b','q','e')} semi")]),
'While':('(test : Expr) (body : Stmt)','test body',[("stmt.While' a p e b q s",f"{R('a','p','e')} {R('b','q','s')}")]),
'For':('(first : ForFirst) (test update : Option Expr) (body : Stmt)','first test update body',[
 ("stmt.For' first ForFirst-Expr-0-None' ForFirst-Expr-0-None' a p s",f"first None None {R('a','p','s')}"),
 ("stmt.For' first ForFirst-Expr-0-None' (ForFirst-Expr-0-Some' d dp de) a p s",f"first None (Some {R('d','dp','de')}) {R('a','p','s')}"),
 ("stmt.For' first (ForFirst-Expr-0-Some' c cp ce) ForFirst-Expr-0-None' a p s",f"first (Some {R('c','cp','ce')}) None {R('a','p','s')}"),
 ("stmt.For' first (ForFirst-Expr-0-Some' c cp ce) (ForFirst-Expr-0-Some' d dp de) a p s",f"first (Some {R('c','cp','ce')}) (Some {R('d','dp','de')}) {R('a','p','s')}")]),
'ForIn':('(target : ForTarget) (object : Expr) (body : Stmt)','target object body',[("stmt.ForIn' target a p e b q s",f"target {R('a','p','e')} {R('b','q','s')}")]),
'Switch':('(value : Expr) (clauses : _)','value clauses',[("stmt.Switch' a p e clauses",f"{R('a','p','e')} clauses")]),
'Labelled':('(label : _) (body : Stmt)','label body',[("stmt.Labelled' label a p s",f"label {R('a','p','s')}")]),
}
TYPES={'DoWhile':{'Stmt','Expr'},'While':{'Stmt','Expr'},'For':{'ForFirst','Option','Expr','Stmt'},'ForIn':{'ForTarget','Expr','Stmt'},'Switch':{'Expr'},'Labelled':{'Stmt'}}
NAMES={'DoWhile':'no_do','While':'no_while','For':'no_for','ForIn':'no_in','Switch':'no_switch','Labelled':'no_label'}
def write(path,module,law,comment,arms,extra_params,goal,uses,answer_args,deref,extra_args,head='c',prefix='',goalname='returns-in_default',unfolding=''):
    types=set().union(*[TYPES[a] for a in arms])
    w=[]
    common=['refl','◌∙◌','◌≡◌']+[u for u in uses.get('common',[])]
    if 'Option' in types: common+=['Option','Some','None']
    seen=[]; [seen.append(c) for c in common if c not in seen]
    w.append('use Rattle.std.proofs.Common.{'+', '.join(seen)+'}')
    for t in ('Expr','Stmt'):
        if t in types: w.append(f'use Rattle.js_ast.specs.declared.trees.{t}.{{{t}}}')
    w.append('use Rattle.js_ast.specs.declared.trees.StmtKind.{StmtKind}')
    w.append('use Rattle.js_ast.specs.declared.trees.StmtKind as stmt')
    for t in ('ForFirst','ForTarget'):
        if t in types: w.append(f'use Rattle.js_ast.specs.declared.trees.{t}.{{{t}}}')
    block=(["ForFirst-Expr-0-None'","ForFirst-Expr-0-Some'"] if 'For' in arms else [])+["StmtKind-If-2-None'","StmtKind-If-2-Some'"]
    w.append('use Rattle.js_ast.specs.declared.trees.ExprKind.TheBlock.{'+', '.join(block)+'}')
    w.append('use Rattle.js_ast.specs.Views.{view_stmt_kind}')
    w+=uses.get('lines',[])
    w.append(f'use {module}.Goals as goal')
    w.append('')
    w.append(f'-- {comment}')
    nots=' → '.join(f"({KINDS[a][0]} → k ≡ stmt.{a} {KINDS[a][1]} → ⊥)" for a in arms)
    w.append(f'{law} : {extra_params}(at : _) (k : StmtKind) → {nots} → {goal}')
    if unfolding: w.append(f'unfolding {unfolding}')
    ns=' '.join(NAMES[a] for a in arms)
    ep=''.join(n+' ' for n in extra_args[0])
    def clause(pat,body): w.append(f'{law} {ep}at {pat} {ns} = {body}')
    for a in arms:
        for pat,args in KINDS[a][2]: clause(f'({pat})',f'absurd ({NAMES[a]} {args} refl)')
    clause("(stmt.If' a p e b q s StmtKind-If-2-None')",'refl')
    clause("(stmt.If' a p e b q s (StmtKind-If-2-Some' d r t))",'refl')
    clause('_','refl')
    w.append('')
    w.append(f'pub {goalname} : goal.{goalname}')
    lam=' '.join(f"(λ {KINDS[a][1]} e. c.in_default.not-{a} {KINDS[a][1]} ({deref} ∙ e))" for a in arms)
    ans=f"{law} {''.join(x+' ' for x in extra_args[1])}_ _ {lam}"
    if prefix: ans=prefix.replace('@',f'({ans})')
    w.append(f'{goalname} {head} = {ans}')
    os.makedirs(os.path.dirname(path),exist_ok=True)
    open(path,'w').write('\n'.join(w)+'\n')
