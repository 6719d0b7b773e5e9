# generates proofs/Expressions.antt and proofs/Statements.antt, and answers
ROLE={ # role: (rel, wrap, view, held, functions, seen lemma, lent lemma)
'E':('MarkedExpr','{}','view_expr','held_in_expr','functions_of_expr s',None,None),
'F':('MarkedFunction','{}','view_function','held_in_function','functions_of_function s',None,None),
'S':('MarkedStatement','{}','view_stmt','held_in_stmt','functions_of_statement s',None,None),
'B':('MarkedBlock','{}','view_block','held_in_block','functions_of_block s',None,None),
'D':('MarkedDeclarations','{}','view_declarations','held_in_declarations','functions_of_declarations s',None,None),
'T':('MarkedTarget','{}','view_target','held_in_target','functions_of_target s',None,None),
'First':('MarkedFirst','{}','view_first','held_in_first','functions_of_first s',None,None),
'M':('MarkedMaybe','{}','view_maybe_expr','held_in_maybe_expr','functions_of_maybe s','held_expr','lent_expr'),
'Items':('MarkedItems','(nodes_of {})','view_items','held_in_items','functions_of_items s','held_items','lent_items'),
'Props':('MarkedProperties','(nodes_of {})','view_properties','held_in_properties','functions_of_properties s','held_properties','lent_properties'),
'Es':('MarkedExprs','(nodes_of {})','view_exprs','held_in_exprs','functions_of_exprs s','held_exprs','lent_exprs'),
'Ss':('MarkedStatements','(nodes_of {})','view_stmts','held_in_stmts','functions_of_statements s','held_stmts','lent_stmts'),
'Cs':('MarkedClauses','(nodes_of {})','view_clauses','held_in_clauses','functions_of_clauses s','held_clauses','lent_clauses'),
}
# law name, constructor pattern, fields [(name, role or None)], view
EXPR=[
('paren','expr.Paren {inner}',[('inner','E')],'paren @ {inner}'),
('array','expr.Array {items} {final}',[('items','Items'),('final',None)],'array @ {items} {final}'),
('object','expr.Object {properties} {final}',[('properties','Props'),('final',None)],'object @ {properties} {final}'),
('function','expr.Function {f}',[('f','F')],'function @ {f}'),
('member','expr.Member {base} {name}',[('base','E'),('name',None)],'member @ {base} {name}'),
('index','expr.Index {base} {key}',[('base','E'),('key','E')],'index @ {base} {key}'),
('new_bare','expr.New {callee} None',[('callee','E')],'new_bare @ {callee}'),
('new_with','expr.New {callee} (Some {args})',[('callee','E'),('args','Es')],'new_with @ {callee} {args}'),
('call','expr.Call {callee} {args}',[('callee','E'),('args','Es')],'call @ {callee} {args}'),
('postfix','expr.Postfix {operand} {operator}',[('operand','E'),('operator',None)],'postfix @ {operand} {operator}'),
('unary','expr.Unary {operator} {operand}',[('operator',None),('operand','E')],'unary @ {operator} {operand}'),
('binary','expr.Binary {left} {operator} {right}',[('left','E'),('operator',None),('right','E')],'binary @ {left} {operator} {right}'),
('conditional','expr.Conditional {test} {one} {other}',[('test','E'),('one','E'),('other','E')],'conditional @ {test} {one} {other}'),
('assign','expr.Assign {target} {operator} {value}',[('target','E'),('operator',None),('value','E')],'assign @ {target} {operator} {value}'),
('comma','expr.Comma {left} {right}',[('left','E'),('right','E')],'comma @ {left} {right}'),
]
STMT=[
('block','stmt.Block {body}',[('body','Ss')],'block (block_of @ {body})'),
('var','stmt.Var {declared} {semi}',[('declared','D'),('semi',None)],'var @ {declared} (view_semi {semi})'),
('expression','stmt.Expr {e} {semi}',[('e','E'),('semi',None)],'expression @ {e} (view_semi {semi})'),
('if_then','stmt.If {test} {one} None',[('test','E'),('one','S')],'if_then @ {test} {one}'),
('if_else','stmt.If {test} {one} (Some {other})',[('test','E'),('one','S'),('other','S')],'if_else @ {test} {one} {other}'),
('do_while','stmt.DoWhile {body} {test} {semi}',[('body','S'),('test','E'),('semi',None)],'do_while @ {body} {test} (view_semi {semi})'),
('while','stmt.While {test} {body}',[('test','E'),('body','S')],'while @ {test} {body}'),
('for','stmt.For {first} {test} {update} {body}',[('first','First'),('test','M'),('update','M'),('body','S')],'for @ {first} {test} {update} {body}'),
('for_in','stmt.ForIn {target} {object} {body}',[('target','T'),('object','E'),('body','S')],'for_in @ {target} {object} {body}'),
('return','stmt.Return {value} {semi}',[('value','M'),('semi',None)],'return @ {value} (view_semi {semi})'),
('throw','stmt.Throw {value} {semi}',[('value','E'),('semi',None)],'throw @ {value} (view_semi {semi})'),
('switch','stmt.Switch {value} {clauses}',[('value','E'),('clauses','Cs')],'switch @ {value} {clauses}'),
('labelled','stmt.Labelled {label} {body}',[('label',None),('body','S')],'labelled @ {label} {body}'),
('try_catch','stmt.TryCatch {body} {param} {handler}',[('body','B'),('param',None),('handler','B')],'try_catch @ {body} (view_ident {param}) {handler}'),
('try_finally','stmt.TryFinally {body} {last}',[('body','B'),('last','B')],'try_finally @ {body} {last}'),
('try_both','stmt.TryBoth {body} {param} {handler} {last}',[('body','B'),('param',None),('handler','B'),('last','B')],'try_both @ {body} (view_ident {param}) {handler} {last}'),
('declared_function','stmt.Function {f}',[('f','F')],'function_declaration @ {f}'),
]
def law(kind,name,con,fields,view):
    parts=[(f,r) for f,r in fields if r]
    olds={f:f for f,_ in fields}; news={f:(f+"'" if r else f) for f,r in fields}
    def V(env): # env: field -> view text
        return view.replace('@','old.at').format(**env)
    def vt(f,r,n): return f"({ROLE[r][2]} {ROLE[r][1].format(n[f])})"
    def env(newset): return {f:(vt(f,r,news if f in newset else olds) if r else f) for f,r in fields}
    k=con.format(**olds); k2=con.format(**news)
    ms=[f'm{i}' for i in range(1,len(parts))]+['b']
    impl='{s : Bool} {n '+' '.join(ms)+' : ℕ}'
    args='(old : %s) '%('Expr' if kind=='expr' else 'Stmt')
    names=[olds[f] for f,_ in fields]+[news[f] for f,r in fields if r]
    prem=[]; n='n'
    for (f,r),m in zip(parts,ms):
        w=ROLE[r][1]
        prem.append(f"{ROLE[r][0]} s {n} {w.format(olds[f])} {w.format(news[f])} {m}"); n=m
    T='MarkedExpr' if kind=='expr' else 'MarkedStatement'
    roll='roll-Expr' if kind=='expr' else 'roll-Stmt'
    K='ExprKind' if kind=='expr' else 'StmtKind'
    sig=f"pub {name}_marked : {impl} {args}{''.join('(%s : _) '%x for x in names)}(kind : {K}) → old.kind.value ≡ {k} → kind ≡ {k2} → "+' → '.join(prem)+f" → {T} s n old ({roll} (record {{ at = old.at; kind = with_value old.kind kind }})) b"
    xs=[f'x{i}' for i in range(1,len(parts)+1)]
    kept=[]
    for i,(f,r) in enumerate(parts):
        e=env({g for g,_ in parts[i+1:]}); e[f]='v'
        kept.append(f"ap (λ v. {V(e)}) {xs[i]}.kept")
    def fn(f,r): return f"({ROLE[r][4]} {vt(f,r,olds)})"
    def held(f,r): return f"({ROLE[r][3]} {ROLE[r][1].format(news[f])})"
    def tail_f(i):
        f,r=parts[i]
        return fn(f,r) if i==len(parts)-1 else f"({fn(f,r)} ++ {tail_f(i+1)})"
    def tail_h(i):
        f,r=parts[i]
        return held(f,r) if i==len(parts)-1 else f"({held(f,r)} ++ {tail_h(i+1)})"
    def marks(i,n):
        if i==len(parts)-1: return f"{xs[i]}.marks"
        return f"both_marks {n} {ms[i]} {fn(*parts[i])} {tail_f(i+1)} {held(*parts[i])} {tail_h(i+1)} {xs[i]}.marks {xs[i]}.count ({marks(i+1,ms[i])})"
    def count(i,n):
        if i==len(parts)-1: return f"{xs[i]}.count"
        return f"both_count {n} {ms[i]} b {fn(*parts[i])} {tail_f(i+1)} {xs[i]}.count ({count(i+1,ms[i])})"
    seen=[ROLE[r][5]+' '+'%s' for f,r in parts if ROLE[r][5]]
    lists=[(f,r) for f,r in parts if ROLE[r][5]]
    def rwl(which,n):
        ls=[f"{ROLE[r][which]} {n[f]}" for f,r in lists]
        return 'refl' if not ls else ('rw (%s) refl'%', '.join(ls))
    ev=env(set()); evn=env({f for f,_ in parts})
    fun='expr_seen' if kind=='expr' else 'statement_seen'
    im='{s} {n} '+' '.join('{%s}'%m for m in ms)
    body=f"{name}_marked {im} old {' '.join(names)} kind is new {' '.join(xs)} = {fun} old ({k}) ({k2}) kind ({V(ev)}) ({V(evn)}) {tail_h(0)} is new ({rwl(5,olds)}) ({rwl(5,news)}) ({rwl(6,news)}) ({' ∙ '.join(kept)}) ({marks(0,'n')}) ({count(0,'n')})"
    return sig+'\n'+body+'\n'
def uses(kind):
    common='''use Rattle.std.proofs.Common.{refl, ap, ◌∙◌, ◌≡◌, ◌++◌, ℕ, Bool, List, Option, Some, None}
use Rattle.std.specs.Box.{with_value}
use Rattle.js_ast.specs.declared.trees.Expr.{Expr, roll-Expr}
use Rattle.js_ast.specs.declared.trees.ExprKind.{ExprKind}
use Rattle.js_ast.specs.declared.trees.ExprKind as expr
use Rattle.js_ast.specs.declared.trees.Stmt.{Stmt, roll-Stmt}
use Rattle.js_ast.specs.declared.trees.StmtKind.{StmtKind}
use Rattle.js_ast.specs.declared.trees.StmtKind as stmt
use Rattle.js_ast.specs.Nodes.{nodes_of}
use Rattle.js_ast.specs.Trees.{TREES}
use Rattle.js_ast.specs.Views.{VIEWS}
use Rattle.js_ast.proofs.ViewLaws.{SEEN}
use Rattle.js_ast.specs.Functions.{FUNCTIONS}
use Rattle.js_ast.specs.Held.{HELD}
use Rattle.js_ast.proofs.HeldLaws.{LENT}
use Rattle.js_functions.specs.Marks.{MARKS}
use Rattle.js_functions.proofs.Arms.{both_marks, both_count, expr_seen, statement_seen}
'''
    return common
import re
def module(kind,rows,title):
    text=''.join('\n'+law(kind,*r) for r in rows)
    def found(cands): return ', '.join(c for c in cands if re.search(r'(?<![\w.-])'+re.escape(c)+r'(?![\w-])',text))
    views=['view_expr','view_maybe_expr','view_exprs','view_items','view_properties','view_function','view_declarations','view_first','view_target','view_clauses','view_block','view_stmt','view_stmts','view_semi','view_ident']
    u=uses(kind)
    trees=['paren','array','object','function','member','index','new_with','new_bare','call','postfix','unary','binary','conditional','assign','comma'] if kind=='expr' else ['block_of','block','var','expression','if_then','if_else','do_while','while','for','for_in','return','throw','switch','labelled','try_catch','try_finally','try_both','function_declaration']
    u=u.replace('TREES',found(trees)).replace('VIEWS',found(views)).replace('SEEN',found(['held_expr','held_exprs','held_items','held_properties','held_clauses','held_stmts'])).replace('FUNCTIONS',found(['functions_of_expr','functions_of_exprs','functions_of_maybe','functions_of_items','functions_of_properties','functions_of_function','functions_of_declarations','functions_of_first','functions_of_target','functions_of_clauses','functions_of_block','functions_of_statement','functions_of_statements'])).replace('HELD',found(['held_in_expr','held_in_maybe_expr','held_in_exprs','held_in_items','held_in_properties','held_in_function','held_in_declarations','held_in_first','held_in_target','held_in_clauses','held_in_block','held_in_stmt','held_in_stmts'])).replace('LENT',found(['lent_expr','lent_exprs','lent_items','lent_properties','lent_clauses','lent_stmts'])).replace('MARKS',found(['MarkedExpr','MarkedExprs','MarkedItems','MarkedMaybe','MarkedProperties','MarkedFunction','MarkedDeclarations','MarkedFirst','MarkedTarget','MarkedClauses','MarkedBlock','MarkedStatement','MarkedStatements']))
    names=['roll-Expr','Expr','ExprKind','roll-Stmt','Stmt','StmtKind']
    if kind=='expr': u=''.join(l+'\n' for l in u.split('\n') if l and 'Stmt' not in l)
    else: u=''.join(l+'\n' for l in u.split('\n') if l and 'trees.Expr' not in l)
    u=u.replace('expr_seen, statement_seen','expr_seen' if kind=='expr' else 'statement_seen')
    return f'-- {title}\n'+u+text
if __name__=='__main__':
    import sys
    d=sys.argv[1]
    open(d+'/Expressions.antt','w').write(module('expr',EXPR,'An expression of each kind is marked where its parts are, in their order.'))
    open(d+'/Statements.antt','w').write(module('stmt',STMT,'And so is a statement of each kind.'))
