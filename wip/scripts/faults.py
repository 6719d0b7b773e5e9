seen=set(); per={}
def call(f,arm):
    if f not in seen: seen.add(f); return f
    k=per.get((f,arm),0)+1; per[f,arm]=k
    return f'{f}-in-{arm}' if k==1 else f'{f}-in-{arm}-{k}'
CAL={'E':'in_expr','Is':'in_items','Ps':'in_properties','F':'in_function','Es':'in_exprs','S':'in_statement','L':'in_statement','W':'in_clauses','Ss':'in_list','D':'in_declarations','First':'in_first','M':'in_maybe','T':'in_target','B':'in_block'}
V={'E':'view_expr {}','Is':'view_items (nodes_of {})','Ps':'view_properties (nodes_of {})','F':'view_function {}','Es':'view_exprs (nodes_of {})','S':'view_stmt {}','L':'view_stmt {}','Ss':'view_stmts (nodes_of {})','D':'view_declarations {}','First':'view_first {}','M':'view_maybe_expr {}','T':'view_target {}','W':'view_clauses (nodes_of {})','B':'view_block {}'}
IN={'E':'in_expr','Is':'in_items','Ps':'in_properties','F':'in_function','Es':'in_exprs','S':'in_statement','L':'in_statement','W':'in_clauses','Ss':'in_statements','D':'in_declarations','First':'in_first','M':'in_maybe','T':'in_target','B':'in_block'}
HELD={'Is':'held_items','Ps':'held_properties','Es':'held_exprs','Ss':'held_stmts','M':'held_expr','W':'held_clauses'}
SC='(scope_of c.args.scope)'
OWN='g.T.Told.own'; ORD='g.T.Told.order'
def scope(r):
    return {'S':SC,'Ss':SC,'B':SC,'L':f'(looped {SC})','W':f'(switched {SC})'}.get(r,'')
def listed(fields,arm):
    return ['('+' '.join(x for x in [IN[r],OWN,scope(r),'('+V[r].format(f'c.in-{arm}.{f}')+')'] if x)+')' for f,r in fields if r]
out=[]
def emit(fn,kind,arm,fields,view,order=None):
    K='expr.' if kind=='e' else 'stmt.'
    T='c.args.e.now' if kind=='e' else 'c.args.s.now'
    parts=[(f,r) for f,r in fields if r]
    # evaluation order of the arguments, as the code has them
    names={}
    seq=parts if not order else [next(p for p in parts if p[0]==o) for o in order]
    facts={}
    for f,r in seq:
        if r=='L': sc=call('looped',arm)
        if r=='W': sc=call('switched',arm)
        n=call(CAL[r],arm)
        v=V[r].format(f'c.in-{arm}.{f}')
        if r in 'LW' and r: facts[f]=f'(c.{n}.ensures ∙ ap (λ s. first_by {ORD} ({IN[r]} {OWN} s ({v}))) c.{sc}.ensures)'
        else: facts[f]=f'c.{n}.ensures'
    ls=listed([(f,r) for f,r in seq],arm)
    def lst(i): return ls[i] if i==len(ls)-1 else f"({ls[i]} ++ {lst(i+1)})"
    n=len(seq); fs=[facts[f] for f,_ in seq]
    if n==1: proof=fs[0]
    elif n==2:
        j=call('earlier',arm); proof=f"(both {ORD} {ls[0]} {ls[1]} c.{j}.ensures {fs[0]} {fs[1]})"
    elif n==3:
        j1=call('earlier',arm); j2=call('earlier',arm)
        proof=f"(three {ORD} {ls[0]} {ls[1]} {ls[2]} c.{j2}.ensures c.{j1}.ensures {fs[0]} {fs[1]} {fs[2]})"
    elif n==4:
        j1=call('earlier',arm); j2=call('earlier',arm); j3=call('earlier',arm)
        proof=f"(both {ORD} {ls[0]} {lst(1)} c.{j3}.ensures {fs[0]} (three {ORD} {ls[1]} {ls[2]} {ls[3]} c.{j2}.ensures c.{j1}.ensures {fs[1]} {fs[2]} {fs[3]}))"
    k=f"{K}{arm} "+' '.join(f'c.in-{arm}.{f}' for f,_ in fields)
    env={f:(f"({V[r].format(f'c.in-{arm}.{f}')})" if r else f'c.in-{arm}.{f}') for f,r in fields}
    v=view.replace('@',T+'.at').format(**env)
    hs=[f"{HELD[r]} c.in-{arm}.{f}" for f,r in parts if r in HELD]
    sees='refl' if not hs else f"(rw ({', '.join(hs)}) refl)"
    law='expr_told' if kind=='e' else 'statement_told'
    g=f'{fn}-returns-in-{arm}'
    sca='' if kind=='e' else f' {SC}'
    out.append(f"pub {g} : goal.{g}\n{g} g t c = {law} {OWN} {ORD}{sca} {T} ({k}) ({v}) {lst(0)} {proof} (sym c.deref.ensures ∙ c.in-{arm}.is) {sees} refl\n")
E=lambda *a,**k: emit('in_parts','e',*a,**k)
E('Paren',[('inner','E')],'paren @ {inner}')
E('Array',[('items','Is'),('comma',None)],'trees.array @ {items} {comma}')
E('Object',[('properties','Ps'),('comma',None)],'object @ {properties} {comma}')
E('Function',[('f','F')],'function @ {f}')
E('Member',[('base','E'),('name',None)],'member @ {base} {name}')
E('Index',[('base','E'),('index','E')],'index @ {base} {index}')
seen.add('in_exprs') # New
E('Call',[('callee','E'),('args','Es')],'call @ {callee} {args}')
E('Postfix',[('operand','E'),('operator',None)],'postfix @ {operand} {operator}')
E('Unary',[('operator',None),('operand','E')],'unary @ {operator} {operand}')
E('Binary',[('left','E'),('operator',None),('right','E')],'binary @ {left} {operator} {right}')
E('Comma',[('left','E'),('right','E')],'trees.comma @ {left} {right}')
E('Assign',[('target','E'),('operator',None),('value','E')],'assign @ {target} {operator} {value}')
E('Conditional',[('test','E'),('then','E'),('other','E')],'conditional @ {test} {then} {other}')
exprs=list(out); out.clear(); seen.clear(); per.clear()
S=lambda *a,**k: emit('in_statement_parts','s',*a,**k)
S('Block',[('list','Ss')],'block (block_of @ {list})')
S('Var',[('declarations','D'),('semi',None)],'var @ {declarations} (view_semi {semi})')
S('Expr',[('expr','E'),('semi',None)],'expression @ {expr} (view_semi {semi})')
seen|={'in_statement','earlier'} # If
S('DoWhile',[('body','L'),('test','E'),('semi',None)],'do_while @ {body} {test} (view_semi {semi})')
S('While',[('test','E'),('body','L')],'while @ {test} {body}')
S('For',[('first','First'),('test','M'),('update','M'),('body','L')],'for @ {first} {test} {update} {body}')
S('ForIn',[('target','T'),('object','E'),('body','L')],'for_in @ {target} {object} {body}')
S('Return',[('value','M'),('semi',None)],'return @ {value} (view_semi {semi})')
S('Throw',[('value','E'),('semi',None)],'throw @ {value} (view_semi {semi})')
S('Switch',[('value','E'),('clauses','W')],'switch @ {value} {clauses}')
call('in_statement','Labelled')
S('TryCatch',[('block','B'),('param',None),('handler','B')],'try_catch @ {block} (view_ident {param}) {handler}')
S('TryFinally',[('block','B'),('finalizer','B')],'try_finally @ {block} {finalizer}')
S('TryBoth',[('block','B'),('param',None),('handler','B'),('finalizer','B')],'try_both @ {block} (view_ident {param}) {handler} {finalizer}')
S('Function',[('f','F')],'function_declaration @ {f}')
stmts=list(out)
import sys
src='/work/main/crates/js_faults/proofs/walk/+walk/Answers.antt'
dst=sys.argv[1]
a=open(src).read()
i=a.index('\npub ')
head=a[:i]
head=head.replace('use Rattle.std.proofs.Common.{refl}','use Rattle.std.proofs.Common.{refl, sym, ap, ◌∙◌, ◌≡◌, ◌++◌}')
head=head.replace('use Rattle.js_ast.specs.Trees.{no_items}','use Rattle.js_ast.specs.declared.trees.ExprKind as expr\nuse Rattle.js_ast.specs.declared.trees.StmtKind as stmt\nuse Rattle.js_ast.specs.Trees as trees\nuse Rattle.js_ast.specs.Trees.{no_items, paren, object, member, index, function, call, postfix, unary, binary, assign, conditional, block_of, block, var, expression, do_while, while, for, for_in, return, throw, switch, try_catch, try_finally, try_both, function_declaration}')
head=head.replace('{view_expr, view_maybe_expr, view_exprs, view_item, view_items, view_property, view_properties, view_other_declarations, view_clauses, view_stmt, view_stmts}','{view_expr, view_maybe_expr, view_exprs, view_item, view_items, view_property, view_properties, view_function, view_other_declarations, view_declarations, view_first, view_target, view_clauses, view_block, view_stmt, view_stmts, view_semi, view_ident}\nuse Rattle.js_ast.proofs.ViewLaws.{held_expr, held_exprs, held_items, held_properties, held_clauses, held_stmts}')
head=head.replace('{earlier_by, first_by, in_expr, in_exprs, in_maybe, in_items, in_property, in_properties, in_clauses, in_statement, in_statements}','{earlier_by, first_by, in_expr, in_exprs, in_maybe, in_items, in_property, in_properties, in_function, in_declarations, in_first, in_target, in_clauses, in_block, in_statement, in_statements}\nuse Rattle.js_faults.specs.Scopes.{looped, switched}\nuse Rattle.js_faults.proofs.Nodes.{both, three, expr_told, statement_told}')
open(dst,'w').write(head+a[i:].rstrip('\n')+'\n\n'+'\n'.join(exprs+stmts))
