import re
# arm: (goal call names builder)
seen=set()
per={}
def call(f,arm):
    if f not in seen: seen.add(f); return f
    k=per.get((f,arm),0)+1; per[f,arm]=k
    return f'{f}-in-{arm}' if k==1 else f'{f}-in-{arm}-{k}'
CAL={'E':'in_expr','Ps':'in_properties','F':'in_function','Es':'in_exprs','S':'in_statement','Ss':'in_statements','D':'in_declarations','First':'in_first','M':'in_maybe','T':'in_target','Cs':'in_clauses','B':'in_block'}
V={'E':'view_expr {}','Ps':'view_properties (nodes_of {})','F':'view_function {}','Es':'view_exprs (nodes_of {})','S':'view_stmt {}','Ss':'view_stmts (nodes_of {})','D':'view_declarations {}','First':'view_first {}','M':'view_maybe_expr {}','T':'view_target {}','Cs':'view_clauses (nodes_of {})','B':'view_block {}'}
U={'E':'unbuilt_expr','Ps':'unbuilt_properties','F':'unbuilt_function','Es':'unbuilt_exprs','S':'unbuilt_statement','Ss':'unbuilt_statements','D':'unbuilt_declarations','First':'unbuilt_first','M':'unbuilt_maybe','T':'unbuilt_target','Cs':'unbuilt_clauses','B':'unbuilt_block'}
SEEN={'Ps':'held_properties','Es':'held_exprs','Ss':'held_stmts','M':'held_expr','Cs':'held_clauses'}
def listed(fields,arm):
    return [f"({U[r]} ({V[r].format(f'c.in-{arm}.{f}')}))" for f,r in fields if r]
out=[]
def emit(fn,kind,arm,con,fields,view,test=None):
    K='expr.' if kind=='e' else 'stmt.'
    T='c.args.e.now' if kind=='e' else 'c.args.s.now'
    parts=[(f,r) for f,r in fields if r]
    # evaluation order: where_built(test, at, first_of(..)): calls named in the order they are made
    tests=None
    if test: tests=call(test[0],arm)
    calls=[]
    # nested: For is first_of(first, first_of_three(..))
    calls=[call(CAL[r],arm) for f,r in parts]
    ls=listed(fields,arm)
    def lst(i): return ls[i] if i==len(ls)-1 else f"({ls[i]} ++ {lst(i+1)})"
    n=len(parts)
    if n==1: proof=f"c.{calls[0]}.ensures"; last=calls[0]
    elif n==2:
        j=call('first_of',arm); last=j
        proof=f"both {ls[0]} {ls[1]} c.{j}.ensures c.{calls[0]}.ensures c.{calls[1]}.ensures"
    elif n==3:
        j=call('first_of_three',arm); last=j
        proof=f"three {ls[0]} {ls[1]} {ls[2]} c.{j}.ensures c.{calls[0]}.ensures c.{calls[1]}.ensures c.{calls[2]}.ensures"
    elif n==4:
        j3=call('first_of_three',arm); j=call('first_of',arm)
        proof=f"both {ls[0]} {lst(1)} c.{j}.ensures c.{calls[0]}.ensures (three {ls[1]} {ls[2]} {ls[3]} c.{j3}.ensures c.{calls[1]}.ensures c.{calls[2]}.ensures c.{calls[3]}.ensures)"
    if test:
        w=call('where_built',arm)
        proof=f"built ({test[1].format(arm=arm)}) {T}.at {lst(0)} c.{w}.ensures c.{tests}.ensures ({proof})"
    k=f"{K}{con} "+' '.join(f'c.in-{arm}.{f}' for f,_ in fields)
    env={f:(f"({V[r].format(f'c.in-{arm}.{f}')})" if r else f'c.in-{arm}.{f}') for f,r in fields}
    v=view.replace('@',T+'.at').format(**env)
    hs=[f"{SEEN[r]} c.in-{arm}.{f}" for f,r in parts if r in SEEN]
    sees='refl' if not hs else f"(rw ({', '.join(hs)}) refl)"
    law='expr_as' if kind=='e' else 'statement_as'
    g=f'{fn}-returns-in-{arm}'
    un='unbuilt_expr' if kind=='e' else 'unbuilt_statement unbuilt_block'
    out.append(f"pub {g} : goal.{g}\nunfolding {un}\n{g} t c = {proof} ∙ {law} {T} ({k}) ({v}) (sym c.deref.ensures ∙ c.in-{arm}.is) {sees}\n")
E=lambda *a: emit('in_expr','e',*a)
E('Paren','Paren',[('inner','E')],'paren @ {inner}')
E('Object','Object',[('properties','Ps'),('comma',None)],'object @ {properties} {comma}')
E('Member','Member',[('base','E'),('name',None)],'member @ {base} {name}')
E('Index','Index',[('base','E'),('index','E')],'index @ {base} {index}')
E('Function','Function',[('f','F')],'function @ {f}')
seen.add('in_exprs'); seen.add('first_of') # New
E('Call','Call',[('callee','E'),('args','Es')],'call @ {callee} {args}')
E('Postfix','Postfix',[('operand','E'),('operator',None)],'postfix @ {operand} {operator}',('is_reference','is_reference (view_expr c.in-{arm}.operand)'))
E('Unary','Unary',[('operator',None),('operand','E')],'unary @ {operator} {operand}',('takes_operand','takes_operand c.in-{arm}.operator (view_expr c.in-{arm}.operand)'))
E('Binary','Binary',[('left','E'),('operator',None),('right','E')],'binary @ {left} {operator} {right}')
E('Assign','Assign',[('target','E'),('operator',None),('value','E')],'assign @ {target} {operator} {value}',('is_reference','is_reference (view_expr c.in-{arm}.target)'))
E('Comma','Comma',[('left','E'),('right','E')],'trees.comma @ {left} {right}')
E('Conditional','Conditional',[('test','E'),('then','E'),('other','E')],'conditional @ {test} {then} {other}')
exprs=list(out); out.clear(); seen.clear(); per.clear()
S=lambda *a: emit('in_statement','s',*a)
S('Block','Block',[('list','Ss')],'block (block_of @ {list})')
S('Var','Var',[('declarations','D'),('semi',None)],'var @ {declarations} (view_semi {semi})')
S('Expr','Expr',[('expr','E'),('semi',None)],'expression @ {expr} (view_semi {semi})')
seen|={'first_of','in_statement','first_of_three'} # If
S('DoWhile','DoWhile',[('body','S'),('test','E'),('semi',None)],'do_while @ {body} {test} (view_semi {semi})')
S('While','While',[('test','E'),('body','S')],'while @ {test} {body}')
S('For','For',[('first','First'),('test','M'),('update','M'),('body','S')],'for @ {first} {test} {update} {body}')
S('ForIn','ForIn',[('target','T'),('object','E'),('body','S')],'for_in @ {target} {object} {body}',('takes_keys','takes_keys (view_target c.in-{arm}.target)'))
S('Return','Return',[('value','M'),('semi',None)],'return @ {value} (view_semi {semi})')
S('Throw','Throw',[('value','E'),('semi',None)],'throw @ {value} (view_semi {semi})')
S('Switch','Switch',[('value','E'),('clauses','Cs')],'switch @ {value} {clauses}')
S('Labelled','Labelled',[('label',None),('body','S')],'labelled @ {label} {body}')
S('TryCatch','TryCatch',[('block','B'),('param',None),('handler','B')],'try_catch @ {block} (view_ident {param}) {handler}')
S('TryFinally','TryFinally',[('block','B'),('finalizer','B')],'try_finally @ {block} {finalizer}')
S('TryBoth','TryBoth',[('block','B'),('param',None),('handler','B'),('finalizer','B')],'try_both @ {block} (view_ident {param}) {handler} {finalizer}')
S('Function','Function',[('f','F')],'function_declaration @ {f}')
stmts=list(out)
