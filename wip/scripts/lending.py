import sys
seen=set(); per={}
def call(f,arm):
    if f not in seen: seen.add(f); return f
    k=per.get((f,arm),0)+1; per[f,arm]=k
    return f'{f}-in-{arm}' if k==1 else f'{f}-in-{arm}-{k}'
CAL={'E':'in_expr','Is':'in_items','Ps':'in_properties','F':'in_function','Es':'in_exprs','S':'in_statement','W':'in_clauses','Ss':'in_list','D':'in_declarations','First':'in_first','M':'in_maybe','T':'in_target','B':'in_block'}
HELD={'Is':'lent_items','Ps':'lent_properties','Es':'lent_exprs','Ss':'lent_stmts','M':'lent_expr','W':'lent_clauses'}
out=[]
def emit(fn,kind,arm,fields):
    K='expr.' if kind=='e' else 'stmt.'
    T='c.args.e.now' if kind=='e' else 'c.args.s.now'
    parts=[(f,r) for f,r in fields if r]
    fs=[f'c.{call(CAL[r],arm)}.ensures' for f,r in parts]
    n=len(fs)
    if n==1: proof=fs[0]
    else: proof='('+['','','two','three','four'][n]+' c.args.first '+'_ '*(n+1)+' '.join(fs)+')'
    k=f"{K}{arm} "+' '.join(f'c.in-{arm}.{f}' for f,_ in fields)
    hs=[f"{HELD[r]} c.in-{arm}.{f}" for f,r in parts if r in HELD]
    sees='refl' if not hs else f"(rw ({', '.join(hs)}) refl)"
    law='expr_filled' if kind=='e' else 'statement_filled'
    g=f'{fn}-returns-in-{arm}'
    out.append(f"pub {g} : goal.{g}\n{g} t c = {law} c.args.first _ {T} ({k}) {proof} (sym c.deref.ensures ∙ c.in-{arm}.is) {sees}\n")
E=lambda *a: emit('in_expr','e',*a)
E('Paren',[('inner','E')])
E('Array',[('items','Is'),('comma',None)])
E('Object',[('properties','Ps'),('comma',None)])
E('Function',[('f','F')])
E('Member',[('base','E'),('name',None)])
E('Index',[('base','E'),('index','E')])
call('in_expr','New'); call('in_exprs','New')
E('Call',[('callee','E'),('args','Es')])
E('Postfix',[('operand','E'),('operator',None)])
E('Unary',[('operator',None),('operand','E')])
E('Binary',[('left','E'),('operator',None),('right','E')])
E('Comma',[('left','E'),('right','E')])
E('Assign',[('target','E'),('operator',None),('value','E')])
E('Conditional',[('test','E'),('then','E'),('other','E')])
exprs=list(out); out.clear(); seen.clear(); per.clear()
S=lambda *a: emit('in_statement','s',*a)
S('Block',[('list','Ss')])
S('Var',[('declarations','D'),('semi',None)])
S('Expr',[('expr','E'),('semi',None)])
call('in_statement','If')
S('DoWhile',[('body','S'),('test','E'),('semi',None)])
S('While',[('test','E'),('body','S')])
S('For',[('header','First'),('test','M'),('update','M'),('body','S')])
S('ForIn',[('target','T'),('object','E'),('body','S')])
S('Return',[('value','M'),('semi',None)])
S('Throw',[('value','E'),('semi',None)])
S('Switch',[('value','E'),('clauses','W')])
S('Labelled',[('label',None),('body','S')])
S('TryCatch',[('block','B'),('param',None),('handler','B')])
S('TryFinally',[('block','B'),('finalizer','B')])
S('TryBoth',[('block','B'),('param',None),('handler','B'),('finalizer','B')])
S('Function',[('f','F')])
d=sys.argv[1]
a=open('/work/main/crates/js_ast/proofs/lending/+lending/Answers.antt').read()
i=a.index('\npub ')
head=a[:i]
head=head.replace('use Rattle.std.proofs.Common.{refl, ap, ◌++◌}','use Rattle.std.proofs.Common.{refl, sym, ap, ◌∙◌, ◌++◌}\nuse Rattle.js_ast.specs.declared.trees.ExprKind as expr\nuse Rattle.js_ast.specs.declared.trees.StmtKind as stmt')
head=head.replace('HeldLaws.{lent_declaration, declared}','HeldLaws.{two, three, four, expr_filled, statement_filled, lent_expr, lent_exprs, lent_items, lent_properties, lent_clauses, lent_stmts, lent_declaration, declared}')
open(d+'/proofs/lending/+lending/Answers.antt','w').write(head+a[i:].rstrip('\n')+'\n\n'+'\n'.join(exprs+out))
p=d+'/src/lending.rt'
s=open(p).read()
def rep(a,b):
    global s
    assert s.count(a)==1,(s.count(a),a)
    s=s.replace(a,b)
rep('''        ExprKind::Postfix { operand, .. } | ExprKind::Unary { operand, .. } => {
            in_expr(operand, first, slots)
        }
        ExprKind::Binary { left, right, .. } | ExprKind::Comma { left, right } => {
''','''        ExprKind::Postfix { operand, .. } => in_expr(operand, first, slots),
        ExprKind::Unary { operand, .. } => in_expr(operand, first, slots),
        ExprKind::Binary { left, right, .. } => {
            in_expr(left, first, slots);
            in_expr(right, first, slots);
        }
        ExprKind::Comma { left, right } => {
''')
open(p,'w').write(s)
p=d+'/proofs/HeldLaws.antt'
s=open(p).read()
s=s.replace("use Rattle.js_ast.specs.declared.trees.Stmt.{Stmt}\n","use Rattle.js_ast.specs.declared.trees.Stmt.{Stmt}\nuse Rattle.js_ast.specs.declared.trees.ExprKind.{ExprKind}\nuse Rattle.js_ast.specs.declared.trees.StmtKind.{StmtKind}\n",1)
s=s.replace("held_in_stmt_kind, held_in_stmt_row,","held_in_stmt_kind, held_in_stmt_row, held_in_expr, held_in_stmt,",1)
i=s.index("-- the lists and the missing parts that a node holds")
s=s[:i]+'''-- ---- parts that take their slots in turn

module _ (first : ℕ) where
  pub two : {middle last : List (Option (ℕ × FunctionCode))} (slots : List (Option (ℕ × FunctionCode))) (fs gs : List (ℕ × FunctionCode)) → middle ≡ filled first slots fs → last ≡ filled first middle gs → last ≡ filled first slots (fs ++ gs)
  two slots fs gs one next = next ∙ ap (λ s. filled first s gs) one ∙ sym (filled_append first slots fs gs)

  pub three : {a b last : List (Option (ℕ × FunctionCode))} (slots : List (Option (ℕ × FunctionCode))) (fs gs hs : List (ℕ × FunctionCode)) → a ≡ filled first slots fs → b ≡ filled first a gs → last ≡ filled first b hs → last ≡ filled first slots (fs ++ (gs ++ hs))
  three slots fs gs hs one next more = two slots fs (gs ++ hs) one (two _ gs hs next more)

  pub four : {a b c last : List (Option (ℕ × FunctionCode))} (slots : List (Option (ℕ × FunctionCode))) (fs gs hs ks : List (ℕ × FunctionCode)) → a ≡ filled first slots fs → b ≡ filled first a gs → c ≡ filled first b hs → last ≡ filled first c ks
      → last ≡ filled first slots (fs ++ (gs ++ (hs ++ ks)))
  four slots fs gs hs ks one next more still = two slots fs (gs ++ (hs ++ ks)) one (three _ gs hs ks next more still)

  -- an expression, by what it is
  pub expr_filled : {last : List (Option (ℕ × FunctionCode))} {fs : List (ℕ × FunctionCode)} (slots : List (Option (ℕ × FunctionCode))) (e : Expr) (k : ExprKind) → last ≡ filled first slots fs → e.kind.value ≡ k → held_in_expr_kind k ≡ fs → last ≡ filled first slots (held_in_expr e)
  expr_filled slots e k told is holds = told ∙ ap (filled first slots) (sym (ap held_in_expr_kind is ∙ holds))

  -- a statement, by what it is
  pub statement_filled : {last : List (Option (ℕ × FunctionCode))} {fs : List (ℕ × FunctionCode)} (slots : List (Option (ℕ × FunctionCode))) (s : Stmt) (k : StmtKind) → last ≡ filled first slots fs → s.kind.value ≡ k → held_in_stmt_kind k ≡ fs → last ≡ filled first slots (held_in_stmt s)
  statement_filled slots s k told is holds = told ∙ ap (filled first slots) (sym (ap held_in_stmt_kind is ∙ holds))

'''+s[i:]
open(p,'w').write(s)
