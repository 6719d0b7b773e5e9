import sys
sys.path.insert(0,'/tmp/genlaws')
import answers
def expr_answers(prefix,gp):
    o,l=answers.answers('mark_expr',answers.EXPR,'c.args.e.now',prefix,gp)
    body='\n'.join(o)
    P=prefix
    body+=f'''
pub {gp}returns-in-Some : goal.{gp}returns-in-Some
{gp}returns-in-Some c = answered c.{P}exprs.result (λ b y. new_with_marked c.args.e.now c.in-New.callee c.in-Some.args c.{P}expr-in-New.new.e c.{P}exprs.new.list _ (sym c.deref_mut.ensures.value ∙ c.in-New.is ∙ ap (expr.New c.in-New.callee) (sym c.in-New.args-is ∙ c.in-Some.is)) refl (subst (λ x. MarkedExpr c.args.strict c.args.next x c.{P}expr-in-New.new.e c.in_ok-next-in-New.next) c.in-New.callee-is c.in_ok-next-in-New.ensures) y) c.{P}exprs.ensures

pub {gp}returns-in-None : goal.{gp}returns-in-None
{gp}returns-in-None c = new_bare_marked c.args.e.now c.in-New.callee c.{P}expr-in-New.new.e _ (sym c.deref_mut.ensures.value ∙ c.in-New.is ∙ ap (expr.New c.in-New.callee) (sym c.in-New.args-is ∙ c.in-None.is)) (ap (expr.New c.{P}expr-in-New.new.e) c.in-None.is) (subst (λ x. MarkedExpr c.args.strict c.args.next x c.{P}expr-in-New.new.e c.in_ok-next-in-New.next) c.in-New.callee-is c.in_ok-next-in-New.ensures)

'''
    for k in ['','-2','-3','-4','-5','-6']:
        body+=f'pub {gp}returns{k} : goal.{gp}returns{k}\n{gp}returns{k} c = expr_without c.args.e.now c.deref_mut.result.now (sym c.deref_mut.ensures.value) (search rules) (search rules)\n\n'
    return body, l|{'new_with_marked','new_bare_marked'}
if __name__=='__main__':
    b,l=expr_answers('stub_','')
    head='''use Rattle.std.proofs.Common.{refl, sym, ap, subst, ◌∙◌, rules}
use Rattle.js_ast.specs.declared.trees.ExprKind as expr
use Rattle.js_ast.specs.declared.trees.ExprKind.TheViews.{out-ExprKind}
use Rattle.js_ast.specs.Nodes.{nodes_of}
use Rattle.js_functions.specs.Marks.{MarkedExpr, MarkedExprs, MarkedItems, MarkedProperties, MarkedFunction}
use Rattle.js_functions.proofs.Arms.{answered, expr_without}
use Rattle.js_functions.proofs.Expressions.{%s}
use Rattle.js_functions.proofs.marking.mark_expr.Goals as goal

''' % ', '.join(sorted(l))
    print(head+b,end='')
