import sys
sys.path.insert(0,'/tmp/genlaws')
import answers
def stmt_answers(prefix,gp):
    P=prefix
    A=answers
    names=A.Names(P)
    out=[];l=set()
    # If stands behind Block, Var and Expr in the code
    rows=A.STMT
    o,l=A.answers('mark_statement',rows,'c.args.s.now',P,gp)
    body='\n'.join(o)
    body+=f'''
pub {gp}returns-in-Some : goal.{gp}returns-in-Some
{gp}returns-in-Some c = answered c.{P}statement-in-Some.result (λ b y. if_else_marked c.args.s.now c.in-If.test c.in-If.then c.in-Some.other c.{P}expr-in-If.new.e c.{P}statement.new.s c.{P}statement-in-Some.new.s _ (sym c.deref_mut.ensures.value ∙ c.in-If.is ∙ ap (stmt.If c.in-If.test c.in-If.then) (sym c.in-If.other-is ∙ c.in-Some.is)) refl (subst (λ x. MarkedExpr c.args.strict c.args.next x c.{P}expr-in-If.new.e c.in_ok-next-in-If.next) c.in-If.test-is c.in_ok-next-in-If.ensures) (subst (λ x. MarkedStatement c.args.strict c.in_ok-next-in-If.next x c.{P}statement.new.s c.in_ok-next-in-If-2.next) c.in-If.then-is c.in_ok-next-in-If-2.ensures) y) c.{P}statement-in-Some.ensures

pub {gp}returns-in-None : goal.{gp}returns-in-None
{gp}returns-in-None c = if_then_marked c.args.s.now c.in-If.test c.in-If.then c.{P}expr-in-If.new.e c.{P}statement.new.s _ (sym c.deref_mut.ensures.value ∙ c.in-If.is ∙ ap (stmt.If c.in-If.test c.in-If.then) (sym c.in-If.other-is ∙ c.in-None.is)) (ap (stmt.If c.{P}expr-in-If.new.e c.{P}statement.new.s) c.in-None.is) (subst (λ x. MarkedExpr c.args.strict c.args.next x c.{P}expr-in-If.new.e c.in_ok-next-in-If.next) c.in-If.test-is c.in_ok-next-in-If.ensures) (subst (λ x. MarkedStatement c.args.strict c.in_ok-next-in-If.next x c.{P}statement.new.s c.in_ok-next-in-If-2.next) c.in-If.then-is c.in_ok-next-in-If-2.ensures)

'''
    for k in ['','-2','-3','-4']:
        body+=f'pub {gp}returns{k} : goal.{gp}returns{k}\n{gp}returns{k} c = statement_without c.args.s.now c.deref_mut.result.now (sym c.deref_mut.ensures.value) (search rules) (search rules)\n\n'
    return body, l|{'if_then_marked','if_else_marked'}
if __name__=='__main__':
    b,l=stmt_answers('stub_','')
    b=b.replace('out-ExprKind','out-StmtKind')
    head='''use Rattle.std.proofs.Common.{refl, sym, ap, subst, ◌∙◌, rules}
use Rattle.js_ast.specs.declared.trees.StmtKind as stmt
use Rattle.js_ast.specs.declared.trees.ExprKind.TheViews.{out-StmtKind}
use Rattle.js_ast.specs.Nodes.{nodes_of}
use Rattle.js_functions.specs.Marks.{MarkedExpr, MarkedMaybe, MarkedFunction, MarkedDeclarations, MarkedFirst, MarkedTarget, MarkedClauses, MarkedBlock, MarkedStatement, MarkedStatements}
use Rattle.js_functions.proofs.Arms.{answered, statement_without}
use Rattle.js_functions.proofs.Statements.{%s}
use Rattle.js_functions.proofs.marking.mark_statement.Goals as goal

''' % ', '.join(sorted(l))
    print(head+b,end='')
