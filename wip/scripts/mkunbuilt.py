import sys
sys.path.insert(0,'/tmp/genlaws')
import unbuilt
d='/work/tmp/exp/crates/js_unbuilt/'
open(d+'proofs/Nodes.antt','w').write('''-- What is found first in a node, by what is found in its parts.
use Rattle.std.proofs.Common.{sym, ap, ◌∙◌, ◌≡◌, ℕ, Bool, List, ◌++◌, Option}
use Rattle.js_ast.specs.declared.trees.Expr.{Expr}
use Rattle.js_ast.specs.declared.trees.ExprKind.{ExprKind}
use Rattle.js_ast.specs.declared.trees.Stmt.{Stmt}
use Rattle.js_ast.specs.declared.trees.StmtKind.{StmtKind}
use Rattle.js_ast.specs.Trees as trees
use Rattle.js_ast.specs.Views.{view_expr, view_expr_kind, view_stmt, view_stmt_kind}
use Rattle.js_unbuilt.specs.Unbuilt.{unless, unbuilt_expr, unbuilt_statement}
use Rattle.js_unbuilt.specs.Looking.{first_in, or_next}
use Rattle.js_unbuilt.proofs.Looked.{first_append}

-- two parts, and three
pub both : {r f g : Option ℕ} (xs ys : List ℕ) → r ≡ or_next f g → f ≡ first_in xs → g ≡ first_in ys → r ≡ first_in (xs ++ ys)
both {r} {f} {g} xs ys is one two = is ∙ ap (λ h. or_next h g) one ∙ ap (or_next (first_in xs)) two ∙ sym (first_append xs ys)

pub three : {r f g h : Option ℕ} (xs ys zs : List ℕ) → r ≡ or_next f (or_next g h) → f ≡ first_in xs → g ≡ first_in ys → h ≡ first_in zs → r ≡ first_in (xs ++ (ys ++ zs))
three {r} {f} {g} {h} xs ys zs is one two more = both xs (ys ++ zs) is one (both ys zs (ap (λ k. k) refl) two more)

-- a node that may not be built itself
pub built : {r f : Option ℕ} {t : Bool} (u : Bool) (at : ℕ) (xs : List ℕ) → r ≡ or_next (first_in (unless t at)) f → t ≡ u → f ≡ first_in xs → r ≡ first_in (unless u at ++ xs)
built u at xs is same parts = both (unless u at) xs is (ap (λ t. first_in (unless t at)) same) parts

-- a node, by what it is
pub expr_as : (e : Expr) (k : ExprKind) (v : trees.Expr) → e.kind.value ≡ k → view_expr_kind e.at k ≡ v → first_in (unbuilt_expr v) ≡ first_in (unbuilt_expr (view_expr e))
expr_as e k v is sees = sym (ap (λ v. first_in (unbuilt_expr v)) (ap (view_expr_kind e.at) is ∙ sees))

pub statement_as : (s : Stmt) (k : StmtKind) (v : trees.Statement) → s.kind.value ≡ k → view_stmt_kind s.at k ≡ v → first_in (unbuilt_statement v) ≡ first_in (unbuilt_statement (view_stmt s))
statement_as s k v is sees = sym (ap (λ v. first_in (unbuilt_statement v)) (ap (view_stmt_kind s.at) is ∙ sees))
'''.replace('{sym, ap,','{refl, sym, ap,').replace('(ap (λ k. k) refl)','refl'))
lib=open('/tmp/sv/js_unbuilt.orig/proofs/Lib.antt').read()
open(d+'proofs/Lib.antt','w').write(lib+'mod Nodes\n' if 'pub mod' not in lib else lib+'pub mod Nodes\n')
a=open('/tmp/sv/js_unbuilt.orig/proofs/unbuilt/+walk/Answers.antt').read()
i=a.index('\npub ')
head=a[:i]
head=head.replace('use Rattle.std.proofs.Common.{rules, ◌≡◌, refl, sym, ap, ◌∙◌}','use Rattle.std.proofs.Common.{rules, ◌≡◌, refl, sym, ap, ◌∙◌, ◌++◌}')
head=head.replace('use Rattle.js_ast.specs.Trees.{new_with, new_bare, no_clauses}','use Rattle.js_ast.specs.declared.trees.ExprKind as expr\nuse Rattle.js_ast.specs.declared.trees.StmtKind as stmt\nuse Rattle.js_ast.specs.Trees as trees\nuse Rattle.js_ast.specs.Trees.{new_with, new_bare, no_clauses, paren, object, member, index, function, call, postfix, unary, binary, assign, conditional, block_of, block, var, expression, do_while, while, for, for_in, return, throw, switch, labelled, try_catch, try_finally, try_both, function_declaration}')
head=head.replace('{view_expr, view_exprs, view_property, view_properties, view_declaration, view_other_declarations, view_clause, view_clauses, view_stmt, view_stmts}','{view_expr, view_maybe_expr, view_exprs, view_property, view_properties, view_function, view_declaration, view_other_declarations, view_declarations, view_first, view_target, view_clause, view_clauses, view_block, view_stmt, view_stmts, view_semi, view_ident}')
head=head.replace('ViewLaws.{held_exprs}','ViewLaws.{held_expr, held_exprs, held_properties, held_clauses, held_stmts}')
head=head.replace('Unbuilt.{unbuilt_expr, unbuilt_exprs, unbuilt_properties, unbuilt_clauses, unbuilt_statement, unbuilt_statements}','Unbuilt.{takes_operand, takes_keys, unbuilt_expr, unbuilt_exprs, unbuilt_properties, unbuilt_function, unbuilt_maybe, unbuilt_declarations, unbuilt_first, unbuilt_target, unbuilt_clauses, unbuilt_block, unbuilt_statement, unbuilt_statements}')
head=head.replace('use Rattle.js_unbuilt.proofs.unbuilt','use Rattle.js_unbuilt.proofs.Nodes.{both, three, built, expr_as, statement_as}\nuse Rattle.es_meaning.specs.Evaluation.{is_reference}\nuse Rattle.js_unbuilt.proofs.unbuilt')
open(d+'proofs/unbuilt/+walk/Answers.antt','w').write(head+a[i:].rstrip('\n')+'\n\n'+'\n'.join(unbuilt.exprs+unbuilt.stmts))
