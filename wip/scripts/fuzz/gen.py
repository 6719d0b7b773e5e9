import random,sys
PRE='''function show(x) { if (x === null) return "null"; var t = typeof x; if (t === "object" || t === "function") return t; return t + ":" + x; }
function N(x) { return typeof x === "number" ? x % 1000 : 7; }
function L(t, v) { print("pub", t); return v; }
function P(t, x) { print("pub", t + " " + show(x)); }
function E(e) { return typeof e === "object" && e !== null && typeof e.name === "string" ? e.name : show(e); }
function K(o) { var r = "", k; for (k in o) r = r + k + ","; return r; }
'''
class G:
    def __init__(s,seed):
        s.r=random.Random(seed); s.depth=0; s.tag=0; s.ints=['i0','i1','i2']; s.strs=['s0','s1']; s.objs=['o0','o1','o2','o3']; s.anys=['v0','v1']; s.funs=['f0','f1','f2']; s.infun=0; s.loops=[]; s.labels=[]; s.nlab=0; s.budget=60
    def t(s): s.tag+=1; return '"t%d"'%s.tag
    def pick(s,*a): return s.r.choice(a)
    def p(s,x): return s.r.random()<x
    def key(s): return s.r.choice('abcdef')
    def obj(s,d=0):
        r=s.r.random()
        if r<.75 or d>2: return s.r.choice(s.objs)
        if r<.85: return 'Object.create(%s)'%s.r.choice(s.objs+['null'] if s.p(.2) else s.objs)
        if r<.92: return 'new %s(%s)'%(s.r.choice(s.funs),s.int(d+2))
        return s.lit(d+1)
    def lit(s,d):
        ks=list('abcdef'); s.r.shuffle(ks); out=[]
        for k in ks[:s.r.randint(0,4)]:
            r=s.r.random()
            if r<.6: out.append('%s: %s'%(k,s.any(d+1)))
            elif r<.75: out.append('get %s() { print("pub", "get %s"); return %s; }'%(k,k,s.pick('this.a === undefined','3','"g"','typeof this')))
            elif r<.85: out.append('get %s() { return i1; }, set %s(x) { print("pub", "set %s " + show(x)); i1 = N(x); }'%(k,k,k))
            elif r<.92: out.append('set %s(x) { P("set", x); }'%k)
            else: out.append('%s: function (x) { return %s; }'%(k,s.pick('x','this === undefined','typeof this','N(x) + 1','arguments.length')))
        if s.p(.15): out.append('valueOf: function () { print("pub", "vo"); return %s; }'%s.pick('4','"w"','true','null','{}'))
        if s.p(.15): out.append('toString: function () { print("pub", "ts"); return %s; }'%s.pick('"k"','"a"','5','undefined'))
        return '({ %s })'%', '.join(out)
    def int(s,d=0):
        r=s.r.random()
        if d>3 or r<.25: return s.pick(str(s.r.randint(-9,30)),s.r.choice(s.ints),s.r.choice(s.ints))
        if r<.5: return '(%s %s %s)'%(s.int(d+1),s.pick('+','-','&','|','^'),s.int(d+1))
        if r<.55: return '(%s %% %d)'%(s.int(d+1),s.pick(1,2,3,7,-5))
        if r<.6: return '((%s * %s) %% 1000)'%('(%s %% 1000)'%s.int(d+1),s.r.randint(-9,9))
        if r<.65: return '(%s %s %s)'%(s.int(d+1),s.pick('<<','>>','>>>'),s.pick('0','1','3','31','33'))+'% 1000'
        if r<.7: return 'N(%s)'%s.any(d+1)
        if r<.75: return '%s(%s)'%('N',s.r.choice(s.ints)+s.pick('++','--'))
        if r<.8: return '(%s ? %s : %s)'%(s.bool(d+1),s.int(d+1),s.int(d+1))
        if r<.86: return 'L(%s, %s)'%(s.t(),s.int(d+1))
        if r<.9: return '(%s, %s)'%(s.any(d+1),s.int(d+1))
        if r<.93: return '(~%s)'%s.int(d+1)
        if r<.96: return '(-%s)'%s.pick('("%d")'%s.r.randint(0,99),s.r.choice(s.ints),'true')
        return 'N(%s.%s)'%(s.obj(d+1),s.key())
    def str(s,d=0):
        r=s.r.random()
        if d>3 or r<.35: return s.pick('"%s"'%s.pick('a','b','','xyz','10','9'),s.r.choice(s.strs))
        if r<.5: return '("" + %s)'%s.pick(s.int(d+1),s.bool(d+1),s.str(d+1),'null','undefined')
        if r<.65: return '(%s + %s)'%(s.str(d+1),s.int(d+1))+'' if s.p(.5) else '("r" + %s)'%s.int(d+1)
        if r<.75: return '(typeof %s)'%s.any(d+1)
        if r<.85: return 'show(%s)'%s.any(d+1)
        if r<.93: return 'K(%s)'%s.obj(d+1)
        return 'L(%s, %s)'%(s.t(),s.str(d+1))
    def bool(s,d=0):
        r=s.r.random()
        if d>3 or r<.15: return s.pick('true','false','!%s'%s.r.choice(s.ints),'!%s'%s.r.choice(s.strs))
        if r<.3: return '(%s %s %s)'%(s.int(d+1),s.pick('<','>','<=','>=','==','===','!=','!=='),s.int(d+1))
        if r<.4: return '(%s %s %s)'%(s.str(d+1),s.pick('<','>','<=','>=','==','==='),s.str(d+1))
        if r<.5: return '(%s %s %s)'%(s.bool(d+1),s.pick('&&','||'),s.bool(d+1))
        if r<.58: return '("%s" in %s)'%(s.key(),s.obj(d+1))
        if r<.66: return '(%s %s %s)'%(s.obj(d+1),s.pick('==','===','!='),s.pick(s.obj(d+1),'null','undefined'))
        if r<.72: return '(%s instanceof %s)'%(s.any(d+1),s.r.choice(s.funs))
        if r<.8: return '%s.%s("%s")'%(s.pick(*s.objs),s.pick('hasOwnProperty','propertyIsEnumerable'),s.key()) if s.p(.8) else 'Object.prototype.isPrototypeOf(%s)'%s.obj(d+1)
        if r<.85: return '(delete %s.%s)'%(s.obj(d+1),s.key())
        if r<.9: return 'Object.isExtensible(%s)'%s.obj(d+1)
        if r<.95: return '(%s %s %s)'%(s.pick(s.int(d+1),s.bool(d+1),'"%d"'%s.r.randint(0,3),'null','undefined'),s.pick('==','!='),s.pick(s.int(d+1),s.bool(d+1),'"1"','null','undefined'))
        return 'L(%s, %s)'%(s.t(),s.bool(d+1))
    def any(s,d=0):
        r=s.r.random()
        if d>4: return s.pick('undefined','null',s.r.choice(s.ints),s.r.choice(s.objs))
        if r<.2: return s.int(d+1)
        if r<.35: return s.str(d+1)
        if r<.45: return s.bool(d+1)
        if r<.58: return s.obj(d+1)
        if r<.63: return s.pick('undefined','null')
        if r<.75: return '%s.%s'%(s.obj(d+1),s.key())
        if r<.8: return '%s[%s]'%(s.obj(d+1),s.pick('"%s"'%s.key(),s.str(d+2)))
        if r<.87: return '%s(%s)'%(s.r.choice(s.funs),', '.join(s.any(d+2) for _ in range(s.r.randint(0,3))))
        if r<.9: return s.r.choice(s.funs)
        if r<.93: return 'function (x) { return %s; }'%s.pick('x','this','N(x)','arguments.length','v0')
        if r<.97: return s.r.choice(s.anys)
        return 'Object.getPrototypeOf(%s)'%s.obj(d+1)
    def desc(s,d):
        f=[]
        if s.p(.5): f.append('value: %s'%s.any(d+2))
        if s.p(.4): f.append('writable: %s'%s.pick('true','false'))
        if s.p(.5): f.append('enumerable: %s'%s.pick('true','false','1','""'))
        if s.p(.5): f.append('configurable: %s'%s.pick('true','false'))
        if s.p(.2): f.append('get: %s'%s.pick('undefined','function () { print("pub", "dget"); return 5; }'))
        if s.p(.2): f.append('set: %s'%s.pick('undefined','function (x) { P("dset", x); }'))
        s.r.shuffle(f)
        return '{ %s }'%', '.join(f)
    def block(s,n=None):
        return '{ %s }'%' '.join(s.stmt() for _ in range(n or s.r.randint(1,3)))
    def jump(s):
        o=['throw %s;'%s.any(2)]
        if s.infun: o+=['return %s;'%s.any(2)]*2
        if s.loops: o+=['break;','continue;']*2
        for l,k in s.labels: o+=['break %s;'%l]+(['continue %s;'%l] if k=='loop' else [])
        return s.r.choice(o)
    def stmt(s):
        s.budget-=1
        if s.budget<0 or s.depth>4: return 'P(%s, %s);'%(s.t(),s.any(2))
        s.depth+=1
        try: return s.stmt2()
        finally: s.depth-=1
    def inloop(s,lab,kind,f):
        if kind=='loop': s.loops.append(lab)
        if lab: s.labels.append((lab,kind))
        try: return f()
        finally:
            if kind=='loop': s.loops.pop()
            if lab: s.labels.pop()
    def lab(s,x=.3):
        if s.p(x): s.nlab+=1; return 'l%d'%s.nlab
    def stmt2(s):
        r=s.r.random()
        if r<.1: return 'P(%s, %s);'%(s.t(),s.any())
        if r<.16: return '%s = %s;'%(s.r.choice(s.ints),s.int())
        if r<.19: return '%s = %s;'%(s.r.choice(s.strs),s.str(1)) if s.p(.7) else '%s += %s;'%(s.r.choice(s.strs),s.int(2))
        if r<.23: return '%s = %s;'%(s.r.choice(s.anys),s.any())
        if r<.27: return '%s = %s;'%(s.r.choice(s.objs),s.pick(s.lit(1),'Object.create(%s)'%s.r.choice(s.objs),'new %s()'%s.r.choice(s.funs)))
        if r<.36: return '%s.%s = %s;'%(s.r.choice(s.objs),s.key(),s.any(1))
        if r<.38: return '%s[%s] = %s;'%(s.r.choice(s.objs),'"%s"'%s.key(),s.any(1))
        if r<.41: return '%s.%s = 1; P(%s, %s);'%(s.r.choice(s.objs),'a',s.t(),s.pick('o0.a++','++o1.a','o2.a += N(%s)'%s.int(2),'o0.a -= 3','o3.a |= 6')) if s.p(.5) else '%s.%s = %s.%s;'%(s.r.choice(s.objs),s.key(),s.r.choice(s.objs),s.key())
        if r<.45: return 'Object.defineProperty(%s, "%s", %s);'%(s.r.choice(s.objs),s.key(),s.desc(1))
        if r<.47: return 'd = Object.getOwnPropertyDescriptor(%s, "%s"); if (d !== undefined) print("pub", show(d.value) + show(d.writable) + show(d.get) + show(d.set) + show(d.enumerable) + show(d.configurable) + K(d));'%(s.r.choice(s.objs),s.key())
        if r<.48: return 'Object.preventExtensions(%s);'%s.r.choice(s.objs)
        if r<.5: return 'delete %s.%s;'%(s.r.choice(s.objs),s.key())
        if r<.57: return 'if (%s) %s'%(s.bool(),s.block())+(' else '+s.block() if s.p(.5) else '')
        if r<.62:
            v='k%d'%s.r.randint(0,2); l=s.lab()
            body=s.inloop(l,'loop',lambda: s.block())
            return '%sfor (%s = 0; %s < %d; %s++) %s'%(l+': ' if l else '',v,v,s.r.randint(1,4),v,body)
        if r<.65:
            l=s.lab(); body=s.inloop(l,'loop',lambda: s.block())
            return '%sfor (q in %s) { P(%s, q); %s %s }'%(l+': ' if l else '',s.obj(1),s.t(),s.pick('','delete o0.%s;'%s.key(),'o1.%s = 1;'%s.key()),body)
        if r<.68:
            l=s.lab(); body=s.inloop(l,'loop',lambda: s.block())
            return 'w = 0; %sdo { if (w++ > 2) break; %s } while (%s);'%(l+': ' if l else '',body,s.bool(2))
        if r<.8:
            b=s.block()
            c=' catch (e) { P("caught", E(e)); %s }'%(' '.join(s.stmt() for _ in range(s.r.randint(0,2))))
            f=' finally { print("pub", %s); %s }'%(s.t(),s.pick('',s.stmt(),s.jump() if s.p(.4) else ''))
            k=s.r.random()
            return 'try %s%s'%(b,c if k<.45 else f if k<.6 else c+f)
        if r<.86: return 'if (%s) %s'%(s.bool(2),s.jump())
        if r<.9:
            cl=[]; n=s.r.randint(1,4); dflt=s.r.randint(0,n) if s.p(.7) else -1
            def f():
                for i in range(n):
                    if i==dflt: cl.append('default: '+s.stmt()+s.pick('',' break;'))
                    cl.append('case %s: '%s.pick(str(s.r.randint(0,3)),s.int(3),s.str(3),'L(%s, %d)'%(s.t(),s.r.randint(0,3)))+s.stmt()+s.pick('',' break;',' break;'))
                if dflt==n: cl.append('default: '+s.stmt())
            s.swl=1; s.loops.append('sw') if False else None
            old=s.loops; s.loops=[]  # no continue inside unless labelled
            f(); s.loops=old
            return 'switch (%s) { %s }'%(s.pick('%s & 3'%s.int(2),s.str(2)),' '.join(cl))
        if r<.93:
            l=s.lab(1); b=s.inloop(l,'block',lambda: s.block())
            return '%s: %s'%(l,b)
        if r<.96: return '%s(%s);'%(s.r.choice(s.funs),', '.join(s.any(2) for _ in range(s.r.randint(0,3))))
        return '%s.%s(%s);'%(s.r.choice(s.objs),s.key(),s.any(2))
    def fun(s,name):
        s.infun+=1; ol,oL,od=s.loops,s.labels,s.depth; s.loops,s.labels,s.depth=[],[],2
        objs=s.objs; anys=s.anys
        s.anys=anys+['x','y']
        body=' '.join(s.stmt() for _ in range(s.r.randint(1,4)))
        s.infun-=1; s.loops,s.labels,s.depth=ol,oL,od; s.anys=anys
        return 'function %s(x, y) { var q, w, d, k0, k1, k2; if (fuel-- <= 0) return 1; %s %s }'%(name,s.pick('','if (this !== undefined) this.%s = %s;'%(s.key(),s.pick('x','1','y'))),body)
    def script(s):
        o=[PRE,'var fuel = 40, i0 = 1, i1 = 2, i2 = 3, s0 = "p", s1 = "q", v0, v1 = null, q, w, d, k0, k1, k2, o0, o1, o2, o3;']
        o.append('o0 = { a: 1, b: "x" }; o1 = Object.create(o0); o1.c = 3; o2 = { get d() { print("pub", "gd"); return 4; }, set d(x) { print("pub", "sd"); } }; o3 = {};')
        for f in s.funs: s.budget=18; o.append(s.fun(f))
        for _ in range(s.r.randint(6,14)):
            s.budget=30
            st=s.stmt()
            if s.p(.7): st='try { %s } catch (z) { P("z", E(z)); }'%st
            o.append(st)
        o.append('print("pub", K(o0) + K(o1) + K(o2) + K(o3) + i0 + i1 + i2);')
        return '\n'.join(o)+'\n'
if __name__=='__main__':
    print(G(int(sys.argv[1])).script())
