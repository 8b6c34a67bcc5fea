#!/usr/bin/env python3
"""conv.py [--all] : in a crate's folder. Turns each proofs/**/Proof.antt in Tie form into Invariants.antt and Answers.antt.
Needs rt check --generated names. Old files go to /tmp/convert/old/CRATE/PATH/Proof.antt. Trivial answers (omega arith, search rules, tt, refl alone kept) are left out."""
import json,os,re,subprocess,sys,shutil
crate=os.path.basename(os.getcwd())
G='/tmp/convert/names/'+crate
shutil.rmtree(G,ignore_errors=True)
out=subprocess.run(['rt','check','--generated',G,'--old-names'],capture_output=True,text=True)
nj=os.path.join(G,'names.json')
if not os.path.exists(nj):
    print('NO names.json'); print((out.stdout+out.stderr)[-3000:]); sys.exit(1)
N=json.load(open(nj))
al=lambda x: re.sub(r"[-_·']","",x).lower()
def alset(x):
    s={al(x)}
    if x.endswith('_lem'): s.add(al(x[:-4]))
    return s
import glob
FN={}
def clauses_of(root):
    for f in glob.glob(root+'/crates/*/src/*.rt'):
        s=open(f).read()
        for m in re.finditer(r"^( *)(?:pub )?(?:unsafe )?(?:const )?(?:extern \"C\" )?fn (\w+)(.*?)^\1\{",s,re.M|re.S):
            body=m.group(3)
            ens=[];req=[]
            for c in re.finditer(r"^\s*(ensures|requires)(\*?)[ ]*(\w*)[ ]*\{",body,re.M):
                (ens if c.group(1)=='ensures' else req).append(c.group(3))
            FN.setdefault(m.group(2),[]).append((os.path.basename(os.path.dirname(os.path.dirname(f))),req,ens))
clauses_of('../..')
def contract(name,prefer):
    n=name
    for cand in (n,n.rstrip('0123456789'),):
        for k in FN:
            if al(k)==al(cand) or (cand.endswith('_lem') and al(k)==al(cand[:-4])):
                L=FN[k]; 
                for c in L:
                    if c[0]==prefer: return c
                return L[0]
    return None
TRIV={'omega arith','search rules','tt','cc','search (rules, tests)'}
if '--keep' in sys.argv: TRIV=set()
W=r"[A-Za-z0-9_·'₀-₉?!μ-]+"
PATH=re.compile(r"(?<![\w.'·-])c((?:\.before)*)\.("+W+r")((?:\.[A-Za-z0-9_·-]+)*)")
def chain_of(p):
    out=[]
    while p is not None and p in places:
        out.append((p,)+places[p]); p=places[p][0]
    return out
def inline(body):
    while True:
        m=re.search(r"let ("+W+r") = (c(?:\.before)*\.(?!args\b|requires\b|loop)(?:before|"+W+r")(?:\.given)?) in\s*",body) or re.search(r"let ("+W+r") = (c(?:\.before)+) in\s*",body)
        if not m: break
        v,e=m.group(1),m.group(2)
        body=body[:m.start()]+body[m.end():]
        body=re.sub(r"(?<![\w.'·-])"+re.escape(v)+r"(?=\.)",e,body)
        body=re.sub(r"(?<![\w.'·-])"+re.escape(v)+r"(?![\w.'·-])",e,body)
    return body
def clause_fix(body):
    # variables bound to steps
    bind={}
    for m in re.finditer(r"let ("+W+r") = c(?:\.before)*\.("+W+r") in",body): bind[m.group(1)]=m.group(2)
    def fix(m):
        head,kind,rest=m.group(1),m.group(2),m.group(3)
        if head=='c' or head.startswith('c.before') and head.replace('.before','')=='c':
            if kind!='requires': return m.group(0)
            names=own[1] if own else []
        else:
            last=head.split('.')[-1]
            fn=bind.get(head,last)
            c=contract(fn,crate)
            if not c: return m.group(0)
            names=c[1] if kind=='requires' else c[2]
        if len(names)<2: return m.group(0)
        n=len(names); pos=0; r=rest
        used=False
        while pos<n-1:
            mm=re.match(r"\.([01])(?![0-9A-Za-z_])",r)
            if not mm: break
            r=r[2:]; used=True
            if mm.group(1)=='0': return f"{head}.{kind}.{names[pos]}{r}"
            pos+=1
        if pos==n-1: return f"{head}.{kind}.{names[pos]}{r}"
        if r=='':
            left=[f"{head}.{kind}.{q}" for q in names[pos:]]
            e=left[-1]
            for q in reversed(left[:-1]): e=f"(both {q} {e})"
            return e
        if re.match(r"\.\d",r): notes.append('clause path '+m.group(0))
        return m.group(0)
    body=re.sub(r"(?<![\w.'·-])("+W+r"(?:\.[A-Za-z0-9_·-]+)*?)\.(ensures|requires)((?:\.[A-Za-z0-9_·-]+)*)",fix,body)
    # let pre = ..requires in .. pre.K
    for m in list(re.finditer(r"let ("+W+r") = \(c(?:\.before)*\.requires\.[^)]*\) in",body)):
        pass
    return body
def split_tuple(inner):
    parts=[];d0=0;cur=''
    for ch in inner:
        if ch in '([{': d0+=1
        if ch in ')]}': d0-=1
        if ch==',' and d0==0: parts.append(cur); cur=''
        else: cur+=ch
    if cur.strip(): parts.append(cur)
    return parts
def tuple_fix(body,names):
    # body: string with optional lets, then a tuple
    s=body.rstrip()
    if not s.endswith(')'):
        return None
    # find matching (
    depth=0
    for q in range(len(s)-1,-1,-1):
        if s[q]==')': depth+=1
        elif s[q]=='(':
            depth-=1
            if depth==0: break
    pre=s[:q]
    if not (pre.strip()=='' or re.search(r"(\bin|→|=)\s*$",pre)): return None
    parts=split_tuple(s[q+1:-1])
    if len(parts)<2: return None
    while len(parts)<len(names):
        last=parts[-1].strip()
        if last.startswith('(') and last.endswith(')'):
            sub=split_tuple(last[1:-1])
            if len(sub)>1: parts=parts[:-1]+sub; continue
        # a pair given whole
        k=len(names)-len(parts)+1
        e='('+last+')' if re.search(r"\s",last) and not (last.startswith('(')) else last
        more=[]; acc=e
        for q in range(k-1): more.append(acc+'.0'); acc=acc+'.1'
        more.append(acc)
        parts=parts[:-1]+more
    if len(parts)!=len(names): return None
    return pre+'record { '+'; '.join(f"{n} = {v.strip()}" for n,v in zip(names,parts))+' }'
def goal_fix(new,body):
    names=None
    if new.startswith('returns') and own and len(own[2])>1: names=own[2]
    m=re.match(r"(\w+?)(?:-[\w-]*)?-requires(?:-.*)?$",new)
    if not m: m=re.match(r"(\w+)-requires",new)
    if m:
        c=contract(m.group(1),crate)
        if c and len(c[1])>1 and not any(al(m.group(1))==al(q) for q in CYC): names=c[1]
    if not names: return body
    r=tuple_fix(body,names)
    if r is None:
        s=body.strip()
        if s.startswith('record') : return body
        # elim or call: leave whole
        ms=list(re.finditer(r"(?<![\w.'-])in(?![\w-])",s))
        cut=ms[-1].end() if ms else 0
        e=s[cut:].strip()
        if e.startswith('elim') or '\n' in e and 'elim' in e or e in('search rules','omega arith','?'):
            notes.append('clauses of '+new); return body
        notes.append('whole '+new)
        return ' '+s[:cut]+' let whole = '+e+' in record { '+'; '.join(f"{n} = whole.{k}" for k,n in enumerate(names))+' }' if len(names)==2 else ' '+s[:cut]+' let whole = '+e+' in record { '+'; '.join(f"{n} = whole{'.1'*k}{'.0' if k<len(names)-1 else ''}" for k,n in enumerate(names))+' }'
    return r
CURFN=[None]
def conv_expr(body,i,place=None):
    body=inline(body)
    PS=params_of(CURFN[0]) if CURFN[0] else []
    body=re.sub(r"(?<=[\w·'])\.t(\d+)(?![\w'·-])",lambda q:('.'+PS[int(q.group(1))-1][0]) if 0<int(q.group(1))<=len(PS) else q.group(0),body)
    body=body.replace('type_size','size_of')
    body=clause_fix(body)
    ch=chain_of(place) if place else (chain_of(x['asked_at'][i][0]) if i is not None and i<len(x['asked_at']) else [])
    def rep(mm):
        b=mm.group(1).count('.before'); X=mm.group(2); r=mm.group(3)
        if X in('args','requires','ranges','auto','utf8','well_formed','well-formed'):
            return 'c.'+X+r
        S=alset(X)
        # arms
        for (p,par,lab,idx) in ch:
            arm=x['arms'][idx] if idx<len(x['arms']) else None
            if arm:
                for it in arm[2]:
                    if len(it)>=3 and al(it[1]) in S:
                        pre=''.join('.'+str(q) for q in it[2])
                        if not pre and it[0].startswith('known'): return 'c.'+arm[0]+'.'+it[0]+r
                        if r.startswith(pre) and pre: return 'c.'+arm[0]+'.'+it[0]+r[len(pre):]
        # typed
        for (p,par,lab,idx) in ch:
            for var,st in x['typed'][idx] if idx<len(x['typed']) else []:
                if al(st) in S and r.startswith('.given'):
                    return 'c.type_inv.'+var+r[len('.given'):]
        for (p,par,lab,idx) in ch[b:] if b<len(ch) else ch:
            if lab and al(lab[0]) in S: return 'c.'+lab[1]+r
        for (p,par,lab,idx) in ch:
            if lab and al(lab[0]) in S: return 'c.'+lab[1]+r
        notes.append('unmapped '+mm.group(0)); return mm.group(0)
    body=PATH.sub(rep,body)
    # bare chains used as values: c.before.. alone
    body=re.sub(r"(?<![\w.'·-])c(\.before)+(?![\w.·-])","c",body)
    return body
def splitdecl(tx):
    m=re.match(r"((?:--[^\n]*\n)*)(?:pub |abbrev |unfoldable )*("+W+r")\s*:(.*?)\n((?:unfolding[^\n]*\n)*)\2\b([^=\n]*)=(.*)$",tx,re.S)
    if not m: return None
    return m.group(1),m.group(2),m.group(3),m.group(4),m.group(5).split(),('\n' if m.group(6).lstrip(' ').startswith('\n') else '')+m.group(6).strip('\n')


def params_of(fn):
    for f in glob.glob('src/*.rt')+glob.glob('src/**/*.rt',recursive=True):
        s=open(f).read()
        m=re.search(r"fn "+fn+r"(?:<[^>]*>)?\((.*?)\)\s*(?:->|\n|requires|ensures|\{)",s,re.S)
        if m:
            out=[]
            for q in re.split(r",\s*(?![^<\[(]*[>\])])",m.group(1)):
                q=q.strip()
                if not q: continue
                nm=q.split(':')[0].strip().split()[-1].lstrip('&'); out.append((nm,'&' in (q.split(':')[1] if ':' in q else q)))
            return out
    return []
CYC=[]
def cycle(d,p,t):
    global x,own,places,notes
    CYC[:]=re.findall(r'Lts-(\S+) as',t)
    path=d[len('proofs/'):].replace('/','.')
    alias={}
    for m in re.finditer(r"use Rattle\.\S+\.Lts-(\S+) as (\S+)",t): alias[m.group(2)]=m.group(1)
    head=[l for l in t.split('\n') if l.startswith('--')][:2]
    head=[h for h in head if h.strip()!='-- Assumes nothing.']
    body=t[t.index('\n\n'):] if False else t
    uses=re.findall(r"^use [^\n{]+(?:\{[^}]*\})?(?: as \S+)?$",t,re.M)
    rest=re.sub(r"^use [^\n{]+(?:\{[^}]*\})?(?: as \S+)?$","",t,flags=re.M)
    rest='\n'.join(l for l in rest.split('\n'))
    blocks=[b for b in re.split(r"\n\s*\n",rest) if b.strip() and not all(l.startswith('--') for l in b.strip().split('\n'))]
    inv=[];ans=[];others=[];allnotes=[];skipped=[]
    for b in blocks:
        b=b.strip('\n')
        m=re.match(r"(?:--[^\n]*\n)*(?:pub |abbrev |unfoldable )*(\S+)\s*:",b)
        if not m: others.append(b); continue
        nm=m.group(1)
        if 'PlainCycle' in b or re.search(r": ℕ → In |: ℕ → \S+\.Claims",b) or 'statement M' in b: continue
        mm=re.search(r": Measures \d+ (\S+)-kinds\.ps",b)
        if mm or nm.startswith('μ-') and 'Measures' in b:
            fa=nm[2:]
            fn=next((f for f in alias.values() if al(f)==al(fa)),None)
            if not fn: allnotes.append('measure? '+nm); continue
            ps=params_of(fn)
            bm=re.search(r"\n\S+ κs a\s*=(.*)$",b,re.S)
            e=bm.group(1)
            def rp(q):
                k=q.group(1).count('.1'); n,ref=ps[k] if k<len(ps) else ('?',False)
                return 'l.'+n+('.now' if ref else '')
            e=re.sub(r"(?<![\w.])a((?:\.1)*)\.0(?![\d])",rp,e)
            e=re.sub(r"(?<![\w.])a((?:\.1)+)(?![\d.])",lambda q:'l.'+ps[q.group(1).count('.1')][0] if q.group(1).count('.1')<len(ps) else q.group(0),e)
            inv.append(f"abbrev pub decreases-{fn} : goal.decreases-{fn}\ndecreases-{fn} l ={e}\n"); continue
        mm=re.search(r":\s*(\S+)\.(invariant|decreases)-?(\S*)\s*$",b.split('\n')[0])
        if mm and mm.group(1) in alias:
            fn=alias[mm.group(1)]
            x=N[f'Rattle-{crate}-proofs.{path}.Lts-{fn}']
            sd=splitdecl(b); ps,bd=sd[4],sd[5]
            L=next((q for q in x['loops'] if al(q[0][0])==al(mm.group(3))),x['loops'][0])
            idx=x['loops'].index(L); names=L[1]; ch=x['changed'][idx]
            seq=[('l.initial.'+n if c else 'l.'+n) for n,c in zip(names,ch)]+['l.'+n for n,c in zip(names,ch) if c]
            if len(seq)!=len(ps): allnotes.append(f'{nm}: {len(ps)} params vs {len(seq)}')
            sub=dict(zip(ps,seq))
            nb=re.sub(r"(?<![\w.'·?-])"+W+r"(?! = )",lambda q:sub.get(q.group(0),q.group(0)),bd)
            g=f"{mm.group(2)}-{x['stem']}{L[0][1]}"
            inv.append(f"abbrev pub {g} : goal.{g}\n{g} l ={nb if nb[:1] in chr(10)+' ' else ' '+nb}\n"); continue
        mm=re.search(r"→\s*(\S+)\.Need-(\S+)",b)
        if mm and mm.group(1) in alias:
            fn=alias[mm.group(1)]
            CURFN[0]=fn
            x=N[f'Rattle-{crate}-proofs.{path}.Lts-{fn}']
            own=None
            for c0 in FN.get(fn,[]):
                if c0[0]==crate: own=c0
            notes=[]
            places={}
            for ix,pl in enumerate(x['places']): places.setdefault(pl[0],(pl[1],pl[2],ix))
            o=al(mm.group(2)); i=None
            for c1 in (o,re.sub('^overflow','',o),re.sub('^nonzero','',o)):
                for k,(on,nn) in enumerate(x['needs']):
                    if al(on)==c1: i=k; break
                if i is not None: break
            if i is None: allnotes.append('no need '+nm); continue
            new=x['needs'][i][1]
            dm=re.search(r"\n"+re.escape(nm)+r" ([^=\n]*)=(.*)$",b,re.S)
            if not dm: allnotes.append('no body '+nm); continue
            bd=dm.group(2)
            unf=''.join(q+'\n' for q in re.findall(r"^(unfolding[^\n]*)$",b,re.M))
            if new.startswith('enum_told') or (' '.join(bd.split()) in TRIV and not unf): skipped.append(x['stem']+new); continue
            bd=re.sub(r"\.requires\.1(?![\d])",".requires",bd)
            for bm in re.findall(r"let ("+W+r") = c(?:\.before)*\.requires in",bd):
                if re.search(r"(?<![\w.'·-])"+re.escape(bm)+r"\.1(?![\d])",bd): bd=re.sub(r"(?<![\w.'·-])"+re.escape(bm)+r"\.1(?![\d])",bm,bd)
            nb=goal_fix(new,conv_expr(bd,i))
            allnotes+=[nm+': '+q for q in notes]
            g=x['stem']+new
            ans.append(f"pub {g} : goal.{g}\n{unf}{g} t c ={nb if nb[:1] in chr(10)+' ' else ' '+nb}\n"); continue
        others.append(b)
    others=[o for o in others if 'close' not in o or '→ statement' not in o]
    od=f'/tmp/convert/old/{crate}/{d}'; os.makedirs(od,exist_ok=True); shutil.move(p,od+'/Proof.antt')
    us=[u for u in uses if not re.search(r"PlainCycle|Fn\.Kinds|\.Reads as|\.Kinds as|\.Lts-|\.\{statement\}|Tie\.\{close\}",u)]
    base=f"Rattle.{crate}.proofs.{path}"
    deps=next((l.split(':')[1].split() for l in open('../../crates.txt') if l.startswith(crate+':')),[])
    bc='network' if 'network' in deps else ('feeding' if 'feeding' in deps else 'network')
    if any('(both ' in a for a in ans): us.append(f'use Rattle.{bc}.proofs.Pairs.{{both}}')
    if inv: open(d+'/Invariants.antt','w').write('\n'.join(head+us+[f"use {base}.Given as goal",'']+inv))
    open(d+'/Answers.antt','w').write('\n'.join(head+us+[f"use {base}.Goals as goal",'']+[o+'\n' for o in others]+ans))
    print('CYCLE',path,f'inv={len(inv)} ans={len(ans)} skipped={len(skipped)}',*(['NOTE '+q for q in allnotes]),sep='\n   ')

for d,ds,fs in os.walk('proofs'):
    if 'Proof.antt' not in fs: continue
    p=os.path.join(d,'Proof.antt'); t=open(p).read()
    if 'PlainCycle' in t: cycle(d,p,t); continue
    if 'Tie as tie' not in t: print('SKIP (no Tie)',p); continue
    CYC[:]=[]
    CURFN[0]=d.split('/')[-1]
    path=d[len('proofs/'):].replace('/','.')
    key=f'Rattle-{crate}-proofs.{path}.Lts'
    if key not in N: print('NO KEY',key); continue
    x=N[key]
    lines=t.split('\n')
    head=[]; i=0
    while i<len(lines) and lines[i].startswith('--'): head.append(lines[i]); i+=1
    head=[h for h in head if h.strip()!='-- Assumes nothing.']
    uses=[]; blocks=[]; cur=[]
    rest=lines[i:]
    j=0
    # use lines may span
    while j<len(rest):
        l=rest[j]
        if l.startswith('use ') or l.startswith('pub use '):
            s=l
            while s.count('{')>s.count('}'):
                j+=1; s+=' '+rest[j].strip()
            uses.append(s); j+=1; continue
        if l.strip()=='' :
            if cur: blocks.append(cur); cur=[]
        elif re.match(r"^(?:pub |abbrev |unfoldable )*"+W+r"\s*:",l) or re.match(r"^(?:pub |abbrev |unfoldable )*(?:data|record|module|mutual|ruleset)\s",l):
            if cur and not all(c.startswith('--') for c in cur): blocks.append(cur); cur=[]
            cur.append(l)
        else: cur.append(l)
        j+=1
    if cur: blocks.append(cur)
    # last block: spec
    spec=None; decls={}; order=[]; others=[]
    for b in blocks:
        tx='\n'.join(b)
        m=re.match(r"(?:--.*\n)*(?:pub |abbrev |unfoldable )*("+W+r")\s*:",tx)
        nm=m.group(1) if m else None
        if 'tie.spec' in tx: spec=tx; continue
        if nm and re.search(r"^(?:pub |abbrev |unfoldable )*"+re.escape(nm)+r"\s*:\s*tie\.",tx,re.M): decls[nm]=tx
        else: others.append(tx)
    m=re.search(r"tie\.spec\b(.*)\)\s*$",spec,re.S)
    # tokenise args
    s=m.group(1) if m else ''
    args=[];depth=0;tok=''
    for ch in s:
        if ch in '(': depth+=1
        if ch in ')': depth-=1
        if ch.isspace() and depth==0:
            if tok: args.append(tok); tok=''
        else: tok+=ch
    if tok: args.append(tok)
    loops=x['loops']
    own=contract(path.split('.')[-1],crate)
    own=None
    for c0 in FN.get(path.split('.')[-1],[]):
        if c0[0]==crate: own=c0
    inv=[];ans=[];notes=[]
    k=0
    # invariants & measures: those args whose decl is typed tie.invariant or tie.decreases
    invargs=[a for a in args if a in decls and re.search(r":\s*tie\.(invariant|decreases)",decls[a])]
    needargs=[a for a in args if a not in invargs]
    needs=x['needs']
    places={}
    for idx,pl in enumerate(x['places']): places.setdefault(pl[0],(pl[1],pl[2],idx))
    # loops
    li=0
    for a in invargs:
        sd=splitdecl(decls[a])
        if not sd: notes.append('cannot split '+a); continue
        com,nm,ty,unf,ps,body=sd
        kind='invariant' if 'tie.invariant' in decls[a].split('\n')[len(com.split('\n'))-1 if com else 0] or re.search(r"tie\.invariant",ty) else 'decreases'
        mm=re.search(r"tie\.(?:invariant|decreases)-?("+W+r")?",ty)
        lname=(mm.group(1) or '') if mm else ''
        L=None
        for lp in loops:
            if al(lp[0][0])==al(lname): L=lp
        if L is None: L=loops[0] if len(loops)==1 else None
        if L is None: notes.append('loop? '+a+' '+lname); continue
        idx=loops.index(L); names=L[1]; ch=x['changed'][idx]
        un=[n for n,c in zip(names,ch) if not c]; chg=[n for n,c in zip(names,ch) if c]
        seq=[('l.initial.'+n if n in chg else 'l.'+n) for n in names]+['l.'+n for n in chg]
        if len(seq)!=len(ps):
            notes.append(f'{a}: {len(ps)} params, {len(seq)} expected: {ps} vs {names} {ch}')
        sub=dict(zip(ps,seq))
        def rp(mm):
            return sub.get(mm.group(0),mm.group(0))
        nb=re.sub(r"(?<![\w.'·?-])"+W+r"(?! = )",rp,body)
        inv.append(f"{com}abbrev pub {kind}-{L[0][1]} : goal.{kind}-{L[0][1]}\n{unf}{kind}-{L[0][1]} l ={nb if nb.startswith(chr(10)) or nb.startswith(' ') else ' '+nb}\n")
    # needs
    if len(needargs)!=len(needs): notes.append(f'needs: {len(needargs)} args, {len(needs)} needs')
    bynm={}
    for i,(o,n) in enumerate(needs): bynm.setdefault(al(o),i)
    done=set(); skipped=[]
    for pos,a in enumerate(needargs):
        i=None
        if a in decls:
            ty=re.search(r"tie\.Need-("+W+")",decls[a])
            if ty:
                o=al(ty.group(1)); 
                cands=[o, re.sub('^overflow','',o), re.sub('^nonzero','',o)]
                for c0 in cands:
                    if c0 in bynm: i=bynm[c0]; break
        if len(needargs)==len(needs): i=pos if i is None or True else i
        if i is None: notes.append('no need for '+a); continue
        new=needs[i][1]
        if new in done: notes.append('twice '+new); continue
        done.add(new)
        if a in decls:
            sd=splitdecl(decls[a])
            if not sd: notes.append('cannot split '+a); continue
            com,nm,ty,unf,ps,body=sd
        else:
            mm=re.match(r"\(λ ([^.]*)\.(.*)\)$",a,re.S)
            com,unf='',''
            if mm: ps=mm.group(1).split(); body=' '+mm.group(2)
            else: ps=['c']; body=f' {a} c'
        if new.startswith('enum_told'): skipped.append(new); continue
        if ' '.join(body.split()) in TRIV and not unf: skipped.append(new); continue
        nb=goal_fix(new,conv_expr(body,i))
        if ps and ps[0]!='c': notes.append(f'{new}: params {ps}')
        extra=[q for q in ps[1:] if q!='κs']
        ans.append(f"{com}pub {new} : goal.{new}\n{unf}{new} c{''.join(' '+q for q in extra)} ={nb if nb[:1] in chr(10)+' ' else ' '+nb}\n")
    deps=next((l.split(':')[1].split() for l in open('../../crates.txt') if l.startswith(crate+':')),[])
    bc='network' if 'network' in deps else ('feeding' if 'feeding' in deps else 'network')
    uses.append(f'use Rattle.{bc}.proofs.Pairs.{{both}}')
    oth2=[]
    for o in others:
        m=re.search(r"tie\.([\w·-]+)",o)
        if m:
            pn=next((ix for ix,pl in enumerate(x['places']) if al(pl[0])==al(m.group(1))),None)
            if pn is not None:
                o=re.sub(r"tie\."+re.escape(m.group(1))+r"(?: invariant-[\w·-]+| decreases-[\w·-]+)*",'goal.'+x['places_by_name'][pn],o)
                o=conv_expr(o,None,x['places'][pn][0])
        oth2.append(o)
    others=oth2
    uses=[u for u in uses if '.Tie as tie' not in u and '.Statement.{statement}' not in u]
    # merge duplicates of uses
    um={}
    extra_uses=[]
    for u in uses:
        m=re.match(r"(?:pub )?use ([^{]+)\.\{(.*)\}\s*$",u)
        if m:
            L0=um.setdefault(m.group(1),[])
            for n in m.group(2).split(','):
                n=n.strip()
                if n and n not in L0: L0.append(n)
        else: extra_uses.append(u)
    ul=[f"use {k}.{{{', '.join(v)}}}" for k,v in um.items()]+extra_uses
    od=f'/tmp/convert/old/{crate}/{d}'; os.makedirs(od,exist_ok=True); shutil.move(p,od+'/Proof.antt')
    def needed(u,body):
        m=re.match(r"use ([^{]+)\.\{(.*)\}\s*$",u)
        if not m:
            a=re.match(r"use \S+ as (\S+)",u)
            return u if a and re.search(r"(?<![\w-])"+re.escape(a.group(1))+r"\.",body) else None
        ns=[]
        for n in m.group(2).split(','):
            n=n.strip(); nn=n.split(' as ')[-1].strip()
            core=nn.strip('◌').replace('◌','')
            if '◌' in nn:
                if core in body: ns.append(n)
            elif re.search(r"(?<![\w.'·?-])"+re.escape(nn)+r"(?![\w'·?-])",body): ns.append(n)
        return f"use {m.group(1)}.{{{', '.join(ns)}}}" if ns else None
    base=f"Rattle.{crate}.proofs.{path}"
    if inv:
        body='\n'.join(inv); oth=[o for o in others if any(re.search(r"(?<![\w-])"+re.escape(re.match(r'(?:--.*\n)*(?:pub |abbrev |unfoldable )*(\S+)',o).group(1))+r"(?![\w-])",body) for _ in [0])]
        bodyall='\n'.join(oth)+'\n'+body
        us=[q for q in (needed(u,bodyall) for u in ul) if q]
        open(d+'/Invariants.antt','w').write('\n'.join(head[:1]+us+[f"use {base}.Given as goal",'']+([o+'\n' for o in oth] if oth else [])+[body]))
    if ans:
        body='\n'.join(ans); bodyall='\n'.join(others)+'\n'+body
        us=[q for q in (needed(u,bodyall) for u in ul) if q]
        open(d+'/Answers.antt','w').write('\n'.join(head+us+[f"use {base}.Goals as goal",'']+[o+'\n' for o in others]+[body]))
    json.dump({'skipped':skipped},open(od+'/skipped.json','w'))
    print(path,f'inv={len(inv)} ans={len(ans)} skipped={len(skipped)}',*(['NOTE '+q for q in notes[:8]]),sep='\n   ' if notes else ' ')
subprocess.run(['rt','fmt'],capture_output=True)
