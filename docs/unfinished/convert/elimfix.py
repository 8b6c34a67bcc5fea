#!/usr/bin/env python3
"""elimfix.py: in a crate folder: turns ⊎_elim .. c.X.branch in Answers.antt into elim with Rattle's names."""
import re,os,subprocess,sys
files={}
import glob
ENS={}
for f in glob.glob('../*/src/*.rt'):
    s=open(f).read()
    for m in re.finditer(r"^( *)(?:pub )?fn (\w+)(.*?)^\1\{",s,re.M|re.S):
        ENS.setdefault(m.group(2),[c for c in re.findall(r"^\s*ensures\*? *(\w*) *\{",m.group(3),re.M)])
def decls(t):
    # list of (start,end,name)
    out=[]
    for m in re.finditer(r"^pub (\S+) : goal\.\S+$",t,re.M): out.append((m.start(),m.group(1)))
    res=[]
    for i,(s,n) in enumerate(out):
        e=out[i+1][0] if i+1<len(out) else len(t)
        res.append((s,e,n))
    return res
todo={}
for d,ds,fs in os.walk('proofs'):
    if 'Answers.antt' in fs:
        p=d+'/Answers.antt'; t=open(p).read()
        for s,e,n in decls(t):
            blk=t[s:e]
            if '⊎_elim' in blk and '.branch' in blk: todo.setdefault(p,[]).append((n,blk))
if not todo: print('no elims'); sys.exit(0)
for p,l in todo.items():
    t=open(p).read()
    for n,blk in l:
        m=re.match(r"(pub \S+ : goal\.\S+\n(?:unfolding[^\n]*\n)?)(\S+ (?:t )?c) ?=",blk)
        t=t.replace(blk,m.group(1)+m.group(2)+' = ?\n\n')
    files[p]=open(p).read(); open(p,'w').write(t)
out=subprocess.run(['rt','check','--allow-holes'],capture_output=True,text=True); log=out.stdout+out.stderr
open('/tmp/convert/elim-'+os.path.basename(os.getcwd())+'.txt','w').write(log)
info={}
for m in re.finditer(r"^(\./\S+?):\d+:\d+: goal \? in `([^`]+)`\n((?:[ ].*\n)+)",log,re.M):
    info[(m.group(1)[2:],m.group(2))]=m.group(3)
def matchparen(s,i):
    d=0
    for q in range(i,len(s)):
        if s[q] in '([{': d+=1
        elif s[q] in ')]}':
            d-=1
            if d==0: return q
    return -1
def skipws(s,i):
    while i<len(s) and s[i].isspace(): i+=1
    return i
def parse_elim(s,i):
    # s[i:] begins after '⊎_elim'; returns arms list [(var,body)] , rest index
    i=skipws(s,i); assert s[i]=='(',s[i:i+40]
    j=matchparen(s,i); a=s[i+1:j]
    k=skipws(s,j+1); 
    assert s[k]=='(',s[k:k+40]
    l=matchparen(s,k); b=s[k+1:l]
    return a,b,l+1
def arms_of(a,b):
    def one(x):
        m=re.match(r"\s*λ (\S+)\.(.*)$",x,re.S)
        if m:
            bd=m.group(2).strip(); v=m.group(1)
            q=re.match(r"⊎_elim\s",bd)
            if q:
                y,z,e=parse_elim(bd[len('⊎_elim'):],0)
                if bd[len('⊎_elim'):][e:].strip()==v: return one(y)+one(z)
            q=re.match(r"\(?⊎_elim\s",bd)
            return [(v,bd)]
        m=re.match(r"\s*⊎_elim(.*)$",x,re.S)
        if m:
            y,z,e=parse_elim(m.group(1),0)
            assert m.group(1)[e:].strip()=='' ,m.group(1)[e:]
            return one(y)+one(z)
        return [(None,x.strip())]
    return one(a)+one(b)
for p,l in todo.items():
    t=files[p]; uses=set()
    for n,blk in l:
        inf=info.get((p,n))
        if not inf: print('NO INFO',p,n); continue
        try:
            new=blk
            while '⊎_elim' in new:
                q=new.index('⊎_elim'); a,b,e=parse_elim(new,q+len('⊎_elim'))
                arms=arms_of(a,b)
                e2=skipws(new,e); m=re.match(r"[^\s(),]+",new[e2:]); scr=m.group(0)
                if not scr.endswith('.branch'):
                    print('scrutinee',scr); break
                mm=re.search(re.escape(scr)+r": elim "+re.escape(scr)+r" \[(.*)\]\n((?:      .*\n)*)",inf)
                if not mm: 
                    key=scr.split('.')[-2]
                    mm=re.search(r"(\S+"+re.escape('.branch')+r"): elim (\S+) \[(.*)\]\n((?:      .*\n)*)",inf)
                    print('no elim for',scr,p,n); break
                names=re.findall(r"(\S+) w ↦",mm.group(1)); sub=mm.group(2)
                fields={}
                for fm in re.finditer(r"^      (\S+) w: (.*)$",sub,re.M):
                    raw=re.sub(r"\{[^}]*\}",'',fm.group(2)); fields[fm.group(1)]=[x.strip().lstrip('.') for x in raw.split(',')]
                um=re.search(r"the elim needs: use (\S+)\.\{([^}]*)\}",sub)
                if um: uses|=set(x.strip() for x in um.group(2).split(','))
                if len(names)!=len(arms): print('ARMS',len(names),len(arms),p,n); break
                parts=[]
                for nm,(v,body) in zip(names,arms):
                    fl=fields.get(nm,[])
                    iss=[f for f in fl if f.endswith('-is')]
                    calls=[f for f in fl if not f.endswith('-is') and not f.startswith(('if-','in-','in_','loop-')) ]
                    if v is None: parts.append(f"{nm} w ↦ {body} w"); continue
                    body=re.sub(r"(?<![\w.'·-])"+re.escape(v)+r"(?=[.\s),;]|$)",'w',body) if v!='w' else body
                    ifs=[f for f in fl if f.startswith('if-')]
                    tidx=sorted(set(int(x) for x in re.findall(r"(?<![\w.'·-])w\.(\d+)\.(?:taken|left)",body)))
                    tm={}
                    for q0,kk in enumerate(tidx):
                        if kk==0 and ifs: tm[kk]=ifs[0]
                        elif ifs: tm[kk]=ifs[max(0,len(ifs)-(len(tidx)-q0))]
                    body=re.sub(r"(?<![\w.'·-])w\.(\d+)\.(taken|left)",lambda m:'w.'+tm.get(int(m.group(1)),m.group(1))+('.true' if m.group(2)=='taken' else '.false'),body)
                    if ifs: body=re.sub(r"(?<![\w.'·-])w\.(taken|left)(?![\w])",lambda m:'w.'+ifs[0]+('.true' if m.group(1)=='taken' else '.false'),body)
                    idx=sorted(set(int(x) for x in re.findall(r"(?<![\w.'·-])w\.(\d+)(?!\.(?:result|ensures|new|given|auto|if-))(?!\d)",body)))
                    cidx=sorted(set(int(x) for x in re.findall(r"(?<![\w.'·-])w\.(\d+)\.(?:result|ensures|new|auto)",body)))
                    mp={}
                    if iss and idx:
                        top=idx[-1]
                        for k in idx:
                            o=len(iss)-1-(top-k)
                            if 0<=o: mp[k]=iss[o]
                    if len(cidx)==len(calls):
                        for k,f in zip(cidx,calls): mp[k]=f
                    elif cidx: print('CALLS',p,n,nm,cidx,calls)
                    def ens(m):
                        k=int(m.group(1)); f=mp.get(k)
                        if f is None: return m.group(0)
                        fn=f.split('-')[0]
                        names=ENS.get(fn,[])
                        if len(names)<2: return 'w.'+f+'.ensures'+m.group(2)
                        r=m.group(2)
                        if r in('.0','.1') and len(names)==2: return 'w.'+f+'.ensures.'+names[int(r[1])]
                        if r=='' and len(names)==2: return f"(both w.{f}.ensures.{names[0]} w.{f}.ensures.{names[1]})"
                        print('ENS',p,n,f,r,names); return 'w.'+f+'.ensures'+r
                    body=re.sub(r"(?<![\w.'·-])w\.(\d+)\.ensures((?:\.\d+)*)",ens,body)
                    body=re.sub(r"(?<![\w.'·-])w\.(\d+)",lambda m:'w.'+mp.get(int(m.group(1)),m.group(1)),body)
                    parts.append(f"{nm} w ↦ {body}")
                rep='elim '+scr+' [ '+' | '.join(parts)+' ]'
                new=new[:q]+'('+rep+')'+new[e2+len(scr):]
            t=t.replace(blk,new)
        except AssertionError as ex: print('ASSERT',p,n,ex)
    if uses:
        base=re.search(r"^use (\S+\.Goals) as goal$",t,re.M).group(1)
        t=t.replace(f"use {base} as goal\n",f"use {base} as goal\nuse {base}.{{{', '.join(sorted(uses))}}}\n",1)
    open(p,'w').write(t)
    print('elimfix',p,[n for n,_ in l])
subprocess.run(['rt','fmt'],capture_output=True)
