#!/usr/bin/env python3
import re,sys
log=open(sys.argv[1]).read(); n=0
edits={}
for m in re.finditer(r"^(\./\S+?):(\d+):(\d+): error: `[^`]*`: record `[^`]*` has no field `([^`]+)`(.*)$",log,re.M):
    f,l,c,x,rest=m.group(1),int(m.group(2)),int(m.group(3)),m.group(4),m.group(5)
    y=None
    a=re.search(r"write `\.([^`]+)` in place of `\."+re.escape(x)+"`",rest)
    b=re.search(r"\(nearest: \.([^)]+?)\)",rest)
    d=re.search(r"the fields that can be named here are `([^`,]+)`$",rest.strip())
    if a: y=a.group(1)
    elif d: y=d.group(1)
    elif b:
        cand=b.group(1).split(',')[0].strip().lstrip('.')
        al=lambda s: re.sub('[-_·]','',s)
        if al(cand).startswith(al(x)[:len(al(x))]) or al(x).rstrip('0123456789')==al(cand)[:len(al(x).rstrip('0123456789'))]: y=cand
    if y: edits.setdefault(f,[]).append((l,c,x,y))
for f,es in edits.items():
    L=open(f).read().split('\n')
    for l,c,x,y in sorted(set(es),reverse=True):
        s=L[l-1]
        # find '.x' nearest column
        pos=[mm.start() for mm in re.finditer(r"\."+re.escape(x)+r"(?![\w·'-])",s)]
        if not pos: continue
        q=min(pos,key=lambda z:abs(z+1-(c-1)))
        pm=re.search(r"[A-Za-z][\w·.'-]*$",s[:q])
        if pm:
            full=pm.group(0)+'.'+x; k=0
            for z in range(len(L)):
                new=re.sub(r"(?<![\w.·'-])"+re.escape(full)+r"(?![\w·'-])",lambda _:pm.group(0)+'.'+y,L[z])
                if new!=L[z] and (z==l-1 or pm.group(0).startswith('c.')): L[z]=new; k+=1
            n+=1
            continue
        L[l-1]=s[:q]+'.'+y+s[q+1+len(x):]; n+=1
        print('mend',f,l,x,'->',y)
    open(f,'w').write('\n'.join(L))
print(n)
