#!/usr/bin/env python3
"""mend_order.py LOG: in the crate folder; applies 'declare `x` before argument N (`y`)' errors."""
import re,sys
log=open(sys.argv[1]).read()
n=0
for m in re.finditer(r"^(\./\S+?):(\d+):\d+: error: `([^`]+)`: declare (?:argument \d+ \()?`([^`]+)`\)? before argument \d+ \(`([^`]+)`\)",log,re.M):
    f,line,name,x,y=m.group(1),int(m.group(2)),m.group(3),m.group(4),m.group(5)
    L=open(f).read().split('\n')
    i=line-1
    first=re.match(r"\s*(\S+)",L[i]).group(1)
    if any(re.match(r"\s*(?:pub )?"+re.escape(first)+r"\s*:",L[k]) for k in range(max(0,i-30),i)): name=first
    pat=re.compile(r"^\s*(?:pub |abbrev |unfoldable )*"+re.escape(name)+r"(?=\s*:|\s*$)")
    while i>=0 and not (pat.match(L[i]) and (':' in L[i])): i-=1
    if i<0: print('no sig',f,name); continue
    done=False
    for k in range(i,min(i+12,len(L))):
        for g in re.finditer(r"\{([^{}:]+):",L[k]):
            names=g.group(1).split()
            if x in names and y in names and names.index(x)>names.index(y):
                names.remove(x); names.insert(names.index(y),x)
                L[k]=L[k][:g.start(1)]+' '.join(names)+' '+L[k][g.end(1):]
                done=True;break
        if done:break
    print('mended' if done else 'NOT',f,line,name,x,y)
    if done: open(f,'w').write('\n'.join(L)); n+=1
print(n)
