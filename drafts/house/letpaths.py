#!/usr/bin/env python3
"""Binds by let the paths of an answer file that stand three times or more in a line (c .before .. .x). letpaths.py FILE..."""
import re,sys
PATH=re.compile(r'(?<![\w\-.])c((?: \.before)+)( \.(?!before\b)[A-Za-z][\w\-]*)')
def blocks(lines):
    """(start, end) of each top-level definition's body line(s)"""
    i=0
    while i<len(lines):
        l=lines[i]
        if re.match(r'^[a-z][\w\-]*( t)? c( κs)? =',l):
            j=i+1
            while j<len(lines) and lines[j].startswith(' '): j+=1
            yield i,j
            i=j
        else: i+=1
def fix(text):
    lines=text.split('\n')
    out=[];last=0;n=0
    for i,j in blocks(lines):
        body=lines[i:j]
        joined='\n'.join(body)
        # is any path three times or more on one line?
        hit=False;long=False
        for l in body:
            if re.match(r'^    let [\w\-]+ = c[ .a-z\-\d]* in$',l): continue
            cnt={}
            for m in PATH.finditer(l):
                p=m.group(0)
                if m.group(2)==' .before': continue
                cnt[p]=cnt.get(p,0)+1
            if any(v>=3 for v in cnt.values()) or (len(l)>300 and cnt): hit=True
            if len(l)>300: long=True
        if not hit: continue
        head,rest=joined.split(' =',1)
        rest=rest.strip('\n')
        given={};kept=[]
        def have(m):
            given[m.group(2)]=m.group(1);kept.append(m.group(0));return ''
        rest=re.sub(r'^    let ([\w\-]+) = (c(?: \.before)+ \.[A-Za-z][\w\-]*) in\n',have,rest,flags=re.M)
        cnt={}
        order=[]
        for m in PATH.finditer(rest):
            p=m.group(0)
            cnt[p]=cnt.get(p,0)+1
            if p not in order: order.append(p)
        names={};used=set(re.findall(r'(?<![\w\-.])[A-Za-z][\w\-]*',re.sub(PATH,'',rest)))
        used|=set(given.values())
        for p in order:
            if p in given: continue
            if cnt[p]<2 and not (long and p.count('.before')>=4): continue
            base=p.rsplit('.',1)[1]
            nm=base;k=2
            while nm in used or nm in ('in','let','record','search','needs','c'):
                nm=f'{base}-{k}';k+=1
            used.add(nm);names[p]=nm
        if not names: continue
        def rep(m): return names.get(m.group(0)) or given.get(m.group(0)) or m.group(0)
        # longest first is not needed: a path ends at its name
        rest2=PATH.sub(rep,rest)
        rest2=re.sub(r'^\s*','',rest2)
        lets=[k.rstrip('\n') for k in kept]+[f'    let {nm} = {p} in' for p,nm in names.items()]
        # existing lets first keep their order: they may use the new names
        out.append((i,j,[head+' =']+lets+['    '+rest2.replace('\n    ','\n    ')]))
        n+=1
    for i,j,new in reversed(out): lines[i:j]='\n'.join(new).split('\n')
    return '\n'.join(lines),n
if __name__=='__main__':
    tot=0
    for f in sys.argv[1:]:
        s=open(f).read(); t,n=fix(s)
        if n: open(f,'w').write(t); tot+=n
    print(tot,'answers')
