#!/usr/bin/env python3
"""In the answer files of recursive functions the tuple of what the callees promise is an abbreviation."""
import re,sys
for f in sys.argv[1:]:
    s=open(f).read()
    # tuples after Need-x or spec
    pat=re.compile(r'(\b[\w\-]+-lts|lts)\.(Need-[\w\-]+|spec) (\(\n(?:  [^\n]*,\n)+\)|\([^\n()]*(?:,[^\n()]*)+\))')
    found={}
    for m in pat.finditer(s):
        found.setdefault((m.group(1),re.sub(r'\s+',' ',m.group(3))),[]).append(m)
    for (lts,tup),ms in sorted(found.items(),key=lambda x:-len(x[1])):
        print(f,lts,len(ms),tup[:80])
    for (lts,tup),ms in found.items():
        if len(ms)<3: continue
        fn=lts[:-4]
        inner=[x.strip() for x in tup.strip('()').split(',') if x.strip()]
        s=pat.sub(lambda m: f'{m.group(1)}.{m.group(2)} ({fn}-claims t)' if re.sub(r'\s+',' ',m.group(3))==tup and m.group(1)==lts else m.group(0),s)
        at=s.index('\n',s.index('abbrev '+fn+'-below'))
        at=s.index('\n\n',at)
        s=s[:at]+f'\n\n-- What its callees ask and promise.\nabbrev {fn}-claims : ℕ → {lts}.Claims\n{fn}-claims t = ('+', '.join(inner)+')'+s[at:]
        open(f,'w').write(s)
