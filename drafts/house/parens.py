import re,sys,subprocess
fs=[f for f in subprocess.run("git diff --name-only -- 'crates/*/proofs/*.antt'",shell=True,capture_output=True,text=True).stdout.split('\n') if f]
n=0
for f in fs:
    lines=open(f.encode().decode('unicode_escape').encode('latin1').decode() if f.startswith('"') else f).read().split('\n')
    i=0
    while i<len(lines):
        if re.match(r'^[a-z][\w\-]*( t)? c( κs)? =',lines[i]):
            j=i+1
            while j<len(lines) and lines[j].startswith(' '): j+=1
            names={m.group(1) for l in lines[i:j] for m in [re.match(r'^    let ([\w\-]+) = c',l)] if m}
            for k in range(i,j):
                for nm in names:
                    t=re.sub(r'(?<=[ (])\('+re.escape(nm)+r'\)',nm,lines[k])
                    if t!=lines[k]: n+=1; lines[k]=t
            i=j
        else: i+=1
    open(f.strip('"'),'w').write('\n'.join(lines))
print(n)
