import re,glob,sys
def files(crates,kinds=('antt',)):
    out=[]
    for c in crates:
        for k in kinds: out+=glob.glob(f'crates/{c}/**/*.{k}',recursive=True)
    return out
def rename(fs,name,new,skip=()):
    for f in fs:
        if f in skip: continue
        s=open(f).read(); t=re.sub(r'(?<![\w\-′₀.])'+name+r'(?![\w\-′₀])', new, s)
        if t!=s: open(f,'w').write(t)
def nm(v): return f'({v} .entry .now) ({v} .exit .now)'
def one(v): return f'({v} .entry .now)'
B='Buffer'
# (spec file, record, crates whose proofs/specs cite it, signature types, parameters, body args, comment)
allc=[l.split(':')[0] for l in open('crates.txt') if re.match(r'^[a-z_]+:',l)]
J=[]
def add(spec,name,cites,sig,params,body,after=None):
    J.append((spec,name,cites,sig,params,body))
five='stack exec dict cells log'.split(); six=five+['outcome']
op='(Floo.Machine → Result Floo.Machine)'
add('operators/specs/Titles','DoesAll',['operators','acting','step','error_operators'],[op,'Machine']+[B]*5+['Did'],['f','m']+five+['r'],['f','m']+[nm(x) for x in five]+['r'])
add('operators/specs/Titles','DoesButLog',['operators','acting'],[op,'Machine']+[B]*4+['Did'],['f','m']+five[:4]+['r'],['f','m']+[nm(x) for x in five[:4]]+['r'])
add('step/specs/Stepping','TriesSlot',['step','run_loop'],['State']+[B]*5+['Stepped'],['σ']+five+['r'],['σ']+[nm(x) for x in five]+['r'])
add('step/specs/Stepping','TriesToken',['step','run_loop'],[B,'State']+[B]*4+['Stepped'],['script','σ']+five[:4]+['r'],[one('script'),'σ']+[nm(x) for x in five[:4]]+['r'])
add('run_loop/specs/History','Ends',['run_loop','runner','lending','floor','exactness'],[B,'ℕ','State']+[B]*5+['State','Ending'],['script','fuel','st']+five+['τ','ending'],[one('script'),'fuel','st']+[nm(x) for x in five]+['τ','ending'])
add('run_loop/specs/Halting','Halts',['run_loop'],[B,'ℕ','State']+[B]*5+['State','Ending'],['script','limit','st']+five+['τ','ending'],[one('script'),'limit','st']+[nm(x) for x in five]+['τ','ending'])
add('runner/specs/Promise','Runs',['runner','lending','floor','floo','floo_c','floor_c','run_list'],[B,'ℕ']+[B]*6+['Answer'],['script','fuel']+six+['r'],[one('script'),'fuel']+[nm(x) for x in six]+['r'])
add('runner/specs/Promise','CarriesOut',['runner','lending','floor','floor_c'],[B,'ℕ','steps.State','ℕ','ℕ']+[B]*6+['Report'],['script','fuel','σ₀','touched','worked']+six+['r'],[one('script'),'fuel','σ₀','touched','worked']+[nm(x) for x in six]+['r'])
add('runner/specs/Promise','Proceeds',['runner','lending','floor'],[B,'ℕ','State']+[B]*6+['Proceeded'],['script','fuel','st']+six+['r'],[one('script'),'fuel','st']+[nm(x) for x in six]+['r'])
add('lending/specs/Lending','Lends',['lending'],['Machine','Machine']+[B]*5,['m','r','stack','dict','cells','name','contents'],['m','r']+[nm(x) for x in ['stack','dict','cells']]+[one('name'),one('contents')])
add('lending/specs/Lending','Carries',['lending','floor'],[B,'ℕ',B,B]+[B]*6+['Proceeded'],['script','fuel','name','contents']+six+['r'],[one('script'),'fuel',one('name'),one('contents')]+[nm(x) for x in six]+['r'])
ask='(asked '+one('script')+' fuel '+one('label')+' '+' '.join(one(x) for x in six)+')'
add('floor/specs/Promise','CarriesLabel',['floor','floor_c'],[B,'ℕ',B]+[B]*6+['Ran'],['script','fuel','label']+six+['r'],[one('script'),'fuel',one('label')]+[nm(x) for x in six]+['r'])
add('floor/specs/Promise','Labelled',['floor','floor_c'],[B,'ℕ',B,'Bool']+[B]*6+['Ran'],['script','fuel','label','sound']+six+['r'],[ask,'sound']+[nm(x) for x in six]+['r'])
add('floor/specs/Promise','Scans',['floor','floor_c'],[B,'ℕ',B,'BufferOf Record','ℕ']+[B]*6+['Scanned'],['script','fuel','label','book','count']+six+['r'],[ask,nm('book'),'count']+[nm(x) for x in six]+['r'])
add('floo_c/specs/Reply','Replies',['floo_c'],[B,'ℕ']+[B]*6+['Reply'],['script','fuel']+six+['r'],[one('script'),'fuel']+[nm(x) for x in six]+['r'])
add('floor_c/specs/Reply','Replies',['floor_c'],[B,'ℕ',B,'BufferOf Record','ℕ']+[B]*6+['Reply'],['script','fuel','label','book','count']+six+['r'],[ask,nm('book'),'count']+[nm(x) for x in six]+['r'])
four=['stack','exec','memory','outcome']
add('forf_runner/specs/Promise','Runs',['forf_runner','forf','forf_c'],[B,'ℕ']+[B]*4+['Answer'],['script','fuel']+four+['a'],[one('script'),'fuel']+[nm(x) for x in four]+['a'])
add('forf_c/specs/Reply','Replies',['forf_c'],[B,'ℕ']+[B]*4+['Reply'],['script','fuel']+four+['r'],[one('script'),'fuel']+[nm(x) for x in four]+['r'])
for spec,name,cites,sig,params,body in J:
    f=f'crates/{spec}.antt'
    crates=cites or allc
    rename(files(crates),name,name+'On')
for spec,name,cites,sig,params,body in J:
    f=f'crates/{spec}.antt'
    s=open(f).read().split('\n')
    i=[k for k,l in enumerate(s) if l.startswith(f'pub record {name}On ')][0]
    j=i+1
    while j<len(s) and s[j].startswith('  '): j+=1
    new=['',f'abbrev pub {name} : '+' → '.join(sig)+' → Type 0',f'{name} '+' '.join(params)+' = '+f'{name}On '+' '.join(body)]
    s[j:j]=new
    # imports
    need='Buffer' + (', BufferOf' if any('BufferOf' in x for x in sig) else '')
    have=[k for k,l in enumerate(s) if 'specs.Buffers.{' in l]
    if have:
        k=have[0]
        names=set(re.search(r'\{(.*)\}',s[k]).group(1).split(', '))|set(need.split(', '))
        s[k]=re.sub(r'\{.*\}','{'+', '.join(sorted(names))+'}',s[k])
    else:
        k=[k for k,l in enumerate(s) if l.startswith('use Rattle·semantics.specs.') or l.startswith('use Rattle·')][0]
        s.insert(k,f'use Rattle·semantics.specs.Buffers.{{{need}}}')
    open(f,'w').write('\n'.join(s))
# contract lines in the code
for f in files(allc,('rt',)):
    s=open(f).read().split('\n'); ch=False
    for k,l in enumerate(s):
        m0=re.search(r'⌜ (\w+) ',l)
        if 'ensures' in l and m0 and (f.split('/')[1],m0.group(1)) in {(c,n) for sp,n,ci,*_ in J for c in ci}:
            t=l
            t=re.sub(r'\(asked ((?:\(now \(\w+ \.entry\)\)|fuel| )+)\)', lambda m:' '.join(['script','fuel','label']), t)
            t=re.sub(r'\(now \((\w+) \.entry\)\) \(now \(\1 \.exit\)\)', r'\1', t)
            t=re.sub(r'(?<=[ ])\(now \((script|name|contents|label) \.entry\)\)', r'\1', t)
            if t!=l: s[k]=t; ch=True
    if ch: open(f,'w').write('\n'.join(s))
