# doubles.py TOP LOOSE_OUTPUT: the 'twice' section of `loose --all`, each with size of the copies and what the crates have to do with one another
import re,sys
top,out=sys.argv[1:3]
deps={}
for l in open(top+'/crates.txt'):
    if ':' in l and not l.startswith('#'):
        k,v=l.split(':',1); deps[k.split()[0]]=v.split()
def below(c,seen=None):
    seen=set() if seen is None else seen
    for d in deps.get(c,[]):
        if d in deps and d not in seen: seen.add(d); below(d,seen)
    return seen
def block(path,line):
    L=open(top+'/'+path).read().split('\n'); i=line-1; ind=len(L[i])-len(L[i].lstrip()); name=None
    m=re.match(r'\s*(?:pub |abbrev |opaque |private |unfoldable )*(\S+) :',L[i]); name=m[1] if m else ''
    j=i+1
    while j<len(L):
        l=L[j]
        if l.strip()=='' : break
        k=len(l)-len(l.lstrip())
        if k<=ind and not (l.strip().startswith(name+' ') or l.strip().startswith('unfolding') or l.strip() in(')','}') or l.strip().startswith('} ')): break
        j+=1
    return '\n'.join(L[i:j]),ind
sec=False; groups=[]
for l in open(out):
    if l.startswith('== '): sec='Statements of proofs' in l; continue
    if not sec: continue
    m=re.match(r'\s+(crates/\S+):(\d+) (\S+)',l)
    if m: groups[-1][1].append((m[1],int(m[2]),m[3]))
    elif re.match(r'\s+\d+ times',l): groups.append((l.strip(),[]))
rows=[]
for g,its in groups:
    bl=[(p,n,nm)+block(p,n) for p,n,nm in its]
    size=min(len(b[3]) for b in bl)
    rows.append((size,g,bl))
rows.sort(key=lambda r:-r[0])
for size,g,bl in rows:
    print(f'{size} {g[:150]}')
    cs=[b[0].split('/')[1] for b in bl]
    for b in bl:
        c=b[0].split('/')[1]
        rel=[d for d in cs if d!=c and d in deps.get(c,[])]
        rel2=[d for d in cs if d!=c and d not in deps.get(c,[]) and d in below(c)]
        print(f'    {b[0]}:{b[1]} {b[2]} {len(b[3])}{" in-module" if b[4] else ""}', 'ABOVE '+','.join(rel) if rel else '', 'INDIRECT '+','.join(rel2) if rel2 else '')
