"""codesame.py A B: every .rt and .antt file of crates/ has the same text without comments in both trees."""
import sys,os,re
a,b=sys.argv[1:]
def bare(p):
    out=[]
    for l in open(p):
        s=l.strip()
        if re.match(r'(///|//!|//|--( |$))',s): continue
        if p.endswith('.rt'): l=re.sub(r'\s// .*$','',l)
        else: l=re.sub(r'\s-- .*$','',l)
        out.append(re.sub(r'\s+',' ',l).strip())
    return [x for x in out if x]
bad=0
for d,_,fs in os.walk(f'{a}/crates'):
    if '/out' in d: continue
    for f in fs:
        if f.endswith(('.rt','.antt')):
            p=f'{d}/{f}'; q=p.replace(a,b,1)
            if not os.path.exists(q): print('missing',q); bad+=1
            elif bare(p)!=bare(q): print('differs',q); bad+=1
print('bad',bad)
