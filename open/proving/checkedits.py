import re,sys,glob
bad=0;n=0
top=sys.argv[1]
for f in glob.glob(top+'/crates/*/must-fail/*.edit')+glob.glob(top+'/bench/wrong-bodies/*/*.edit'):
    crate=f.split('/')[-3] if 'must-fail' in f else f.split('/')[-2]
    file=None
    for l in open(f).read().split('\n'):
        m=re.match(r'(file|old|new): ?(.*)',l)
        if not m: continue
        if m.group(1)=='file': file=m.group(2).strip()
        if m.group(1)=='old':
            n+=1
            try: s=open(f'{top}/crates/{crate}/{file}').read()
            except OSError as e: print(f,e); bad+=1; continue
            c=s.count(m.group(2))
            if c!=1: print(f,file,c,repr(m.group(2))); bad+=1
print(n,'old lines',bad,'bad')
