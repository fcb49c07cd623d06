# parts.py NAME DIR: sums the seconds of a processor of a run that gate.sh made in DIR under NAME, by part and crate
import re,sys,collections
name,top=sys.argv[1:3]
t0=float(open(f'/work/scratch/logs/{name}.start').read())
prog={'sdhring','sdhwatch','sdhoutage','sdhpath','sdhretime','sdhwhatif','sdhaps','sdhnode','sdh_trials','sdh_bench','sdh_bench_ring','example_words'}
P=collections.defaultdict(float);T=collections.defaultdict(float);E=collections.defaultdict(float);ec={}
for l in open(f'/work/scratch/logs/{name}.cpu.tsv'):
    f=l.rstrip('\n').split('\t')
    if f[0]=='rt' or float(f[1])<t0-2 or '/opt/rattle/bin/rattle' not in f[7]: continue
    cpu=float(f[3])+float(f[4]); w,a=f[6],f[7]
    m=re.search(r'--crate-name (\w+)',a); c=m[1] if m else '?'
    if w.startswith(top) and c not in prog:
        if '--test' in a: T[c]=max(T[c],cpu)
        else: P[c]=max(P[c],cpu)
    elif w.startswith('/tmp/rt-edit') and float(f[1])>t0: E[w]=max(E[w],cpu); ec[w]=c
pr={k:v for k,v in P.items() if not k.startswith('test_')}
print('proofs',round(sum(pr.values())),sorted([(round(v),k) for k,v in pr.items()],reverse=True)[:12],len(pr))
print('tests',round(sum(T.values())),{k:round(v) for k,v in T.items()})
by=collections.defaultdict(list)
for w,v in E.items(): by[ec[w]].append(round(v))
print('edits',round(sum(E.values())),dict(by))
