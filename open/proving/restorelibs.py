"""restorelibs.py KEPT CLONE: gives CLONE's crates the libraries that a run of rt ci kept in KEPT (a copy of /opt/rattle-kept that holds one commit's)."""
import json,os,shutil,sys
kept,clone=sys.argv[1:3]
n=0
for name in sorted(os.listdir(kept)):
    if not name.startswith('proof-'): continue
    crate=name[6:name.rindex('-')]
    out=f'{clone}/crates/{crate}/out'
    if not os.path.isdir(f'{clone}/crates/{crate}'): continue
    made=json.load(open(f'{kept}/{name}/made.json'))
    for i,(path,_) in enumerate(made['files']):
        os.makedirs(os.path.dirname(f'{out}/{path}'),exist_ok=True)
        if os.path.lexists(f'{out}/{path}'): os.remove(f'{out}/{path}')
        shutil.copy2(f'{kept}/{name}/{i}',f'{out}/{path}')
        if not path.startswith('rlib/'): os.chmod(f'{out}/{path}',0o755)
    n+=1
print(n,'crates')
