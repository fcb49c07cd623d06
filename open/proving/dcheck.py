import os, subprocess, sys
if os.path.exists('/work/scratch/QUIET'): sys.exit('A timed run of the gate is going on until about 08:40: no processor use now (no rt try, no builds either). Write on, or end your work with a report; come back when /work/scratch/QUIET is gone.')
# check.py CRATE TOP [flags..]: the compiler's own check, over the gate's libraries, or TOP's where a lib was made in /work/scratch/acclib
name, top, *flags = sys.argv[1:]
gate = os.environ.get('GATE') or open('/work/scratch/GATE').read().strip()
lines = {l.split(':')[0].split()[0]: l.split(':',1)[1].split() for l in open(f'{top}/crates.txt') if ':' in l and not l.startswith('#')}
own = set(os.environ.get('OWN','').replace(',',' ').split())
mine = f'/work/scratch/libs-{os.path.basename(os.path.abspath(top))}'
def lib(c):
    d = f'{mine}/{c}' if c in own else f'{gate}/crates/{c}/out/rlib'
    return d, f'{d}/{c}.rlib'
deps = lines[name]
words = ['--extern', 'std=/opt/rattle/rlibs/std.rlib']
kit = [d for d in deps if d not in lines]
for d in kit: words += ['--extern', f'{d}=/opt/rattle/rlibs/{d}.rlib']
words += ['-L', 'dependency=/opt/rattle/rlibs']
seen = []
def walk(c):
    for d in lines.get(c, []):
        if d in lines:
            walk(d)
            if d not in seen: seen.append(d)
walk(name)
for d in deps:
    if d in lines: words += ['--extern', f'{d}={lib(d)[1]}']
for d in seen: words += ['-L', f'dependency={lib(d)[0]}']
mode = 'check'
root = 'src/lib.rt' if os.path.exists(f'{top}/crates/{name}/src/lib.rt') else 'src/main.rt'
if flags and flags[0] == 'build':
    mode = 'build'; flags = flags[1:]
    os.makedirs(f'{mine}/{name}', exist_ok=True)
    flags += ['-o', f'{mine}/{name}/{name}.rlib']
cmd = ['/opt/rattle/bin/rattle', mode, '--crate-name', name, root, *words, '--antt-project', '/opt/rattle/rattle/logic/antt-project.json', '--logic-built', '/opt/rattle/logic_built', '--links', f'{name}=', '--jobs', os.environ.get('JOBS','2'), '--incremental', os.environ.get('INC',f'{mine}/inc')+f'/{name}', *flags]
os.makedirs(f'{mine}/inc', exist_ok=True)
sys.exit(subprocess.run(cmd, cwd=f'{top}/crates/{name}').returncode)
