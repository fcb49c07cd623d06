"""stamplibs.py CLONE: marks the libraries that restorelibs.py gave a clone as built, so that rt lib, plant and tidy use them."""
import os,sys,importlib.machinery,importlib.util
def load(n,p):
    l=importlib.machinery.SourceFileLoader(n,p); s=importlib.util.spec_from_loader(n,l); m=importlib.util.module_from_spec(s); sys.modules[n]=m; l.exec_module(m); return m
rtlib=load('rtlib','/opt/rattle/bin/rtlib.py')
os.chdir(sys.argv[1]); n=0
for c in rtlib.crates_below(os.getcwd()):
    if os.path.isdir(c.rlib):
        open(f'{c.folder}/out/rlib/stamp','w').write(c.stamp()); n+=1
print(n,'stamped')
