"""sampler.py OUT: one line for each process of the toolchain, with the seconds of a processor that it took (sampled each second)."""
import os,sys,time
out=open(sys.argv[1],'a',buffering=1); tick=os.sysconf('SC_CLK_TCK'); live={}
while True:
    seen=set()
    for p in os.listdir('/proc'):
        if not p.isdigit(): continue
        try:
            st=open(f'/proc/{p}/stat').read(); name=st[st.index('(')+1:st.rindex(')')]; f=st[st.rindex(')')+2:].split()
            key=(p,f[19])
            if key not in live:
                a=open(f'/proc/{p}/cmdline').read().replace('\0',' ')
                if not any(w in a for w in ('/opt/rattle','/usr/local/bin/rt','/out/','rattle')) or 'sampler' in a: continue
                cwd=os.readlink(f'/proc/{p}/cwd')
                live[key]=[time.time(),name,int(f[1]),a[:400],cwd,0,0]
            e=live[key]; e[5]=(int(f[11])+int(f[12]))/tick; e[6]=(int(f[13])+int(f[14]))/tick; seen.add(key)
        except (OSError,ValueError,IndexError): pass
    for k in [k for k in live if k not in seen]:
        e=live.pop(k); out.write('\t'.join([k[0],f'{e[0]:.0f}',f'{time.time():.0f}',f'{e[5]:.2f}',f'{e[6]:.2f}',e[1],e[4],e[3]])+'\n')
    # the running ones of rt, for boundaries
    for k,e in live.items():
        if e[1].startswith('python') and ' ci' in e[3]: out.write('\t'.join(['rt',f'{time.time():.0f}','',f'{e[5]:.2f}',f'{e[6]:.2f}',e[1],e[4],e[3]])+'\n')
    time.sleep(1)
