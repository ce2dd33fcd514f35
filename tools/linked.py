#!/usr/bin/env python3
"""Writes proofs/Linked.antt of each crate at or below TOP into DST/crates, and proofs/World.antt of TOP.

    python3 tools/linked.py SRC DST TOP

SRC and DST are folders with crates/, or one of the two; TOP is writebehind. What each crate's functions are and whom they call is read
from what the checks of SRC kept in crates/*/out/: so `rt check` in crates/TOP comes first. Run `rt fmt` in each crate afterwards.
"""
import re,os,glob,sys
src,dst,top=sys.argv[1:4]
deps={}
for l in open(src+'/crates.txt'):
    l=l.split('#')[0].strip()
    if not l: continue
    n,d=l.split(':'); deps[n.split()[0]]=d.split()
order=[]
def go(c):
    for d in deps.get(c,[]): go(d)
    if c not in order: order.append(c)
go(top)
def kept(c):
    fs=glob.glob(f'{src}/crates/{c}/out/incremental/*/Rattle-{c}-proofs.TheLink.oantt')
    if not fs: return None
    fs.sort(key=os.path.getmtime)
    own=[];ext=[]
    for l in open(fs[-1],'rb').read().split(b'\n'):
        if l.startswith(b'--@ import '):
            m=l.split()[2].decode()
            if m.startswith(f'Rattle-{c}-proofs.TheLinks.'): own.append(m.split('.TheLinks.')[1])
            r=re.match(r'Rattle-([a-z_0-9]+)\.proofs\.(.*)\.Symbol$',m)
            if r: ext.append((r.group(1),r.group(2)))
    return own,ext
info={c:kept(c) for c in order}
has=[c for c in order if info[c]]
called={}
for c in has:
    for d,f in info[c][1]: called.setdefault(d,set()).add(f)
reach={}
for c in order:
    s=[]
    for d in deps.get(c,[]):
        for x in reach[d]:
            if x not in s: s.append(x)
    if c in has: s.append(c)
    reach[c]=s
prov={}
dsof={}
for c in has:
    own,ext=info[c]
    # a function of another crate may lie in a crate that passes it on: only direct deps are named
    ds=[]
    for d,f in ext:
        if d not in ds: ds.append(d)
    for d in deps[c]:
        if d in has and d not in ds: ds.append(d)
    dsof[c]=ds
    exported=sorted(called.get(c,set())) if c!=top else [o.split('-',1)[1].replace('-','.') for o in own if o.startswith(c+'-wb_')]
    L=[]
    L.append('-- What a link of this crate and those below it needs, and that it finds the functions that other crates call.')
    L.append('use mathlib.Core.Bool.{true}')
    L.append('use prog.Linked.{Tree, World, Holds, in_world}')
    L.append('use prog.LinkedThreads.{HasT}')
    L.append(f'use Rattle.{c}.proofs.TheLink as link')
    for i,d in enumerate(ds):
        L.append(f'use Rattle.{d}.proofs.Linked as b{i}')
    for f in exported:
        L.append(f'use Rattle.{c}.proofs.{f}.Symbol as s-{f.replace(".","-")}')
    done=set()
    for d in deps[c]:
        if d not in reach or d not in has: continue
        names=[x for x in prov[d] if x not in done]
        done.update(names); prov.setdefault(c,[]).extend(names)
        if names:
            L.append(f'pub use Rattle.{d}.proofs.Linked.{{'+', '.join(f'table-{x}, Needs-{x}, needs-{x}' for x in names)+'}')
    prov.setdefault(c,[]).append(c)
    L.append('')
    L.append(f"-- the crate's table")
    L.append(f'pub table-{c} : Tree'); L.append(f'table-{c} = link.table'); L.append('')
    L.append('-- a world that has it, and those of the crates below')
    L.append(f'pub Needs-{c} : World → Type 0')
    nd=''.join(f' × b{i}.Needs-{d} W' for i,d in enumerate(ds))
    L.append(f'Needs-{c} W = Holds W "{c}" table-{c}{nd} × Unit {{0}}'); L.append('')
    ar=''.join(f' → b{i}.Needs-{d} W' for i,d in enumerate(ds))
    vs=' '.join(f'n{i}' for i in range(len(ds)))
    L.append(f'pub needs-{c} : (W : World) → Holds W "{c}" table-{c}{ar} → Needs-{c} W')
    L.append(f'unfolding Needs-{c}')
    L.append(f'needs-{c} W h {vs}'.rstrip()+' = (h'+''.join(f', n{i}' for i in range(len(ds)))+', tt)'); L.append('')
    L.append(f'below : (W : World) → Needs-{c} W → link.Below W')
    L.append(f'unfolding Needs-{c}')
    t='tt'
    for d,f in reversed(ext):
        i=ds.index(d)
        t=f'(b{i}.linked-{f.replace(".","-")} W n.{i+1}, {t})'
    L.append(f'below W n = {t}'); L.append('')
    for f in exported:
        g=f.replace('.','-')
        L.append(f'pub linked-{g} : (W : World) → Needs-{c} W → HasT (in_world W) true s-{g}.code')
        L.append(f'unfolding Needs-{c} table-{c}')
        L.append(f'linked-{g} W n = link.linked-{c}::{f.replace(".","::")} W n.0 (below W n)'); L.append('')
    p=f'{dst}/crates/{c}/proofs'
    if not os.path.isdir(f'{dst}/crates/{c}'): continue
    os.makedirs(p,exist_ok=True)
    open(p+'/Linked.antt','w').write('\n'.join(L))
    lib=p+'/Lib.antt'
    s=open(lib).read() if os.path.exists(lib) else ''
    if 'pub mod Linked' not in s: open(lib,'w').write(s+('' if not s or s.endswith('\n') else '\n')+'pub mod Linked\n')
for c in order:
    if c not in has: print('no functions:',c, reach[c])
w=reach[top]
print(len(w),'crates with tables')
bad=[(c,d) for c in has for d,f in info[c][1] if d not in deps[c]]
print('calls beyond direct deps:',sorted(set(bad)))
print('odd names:',[o for c in has for o in info[c][0] if '+' in o or o.count('-')>3])

assert set(prov[top])==set(has),set(has)-set(prov[top])
names=[f'{k}-{x}' for x in has for k in ('table','needs','Needs')]
W=["-- The tables of all the crates of the entries' code: a world in which a link finds the code of each.",
"use mathlib.Core.Path.{refl}","use mathlib.Core.List.{[], ◌∷◌}","use lib.Chars.{codes}","use prog.Linked.{World}",
f"use Rattle.{top}.proofs.Linked.{{"+', '.join(names)+"}","",
"pub world : World","world ="]
for x in has: W.append(f'    (codes "{x}", table-{x}) ∷')
W[-1]+=' []'; W.append('')
for x in has:
    ds=dsof[x]
    W+=[f"{'pub ' if x==top else ''}there-{x} : Needs-{x} world","unfolding world",f"there-{x} = needs-{x} world refl"+''.join(f' there-{d}' for d in ds),'']
p=f'{dst}/crates/{top}/proofs'
if os.path.isdir(p):
    open(p+'/World.antt','w').write('\n'.join(W))
    s=open(p+'/Lib.antt').read()
    if 'World' not in s: open(p+'/Lib.antt','w').write(s+'pub mod World\n')
