#!/usr/bin/env python3
"""chains.py TOP TABLE [-v]: cycles, the number of crates, functions, and the seconds of the longest chains, for a table of joined crates."""
import re,sys,os,subprocess
top=os.path.realpath(sys.argv[1])
deps={};order=[]
for l in open(f"{top}/crates.txt"):
    l=l.split("#")[0]
    if ":" in l:
        a,b=l.split(":",1); n=a.split()[0]; deps[n]=[x for x in b.split() if x not in ("thiserror","memchr","itoa","indexmap")]; order.append(n)
secs={}
for m in re.finditer(r"`(\w+)` (\d+)", open(f"{top}/docs/STATUS.md").read().split("## What a check costs")[1]): secs.setdefault(m[1], int(m[2]))
def count(n):
    f=p=0
    for r,_,fs in os.walk(f"{top}/crates/{n}"):
        if "/out" in r: continue
        for x in fs:
            t=open(os.path.join(r,x),errors="replace").read()
            if x.endswith(".rt"): f+=len(re.findall(r"\bfn \w",t))
            if x.endswith(".antt") and "/proofs" in r: p+=t.count("\n")
    return f,p
cache={n:count(n) for n in order}
isdef=lambda n: n.endswith(("_model","_laws","_law","_examples","_numbers")) or n in ("same_trees","class_chains","resolved_traces","unfolded_calls","unfolded_places","kept_runs","rule_kept","certified_rules","text_steps","action_numbers","matched_histories","new_names","file_rereading","kernel_image","remade_plans","refusal_witnesses","commands","plans","patterns","parse_events","bound_model","live_slots","shown_logs","browse_promises","browse_laws","format_laws")
def c(n):
    if n in secs: return secs[n]
    f,p=cache[n]
    if n=="class_table": return secs[n]
    if isdef(n): return round(7+p/250)
    return round(7+1.1*f)
groups={}
if len(sys.argv)>2:
    for l in open(sys.argv[2]):
        l=l.split("#")[0].strip()
        if l and "->" not in l and "=>" not in l:
            t,ms=l.split(":"); assert t.strip() not in groups,t; groups[t.strip()]=ms.split()
target={}
for t,ms in groups.items():
    for m in ms:
        assert m in deps,(t,m); assert m not in target,m; target[m]=t
for t in groups:
    assert t not in deps or target.get(t)==t,(t,"is a crate of its own")
names=list(dict.fromkeys(target.get(n,n) for n in order))
mem={n:groups.get(n,[n]) for n in names}
nd={n:list(dict.fromkeys(target.get(d,d) for m in mem[n] for d in deps[m] if target.get(d,d)!=n)) for n in names}
LOAD=5
cost={n:sum(c(m) for m in mem[n])-LOAD*(len(mem[n])-1) for n in names}
# cycles
state={}
def visit(n,path):
    if state.get(n)==2: return
    if state.get(n)==1:
        i=path.index(n); cyc=path[i:]+[n]
        print("CYCLE"," > ".join(cyc))
        for a,b in zip(cyc,cyc[1:]):
            print("   ",a,">",b,":",[(m,d) for m in mem[a] for d in deps[m] if target.get(d,d)==b][:6])
        raise SystemExit
    state[n]=1
    for d in nd[n]: visit(d,path+[n])
    state[n]=2
for n in names: visit(n,[])
memo={}
def chain(n):
    if n in memo: return memo[n]
    best=(0,[])
    for d in nd[n]:
        x=chain(d)
        if x[0]>best[0]: best=x
    memo[n]=(best[0]+cost[n],best[1]+[n]); return memo[n]
up={}
users={n:[m for m in names if n in nd[m]] for n in names}
def tail(n):
    if n not in up: up[n]=max([tail(u)+cost[u] for u in users[n]],default=0)
    return up[n]
L=max(chain(n)[0] for n in names)
print("crates",len(names),"total",sum(cost.values()),"longest",L)
ends=sorted([n for n in names if not users[n]],key=lambda n:-chain(n)[0])
for e in ends[:5]: print(e,chain(e)[0],[(x,cost[x]) for x in chain(e)[1]])
if "-v" in sys.argv:
    for n in names:
        f=sum(cache[m][0] for m in mem[n]); 
        print(f"{n:22} fn={f:4} sec={cost[n]:4} ends={chain(n)[0]:5} slack={L-chain(n)[0]-tail(n):5}  {' '.join(mem[n]) if len(mem[n])>1 else ''}")
if "-d" in sys.argv:
    for n in sys.argv[sys.argv.index("-d")+1:]: print(n,":",nd[n],"used by",users[n])
