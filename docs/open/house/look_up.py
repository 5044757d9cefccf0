#!/usr/bin/env python3
"""static.py TOP: what imports name that is not there"""
import os,re,sys
from collections import defaultdict
top=sys.argv[1]; crates=f"{top}/crates"
deps={}
for l in open(f"{top}/crates.txt"):
    l=l.split("#")[0]
    if ":" in l:
        a,b=l.split(":",1); deps[a.split()[0]]=b.split()
bad=0
def say(*x):
    global bad; bad+=1
    if bad<60: print(*x)
exports,mods,defs={}, {}, {}
def below(n,seen):
    for d in deps.get(n,[]):
        if d in deps and d not in seen: seen.add(d); below(d,seen)
    return seen
for c in deps:
    p=f"{crates}/{c}/src/lib.rt"
    t=open(p).read() if os.path.isfile(p) else open(f"{crates}/{c}/src/main.rt").read()
    exports[c]=set(re.findall(r"\bpub (?:fn|struct|enum|trait|const|type) (\w+)",t))
    mods[c]=set(re.findall(r"(?m)^(?:pub )?mod (\w+);",t))
    for x in re.finditer(r"(?ms)^pub use ([\w:]+)::(\{[^}]*\}|\w+);",t):
        body=x[2].strip("{}")
        for it in body.split(","):
            it=it.strip()
            if it: exports[c].add(it.split(" as ")[-1].strip())
        first=x[1].split("::")[0]
        if first not in mods[c] and first not in deps[c] and first!="crate": say(c,"lib.rt: pub use of",first)
        if first in mods[c]:
            src=open(f"{crates}/{c}/src/{first}.rt").read()
            for it in body.split(","):
                it=it.strip().split(" as ")[0]
                if it and not re.search(rf"\b(fn|struct|enum|trait|const|type) {it}\b",src) and not re.search(rf"pub use [^;]*\b{it}\b",src): say(c,"lib.rt:",first,"has no",it)
    have={f[:-3] for f in os.listdir(f"{crates}/{c}/src") if f.endswith(".rt")}-{"lib","main"}
    if have!=mods[c]: say(c,"modules",have^mods[c])
    for part in("specs","proofs"):
        d=f"{crates}/{c}/{part}"
        if not os.path.isdir(d): continue
        have={f[:-5] for f in os.listdir(d) if f.endswith(".antt")}-{"Lib"}
        lib=set(re.findall(r"(?m)^(?:pub )?mod (\w+)",open(f"{d}/Lib.antt").read())) if os.path.isfile(f"{d}/Lib.antt") else set()
        if have!=lib: say(c,part,"Lib",have^lib)
text={}
def defines(c,part,f):
    k=(c,part,f)
    if k not in defs:
        p=f"{crates}/{c}/{part}/{f}.antt"
        defs[k]=open(p).read() if os.path.isfile(p) else None
    return defs[k]
for c in deps:
    down=below(c,set())|{c}
    for r,ds,fs in os.walk(f"{crates}/{c}"):
        ds[:]=[d for d in ds if d!="out"]
        for f in fs:
            if not f.endswith((".rt",".antt",".edit")): continue
            p=os.path.join(r,f); t=open(p).read(); rel=os.path.relpath(p,crates)
            for x in re.finditer(r"\bRattle\.(\w+)\.(specs|proofs)\.([\w.+·'-]+?)(?:\.\{([^}]*)\}|(?=[\s,;)]| as |$))",t):
                k,part,path,names=x.groups()
                if k not in deps: 
                    if k not in("std","core","std_alloc","std_collections","std_heap","std_io","logic","io","os","libc","alloc","indexmap","memchr","itoa","thiserror"): say(rel,"unknown crate",k)
                    continue
                if k not in down: say(rel,"not below:",k); continue
                ps=path.split(".")
                if part=="specs" and ps[0] in("declared","contracts"):
                    if len(ps)>1 and ps[1] not in mods[k] and ps[1] not in exports[k]: say(rel,"no module",x[0][:90])
                    continue
                if ps[0][:1].isupper():
                    d=defines(k,part,ps[0])
                    if d is None: say(rel,"no file",x[0][:90]); continue
                    for n in (names or "").split(","):
                        n=n.strip().split(" as ")[0].strip()
                        if n and not n.startswith("◌") and n.strip("«»") not in d: say(rel,"no name",n,"in",k,part,ps[0])
                elif part=="proofs" and ps[0].lstrip("+") not in mods[k] and not ps[0].startswith("+"): say(rel,"no module",x[0][:90])
            if f.endswith(".rt"):
                seen=defaultdict(list)
                root = f in("lib.rt","main.rt")
                for x in re.finditer(r"(?ms)^\s*(?:pub )?use (\w+)((?:::\w+)*)::(\{[^}]*\}|\w+)( as \w+)?;",t):
                    k,mid,body,al=x.groups()
                    its=[i.strip() for i in body.strip("{}").replace("\n"," ").split(",") if i.strip()]
                    for i in its: 
                        n=(al or "").replace(" as ","").strip() or i.split(" as ")[-1].strip()
                        if not(root and x[0].lstrip().startswith("pub")): seen[n].append(k+mid)
                    if root and k in mods[c]: continue
                    owner=c if k=="crate" else k
                    if k not in deps and k!="crate": continue
                    if k!="crate" and k not in deps[c]: say(rel,"no direct dependency",k)
                    if mid:
                        m=mid.split("::")[1]
                        if owner==c and m not in mods[c]: say(rel,"no module",m)
                        if owner==c and m in mods[c]:
                            s=open(f"{crates}/{c}/src/{m}.rt").read()
                            for i in its:
                                i=i.split(" as ")[0]
                                if not re.search(rf"\b{i}\b",s): say(rel,m,"has no",i)
                    else:
                        for i in its:
                            i=i.split(" as ")[0]
                            if i in("self",): continue
                            if i not in exports[owner] and not (owner==c and i in mods[c]): say(rel,owner,"exports no",i)
                for n,ks in seen.items():
                    if len(ks)>1 and n!="_": say(rel,n,"is imported twice, from",ks)
                for x in re.finditer(r"(?<![\w:.])(\w+)::(\w+)",re.sub(r"(?m)//.*$","",t)):
                    k,i=x.groups()
                    if k in deps and k not in mods[c] and k not in deps[c] and k!=c and not re.search(rf"\b{k}:",t.split(x[0])[0][-1:]): say(rel,"path to",k,"which is no dependency")
                    if k=="crate" and i not in("specs","proofs") and i not in mods[c] and i not in exports[c]: say(rel,"crate::",i,"is not there")
                    if k in deps and k in deps[c] and i not in exports[k] and i not in("specs","proofs"): say(rel,k,"exports no",i)
                if len(t.split("\n"))>800: say(rel,"has more than 800 lines")
            if f.endswith(".edit"):
                for x in re.finditer(r"(?m)^file: (\S+)",t):
                    if not os.path.isfile(f"{crates}/{c}/{x[1]}"): say(rel,"no file",x[1])
print("static: found",bad)
