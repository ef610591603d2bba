"""A second implementation of the builtins (docs/BUILTINS.md) on the values of model.py: what it says of each case of a table of builtins."""
import sys, json, re
from fractions import Fraction
import model
from model import Undef,UNDEF,Safe,Lst,Tup,Seq,Pairs,Map,Kw,Module,Func,Ns,LoopV,MacroV,Fault,order,Key,plain,is_whole,is_text,HTML,WHITE
def bad(): return Fault("InvalidOperation")
class Absent: pass
ABS=Absent()
def ready(run,v,modes):
    if isinstance(v,Undef) and not v.silent and run.undefined in modes: raise Fault("UndefinedError")
SEMI=("semi_strict","strict"); STRICT=("strict",)
def no_records(v):
    if isinstance(v,(Ns,LoopV,MacroV)): raise bad()
    if isinstance(v,Seq):
        for x in v.items: no_records(x)
    if isinstance(v,Pairs) and not isinstance(v,Module):
        for k,x in v.pairs: no_records(k); no_records(x)
def text(run,v):
    ready(run,v,SEMI); no_records(v)
    return model.printed(v,run)
def items(run,v):
    ready(run,v,SEMI)
    if isinstance(v,Undef) or v is None: return []
    if isinstance(v,Seq): return list(v.items)
    if isinstance(v,Pairs): return [k for k,_ in v.pairs]
    if is_text(v): return list(plain(v))
    raise bad()
def true(run,v):
    ready(run,v,STRICT)
    if isinstance(v,(Ns,LoopV,MacroV)): raise bad()
    return model.truth(v,run)
def arguments(names,needed,vs):
    vs=list(vs); kw=[]
    if vs and isinstance(vs[-1],Kw): kw=vs.pop().pairs
    if len(vs)>len(names): raise Fault("TooManyArguments")
    got=vs+[ABS]*(len(names)-len(vs))
    for k,x in kw:
        if k not in names: raise Fault("TooManyArguments")
        i=names.index(k)
        if got[i] is not ABS: raise Fault("TooManyArguments")
        got[i]=x
    for i in range(needed):
        if got[i] is ABS: raise Fault("MissingArgument")
    return got
def positional(vs):
    if vs and isinstance(vs[-1],Kw) and vs[-1].pairs: raise Fault("TooManyArguments")
    return [v for v in vs if not isinstance(v,Kw)]
def flag(run,a,default):
    return default if a is ABS else true(run,a)
def number(a,default):
    if a is ABS: return default
    if not is_whole(a): raise bad()
    return a
def maybe(a,default=None):
    """A number where none is the default."""
    if a is ABS or a is None: return default
    return number(a,default)
def width(n):
    n=max(0,n)
    if n>1<<24: raise bad()
    return n
def is_path(p):
    if not(is_text(p) or is_whole(p)): raise bad()
def path_arg(a):
    if a is ABS or a is None: return None
    is_path(a); return a
def step(run,v,part,by_number):
    if isinstance(v,Undef):
        if run.undefined=="chainable": return UNDEF
        raise Fault("UndefinedError")
    if isinstance(v,(Ns,LoopV,MacroV)): raise bad()
    if by_number:
        seq=v.items if isinstance(v,Seq) else list(plain(v)) if is_text(v) else None
        if seq is not None:
            return seq[part] if -len(seq)<=part<len(seq) else UNDEF
        if isinstance(v,Pairs):
            x=v.get(part); return UNDEF if x is None and not any(order(k,part)==0 for k,_ in v.pairs) else x
        return UNDEF
    if isinstance(v,Pairs):
        for k,x in v.pairs:
            if is_text(k) and k==part: return x
    return UNDEF
def part(run,v,p,default=None):
    """The part at a path."""
    try:
        if is_whole(p): out=step(run,v,p,True)
        else:
            out=v
            for q in plain(p).split('.'):
                out=step(run,out,int(q),True) if q and all(c in '0123456789' for c in q) else step(run,out,q,False)
    except Fault as f:
        if f.kinds==["UndefinedError"] and default is not None: return default
        raise
    if isinstance(out,Undef) and default is not None: return default
    return out
def lowered(s): return s.lower()
def fold(v,cs):
    return v if cs or not is_text(v) else lowered(plain(v))
def keyed(run,v,cs,p):
    return [(fold(x if p is None else part(run,x,p),cs),x) for x in items(run,v)]
def puts(run,*vs):
    """Whether the pieces are put together as HTML."""
    return run.escape=="Html" and any(isinstance(v,Safe) for v in vs)
def esc(s): return "".join(HTML.get(c,c) for c in s)
def piece(v,s,html): return s if not html or isinstance(v,Safe) else esc(s)
def kept(v,s): return Safe(s) if isinstance(v,Safe) else s
F={}; T={}
def filt(*names):
    def on(f):
        for n in names: F[n]=f
        return f
    return on
def test(*names):
    def on(f):
        for n in names: T[n]=f
        return f
    return on
@filt('default','d')
def _(run,v,vs):
    d,b=arguments(['default_value','boolean'],0,vs)
    d="" if d is ABS else d
    if isinstance(v,Undef): return d
    if flag(run,b,False) and not true(run,v): return d
    return v
@filt('length','count')
def _(run,v,vs): arguments([],0,vs); return len(items(run,v))
@filt('join')
def _(run,v,vs):
    d,a=arguments(['d','attribute'],0,vs); d="" if d is ABS else d
    xs=items(run,v); ds=text(run,d); p=path_arg(a)
    xs=[x if p is None else part(run,x,p) for x in xs]
    html=puts(run,d,*xs)
    out=piece(d,ds,html).join(piece(x,text(run,x),html) for x in xs)
    return Safe(out) if html else out
@filt('safe')
def _(run,v,vs): arguments([],0,vs); return Safe(text(run,v))
def escape_it(run,v):
    if run.escape=="Json": 
        ready(run,v,SEMI); no_records(v); return Safe(model.json_of(plain(v) if is_text(v) else v,run))
    return Safe(esc(text(run,v)))
@filt('escape','e')
def _(run,v,vs):
    arguments([],0,vs)
    return v if isinstance(v,Safe) else escape_it(run,v)
@filt('forceescape')
def _(run,v,vs): arguments([],0,vs); return escape_it(run,v)
@filt('string')
def _(run,v,vs): arguments([],0,vs); return kept(v,text(run,v))
@filt('upper')
def _(run,v,vs): arguments([],0,vs); return kept(v,text(run,v).upper())
@filt('lower')
def _(run,v,vs): arguments([],0,vs); return kept(v,text(run,v).lower())
@filt('capitalize')
def _(run,v,vs): arguments([],0,vs); s=text(run,v); return kept(v,s[:1].upper()+s[1:].lower())
@filt('title')
def _(run,v,vs):
    arguments([],0,vs); s=text(run,v); out=""; words=[]; word=""
    for c in s:
        if c in WHITE or c in "-([{<":
            out+=word[:1].upper()+word[1:].lower()+c; word=""
        else: word+=c
    return kept(v,out+word[:1].upper()+word[1:].lower())
@filt('trim')
def _(run,v,vs):
    c,=arguments(['chars'],0,vs); s=text(run,v)
    cs=WHITE if c is ABS or c is None else text(run,c)
    return kept(v,s.strip(cs) if cs else s)
@filt('replace')
def _(run,v,vs):
    old,new,count=arguments(['old','new','count'],2,vs)
    s=text(run,v); o=text(run,old); n=text(run,new); c=maybe(count,-1)
    html=puts(run,v,new)
    if o=="":
        pieces=[""]+list(s)+[""]
        if s=="": pieces=["",""]
        k=len(pieces)-1 if c<0 else min(c,len(pieces)-1)
        # an empty one stands before each character and at the end
        chunks=pieces[:k]+["".join(pieces[k:])]
    else: chunks=s.split(o) if c<0 else s.split(o,c)
    out=piece(new,n,html).join(piece(v,x,html) for x in chunks)
    return Safe(out) if html else out
@filt('indent')
def _(run,v,vs):
    w,f,b=arguments(['width','first','blank'],0,vs)
    s=text(run,v)
    if w is not ABS and is_text(w): pre,html=plain(w),puts(run,v,w); keep=False
    else: pre,html=" "*width(number(w,4)),False; keep=True
    f=flag(run,f,False); b=flag(run,b,False)
    if not keep: pre=piece(w,pre,html)
    out=[]
    for i,l in enumerate(s.split("\n")):
        l=piece(v,l,html) if html else l
        out.append(pre+l if (i>0 or f) and (l or b) else l)
    r="\n".join(out)
    return Safe(r) if html or (keep and isinstance(v,Safe)) else r
@filt('center')
def _(run,v,vs):
    w,=arguments(['width'],0,vs); s=text(run,v); w=width(number(w,80))
    return kept(v,s.center(w))
@filt('truncate')
def _(run,v,vs):
    n,k,e,l=arguments(['length','killwords','end','leeway'],0,vs)
    s=text(run,v); n=number(n,255); k=flag(run,k,False); e="..." if e is ABS else e; es=text(run,e); l=number(l,5)
    if len(es)>n or l<0: raise bad()
    if len(s)<=n+l: return v if is_text(v) else s
    h=s[:n-len(es)]
    if not k and " " in h: h=h[:h.rindex(" ")]
    html=puts(run,v,e); out=piece(v,h,html)+piece(e,es,html)
    return Safe(out) if html else out
@filt('wordwrap')
def _(run,v,vs):
    w,b,ws=arguments(['width','break_long_words','wrapstring'],0,vs)
    s=text(run,v); w=max(1,number(w,79)); b=flag(run,b,True); ws="\n" if ws is ABS else ws; wt=text(run,ws)
    import textwrap
    lines=[]
    for line in rust_lines(s):
        tw=textwrap.TextWrapper(width=w,expand_tabs=False,replace_whitespace=False,break_long_words=b,break_on_hyphens=False)
        lines+= [x.rstrip(" \t\n\x0b\x0c\r") for x in tw.wrap(line)] or [""]
    html=puts(run,v,ws); out=piece(ws,wt,html).join(piece(v,x,html) for x in lines)
    return Safe(out) if html else out
def rust_lines(s):
    ls=s.split("\n")
    if ls and ls[-1]=="": ls.pop()
    else: return [l[:-1] if l.endswith("\r") and i<len(ls)-1 else l for i,l in enumerate(ls)]
    return [l[:-1] if l.endswith("\r") else l for l in ls]
@filt('wordcount')
def _(run,v,vs): arguments([],0,vs); return len(re.findall(r"\w+",text(run,v)))
@filt('striptags')
def _(run,v,vs):
    arguments([],0,vs); s=text(run,v)
    def cut(s,a,z):
        out="";i=0
        while True:
            j=s.find(a,i)
            if j<0: return out+s[i:]
            k=s.find(z,j+len(a))
            if k<0: return out+s[i:]
            out+=s[i:j]; i=k+len(z)
    s=cut(cut(s,"<!--","-->"),"<",">")
    s=" ".join(x for x in re.split("["+WHITE+"]+",s) if x)
    ents={"&lt;":"<","&gt;":">","&amp;":"&","&quot;":'"',"&#34;":'"',"&#39;":"'","&#x27;":"'","&#x2f;":"/"}
    return re.sub("|".join(map(re.escape,ents)),lambda m:ents[m[0]],s)
JSONNUM=re.compile(r"-?(0|[1-9][0-9]*)(\.[0-9]+)?([eE][+-]?[0-9]+)?$")
def decimal(s):
    s=s.strip(WHITE); m=JSONNUM.match(s)
    if not m or s.endswith("\n"): return None
    if m[3] and not -40<=int(m[3][1:])<=40: return None
    return Fraction(s)
def rounded(x,p,method):
    """x to 10^-p"""
    y=x*Fraction(10)**p
    import math
    if method=="floor": n=math.floor(y)
    elif method=="ceil": n=math.ceil(y)
    else: n=math.floor(abs(y)+Fraction(1,2)); n=-n if y<0 else n
    return n
def digits(n,p):
    """n * 10^-p written out with p digits"""
    s=str(abs(n)).rjust(p+1,"0"); sign="-" if n<0 else ""
    return sign+(s[:-p]+"."+s[-p:] if p else s)
@filt('format')
def _(run,v,vs):
    s=text(run,v); args=list(vs)
    if args and isinstance(args[-1],Kw): raise Fault("TooManyArguments")
    out="";i=0;used=0
    def nxt():
        nonlocal used
        if used>=len(args): raise bad()
        used+=1; return args[used-1]
    while i<len(s):
        if s[i]!="%": out+=s[i]; i+=1; continue
        m=re.compile(r"%([-0+# ]*)([0-9]*)(?:\.([0-9]*))?(.)",re.S).match(s,i)
        if not m: raise bad()
        fl,w,p,c=m.groups(); i=m.end()
        if c=="%": out+="%"; continue
        if c in "eEgG": raise Fault("NoFloats")
        if (w and int(w)>1<<24) or (p and int(p)>1<<24): raise bad()
        spec="%"+fl+w+("."+p if p is not None else "")
        if c=="s": out+=(spec+"s")%text(run,nxt())
        elif c in "dixXo":
            a=nxt()
            if not is_whole(a): raise bad()
            out+=(spec+c)%a
        elif c=="c":
            a=nxt()
            if is_text(a) and len(a)==1: a=plain(a)
            elif not is_whole(a): raise bad()
            out+=("%"+fl+w+"c")%a
        elif c in "fF":
            a=nxt()
            x=Fraction(a) if is_whole(a) else decimal(a) if is_text(a) else None
            if x is None: raise bad()
            pr=6 if p is None else int(p or 0)
            d=digits(rounded(x,pr,"common"),pr)
            sign=""
            if d.startswith("-"): sign,d="-",d[1:]
            elif "+" in fl: sign="+"
            elif " " in fl: sign=" "
            wd=int(w or 0)
            if "-" in fl: out+=(sign+d).ljust(wd)
            elif "0" in fl: out+=sign+d.rjust(wd-len(sign),"0")
            else: out+=(sign+d).rjust(wd)
        else: raise bad()
    if used<len(args): raise bad()
    return out
def quote(s,keep): 
    return "".join(chr(c) if chr(c).isascii() and (chr(c).isalnum() or chr(c) in keep) else "%%%02X"%c for c in s.encode())
@filt('urlencode')
def _(run,v,vs):
    arguments([],0,vs); ready(run,v,SEMI)
    if isinstance(v,Pairs): ps=v.pairs
    elif isinstance(v,Seq):
        ps=[]
        for x in v.items:
            if not isinstance(x,Seq) or len(x.items)!=2: raise bad()
            ps.append(tuple(x.items))
    else: return quote(text(run,v),"_.-~/")
    return "&".join(quote(text(run,k),"_.-~")+"="+quote(text(run,x),"_.-~") for k,x in ps)
@filt('pprint')
def _(run,v,vs): arguments([],0,vs); no_records(v); return model.inner_printed(v,run,500)
def jsafe(s): return s.replace("<","\\u003c").replace(">","\\u003e").replace("&","\\u0026").replace("'","\\u0027")
@filt('tojson')
def _(run,v,vs):
    a,=arguments(['indent'],0,vs); ready(run,v,SEMI); n=maybe(a)
    if n is not None: n=width(n)
    no_records(v); s=model.json_of(v,run)
    if n is not None:
        s=json.dumps(json.loads(s,object_pairs_hook=dict),ensure_ascii=False,indent=n)
    return Safe(jsafe(s))
@filt('xmlattr')
def _(run,v,vs):
    a,=arguments(['autospace'],0,vs)
    if not isinstance(v,Pairs): raise bad()
    a=flag(run,a,True); out=[]
    for k,x in v.pairs:
        if x is None or isinstance(x,Undef): continue
        ks=text(run,k)
        if any(c in WHITE or c in "/>=" for c in ks): raise bad()
        out.append(piece(k,ks,True)+'="'+piece(x,text(run,x),True)+'"')
    s=" ".join(out)
    return Safe(" "+s if a and s else s)
def splits(s,sep,n,right=False):
    return (s.rsplit if right else s.split)(sep,n)
def white_split(s,n):
    out=[]; s=s.lstrip(WHITE)
    while s:
        if n==0: out.append(s.rstrip(WHITE)); break
        i=next((i for i,c in enumerate(s) if c in WHITE),len(s))
        out.append(s[:i]); s=s[i:].lstrip(WHITE); n-=1
    return out
def white_split_last(s,n):
    out=[]; s=s.lstrip(WHITE)
    while s:
        if n==0: out.append(s); break
        i=next((i for i,c in enumerate(s) if c in WHITE),len(s))
        out.append(s[:i]); s=s[i:].lstrip(WHITE); n-=1
    return out
@filt('split')
def _(run,v,vs):
    sep,m=arguments(['sep','maxsplit'],0,vs); s=text(run,v)
    st=None if sep is ABS or sep is None else text(run,sep)
    n=number(m,-1)
    if st=="": raise bad()
    out=white_split_last(s,n) if st is None else s.split(st,max(n,-1))
    return Lst([kept(v,x) for x in out])
@filt('lines')
def _(run,v,vs): arguments([],0,vs); return Lst([kept(v,x) for x in rust_lines(text(run,v))])
@filt('abs')
def _(run,v,vs): arguments([],0,vs); return model.whole(abs(number(v,0)))
def read_int(s,base):
    t=s
    sign=1
    if t[:1] in("+","-"): sign=-1 if t[0]=="-" else 1; t=t[1:]
    pre={16:"0x",8:"0o",2:"0b"}.get(base)
    if pre and t[:2].lower()==pre: t=t[2:]; 
    if pre and t[:1]=="_" : t=t[1:] if False else t
    if not t or t[0]=="_" or t[-1]=="_" or "__" in t: return None
    n=0
    for c in t.replace("_",""):
        d="0123456789abcdefghijklmnopqrstuvwxyz".find(c.lower()) if c.isascii() else -1
        if d<0 or d>=base: return None
        n=n*base+d
    n*=sign
    return n if -(1<<127)<=n<1<<127 else None
@filt('int')
def _(run,v,vs):
    d,b=arguments(['default','base'],0,vs); b=number(b,10)
    if not 2<=b<=36: raise bad()
    d=0 if d is ABS else d
    if isinstance(v,bool): return int(v)
    if is_whole(v): return v
    if is_text(v):
        s=plain(v).strip(WHITE); n=read_int(s,b)
        if n is not None: return n
        if b==10:
            x=decimal(s)
            if x is not None:
                n=int(x)
                if -(1<<127)<=n<1<<127: return n
    return d
@filt('round')
def _(run,v,vs):
    p,m=arguments(['precision','method'],0,vs)
    if is_whole(v): x=None
    elif is_text(v) and decimal(v) is not None: x=decimal(v)
    else: raise bad()
    p=number(p,0); m="common" if m is ABS else m
    if not is_text(m) or m not in("common","ceil","floor"): raise bad()
    if x is None:
        return v if p>=0 else model.whole(rounded(Fraction(v),p,m)*10**-p)
    n=rounded(x,p,m)
    if p<=0: return str(n*10**-p)+".0"
    s=digits(n,p).rstrip("0")
    return s+"0" if s.endswith(".") else s
@filt('filesizeformat')
def _(run,v,vs):
    b,=arguments(['binary'],0,vs); n=number(v,0); b=flag(run,b,False)
    base=1024 if b else 1000
    if n<base: return "1 Byte" if n==1 else "%d Bytes"%n
    units=["KiB","MiB","GiB","TiB","PiB","EiB","ZiB","YiB"] if b else ["kB","MB","GB","TB","PB","EB","ZB","YB"]
    for i,u in enumerate(units):
        if n<base**(i+2) or i==7: return digits(rounded(Fraction(n,base**(i+1)),1,"common"),1)+" "+u
@filt('sum')
def _(run,v,vs):
    a,s=arguments(['attribute','start'],0,vs); xs=items(run,v); p=path_arg(a); t=0 if s is ABS else s
    for x in xs: t=model.operated("+",t,x if p is None else part(run,x,p),run)
    return t
@filt('list')
def _(run,v,vs): arguments([],0,vs); return Lst(items(run,v))
@filt('first')
def _(run,v,vs): arguments([],0,vs); xs=items(run,v); return xs[0] if xs else UNDEF
@filt('last')
def _(run,v,vs): arguments([],0,vs); xs=items(run,v); return xs[-1] if xs else UNDEF
@filt('reverse')
def _(run,v,vs):
    arguments([],0,vs)
    if is_text(v): return kept(v,plain(v)[::-1])
    return Lst(items(run,v)[::-1])
@filt('sort')
def _(run,v,vs):
    r,c,a=arguments(['reverse','case_sensitive','attribute'],0,vs)
    xs=items(run,v); r=flag(run,r,False); c=flag(run,c,False); p=path_arg(a)
    ps=[None] if p is None else [p] if is_whole(p) else plain(p).split(",")
    ks=[(Lst([fold(x if q is None else part(run,x,q),c) for q in ps]),x) for x in xs]
    return Lst([x for _,x in sorted(ks,key=lambda k:Key(k[0]),reverse=r)])
@filt('unique')
def _(run,v,vs):
    c,a=arguments(['case_sensitive','attribute'],0,vs); items(run,v); c=flag(run,c,False); p=path_arg(a)
    seen=[];out=[]
    for k,x in keyed(run,v,c,p):
        if not any(order(k,s)==0 for s in seen): seen.append(k); out.append(x)
    return Lst(out)
def extreme(sign):
    def f(run,v,vs):
        c,a=arguments(['case_sensitive','attribute'],0,vs); items(run,v); c=flag(run,c,False); p=path_arg(a)
        best=None
        for k,x in keyed(run,v,c,p):
            if best is None or order(k,best[0])*sign>0: best=(k,x)
        return UNDEF if best is None else best[1]
    return f
F['min']=extreme(-1); F['max']=extreme(1)
def counted(a):
    n=number(a,0)
    if not 1<=n<=100000: raise bad()
    return n
@filt('batch')
def _(run,v,vs):
    n,f=arguments(['linecount','fill_with'],1,vs); xs=items(run,v); n=counted(n); f=None if f is ABS else f
    out=[xs[i:i+n] for i in range(0,len(xs),n)]
    if out and f is not None: out[-1]+= [f]*(n-len(out[-1]))
    return Lst(map(Lst,out))
@filt('slice')
def _(run,v,vs):
    n,f=arguments(['slices','fill_with'],1,vs); xs=items(run,v); n=counted(n); f=None if f is ABS else f
    q,r=divmod(len(xs),n); out=[];i=0
    for k in range(n):
        l=q+(k<r); row=xs[i:i+l]; i+=l
        if f is not None and r and k>=r: row=row+[f]
        out.append(Lst(row))
    return Lst(out)
@filt('groupby')
def _(run,v,vs):
    a,d,c=arguments(['attribute','default','case_sensitive'],1,vs); xs=items(run,v); is_path(a); d=None if d is ABS else d; c=flag(run,c,False)
    ks=[(part(run,x,a,d),x) for x in xs]
    ks.sort(key=lambda k:Key(fold(k[0],c)))
    out=[]
    for k,x in ks:
        if out and order(fold(out[-1][0],c),fold(k,c))==0: out[-1][1].append(x)
        else: out.append((k,[x]))
    return Lst([Tup([k,Lst(l)]) for k,l in out])
@filt('map')
def _(run,v,vs):
    vs=list(vs); pos=[x for x in vs if not isinstance(x,Kw)]; kw=[x for x in vs if isinstance(x,Kw)]
    if not pos:
        names=['attribute','default']
        if not kw or not any(k=='attribute' for k,_ in kw[0].pairs):
            raise Fault("MissingArgument") if not kw else Fault("MissingArgument")
        for k,_ in kw[0].pairs:
            if k not in names: raise Fault("TooManyArguments")
        xs=items(run,v); a=kw[0].get('attribute'); is_path(a); d=kw[0].get('default')
        return Lst([part(run,x,a,d) for x in xs])
    xs=items(run,v)
    if not is_text(pos[0]): raise bad()
    if pos[0] not in F: raise Fault("UnknownFilter")
    return Lst([F[pos[0]](run,x,pos[1:]+kw) for x in xs])
def tested(run,pos,kw):
    if not pos or (pos[0] is None and len(pos)==1 and not kw): return lambda x: true(run,x)
    if not is_text(pos[0]): raise bad()
    if pos[0] not in T: raise Fault("UnknownTest")
    return lambda x: T[pos[0]](run,x,pos[1:]+kw)
def choosing(holds,attr):
    def f(run,v,vs):
        pos=[x for x in vs if not isinstance(x,Kw)]; kw=[x for x in vs if isinstance(x,Kw)]
        if attr and not pos: raise Fault("MissingArgument")
        xs=items(run,v); p=None
        if attr: p=pos.pop(0); is_path(p)
        t=tested(run,pos,kw)
        return Lst([x for x in xs if bool(t(part(run,x,p) if attr else x))==holds])
    return f
F['select']=choosing(True,False);F['reject']=choosing(False,False);F['selectattr']=choosing(True,True);F['rejectattr']=choosing(False,True)
@filt('items')
def _(run,v,vs):
    arguments([],0,vs); ready(run,v,SEMI)
    if isinstance(v,Undef): return Lst([])
    if not isinstance(v,Pairs): raise bad()
    return Lst([Tup(p) for p in v.pairs])
@filt('dictsort')
def _(run,v,vs):
    c,b,r=arguments(['case_sensitive','by','reverse'],0,vs)
    if not isinstance(v,Pairs): raise bad()
    c=flag(run,c,False); b="key" if b is ABS else b
    if not is_text(b) or b not in("key","value"): raise bad()
    r=flag(run,r,False); i=0 if b=="key" else 1
    return Lst([Tup(p) for p in sorted(v.pairs,key=lambda p:Key(fold(p[i],c)),reverse=r)])
@filt('zip')
def _(run,v,vs): vs=positional(vs); return Lst([Tup(t) for t in zip(*[items(run,x) for x in [v]+vs])])
@filt('chain')
def _(run,v,vs): vs=positional(vs); return Lst([x for l in [v]+vs for x in items(run,l)])
@filt('attr')
def _(run,v,vs):
    n,=arguments(['name'],1,vs)
    if isinstance(v,(Ns,LoopV,MacroV)): raise bad()
    if not is_text(n): raise bad()
    return step(run,v,n,False)
@filt('bool')
def _(run,v,vs): arguments([],0,vs); return true(run,v)
def kind(name,f):
    def t(run,v,vs): arguments([],0,vs); return f(v)
    T[name]=t
kind('defined',lambda v:not isinstance(v,Undef)); kind('undefined',lambda v:isinstance(v,Undef)); kind('none',lambda v:v is None)
kind('boolean',lambda v:isinstance(v,bool)); kind('true',lambda v:v is True); kind('false',lambda v:v is False)
kind('integer',is_whole); kind('number',is_whole); kind('float',lambda v:False); kind('string',is_text); kind('bytes',lambda v:False)
kind('sequence',lambda v:isinstance(v,Seq) or is_text(v)); kind('mapping',lambda v:isinstance(v,(Pairs,Ns)))
kind('iterable',lambda v:isinstance(v,(Seq,Pairs,Ns)) or is_text(v)); kind('callable',lambda v:isinstance(v,(Func,MacroV,LoopV)))
kind('safe',lambda v:isinstance(v,Safe)); kind('escaped',lambda v:isinstance(v,Safe))
kind('lower',lambda v:is_text(v) and any(c.islower() for c in v) and not any(c.isupper() for c in v))
kind('upper',lambda v:is_text(v) and any(c.isupper() for c in v) and not any(c.islower() for c in v))
kind('filter',lambda v:is_text(v) and v in F); kind('test',lambda v:is_text(v) and v in T)
def same(a,b):
    if type(a) is not type(b): return False
    if isinstance(a,Seq): return len(a.items)==len(b.items) and all(same(x,y) for x,y in zip(a.items,b.items))
    if isinstance(a,Pairs): return len(a.pairs)==len(b.pairs) and all(same(k,l) and same(x,y) for (k,x),(l,y) in zip(a.pairs,b.pairs))
    return order(a,b)==0
@test('sameas')
def _(run,v,vs): o,=arguments(['other'],1,vs); return same(v,o)
@test('odd')
def _(run,v,vs): arguments([],0,vs); return number(v,0)%2==1
@test('even')
def _(run,v,vs): arguments([],0,vs); return number(v,0)%2==0
@test('divisibleby')
def _(run,v,vs):
    n,=arguments(['num'],1,vs); v=number(v,0); n=number(n,0)
    if n==0: raise bad()
    return v%n==0
@test('startingwith')
def _(run,v,vs): o,=arguments(['s'],1,vs); return text(run,v).startswith(text(run,o))
@test('endingwith')
def _(run,v,vs): o,=arguments(['s'],1,vs); return text(run,v).endswith(text(run,o))
def opr(op,*names):
    def t(run,v,vs):
        o,=arguments(['other'],1,vs); ready(run,v,STRICT); ready(run,o,STRICT); return model.compared(op,v,o,run)
    for n in names: T[n]=t
opr("==","eq","==","equalto");opr("!=","ne","!=");opr("<","lt","<","lessthan");opr("<=","le","<=");opr(">","gt",">","greaterthan");opr(">=","ge",">=")
@test('in')
def _(run,v,vs):
    o,=arguments(['seq'],1,vs); ready(run,v,STRICT); ready(run,o,SEMI)
    return model.contained(v,o,run)
# methods
def only_text(*vs):
    for v in vs:
        if not is_text(v): raise bad()
def formatted(run,s,vs):
    kw={}
    vs=list(vs)
    if vs and isinstance(vs[-1],Kw): kw={plain(k):x for k,x in vs.pop().pairs}
    out="";i=0;auto=0
    while i<len(s):
        c=s[i]
        if c=="{":
            if s[i+1:i+2]=="{": out+="{"; i+=2; continue
            j=s.find("}",i)
            if j<0: raise bad()
            field=s[i+1:j]; i=j+1
            if "{" in field: raise bad()
            name,_,spec=field.partition(":")
            if name=="": 
                if auto>=len(vs): raise bad()
                a=vs[auto]; auto+=1
            elif name.isdigit():
                if int(name)>=len(vs): raise bad()
                a=vs[int(name)]
            elif name in kw: a=kw[name]
            else: raise bad()
            m=re.fullmatch(r"(?:(.)?([<>^]))?(0)?([0-9]+)?([dxXobs])?",spec,re.S)
            if not m: raise bad()
            fill,al,zero,w,t=m.groups()
            if w and int(w)>1<<24: raise bad()
            if t in tuple("dxXob"):
                if not is_whole(a): raise bad()
                out+=format(a,spec)
            elif is_whole(a) and t is None: out+=format(a,spec)
            else: 
                p=text(run,a)
                if zero and not al: raise bad()
                out+=format(p,spec)
        elif c=="}":
            if s[i+1:i+2]=="}": out+="}"; i+=2; continue
            raise bad()
        else: out+=c; i+=1
    return out
def texts_method(run,name,s,vs):
    kws=[x for x in vs if isinstance(x,Kw)]
    if name=="format": return formatted(run,s,vs)
    if name in("split","rsplit"):
        sep,m=arguments(['sep','maxsplit'],0,vs); n=number(m,-1); sep=None if sep is ABS else sep
        if sep is not None: only_text(sep)
        if sep=="": raise bad()
        r=name=="rsplit"
        return Lst((s.rsplit if r else s.split)(sep,max(n,-1)))
    if kws: raise Fault("TooManyArguments")
    n=len(vs)
    sig={"upper":(0,0),"lower":(0,0),"title":(0,0),"swapcase":(0,0),"capitalize":(0,0),"strip":(0,1),"lstrip":(0,1),"rstrip":(0,1),"replace":(2,3),"splitlines":(0,0),"startswith":(1,1),"endswith":(1,1),"find":(1,1),"rfind":(1,1),"index":(1,1),"count":(1,1),"join":(1,1),"isdigit":(0,0),"isalpha":(0,0),"isalnum":(0,0),"isspace":(0,0),"islower":(0,0),"isupper":(0,0),"removeprefix":(1,1),"removesuffix":(1,1),"center":(1,2),"ljust":(1,2),"rjust":(1,2),"zfill":(1,1),"partition":(1,1),"rpartition":(1,1)}
    if name not in sig: raise Fault("UnknownMethod")
    lo,hi=sig[name]
    if n>hi: raise Fault("TooManyArguments")
    if n<lo: raise Fault("MissingArgument")
    if name=="capitalize": return s[:1].upper()+s[1:].lower()
    if name in("strip","lstrip","rstrip"):
        if vs and vs[0] is not None: only_text(vs[0])
        return getattr(s,name)(vs[0] if vs and vs[0] is not None else WHITE)
    if name=="replace":
        only_text(vs[0],vs[1]); return s.replace(vs[0],vs[1],number(vs[2] if n>2 else ABS,-1))
    if name=="splitlines": return Lst(rust_lines(s))
    if name in("startswith","endswith"):
        ps=[vs[0]] if is_text(vs[0]) else vs[0].items if isinstance(vs[0],Tup) else None
        if ps is None: raise bad()
        only_text(*ps); return any(getattr(s,name)(p) for p in ps)
    if name=="join":
        xs=items(run,vs[0]) if not (vs[0] is None) else (_ for _ in ()).throw(bad())
        only_text(*xs); return s.join(xs)
    if name in("center","ljust","rjust"):
        w=width(number(vs[0],0)); f=vs[1] if n>1 else " "; only_text(f)
        if len(f)!=1: raise bad()
        return getattr(s,name)(w,f)
    if name=="zfill": return s.zfill(width(number(vs[0],0)))
    if name in("partition","rpartition"):
        only_text(vs[0])
        if vs[0]=="": raise bad()
        return Tup(getattr(s,name)(vs[0]))
    if name in("find","rfind","index","count","removeprefix","removesuffix"):
        only_text(vs[0])
        try: return getattr(s,name)(plain(vs[0]))
        except ValueError: raise bad()
    return getattr(s,name)()
def method(run,v,name,vs):
    if is_text(v): return texts_method(run,name,plain(v),vs)
    if isinstance(v,(Map,Kw)):
        if name in("items","keys","values"):
            if vs: raise Fault("TooManyArguments")
            return Lst([Tup(p) if name=="items" else p[0] if name=="keys" else p[1] for p in v.pairs])
        if name=="get":
            for k,x in v.pairs:
                if order(k,vs[0])==0: return x
            return vs[1] if len(vs)>1 else None
    if isinstance(v,Seq):
        if name=="count": return sum(order(x,vs[0])==0 for x in v.items)
        if name=="index":
            for i,x in enumerate(v.items):
                if order(x,vs[0])==0: return i
            raise bad()
    raise Fault("UnknownMethod")
def apply_filter(self,name,vs):
    if name not in F: raise Fault("UnknownFilter")
    return F[name](self,vs[0],list(vs[1:]))
def perform_test(self,name,vs):
    if name not in T: raise Fault("UnknownTest")
    return bool(T[name](self,vs[0],list(vs[1:])))
def unknown_method(self,name,v,vs): return method(self,v,name,list(vs))
model.Run.apply_filter=apply_filter; model.Run.perform_test=perform_test; model.Run.unknown_method=unknown_method
def answer(case):
    c={"source":[case.get("n","t.txt"),case["s"]],"context":case.get("c",{}),"undefined":case.get("u","lenient"),"templates":[[k,v] for k,v in sorted(case.get("t",{}).items())]}
    out=model.answer(c)
    return out if not out.startswith("! ") else "fault: "+out[2:]
