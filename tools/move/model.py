"""A model of the rules by which old sources are moved, written apart from crates/c25_move_lines, to hold its results against.

moved(path, early) gives the text of the file at `path` with its rules applied, without the tests of the assembler: a line that the
assembler reads is rewritten too where a rule applies, so sources for the COFF assembler that are compared have lines to which either
a rule applies or none would change a line that is read.
"""
import re
import struct
MN=set('ABS ADD ADDC ADDH ADDK ADDS ADDT ADLK ADRK AND ANDK APAC B BACC BANZ BBNZ BBZ BC BGEZ BGZ BIOZ BIT BITT BLEZ BLKD BLKP BLZ BNC BNV BNZ BV BZ CALA CALL CMPL CMPR CNFD CNFP DINT DMOV EINT FORT IDLE IN LAC LACK LACT LALK LAR LARK LARP LDP LDPK LPH LRLK LST LST1 LT LTA LTD LTP LTS MAC MACD MAR MPY MPYA MPYK MPYS MPYU NEG NOP NORM OR ORK OUT PAC POP POPD PSHD PUSH RC RET RFSM RHM ROL ROR ROVM RPT RPTK RSXM RTC RTXM RXF SACH SACL SAR SBLK SBRK SC SFL SFR SFSM SHM SOVM SPAC SPH SPL SPM SQRA SQRS SST SST1 SSXM STC STXM SUB SUBB SUBC SUBH SUBK SUBS SUBT SXF TBLR TBLW TRAP XOR XORK ZAC ZALH ZALR ZALS'.split())
NOOPS=set('ABS APAC BACC CALA CMPL CNFD CNFP DINT EINT IDLE NEG NOP PAC POP PUSH RC RET RFSM RHM ROL ROR ROVM RSXM RTC RTXM RXF SC SFL SFR SFSM SHM SOVM SPAC SSXM STC STXM SXF TRAP ZAC'.split())
DOTS={'EQU':'.set','SET':'.set','DATA':'.word','DEF':'.def','REF':'.ref','SREF':'.ref','END':'.end','TITL':'.title','IDT':'.title','TEXT':'.string','BYTE':'.byte','PAGE':'.page','LIST':'.list','UNL':'.nolist','OPTION':'.option','COPY':'.copy','MLIB':'.mlib',
 'ASMIF':'.if','ASMELS':'.else','ASMEND':'.endif','BSS':'bss','BES':'bes','AORG':'aorg','RORG':'rorg','PSEG':'pseg','PEND':'pend','DSEG':'dseg','DEND':'dend','CSEG':'dseg','CEND':'dend','DORG':'dorg','EVEN':'.even'}
DROP=set('.port .tab .version .drlist .drnolist .emsg .mmsg .wmsg .even .sblock .file .line .sym .block .endblock .func .endfunc .stag .etag .utag .member .eos'.split())
KNOWN=set('.text .data .sect .bss .usect .word .int .byte .string .space .set .equ .global .ref .def .label .mmregs .title .list .nolist .page .width .length .option .mlist .mnolist .fclist .fcnolist .sslist .ssnolist .macro .endm .mexit .if .elseif .else .endif .loop .break .endloop .asg .eval .copy .include .end'.split())
NODIR=set('.else .endif .endm .endloop .mexit .text .data .mmregs .end .list .nolist .page .newblock .mlist .mnolist .fclist .fcnolist .sslist .ssnolist .even pseg pend dseg dend'.split())
LEFTS=set('.align .field .var .struct .endstruct .tag .bfloat'.split())
QUOTED=re.compile(r"('(?:[^']|'')*'|\"(?:[^\"]|\"\")*\")")
def outside(s,f): return ''.join(p if i%2 else f(p) for i,p in enumerate(QUOTED.split(s)))
def hexed(d): return ('0' if d[0] in 'ABCDEFabcdef' else '')+d+'h'
def greater(o):
    "> where an operand may begin is hexadecimal; behind an operand it is greater, >= or a shift"
    r=''; i=0; behind=False
    while i<len(o):
        q=QUOTED.match(o,i); c=o[i]
        if q: r+=q.group(0); i=q.end(); behind=True; continue
        if c=='>':
            m=re.compile(r'>([0-9A-Fa-f]+)(?![\w$])').match(o,i)
            if not behind and m: r+=hexed(m.group(1)); i=m.end(); behind=True; continue
            n=2 if o[i:i+2] in('>>','>=') else 1
            r+=o[i:i+n]; i+=n; behind=False; continue
        r+=c; i+=1
        if not c.isspace(): behind=c.isalnum() or c in '_$?)\'.:#'
    return r
class Move:
    def __init__(s,old,ignore_case): s.old=old; s.rep=[]; s.cmd=[]; s.taken=set(); s.case={} if ignore_case else None; s.block=0; s.inmac=0; s.dummy=None; s.orgs=0
    def done(s,t): s.rep.append((s.file,s.n,'done',t))
    def left(s,t): s.rep.append((s.file,s.n,'left',t))
    # ---- operands
    def number(s,o,expr=True):
        was=o
        o=greater(o)
        o=outside(o,lambda p:re.sub(r'\b0[xX]([0-9A-Fa-f]+)\b',lambda m:hexed(m.group(1)),p))
        if o!=was: s.done('hexadecimal')
        was=o; o=''.join(("('%s'<<8|'%s')"%(p[1],p[2]) if len(p)==4 and p[0]=="'" and p[1]!="'" else '0' if p=="''" else p) if i%2 else p for i,p in enumerate(QUOTED.split(o)))
        if o!=was: s.done('constant of two characters')
        was=o; o=outside(o,lambda p:re.sub(r'(?<![\w$])\$([0-9])\b',lambda m:s.local(m.group(1)),p))
        if o!=was: s.done('local label')
        was0=o
        if s.case is not None: o=outside(o,lambda p:re.sub(r'(?<![\w$.:])[A-Za-z_][\w$]*',lambda m:s.cased(m.group(0)),p))
        if s.case is not None and o!=was0: s.done('names of one spelling')
        if s.old and expr: o=','.join(s.ltr(e) for e in s.parts(o))
        return o
    def local(s,k):
        if s.inmac: return 'Z%s?'%k
        x='Z%sN%d'%(k,s.block)
        while x.upper() in s.names: x+='_'
        return x
    def cased(s,w):
        if re.fullmatch(r'(AR[0-7]|PA(1[0-5]|[0-9]))',w,re.I): return w.upper()
        if w.upper() in MN: return w
        return s.case.setdefault(w.upper(),w)
    TOKEN=re.compile(r"\('.'<<8\|'.'\)|'(?:[^']|'')*'|[\w$?.]+|>>|<<|>=|<=|==|!=|.")
    def parts(s,o):
        r=['']
        for x in s.TOKEN.findall(o):
            if x==',': r.append('')
            else: r[-1]+=x
        return r
    def ltr(s,e):
        "parentheses as an order from left to right has them, where C's order has another"
        t=[x for x in s.TOKEN.findall(e) if not x.isspace()]
        if '(' in t: return e
        signs='+-*/&|^'
        single=lambda x: len(x)==1 and not x.isalnum() and x not in '_$?.'
        ops=[]; behind=False
        for i,x in enumerate(t):
            if x in signs and behind: ops.append((i,x)); behind=False
            else: behind=not single(x) and x not in('>>','<<','>=','<=','==','!=') or x==')'
        pr={'*':3,'/':3,'+':2,'-':2,'&':1,'^':0,'|':-1}
        if not any(pr[b[1]]>pr[a[1]] for a,b in zip(ops,ops[1:])): return e
        r=''.join(t[:ops[0][0]])
        for k,(i,x) in enumerate(ops):
            end=ops[k+1][0] if k+1<len(ops) else len(t)
            r=(r if k==0 else '(%s)'%r)+x+''.join(t[i+1:end])
        s.done('order from left to right: %s'%r); return r
    # ---- a line
    def split(s,l):
        m=re.match(r'([^\s;]*)\s*(.*)$',l); lab,rest=m.groups()
        m=re.match(r'([^\s;]*)(\s*)(.*)$',rest); op,rest=m.group(1),m.group(3)
        if not op: return lab,'','',rest.lstrip('; ')
        q=None
        if not s.old:
            for i,c in enumerate(rest):
                if q: q=None if c==q else q
                elif c in '"\'': q=c
                elif c==';': return lab,op,rest[:i].rstrip(),rest[i+1:].strip()
        low=DOTS.get(op.upper(),op.lower()) if op.upper() not in MN else op.lower()
        if op.upper() in NOOPS or low in NODIR:
            if rest and rest[0]!=';' and s.old: s.done('comment')
            return lab,op,'',rest.lstrip('; ').strip()
        if not s.old: return lab,op,rest.rstrip(),''
        i=0
        while i<len(rest):
            c=rest[i]
            if q: q=None if c==q else q
            elif c in '"\'': q=c
            elif c==';': return lab,op,rest[:i],rest[i+1:].strip()
            elif c in ' \t':
                j=len(rest)-len(rest[i:].lstrip())
                if j<len(rest) and rest[i-1]==',': i=j; continue
                com=rest[j:].strip()
                if com and com[0]!=';': s.done('comment')
                if com and com[0] in '+-*/&|^,' : s.left('what stands behind the blank is taken as a comment: %s'%com)
                return lab,op,rest[:i],com.lstrip('; ')
            i+=1
        return lab,op,rest.rstrip(),''
    def line(s,l):
        "lines of one line"
        if l[:1] in '*;' or not l.strip(): return [l]
        before=len(s.rep)
        lab,op,ops,com=s.split(l); up=op.upper(); low=op.lower()
        newlab=lab
        if re.fullmatch(r'\$[0-9]:?',lab): newlab=s.local(lab[1])+lab[2:]; s.done('local label')
        elif s.case is not None and lab: newlab=s.cased(lab.rstrip(':'))+(':' if lab.endswith(':') else '')
        if up in DOTS and up not in MN and not op.startswith('.'): low=DOTS[up]; op=low; s.done('directive %s'%up)
        s.low=low
        if s.dummy is not None and low not in('bss','bes','dend','aorg','pseg','rorg','.text','.data','.sect','.end','.set'): s.left('a dummy section has only BSS lines')
        if low=='aorg' or low=='.asect':
            if low=='aorg': a=s.number(ops); name='org%d'%s.orgs; s.orgs+=1
            else: m=re.match(r'"?([^",]+)"?\s*,\s*(.+)',ops); name=m.group(1); a=s.number(m.group(2))
            s.cmd.append('  %s : load = %s'%(name,a)); op,ops='.sect','"%s"'%name; s.block+=1; s.dummy=None; s.done('section %s at %s'%(name,a))
        elif low in('rorg','pseg'): op,ops='.text',''; s.block+=1; s.dummy=None
        elif low=='dseg': op,ops='.data',''; s.block+=1
        elif low=='dorg': s.dummy=s.number(ops); return ([newlab] if lab else [])+['* '+l.strip()]
        elif low in('pend','dend'): s.dummy=None; s.done('end'); return ([newlab] if lab else [])+['* '+l.strip()]
        elif low=='bss' and s.dummy is not None:
            a=s.dummy; s.dummy='%s+%s'%(a,s.number(ops)); op,ops='.set',a
            if not lab: return ['* '+l.strip()]
        elif low=='bss': op='.space'; ops='(%s)*16'%s.number(ops)
        elif low=='bes' or low=='.bes':
            b=s.number(ops); b='(%s)*16'%b if low=='bes' else b
            head='        .space  '+b; r=[('%-31s ; %s'%(head,com) if com else head).rstrip()]+(['%-7s .set    $-1'%newlab] if lab else []); (s.left('BES: %s is the last word of the block; compare'%lab) if low=='bes' and lab else s.done('.bes')); return r
        elif low=='.newblock': s.block+=1; s.done('.newblock'); return ['* '+l.strip()]
        elif low in DROP: s.done('%s taken out'%low); return (['%s'%newlab] if lab else [])+['* '+l.strip()]
        elif low in LEFTS: s.left('%s has no form here'%low); ops=s.number(ops)
        elif low=='.long': 
            v=[x.strip() for x in s.number(ops).split(',')]; op='.word'; ops=','.join('(%s)&0FFFFh,(%s)>>16&0FFFFh'%(x,x) for x in v); s.left('.long: low word first; compare')
        elif low=='.float' and all(re.fullmatch(r'\s*[-+]?(\d+\.?\d*|\.\d+)([eE][-+]?\d+)?\s*',x) for x in ops.split(',')):
            com=(com+' ' if com else '')+'.float '+ops.strip(); op='.word'
            ops=','.join('%s,%s'%(hexed('%04X'%b),hexed('%04X'%a)) for a,b in (struct.unpack('>HH',struct.pack('>f',float(v))) for v in ops.split(','))); s.left('.float: low word first; compare')
        elif low=='.float': s.left('.float has no form here'); ops=s.number(ops)
        elif low=='.mlib': op='.copy'; s.left('.mlib: the members of the archive are to be in this file'); ops=s.quote(ops)
        elif low in('.title','.copy','.include'): ops=s.quote(ops)
        elif low=='.string':
            new=''.join('"%s"'%p[1:-1] if i%2 and p[0]=="'" else p for i,p in enumerate(QUOTED.split(ops)))
            if new!=ops: s.done('quotes')
            ops=new
        elif low in('.byte','.word','.int') and any(i%2 and p[0]=='"' for i,p in enumerate(QUOTED.split(ops))):
            if low=='.byte': ops=','.join(','.join("'%s'"%c for c in p[1:-1]) if p.startswith('"') else p for p in re.split(r',(?=(?:[^"]*"[^"]*")*[^"]*$)',ops)); s.done('string in .byte')
            else: s.left('string in %s'%low)
        elif low=='.usect' and ops.count(',')==2:
            ops=s.number(ops).rsplit(',',1)[0]; s.left('.usect with a page flag: give the section a range of one page')
        elif low=='.bss' and ops.count(',')==3: ops=ops.rsplit(',',1)[0]; s.left('alignment of .bss taken out')
        elif low in('.set','.equ') and re.fullmatch(r'(AR[0-7]|PA(1[0-5]|[0-9]))',lab,re.I):
            k=re.search(r'\d+',lab).group(0)
            if re.fullmatch(r'0*%s|%s'%(k,hexed('%X'%int(k))),s.number(ops),re.I): s.done('%s is there'%lab); return ['* '+l.strip()]
            s.left('%s is another number here'%lab); return ['* '+l.strip()]
        elif op.startswith('.') and low not in KNOWN: s.left('%s is no directive here'%low); ops=s.number(ops)
        else: ops=s.number(ops)
        if low in('.text','.data','.sect'): s.block+=1; s.dummy=None
        if low=='.macro': s.inmac=1
        if low=='.endm': s.inmac=0
        if s.case is not None and low in('.macro',): newlab=lab
        if len(s.rep)==before and newlab==lab: return [l]             # nothing to do: the line as it is
        head='%-7s %-7s %s'%(newlab,op,ops)
        return [('%-31s ; %s'%(head,com) if com else head).rstrip()]
    def quote(s,o):
        if o.startswith('"') or (not s.old and not o.startswith("'") and s.low=='.title'): return o
        s.done('quotes'); return '"%s"'%o.strip("'")
    def source(s,path):
        s.file=path; s.n=0; raw=open(path,'rb').read()
        if b'\x1a' in raw: raw=raw[:raw.index(b'\x1a')]; s.done('Ctrl-Z at the end')
        try: t=raw.decode('utf-8')
        except UnicodeDecodeError: t=raw.decode('cp437'); s.done('code page 437')
        cr=t.count('\r'); out=[]
        nl='\r\n' if cr and cr==t.count('\n') else '\n'
        ls=t.replace('\r\n','\n').split('\n')
        ended=False
        s.names={w.upper() for w in re.findall(r'[A-Za-z_][\w$]*',t)}
        for s.n,l in enumerate(ls,1):
            out+=[l] if ended else s.line(l)
            if re.match(r'[^\s;*]*\s+\.?END\b',l,re.I): ended=True
        return nl.join(out)
def moved(path,early):
    m=Move(early,False); return m.source(path)
