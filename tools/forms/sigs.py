#!/usr/bin/env python3
"""sigs.py: the functions of crates/*/src/*.rt with their parameters, clauses and bodies; the other scripts read them from it."""
import glob
import re

def functions():
    out=[]
    for path in sorted(glob.glob("crates/*/src/*.rt")):
        text=open(path,encoding="utf-8").read()
        for m in re.finditer(r'^([ \t]*)(?:pub )?(?:extern "C" )?fn (\w+)(?:<([^>]*)>)?\(', text, re.M):
            # params
            i=m.end(); d=1; j=i
            while d:
                c=text[j]
                if c in '([': d+=1
                if c in ')]': d-=1
                j+=1
            params=text[i:j-1]
            # split at depth0 commas
            ps=[];cur='';d=0
            for c in params:
                if c in '([<': d+=1
                if c in ')]>': d-=1
                if c==',' and d==0: ps.append(cur.strip()); cur=''
                else: cur+=c
            if cur.strip(): ps.append(cur.strip())
            ind=m.group(1)
            # header until line == ind+'{' or ends with '{'
            rest=text[j:]
            # body start: find '\n'+ind+'{\n' or ' {\n' on same line
            k1=rest.find('\n'+ind+'{\n')
            nl=rest.find('\n')
            if rest[:nl].rstrip().endswith('{'):
                head=rest[:nl].rstrip()[:-1]; bstart=j+nl+1
            else:
                head=rest[:k1]; bstart=j+k1+len(ind)+3
            bend=text.find('\n'+ind+'}',bstart-1)
            body=text[bstart:bend+1]
            line=text.count('\n',0,m.start())+1
            ret=''
            mm=re.match(r'\s*->\s*([^\n{]*)',head)
            if mm: ret=mm.group(1).strip()
            clauses=re.findall(r'(requires|ensures)\s*(\w+)?\s*\{(.*?)\}\s*(?=\n\s*(?:requires|ensures)|\Z)',head,re.S)
            impl=None
            out.append(dict(path=path,line=line,name=m.group(2),params=ps,ret=ret,clauses=clauses,body=body,head=head,bline=text.count('\n',0,bstart)+1))
    return out
