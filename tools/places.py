#!/usr/bin/env python3
"""Counts the places of docs/DESIGN-PASS.md in crates/*/src: python3 places.py [list]"""
import re,glob,sys
show=len(sys.argv)>1
def functions():
    for p in sorted(glob.glob('crates/*/src/*.rt')):
        s=open(p).read()
        for m in re.finditer(r'fn (\w+)(?:<[^(]*>)?\(([^)]*)\)',s):
            yield p,m.group(1),[x.strip() for x in m.group(2).split(',') if x.strip()]
def lines(pat):
    for p in sorted(glob.glob('crates/*/src/*.rt')):
        for i,l in enumerate(open(p),1):
            if re.search(pat,l) and not l.lstrip().startswith('//'): yield f'{p}:{i}: {l.strip()}'
def say(name,it):
    it=list(it); print(f'{name}: {len(it)}')
    if show:
        for x in it: print('   ',x)
say('enums', lines(r'^(pub )?enum '))
say('numbers for kinds', lines(r'\b(absorb|op|what|refusal|detail|number): (u32|usize)\b'))
say('numbers for refusals', lines(r'\b(refused|refusal|no_\w+)\([0-9]+'))
say('while loops', lines(r"^\s*('\w+: )?while "))
say('counters by hand', lines(r"^\s*\w+ [+-]= 1;"))
say('cast functions', (f'{p} {f}' for p,f,a in functions() if f in('wide','link','node_of','offset','outcome_of','number','detail') and len(a)==1))
say('as casts', lines(r' as (u8|u16|u32|u64|usize)\b'))
say('words by hand', lines(r'67108864|8192\b'))
say('over five parameters', (f'{p} {f} {len(a)}' for p,f,a in functions() if len(a)>5))
say('nodes and their count', (f'{p} {f}' for p,f,a in functions() if any(re.match(r'(nodes|fresh|results|words)\b',x) for x in a) and any(re.match(r'(count|made|used)\b',x) for x in a)))
say('at in, place out', (f'{p} {f}' for p,f,a in functions() if any(x.startswith('out:') for x in a) and any(re.match(r'(at|start)\b',x) for x in a)))
