#!/usr/bin/env python3
"""Turns a crate's proofs by position into proofs by name: proofs/F/Proof.antt that ends in `tie.close (tie.spec ..)` into Invariants.antt and
Answers.antt. docs/PORT.md says which proofs are still in the older form (those of the unfinished request, in its commits).

usage: turn_proofs.py [FN..]        in the crate's folder, after the kit's port script and tools/respell.py; FN as in `packing.pack`

It runs `rt check --generated` twice, for the old and the new name of each goal and for the branches that join; the crates below have to
prove. A file that is turned is gone: git has it. What it cannot turn it names, and leaves as it is. The rest is by hand, by what the check says:
an arm that binds a name of its own, a law over one place that is cited at a deeper one, a function with several clauses (which owes a record),
one with a bound (whose answers take `g` first).
"""
import functools
import json
import os
import re
import subprocess
import sys
import tempfile

APART = "\\s(){}.;,@\"«»\\[\\]\\\\"
TOK = re.compile(r"--[^\n]*|\"(?:[^\"\\]|\\.)*\"|[^\s(){}.;,@\"«»\[\]\\]+|.|\n", re.S)
PATH = re.compile(rf"(?<![^\s(){{}},;@\[\]])(?P<head>[^{APART}]+)(?P<fields>(?:\.[^{APART}]+)+)")

def norm(s):
    s = s.replace('-', '_').lower()
    return s

def split_decls(text):
    """top-level chunks: (comment, name, lines)"""
    lines = text.split('\n')
    chunks, cur, com = [], None, []
    for l in lines:
        if l and not l[0].isspace():
            if l.startswith('--'):
                com.append(l); cur = None; continue
            m = re.match(r"((?:abbrev |unfoldable |pub )*)([^\s]+)", l)
            if l.startswith('use '):
                chunks.append(['use', com, l, [l]]); com = []; cur = chunks[-1]; continue
            if l.startswith('unfolding') and cur is not None and cur[0] == 'decl':
                cur[3].append(l); continue
            name = m.group(2)
            if cur is not None and cur[0] == 'decl' and cur[2] == name and ':' not in l.split('=')[0].split()[1:2]:
                cur[3].append(l); continue
            if cur is not None and cur[0] == 'decl' and cur[2] == name:
                cur[3].append(l); continue
            chunks.append(['decl', com, name, [l]]); com = []; cur = chunks[-1]
        elif cur is not None:
            cur[3].append(l)
        else:
            if l.strip(): com.append(l)
    return chunks, com

def args_of(s):
    """splits top-level application args of text like 'tie.spec a (b c) d'"""
    out, depth, cur = [], 0, ''
    for ch in s:
        if ch in '([{': depth += 1
        if ch in ')]}': depth -= 1
        if ch.isspace() and depth == 0:
            if cur.strip(): out.append(cur.strip()); cur = ''
        else: cur += ch
    if cur.strip(): out.append(cur.strip())
    return out

def strip_parens(s):
    s = s.strip()
    while s.startswith('(') and s.endswith(')'):
        d = 0; ok = True
        for i, ch in enumerate(s):
            if ch == '(': d += 1
            if ch == ')': d -= 1
            if d == 0 and i < len(s) - 1: ok = False; break
        if not ok: break
        s = s[1:-1].strip()
    return s

def unalias(text):
    while True:
        m = re.search(r"let ([^\s:=]+) = ([a-zA-Z]) in[ \n]\s*", text)
        if not m: return text
        x, y = m.group(1), m.group(2)
        head, rest = text[:m.start()], text[m.end():]
        rest = re.sub(rf"(?<![^\s(){{}}.;,@\"«»\[\]\\])(?<!\.){re.escape(x)}(?![^\s(){{}}.;,@\"«»\[\]\\])", y, rest)
        text = head + rest

class F:
    def __init__(self, info):
        self.labels = {}
        self.callee = {}
        self.fieldren = {}
        self.joins = {}
        self.info = info
        self.heads = {'c'}
        self.came = {}
        self.used_cons = set()
        self.params = []
        self.armed = {}
        for p in info['places']:
            old, new = p[2]
            if old and not re.match(r'match(\d*)$', old):
                self.labels[norm(old)] = new
                if p[3]: self.callee[norm(old)] = p[3].split('::')[-1]
                for a, b in (p[4] or []): self.fieldren[(norm(old), a)] = b
        self.joinlabels = {}
        for p, nm in zip(info['places'], info['places_by_name']):
            if p[0].startswith('Joined') or p[0].startswith('Left'):
                self.joinlabels[norm(p[2][0])] = p[2][1]
                self.joins[p[2][1]] = (p[0], nm)
            elif p[2][0]: self.labels[norm(p[2][0])] = p[2][1]
        for arm in info['arms']:
            if not arm: continue
            name, lvl, fields = arm
            for f in fields:
                new, old, suffix = f[0], f[1], f[2]
                if suffix is None: continue
                self.armed[(norm(old), tuple(map(norm, suffix)))] = (name, new)
        for loop in info['loops']:
            self.labels[norm(loop[0][0])] = loop[0][1]

    def branches(self, text):
        pos = len(text)
        while True:
            i = text.rfind('⊎_elim', 0, pos)
            if i < 0: return text
            pos = i
            r = self.one_branch(text, i)
            if r: text = r

    def one_branch(self, text, i):
        j = i + len('⊎_elim')
        parts, k = [], j
        while len(parts) < 3:
            while k < len(text) and text[k].isspace(): k += 1
            if k >= len(text): return None
            s = k; d = 0
            while k < len(text):
                ch = text[k]
                if ch in '([{': d += 1
                if ch in ')]}':
                    if d == 0: break
                    d -= 1
                if d == 0 and (ch.isspace() or ch in ',;'): break
                k += 1
            if s == k: return None
            parts.append((s, k))
        c = text[parts[2][0]:parts[2][1]]
        if not c.endswith('.branch'): return None
        lab = c[:-len('.branch')].split('.')[-1]
        join = self.joins.get(lab)
        if not join: return None
        cons = self.came.get(join[0]) or self.came.get(join[1])
        if not cons: return text[:parts[2][1]] + '-raw' + text[parts[2][1]:]
        fs = [strip_parens(text[a:b]) for a, b in parts[:2]]
        while len(fs) < len(cons):
            last = fs[-1]
            if not re.match(r"⊎_elim\s", last): return text[:parts[2][1]] + '-raw' + text[parts[2][1]:]
            sub = args_of(last)[1:]
            if len(sub) != 2: return text[:parts[2][1]] + '-raw' + text[parts[2][1]:]
            fs = fs[:-1] + [strip_parens(x) for x in sub]
        arms = []
        for (con, fields), fn in zip(cons, fs):
            m = re.match(r"λ (\S+)\.\s*(.*)$", fn, re.S)
            if not m: return text[:parts[2][1]] + '-raw' + text[parts[2][1]:]
            v, b = m.group(1), m.group(2)
            old = [x for x in fields if not re.search(r"-arg(-.*)?-\d+$|-arg-\d+$", x)]
            def rep(mm):
                fl = mm.group(1).split('.')[1:]
                res = []
                if fl and fl[0].isdigit():
                    n = int(fl[0]); nm = old[n] if n < len(old) else f'FIELD{n}'
                    res.append(nm); fl = fl[1:]
                elif len(old) == 1 and fl:
                    res.append(old[0])
                if fl and fl[0] in ('left', 'taken'):
                    res.append({'left': 'false', 'taken': 'true'}[fl[0]]); fl = fl[1:]
                return v + ''.join('.' + {'inv': 'invariant'}.get(x, x) for x in res + fl)
            b = re.sub(rf"(?<![^{APART}])(?<!\.){re.escape(v)}((?:\.[^{APART}]+)*)(?![^{APART}])", rep, b)
            arms.append(f"{con} {v} ↦ {b.strip()}")
            self.used_cons.add(con)
        base = c[:-len('.branch')]
        return text[:i] + f"elim {base}.branch [ {' | '.join(arms)} ]" + text[parts[2][1]:]

    def strip(self, m):
        head, fields = m['head'], m['fields'].split('.')[1:]
        if head[0].isupper() or head in ('tie', 'goal'): return m[0]
        fields = [f for f in fields if f != 'before']
        return head + ''.join('.' + f for f in fields)

    def path(self, m):
        head, fields = m['head'], m['fields'].split('.')[1:]
        if head[0].isupper() or head in ('tie', 'goal'): return m[0]
        out, i = [], 0
        while i < len(fields):
            f = norm(fields[i])
            done = False
            for n in (4, 3, 2, 1):
                suf = tuple(fields[i+1:i+1+n])
                if len(suf) == n and (f, tuple(map(norm, suf))) in self.armed:
                    arm, new = self.armed[(f, tuple(map(norm, suf)))]
                    out += [arm, new]; i += 1 + n; done = True; break
            if done: continue
            if re.match(r'match\d*$', f) and i + 1 < len(fields) and fields[i+1] == 'rest':
                arm = [a[0] for a in self.info['arms'] if a and a[0].startswith('in_default') and any(norm(x[1]) == f and not x[2] for x in a[2])]
                if arm: out += [arm[0], arm[0] + '-own']; i += 1; continue
            if f.endswith('_lem') and f not in self.labels and f[:-4] in self.labels: f = f[:-4]
            if i == 0 and head in self.heads and f in self.labels:
                lab = self.labels[f]
                if i + 1 < len(fields) and fields[i+1] == 'branch' and f in self.joinlabels: lab = self.joinlabels[f]
                out.append(lab)
                if i + 1 < len(fields) and (f, fields[i+1]) in self.fieldren:
                    out.append(self.fieldren[(f, fields[i+1])]); i += 2; continue
                callee = self.callee.get(f)
                if len(fields) > i + 2 and fields[i+1] in ('auto', 'kept', 'new', 'last') and fields[i+2].isdigit() and callee:
                    muts = MUTS.get(callee, [])
                    k = int(fields[i+2])
                    if k < len(muts):
                        out += [{'kept': 'auto', 'last': 'new'}.get(fields[i+1], fields[i+1]), muts[k]]
                        i += 3; continue
            else:
                g = fields[i]
                if head in self.heads and g == 'pre' and i == 0: g = 'requires'
                if head in self.heads and i > 0 and g in ('taken', 'left', 'inv', 'came'): g = {'taken': 'true', 'left': 'false', 'inv': 'invariant', 'came': 'branch'}[g]
                out.append(g)
            i += 1
        return head + ''.join('.' + f for f in out)

    def body(self, text):
        text = text.replace(').type-inv', ').typed')
        text = re.sub(r"\.well-formed(?![^\s().,])", ".well_formed", text)
        text = PATH.sub(self.strip, text)
        text = unalias(text)
        text = PATH.sub(self.path, text)
        text = self.branches(text)
        heads = set(re.findall(r"let ([^\s:=]+) = [^\s(){}]*\.?args in", text))
        def tn(m):
            k = int(m.group(3)) - 1
            if (m.group(1) in heads or m.group(2)) and k < len(self.params):
                return f"{m.group(1)}{m.group(2) or ''}.{self.params[k]}"
            return m.group(0)
        return re.sub(r"(?<![^\s(){},;@\[\].])([^\s(){}.;,@]+)(\.args)?\.t(\d+)(?![^\s(){}.;,])", tn, text)

MADE = ''
MUTS = {}
PARAMS = {}
OWN = {}
def load_muts(top, own):
    for root, ds, fs in os.walk(os.path.join(top, 'crates')):
        ds[:] = [d for d in ds if d not in ('out',)]
        for fl in fs:
            if fl.endswith('.rt') and '/src' in root:
                t = open(os.path.join(root, fl), encoding='utf8').read()
                for m in re.finditer(r"\bfn (\w+)(?:<[^>]*>)?\(([^)]*)\)", t):
                    PARAMS.setdefault(m.group(1), [p.split(':')[0].replace('mut ', '').strip() for p in re.split(r",(?![^\[<]*[\]>])", m.group(2)) if p.strip()])
                    if f'/crates/{own}/' in root + '/': OWN.setdefault(m.group(1), PARAMS[m.group(1)] if PARAMS[m.group(1)] is None else [p.split(':')[0].replace('mut ', '').strip() for p in re.split(r",(?![^\[<]*[\]>])", m.group(2)) if p.strip()])
                    MUTS[m.group(1)] = [p.split(':')[0].replace('mut ', '').strip() for p in m.group(2).split(',') if '&mut' in p or re.search(r":\s*&'\w+ mut", p)]

def convert(crate, fn, path, info):
    text = open(path, encoding='utf8').read()
    chunks, tail = split_decls(text)
    last = [c for c in chunks if c[0] == 'decl' and re.match(r".*[-_]spec$", c[2])]
    if not last: return 'no spec'
    spec = last[-1]
    body = '\n'.join(l for l in spec[3] if not l.lstrip().startswith('--'))
    m = re.search(r"tie\.close\s*\(\s*tie\.spec(.*)\)\s*$", body.split('=', 1)[1], re.S)
    if not m:
        if re.search(r"tie\.close\s+tie\.spec\s*$", body): args = []
        else: return 'no tie.close'
    else: args = args_of(m.group(1))
    loops = info['loops']; needs = info['needs']
    nl = len(loops)
    if info.get('pre'): return 'pre'
    decls0 = {c[2]: c for c in chunks if c[0] == 'decl' and c is not spec}
    if len(args) != 2*nl + len(needs):
        args = align(args, nl, needs, decls0)
        if args is None: return f'args do not align with 2*{nl}+{len(needs)}'
    f = F(info)
    f.came = came_of(cname_of(crate), fn)
    f.params = OWN.get(fn.split('.')[-1].lstrip('+')) or PARAMS.get(fn.split('.')[-1].lstrip('+'), [])
    specunf = [l for l in spec[3] if l.startswith('unfolding')]
    decls = {c[2]: c for c in chunks if c[0] == 'decl' and c is not spec}
    inv_out, ans_out, used = [], [], set()
    # loops: invariants come as inv, dec for each loop in order
    renamed = {}
    for i, loop in enumerate(loops):
        lold, lnew = loop[0]
        vars_, ch = loop[1], info['changed'][i]
        for k, kind in ((0, 'invariant'), (1, 'decreases')):
            a = args[2*i+k]
            new = f'{kind}-{lnew}'
            if a in decls:
                d = decls[a]; used.add(a); renamed[a] = new
                t = '\n'.join(d[3])
                eq = re.search(rf"^{re.escape(a)} ([^=]*?)=(.*)$", t, re.S | re.M)
                params, b = eq.group(1).split(), eq.group(2)
            else:
                s = strip_parens(a)
                eq = re.match(r"λ ([^.]*)\.(.*)$", s, re.S)
                if not eq: return f'loop arg {a[:40]}'
                params, b = eq.group(1).split(), eq.group(2)
                d = ['decl', [], a, []]
            want = list(vars_) + [v for v, c in zip(vars_, ch) if c]
            if len(params) < len(want): return f'loop params {params} vs {want}'
            extra = len(params) - len(want)
            sub = {}
            ps = params[extra:]
            for p, v, c in zip(ps, list(vars_), ch): sub[p] = f'l.initial.{v}' if c else f'l.{v}'
            for p, v in zip(ps[len(vars_):], [v for v, c in zip(vars_, ch) if c]): sub[p] = f'l.{v}'
            toks = TOK.findall(b)
            res, prev = [], ''
            for t_ in toks:
                if t_ in sub and prev != '.': res.append(sub[t_])
                else: res.append(t_)
                prev = t_
            b = ''.join(res)
            unf = [l for l in d[3] if l.startswith('unfolding')]
            inv_out.append('\n'.join(d[1] + [f"abbrev pub {new} : goal.{new}"] + unf + [f"{new} l ={b.rstrip()}"]))
    for (old, new), a in zip(needs, args[2*nl:]):
        if a in decls: renamed.setdefault(a, new)
    def ren(x):
        if not renamed: return x
        return re.sub(rf"(?<![^{APART}])(?<!\.)(?:{'|'.join(re.escape(o) for o in sorted(renamed, key=len, reverse=True))})(?![^{APART}])", lambda m: renamed[m[0]], x)
    helpers = {}
    for n, d in decls.items():
        if n in renamed: continue
        txt = '\n'.join(d[3])
        pl = re.search(r"\(?(\w+)? ?:? ?tie\.([A-Z][^\s()]*)", txt)
        if pl:
            helpers[n] = f_place(info, pl.group(2))
            for hm in re.finditer(rf"^{re.escape(n)} (\w+)", txt, re.M): f.heads.add(hm.group(1))
    for (old, new), a in zip(needs, args[2*nl:]):
        if a in decls:
            d = decls[a]; renamed.setdefault(a, new)
            if a in used:
                ans_out.append(f"pub {new} : goal.{new}\n{new} = {renamed[a]}"); continue
            used.add(a)
            t = '\n'.join(d[3])
            t = re.sub(rf"^(pub )?{re.escape(a)} :[^\n]*(?:\n(?=\s)[^\n]*)*", f"pub {new} : goal.{new}", t, count=1)
            hd, sep, bd = t.partition('\n' + a + ' ')
            bd = ren(bd)
            t = hd + '\n' + new + ' ' + bd.replace(' κs', '', 1) if sep else hd
            ans_out.append('\n'.join(d[1]) + ('\n' if d[1] else '') + f.body(t).rstrip())
        else:
            s = strip_parens(a)
            lm = re.match(r"λ ([^.]*)\.\s*(.*)$", s, re.S)
            if lm and lm.group(2).strip() in ('search rules', 'omega arith') and not specunf: continue
            u = ''.join(l + '\n' for l in specunf)
            if lm:
                ps = ' '.join(p for p in lm.group(1).split() if p != 'κs')
                ans_out.append(f"pub {new} : goal.{new}\n{u}{new} {ps} = {ren(f.body(lm.group(2).strip()))}")
            else:
                ans_out.append(f"pub {new} : goal.{new}\n{u}{new} = {ren(f.body(s))}")
    # other local declarations
    others = [d for n, d in decls.items() if n not in used]
    places_used = set()
    others_txt = {}
    for d in others:
        t = ren(f.body('\n'.join(d[3]).rstrip()))
        t = re.sub(r"tie\.([A-Z][^\s()]*)(( invariant-[^\s()]+| decreases-[^\s()]+)*)", lambda m: (places_used.add(f_place(info, m.group(1))), f_place(info, m.group(1)))[1], t)
        others_txt[d[2]] = '\n'.join(d[1]) + ('\n' if d[1] else '') + t
    for h, pl in helpers.items():
        def fix(x):
            m = re.match(r"(?:--[^\n]*\n)*pub (\S+) : goal\.", x)
            if not m: return x
            return re.sub(rf"(?<![^{APART}])(?<!\.){re.escape(h)} c(?![^{APART}]|\.)", f"{h} (goal.at.{m.group(1)} c).{pl}", x)
        ans_out = [fix(x) for x in ans_out]
    uses = [c for c in chunks if c[0] == 'use' and not re.search(r"\.(Tie as tie|Statement\.\{statement\})", c[2])]
    head = chunks[0][1] if chunks and chunks[0][0] == 'use' else []
    res = {}
    mod = None
    tm = re.search(r"use (Rattle\.\S+)\.Tie as tie", text)
    mod = tm.group(1) if tm else None
    def filt(out):
        toks = set(TOK.findall('\n'.join(out)))
        ls = []
        for c in uses:
            mm = re.match(r"use ([^{]*)\.\{(.*)\}", c[2])
            if mm:
                keep = [n for n in re.split(r",\s*", mm.group(2)) if n.strip()]
                keep2 = [n for n in keep if (n == '[]' and '[]' in ''.join(out)) or n.split(' as ')[-1] in toks or ('◌' in n and any(p and p in toks for p in n.replace('◌',' ').split()))]
                if keep2: ls.append(f"use {mm.group(1)}.{{{', '.join(keep2)}}}")
            else: ls.append(c[2])
        return ls
    if inv_out:
        res['Invariants.antt'] = '\n'.join(filt(inv_out) + [f"use {mod}.Given as goal", ''] + ['\n\n'.join(inv_out)]) + '\n'
    byname = {}
    for x in ans_out:
        m = re.match(r"(?:--[^\n]*\n)*pub (\S+) : goal\.", x)
        byname[m.group(1) if m else x] = x
    aout = []
    parents = {b: p[1] for p, b in zip(info['places'], info['places_by_name'])}
    byold = {p[0]: b for p, b in zip(info['places'], info['places_by_name'])}
    def depth(a, b):
        d = 0
        while a is not None and a != b:
            up = parents.get(a)
            a = byold.get(up) if up else None
            d += 1
        return d if a == b else None
    for n in list(others_txt):
        if n not in helpers: continue
        m = re.search(rf"^{re.escape(n)} (\w+)", others_txt[n], re.M)
        if not m: continue
        pv = m.group(1)
        for h, pl in helpers.items():
            if h == n or pl == helpers[n]: continue
            d = depth(helpers[n], pl)
            if d: others_txt[n] = re.sub(rf"(?<![^{APART}])(?<!\.){re.escape(h)} {pv}(?![^{APART}]|\.)", f"{h} {pv}" + '.before' * d, others_txt[n])
    for n in decls:
        if n in others_txt: aout.append(others_txt[n])
        elif n in renamed and renamed[n] in byname: aout.append(byname.pop(renamed[n]))
    aout += list(byname.values())
    if aout:
        res['Answers.antt'] = '\n'.join(head + filt(aout) + ([f"use {mod}.Goals.{{{', '.join(sorted(places_used | f.used_cons))}}}"] if places_used | f.used_cons else []) + [f"use {mod}.Goals as goal", ''] + ['\n\n'.join(aout)]) + '\n'
    elif head and inv_out:
        res['Invariants.antt'] = '\n'.join(head) + '\n' + res['Invariants.antt']
    d = os.path.dirname(path)
    os.remove(path)
    for n, t in res.items(): open(os.path.join(d, n), 'w', encoding='utf8').write(t)
    if not res: os.rmdir(d)
    return None

def cname_of(crate): return os.path.basename(os.path.realpath(crate))

def came_of(cname, fn):
    p = os.path.join(MADE, f"Rattle-{cname}-proofs", fn.replace('.', '/'), "Lts.antt")
    if not os.path.exists(p): return {}
    t = open(p, encoding='utf8').read()
    recs, datas, cur = {}, {}, None
    for l in t.split('\n'):
        n = len(l) - len(l.lstrip(' '))
        if not l.strip(): continue
        if cur and n <= cur[1]: cur = None
        m = re.match(r"\s*pub record (By-\d+-\S+) : Type 0 where", l)
        if m: cur = ('r', n, m.group(1)); recs[m.group(1)] = []; continue
        m = re.match(r"\s*pub data Came-(\S+) : Type 0 where", l)
        if m: cur = ('d', n, m.group(1)); datas[m.group(1)] = ''; continue
        if cur and cur[0] == 'r' and n == cur[1] + 2:
            m = re.match(r"\s*pub (\S+) :", l)
            if m and m.group(1) != 'open': recs[cur[2]].append(m.group(1))
        if cur and cur[0] == 'd': datas[cur[2]] += l + '\n'
    out = {}
    for k, v in datas.items():
        out[k] = [(c, recs.get(r, [])) for c, r in re.findall(r"^\s*(\S+) :\s+(By-\d+-\S+)\s+→", v, re.M)]
    return out

def align(args, nl, needs, decls):
    head, rest = args[:2*nl], args[2*nl:]
    def kind(a):
        if a in decls:
            m = re.search(r"tie\.Need-([^\s()]+)", '\n'.join(decls[a][3]))
            return ('named', norm(m.group(1)) if m else None)
        s = strip_parens(a)
        m = re.match(r"λ ([^.]*)\.\s*(.*)$", s, re.S)
        return ('trivial', None) if m and re.match(r"(search rules|omega arith|omega \(arith.*)$", m.group(2).strip(), re.S) else ('lam', None)
    ks = [kind(a) for a in rest]
    sys.setrecursionlimit(10000)
    def plain(s): return re.sub(r"^(overflow|nonzero|bounds|offset_bounds|slice_bounds)_", "", s)
    def same(nm, need): return nm is None or plain(nm) == norm(need[0]) or nm == norm(need[0]) or plain(nm) == plain(norm(need[1]))
    @functools.lru_cache(None)
    def go(i, j):
        if i == len(rest): return () if j == len(needs) else None
        if j < len(needs):
            k, nm = ks[i]
            if k != 'named' or same(nm, needs[j]):
                r = go(i+1, j+1)
                if r is not None: return (i,) + r
        if ks[i][0] != 'named' and len(rest) - i > len(needs) - j:
            return go(i+1, j)
        return None
    r = go(0, 0)
    if r is None: return None
    return head + [rest[i] for i in r]

def f_place(info, old):
    for i, p in enumerate(info['places']):
        if p[0] == old or norm(p[0]) == norm(old):
            arm = info['arms'][i] if i < len(info['arms']) else None
            if arm:
                best = max((a[1], k) for k, a in enumerate(info['arms']) if a and a[0] == arm[0])
                return info['places_by_name'][best[1]]
            return info['places_by_name'][i]
    return old

def generated(crate, *words):
    """The folder in which a check lays what it makes of the crate."""
    folder = tempfile.mkdtemp(prefix='turn-')
    subprocess.run(['rt', 'check', '--generated', folder, *words], cwd=crate, stdout=subprocess.DEVNULL, stderr=subprocess.DEVNULL)
    return folder


def main(only):
    global MADE
    crate = os.path.realpath('.')
    cname = os.path.basename(crate)
    with open(os.path.join(generated(crate, '--old-names'), 'names.json'), encoding='utf8') as f:
        names = json.load(f)
    MADE = generated(crate)
    load_muts(os.path.dirname(os.path.dirname(crate)), cname)
    for root, ds, fs in os.walk(os.path.join(crate, 'proofs')):
        if 'Proof.antt' not in fs: continue
        fn = os.path.relpath(root, os.path.join(crate, 'proofs')).replace('/', '.')
        if only and fn not in only: continue
        key = f'Rattle-{cname}-proofs.{fn}.Lts'
        if key not in names:
            print(f'{fn}: no names'); continue
        try:
            why = convert(crate, fn, os.path.join(root, 'Proof.antt'), names[key])
        except (AttributeError, IndexError, KeyError, ValueError) as e:
            why = f'{type(e).__name__} {e}'
        if why: print(f'{fn}: {why}')


if __name__ == '__main__':
    main(sys.argv[1:])
