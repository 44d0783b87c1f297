#!/usr/bin/env python3
"""stack_frames.py ARCHIVE [CALL..] [--outside N] [--levels NAME=N]..: the most stack that each exported function can take.

It is read off the x86-64 machine code alone. A line has the function, the bytes from its caller's stack pointer down, and
the path that takes them: each function with what it and its return address hold while it calls the next, which add up to
the bytes. A memory function of the C library takes its return address and the N of --outside. A recursion is an error,
unless --levels states, for a part of the function's name, how many of its activations are on the stack at most.
"""
import argparse, collections, itertools, os, re, subprocess, sys

Function = collections.namedtuple("Function", "name section code")
Code = collections.namedtuple("Code", "at op args link")  # op: without a q at its end; link: its relocation, or None
OUTSIDE = ("memcpy", "memmove", "memset", "memcmp", "bcmp")
FORMS = {"mov": r"()(%rsp|%rbp)", "lea": r"(-?\w*)\((%rsp|%rbp)\)"}
STACK, BASE = {"%rsp", "%esp", "%sp", "%spl"}, {"%rbp", "%ebp", "%bp", "%bpl"}

def fail(why, f=None, i=0):
    sys.exit("stack_frames.py: " + (f"{f.name} at {f.code[min(i, len(f.code) - 1)].at:#x}: " if f else "") + why)

def load(archive):
    """The functions by name, whose instruction stands at which place of a section, and the exported names."""
    functions, spots, exported, section, f = {}, {}, [], None, None
    words = [os.environ.get("LLVM_OBJDUMP", "llvm-objdump"), "-tdr", "--no-show-raw-insn", archive]
    for line in subprocess.run(words, check=True, stdout=subprocess.PIPE, text=True).stdout.splitlines():
        if m := re.match(r"[0-9a-f]+ g +F [^\t]*\t[0-9a-f]+ (?:\.hidden )?(.*)$", line):
            exported.append(m[1])
        elif m := re.match(r"Disassembly of section (.*):$", line):
            section = m[1] if all(s != m[1] for s, _ in spots) else fail(f"the section {m[1]} is there twice")
        elif m := re.match(r"[0-9a-f]+ <(.*)>:$", line):
            f = functions[m[1]] = Function(m[1], section, []) if m[1] not in functions else fail(f"{m[1]} is there twice")
        elif m := re.match(r"\s+[0-9a-f]+:\s+R_X86_64_\w+\s+(.*)$", line):
            f.code[-1] = f.code[-1]._replace(link=m[1])
        elif m := re.match(r"\s*([0-9a-f]+):\s+(?:(?:rep|repne|lock|notrack|data16)\s+)*(\S+?)q?(?=\s|$)\s*([^#]*)", line):
            spots[section, int(m[1], 16)] = f.name, len(f.code)
            f.code.append(Code(int(m[1], 16), m[2], re.split(r", ?(?![^(]*\))", m[3].strip()), None))
    return functions, spots, sorted(exported)

def target(f, i, functions, spots):
    """The function that a call or a jump goes to, and the number of the instruction there."""
    section, code = f.section, f.code[i]
    if code.link:
        name, addend = re.fullmatch(r"(.*?)([-+]0x[0-9a-f]+)?", code.link).groups()
        if name in functions or not name.startswith("."):
            return name, 0
        section, at = name, int(addend or "0", 16) + 4  # the addend counts from behind its own four bytes
    else:
        m = re.match(r"0x[0-9a-f]+", code.args[0])
        at = int(m[0], 16) if m else fail("a call or a jump through a pointer", f, i)
    return spots.get((section, at)) or fail("a call or a jump to where no instruction is", f, i)

def worth(op, args, known):
    """The depth of the register named last behind an instruction that writes it, or None where that is not known."""
    if m := re.fullmatch(r"\$(-?\w+)", args[0]):
        n, old = int(m[1], 0), known.get(args[-1])
        change = {"sub": n, "add": -n, "and": -n - 8 if n <= -8 else None}.get(op)  # and: at most, from a multiple of 8
        return None if old is None or change is None else old + change
    m = re.fullmatch(FORMS[op], args[0]) if op in FORMS else None
    return known[m[2]] - int(m[1] or "0", 0) if m and known[m[2]] is not None else None

def step(f, i, depth, base):
    """The depths of %rsp and of %rbp, None where this one is not known, behind an instruction that is no jump."""
    _, op, args, _ = f.code[i]
    if op in ("push", "pushf"):
        return depth + 8, base
    if op == "pop" and args[0] not in STACK:
        return depth - 8, None if args[0] in BASE else base
    if op == "leave" and base is not None:
        return base - 8, None
    if op.rstrip("bwlq") in ("cmp", "test", "bt"):
        return depth, base
    now, written = worth(op, args, {"%rsp": depth, "%rbp": base}), set(args if re.match("xchg|xadd|cmpx", op) else args[-1:])
    if op.startswith(("push", "pop", "leave", "enter", "<")) or written & STACK and now is None:
        fail(f"it is not known what {op} does to %rsp", f, i)
    return (now, base) if written & STACK else (depth, now if written & BASE else base)

def reach(code, leaf, depth, base):
    """The deepest that an instruction can touch. A leaf, which calls nobody, may use 128 bytes below %rsp: what
    an address names there, and all of it where an address is worked out."""
    text = f"{code.op} {', '.join(code.args)}"
    named = [(n, depth if r == "%rsp" else base) for n, r in re.findall(r"-(\w+)\((%rsp|%rbp)", text)]
    below = 128 if leaf and re.match(r"lea .*\(%rsp|mov %rsp,|.*\(%rsp,", text) else 0
    return max([depth + below] + [known + int(n, 0) for n, known in named if known is not None])

def unreached(f, seen, tables):
    """Where to go on: a block that only a table of jumps leads to begins at the depth of the jump."""
    rest = [i for i, c in enumerate(f.code) if i not in seen and not c.op.startswith(("nop", "xchgw", "int3", "ud2"))]
    if rest and len(tables) != 1:
        fail("nothing leads here" if not tables else "tables of jumps at several depths", f, rest[0])
    return [(rest[0], *state) for state in tables if rest]

def follow(f, functions, spots):
    """The deepest that a function itself touches, and its calls: the depth there, 8 or 0 for the return address, whom."""
    seen, calls, tables, work = {}, set(), set(), [(0, 0, None)]
    while work := work or unreached(f, seen, tables):
        i, depth, base = work.pop()
        if i == len(f.code) or i in seen and seen[i][0] != depth:
            fail(f"reached at the depths {seen[i][0]} and {depth}" if i in seen else "it runs past its end", f, i)
        if i in seen and seen[i][1] in (base, None):
            continue
        base = None if i in seen else base  # %rbp's depth is known only if it is the same on every way
        seen[i] = depth, base
        _, op, args, _ = f.code[i]
        if op == "ret" and (depth, args) != (0, [""]):
            fail(f"it returns at the depth {depth}", f, i)
        elif op == "jmp" and args[0][:2] == "*%" and {"movsl", "add"} <= {c.op for c in f.code[max(i - 4, 0) : i]}:
            tables.add((depth, base))  # by a register with a sum: a table holds distances from a place
        elif op == "call" or op.startswith(("j", "loop")):
            name, at = target(f, i, functions, spots)
            if op == "call" or name != f.name:
                calls.add((depth, 8 * (op == "call"), name) if at == 0 else fail("into the midst of a function", f, i))
            else:
                work.append((at, depth, base))
            work += [(i + 1, depth, base)] * (op != "jmp")
        elif op not in ("ret", "ud2", "int3", "hlt"):
            work.append((i + 1, *step(f, i, depth, base)))
    return max(reach(f.code[i], 8 not in (c[1] for c in calls), *state) for i, state in seen.items()), calls

def need(name, left, known, does):
    """The most that a function takes beyond its return address, and the path. left: activations of stated recursions."""
    key, left = (name, left), tuple((n, k - (n == name)) for n, k in left)
    if name not in does:
        fail(f"{name} is called, and it is not known what it takes")
    if key in known:
        return known[key] or fail(f"{name} recurs, and --levels does not state how often")
    known[key] = None
    best = does[name][0], ((name, does[name][0]),)
    for depth, address, g in does[name][1]:
        if (g, 0) not in left:
            most, ((_, own), *rest) = need(g, left, known, does)
            best = max(best, (depth + address + most, ((name, depth), (g, address + own), *rest)))
    known[key] = best
    return best

def main():
    options = argparse.ArgumentParser(usage=__doc__)
    options.add_argument("archive")
    options.add_argument("calls", nargs="*")
    options.add_argument("--outside", type=int, default=0)
    options.add_argument("--levels", action="append", default=[])
    asked, known = options.parse_args(), {}
    functions, spots, exported = load(asked.archive)
    does = {n: (asked.outside, ()) for n in OUTSIDE} | {n: follow(f, functions, spots) for n, f in functions.items()}
    left = tuple((n, int(k)) for part, k in (level.split("=") for level in asked.levels) for n in functions if part in n)
    for name in asked.calls or exported:
        most, ((_, own), *rest) = need(name, left, known, does)
        steps = [(n, k, len(list(same))) for (n, k), same in itertools.groupby([(name, own + 8), *rest])]
        print(name, most + 8, " > ".join(f"{n}:{k}" + f" x{many}" * (many > 1) for n, k, many in steps), sep="\t")

main()
