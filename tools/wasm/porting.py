"""The text of a module that the toolchain's LLVM backend made for x86-64, changed to one for WebAssembly with
a memory of 64 bits.

`rattle build --target wasm64-unknown-unknown` refuses a crate that calls C, and the allocator `Global` is C
(`rattle_alloc`, `rattle_realloc`, `rattle_dealloc`). Both targets have pointers of 64 bits, the same sizes
and alignments, and the lowest byte first. So the module for x86-64 is taken before it is compiled, and its
text is changed where it names the machine:

- the triple, the layout of data, and the processor of each function;
- no function may become a call of `bcmp`, `memcmp` or `strlen`, which no C library gives here. The toolchain
  asks the same of its own modules for wasm64;
- each function that C calls is exported, behind the guard that the toolchain puts before its own exports: a
  call that a trap ended is never followed by another call, since it may have left half of its writes.

A module is refused that has anything else of x86-64, assembly, or a function of C that nobody gives here. Of
an unproved build the module is that of programs, whose `main` goes, with all that it alone calls. What they
call of C goes too: if any of it didn't, the linked module would import it, which tools/build-wasm refuses.
"""

import re

TRIPLE = "wasm64-unknown-unknown"
LAYOUT = "e-m:e-p:64:64-p10:8:8-p20:8:8-i64:64-i128:128-n32:64-S128-ni:1:10:20"
PROCESSOR = "lime1"
# The layout that can be changed. Both have pointers and integers of 64 bits aligned to 8, integers of 128
# bits aligned to 16, and the lowest byte first.
KNOWN = "e-m:e-p270:32:32-p271:32:32-p272:64:64-i64:64-i128:128-f80:128-n8:16:32:64-S128"
# What each function says of itself. The instructions on vectors are in all browsers since 2023.
HOW = '"no-builtin-bcmp" "no-builtin-memcmp" "no-builtin-strlen" "target-features"="+simd128" '
HOW += f'"target-cpu"="{PROCESSOR}"'
# Functions that a module may declare besides those of LLVM: those of heap.c, and the toolchain's own helpers.
GIVEN = {"rattle_alloc", "rattle_realloc", "rattle_dealloc", "fmod", "fmodf"}
# Functions of C that a module may declare, since what calls them goes.
UNUSED = {"__sysv_signal", "rattle_arg", "rattle_set_errno", "rattle_errno"}
OF_X86 = re.compile(r' "(probe-stack|stack-probe-size|target-features|tune-cpu)"="[^"]*"| sanitize_address')

# (the module has no words on linkage or visibility but `internal`)
DEFINED = re.compile(r'^define (?:internal )?([^@]*)@(?:([A-Za-z0-9_]+)|"([^"]+)")\(([^)]*)\) (.*)\{$')
DECLARED = re.compile(r'^declare [^@]*@("[^"]+"|[A-Za-z0-9_.$]+)\(')
# x86-64's shuffle of bytes gives 0 where the index has its highest bit, and else takes its lowest four bits;
# that of WebAssembly gives 0 for an index past 15.
SHUFFLE = "llvm.x86.ssse3.pshuf.b.128"
SHUFFLED = """
declare <16 x i8> @llvm.wasm.swizzle(<16 x i8>, <16 x i8>)
define internal <16 x i8> @shuffle_of_bytes(<16 x i8> %%of, <16 x i8> %%at) alwaysinline nounwind %s {
  %%kept = and <16 x i8> %%at, <%s>
  %%taken = call <16 x i8> @llvm.wasm.swizzle(<16 x i8> %%of, <16 x i8> %%kept)
  ret <16 x i8> %%taken
}
"""
GUARD = """
declare zeroext i1 @__rattle_enter() nounwind
declare void @__rattle_leave() nounwind
declare void @__rattle_trap() nounwind
"""
EXPORT = """
define %(returns)s @%(name)s(%(given)s) noinline nounwind %(how)s "wasm-export-name"="%(name)s" {
  %%was = call zeroext i1 @__rattle_enter()
  br i1 %%was, label %%spent, label %%run
spent:
  call void @__rattle_trap()
  unreachable
run:
  %(result)scall %(returns)s @"%(inner)s"(%(given)s)
  call void @__rattle_leave()
  %(ends)s
}
"""


class NotPortable(Exception):
    """The module has something that only x86-64 has, or that nobody gives."""


class Port:
    """The lines of a module for WebAssembly. Exports have these names; of an unproved build the functions
    behind them have longer ones."""

    def __init__(self, names):
        self.names, self.made, self.has_shuffle = set(names), [], False
        # Of each export the result, the name of the function behind it, and its parameters. An unproved build
        # has no exports, but functions of crates.
        self.exports, self.of_crates, self.declared = {}, {}, set()

    def add(self, line):
        if SHUFFLE in line:
            self.has_shuffle = True
            if line.startswith("declare"):
                return
            line = line.replace("@" + SHUFFLE, "@shuffle_of_bytes")
        if line.startswith("target triple"):
            line = f'target triple = "{TRIPLE}"\n'
        elif line.startswith("target datalayout"):
            if KNOWN not in line:
                raise NotPortable("another layout of data: " + line.strip())
            line = f'target datalayout = "{LAYOUT}"\n'
        elif line.startswith("attributes #"):
            line = re.sub(r'"target-cpu"="[^"]*"', HOW, OF_X86.sub("", line))
        elif line.startswith("declare"):
            self.declared.add(DECLARED.match(line)[1].strip('"'))
        elif line.startswith("define"):
            line = self.defined(line)
        elif re.search(r' asm (sideeffect )?"', line):
            raise NotPortable("assembly: " + line.strip())
        self.made.append(line)

    def defined(self, line):
        """The head of a function, which nobody but this module calls then."""
        found = DEFINED.match(line)
        if found is None:
            raise NotPortable("a function of an unknown form: " + line.strip()[:200])
        returns, plain, quoted, given, more = found.groups()
        name, inner = (plain or quoted).rpartition("::")[2], plain or quoted
        if plain in self.names:
            inner = "guarded " + plain
            self.exports[plain] = (returns.strip(), inner, given)
        elif name in self.names:
            self.of_crates[name] = (returns.strip(), inner, given)
        elif not line.startswith("define internal") and plain != "main":
            raise NotPortable("an export with another name: " + inner)
        return f'define internal {returns}@"{inner}"({given}) {more}{{\n'

    def lines(self):
        """All lines, with those of the exports."""
        found = self.exports or self.of_crates
        if found.keys() != self.names:
            raise NotPortable("the module lacks " + ", ".join(sorted(self.names - found.keys())))
        check_declared(self.declared, is_of_programs=not self.exports)
        if self.has_shuffle:
            self.made.append(SHUFFLED % (HOW, ", ".join(["i8 -113"] * 16)))
        return [*self.made, GUARD, *(guarded(name, *it) for name, it in found.items())]


def check_declared(names, is_of_programs):
    """Refuses functions that aren't there in WebAssembly."""
    for name in sorted(names):
        is_of_llvm = name.startswith("llvm.") and not name.startswith("llvm.x86.")
        is_of_c = is_of_programs and not name.startswith("llvm.")
        if not (is_of_llvm or is_of_c or name in GIVEN | UNUSED):
            raise NotPortable("a call of " + name)


def guarded(name, returns, inner, given):
    """The export of a function: its call, behind the guard."""
    kind = returns.split()[-1]
    result, ends = ("", "ret void") if kind == "void" else ("%result = ", f"ret {kind} %result")
    words = {"returns": returns, "name": name, "inner": inner, "given": given, "how": HOW}
    return EXPORT % {**words, "result": result, "ends": ends}


def ported(lines, names):
    """The lines of a module's text for WebAssembly, which exports functions with these names."""
    port = Port(names)
    for line in lines:
        port.add(line)
    return port.lines()
