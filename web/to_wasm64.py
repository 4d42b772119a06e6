"""Makes an LLVM module that was lowered for x86-64 one for wasm64.

The triple, the data layout and the processor change, as does what names the processor's stack. Each function to be
exported gets the attribute that names its export. The text of every function stays as it is: the sizes and the layouts
of both targets are the same, so what is compiled is still what was proved.
"""
import re

LAYOUT = "e-m:e-p:64:64-p10:8:8-p20:8:8-i64:64-i128:128-n32:64-S128-ni:1:10:20"
TRIPLE = "wasm64-unknown-unknown"
CPU = "lime1"
BUILTINS = " ".join(f'"no-builtin-{name}"' for name in ("bcmp", "memcmp", "strlen"))
GROUP = re.compile(r"attributes #(\d+) = \{(.*)\}")
DEFINES = re.compile(r"define [^@]*@(\w+)\(.*\) (?:local_unnamed_addr )?#(\d+) \{")


def attributes(line):
    line = re.sub(r' "(?:probe-stack|stack-probe-size)"="[^"]*"', "", line)
    return re.sub(r'"target-cpu"="[^"]*"', f'{BUILTINS} "target-cpu"="{CPU}"', line)


def retargeted(line):
    if line.startswith("target datalayout"):
        return f'target datalayout = "{LAYOUT}"'
    if line.startswith("target triple"):
        return f'target triple = "{TRIPLE}"'
    return attributes(line) if line.startswith("attributes #") else line


def to_wasm64(text, exports):
    """The text of the module for wasm64, in which these functions are exported."""
    lines = [retargeted(line) for line in text.split("\n")]
    groups = dict(match.groups() for match in map(GROUP.match, lines) if match)
    fresh, own = max(map(int, groups)) + 1, {}
    for place, line in enumerate(lines):
        match = DEFINES.match(line)
        if match and match[1] in exports:
            own[match[1]] = f'attributes #{fresh} = {{{groups[match[2]]} "wasm-export-name"="{match[1]}" }}'
            lines[place] = line.replace(f"#{match[2]} {{", f"#{fresh} {{")
            fresh += 1
    missing = set(exports) - set(own)
    if missing:
        raise SystemExit(f"the module defines no {', '.join(sorted(missing))}")
    return "\n".join(lines + list(own.values()))
