#!/usr/bin/env python3
"""portable.py < x86.ll > any.ll: makes the LLVM code that the kit writes for x86-64 code for any processor with addresses of 64 bits. One instruction in it
is of x86 alone, a shuffle of bytes, which is written out; the script stops at any other."""
import re, sys

SHUFFLE = "@llvm.x86.ssse3.pshuf.b.128"
text = sys.stdin.read()
if SHUFFLE in text:
    text = re.sub(r"^declare .*" + re.escape(SHUFFLE) + r".*\n", "", text, flags=re.M).replace(SHUFFLE, "@portable_shuffle")
    body, whole = [], "zeroinitializer"
    for lane in range(16):
        body += [
            f"  %i{lane} = extractelement <16 x i8> %index, i32 {lane}",
            f"  %m{lane} = and i8 %i{lane}, 15",
            f"  %z{lane} = icmp slt i8 %i{lane}, 0",
            f"  %e{lane} = extractelement <16 x i8> %bytes, i8 %m{lane}",
            f"  %v{lane} = select i1 %z{lane}, i8 0, i8 %e{lane}",
            f"  %w{lane} = insertelement <16 x i8> {whole}, i8 %v{lane}, i32 {lane}",
        ]
        whole = f"%w{lane}"
    text += "\ndefine internal <16 x i8> @portable_shuffle(<16 x i8> %bytes, <16 x i8> %index) {\n" + "\n".join(body) + f"\n  ret <16 x i8> {whole}\n}}\n"
left = re.findall(r'@llvm\.x86\.[\w.]+|\bx86_fp80\b|\basm (?:sideeffect )?"[^"].*', text)
if left:
    sys.exit(f"portable: code for x86 alone: {sorted(set(left))}")
for word in ("probe-stack", "stack-probe-size", "target-cpu", "target-features"):
    text = re.sub(rf'^(attributes #.*?)"{word}"="[^"]*" *', r"\1", text, flags=re.M)
sys.stdout.write(text)
