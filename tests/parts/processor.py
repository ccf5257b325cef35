"""Tests that the programs say so where the processor lacks a feature that they were compiled for."""
import os
import subprocess

from parts.harness import Done
from parts.show_program import Program

# Of leaf 1 (the first in the C library's count) and of leaf 0x80000001 (the third): the features of x86-64-v2.
FEATURES = {"SSE3": 0, "SSSE3": 9, "CMPXCHG16B": 13, "SSE4.1": 19, "SSE4.2": 20, "POPCNT": 23, "LAHF": 64}
# Features that x86-64-v2 does not ask for: MONITOR, FMA, AVX, LZCNT.
OTHERS = {"MONITOR": 3, "FMA": 12, "AVX": 28, "LZCNT": 69}
SAID = b"this machine lacks a feature of x86-64-v2, which this program was built for: "
SAID += b"run it on another machine, or build it with --cpu x86-64\n"


def test(part):
    lacks = part.made_of("lacks.c")
    if not lacks or not part.has("nm"):
        return
    for name, program in (("tlvdump", part.program), ("tlvdump-show", Program(part).path)):
        symbols = subprocess.run(["nm", "-D", "--undefined-only", program], capture_output=True, text=True, check=True).stdout
        if "__x86_get_cpuid_feature_leaf" not in symbols:
            part.note(f"{name} asks nothing about the processor, so it is no program that rt has built: not tried")
            continue
        wanted = part.run(["--version"], program=program)
        for features, result in ((FEATURES, Done(127, b"", SAID)), (OTHERS, wanted)):
            for feature, number in features.items():
                got = part.run(["--version"], program=program, env=dict(os.environ, LD_PRELOAD=lacks, LACKS=str(number)))
                part.same(f"{name} without {feature}", got, result)
