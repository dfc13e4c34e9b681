"""That libraries and programs have no instruction beyond the first level of x86-64, which every
such processor has. Arguments: the files. It knows the instructions of SSE3, SSSE3, SSE4, AVX, BMI
and the like by objdump's names. `tzcnt` is not one of them: older processors read it as `bsf`, and
compilers write it where both do the same.
"""

import re
import subprocess
import sys

LATER = re.compile(
    r"""
    # SSE3
    addsub[ps][sd] | h(add|sub)p[sd] | lddqu | movs[hl]dup | movddup | fisttp\w* | monitor | mwait
    # SSSE3
    | pabs[bwd] | palignr | ph(add|sub)(s?w|d) | pmaddubsw | pmulhrsw | pshufb | psign[bwd]
    # SSE4.1
    | (blend|blendv|dp|round)[ps][sd] | mpsadbw | packusdw | pblend(vb|w) | pcmpeqq | pextr[bdq]
    | pinsr[bdq] | phminposuw | p(max|min)(sb|sd|ud|uw) | pmov[sz]x\w+ | pmuldq | pmulld | ptest
    | extractps | insertps | movntdqa
    # SSE4.2 and later
    | crc32\w* | pcmp[ei]str[im] | pcmpgtq | popcnt[lqw]? | lzcnt[lqw]? | movbe\w* | andn | bextr
    | bls(i|r|msk) | bzhi | mulx | pdep | pext | rorx | s[ah][lr]x | ad[co]x | v[a-z]\w+ | xgetbv
    | aes\w+ | pclmul\w+ | sha\d\w+ | cmpxchg16b | lahf | sahf
    """,
    re.X,
)


def later(path):
    """The instructions of the file that a processor may lack, and how many it has in all."""
    text = subprocess.run(
        ["objdump", "-d", "--no-show-raw-insn", path], capture_output=True, text=True, check=True
    ).stdout
    names = re.findall(
        r"^ +[0-9a-f]+:\t(?:(?:rep\w*|lock|bnd|notrack|data16|cs|rex\S*) )*(\w+)", text, re.M
    )
    return sorted(
        {name for name in names if LATER.fullmatch(name) and name not in ("verr", "verw")}
    ), len(names)


failed = False
for path in sys.argv[1:]:
    found, count = later(path)
    print(
        f"processor: {path} has {count} instructions, "
        + (
            f"and these are of later processors: {' '.join(found)}"
            if found
            else "all of the first x86-64"
        )
    )
    failed = failed or bool(found) or not count
sys.exit(failed)
