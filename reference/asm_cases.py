"""The stored texts and words of the programs assemble and disassemble, and what they must write."""

import struct

import assembly
import lines
import model

TEXT = b"""// A line for each form of the pages, and what may stand around it.
%s

 \t .inst 0x4501d820 // SQCADD Z0.B, Z0.B, Z1.B, #90
.inst 0x0//OUTSIDE
\tCADD Z7.S, Z7.S, Z31.S, #270\t // a carriage return ends this line\r
\r
SQRDMLSH H0, H1, V2.H[7]"""


def files(source):
    """Each stored file's path below the root, and its bytes."""
    text = TEXT % b"\n".join(line for line, _ in lines.BY_HAND)
    words, _ = assembly.assemble(text)
    yield "crates/assemble/stdin", text
    yield "crates/assemble/stdout", assembly.as_bytes(words)

    words = [word for word, _ in model.WORDS] + list(source.mix(500))
    data = struct.pack(f"<{len(words)}I", *words)
    yield "crates/disassemble/stdin", data
    yield "crates/disassemble/stdout", assembly.disassemble(data)[0]
