"""The texts whose trees, or whose calls, are deepest within the limits, for bench/texts, bench/attacks and
tests/program."""


def nested(depth, inner, word="if p4 == 1 then\n"):
    """Lines inside of `if`s, one inside another."""
    return word * depth + inner + "endif\n" * depth


def deepest():
    """An orchestra of 19 opcodes that call one another inside of 99 `if`s each, with 980 signs in the innermost."""
    inner = "k1=" + "-" * 980 + "k1\n"
    text = ""
    for n in range(19):
        text += f"opcode D{n},0,0\nk1=0\n" + nested(99, inner, "if k1 == 1 then\n") + "endop\n"
        inner = f"D{n}\n"
    return text + "instr 1\nD18\nendin\n"


def deepest_calls():
    """An orchestra of 998 opcodes, each of which but the first calls the one before."""
    text = "opcode D0,0,0\nk1=p4\nendop\n"
    for n in range(1, 998):
        text += f"opcode D{n},0,0\nk1=p4\nD{n - 1}\nendop\n"
    return text + "instr 1\nD997\na1=p4\nout a1\nendin\n"
