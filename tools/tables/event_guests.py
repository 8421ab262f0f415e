"""The guests whose events the table `tracked` of crates/label_rows has: one turn of each kind, with labels and
without."""
import collections
import json

Guest = collections.namedtuple("Guest", "name source public secret regions turns")
READ_ONE = "addi a0,x0,3\nlui a1,0x11\naddi a2,x0,1\naddi a7,x0,63\necall\n"
READ_EIGHT = READ_ONE.replace("x0,1", "x0,8") + "lw t0,0(a1)\nlw t1,4(a1)\nandi t2,t0,0xf0\n"
WRITE_ONE = "addi a0,x0,1\naddi a7,x0,64\necall\naddi a0,x0,0\naddi a7,x0,93\necall\n"
GUESTS = []


def guest(name, source, secret="", public="", turns=200, **region):
    """Adds a guest, whose lines may be parted by semicolons, and which may have one region."""
    regions = ""
    if region:
        regions = json.dumps({"regions": [{"id": 1, **region}]}, separators=(",", ":"))
    lines = source.replace("; ", "\n")
    GUESTS.append(Guest(name, lines + "\n", bytes.fromhex(public), bytes.fromhex(secret), regions, turns))


def each(form, names):
    """A line of a form for each name."""
    return "\n".join(form.replace("NAME", name) for name in names.split())


# ---- whole programs

BRANCH = "lbu t0,0(a1); addi t1,x0,89; bne t0,x0,1f; addi t1,x0,78; 1: sb t1,0(a1)\n"
COUNT = """lbu t0,0(a1); addi t1,x0,0
1: beq t0,x0,3f; andi t2,t0,1; beq t2,x0,2f; addi t1,t1,1; 2: srli t0,t0,1; jal x0,1b
3: andi t1,t1,3; sb t1,0(a1)
"""
PUNCT = """addi a0,x0,3; lui a1,0x11; addi a2,x0,64; addi a7,x0,63; ecall; add t5,a1,a0
addi s2,x0,0; addi s3,x0,0; addi t0,a1,0; addi t3,x0,46; addi t4,x0,63
1: beq t0,t5,4f; lbu t1,0(t0); bne t1,t3,2f; addi s2,s2,1; 2: bne t1,t4,3f; addi s3,s3,1
3: addi t0,t0,1; jal x0,1b
4: sltu s4,s2,s3; beq s4,x0,5f; addi s2,s3,0
5: andi s4,s4,1; andi s2,s2,15; sub s4,x0,s4; andi s4,s4,17; xori s4,s4,46; sb s4,0(a1)
addi a2,x0,1; addi a7,x0,64
6: beq s2,x0,7f; addi a0,x0,1; ecall; addi s2,s2,-1; jal x0,6b
7: addi a0,x0,0; addi a7,x0,93; ecall
"""
guest("low", READ_ONE + "lbu t0,0(a1); andi t0,t0,1; sb t0,0(a1)\n" + WRITE_ONE, "03")
guest("branch", READ_ONE + BRANCH + WRITE_ONE, "07")
guest("branch-in-a-region", READ_ONE + BRANCH + WRITE_ONE, "07", enter="0x10018", leave="0x10024", outs=["t1"])
guest("count", READ_ONE + COUNT + WRITE_ONE, "0b")
outs = ["t0", "t1", "t2"]
guest("count-in-a-region", READ_ONE + COUNT + WRITE_ONE, "0b", enter="0x10018", leave="0x10034", outs=outs)
guest("table", READ_ONE + "lbu t0,0(a1); add t0,t0,a1; lbu t1,256(t0); sb t1,0(a1)\n" + WRITE_ONE, "05")
guest("status", READ_ONE + "lbu a0,0(a1); addi a7,x0,93; ecall", "2a")
guest("short", READ_ONE + "lbu a2,0(a1); sltiu a2,a2,1\n" + WRITE_ONE, "00")
outs = ["s2", "s3", "s4", "t0", "t1", "t3", "t4"]
guest("punct", PUNCT, "3f2e3f783f3f613f", enter="0x10018", leave="0x10058", outs=outs)

# ---- each instruction

OPERATIONS = "add sub sll slt sltu xor srl sra or and mul mulh mulhsu mulhu div divu rem remu"
IMMEDIATES = "addi slti sltiu xori ori andi slli srli srai"
BRANCHES = "beq bne blt bge bltu bgeu"
guest("two-secrets", READ_EIGHT + each("NAME s2,t2,t1", OPERATIONS), "5a7103f10c0000ff", turns=26)
guest("first-secret", READ_EIGHT + each("NAME s2,t2,a2", OPERATIONS), "5a7103f10c0000ff", turns=26)
guest("second-secret", READ_EIGHT + each("NAME s2,a1,t2", OPERATIONS), "5a7103f10c0000ff", turns=26)
guest("no-secret", each("NAME s2,sp,s2", OPERATIONS), turns=18)
guest("immediates", READ_EIGHT + each("NAME s2,t2,13", IMMEDIATES), "5a7103f10c0000ff", turns=17)
guest("public-immediates", READ_EIGHT + each("NAME t0,a1,13", IMMEDIATES) + "\nadd x0,t0,t1", "5a", turns=18)
guest("branches", READ_EIGHT + each("NAME t2,t1,.+4", BRANCHES), "5a7103f10c0000ff", turns=14)
guest("half-public-branches", READ_EIGHT + each("NAME t2,x0,.+4; NAME x0,t1,.+4", BRANCHES), "0071", turns=20)
guest("public-branches", READ_EIGHT + each("NAME a1,x0,.+4; NAME x0,a1,.+4", BRANCHES), "0071", turns=20)
UPPER = "lui t0,0xfffff; auipc t1,0x12345; add t0,t0,t1; jal t2,.+4; addi t2,t2,1"
guest("upper-and-jump", READ_EIGHT + UPPER, "ff" * 8, turns=13)
guest("jump-register", READ_EIGHT + "auipc t3,0; jalr t1,8(t3); add x0,t1,t1", "ff" * 8, turns=11)
SECRET_JUMP = "andi t0,t0,{}; auipc t3,0; add t3,t3,t0; jalr t1,{}(t3); addi s2,x0,1; add s2,t1,t3"
guest("secret-jump", READ_EIGHT + SECRET_JUMP.format(4, 12), "ff" * 8, turns=13)
guest("jump-by-the-lowest-bit", READ_EIGHT + SECRET_JUMP.format(1, 12), "ff" * 8, turns=13)
PARTS = "andi t0,t0,0x80; sb t0,16(a1); sb t1,17(a1); sb x0,18(a1); sb t2,19(a1)\n"
LOADS = each("NAME s2,16(a1)", "lb lbu lh lhu lw") + "\n"
LOADS += "lb s3,17(a1); lh s3,17(a1); lhu s3,17(a1); lb s4,18(a1); lh s4,18(a1); lw x0,16(a1); add s5,x0,s4"
guest("loads", READ_EIGHT + PARTS + LOADS, "5a7103f10c0000ff", turns=25)
guest("public-loads", each("NAME t0,0(sp)", "lb lh lw lbu lhu"), turns=5)
PLACES = "andi t0,t0,4; add t0,t0,a1\n"
guest("loads-from-secret-places", READ_EIGHT + PLACES + each("NAME s2,0(t0)", "lb lh lw lbu lhu"), "04" * 8, turns=15)
STORES = each("NAME t1,0(t0)", "sb sh sw") + "\nlw s2,4(a1)"
guest("stores-at-secret-places", READ_EIGHT + PLACES + STORES, "04" * 8, turns=14)
STORES = "sw t1,16(a1); sh t2,18(a1); sb x0,17(a1); lw s2,16(a1)\n"
STORES += "sw x0,16(a1); lw s2,16(a1); sb t2,16(a1); lw s2,16(a1)"
guest("stores", READ_EIGHT + STORES, "5a7103f10c0000ff", turns=16)
guest("fence", READ_EIGHT + "fence; add t0,t0,x0", "5a", turns=10)
NOTHING = "add x0,t0,t1; lbu x0,0(a1); addi s2,x0,0; add t0,x0,x0; addi t0,t0,0"
guest("nothing-is-kept-in-x0", READ_EIGHT + NOTHING, "5a", turns=13)

# ---- each call with each of its endings

CALL = "addi a0,x0,{}; addi a7,x0,{}; ecall; addi a0,a0,0\n"
SET = "lui a1,0x11; addi a2,x0,2\n"
guest("read-public", SET + CALL.format(0, 63) + "lw t0,0(a1)", "5a", "010203", turns=7)
guest("read-public-to-its-end", SET + "addi a2,x0,9\n" + CALL.format(0, 63) * 2, "5a", "010203", turns=11)
guest("read-secret-to-its-end", SET + "addi a2,x0,9\n" + CALL.format(3, 63) * 2 + "lw t0,0(a1)", "5a71", turns=12)
guest("read-nothing", SET + "addi a2,x0,0\n" + CALL.format(3, 63) + CALL.format(0, 63), "5a71", "01", turns=11)
guest("read-nothing-to-nowhere", "addi a2,x0,0\n" + CALL.format(3, 63) + CALL.format(0, 63), "5a71", "01", turns=9)
guest("read-of-no-input", SET + CALL.format(1, 63) + CALL.format(-1, 63), "5a71", "01", turns=10)
OUTSIDE = "addi a2,x0,1; addi a1,x0,64\n"
guest("read-to-outside", OUTSIDE + CALL.format(3, 63) + CALL.format(0, 63), "5a71", "01", turns=10)
END = "addi a1,sp,63; addi a2,x0,2\n"
guest("read-over-the-end", END + CALL.format(3, 63) + "addi a2,x0,1\n" + CALL.format(3, 63), "5a71", turns=11)
LABELLED = READ_ONE + "lbu t0,0(a1); andi t0,t0,12; sb t0,1(a1)\n"
guest("public-bytes-have-no-label", LABELLED + CALL.format(0, 63) + "lw t0,0(a1)", "5a", "71", turns=13)
AGAIN = "addi a1,a1,1\n" + CALL.format(3, 63) + "lw t0,-1(a1)"
guest("secret-bytes-have-a-new-label", LABELLED + AGAIN, "5a71", turns=14)
guest("write", LABELLED + "addi a2,x0,3\n" + CALL.format(1, 64) + CALL.format(2, 64), "5a", turns=17)
guest("write-to-no-output", LABELLED + CALL.format(0, 64) + CALL.format(3, 64), "5a", turns=16)
NOTHING = "addi a2,x0,0\n" + CALL.format(1, 64)
guest("write-nothing", LABELLED + NOTHING + "addi a1,x0,0\n" + CALL.format(1, 64), "5a", turns=18)
guest("write-from-outside", LABELLED + "addi a1,x0,0\n" + CALL.format(1, 64), "5a", turns=13)
guest("write-over-the-end", END + CALL.format(1, 64) + "addi a2,x0,1\n" + CALL.format(1, 64), turns=11)
TOO_MUCH = "lui a1,0x10; lui a2,0x100; addi a2,a2,{}\n"
guest("write-over-the-limit", TOO_MUCH.format(1) + CALL.format(1, 64), turns=7)
BREAKS = "addi a7,x0,214; addi a0,x0,0; ecall; lui s2,1; add a0,a0,s2; ecall; sub a0,a0,s2; ecall; sub a0,a0,s2; ecall"
guest("brk", BREAKS + "; addi a0,x0,-1; ecall; addi a0,sp,64; ecall; addi a0,sp,65; ecall", turns=16)
guest("secret-brk", READ_EIGHT + "addi a7,x0,214; add a0,t2,x0; ecall; addi a0,a0,0", "5a", turns=12)
guest("unknown-calls", SET + CALL.format(1, 0) + CALL.format(1, 65) + CALL.format(1, -1), turns=14)
SECRETS = "lbu t0,0(a1); andi t1,t0,1; addi a0,t1,{}; add a1,a1,t1; add a2,t1,t1; {}; ecall; add a0,a0,a1"
guest("secret-arguments-of-a-write", READ_ONE + SECRETS.format(1, "addi a7,x0,64"), "0a", turns=13)
guest("secret-arguments-of-a-read", READ_ONE + SECRETS.format(3, "addi a7,x0,63"), "0a71", turns=13)
guest("secret-arguments-of-an-unknown-call", READ_ONE + SECRETS.format(3, "addi a7,x0,66"), "0a", turns=13)
guest("secret-number", READ_ONE + SECRETS.format(3, "add a7,t0,t1"), "0a", turns=13)
guest("secret-number-of-an-exit", READ_ONE + "lbu t0,0(a1); addi a7,t0,83; addi a0,t0,0; ecall", "0a", turns=13)
guest("exit", "addi a0,x0,-1; addi a7,x0,93; ecall")
guest("exit-group", "addi a0,x0,7; addi a7,x0,94; ecall")
guest("secret-exit-group", READ_EIGHT + "slli a0,t0,4; addi a7,x0,94; ecall", "0a")

# ---- regions

PARTS_OF_A_REGION = READ_EIGHT + """1: add t2,t2,x0; andi s2,t1,3; beq s2,x0,2f; addi s3,x0,7
2: sb s3,8(a1); sb t1,9(a1); lbu s4,9(a1)
3: add s5,t2,x0; add s5,s2,s3; add s5,s4,s4; lw s5,8(a1); lbu s5,15(a1); addi a0,s2,0; addi a7,x0,93; ecall
"""
RANGES = [{"base": "a1", "offset": 8, "length": 2}, {"offset": 0x1100F, "length": 1}]
PLACED = {"enter": "0x10020", "leave": "0x1003c", "outs": ["s4", "s2", "s3"], "keep": ["t2"], "ranges": RANGES}
for number, secret in enumerate(("5a7103f10c0000ff", "5a7103f1070000ff")):
    guest(f"parts-of-a-region-{number}", PARTS_OF_A_REGION, secret, **PLACED)
guest("clean-region", "1: addi s2,x0,1; 2: addi s3,s2,1", enter="0x10000", leave="0x10004", outs=["s2"], turns=4)
guest("empty-region", "fence; addi s3,x0,1", enter="0x10000", leave="0x10004", turns=4)
LOOP = READ_EIGHT + "1: andi t2,t2,7; addi s2,s2,1; 2: addi s3,s3,1; bltu s3,t2,1b; add s4,s2,s2"
guest("region-twice", LOOP, "5a7103f10c0000ff", enter="0x10020", leave="0x10028", outs=["s2", "t2"], turns=15)
INSIDE = "andi s2,t1,4; add s2,s2,a1; lw s3,0(s2); sw s3,0(s2); auipc s4,0; andi s2,t1,4; sub s4,s4,s2; jalr s4,20(s4)"
guest("jumps-loads-and-stores-in-a-region", READ_EIGHT + INSIDE + "; add s2,s2,s2", "5a7103f10c0000ff", turns=19,
      id=300, enter="0x10020", leave="0x10040", outs=["s2", "s3", "s4"], ranges=[{"base": "a1", "length": 8}])

# ---- each refusal

guest("illegal", "addi t0,x0,1; .word 0")
guest("illegal-shift", ".word 0x40001013")
guest("fetch-outside", "jalr x0,0(x0)")
guest("fetch-over-the-end", "addi t0,sp,64; jalr t1,0(t0)")
guest("fetch-unaligned-by-a-jump", ".word 0x0020006f")
guest("fetch-unaligned-by-a-register", "lui t0,0x10; jalr x0,2(t0)")
guest("fetch-unaligned-by-a-branch", ".word 0x00000163")
guest("branch-not-taken", ".word 0x00001163", turns=1)
guest("load-outside", READ_ONE + "lbu t0,0(a1); slli t0,t0,12; lw t1,0(t0)", "05")
guest("load-over-the-end", "lw t0,60(sp); lw t0,61(sp)")
guest("store-outside", "sw t0,60(sp); sh t0,62(sp); sb t0,63(sp); sh t0,63(sp)")
guest("breakpoint", "addi t0,x0,1; ebreak")
SPOILT = READ_ONE + "lbu t0,0(a1); lui t1,0x10; sb t0,36(t1); addi x0,x0,0; addi x0,x0,0"
guest("secret-code", SPOILT, "13")
guest("secret-code-before-illegal", SPOILT, "00")
guest("secret-code-by-its-last-byte", SPOILT.replace("36(", "39("), "00")
guest("secret-code-is-overwritten", SPOILT.replace("addi x0,x0,0; addi x0,x0,0", "sb x0,36(t1)"), "13", turns=9)
guest("undeclared-register", "addi t0,x0,1; addi t1,x0,2", enter="0x10000", leave="0x10008", outs=["t0"])
guest("x0-is-always-declared", "addi x0,x0,1; addi t1,x0,2", enter="0x10000", leave="0x10004", turns=4)
THREE = [{"base": "sp", "offset": -3, "length": 3}]
guest("undeclared-byte", "sb t0,-1(sp); sw t0,-4(sp)", enter="0x10000", leave="0x10008", ranges=THREE)
BROKEN = READ_EIGHT + "addi t1,t1,1; addi t2,t0,0"
guest("keep-broken", BROKEN, "5a71", enter="0x10020", leave="0x10028", keep=["t2", "t1"])
KEPT = READ_EIGHT + "addi t1,t1,1; addi t1,t1,-1; add t1,t1,x0"
guest("kept-registers-at-the-leave", KEPT, "5a7103f10c0000ff", turns=13,
      enter="0x10020", leave="0x10028", keep=["t1"])
guest("call-in-a-region", "addi a7,x0,66; ecall", enter="0x10000", leave="0x10008", outs=["a0", "a7"])
guest("exit-in-a-region", "addi a7,x0,93; ecall", enter="0x10000", leave="0x10008", outs=["a0", "a7"])
FAR = [{"base": "sp", "offset": 60, "length": 4}, {"base": "sp", "offset": 61, "length": 4}]
guest("range-outside", "addi t0,x0,1", enter="0x10000", leave="0x10004", ranges=FAR)
BASES = [{"base": "a1", "length": 1}, {"base": "t0", "length": 1}]
guest("secret-base", READ_EIGHT + "addi s2,x0,1", "5a7103f1", enter="0x10020", leave="0x10024", ranges=BASES)
guest("secret-base-before-a-range-outside", READ_EIGHT + "addi s2,x0,1", "5a7103f1", enter="0x10020", leave="0x10024",
      ranges=[{"length": 1}, *BASES])
guest("fault-in-a-region", "lw t0,0(x0)", enter="0x10000", leave="0x10004", outs=["t0"])
