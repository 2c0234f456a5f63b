"""Instructions as bin/asm370 takes them: the table of docs/INSTRUCTIONS.md, and the text of an instruction's bytes."""
from __future__ import annotations

from typing import Any

# operands of a form: what is where in the bytes
RR = "{r1},{r2}"
R1 = "{r1}"
SVC = "{i}"
RX = "{r1},{d2}({r2},{b2})"
RS = "{r1},{r2},{d2}({b2})"
SHIFT = "{r1},{d2}({b2})"
SI = "{d2}({b2}),X'{i:02X}'"
S = "{d2}({b2})"
SS = "{d2}({l},{b2}),{d3}({b3})"
SS2 = "{d2}({l1},{b2}),{d3}({l2},{b3})"

TABLE = {
    RR: """05 BALR 06 BCTR 07 BCR 08 SSK 09 ISK 0E MVCL 0F CLCL 10 LPR 11 LNR 12 LTR 13 LCR 14 NR 15 CLR 16 OR 17 XR 18 LR
        19 CR 1A AR 1B SR 1C MR 1D DR 1E ALR 1F SLR""",
    R1: "04 SPM",
    SVC: "0A SVC",
    RX: """40 STH 41 LA 42 STC 43 IC 44 EX 45 BAL 46 BCT 47 BC 48 LH 49 CH 4A AH 4B SH 4C MH 4E CVD 4F CVB 50 ST 54 N 55 CL
        56 O 57 X 58 L 59 C 5A A 5B S 5C M 5D D 5E AL 5F SL""",
    RS: "86 BXH 87 BXLE 90 STM 98 LM B6 STCTL B7 LCTL BA CS BB CDS BD CLM BE STCM BF ICM",
    SHIFT: "88 SRL 89 SLL 8A SRA 8B SLA 8C SRDL 8D SLDL 8E SRDA 8F SLDA",
    SI: "91 TM 92 MVI 94 NI 95 CLI 96 OI 97 XI AC STNSM AD STOSM",
    S: "80 SSM 82 LPSW 93 TS 9C SIO 9D TIO 9E HIO 9F TCH",
    SS: "D1 MVN D2 MVC D3 MVZ D4 NC D5 CLC D6 OC D7 XC DC TR DD TRT",
    SS2: "F1 MVO F2 PACK F3 UNPK",
}

INSTRUCTIONS = {
    int(code, 16): (name, form)
    for form, text in TABLE.items()
    for code, name in zip(text.split()[::2], text.split()[1::2])
}

# the second byte says which of two it is; this machine takes both alike
ALIKE = {"9C01": "SIOF", "9E01": "HDV"}


def length(first: int) -> Any:
    """How many bytes an instruction has, by its first byte."""
    return (2, 4, 4, 6)[first >> 6]


def text_of(code: Any) -> tuple:
    """The name and the operands of an instruction's bytes; of an unknown code DC and the bytes."""
    code = code[: length(code[0])]
    if code[0] not in INSTRUCTIONS or len(code) < length(code[0]):
        return "DC", f"X'{code.hex().upper()}'"
    name, form = INSTRUCTIONS[code[0]]
    name = ALIKE.get(code[:2].hex().upper(), name)
    return name, form.format(**fields(code))


def fields(code: Any) -> dict:
    """The fields of an instruction's bytes, by the names in the forms above."""
    code = code + bytes(6)
    second, third = int.from_bytes(code[2:4], "big"), int.from_bytes(code[4:6], "big")
    return {
        "i": code[1],
        "r1": code[1] >> 4,
        "r2": code[1] & 15,
        "l": code[1] + 1,
        "l1": (code[1] >> 4) + 1,
        "l2": (code[1] & 15) + 1,
        "b2": second >> 12,
        "d2": second & 0xFFF,
        "b3": third >> 12,
        "d3": third & 0xFFF,
    }


def place_of(code: Any, registers: Any) -> Any:
    """The address of the storage operand of an instruction of forms RX, RS, SI and S, modulo 2^24."""
    name, form = INSTRUCTIONS[code[0]]
    found = fields(code)
    place = found["d2"] + (registers[found["b2"]] if found["b2"] else 0)
    if form == RX and found["r2"]:
        place += registers[found["r2"]]
    return place & 0xFFFFFF


def storage_operands(code: bytes, registers: Any) -> list[int]:
    """The addresses of an instruction's operands in storage, and of a branch by address, modulo 2^24."""
    if not code or code[0] not in INSTRUCTIONS or len(code) < length(code[0]):
        return []
    form = INSTRUCTIONS[code[0]][1]
    # SIO, TIO, HIO and TCH name a device
    if form in (RX, RS, SI) or form == S and code[0] & 0xFC != 0x9C:
        return [place_of(code, registers)]
    if form not in (SS, SS2):
        return []
    found = fields(code)
    return [
        found[displacement] + (registers[found[base]] if found[base] else 0) & 0xFFFFFF
        for base, displacement in (("b2", "d2"), ("b3", "d3"))
    ]


def under_execute(code: Any, target: Any, registers: Any) -> Any:
    """The target of EX as it is carried out."""
    register = code[1] >> 4
    joined = target[1] | (registers[register] & 255 if register else 0)
    return bytes([target[0], joined]) + target[2:]
