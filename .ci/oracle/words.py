"""The words of instructions that guests are written in, and the writer of an executable."""
import struct

ECALL, EBREAK, FENCE, NOTHING = 0x73, 0x100073, 0xFF0000F, 0x13
LB, LH, LW, LBU, LHU = 0, 1, 2, 4, 5


def signed(number, bits=32):
    """A number of so many bits, read in two's complement."""
    number &= (1 << bits) - 1
    return number - (1 << bits) if number >> (bits - 1) else number


# Words, by their forms.


def register_word(funct7, rs2, rs1, funct3, rd, opcode=0x33):
    return funct7 << 25 | rs2 << 20 | rs1 << 15 | funct3 << 12 | rd << 7 | opcode


def immediate_word(imm, rs1, funct3, rd, opcode=0x13):
    return (imm & 0xFFF) << 20 | rs1 << 15 | funct3 << 12 | rd << 7 | opcode


def store_word(imm, rs2, rs1, funct3):
    return (imm >> 5 & 0x7F) << 25 | rs2 << 20 | rs1 << 15 | funct3 << 12 | (imm & 0x1F) << 7 | 0x23


def branch_word(offset, rs2, rs1, funct3):
    high, low = (offset >> 12 & 1) << 6 | offset >> 5 & 0x3F, (offset >> 1 & 0xF) << 1 | offset >> 11 & 1
    return high << 25 | rs2 << 20 | rs1 << 15 | funct3 << 12 | low << 7 | 0x63


def upper_word(imm, rd, opcode=0x37):
    return imm & 0xFFFFF000 | rd << 7 | opcode


def jump_word(offset, rd):
    high = (offset >> 20 & 1) << 31 | (offset >> 1 & 0x3FF) << 21
    return high | (offset >> 11 & 1) << 20 | (offset >> 12 & 0xFF) << 12 | rd << 7 | 0x6F


def load(kind, rd, rs1, imm):
    return immediate_word(imm, rs1, kind, rd, 0x03)


def addi(rd, rs1, imm):
    return immediate_word(imm, rs1, 0, rd)


def jump_to(register, rd=0):
    return immediate_word(0, register, 0, rd, 0x67)


def load_number(rd, number):
    """Two words that put a number into a register."""
    low = signed(number, 12)
    return [upper_word(number - low & 0xFFFFFFFF, rd), addi(rd, rd, low)]


def call(number, *arguments):
    """The words of a call with small arguments, or with those that are in registers."""
    return [*(addi(10 + place, 0, one) for place, one in enumerate(arguments)), addi(17, 0, number), ECALL]


def code_bytes(words):
    return b"".join(word.to_bytes(4, "little") for word in words)


def segment(address, words, permission):
    """A segment of these words."""
    data = code_bytes(words)
    return address, permission, data, len(data)


def executable(entry, segments):
    """An executable of some segments, each an address, a permission, its bytes and its size in memory."""
    offset = 52 + 32 * len(segments)
    numbers = 2, 243, 1, entry, 52, 0, 0, 52, 32, len(segments), 0, 0, 0
    table, body = b"\x7fELF\x01\x01\x01" + bytes(9) + struct.pack("<HHIIIIIHHHHHH", *numbers), b""
    for address, permission, data, size in segments:
        table += struct.pack("<8I", 1, offset + len(body), address, address, len(data), size, permission, 1)
        body += data
    return table + body
