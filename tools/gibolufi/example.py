"""The small example of `first-look`: a portion that is rolled back once, and then commits."""
import struct

# So much memory is enough for the example, and the unproved program looks at each byte of it.
CONFIGURATION = '{"mem_bytes":131072}\n'
BEGIN = 0x10000

# Each word from 0x10000 on, as assembly text and with what it is for.
PROGRAM = [
    (0x00000513, "addi x10,x0,0", "the hart begins: core 0,"),
    (0x000105B7, "lui x11,16", "whose kernel begins at"),
    (0x04058593, "addi x11,x11,64", "0x10040"),
    (0x04000613, "addi x12,x0,64", "and gets the address 0x40,"),
    (0x3E800893, "addi x17,x0,1000", "the call launch"),
    (0x00000073, "ecall", "launches it"),
    (0x00700293, "addi x5,x0,7", ""),
    (0x00562023, "sw x5,0(x12)", "stores 7 at 0x40: the portion has read 0 there"),
    (0x3E900893, "addi x17,x0,1001", "the call wait"),
    (0x00000073, "ecall", "waits for the kernel; x11 is what it returned"),
    (0x03058513, "addi x10,x11,48", "as a digit"),
    (0x3EB00893, "addi x17,x0,1003", "the call put"),
    (0x00000073, "ecall", "puts it into the output"),
    (0x00000513, "addi x10,x0,0", ""),
    (0x05D00893, "addi x17,x0,93", "the call exit"),
    (0x00000073, "ecall", "exits with 0"),
    (0x00052283, "lw x5,0(x10)", "the kernel begins: it reads the word"),
    (0x00128513, "addi x10,x5,1", "and adds 1"),
    (0x3EC00893, "addi x17,x0,1004", "the call done"),
    (0x00000073, "ecall", "returns the sum"),
]

# Who makes how many events, in this order.
SCHEDULE = "h0 7\nn0 3\nh0 2\nn0 3\nh0 1\nn0 7\nh0 7\nn0 1\n"


def image():
    """The words as an executable: an ELF header, one program header, and the words."""
    size = 4 * len(PROGRAM)
    header = bytes.fromhex("7f454c46010101") + bytes(9)
    header += struct.pack("<HHIIIIIHHHHHH", 2, 243, 1, BEGIN, 52, 0, 0, 52, 32, 1, 0, 0, 0)
    segment = struct.pack("<8I", 1, 84, BEGIN, BEGIN, size, size, 7, 4)
    return header + segment + b"".join(struct.pack("<I", word) for word, _, _ in PROGRAM)
