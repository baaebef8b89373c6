import struct
import subprocess

gpu = subprocess.Popen(['psxgpu_tool', 'play'], stdin=subprocess.PIPE, stdout=subprocess.PIPE, bufsize=0)
END, GP0, READ, STAT = 0, 2, 4, 5


def send(kind, count, *words):
    gpu.stdin.write(struct.pack('<%dI' % (1 + len(words)), kind << 24 | count, *words))


gpu.stdin.write(b'PSXGPUC1')
send(GP0, 3, 0x02FFFFFF, 0, 0x00100010)     # fills 16 by 16 cells
send(GP0, 3, 0xC0000000, 0, 0x00010002)     # stores two of them
send(READ, 1)
print('two cells:', gpu.stdout.readline().decode().strip())
send(STAT, 1)
print('status:', gpu.stdout.readline().decode().strip())
send(END, 0)
print('end:', gpu.stdout.read().decode().strip())
