"""Wraps a flat image for 80010000h as a PS-X EXE: python3 mkexe.py IMAGE.bin OUT.exe"""
import struct
import sys

PLACE, STACK = 0x80010000, 0x801FFF00


def main(source, target):
    with open(source, 'rb') as file:
        body = file.read()
    body += bytes(-len(body) % 2048)
    head = b'PS-X EXE' + bytes(8) + struct.pack('<10I', PLACE, 0, PLACE, len(body), 0, 0, 0, 0, STACK, 0)
    with open(target, 'wb') as file:
        file.write(head.ljust(2048, b'\0') + body)


if __name__ == '__main__':
    if len(sys.argv) != 3:
        sys.exit(__doc__)
    main(*sys.argv[1:])
