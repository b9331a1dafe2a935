# The largest captured length is 262,144 bytes.
python3 - <<'END'
import struct

head = bytes.fromhex("0200000000010200000000fe0800")
with open("capture", "wb") as capture:
    capture.write(struct.pack("<IHHiIII", 0xA1B2C3D4, 2, 4, 0, 0, 262144, 1))
    for size in (0, 13, 14, 1518, 1519, 262144):
        frame = (head + bytes(size))[:size]
        capture.write(struct.pack("<IIII", 0, 0, size, size) + frame)
END
