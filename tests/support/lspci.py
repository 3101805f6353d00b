"""Devices of a file of names, and machines that seem to have them, for the real lspci."""
import re


def sampled_devices(text):
    """Every 200th device of the file with its vendor, and each of its subsystems."""
    devices = []
    vendor = device = None
    count = 0
    for line in text.split(b"\n"):
        if line.startswith(b"C "):
            break
        if match := re.match(rb"([0-9a-f]{4})  ", line):
            vendor = int(match[1], 16)
        elif match := re.match(rb"\t([0-9a-f]{4})  ", line):
            device = int(match[1], 16)
            count += 1
            if count % 200 == 0:
                devices.append((vendor, device, 0, 0))
        elif match := re.match(rb"\t\t([0-9a-f]{4}) ([0-9a-f]{4})  ", line):
            if count % 200 == 0 and len(devices) < 800:
                devices.append((vendor, device, int(match[1], 16), int(match[2], 16)))
    return devices


def dump(devices):
    """What `lspci -x` prints of such devices, as `lspci -F` reads it."""
    classes = [0x010180, 0x0300FF, 0x0C0330, 0x060000, 0x010802, 0xFF0000, 0x990000, 0x0101A0]
    lines = []
    for place, (vendor, device, subvendor, subdevice) in enumerate(devices):
        kind = classes[place % len(classes)]
        config = bytearray(64)
        config[0:2] = vendor.to_bytes(2, "little")
        config[2:4] = device.to_bytes(2, "little")
        config[9:12] = kind.to_bytes(3, "little")
        config[44:46] = subvendor.to_bytes(2, "little")
        config[46:48] = subdevice.to_bytes(2, "little")
        lines.append(f"{place // 256:02x}:{place // 8 % 32:02x}.{place % 8} Device")
        for row in range(0, 64, 16):
            lines.append(f"{row:02x}: " + " ".join(f"{b:02x}" for b in config[row : row + 16]))
        lines.append("")
    return "\n".join(lines) + "\n"
