"""CRC32C, Castagnoli's sum, bit by bit."""


def crc32c(data, before=0):
    """Returns the sum of what has the sum `before`, with these bytes behind it."""
    total = before ^ 0xFFFFFFFF
    for byte in data:
        total ^= byte
        for _ in range(8):
            total = total >> 1 ^ (0x82F63B78 if total & 1 else 0)
    return total ^ 0xFFFFFFFF
