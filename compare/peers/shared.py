"""What the comparisons with readers of others share: sections in packets, packets in a stream that ffmpeg makes, and the project's programs."""
import os
import shutil
import subprocess

root = os.path.dirname(os.path.dirname(os.path.dirname(os.path.abspath(__file__))))
out = os.path.join(root, "target", "peers")
PACKET_BYTES = 188


def crc(section):
    remainder = 0xFFFFFFFF
    for byte in section:
        remainder ^= byte << 24
        for _ in range(8):
            remainder = (remainder << 1 ^ (0x04C11DB7 if remainder & 1 << 31 else 0)) & 0xFFFFFFFF
    return remainder.to_bytes(4, "big")


def records_on(pid, feed):
    """The records of sections on a PID, to one that is cut."""
    while len(feed) >= 5:
        end = 5 + ((feed[3] & 0x0F) << 8 | feed[4])
        if len(feed) < end:
            return
        if feed[0] << 8 | feed[1] == pid:
            yield feed[:end]
        feed = feed[end:]


def packets(pid, sections, apart):
    """ISO/IEC 13818-1, 2.4.3 and 2.4.4: sections one behind another, pointer_field counts what is left of the one before; or each in packets of its own."""
    rest, counter = b"", 0
    while rest or sections:
        room = PACKET_BYTES - 4
        starts = bool(sections) and len(rest) + 2 <= room and not (apart and rest)
        payload = bytes([len(rest)]) if starts else b""
        taken = rest[: room - len(payload)]
        rest = rest[len(taken) :]
        payload += taken
        while starts and sections and len(payload) < room:
            section = sections.pop(0)
            part = section[: room - len(payload)]
            payload, rest = payload + part, section[len(part) :]
            if apart:
                break
        head = bytes([0x47, (0x40 if starts else 0) | pid >> 8, pid & 0xFF, 0x10 | counter])
        counter = (counter + 1) % 16
        yield (head + payload).ljust(PACKET_BYTES, b"\xff")


def broadcast():
    """A stream with null packets, where ffmpeg is installed."""
    if shutil.which("ffmpeg") is None:
        print("left out: ffmpeg is not installed; the streams have the packets of the guide alone")
        return []
    path = os.path.join(out, "broadcast.ts")
    picture = ["-f", "lavfi", "-i", "testsrc2=size=64x48:rate=5:duration=20", "-c:v", "mpeg2video", "-muxrate", "1500k"]
    subprocess.run(["ffmpeg", "-hide_banner", "-loglevel", "error", "-y", *picture, "-f", "mpegts", path], check=True)
    stream = open(path, "rb").read()
    return [stream[at : at + PACKET_BYTES] for at in range(0, len(stream), PACKET_BYTES)]


def with_guide(stream, guide):
    """Each packet of the guide in the place of a null packet; what finds none stands at the end."""
    guide = list(guide)
    is_null = lambda packet: packet[1] & 0x1F == 0x1F and packet[2] == 0xFF
    return b"".join([guide.pop(0) if guide and is_null(packet) else packet for packet in stream] + guide)


def run(program, data):
    return subprocess.run([os.path.join(root, "run"), program], input=data, stdout=subprocess.PIPE, check=True, env={**os.environ, "PETRIZOLU_BUILT": "1"}).stdout


def first_difference(name, who, key, here, there):
    at = next((n for n, (a, b) in enumerate(zip(here, there)) if a != b), min(len(here), len(there)))
    print(f"{name}: {who} DIFFERS in {key}, entry {at}: {here[at : at + 1]} here, {there[at : at + 1]} there")
