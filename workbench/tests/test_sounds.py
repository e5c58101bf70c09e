"""Sounds: each header and each format of samples, with the samples that are expected by hand."""
import io
import os
import shutil
import struct
import wave

import pytest
from helpers import SECONDS
from rezkit_workbench import sounds
from rezkit_workbench.errors import Damaged, Refused, TooLarge
from rezkit_workbench.reading import Shown

RATE_22 = 0x56EE8BA3  # 22254.5454 hertz, which rounds to 22255
RATE_44 = 0xAC440000
ONE_COMMAND = struct.pack(">HHHIHHHI", 1, 1, 5, 0x80, 1, 0x8051, 0, 20)  # format 1, one synthesizer, bufferCmd: 20 bytes
TWO_COMMANDS = struct.pack(">HHHHHIHHI", 2, 0, 2, 44, 0, 100, 0x8050, 0, 22)  # format 2, timbreCmd and soundCmd: 22 bytes
needs_ffmpeg = pytest.mark.skipif(not shutil.which("ffmpeg"), reason="ffmpeg isn't there")


def standard(samples, length=None, rate=RATE_22, pointer=0):
    return struct.pack(">IIIIIBB", pointer, len(samples) if length is None else length, rate, 0, 0, 0, 60) + samples


def extended(samples, channels, frames, bits, rate=RATE_44):
    return struct.pack(">IIIIIBBI", 0, channels, rate, 0, 0, 0xFF, 60, frames) + bytes(22) + struct.pack(">H", bits) + bytes(14) + samples


def compressed(samples, channels, frames, number, form=bytes(4), bits=8, rate=RATE_44):
    return (struct.pack(">IIIIIBBI", 0, channels, rate, 0, 0, 0xFE, 60, frames) + bytes(14) + form + bytes(12)
            + struct.pack(">hHHH", number, 0, 0, bits) + samples)


def decoded(data):
    """(channels, bytes of a sample, rate, the samples' bytes) and the notes of a sound."""
    shown = sounds.KINDS[b"snd "](data, lambda kind: None)
    assert shown.ending == "wav" and shown.size is None
    with wave.open(io.BytesIO(shown.data)) as file:
        return (file.getnchannels(), file.getsampwidth(), file.getframerate(), file.readframes(file.getnframes())), shown.notes


def test_a_standard_header_of_both_formats():
    for commands in (ONE_COMMAND, TWO_COMMANDS):
        assert decoded(commands + standard(b"\x80\xFF\0\x40")) == ((1, 1, 22255, b"\x80\xFF\0\x40"), [])


def test_the_bytes_of_a_wav():
    shown = sounds.decode_sound(ONE_COMMAND + standard(b"\x80\x81", rate=0x2B110000), lambda kind: None)
    assert shown.data == (b"RIFF\x26\0\0\0WAVEfmt \x10\0\0\0\1\0\1\0" b"\x11\x2B\0\0\x11\x2B\0\0\1\0\x08\0" b"data\2\0\0\0\x80\x81")


def test_rates_are_rounded():
    for rate, hertz in ((0x00008000, 1), (0x0000FFFF, 1), (0x00017FFF, 1), (0x00018000, 2), (0xFFFFFFFF, 65536), (0x56220000, 22050)):
        assert decoded(ONE_COMMAND + standard(b"\1", rate=rate))[0][2] == hertz
    for rate in (0, 0x7FFF):
        with pytest.raises(Damaged, match="the rate of samples rounds to 0 at byte 28"):
            decoded(ONE_COMMAND + standard(b"\1", rate=rate))


def test_an_extended_header():
    assert decoded(ONE_COMMAND + extended(b"\1\2\3\4\5\6", 2, 3, 8)) == ((2, 1, 44100, b"\1\2\3\4\5\6"), [])
    assert decoded(ONE_COMMAND + extended(b"\x7F\xFE\x80\x01", 1, 2, 16)) == ((1, 2, 44100, b"\xFE\x7F\x01\x80"), [])
    assert decoded(ONE_COMMAND + extended(bytes(range(16)), 8, 1, 16))[0][:2] == (8, 2)


def test_what_follows_the_samples_is_left_out():
    assert decoded(ONE_COMMAND + standard(b"\1\2\3\4", length=3))[0][3] == b"\1\2\3"
    assert decoded(ONE_COMMAND + extended(b"\1\2\3\4\5\6", 2, 2, 8))[0][3] == b"\1\2\3\4"


@pytest.mark.parametrize("number, form, bits, samples, width, expected", (
    (0, bytes(4), 8, b"\0\x80\xFF\1", 1, b"\0\x80\xFF\1"),
    (0, b"????", 16, b"\1\2\xF0\0", 2, b"\2\1\0\xF0"),        # the id says that nothing is compressed
    (0, b"sowt", 16, b"\1\2\xF0\0", 2, b"\1\2\xF0\0"),
    (-1, b"raw ", 8, b"\0\x80\xFF\1", 1, b"\0\x80\xFF\1"),
    (-1, b"NONE", 8, b"\0\x80\xFF\1", 1, b"\0\x80\xFF\1"),
    (-1, b"NONE", 16, b"\1\2\xF0\0", 2, b"\2\1\0\xF0"),
    (-1, b"twos", 8, b"\0\x80\xFF\1", 1, b"\x80\0\x7F\x81"),  # from -128 to 127
    (-1, b"twos", 16, b"\1\2\xF0\0", 2, b"\2\1\0\xF0"),
    (-1, b"sowt", 8, b"\0\x80\xFF\1", 1, b"\x80\0\x7F\x81"),
    (-2, b"sowt", 16, b"\1\2\xF0\0", 2, b"\1\2\xF0\0"),
))
def test_formats_without_packing(number, form, bits, samples, width, expected):
    data = ONE_COMMAND + compressed(samples, 1, len(samples) // width, number, form, bits)
    assert decoded(data) == ((1, width, 44100, expected), [])


@needs_ffmpeg
def test_mace_three_to_one():
    """A packet of 2 bytes has 6 samples. Of the numbers 0 the tables of MACE make steps of 37, 64, 37, 37, 64, 37 and so on. A
    step is added to what was left of the sum, which then loses an eighth of itself: 37, 97, 122, 144, 190, 204, 216, 253,
    259, .. A sample keeps the upper byte of its sum, in both of its bytes. 3 makes 330 and 7 makes -38."""
    found, notes = decoded(ONE_COMMAND + compressed(bytes(4), 1, 2, 3))
    assert (found, notes) == ((1, 2, 44100, bytes(16) + b"\1\1" * 4), [])
    assert decoded(ONE_COMMAND + compressed(b"\3\0", 1, 1, 3))[0][3][:2] == b"\1\1"  # 0x014A
    assert decoded(ONE_COMMAND + compressed(b"\7\0", 1, 1, -1, b"MAC3"))[0][3][:2] == b"\xFF\xFF"  # 0xFFDA
    assert len(decoded(ONE_COMMAND + compressed(bytes(8), 2, 2, 3))[0][3]) == 2 * 2 * 2 * 6


@needs_ffmpeg
def test_mace_six_to_one():
    """A packet of 1 byte has 6 samples."""
    found, notes = decoded(ONE_COMMAND + compressed(bytes(5), 1, 5, 4))
    assert found[:3] == (1, 2, 44100) and len(found[3]) == 2 * 5 * 6 and notes == []
    assert len(decoded(ONE_COMMAND + compressed(bytes(6), 2, 3, -1, b"MAC6"))[0][3]) == 2 * 2 * 3 * 6


@needs_ffmpeg
def test_ima4():
    """A packet has a predictor of 9 bits, a step's number of 7 bits, and 64 samples of 4 bits, the lower ones first."""
    packet = b"\x10\0" + b"\x04\0\0" + bytes(29)  # 4096, step 7; then the numbers 4, 0, 0, 0, ..
    found, notes = decoded(ONE_COMMAND + compressed(packet, 1, 1, -1, b"ima4", 16))
    assert found[:3] == (1, 2, 44100) and notes == []
    assert struct.unpack("<64h", found[3]) == (4103, 4104, 4105) + (4105,) * 61  # steps 7, 9, 8, then 7 whose eighth is 0
    both = packet + b"\x20\0" + bytes(32)
    left_and_right = struct.unpack("<128h", decoded(ONE_COMMAND + compressed(both, 2, 1, -1, b"ima4", 16))[0][3])
    assert left_and_right[:6] == (4103, 8192, 4104, 8192, 4105, 8192)


@needs_ffmpeg
def test_the_laws_of_telephones():
    assert decoded(ONE_COMMAND + compressed(b"\xFF\0\x80", 1, 3, -1, b"ulaw", 16))[0][3] == struct.pack("<3h", 0, -32124, 32124)
    assert decoded(ONE_COMMAND + compressed(b"\xD5\x55", 1, 2, -1, b"alaw", 16))[0][3] == struct.pack("<2h", 8, -8)


def test_packed_samples_without_ffmpeg(tmp_path, monkeypatch):
    packed = ONE_COMMAND + compressed(bytes(4), 1, 2, 3)
    monkeypatch.setenv("PATH", str(tmp_path))
    with pytest.raises(Refused, match="^the format 'MAC3' is decoded by ffmpeg, which isn't there$"):
        decoded(packed)
    for body, said in (("exit 3", "it ended with 3"), ("echo one >&2; echo b\x1Bd >&2; exit 1", r"b\\x1bd"), ("exit 0", "it ended with 0")):
        (tmp_path / "ffmpeg").write_text("#!/bin/sh\n%s\n" % body)
        (tmp_path / "ffmpeg").chmod(0o755)
        with pytest.raises(Refused, match="^ffmpeg doesn't decode the format 'MAC3': %s$" % said):
            decoded(packed)
    monkeypatch.setattr(sounds, "SECONDS", 0.2)
    (tmp_path / "ffmpeg").write_text("#!/bin/sh\nexec /bin/sleep 30\n")
    with pytest.raises(Refused, match="^ffmpeg took more than 0 seconds for the format 'MAC3'$"):
        decoded(packed)
    (tmp_path / "ffmpeg").write_text("no program")
    with pytest.raises(Refused, match="^ffmpeg can't be run: Exec format error$"):
        decoded(packed)


def test_what_an_aifc_has():
    """Its rate is a floating-point number of 80 bits: 44100 is 1.01011000100010 in base two, times 2 to the 15th."""
    made = sounds.aifc_of(b"MAC3", 1, 44100, b"\1\2\3\4")
    assert made == (b"FORM\0\0\0\x44AIFC" b"FVER\0\0\0\4\xA2\x80\x51\x40" b"COMM\0\0\0\x18\0\1\0\0\0\2\0\x10\x40\x0E\xAC\x44" + bytes(6)
                    + b"MAC3\0\0" b"SSND\0\0\0\x0C" + bytes(8) + b"\1\2\3\4")
    assert sounds.extended_precision(1) == b"\x3F\xFF\x80" + bytes(7) and sounds.extended_precision(65536) == b"\x40\x0F\x80" + bytes(7)


def test_sounds_without_samples():
    beep = struct.pack(">HHHIHHHIHHI", 1, 1, 1, 0, 2, 44, 0, 0, 40, 1000, 60)
    table = struct.pack(">HHHHHI", 2, 0, 1, 0x803C, 512, 14) + bytes(512)
    memory = struct.pack(">HHHHHI", 2, 0, 1, 0x51, 0, 14) + standard(b"\1")
    for data in (beep, table, memory, struct.pack(">HHH", 2, 0, 0)):
        with pytest.raises(Refused, match="^has no samples: its commands are beeps, notes or wave tables$"):
            decoded(data)
    with pytest.raises(Refused, match="^has no samples: its header states none$"):
        decoded(ONE_COMMAND + standard(b""))
    with pytest.raises(Refused, match="^has no samples"):
        decoded(ONE_COMMAND + extended(b"\1\2", 1, 0, 16))


def test_what_is_not_decoded():
    for number in (1, 2, 5, -3):
        with pytest.raises(Refused, match="^the compression %d isn't decoded$" % number):
            decoded(ONE_COMMAND + compressed(b"\1", 1, 1, number))
    for form, bits in ((b"QDMC", 16), (b"raw ", 16), (b"twos", 24), (b"NONE", 0)):
        with pytest.raises(Refused, match="^samples of %d bits in the format '%s' aren't decoded$" % (bits, form.decode())):
            decoded(ONE_COMMAND + compressed(b"\1\2\3", 1, 1, -1, form, bits))
    with pytest.raises(Refused, match="^samples of 12 bits"):
        decoded(ONE_COMMAND + extended(b"\1\2\3", 1, 1, 12))
    with pytest.raises(Refused, match="^3 channels of the format 'ima4' aren't decoded$"):
        decoded(ONE_COMMAND + compressed(bytes(102), 3, 1, -1, b"ima4", 16))
    with pytest.raises(Refused, match="^more than 16777216 samples come of the format 'MAC6', and aren't decoded$"):
        decoded(ONE_COMMAND + compressed(bytes(2796203), 1, 2796203, 4))


def test_notes():
    found, notes = decoded(ONE_COMMAND + standard(b"\1\2\3", length=9))
    assert found[3] == b"\1\2\3" and notes == ["3 of the 9 stated bytes of samples are there."]
    found, notes = decoded(ONE_COMMAND + extended(b"\1\2\3\4\5\6\7", 2, 0x7FFFFFFF, 16))
    assert found[3] == b"\2\1\4\3" and notes == ["7 of the 8589934588 stated bytes of samples are there."]
    found, notes = decoded(ONE_COMMAND + standard(b"\1\2", pointer=0x1000))
    assert found[3] == b"\1\2" and notes == ["The header says that the samples are elsewhere in memory; what follows the header is played."]
    commands = struct.pack(">HHHHHIHHIHHI", 2, 0, 3, 0x8051, 0, 30, 0x8051, 0, 53, 0x8051, 0, 30)
    found, notes = decoded(commands + standard(b"\1") + standard(b"\2"))
    assert found[3] == b"\1" and notes == ["Other sounds of this resource that aren't played: 1."]


@pytest.mark.parametrize("data, place, said", (
    (b"\0\3\0\0", 0, "the format 3 is neither 1 nor 2"),
    (b"\0\0\0\0", 0, "the format 0 is neither 1 nor 2"),
    (b"\0\1\xFF\xFF" + bytes(20), 4, "393210 bytes are wanted and 20 are there"),
    (b"\0\2\0\0\xFF\xFF" + bytes(16), 22, "2 bytes are wanted and 0 are there"),
    (struct.pack(">HHHHHI", 2, 0, 1, 0x8051, 0, 0xFFFFFFF0), 0xFFFFFFF0 + 20, "1 bytes are wanted and 0 are there"),
    (ONE_COMMAND + standard(b"\1")[:20] + b"\1\0\1", 40, "$01 is the encoding of no sound header"),
    (ONE_COMMAND + standard(b"", length=5), 42, "no sample is there"),
    (ONE_COMMAND + extended(b"\1\2\3", 2, 1, 16), 84, "no sample is there"),
    (ONE_COMMAND + extended(b"\1", 0, 1, 8), 24, "0 channels, of which there can be 1 to 8,"),
    (ONE_COMMAND + extended(b"\1", 9, 1, 8), 24, "9 channels, of which there can be 1 to 8,"),
    (ONE_COMMAND + extended(b"\1", 0xFFFFFFFF, 0xFFFFFFFF, 8), 24, "4294967295 channels, of which there can be 1 to 8,"),
))
def test_damaged_sounds(data, place, said):
    with pytest.raises(Damaged) as caught:
        decoded(data)
    assert (caught.value.place, caught.value.said) == (place, said)


def wholes():
    yield ONE_COMMAND + standard(b"\1\2\3")
    yield TWO_COMMANDS + extended(b"\1\2\3\4", 2, 1, 16)
    yield ONE_COMMAND + compressed(b"\1\2\3\4", 1, 2, -1, b"twos", 16)


def test_each_is_cut_at_each_length():
    """One is shown where a sample of each channel is left."""
    shown = [[length for length in range(len(whole)) if attempt(whole[:length])] for whole in wholes()]
    assert shown == [[43, 44], [], [86, 87]]


def attempt(data):
    """Whether a sound is shown; what isn't is refused, and nothing else happens."""
    try:
        assert isinstance(sounds.decode_sound(data, lambda kind: None), Shown)
        return True
    except (Damaged, TooLarge, Refused):
        return False


def test_each_word_is_put_to_odd_numbers():
    ended = [attempt(whole[:place] + word + whole[place + 2:])
             for whole in wholes() for place in range(len(whole) - 1)
             for word in (b"\0\0", b"\0\1", b"\x7F\xFF", b"\x80\0", b"\xFF\xFF")]
    assert ended.count(True) > 300 and ended.count(False) > 300


@pytest.mark.parametrize("data", (
    ONE_COMMAND + standard(bytes(16 << 20)),
    ONE_COMMAND + extended(bytes(16 << 20), 1, 8 << 20, 16),
    b"\0\2\0\0\xFF\xFF" + struct.pack(">HHI", 0x8051, 0, 16 << 20) * 65535 + bytes(16 << 20),
), ids=("bytes", "words", "commands"))
def test_large_sounds_take_little_time(data):
    begin = os.times().user
    attempt(data)
    assert os.times().user - begin < SECONDS / 4
