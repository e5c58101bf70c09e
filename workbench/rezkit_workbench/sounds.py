"""Sounds as WAV: the resources 'snd ' of the formats 1 and 2.

Source: Inside Macintosh: Sound, chapter 2, 'Sound Manager': sound resources, sound headers, sound commands. The names of
formats are those of the Sound Manager 3.

A resource has commands. A command with data names the place of a sound header, and the samples follow the header:

    standard    one channel of 8 bits
    extended    8 or 16 bits, and the number of channels
    compressed  samples of one of the formats in PLAIN and PACKED

The first such command is decoded. Samples of 8 bits go from 0 to 255, as WAV has them too; those of 'twos' and 'sowt' have a
sign. The rate of samples is fixed-point with 16 bits after the point; WAV gets it rounded to whole hertz, and a rate that
rounds to 0 is refused. Loops are played once. Samples that are packed go through `ffmpeg` as AIFF-C, and are refused where
there is no ffmpeg. Where fewer bytes of samples are there than the header states, those that are there are decoded.
"""
import array
import io
import shutil
import struct
import subprocess
import sys
import wave

from .errors import Damaged, Refused
from .reading import Reader, Shown
from .roman import four, printable

WITH_DATA, SOUND, BUFFER = 0x8000, 80, 81  # a bit and two numbers of commands
STANDARD, COMPRESSED, EXTENDED = 0x00, 0xFE, 0xFF
ENCODING = 20  # its place in a sound header
MOST_CHANNELS, MOST_PACKED_CHANNELS = 8, 2
MOST_UNPACKED = 16777216  # samples that come of packed ones
SECONDS = 20  # that ffmpeg may take
NOT_COMPRESSED, BY_NUMBER, BY_FORMAT = 0, {3: b"MAC3", 4: b"MAC6"}, (-1, -2)  # compression ids
AIFC_VERSION = 0xA2805140


def same(data):
    """Samples of 8 bits from 0 to 255."""
    return data


def signed_bytes(data):
    """Samples of 8 bits with a sign, made to go from 0 to 255."""
    return data.translate(bytes(byte ^ 0x80 for byte in range(256)))


def words(order):
    """What makes of samples of 16 bits in this order those of this machine, which the module wave takes."""
    def converted(data):
        found = array.array("h", data)
        if order != sys.byteorder:
            found.byteswap()
        return found
    return converted


PLAIN = {(b"raw ", 8): same, (b"NONE", 8): same, (b"NONE", 16): words("big"), (b"twos", 8): signed_bytes, (b"twos", 16): words("big"),
         (b"sowt", 8): signed_bytes, (b"sowt", 16): words("little")}  # by format and bits of a sample
PACKED = {b"MAC3": (2, 6), b"MAC6": (1, 6), b"ima4": (34, 64), b"ulaw": (1, 1), b"alaw": (1, 1)}  # bytes and samples of a packet


def decode_sound(data, beside):
    """The first sound of a 'snd '. Refused where no command has samples, and where their format isn't decoded."""
    places = header_places(Reader(data))
    if not places:
        raise Refused("has no samples: its commands are beeps, notes or wave tables")
    notes = []
    encoding = Reader(data, places[0] + ENCODING).byte()
    if encoding not in HEADERS:
        raise Damaged(places[0] + ENCODING, "$%02X is the encoding of no sound header" % encoding)
    reader = Reader(data, places[0])
    if reader.long():
        notes.append("The header says that the samples are elsewhere in memory; what follows the header is played.")
    wav = HEADERS[encoding](reader, notes)
    if len(places) > 1:
        notes.append("Other sounds of this resource that aren't played: %d." % (len(places) - 1))
    return Shown("wav", wav, None, notes)


def header_places(reader):
    """The places of the sound headers that the commands name, each once, in the order of the commands."""
    form = reader.word()
    if form not in (1, 2):
        raise Damaged(0, "the format %d is neither 1 nor 2" % form)
    count = reader.word()  # in format 2 a number that programs use
    if form == 1:
        reader.take(6 * count)
    places = {}
    for _ in range(reader.word()):
        command, _, place = reader.word(), reader.word(), reader.long()
        if command in (WITH_DATA | SOUND, WITH_DATA | BUFFER):
            places[place] = None
    return list(places)


# The three headers. Each reader stands after the first field.

def standard(reader, notes):
    """One channel of 8 bits."""
    begin = reader.place - 4
    length, rate = reader.long(), rate_of(reader)
    reader.take(begin + 22 - reader.place)
    return wav_of(1, 1, rate, samples_of(reader, length, 1, notes))


def extended(reader, notes):
    """Samples that aren't compressed, of several channels."""
    channels, rate, frames = several(reader)
    reader.take(22)  # AIFF's rate, and three pointers
    bits = reader.word()
    reader.take(14)
    return plain(reader, b"NONE", bits, channels, rate, frames, notes)


def compressed(reader, notes):
    """Samples of the format that the header states by its name or by a number."""
    channels, rate, frames = several(reader)
    reader.take(14)  # AIFF's rate, and a pointer
    form = reader.take(4)
    reader.take(12)
    number = reader.integer()
    reader.take(4)
    bits = reader.word()
    if number == NOT_COMPRESSED:
        form = form if (form, bits) in PLAIN else b"NONE"
    elif number not in BY_FORMAT:
        form = BY_NUMBER.get(number)
    if form is None:
        raise Refused("the compression %d isn't decoded" % number)
    if form in PACKED:
        return unpacked(reader, form, channels, rate, frames, notes)
    return plain(reader, form, bits, channels, rate, frames, notes)


HEADERS = {STANDARD: standard, EXTENDED: extended, COMPRESSED: compressed}


def several(reader):
    """The channels, the rate and the number of frames, with which both longer headers begin."""
    place = reader.place
    channels = reader.long()
    if not 1 <= channels <= MOST_CHANNELS:
        raise Damaged(place, "%d channels, of which there can be 1 to %d," % (channels, MOST_CHANNELS))
    rate = rate_of(reader)
    reader.take(10)  # the loop, the encoding, the note
    return channels, rate, reader.long()


def rate_of(reader):
    """Samples in a second."""
    place = reader.place
    rate = (reader.long() + 0x8000) >> 16
    if rate == 0:
        raise Damaged(place, "the rate of samples rounds to 0")
    return rate


# Samples.

def samples_of(reader, length, block, notes):
    """So many bytes of samples, or whole blocks of those that are there."""
    if length == 0:
        raise Refused("has no samples: its header states none")
    if reader.left() < block:
        raise Damaged(reader.place, "no sample is there")
    if length > reader.left():
        notes.append("%d of the %d stated bytes of samples are there." % (reader.left(), length))
    length = min(length, reader.left())
    return reader.take(length - length % block)


def plain(reader, form, bits, channels, rate, frames, notes):
    """WAV of samples that aren't packed."""
    if (form, bits) not in PLAIN:
        raise Refused("samples of %d bits in the format %s aren't decoded" % (bits, four(form)))
    width = bits // 8
    samples = samples_of(reader, frames * channels * width, channels * width, notes)
    return wav_of(channels, width, rate, PLAIN[form, bits](samples))


def unpacked(reader, form, channels, rate, frames, notes):
    """WAV of packed samples. A frame has a packet of each channel."""
    if channels > MOST_PACKED_CHANNELS:
        raise Refused("%d channels of the format %s aren't decoded" % (channels, four(form)))
    length, count = PACKED[form]
    samples = samples_of(reader, frames * channels * length, channels * length, notes)
    if len(samples) // length * count > MOST_UNPACKED:
        raise Refused("more than %d samples come of the format %s, and aren't decoded" % (MOST_UNPACKED, four(form)))
    out = by_ffmpeg(aifc_of(form, channels, rate, samples), form)
    return wav_of(channels, 2, rate, out[:len(out) - len(out) % (2 * channels)])


def by_ffmpeg(aifc, form):
    """Samples of 16 bits in the order of this machine, of an AIFF-C."""
    program = shutil.which("ffmpeg")
    if not program:
        raise Refused("the format %s is decoded by ffmpeg, which isn't there" % four(form))
    order = "s16le" if sys.byteorder == "little" else "s16be"
    call = [program, "-nostdin", "-v", "error", "-threads", "1", "-f", "aiff", "-i", "pipe:0", "-f", order, "pipe:1"]
    try:
        ran = subprocess.run(call, input=aifc, stdout=subprocess.PIPE, stderr=subprocess.PIPE, timeout=SECONDS)
    except subprocess.TimeoutExpired:
        raise Refused("ffmpeg took more than %d seconds for the format %s" % (SECONDS, four(form))) from None
    except OSError as fault:
        raise Refused("ffmpeg can't be run: %s" % fault.strerror) from None
    if ran.returncode or not ran.stdout:
        said = ran.stderr.decode("utf-8", "replace").splitlines()
        raise Refused("ffmpeg doesn't decode the format %s: %s" % (
            four(form), printable(said[-1])[:200] if said else "it ended with %d" % ran.returncode))
    return ran.stdout


# The files.

def wav_of(channels, width, rate, samples):
    """A WAV. `width` is the bytes of a sample; those of two bytes are in the order of this machine."""
    file = io.BytesIO()
    with wave.open(file, "wb") as out:
        out.setnchannels(channels)
        out.setsampwidth(width)
        out.setframerate(rate)
        out.writeframes(samples)
    return file.getvalue()


def aifc_of(form, channels, rate, samples):
    """An AIFF-C of whole packets."""
    packets = len(samples) // (channels * PACKED[form][0])
    common = struct.pack(">HIH", channels, packets, 16) + extended_precision(rate) + form + bytes(2)
    chunks = chunk(b"FVER", struct.pack(">I", AIFC_VERSION)) + chunk(b"COMM", common) + chunk(b"SSND", bytes(8) + samples)
    return b"FORM" + struct.pack(">I", 4 + len(chunks)) + b"AIFC" + chunks


def chunk(kind, content):
    """A chunk of AIFF-C, filled to an even length."""
    return kind + struct.pack(">I", len(content)) + content + bytes(len(content) % 2)


def extended_precision(number):
    """A whole number above 0 as a floating-point number of 80 bits."""
    length = number.bit_length()
    return struct.pack(">HQ", 16382 + length, number << (64 - length))


KINDS = {b"snd ": decode_sound}
