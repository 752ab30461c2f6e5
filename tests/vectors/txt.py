#!/usr/bin/env python3
# Writes the console script of the TXT lookup's vectors: `txt` calls, each case under a comment that says what it shows
# (specification, 'TXT pairs'; RFC 6763, 6). Run by make.sh.


def show(what):
    print("\n# " + what)


def strings(*parts):
    return b"".join(bytes([len(p)]) + p for p in parts)


def txt(key, received, factory=b""):
    print("txt", key.hex() or "-", received.hex() or "-", factory.hex() or "-")


show('"PassReq", "PASSREQ=1": present without value, since the first string that matches decides')
txt(b"PassReq", strings(b"PassReq", b"PASSREQ=1"))
txt(b"passreq", strings(b"PASSREQ=1", b"PassReq"))

show("RFC 6763, 6.4: absent, present without value, empty value, value")
txt(b"Anon Allowed", strings(b"PlugIns=JPEG,MPEG2,MPEG4"))
txt(b"PassReq", strings(b"PassReq"))
txt(b"PlugIns", strings(b"PlugIns="))
txt(b"PlugIns", strings(b"PlugIns=JPEG,MPEG2,MPEG4"))

show("the case of ASCII letters is ignored in the key, and kept in the value")
txt(b"PLUGINS", strings(b"plugins=JpEg"))
txt(b"plugins", strings(b"PlugIns=JpEg"))
txt(b"k@[", strings(b"K@[=1"))
txt(b"k@[", strings(b"K`{=1"))

show("a key is the whole of what stands before the first '='")
txt(b"key", strings(b"keys=1", b"ke=2", b"key=3"))
txt(b"key", strings(b"keys", b"ke", b"key"))
txt(b"key", strings(b"key=a=b="))
txt(b"key", strings(b"key=="))
txt(b"key", strings(b"key =1"))
txt(b"key ", strings(b"key =1"))

show("empty strings and strings that start with '=' are skipped")
txt(b"key", strings(b"", b"=", b"=key", b"=key=1", b"", b"key=2"))
txt(b"key", strings(b"", b"=", b"=key=1"))

show("the received TXT is asked first, and the factory TXT only when the key is absent there")
txt(b"key", strings(b"key=received"), strings(b"key=factory"))
txt(b"key", strings(b"other"), strings(b"a=1", b"key=factory"))
txt(b"key", strings(b"key"), strings(b"key=factory"))
txt(b"key", strings(b"key="), strings(b"key=factory"))
txt(b"key", strings(b"other"), strings(b"key"))
txt(b"key", strings(b"other"), strings(b"key="))
txt(b"key", strings(b"other"), strings(b"another"))

show("no strings at all, and one empty string")
txt(b"key", b"", b"")
txt(b"key", b"", strings(b"key=1"))
txt(b"key", b"\0", strings(b"key=1"))
txt(b"key", strings(b"key=1"), b"")

show("the place of a value counts from the first byte of its buffer")
txt(b"c", strings(b"a=1", b"b", b"c=here"))
txt(b"c", strings(b"x" * 255, b"y" * 255, b"c=" + b"z" * 253))
txt(b"c", b"\0" * 700 + strings(b"c=far"))

show("a value may be any bytes")
txt(b"k", strings(b"k=\0\xff=\n"))

show("9: the key is empty, or has a byte outside 0x20..0x7e or an '='")
txt(b"", strings(b"key=1"))
for b in (0x00, 0x1F, 0x20, 0x3C, 0x3D, 0x3E, 0x7E, 0x7F, 0x80, 0xFF):
    txt(bytes([b]), strings(bytes([b]) + b"=1"))
    txt(b"k" + bytes([b]) + b"y", strings(b"k" + bytes([b]) + b"y=1"))

show("6: the received or the factory TXT is malformed, whichever would answer")
txt(b"key", b"\x05key=", strings(b"key=1"))
txt(b"key", strings(b"key=1"), b"\x01")
txt(b"key", strings(b"key=1") + b"\x01")
txt(b"key", strings(b"key=1"), strings(b"a") + b"\xff" + b"x" * 254)
txt(b"key", b"\x01", b"\x01")

show("9 is tested before 6")
txt(b"", b"\x01")
txt(b"=", strings(b"a"), b"\x01")

show("a key longer than any string")
txt(b"k" * 255, strings(b"k" * 255))
txt(b"k" * 256, strings(b"k" * 255))
txt(b"k" * 254, strings(b"k" * 254 + b"="))

show("fields that are missing, left over, or no bytes")
print("txt 6b 00")
print("txt 6b 00 00 00")
print("txt 6b 00 0")
print("txt 6b 0 00")
print("txt 6 00 00")
print("txt 6b  00")
print("txt 6b 00 00 ")
print("txt")

show("a line of 40,000 bytes is a call, and one of 40,001 is bad")
print("txt 6b " + "00" * 19995 + " 00")
print("txt 6b " + "00" * 19996 + " -")
