#!/usr/bin/env python3
"""small_rpki.py OUT [REST..]: has rpki-client (Debian's, run as root) write the folder OUT from an RPKI of its own, offline: a trust
anchor whose manifest lists a CRL and five ROAs, of eight payloads (seven unlike, two of IPv6). REST are further words for rpki-client;
-j and -c are given. Its output with five ROAs in the lists of crates/play_lists was written so. Wants python3-cryptography."""
import base64
import datetime
import hashlib
import os
import shutil
import subprocess
import sys
import tempfile

from cryptography.hazmat.primitives import hashes, serialization
from cryptography.hazmat.primitives.asymmetric import padding, rsa

REPOSITORY = "rsync://rpki.example/repo/"
SHA256_OID = "2.16.840.1.101.3.4.2.1"
NOW = datetime.datetime.now(datetime.timezone.utc).replace(microsecond=0)
BEFORE, BEHIND = NOW - datetime.timedelta(days=1), NOW + datetime.timedelta(days=300)


def tlv(tag, *parts):
    body = b"".join(parts)
    if len(body) < 128:
        return bytes([tag, len(body)]) + body
    length = len(body).to_bytes((len(body).bit_length() + 7) // 8, "big")
    return bytes([tag, 128 | len(length)]) + length + body


def sequence(*parts):
    return tlv(0x30, *parts)


def set_of(*parts):
    return tlv(0x31, *parts)


def octets(body):
    return tlv(4, body)


def integer(number):
    return tlv(2, number.to_bytes(number.bit_length() // 8 + 1, "big"))


def bits(body, unused=0):
    return tlv(3, bytes([unused]) + body)


def oid(text):
    first, second, *rest = (int(part) for part in text.split("."))
    out = bytes([first * 40 + second])
    for part in rest:
        groups = [part & 127]
        while part := part >> 7:
            groups.append(128 | part & 127)
        out += bytes(reversed(groups))
    return tlv(6, out)


def short_time(time):
    return tlv(0x17, time.strftime("%y%m%d%H%M%SZ").encode())


def long_time(time):
    return tlv(0x18, time.strftime("%Y%m%d%H%M%SZ").encode())


NULL, TRUE = b"\x05\x00", b"\x01\x01\xff"
SIGNATURE = sequence(oid("1.2.840.113549.1.1.11"), NULL)
DIGEST = sequence(oid(SHA256_OID), NULL)
RSA = sequence(oid("1.2.840.113549.1.1.1"), NULL)


def uri(text):
    return tlv(0x86, text.encode())


def name(text):
    return sequence(set_of(sequence(oid("2.5.4.3"), tlv(0x13, text.encode()))))


def extension(of, value, critical=False):
    return sequence(oid(of), *([TRUE] if critical else []), octets(value))


def access(of, text):
    return sequence(oid(of), uri(text))


class Key:
    def __init__(self):
        self.key = rsa.generate_private_key(65537, 2048)
        public = self.key.public_key()
        self.info = public.public_bytes(serialization.Encoding.DER, serialization.PublicFormat.SubjectPublicKeyInfo)
        self.identifier = hashlib.sha1(public.public_bytes(serialization.Encoding.DER, serialization.PublicFormat.PKCS1)).digest()
        self.name = self.identifier.hex().upper()

    def signature(self, body):
        return self.key.sign(body, padding.PKCS1v15(), hashes.SHA256())

    def signed(self, body):
        return sequence(body, SIGNATURE, bits(self.signature(body)))


ANCHOR = Key()
POLICY = extension("2.5.29.32", sequence(sequence(oid("1.3.6.1.5.5.7.14.2"))), True)
ISSUER_KEY = extension("2.5.29.35", sequence(tlv(0x80, ANCHOR.identifier)))


def certificate(serial, key, *extensions):
    subject = extension("2.5.29.14", octets(key.identifier))
    names = name(ANCHOR.name), sequence(short_time(BEFORE), short_time(BEHIND)), name(key.name)
    return ANCHOR.signed(sequence(tlv(0xA0, integer(2)), integer(serial), SIGNATURE, *names, key.info, tlv(0xA3, sequence(subject, *extensions))))


def resources(addresses, numbers=None):
    """The extensions of RFC 3779."""
    found = [extension("1.3.6.1.5.5.7.1.7", addresses, True)]
    return found + ([extension("1.3.6.1.5.5.7.1.8", numbers, True)] if numbers else [])


def anchor_certificate():
    every = sequence(*(sequence(octets(family), sequence(bits(b""))) for family in (b"\0\1", b"\0\2")))
    numbers = sequence(tlv(0xA0, sequence(sequence(integer(0), integer(2**32 - 1)))))
    places = sequence(access("1.3.6.1.5.5.7.48.5", REPOSITORY), access("1.3.6.1.5.5.7.48.10", REPOSITORY + "ta.mft"))
    return certificate(1, ANCHOR, extension("2.5.29.19", sequence(TRUE), True), extension("2.5.29.15", bits(b"\x06", 1), True), extension("1.3.6.1.5.5.7.1.11", places), POLICY, *resources(every, numbers))


def signed_object(kind, content, serial, file, found):
    """RFC 6488."""
    key = Key()
    points = extension("2.5.29.31", sequence(sequence(tlv(0xA0, tlv(0xA0, uri(REPOSITORY + "ta.crl"))))))
    issuer = extension("1.3.6.1.5.5.7.1.1", sequence(access("1.3.6.1.5.5.7.48.2", "rsync://rpki.example/ta/ta.cer")))
    place = extension("1.3.6.1.5.5.7.1.11", sequence(access("1.3.6.1.5.5.7.48.11", REPOSITORY + file)))
    own = certificate(serial, key, ISSUER_KEY, extension("2.5.29.15", bits(b"\x80", 7), True), points, issuer, place, POLICY, *found)
    facts = ("3", oid(kind)), ("4", octets(hashlib.sha256(content).digest())), ("5", short_time(NOW))
    attributes = b"".join(sorted(sequence(oid("1.2.840.113549.1.9." + number), set_of(value)) for number, value in facts))
    signer = sequence(integer(3), tlv(0x80, key.identifier), DIGEST, tlv(0xA0, attributes), RSA, octets(key.signature(set_of(attributes))))
    body = sequence(integer(3), set_of(DIGEST), sequence(oid(kind), tlv(0xA0, octets(content))), tlv(0xA0, own), set_of(signer))
    return sequence(oid("1.2.840.113549.1.7.2"), tlv(0xA0, body))


def roa(serial, file, number, *families, every=False):
    """RFC 6482: of each family the prefixes, as octets, length and maximum length. Its certificate holds these, or every address of
    these families (RFC 3779 wants a certificate's prefixes sorted and apart, and a ROA's need not be)."""

    def prefix(address, length):
        count = (length + 7) // 8
        return bits(bytes(address[:count]), 8 * count - length)

    told, held = [], []
    for family, prefixes in families:
        entries = (sequence(prefix(address, length), *([] if most is None else [integer(most)])) for address, length, most in prefixes)
        told.append(sequence(octets(family), sequence(*entries)))
        own = [bits(b"")] if every else [prefix(address, length) for address, length, _ in prefixes]
        held.append(sequence(octets(family), sequence(*own)))
    return signed_object("1.2.840.113549.1.9.16.1.24", sequence(integer(number), sequence(*told)), serial, file, resources(sequence(*held)))


def five_roas():
    four, six, document = b"\0\1", b"\0\2", (0x20, 1, 0x0D, 0xB8)
    return {
        "a.roa": roa(2, "a.roa", 64496, (four, [((192, 0, 2), 24, None), ((198, 51, 100), 24, 26)])),
        "b.roa": roa(3, "b.roa", 64497, (four, [((10,), 8, 32)]), (six, [(document, 32, 48)])),
        "c.roa": roa(4, "c.roa", 0, (four, [((203, 0, 113), 24, None)])),
        "d.roa": roa(5, "d.roa", 2**32 - 1, (four, [((192, 0, 2), 24, 24)]), (six, [(document, 32, None)])),
        "e.roa": roa(6, "e.roa", 64496, (four, [((192, 0, 2), 24, 24)])),
    }


def repository(roas):
    """The files of a publication point: these ROAs, and the CRL and manifest of the trust anchor."""
    revoked = sequence(integer(1), SIGNATURE, name(ANCHOR.name), short_time(BEFORE), short_time(BEHIND), tlv(0xA0, sequence(ISSUER_KEY, extension("2.5.29.20", integer(1)))))
    files = {**roas, "ta.crl": ANCHOR.signed(revoked)}
    listed = sequence(*(sequence(tlv(0x16, file.encode()), bits(hashlib.sha256(body).digest())) for file, body in sorted(files.items())))
    manifest = sequence(integer(1), long_time(BEFORE), long_time(BEHIND), oid(SHA256_OID), listed)
    inherited = sequence(*(sequence(octets(family), NULL) for family in (b"\0\1", b"\0\2"))), sequence(tlv(0xA0, NULL))
    files["ta.mft"] = signed_object("1.2.840.113549.1.9.16.1.26", manifest, 2**31, "ta.mft", resources(*inherited))
    return files


def main(out, *rest):
    os.makedirs(out, exist_ok=True)
    folder = tempfile.mkdtemp()
    cache = f"{folder}/cache"
    os.makedirs(f"{cache}/rpki.example/repo")
    os.makedirs(f"{cache}/ta/example")
    for file, body in repository(five_roas()).items():
        open(f"{cache}/rpki.example/repo/{file}", "wb").write(body)
    open(f"{cache}/ta/example/ta.cer", "wb").write(anchor_certificate())
    open(f"{folder}/example.tal", "w").write("rsync://rpki.example/ta/ta.cer\n\n" + base64.encodebytes(ANCHOR.info).decode())
    os.chmod(folder, 0o755)
    for where in (folder, cache, out):
        shutil.chown(where, "_rpki-client")
    words = ["rpki-client", "-n", "-j", "-c", "-t", f"{folder}/example.tal", "-d", cache, *rest, out]
    status = subprocess.run(words).returncode
    shutil.rmtree(folder)
    return status


if __name__ == "__main__":
    sys.exit(main(*sys.argv[1:]) if len(sys.argv) > 1 else __doc__)
