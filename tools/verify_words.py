"""How rpki_verify is called, and what it says of octets that are not what was asked for: for the tools
that run it.
"""
import os


def words(command, *operands, chain=(), options=(), **values):
    """The words of a command. A chain is the certificate of a trust anchor, and those of CAs, each under
    the one before; options are flags, and values those of further options, one or several each, or
    None."""
    anchor, *cas = chain or [None]
    given = [command, *options]
    for name, value in ({"ta": anchor, "ca": cas} | values).items():
        for one in value if isinstance(value, (list, tuple)) else [value]:
            given += [] if one is None else [f"--{name.replace('_', '-')}", one]
    return [os.fsdecode(it) for it in (*given, *operands)]


def not_issued(key, uri, file, other):
    """That a CA did not issue something: the key of its issuer, the URI of that, and the file and key of the CA."""
    return f"not issued by this CA: its issuer has the key {key} ({uri}), and {file} has {other}: give its CA before it, with --ca"


def malformed(octets, cause=""):
    """What is said of these octets, and the rule that they break, if one is told."""
    if cause:
        return f"malformed: {cause}"
    if octets.startswith(b"-----BEGIN "):
        return "malformed: this is PEM, convert it to DER, as by openssl x509 -outform DER"
    return "malformed: ends early" if ends_early(octets) else "malformed"


def ends_early(octets):
    """Whether the length of the first value says that there are more octets (X.690, section 8.1.3)."""
    first, rest = octets[1:2], octets[2:]
    if not first or first[0] < 0x80:
        return not first or len(rest) < first[0]
    count = first[0] - 0x80
    return 0 < count < 5 and len(rest) < count + int.from_bytes(rest[:count], "big")
