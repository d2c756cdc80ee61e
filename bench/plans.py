"""Texts of large plans, for measurements."""

SECTIONS = "sections"
PROTECTED = "protected"


def sections():
    """16 ports, 2,048 VLANs, 4,096 static entries and streams, 1,024 gates, meters and filters; no filter is protected."""
    parts = [f"[[port]]\nnumber = {n}\nmbps = 1000\n" for n in range(1, 17)]
    parts += [f"[[vlan]]\nvid = {n}\nmembers = [1, 2, 16]\n" for n in range(1, 2049)]
    for n in range(4096):
        vid, last = n // 2 + 1, n % 90 + 10
        parts.append(f'[[static]]\nvid = {vid}\naddress = "02-00-00-00-00-{last}"\nports = [1, 2]\n')
        parts.append(f'[[stream]]\nhandle = {n}\nport = 16\nkind = "null"\naddress = "02-00-00-00-00-{last}"\nvid = {vid}\ntag = "tagged"\n')
    for n in range(1024):
        parts.append(f'[[gate]]\nnumber = {n}\nstate = "open"\n')
        parts.append(f"[[meter]]\nnumber = {n}\ncir = 1\ncbs = 1\neir = 1\nebs = 1\n")
        parts.append(f"[[filter]]\nnumber = {n}\ngate = {n}\nmeter = {n}\n")
    return "".join(parts)


def protected():
    """16 ports with lists of 256 entries that open one class each in turn, 1,023 protected filters with a gate of their own, of which 120 have a queue
    each, a last filter that takes every frame, 1,024 static entries and 4,096 streams."""
    entries = ",".join(f"{{open=[{turn % 8}],ns=3906}}" for turn in range(256))
    parts = [f"[[port]]\nnumber = {n}\nmbps = 10000\ncycle = 1000000\ngates = [{entries}]\n" for n in range(1, 17)]
    parts.append(f"[[vlan]]\nvid = 10\nmembers = {list(range(1, 17))}\n")
    for n in range(1024):
        ports = [n // 8 + 1] if n < 120 else []
        parts.append(f'[[static]]\nvid = 10\naddress = "02-00-00-00-{n // 256:02X}-{n % 256:02X}"\nports = {ports}\n')
    for n in range(4096):
        handle = n % 1024
        parts.append(f'[[stream]]\nhandle = {handle}\nport = 16\nkind = "null"\naddress = "02-00-00-00-{handle // 256:02X}-{handle % 256:02X}"\nvid = 10\ntag = "all"\n')
    for n in range(1023):
        parts.append(f'[[gate]]\nnumber = {n}\nstate = "open"\nipv = {n % 8}\n')
        parts.append(f"[[filter]]\nnumber = {n}\nhandle = {n}\ngate = {n}\nmax_sdu = 500\nprotected = true\n")
    parts.append('[[gate]]\nnumber = 1023\nstate = "closed"\n[[filter]]\nnumber = 1023\ngate = 1023\n')
    return "".join(parts)


TEXTS = {SECTIONS: sections, PROTECTED: protected}
