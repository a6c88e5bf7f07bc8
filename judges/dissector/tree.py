"""What tshark says of a packet, read from its PDML: its complaints, and the components of a message."""

IP_AND_UDP_HEADERS = 28


def name(field):
    """A field's name without `h225.` and without `_element`, which the dissector adds to names of
    types without a value of their own."""
    return field.get("name").removeprefix("h225.").removesuffix("_element")


def parts(field):
    """The fields of H.225.0 below a field. Those of the encoding (`per.`) are passed over, and an
    item of a list stands for what it has."""
    found = []
    for child in field:
        if child.get("name") == "":
            found.extend(parts(child))
        elif child.get("name").startswith("h225."):
            found.append(child)
    return found


def text(field):
    """A component's value: a leaf's own, A.B.C.D:PORT of an address, and the name of a choice's
    alternative if that has no value."""
    below = parts(field)
    if not below:
        return field.get("show") or name(field)
    if name(field) == "ipAddress":
        return ":".join(text(part) for part in below)
    inner = ",".join(text(part) for part in below)
    return f"duplicateAlias({inner})" if name(field) == "duplicateAlias" else inner


def message(packet):
    """The field of the RasMessage in a packet, or None."""
    return packet.find("./proto[@name='h225']/field[@name='h225.RasMessage']")


def line(packet):
    """A packet's message on one line: its kind, and each component with its value."""
    whole = message(packet)
    if whole is None:
        return "no RasMessage"
    (kind,) = parts(whole)
    components = [f"{name(part)}={text(part)}" for part in parts(kind)]
    return " ".join([name(kind), *components])


def end(part):
    """Where a part ends in the packet; of the length of an open type, where that type ends."""
    behind = int(part.get("pos")) + int(part.get("size"))
    return behind + int(part.get("show")) if part.get("name") == "per.open_type_length" else behind


def complaints(packet, length):
    """What is wrong with a packet whose payload has that many octets: anything that the dissector
    marks (malformed, cut, an expert's note), octets handed to no dissector, octets behind the last
    one that is dissected, and octets that are missing."""
    found = []
    for part in packet.iter():
        marked = part.get("name", "")
        if marked.startswith("_ws.") or marked == "data":
            found.append(part.get("showname") or marked)
    if message(packet) is not None:
        left = IP_AND_UDP_HEADERS + length - max(end(part) for part in message(packet).iter() if len(part) == 0)
        if left > 0:
            found.append(f"{left} octets aren't dissected")
        if left < 0:
            found.append(f"{-left} octets are missing")
    return found
