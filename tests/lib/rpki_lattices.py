"""Worlds of many chains in few objects, and of many certificates side by side."""

import hashlib

from rpki_repositories import HOST, World, access, encoded, key_bits, roa

FIRST_AS = 64496


def name_at(row, place, prefix=b""):
    return prefix + b"r%dp%d" % (row, place)


def rows_below(world, parents, width, height, first, listed=None, prefix=b""):
    """So many rows of authorities, with keys from `first` on: each certifies all of the next row, and the parents those of the
    first, who claim what `listed` says of their place, or inherit, as all others do. Nobody has published yet."""
    above, rows = parents, []
    for row in range(height):
        rows.append([])
        for place in range(width):
            name = name_at(row, place, prefix)
            at = above[0].folder + name + b".cer"
            rows[-1].append(world.authority(first + row * width + place, HOST + name + b"/", name, at))
        for parent in above:
            for place, child in enumerate(rows[-1]):
                claims = listed(place) if listed and row == 0 else "inherit"
                parent.certify(child.name + b".cer", child, {"ipv4": claims})
        above = rows[-1]
    return rows


def lattice(width, height, listed=None, again=None):
    """A world of so many rows of authorities below the anchor (`rows_below`). Each of the last row has the origin AS 64496+p of
    10.p.0.0/16. With `again` the first of the last row certifies the first of that row once more."""
    world = World()
    anchor = world.anchor(1, {"ipv4": ["10.0.0.0/8"]})
    rows = rows_below(world, [anchor], width, height, 2, listed)
    for place, authority in enumerate(rows[-1]):
        authority.add_roa(b"o.roa", roa(FIRST_AS + place, f"10.{place}.0.0/16"), {"ipv4": [f"10.{place}.0.0/16"]})
    if again is not None:
        rows[-1][0].certify(b"again.cer", rows[again][0], {"ipv4": "inherit"})
    for authority in [anchor, *(it for row in rows for it in row)]:
        authority.publish()
    return world


def crowded(width=2, height=5, named=None, before=None):
    """A world with a provider below the anchor, and three authorities below that: the first two are each above a lattice whose
    last row certifies the first again, the third is above nobody. Each of the three has an origin. Also these three. With `named`
    the first has that folder, and its certificate these methods with their URIs. What is to be done before all publish is handed
    the anchor, the provider and the first of the three."""
    world = World()
    anchor = world.anchor(1, {"ipv4": ["10.0.0.0/8"]})
    provider = world.authority(2, HOST + b"isp/", b"isp")
    anchor.certify(b"isp.cer", provider, {"ipv4": ["10.0.0.0/8"]})
    holders, all_below = [], []
    for at, name in enumerate((b"a", b"b", b"c"), 1):
        folder = named[0] if named and name == b"a" else HOST + name + b"/"
        holder = world.authority(10 + at, folder, name, provider.folder + name + b".cer")
        if named and name == b"a":
            holder.access = lambda: access(*named[1])
        provider.certify(name + b".cer", holder, {"ipv4": [f"10.{at}.0.0/16"]})
        holder.add_roa(b"o.roa", roa(FIRST_AS + at, f"10.{at}.0.0/16"), {"ipv4": [f"10.{at}.0.0/16"]})
        if name != b"c":
            rows = rows_below(world, [holder], width, height, 100 * at, prefix=name)
            rows[-1][0].certify(b"again.cer", rows[0][0], {"ipv4": "inherit"})
            all_below += [authority for row in rows for authority in row]
        holders.append(holder)
    if before:
        before(anchor, provider, holders[0])
    for authority in (anchor, provider, *holders, *all_below):
        authority.publish()
    return world, holders


def counted(rows, is_least=False):
    """What `rpki_ask cost` prints of so many chains below each authority, by the lookup keys of their certificates."""
    return "".join([f"{'at least' if is_least else 'exactly'}\n", *(f"{chains} {uri.decode()}\n" for chains, uri in rows)])


def siblings(count):
    """A world of so many authorities below one anchor, none of which publishes anything."""
    world = World()
    anchor = world.anchor(1, {"ipv4": ["10.0.0.0/8"]})
    anchor.files |= stamped(world, anchor, count)
    anchor.publish()
    return world


def sibling_at(at):
    return b"s%06d" % at


def stamped(world, anchor, count):
    """Files with certificates of so many authorities below the anchor, each with a key of its own. One is made by rule; what is
    its own, all of one size, is exchanged in its octets for what is the others', and these are signed."""
    key, serial = 1 << 40, 1 << 28
    name = sibling_at(0)
    anchor.certify(name + b".cer", world.authority(key, HOST + name + b"/", name), {"ipv4": "inherit"}, serial=serial)
    made = anchor.files.pop(name + b".cer")
    world.verdicts.pop()
    own = lambda at: (
        sibling_at(at),
        key_bits(key + at),
        world.identifier(key + at),
        world.identifier(key + at).hex().encode(),
        (serial + at).to_bytes(4, "big"),
    )
    signer = hashlib.sha256(encoded(anchor.key)).digest()
    # (a header of four octets stands before what is signed, and before its content)
    end = 8 + int.from_bytes(made[6:8], "big")
    for at in range(count):
        octets = made
        for old, new in zip(own(0), own(at)):
            octets = octets.replace(old, new)
        message = octets[4:end]
        signature = hashlib.sha256(key_bits(anchor.key) + message).digest()
        world.verdicts.append((signer, hashlib.sha256(message).digest(), hashlib.sha256(signature).digest()))
        yield sibling_at(at) + b".cer", octets[: -len(signature)] + signature
