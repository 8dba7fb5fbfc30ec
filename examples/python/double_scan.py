"""A double scan: a trigger bounces, and a station writes "cleaned " to a label twice. Exactly one block of exactly one label has changed."""
from sackbutflare import DONE, EVERYONE, FIELD_ON, FOUND, LABEL, LABEL_FRAME, END_OF_FRAME, ONE_UID, Command, Station

BLOCKS, SIZE = 4, 8
HEAD = 32
BODY = HEAD + BLOCKS * (1 + SIZE)


def label(uid):
    """The body of a label that is off; slot 255 says that no slots run."""
    body = bytearray(BODY)
    body[0:8] = uid.to_bytes(8, "little")
    body[11], body[12], body[15] = BLOCKS - 1, SIZE - 1, 255
    return body


def rack_of(bodies):
    contents, place = bytearray([1, len(bodies)]), 2 + 8 * len(bodies)
    for body in bodies:
        contents += bytes([LABEL, 0]) + len(body).to_bytes(2, "little") + place.to_bytes(4, "little")
        place += len(body)
    return contents + b"".join(bodies)


def find(station, rack):
    """The first label that is alone in its slot of a sixteen-slot Inventory."""
    inventory = Command(kind=LABEL, target=EVERYONE, code=0x01, sixteen=True)
    answered, frame = station.event(rack, LABEL_FRAME, station.write_request(inventory))
    for slot in range(16):
        if answered == 1:
            told = station.read_answer(inventory, frame)
            assert told.meaning == FOUND
            print("slot %d: label %016X" % (slot, told.uid))
            return told.uid
        answered, frame = station.event(rack, END_OF_FRAME)
    raise SystemExit("no label is alone")


def write(station, rack, uid, block, text):
    command = Command(kind=LABEL, target=ONE_UID, code=0x21, byte=block)
    answered, frame = station.event(rack, LABEL_FRAME, station.write_request(command, uid, text))
    assert answered == 1
    told = station.read_answer(command, frame, uid, len(text))
    print("block %d written: %s" % (block, "done" if told.meaning == DONE else "error %02X" % told.error))


def changes(before, after):
    """The tags and blocks whose bytes differ, and the places that differ and are in no block."""
    blocks, elsewhere = set(), []
    start = 2 + 8 * before[1]
    for place in (i for i in range(len(before)) if before[i] != after[i]):
        tag, inside = divmod(place - start, BODY)
        if place < start or inside < HEAD + BLOCKS:
            elsewhere.append(place)
        else:
            blocks.add((tag, (inside - HEAD - BLOCKS) // SIZE))
    return sorted(blocks), elsewhere


def main():
    station = Station()
    rack = rack_of([label(0xE004010000000025), label(0xE004010000000013)])
    station.event(rack, FIELD_ON)
    print("walk: %s, rounds %d" % (" ".join("%016X" % uid for uid in station.walk(rack)[0]), station.walk(rack)[1]))
    before = bytes(rack)
    uid = find(station, rack)
    write(station, rack, uid, 2, b"cleaned ")
    write(station, rack, uid, 2, b"cleaned ")
    blocks, elsewhere = changes(before, rack)
    print("changed: %s; bytes outside blocks: %d" % (", ".join("tag %d block %d" % b for b in blocks), len(elsewhere)))
    assert len(blocks) == 1 and not elsewhere
    print("check sum of the rack: %04X" % station.check_sum(rack))


if __name__ == "__main__":
    main()
