"""STUN messages, a model of the client and a tape under way, for the programs that make tapes.

The model follows turn.rs in Python. It is there to know which requests wait, under which key an
answer must be signed and when something is due; no answer of the client is taken from it.
"""
import copy, hashlib, hmac, struct, zlib

COOKIE = b'\x21\x12\xa4\x42'
LAST = 9007199254740991
ALLOCATE, REFRESH, PERMISSION, BIND, SEND, DATA = 3, 4, 8, 9, 0x16, 0x17
USERNAME, INTEGRITY, ERROR, NUMBER, LIFETIME, PEER, PAYLOAD, REALM, NONCE, RELAYED, TRANSPORT, MAPPED, SOFTWARE, FINGERPRINT = (
    6, 8, 9, 0xC, 0xD, 0x12, 0x13, 0x14, 0x15, 0x16, 0x19, 0x20, 0x8022, 0x8028)


# --- messages -----------------------------------------------------------------------------------

def attr(t, v):
    return struct.pack('>HH', t, len(v)) + v + b'\0' * (-len(v) % 4)


def xored(peer, tid):
    ip, port = peer
    mask = COOKIE + tid
    return bytes([0, 1 if len(ip) == 4 else 2]) + struct.pack('>H', port ^ 0x2112) + bytes(a ^ b for a, b in zip(ip, mask))


def code(n):
    return attr(ERROR, bytes([0, 0, n // 100, n % 100]))


def lifetime(seconds):
    return attr(LIFETIME, struct.pack('>I', seconds))


def message(typ, tid, body=b'', key=None, fingerprint=True):
    """A message with the given attributes, signed where there is a key."""
    def head(n):
        return struct.pack('>HH', typ, n & 0xFFFF) + COOKIE + tid
    if key is not None:
        body += attr(INTEGRITY, hmac.new(key, head(len(body) + 24) + body, hashlib.sha1).digest())
    if fingerprint:
        body += attr(FINGERPRINT, struct.pack('>I', zlib.crc32(head(len(body) + 8) + body) ^ 0x5354554E))
    return head(len(body)) + body


def channel_data(number, data):
    return struct.pack('>HH', number, len(data)) + data + b'\0' * (-len(data) % 4)


def read(buf):
    """Type, id and attributes of a readable message, or None."""
    if len(buf) < 20 or buf[0] > 0x3F or buf[4:8] != COOKIE:
        return None
    typ, length = struct.unpack('>HH', buf[:4])
    if len(buf) < 20 + length:
        return None
    found, p = {}, 20
    while p + 4 <= 20 + length:
        t, n = struct.unpack('>HH', buf[p:p + 4])
        if p + 4 + n > len(buf):
            return None
        found.setdefault(t, buf[p + 4:p + 4 + n])
        p += 4 + -(-n // 4) * 4
    return typ, buf[8:20], found


def passes(buf, key):
    """The check of the first MESSAGE-INTEGRITY."""
    length, p = struct.unpack('>H', buf[2:4])[0], 20
    while p + 4 <= 20 + length and p + 4 <= len(buf):
        t, n = struct.unpack('>HH', buf[p:p + 4])
        if t == INTEGRITY:
            covered = buf[:2] + struct.pack('>H', (p + 4) & 0xFFFF) + buf[4:p]
            return hmac.new(key, covered, hashlib.sha1).digest() == buf[p + 4:p + 24]
        p += 4 + -(-n // 4) * 4
    return False


def unxored(value, tid):
    if value is None or len(value) < 8 or value[1] not in (1, 2) or value[1] == 2 and len(value) < 20:
        return None
    size = 4 if value[1] == 1 else 16
    return bytes(a ^ b for a, b in zip(value[4:4 + size], COOKIE + tid)), struct.unpack('>H', value[2:4])[0] ^ 0x2112


# --- the client ---------------------------------------------------------------------------------

class Request:
    def __init__(self, kind, typ, body, next, tries=1, retried=False):
        self.kind, self.typ, self.body, self.next, self.tries, self.retried = kind, typ, body, next, tries, retried


class Client:
    def __init__(self, username, password, reliable):
        self.username, self.password, self.reliable = username, password, reliable
        self.realm = self.nonce = self.key = self.relay = self.refresh = None
        self.done = self.closing = False
        self.requests, self.perms, self.chans, self.next_num = {}, {}, {}, 0x4000

    def deadline(self):
        times = [r.next for r in self.requests.values()]
        if not self.closing:
            times += [t for t in [self.refresh] + list(self.perms.values()) if t is not None]
            times += [t for _, bound, t in self.chans.values() if bound]
        return min(times, default=None)

    def call(self, name, ids, now=None, *rest):
        """Runs a call: its number, events and packets. Only a call that answers 0 changes the client."""
        self.used = []
        if now is not None and now > LAST:
            return 1, [], []
        if name == 'send' and len(rest[1]) > 2048:
            return 4, [], []
        c = copy.copy(self)
        c.requests, c.perms, c.chans = dict(self.requests), dict(self.perms), dict(self.chans)
        c.lent, c.used, c.full, c.out, c.ev = list(ids), [], False, [], []
        getattr(c, name)(*([] if now is None else [now]), *rest)
        self.used = c.used
        number = (2 if any(t is not None and len(t) > 763 for t in (c.realm, c.nonce)) else 5 if c.full else
                  6 if len(c.used) > len(ids) else
                  7 if len(set(c.used)) < len(c.used) or any(i in self.requests for i in c.used) else
                  8 if sum(3 + len(p) for p in c.out) > 65536 else 0)
        if number:
            return number, [], []
        self.__dict__.update(c.__dict__)
        return 0, c.ev, c.out

    # what follows is turn.rs, method by method

    def draw(self):
        n = len(self.used)
        self.used.append(self.lent[n] if n < len(self.lent) else b'missing%05d' % n)
        return self.used[-1]

    def add(self, table, room, key, value):
        self.full |= key not in table and len(table) >= room
        table[key] = value

    def encode(self, typ, tid, body):
        if self.realm is not None and self.nonce is not None:
            body += attr(USERNAME, self.username) + attr(REALM, self.realm) + attr(NONCE, self.nonce)
        self.out.append(message(typ, tid, body, self.key))

    def first_wait(self):
        return 39500 if self.reliable else 500

    def request(self, now, kind, typ, tid, body):
        self.encode(typ, tid, body)
        self.add(self.requests, 64, tid, Request(kind, typ, body, now + self.first_wait()))

    def start(self, now):
        self.request(now, ('allocate',), ALLOCATE, self.draw(), attr(TRANSPORT, b'\x11\0\0\0') + attr(SOFTWARE, b'tauri-plugin-webrtc'))

    def data(self, now, buf):
        if len(buf) >= 4 and 0x40 <= buf[0] <= 0x7F and len(buf) >= 4 + struct.unpack('>H', buf[2:4])[0]:
            number = struct.unpack('>H', buf[:2])[0]
            self.ev += [('data', peer) for peer, c in self.chans.items() if c[0] == number]
            return
        msg = read(buf)
        if msg is None:
            return
        typ, tid, found = msg
        if typ == DATA:
            peer = unxored(found.get(PEER), tid)
            if peer and PAYLOAD in found:
                self.ev.append(('data', peer))
            return
        if tid not in self.requests or typ & 0x100 == 0:
            return
        error, value = typ & 0x10 != 0, found.get(ERROR, b'')
        why = (value[2] & 7) * 100 + value[3] if len(value) >= 4 else 0
        if self.key is not None and not (error and why in (400, 401, 438)) and not passes(buf, self.key):
            return
        r = self.requests.pop(tid)
        if not error:
            self.on_success(now, r.kind, tid, found)
        elif why in (401, 438) and not r.retried:
            if REALM in found:
                self.realm = found[REALM].decode('utf-8', 'replace').encode()
                self.key = hashlib.md5(b':'.join([self.username, self.realm, self.password])).digest()
            if NONCE in found:
                self.nonce = found[NONCE].decode('utf-8', 'replace').encode()
            fresh = self.draw()
            self.encode(r.typ, fresh, r.body)
            self.add(self.requests, 64, fresh, Request(r.kind, r.typ, r.body, now + self.first_wait(), 1, True))
        else:
            self.on_failure(r.kind, 'code %d' % why)

    def on_success(self, now, kind, tid, found):
        given = found.get(LIFETIME, b'')
        seconds = max(120, struct.unpack('>I', given[:4])[0] if len(given) >= 4 else 600)
        if kind[0] == 'allocate':
            relay = unxored(found.get(RELAYED), tid)
            if relay is None:
                return self.on_failure(kind, 'no relayed address')
            self.relay, self.done, self.refresh = relay, True, now + (seconds - 60) * 1000
            self.ev.append(('allocated', relay))
        elif kind[0] == 'refresh':
            self.refresh = now + (seconds - 60) * 1000
        elif kind[0] == 'permission':
            self.add(self.perms, 32, kind[1], now + 240000)
            for peer in [p for p, c in self.chans.items() if p[0] == kind[1] and not c[1]]:
                self.bind_channel(now, peer)
        elif kind[1] in self.chans and self.chans[kind[1]][0] == kind[2]:
            self.chans[kind[1]] = (kind[2], True, now + 540000)

    def on_failure(self, kind, why):
        if kind[0] == 'allocate':
            self.done = True
            self.ev.append(('failed', why))
        elif kind[0] == 'permission':
            self.perms.pop(kind[1], None)
        elif kind[0] == 'bind':
            self.chans.pop(kind[1], None)

    def bind_channel(self, now, peer):
        number, tid = self.chans[peer][0], self.draw()
        body = attr(NUMBER, struct.pack('>HH', number, 0)) + attr(PEER, xored(peer, tid))
        self.request(now, ('bind', peer, number), BIND, tid, body)

    def create_permission(self, now, ip):
        self.add(self.perms, 32, ip, None)
        tid = self.draw()
        self.request(now, ('permission', ip), PERMISSION, tid, attr(PEER, xored((ip, 0), tid)))

    def send(self, now, peer, data):
        if self.relay is None or self.closing:
            return
        if peer[0] not in self.perms:
            self.create_permission(now, peer[0])
        if peer not in self.chans and self.next_num <= 0x7FFF:
            self.add(self.chans, 32, peer, (self.next_num, False, now))
            self.next_num += 1
            if self.perms[peer[0]] is not None:
                self.bind_channel(now, peer)
        if peer in self.chans and self.chans[peer][1]:
            self.out.append(channel_data(self.chans[peer][0], data))
        else:
            tid = self.draw()
            self.out.append(message(SEND, tid, attr(PEER, xored(peer, tid)) + attr(PAYLOAD, data), None, False))

    def poll(self, now):
        for tid in [i for i, r in self.requests.items() if r.next <= now]:
            if tid not in self.requests:
                continue
            r = self.requests.pop(tid)
            if self.reliable or r.tries >= 6:
                self.on_failure(r.kind, 'timeout')
                continue
            self.encode(r.typ, tid, r.body)
            wait = 500 * min(8, 1 << r.tries)
            self.add(self.requests, 64, tid, Request(r.kind, r.typ, r.body, now + wait, r.tries + 1, r.retried))
        if self.closing:
            return
        if self.refresh is not None and self.refresh <= now:
            self.refresh = None
            self.request(now, ('refresh', 600), REFRESH, self.draw(), lifetime(600))
        for ip in [i for i, t in self.perms.items() if t is not None and t <= now]:
            self.create_permission(now, ip)
        for peer in [p for p, c in self.chans.items() if c[1] and c[2] <= now]:
            self.chans[peer] = (self.chans[peer][0], True, now + 540000)
            self.bind_channel(now, peer)

    def lost(self):
        self.requests.clear()
        self.closing = True
        if not (self.done and self.relay is not None):
            self.done = True
            self.ev.append(('failed', 'lost'))

    def close(self):
        if self.relay is None or self.closing:
            return
        self.closing = True
        self.requests.clear()
        self.encode(REFRESH, self.draw(), lifetime(0))


# --- a tape under way ---------------------------------------------------------------------------

TAGS = {'start': 0x10, 'data': 0x11, 'send': 0x12, 'poll': 0x13, 'lost': 0x14, 'close': 0x15}


def address_bytes(peer):
    return bytes([1 if len(peer[0]) == 4 else 2]) + struct.pack('>H', peer[1]) + peer[0]


class Tape:
    """Fields in order, the client that they make, and ids by counter."""

    def __init__(self, username=b'school', password=b'secret', reliable=False):
        self.fields = [(1, username), (2, password), (3, bytes([reliable]))]
        self.client = Client(username, password, reliable)
        self.now, self.count, self.calls = 1000, 0, 0

    def fresh(self, n=1):
        """The next n ids: text, so that a person can tell them apart."""
        self.count += n
        return [b'id-%09d' % i for i in range(self.count - n + 1, self.count + 1)]

    def need(self, name, *args):
        """How many ids a call would use."""
        trial = copy.copy(self.client)
        trial.call(name, [], *args)
        return len(trial.used)

    def call(self, name, *rest, ids=None, now=None):
        """Adds a call. Without `ids` as many fresh ones are lent as it uses."""
        args = [] if name in ('lost', 'close') else [self.now if now is None else now]
        if ids is None:
            ids = self.fresh(self.need(name, *args, *rest))
        if ids:
            self.fields.append((0x20, b''.join(ids)))
        body = b''.join([struct.pack('>Q', a) for a in args])
        body += address_bytes(rest[0]) + rest[1] if name == 'send' else b''.join(rest)
        self.fields.append((TAGS[name], body))
        self.calls += 1
        self.answer = self.client.call(name, ids, *args, *rest)
        return self.answer

    def last(self, kind=None):
        """The id that was put last among those that wait, of a kind if one is named."""
        return [i for i, r in self.client.requests.items() if kind in (None, r.kind[0])][-1]

    def bytes(self):
        return b''.join(bytes([t]) + struct.pack('>H', len(b)) + b for t, b in self.fields)


def container(tapes):
    """Several tapes, each behind its length as four bytes."""
    return b''.join(struct.pack('>I', len(t)) + t for t in tapes)
