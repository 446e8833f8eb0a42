"""compare.py DRIVE REQUESTS [SEED]: random requests through Linux's drivers, against partition.py.

Two guests stand on each board; every form of queue has its turn as either. Their drivers run in a
thread beside the monitor's. Ends with 0 where no answer differs, none is lost, nor an interrupt or a
notification, the kernel warns of nothing and no other byte of a request or an answer is written."""
import os
import random
import subprocess
import sys
import tempfile
import generate
import partition

INDIRECT, EVENT, PACKED, PLATFORM = 1 << 28, 1 << 29, 1 << 34, 1 << 33
SPLIT_SIZES = (2, 4, 8, 16, 32, 64, 128, 256)
PACKED_SIZES = (2, 3, 4, 5, 7, 16, 33, 64, 100, 255, 256)
FORMS = [(packed, size, indirect, event)
         for packed, sizes in ((0, SPLIT_SIZES), (1, PACKED_SIZES)) for size in sizes
         for indirect in (0, 1) for event in (0, 1)]
STOPPED, BUSY, DISK_FAULT = '4', '5', '7'
MOST_LINES = 20     # of differences that are told
STORM = 400         # counter requests at the end of a run


class Guest:
    """One guest of a run: its form, its partition, the chains that it waits for."""

    def __init__(self, r, number, form):
        self.number, self.r = number, r
        self.packed, self.size, self.indirect, self.event = form
        self.withheld = (0 if self.packed else PACKED) | (0 if self.indirect else INDIRECT) \
            | (0 if self.event else EVENT)
        self.platform = r.random() < 0.4
        self.capped = self.size != 256 or r.random() < 0.5
        # of each of its two pieces of RAM: room for most of a full queue's buffers, or for all of them
        self.memory = max(r.choice((1 << 18, 1 << 20, 1 << 20, 3 << 20)), 4096 + 8504 * self.size)
        self.most = r.choice((0, 0, 0, 0, 1, 2, 5))
        limits = (r.choice((1, 1, 2)), r.choice((1, 3, 16, 16)), r.choice((1, 4, 16, 16)))
        self.capacity, self.wr, self.rd = limits
        self.now = partition.Partition(*limits)     # as far as the device has looked
        self.ahead = self.now.copy()                # with what it hasn't seen yet
        self.key = r.randbytes(32)
        self.unseen, self.expected, self.taken = [], {}, 0
        self.states = [(-1, self.now.copy())]       # that told, then one an acceptance untold

    def words(self):
        return f'{self.memory},{self.withheld:x},{self.size if self.capped else 0},{self.most},' \
            f'{self.capacity},{self.wr},{self.rd},{int(self.platform)}'

    def form(self):
        return ('packed' if self.packed else 'split') + f' {self.size}' \
            + ' indirect' * self.indirect + ' event_idx' * self.event \
            + ' platform' * self.platform + f' most {self.most}'

    def pieces(self, readable, room):
        """How the chain is cut: never longer than the ring, where it can't stand in a table."""
        places = 8 if self.indirect else self.size
        outs = self.r.randint(1, max(1, min(4, places - 1, len(readable)))) if readable else 0
        ins = self.r.randint(1, max(1, min(4, places - outs, room))) if room else 0
        return outs, ins

    def offered(self, number, readable, room):
        before = self.ahead.key, self.ahead.counter
        self.unseen.append((number, readable, room))
        self.expected[number] = self.ahead.submit(readable, room), readable, room
        if (self.ahead.key, self.ahead.counter) != before:
            self.states.append((number, self.ahead.copy()))

    def was_taken(self, count):
        """The device took so many of the chains since its reset. Whether these were offered."""
        news = self.unseen[:count - self.taken]
        for _, readable, room in news:
            self.now.submit(readable, room)
        self.unseen = self.unseen[len(news):]
        self.taken += len(news)
        return self.taken == count

    def was_told(self, number):
        """What stood at this chain can't be lost any more."""
        while len(self.states) > 1 and self.states[1][0] <= number:
            self.states.pop(0)

    def begin_session(self, is_any=False):
        """A reset: what the device hasn't seen is gone, or may be."""
        gone = set() if is_any else {number for number, _, _ in self.unseen}
        self.states = [state for state in self.states if state[0] not in gone]
        self.now.begin_session()
        self.ahead = self.now.copy()
        self.unseen, self.expected, self.taken = [], {}, 0


class Run:
    """A board of two guests, and the program that drives it."""

    def __init__(self, program, image, seed, forms):
        self.r = random.Random(seed)
        self.guests = [Guest(self.r, g, form) for g, form in enumerate(forms)]
        self.made = self.differences = self.answers = self.resets = self.dropped = 0
        self.openings, self.stops, self.broken, self.failures = 1, 0, 0, 0
        self.lost, self.is_broken, self.told, self.results, self.next_id = 0, False, [], {}, 0
        self.spoiled, self.faults = 0, {BUSY}      # those that serve may tell now
        self.is_storming, self.sleeps, self.hurried = False, 0, 0
        options = [f'seed={seed}'] + ['ordered'] * (self.r.random() < 0.3)
        words = [program, image, 'format', ','.join(options)] + [g.words() for g in self.guests]
        self.said = f'seed {seed}: ' + ' '.join(words[3:])
        self.child = subprocess.Popen(words, stdin=subprocess.PIPE, stdout=subprocess.PIPE,
                                      text=True, bufsize=1 << 16)
        self.until('ready')

    def differ(self, text):
        self.differences += 1
        self.told.append(text)

    def until(self, *ends):
        """Reads lines until one begins with one of these words; judges those before it."""
        for line in self.child.stdout:
            words = line.split()
            if words[0] in ends:
                return words
            if words[0] == 'taken':
                if self.is_storming:
                    self.guests[int(words[1])].taken = int(words[2])
                elif not self.guests[int(words[1])].was_taken(int(words[2])):
                    self.differ(f'told: {line.strip()}')
            elif words[0] == 'used':
                self.judge(self.guests[int(words[1])], int(words[2]), int(words[3]), words[4])
            elif words[0] != 'fault' or words[2] not in self.faults:
                self.differ(f'told: {line.strip()}')
        raise SystemExit(f'the program ended: {self.said}\n' + '\n'.join(self.told))

    def ask(self, line, *ends):
        self.child.stdin.write(line + '\n')
        self.child.stdin.flush()
        return self.until(*ends)

    def judge(self, guest, number, length, digits):
        self.answers += 1
        got = b'' if digits == '-' else bytes.fromhex(digits)
        first = next(iter(guest.expected), None)
        expected, readable, room = guest.expected.pop(number, (None, b'', 0))
        if number != first:
            self.differ(f'chain {number} of guest {guest.number} came before chain {first}')
        allowed = [expected]
        if self.is_broken:
            allowed = [guest.now.failure(readable, room, k)
                       for k in (partition.GENERAL, partition.WRITE)]
            self.failures += 1
        if got not in allowed or length != len(got):
            at = next((i for i, (a, b) in enumerate(zip(got, allowed[0] or b'')) if a != b), None)
            self.differ(f'chain {number} of guest {guest.number} [{guest.form()}]: {length} bytes, '
                        f'the first that differs is {at}; they end with {got[-28:].hex()}, '
                        f'not {(allowed[0] or b"")[-28:].hex()}')
        elif got:
            result = partition.field(got[-512:], 'result')
            self.results[result] = self.results.get(result, 0) + 1
        if not self.is_broken:
            guest.was_told(number)

    def add(self, guest, request=None):
        readable, room = request or generate.one(self.r, guest.ahead, guest.key)
        outs, ins = guest.pieces(readable, room)
        if outs + ins > guest.size and not guest.indirect:
            return False
        number, self.next_id = self.next_id, self.next_id + 1
        words = self.ask(f'add {guest.number} {number} {readable.hex() or "-"} {room} {outs} {ins}',
                         'added', 'full', 'nomem')
        if words[0] != 'added':
            return False
        guest.offered(number, readable, room)
        self.made += 1
        return True

    def batch(self, guest):
        for _ in range(self.r.randint(1, min(guest.size, 24))):
            if not self.add(guest):
                break

    def kick(self, guest):
        return self.ask(f'kick {guest.number}', 'kicked')[2] == '1'

    def sync(self):
        """All is awaited: each chain that a guest offered has to come back."""
        for guest in self.guests:
            self.kick(guest)
        self.ask('sync', 'synced')
        for guest in self.guests:
            for number in guest.expected:
                self.lost += 1
                self.differ(f'chain {number} of guest {guest.number} [{guest.form()}] is lost')
            guest.expected = {}

    def reset(self, guest, word='reset'):
        self.resets += 1
        words = self.ask(f'{word} {guest.number}', 'reset')
        self.dropped += int(words[2])
        if words[3] != ('11' if guest.platform and not guest.withheld else '3'):
            self.differ(f'features that were withheld were taken: Status {words[3]}')
        guest.begin_session(word == 'hurry')

    def hurry(self, guest):
        """A reset while the device is served: any front of what was offered was taken."""
        self.sync()
        self.batch(guest)
        self.ask(f'go {guest.number}', 'gone')
        self.hurried += 1
        self.reset(guest, 'hurry')
        self.find_state(guest)

    def reopen(self):
        self.sync()
        self.openings += 1
        self.ask('reopen', 'reopened')
        for guest in self.guests:
            guest.begin_session()
        for guest in self.guests:
            self.read_back(guest)

    def stop(self):
        """Opens what a stop left: of each guest a state that it was told, or a later one."""
        self.stops += 1
        self.openings += 1
        for _ in range(self.r.randrange(5)):
            self.ask('once', 'synced')
        self.ask('stop', 'reopened')
        self.is_broken = False
        self.faults.discard(DISK_FAULT)
        for guest in self.guests:
            guest.begin_session()
        for guest in self.guests:
            self.find_state(guest)

    def find_state(self, guest):
        request = partition.frame(req_resp=partition.GET_COUNTER, block_count=1), 512
        answers = {state.copy().submit(*request): state for _, state in guest.states}
        self.add(guest, request)
        number, got, judge = self.next_id - 1, [], self.judge
        self.judge = lambda g, n, length, digits: got.append((n, bytes.fromhex(digits)))
        self.kick(guest)
        self.ask('sync', 'synced')
        self.judge = judge
        self.answers += 1
        if len(got) != 1 or got[0][0] != number or got[0][1] not in answers:
            self.differ(f'guest {guest.number} [{guest.form()}]: a stop or a reset left another state')
            raise SystemExit('\n'.join([self.said] + self.told))
        found = answers[got[0][1]]
        taken = guest.taken
        guest.now, guest.states = found.copy(), [(-1, found.copy())]
        guest.begin_session()
        guest.taken = taken
        self.read_back(guest)

    def read_back(self, guest):
        """Reads blocks that were written: all, or those of 40 requests."""
        if guest.ahead.key is None:
            return
        for address in sorted({a - a % guest.rd for a in guest.ahead.blocks})[:40]:
            count = min(guest.rd, guest.ahead.blocks_in_all - address)
            request = partition.frame(req_resp=partition.DATA_READ, address=address,
                                      block_count=count, nonce=self.r.randbytes(16))
            self.add(guest, (request, 512 * count))
            self.kick(guest)

    def fail(self):
        """Writes fail: from then on there are failures alone, until an opening."""
        for guest in self.guests:
            self.batch(guest)
        if not any([self.kick(guest) for guest in self.guests]):
            return
        self.broken += 1
        self.ask('fail', 'failing')
        self.is_broken = True
        self.faults.add(DISK_FAULT)
        self.sync()
        states = [list(guest.states) for guest in self.guests]
        self.batch(self.r.choice(self.guests))
        self.sync()
        for guest, kept in zip(self.guests, states):
            guest.states = kept     # nothing more was accepted
        self.stop()

    def spoil(self, guest):
        """The device stops and says so; the other guest goes on; a reset helps."""
        self.sync()
        self.spoiled += 1
        self.faults.add(STOPPED)
        words = self.ask(f'spoil {guest.number}', 'spoiled')
        if words[2:] != ['2', str(0x4f), '1', '0']:
            self.differ(f'guest {guest.number} [{guest.form()}]: ' + ' '.join(words))
        other = self.guests[1 - guest.number]
        self.batch(other)
        self.kick(other)
        self.ask('sync', 'synced')
        self.reset(guest)
        self.faults.discard(STOPPED)

    def step(self):
        guest = self.r.choice(self.guests)
        self.batch(guest)
        if self.r.random() < 0.65:
            # mostly nobody waits: the next requests are offered while these are served
            self.kick(guest) if self.r.random() < 0.2 else self.ask(f'go {guest.number}', 'gone')
        if self.r.random() < 0.45:
            self.sync()
        self.turn(guest, self.r.randrange(100))

    def turn(self, guest, k):
        """Now and then something else than requests."""
        if k < 5:
            self.reset(guest)
        elif k >= 92:
            self.hurry(guest)
        elif k < 8 and not guest.packed:
            self.spoil(guest)
        elif k == 8:
            self.fail()
        elif 9 <= k < 18:
            self.stop()
        elif 18 <= k < 21:
            self.reopen()

    def check_queues(self):
        for guest in self.guests:
            words = self.ask(f'config {guest.number}', 'config')
            want = [guest.capacity, guest.wr, guest.rd, guest.size]
            features = int(words[8], 16)
            taken = [bool(features & bit) for bit in (PACKED, INDIRECT, EVENT, PLATFORM)]
            if [int(words[i]) for i in (2, 3, 4, 6)] != want or taken != [
                    bool(x) for x in (guest.packed, guest.indirect, guest.event, guest.platform)]:
                self.differ('configuration: ' + ' '.join(words))

    def storm(self):
        """Counter requests as fast as they go: no answer is wrong, no wake-up lost."""
        self.sync()
        self.is_storming = True
        words = self.ask(f'storm {STORM}', 'stormed')
        self.is_storming = False
        self.sleeps = int(words[4])
        if words[2] != '0' or words[3] != '0':
            self.differ('a storm: ' + ' '.join(words))

    def end(self):
        self.sync()
        self.storm()
        words = self.ask('stats', 'stats')[1:]
        self.stats = {k: int(v) for k, v in zip(words[::2], words[1::2])}
        for name in ('warnings', 'spoiled'):
            if self.stats[name]:
                self.differ(f'{name}: {self.stats[name]}')
        self.child.communicate('quit\n')
        if self.child.returncode:
            self.differ(f'the program ended with {self.child.returncode}')


def perform(program, image, seed, forms, count):
    run = Run(program, image, seed, forms)
    run.check_queues()
    while run.made < count:
        run.step()
    run.end()
    return run


def print_table(runs):
    add = lambda name: sum(getattr(x, name) for x in runs)
    stat = lambda name: sum(x.stats[name] for x in runs)
    guests, results = [g for x in runs for g in x.guests], {}
    for x in runs:
        for k, n in x.results.items():
            results[k] = results.get(k, 0) + n
    forms = {(g.packed, g.size, g.indirect, g.event) for g in guests}
    rows = [('forms of queue', len(forms)),
            ('guests with ACCESS_PLATFORM', sum(g.platform for g in guests)),
            ('boards, of two guests each', len(runs)), ('requests', add('made')),
            ('answers', add('answers')),
            ('results', ', '.join(f'{k:#x}: {n}' for k, n in sorted(results.items()))),
            ('resets', add('resets')), ('of these, while it was served', add('hurried')),
            ('chains that resets dropped', add('dropped')),
            ('rings that were spoiled', add('spoiled')), ('openings', add('openings')),
            ('stops between two syncs', add('stops')),
            ('disks that failed', add('broken')), ('failures told then', add('failures')),
            ('requests of storms', STORM * len(runs)), ('sleeps then', add('sleeps')),
            ('exits to QueueNotify', stat('kicks')), ('serves', stat('serves')),
            ('calls of them', stat('calls')), ('notifications', stat('interrupts')),
            ('writes of the outbox', stat('outbox')),
            ('of these, over an earlier one', stat('overlaps')),
            ('of these, behind an awaited sync', stat('late')), ('syncs', stat('syncs')),
            ('bytes copied in', stat('copied_in')), ('bytes copied out', stat('copied_out')),
            ('mappings that were bounced', stat('maps')), ('chains lost', add('lost')),
            ('kernel warnings', stat('warnings')),
            ('chains written elsewhere', stat('spoiled')), ('differences', add('differences'))]
    for name, value in rows:
        print(f'{name:34} {value}')


def main(program, total, seed):
    order = list(range(len(FORMS)))
    random.Random(seed).shuffle(order)
    runs = []
    with tempfile.TemporaryDirectory(dir=os.environ.get('RPMB_IMAGES')) as folder:
        for i, k in enumerate(order):
            run = perform(program, f'{folder}/image', seed * 1000 + i, (FORMS[i], FORMS[k]),
                          -(-total // len(order)))
            runs.append(run)
            if run.differences:
                print(f'{run.differences} differences, {run.said}')
                print('\n'.join(run.told[:MOST_LINES]))
    print_table(runs)
    return 1 if any(run.differences for run in runs) else 0


if __name__ == '__main__':
    sys.exit(main(sys.argv[1], int(sys.argv[2]), int(sys.argv[3]) if len(sys.argv) > 3 else 1))
