"""costs.py DRIVE [N]: what the library's calls cost with Linux's driver before them, in a thread beside.

Of each kind of kick: nanoseconds within the library's serves, within copies from and to the guest's
memory, and on the file; and how many writes and syncs the file took."""
import os
import subprocess
import sys
import tempfile
import partition as p

MEMORY = 1 << 19


class Drive:
    def __init__(self, program, image, features):
        words = [program, image, 'format', '-', f'{MEMORY},{features},16,0,1,16,16,0']
        self.child = subprocess.Popen(words, stdin=subprocess.PIPE, stdout=subprocess.PIPE,
                                      text=True)
        self.number = 0
        self.until('ready')

    def until(self, end):
        answers = []
        for line in self.child.stdout:
            words = line.split()
            if words[0] == 'used':
                answers.append(bytes.fromhex(words[4]))
            if words[0] == end:
                return words[1:], answers
        sys.exit('the program ended')

    def ask(self, line, end):
        self.child.stdin.write(line + '\n')
        self.child.stdin.flush()
        return self.until(end)

    def stats(self):
        words, _ = self.ask('stats', 'stats')
        return {k: int(v) for k, v in zip(words[::2], words[1::2])}

    def kick(self, requests):
        """One kick of these requests, and all the syncs that follow."""
        for readable, room in requests:
            self.number += 1
            self.ask(f'add 0 {self.number} {readable.hex()} {room} 1 1', 'added')
        answers = self.ask('kick 0', 'kicked')[1] + self.ask('sync', 'synced')[1]
        for answer in answers:
            if p.field(answer[-512:], 'result') != p.OK:
                sys.exit('refused')
        return len(answers) == len(requests) or sys.exit('an answer is lost')


def writes(key, counter, count):
    for i in range(count):
        frames = p.signed(key, [p.frame(req_resp=p.DATA_WRITE, write_counter=counter + i,
                                        address=i, block_count=1, data=os.urandom(256))])
        yield frames[0] + p.frame(req_resp=p.RESULT_READ), 512


def measure(drive, name, kicks):
    before, count = drive.stats(), 0
    for requests in kicks:
        drive.kick(requests)
        count += 1
    after = drive.stats()
    each = lambda word: (after[word] - before[word]) / count
    print(f'{name:34} {each("register_ns"):9.0f} {each("serve_ns"):9.0f} {each("copy_ns"):9.0f} '
          f'{each("disk_ns"):9.0f} {each("outbox"):7.1f} {each("syncs"):6.1f} '
          f'{each("serves"):7.1f} {each("calls"):7.1f} {each("copied_in"):8.0f} {each("copied_out"):7.0f}')


def main(program, count):
    key = os.urandom(32)
    counter = p.frame(req_resp=p.GET_COUNTER, block_count=1), 512
    read = p.frame(req_resp=p.DATA_READ, block_count=16), 8192
    with tempfile.TemporaryDirectory(dir=os.environ.get('RPMB_IMAGES')) as folder:
        drive = Drive(program, f'{folder}/image', '0')
        words, _ = drive.ask('times 200000', 'times')
        print(f'a read of Status {words[1]} ns, a write of QueueSel {words[3]} ns, '
              f'a serve of nothing {words[5]} ns')
        print(f'{"a kick of":34} {"registers":>9} {"serves":>9} {"copies":>9} {"file ns":>9} '
              f'{"writes":>7} {"syncs":>6} {"serves":>7} {"calls":>7} {"in":>8} {"out":>7}')
        drive.kick([(p.frame(req_resp=p.PROGRAM_KEY, key_mac=key, block_count=1)
                     + p.frame(req_resp=p.RESULT_READ), 512)])
        measure(drive, 'a counter request', ([counter] for _ in range(count)))
        measure(drive, 'a read of 16 blocks', ([read] for _ in range(count)))
        measure(drive, 'a write of a block', (list(writes(key, i, 1)) for i in range(count)))
        measure(drive, 'four writes of a block',
                (list(writes(key, count + 4 * i, 4)) for i in range(count)))
        drive.child.communicate('quit\n')


if __name__ == '__main__':
    main(sys.argv[1], int(sys.argv[2]) if len(sys.argv) > 2 else 500)
