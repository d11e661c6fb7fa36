"""A switch between hosts whose ways are slow: python3 tests/processes_switch.py COUNT

It makes as many Ethernet devices as it is told, way0, way1 .. in the network that it runs in, and says `ready`. What comes
from one goes to the one where its receiver was last heard of, or to all others. Each line of standard input is a number of
seconds: so long each frame takes from then on, at first none. It ends with standard input. It needs /dev/net/tun.
"""
import collections
import fcntl
import os
import select
import struct
import sys
import time

# As linux/if_tun.h has it: to make an Ethernet device, whose frames have nothing before them.
SET_DEVICE, ETHERNET, PLAIN = 0x400454CA, 0x0002, 0x1000
# The longest frame, and how many of a device are taken at once.
LONGEST, AT_ONCE = 1 << 16, 64


def device(name):
    """A new device of this name, and the file at whose other end it is."""
    file = os.open("/dev/net/tun", os.O_RDWR | os.O_NONBLOCK)
    fcntl.ioctl(file, SET_DEVICE, struct.pack("16sH22x", name.encode(), ETHERNET | PLAIN))
    return file


class Switch:
    """The devices, and the frames that are on their way."""

    def __init__(self, devices):
        self.devices, self.delay = devices, 0.0
        # When each frame is due, where it came from, and the frame, the first due first; and where each sender was heard of.
        self.frames, self.places = collections.deque(), {}
        self.poll = select.poll()
        for file in [*devices, 0]:
            self.poll.register(file, select.POLLIN)

    def run(self):
        goes_on = True
        while goes_on:
            wait = None if not self.frames else max(0.0, self.frames[0][0] - time.monotonic()) * 1000
            for file, _ in self.poll.poll(wait):
                if file == 0:
                    goes_on = self.hear()
                else:
                    self.take(file)
            self.give()

    def hear(self):
        """How long frames take from now on. False at the end."""
        lines = os.read(0, 4096).split()
        if lines:
            self.delay = float(lines[-1])
        return bool(lines)

    def take(self, file):
        """Takes what has come from a device."""
        due = time.monotonic() + self.delay
        for _ in range(AT_ONCE):
            try:
                frame = os.read(file, LONGEST)
            except OSError:
                return
            self.places[frame[6:12]] = file
            self.frames.append((due, file, frame))

    def give(self):
        """Gives on what is due. What a device has no room for is lost."""
        now = time.monotonic()
        while self.frames and self.frames[0][0] <= now:
            _, source, frame = self.frames.popleft()
            place = self.places.get(frame[:6])
            for file in self.devices if place is None else [place]:
                if file != source:
                    try:
                        os.write(file, frame)
                    except OSError:
                        pass


if __name__ == "__main__":
    switch = Switch([device(f"way{number}") for number in range(int(sys.argv[1]))])
    print("ready", flush=True)
    switch.run()
