"""What those share that end a farm while it draws."""

import threading
import time

from trial import numbers


class Busy:
    """Clients that ask for new tiles without end, so that a drawing is always under way."""

    def __init__(self, farm, clients=8):
        self.farm, self.ends = farm, False
        self.threads = [threading.Thread(target=self.ask, args=(number,), daemon=True) for number in range(clients)]
        for each in self.threads:
            each.start()
        end = time.monotonic() + 20
        while numbers(farm.stats())["stored"] < 6 and time.monotonic() < end:
            time.sleep(0.05)

    def ask(self, number):
        place = 0
        while not self.ends:
            try:
                self.farm.get((12, 512 * number + 8 * (place % 60), 8 * (place // 60)))
            except OSError:
                return
            place += 1

    def end(self):
        self.ends = True
        for each in self.threads:
            each.join(20)
