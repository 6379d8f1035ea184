"""How far a run is, in a line of a terminal that is written again and again."""
import time

# How often it is written, in seconds.
PAUSE = 0.2


def spelled(seconds):
    minutes, seconds = divmod(int(seconds), 60)
    hours, minutes = divmod(minutes, 60)
    return f"{hours} h {minutes} min" if hours else f"{minutes} min {seconds} s" if minutes else f"{seconds} s"


class Progress:
    """Tells of parts and frames. Where there is no terminal it tells nothing of them."""

    def __init__(self, stream):
        self.stream, self.is_shown = stream, stream.isatty()
        self.begun, self.told, self.length = time.monotonic(), 0.0, 0
        self.parts = self.frames = self.run_frames = 0

    def tell(self, text):
        """Prints a line."""
        self.clear()
        print(f"long-run: {text}", file=self.stream, flush=True)

    def clear(self):
        if self.length:
            self.stream.write("\r" + " " * self.length + "\r")
            self.stream.flush()
            self.length = 0

    def done(self, frames, is_run):
        """Counts a part, which was run now or was done before."""
        self.parts += 1
        self.frames += frames
        self.run_frames += frames if is_run else 0

    @property
    def is_due(self):
        return self.is_shown and time.monotonic() - self.told >= PAUSE

    def show(self, cut, read, size):
        """Tells how far it is, where so many frames were cut, and so many bytes of all were read."""
        self.told = now = time.monotonic()
        text = self.line(now - self.begun, cut * size / read if read and size else 0)
        self.clear()
        self.stream.write(text)
        self.stream.flush()
        self.length = len(text)

    def line(self, passed, all_frames):
        rate = self.run_frames / passed if passed else 0
        of_all = f" of some {all_frames:,.0f}" if all_frames else ""
        text = f"{self.parts:,} parts, {self.frames:,}{of_all} frames, {rate:,.0f} a second"
        if rate and all_frames:
            text += f", {spelled(max(0, all_frames - self.frames) / rate)} left"
        return text
