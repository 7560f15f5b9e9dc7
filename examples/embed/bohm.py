"""bohm in a Python program, over libbohm.so: python3 bohm.py LIBRARY [BYTES] < LOG > REPORT, so many bytes at a time."""
import ctypes
import sys

Size, Count = ctypes.c_size_t, ctypes.POINTER(ctypes.c_size_t)


class Bohm(ctypes.Structure):
    """A run that its caller feeds. Never copy it, and make one call at a time."""

    _fields_ = [("run", ctypes.c_void_p), ("is_open", ctypes.c_bool)]

    def __init__(self, path):
        super().__init__()
        self.library = ctypes.CDLL(path)
        handle, text = ctypes.POINTER(Bohm), ctypes.c_char_p
        self.library.bohm_open.argtypes = [handle]
        self.library.bohm_step.argtypes = [handle, text, Size, text, Size, Count, Count]
        self.library.bohm_finish.argtypes = [handle, text, Size, Count]
        self.library.bohm_close.argtypes = [handle]
        self.out, self.used, self.made = ctypes.create_string_buffer(1 << 16), Size(), Size()
        self.check(self.library.bohm_open(self))

    def check(self, status):
        if status:
            length = self.library.bohm_status_text(ctypes.c_int32(status), self.out, Size(len(self.out)))
            raise RuntimeError(self.out.raw[:length].decode())

    def feed(self, data):
        """The bytes of the report for these bytes of the log. After out of memory it raises: close the run then."""
        report = []
        while data:
            self.check(self.library.bohm_step(self, data, len(data), self.out, len(self.out), self.used, self.made))
            report.append(self.out.raw[:self.made.value])
            data = data[self.used.value:]
        return b"".join(report)

    def finish(self):
        """The rest of the report."""
        report = []
        while True:
            self.check(self.library.bohm_finish(self, self.out, len(self.out), self.made))
            report.append(self.out.raw[:self.made.value])
            if self.made.value < len(self.out):
                return b"".join(report)

    def close(self):
        self.library.bohm_close(self)


if __name__ == "__main__":
    bohm = Bohm(sys.argv[1])
    most = int(sys.argv[2]) if len(sys.argv) > 2 else 1 << 16
    while piece := sys.stdin.buffer.read(most):
        sys.stdout.buffer.write(bohm.feed(piece))
    sys.stdout.buffer.write(bohm.finish())
    bohm.close()
