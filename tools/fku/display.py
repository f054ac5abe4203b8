"""A display that nobody sees, for machines without one."""
import contextlib
import os
import shutil
import subprocess

from fku.trouble import NO_PACKAGE, Trouble


@contextlib.contextmanager
def display():
    """Lets VTK draw: on the display that there is, or on one that Xvfb makes as long as it is needed."""
    if os.environ.get("DISPLAY"):
        yield
        return
    if not shutil.which("Xvfb"):
        raise Trouble("there is no display: on Debian `apt-get install xvfb libgl1-mesa-dri` gives one", NO_PACKAGE)
    read, write = os.pipe()
    command = ["Xvfb", "-displayfd", str(write), "-screen", "0", "1600x1200x24", "-nolisten", "tcp"]
    server = subprocess.Popen(command, pass_fds=[write], stdout=subprocess.DEVNULL, stderr=subprocess.DEVNULL)
    os.close(write)
    try:
        with open(read, encoding="ascii") as pipe:
            number = pipe.readline().strip()
        if not number:
            raise Trouble("Xvfb did not start", NO_PACKAGE)
        os.environ["DISPLAY"] = f":{number}"
        yield
    finally:
        os.environ.pop("DISPLAY", None)
        server.terminate()
        server.wait()
