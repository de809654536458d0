"""The MAME machine whose TMS32025 is compared with c25, without its ROMs and without a picture or a sound."""
import os
import re
import shutil
import subprocess

MACHINE = "ainferno"
HERE = os.path.dirname(os.path.abspath(__file__))


class Mame:
    """MAME with files of zeros in place of the machine's ROMs, which are made in the folder."""

    def __init__(self, folder):
        self.folder = folder
        self.program = shutil.which("mame", path=os.environ.get("PATH", "") + ":/usr/games")
        if self.program is None:
            raise SystemExit("mame is not there: apt-get install mame")
        told = subprocess.run([self.program, "-listxml", MACHINE], capture_output=True, text=True, check=True).stdout
        roms = os.path.join(folder, "roms", MACHINE)
        os.makedirs(roms)
        for name, size in re.findall(r'<rom name="([^"]*)"[^>]*? size="(\d+)"', told):
            with open(os.path.join(roms, name), "wb") as file:
                file.truncate(int(size))

    def run(self, script, *words, **given):
        """Runs one of the scripts next to this file until it ends, with these variables in its environment."""
        around = dict(os.environ, SDL_VIDEODRIVER="dummy", SDL_AUDIODRIVER="dummy", HOME=self.folder, **given)
        subprocess.run([self.program, MACHINE, "-rompath", "roms", "-skip_gameinfo", "-video", "none", "-sound", "none", "-nothrottle",
                        "-autoboot_delay", "0", "-autoboot_script", os.path.join(HERE, script), *words],
                       cwd=self.folder, env=around, stdout=subprocess.DEVNULL, stderr=subprocess.DEVNULL, check=False)
