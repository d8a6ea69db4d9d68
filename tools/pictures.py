#!/usr/bin/env python3
"""Makes the pictures of docs/pictures/ that show a run: the page of a controller, and its waves as GTKWave draws them.

It needs `apt-get install graphviz chromium gtkwave xvfb xauth`.
"""
import os
import shutil
import subprocess
import sys
import tempfile

sys.dont_write_bytecode = True
from drawing import photograph  # noqa: E402
from program import TOP  # noqa: E402

EXAMPLE, PORTS, STEPS, SHOWN = "controllers/back_pressure", ("made", "used"), "40", 23
SIGNALS = (
    *("producer.fired", "producer.blocked", "producer.item[15:0]", "consumer.item_held[4:0]"),
    *("consumer.rest[7:0]", "consumer.fired", "used", "made[15:0]"),
)
SETTINGS = "initial_window_x 1000\ninitial_window_y 330\nhide_sst 1\nhier_max_level 2\n"


def made(word, folder):
    """What the word of `./hume` writes of the run."""
    source = os.path.basename(EXAMPLE) + ".hume"
    command = [sys.executable, os.path.join(TOP, "tools", "main.py"), word, STEPS, source, *PORTS]
    return subprocess.run(command, cwd=folder, stdout=subprocess.PIPE, check=True).stdout


def write(path, data):
    with open(path, "wb") as file:
        file.write(data)


def script(picture):
    """What GTKWave does: shows the signals, numbers in decimal, and draws itself into the file."""
    listed = " ".join(f"{{net.{it}}}" for it in SIGNALS)
    menus = ["Edit/Highlight_All", "Edit/Data_Format/Decimal", "Edit/UnHighlight_All", "Time/Zoom/Zoom_Full"]
    lines = [f"gtkwave::addSignalsFromList [list {listed}]", *(f"gtkwave::/{it}" for it in menus)]
    return "\n".join([*lines, f"gtkwave::/File/Grab_To_File {picture}", "gtkwave::/File/Quit"]) + "\n"


def draw_waves(folder, picture):
    write(f"{folder}/run.vcd", made("vcd", folder))
    write(f"{folder}/settings", SETTINGS.encode())
    write(f"{folder}/script.tcl", script(picture).encode())
    viewer = ["gtkwave", "-r", "settings", "-S", "script.tcl", "run.vcd"]
    command = ["xvfb-run", "-a", "-s", "-screen 0 1100x500x24", *viewer]
    subprocess.run(command, cwd=folder, check=True, stdout=subprocess.DEVNULL, stderr=subprocess.DEVNULL, timeout=60)


def main():
    pictures = os.path.join(TOP, "docs", "pictures")
    with tempfile.TemporaryDirectory() as room:
        folder = os.path.join(room, "run")
        shutil.copytree(os.path.join(TOP, "examples", EXAMPLE), folder)
        write(f"{folder}/run.html", made("page", folder))
        photograph(f"file://{folder}/run.html#{SHOWN}", os.path.join(pictures, "page.png"), 1000, 1150)
        draw_waves(folder, os.path.join(pictures, "waves.png"))


if __name__ == "__main__":
    main()
