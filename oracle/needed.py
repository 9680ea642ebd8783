"""What a script needs of the machine, looked for before it begins: a line says which Debian packages are missing."""
import os
import shutil
import sys

FRAMEWORK = "/usr/share/android-framework-res/framework-res.apk"


def needs(script, *packages):
    """Ends the script where one of these Debian packages, or what stands for it, is not there."""
    there = {"aapt": shutil.which("aapt"), "android-framework-res": os.path.exists(FRAMEWORK), "cargo": shutil.which("cargo"), "gcc": shutil.which("cc")}
    missing = [p for p in packages if not there[p]]
    if missing:
        sys.exit(f"{script}: missing on this machine, by Debian package: {', '.join(missing)} (apt-get install {' '.join(missing)})")
