"""Gathers real binary XML files: those of the framework's package, and manifests that aapt makes.

  python3 real.py OUT_DIR [MANIFESTS]     writes OUT_DIR/framework-NNNN.axml and OUT_DIR/manifest-NNNN.axml (300, if not said otherwise)

Needs Debian's packages aapt and android-framework-res, and says so where one is missing. The manifests are made here: an application of a few to some hundred components
with the attributes that applications use, the same for the same number; some are given to aapt with a UTF-16 pool (`--utf16`).
"""
import os
import random
import subprocess
import sys
import tempfile
import zipfile

sys.path.insert(0, os.path.dirname(os.path.abspath(__file__)))
sys.dont_write_bytecode = True
from needed import FRAMEWORK, needs

PERMISSIONS = ["INTERNET", "ACCESS_FINE_LOCATION", "ACCESS_COARSE_LOCATION", "CAMERA", "BLUETOOTH", "VIBRATE", "WAKE_LOCK", "READ_CONTACTS", "NFC",
               "FOREGROUND_SERVICE", "RECEIVE_BOOT_COMPLETED", "RECORD_AUDIO", "WRITE_EXTERNAL_STORAGE"]
ACTIONS = ["android.intent.action.MAIN", "android.intent.action.VIEW", "android.intent.action.SEND", "android.intent.action.BOOT_COMPLETED",
           "android.intent.action.EDIT"]
CATEGORIES = ["android.intent.category.LAUNCHER", "android.intent.category.DEFAULT", "android.intent.category.BROWSABLE"]
WORDS = ["Round", "Sample", "Depot", "Visit", "Morning", "Tube", "Route", "Label", "Sync", "Report", "Übergabe", "採血", "Нурс"]


def manifest(number):
    r = random.Random(number)
    size = r.choice((1, 2, 3, 5, 10, 30, 100)) if number % 25 else 600

    def flag():
        return r.choice(("true", "false"))

    def text():
        return " ".join(r.choice(WORDS) for _ in range(r.randrange(1, 5)))

    def filters():
        out = []
        for _ in range(r.randrange(3)):
            out.append(f'<intent-filter android:priority="{r.randrange(-100, 100)}">')
            out += [f'<action android:name="{a}"/>' for a in r.sample(ACTIONS, r.randrange(1, 4))]
            out += [f'<category android:name="{c}"/>' for c in r.sample(CATEGORIES, r.randrange(0, 3))]
            if r.random() < 0.4:
                out.append(f'<data android:scheme="https" android:host="h{r.randrange(100)}.example" android:pathPrefix="/p{r.randrange(100)}"/>')
            out.append("</intent-filter>")
        for _ in range(r.randrange(2)):
            out.append(f'<meta-data android:name="key.{r.randrange(1000)}" android:value="{text()}"/>')
        return out

    lines = [f'<manifest xmlns:android="http://schemas.android.com/apk/res/android" xmlns:own="urn:own" package="org.example.p{number}"'
             f' android:versionCode="{r.randrange(1 << 31)}" android:versionName="{r.randrange(9)}.{r.randrange(99)}" own:kind="{text()}">',
             f'<uses-sdk android:minSdkVersion="{r.randrange(16, 26)}" android:targetSdkVersion="{r.randrange(26, 30)}"/>']
    lines += [f'<uses-permission android:name="android.permission.{p}"/>' for p in r.sample(PERMISSIONS, r.randrange(len(PERMISSIONS)))]
    if r.random() < 0.5:
        lines.append(f'<supports-screens android:anyDensity="{flag()}" android:largeScreens="{flag()}"/>')
    lines.append(f'<application android:allowBackup="{flag()}" android:label="{text()}" android:debuggable="{flag()}" android:icon="@android:drawable/ic_menu_help"'
                 f' android:theme="@android:style/Theme.Material">')
    for k in range(size):
        tag = r.choice(("activity", "activity", "service", "receiver", "provider"))
        extra = f' android:authorities="org.example.p{number}.a{k}"' if tag == "provider" else ""
        if tag == "activity":
            extra += f' android:launchMode="singleTop" android:configChanges="orientation|keyboard" android:screenOrientation="{r.choice(("portrait", "landscape"))}"'
        lines.append(f'<{tag} android:name=".{r.choice(("Main", "Visit", "Sync"))}{k}" android:exported="{flag()}" android:label="{text()}"{extra}>')
        lines += filters()
        lines.append(f"</{tag}>")
    return "\n".join(lines + ["</application>", "</manifest>"])


def main(out, count=300):
    needs("real.py", "aapt", "android-framework-res")
    os.makedirs(out, exist_ok=True)
    made = 0
    with zipfile.ZipFile(FRAMEWORK) as z:
        for name in sorted(n for n in z.namelist() if n.endswith(".xml")):
            b = z.read(name)
            if b[:4] == b"\3\0\x08\0":
                with open(f"{out}/framework-{made:04}.axml", "wb") as f:
                    f.write(b)
                made += 1
    print(f"{made} files of the framework's package", file=sys.stderr)
    with tempfile.TemporaryDirectory() as d:
        for number in range(count):
            with open(f"{d}/AndroidManifest.xml", "w", encoding="utf-8") as f:
                f.write('<?xml version="1.0" encoding="utf-8"?>\n' + manifest(number))
            pool = ["--utf16"] if number % 3 == 0 else []
            subprocess.run(["aapt", "package", "-f", *pool, "-M", f"{d}/AndroidManifest.xml", "-I", FRAMEWORK, "-F", f"{d}/a.apk"], check=True,
                           stdout=subprocess.DEVNULL)
            with zipfile.ZipFile(f"{d}/a.apk") as z, open(f"{out}/manifest-{number:04}.axml", "wb") as f:
                f.write(z.read("AndroidManifest.xml"))
            if number % 50 == 49:
                print(f"{number + 1} manifests", file=sys.stderr)


if __name__ == "__main__":
    if len(sys.argv) not in (2, 3):
        sys.exit("usage: python3 real.py OUT_DIR [MANIFESTS]")
    main(sys.argv[1], *map(int, sys.argv[2:]))
