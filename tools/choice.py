#!/usr/bin/env python3
"""Takes the library's if◌then◌else◌ in place of the repository's copy of it, in every import (docs/PORT.md says when it ran)."""
import os, re, subprocess
ROOT = subprocess.run(["git", "rev-parse", "--show-toplevel"], capture_output=True, text=True, check=True).stdout.strip()
IF = "if◌then◌else◌"
n = 0
for d, ds, fs in os.walk(os.path.join(ROOT, "crates")):
    ds[:] = [x for x in ds if x != "out"]
    for f in fs:
        if not f.endswith((".antt", ".rt")):
            continue
        p = os.path.join(d, f)
        with open(p, encoding="utf-8") as it:
            text = it.read()
        out, found, prelude = [], False, None
        for line in text.split("\n"):
            m = re.match(r"((?:ghost )?)use Rattle\.model\.specs\.Choice\.\{([^}]*)\}(;?)$", line)
            if m and IF in m[2]:
                found = m
                rest = [x.strip() for x in m[2].split(",") if x.strip() != IF]
                if rest:
                    out.append(f"{m[1]}use Rattle.model.specs.Choice.{{{', '.join(rest)}}}{m[3]}")
                out.append("\0")
                continue
            if prelude is None and re.match(r"(?:ghost )?use Rattle\.std\.specs\.Prelude\.\{", line):
                prelude = len(out)
            out.append(line)
        if not found:
            continue
        if prelude is not None:
            out[prelude] = re.sub(r"\}(;?)$", f", {IF}}}\\1", out[prelude])
            out = [x for x in out if x != "\0"]
        else:
            out = [f"{found[1]}use Rattle.std.specs.Prelude.{{{IF}}}{found[3]}" if x == "\0" else x for x in out]
        n += 1
        with open(p, "w", encoding="utf-8") as it:
            it.write("\n".join(out))
print(n, "files")
