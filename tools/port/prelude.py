#!/usr/bin/env python3
"""Takes the library's operators and plain words from the library's own Prelude, in every file that took them by way of image's. Usage, at the top:
python3 tools/port/prelude.py. The kit's gate refuses another way to them, since a reader takes such a word for the library's own."""
import glob
import re

text = open("crates/image/specs/Prelude.antt", encoding="utf-8").read()
own = set(re.findall(r"[^\s,{}]+", re.search(r"pub use Rattle\.std\.specs\.Prelude\.\{([^}]*)\}", text).group(1)))
count = 0
for path in sorted(glob.glob("crates/*/*/**/*", recursive=True)):
    if not path.endswith((".antt", ".rt")) or "/out/" in path or path == "crates/image/specs/Prelude.antt":
        continue
    before = open(path, encoding="utf-8").read()

    def split(m):
        start, names, end = m.group(1), re.findall(r"[^\s,][^,]*", m.group(2)), m.group(3)
        names = [n.strip() for n in names if n.strip()]
        std = [n for n in names if n.split(" as ")[0] in own]
        rest = [n for n in names if n.split(" as ")[0] not in own]
        out = []
        if std:
            out.append(f"{start}Rattle.std.specs.Prelude.{{{', '.join(std)}}}{end}")
        if rest:
            out.append(f"{start}Rattle.image.specs.Prelude.{{{', '.join(rest)}}}{end}")
        return "\n".join(out)

    after = re.sub(r"^((?:pub |ghost )*use )Rattle\.image\.specs\.Prelude\.\{([^}]*)\}(;?)$", split, before, flags=re.M)
    if after != before:
        count += 1
        open(path, "w", encoding="utf-8").write(after)
print(count, "files")
