#!/bin/sh
# Holds the references of docs/TRUST.md, `name` path:line, to the files: the line must have the name. (tools/trust.py --write sets them anew.)
cd "$(dirname "$0")/.." || exit 2
grep -oE '`[^`]+` crates/[^ :,)]+:[0-9]+' docs/TRUST.md | {
  count=0 wrong=0
  while IFS= read -r reference; do
    name=${reference#\`}; name=${name%%\`*}
    place=${reference##* }; path=${place%:*}; line=${place##*:}
    count=$((count + 1))
    sed -n "${line}p" "$path" | grep -qF -- "$name" || { wrong=$((wrong + 1)); echo "docs/TRUST.md: $name is not at $place"; }
  done
  echo "docs/TRUST.md: $count references, $wrong wrong"
  [ "$count" -gt 0 ] && [ "$wrong" -eq 0 ]
}
