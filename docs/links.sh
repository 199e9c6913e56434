#!/usr/bin/env bash
# Tries every link of the documents: the file that it names is there. Links to other machines are not tried. And every must-fail edit
# has its row in docs/MUST-FAIL.md.
set -euo pipefail
cd "$(dirname "$0")/.."
broken=0
while IFS=: read -r file link; do
    target=${link%%#*}
    case $target in http*|"") continue ;; esac
    [ -e "$(dirname "$file")/$target" ] || { echo "$file: $link is not there"; broken=1; }
done < <(grep -o ']([^)]*)' README.md docs/*.md | sed 's/](\(.*\))$/\1/')
for edit in crates/*/must-fail/*.edit; do
    crate=$(basename "$(dirname "$(dirname "$edit")")") label=$(basename "$edit" .edit)
    grep -q "| \`$crate\` \`$label\` |" docs/MUST-FAIL.md || { echo "docs/MUST-FAIL.md: no row for $edit"; broken=1; }
done
exit $broken
