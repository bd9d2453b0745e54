#!/usr/bin/env bash
# Runs every example of the pages on refusals, so that none can rot, and holds the pages to the numbers of the header.
set -euo pipefail
. tests/common/x86.sh
need make make
need python3 python3

work=$PWD/target/pages
rm -rf "$work"
mkdir -p "$work"
trap 'find "$work" -type l -delete' EXIT # rt refuses links below the repository
make --silent
test -x target/bin/list || { echo "pages: target/bin/list is not built"; exit 1; }
touch target/bin/list # as new as its sources, which the prover has just read
ln -s "$PWD/list" "$work/list"

# each page's blocks, as NN-K.sh or NN-K.c with NN-K.expected
python3 - "$work" include/blist.h docs/refusals/[0-9][0-9].md << 'PY'
import re, sys
work, header, pages = sys.argv[1], open(sys.argv[2], encoding='utf-8').read(), sys.argv[3:]
def fail(page, why):
    sys.exit(f'pages: {page}: {why}')
numbers = [int(number) for number in re.findall(r'(?m)^    BLIST_\w+ = (\d+),? ', header)]
without = [int(number) for number in re.findall(r'(?m)^    BLIST_\w+ = (\d+),? .*No text gives this', header)]
if [page[-5:-3] for page in pages] != [f'{number:02d}' for number in numbers]:
    fail('docs/refusals', f'its pages are {pages}, the numbers of the header {numbers}')
for number, page in zip(numbers, pages):
    text = open(page, encoding='utf-8').read()
    if not text.startswith(f'# Refusal {number}: '):
        fail(page, 'its title does not name its number')
    for part in ('What it means', 'The smallest input that gives it', 'What to tell the customer'):
        if f'\n## {part}\n' not in text:
            fail(page, f'no part "{part}"')
    blocks = re.findall(r'(?ms)^```(\w*)\n(.*?)^```$', text)
    kinds = [kind for kind, _ in blocks]
    if kinds[1::2] != ['text'] * (len(kinds) // 2) or any(kind not in ('sh', 'c') for kind in kinds[::2]) or len(kinds) % 2:
        fail(page, f'its blocks are {kinds}')
    if (number in without) != (not blocks):
        fail(page, 'a page has an example exactly if some text gives its number')
    for k, ((kind, code), (_, expected)) in enumerate(zip(blocks[::2], blocks[1::2]), 1):
        if not re.match(rf'(refused {number} at \d+\n)+', expected):
            fail(page, f'example {k} does not give refusal {number}')
        if kind == 'c':
            code = '#include <stdio.h>\n#include "blist.h"\nint main(void)\n{\n' + code + 'return 0;\n}\n'
        name = f'{work}/{number:02d}-{k}'
        open(f'{name}.{kind}', 'w').write(code)
        open(f'{name}.expected', 'w').write(expected)
PY

ran=0
for expected in "$work"/*.expected; do
    name=${expected%.expected}
    if [ -f "$name.sh" ]; then
        (cd "$work" && bash "$name.sh") > "$name.wrote" || [ $? -eq 1 ] # a refusal has status 1
    else
        CC86 -std=c99 -Wall -Wextra -Werror -Iinclude "$name.c" target/staticlib/libblist.a -o "$name"
        RUN86 "$name" > "$name.wrote"
    fi
    diff "$name.wrote" "$expected" || { echo "pages: $(basename "$name") wrote something else"; exit 1; }
    ran=$((ran + 1))
done

# a theorem that a page cites is there
grep -oh '`[a-z_-]*` in \[crates/[^]]*\]' docs/refusals/*.md | sed 's/`\(.*\)` in \[\(.*\)\]/\1 \2/' | while read -r theorem file; do
    grep -q "^ *pub $theorem : " "$file" || { echo "pages: $file has no $theorem"; exit 1; }
done
echo "pages: $ran examples ok"
