#!/usr/bin/env python3
"""pages.py: in README.md and docs/ the names between backticks that the crates no longer have get the spelling that they have now."""
import re
from pathlib import Path

import names

TOKEN = re.compile(r'[^\s(){}\[\],;.«»"`/]+')


def main():
    now = set(names.defined(Path('.'), set()))
    turned = names.table()

    def token(m):
        word = m.group(0)
        if word in now or not (re.search('[a-z][A-Z]', word) or '-' in word):
            return word
        for other in (turned.get(word), names.snake(word), names.snake(word).replace('-', '_'), names.snake(word).replace('-', '_') + '_lem'):
            if other in now:
                return other
        return word

    for path in [Path('README.md'), *sorted(Path('docs').glob('*.md'))]:
        if path.name == 'PORT.md':
            continue
        old = path.read_text()
        new = re.sub(r'`([^`\n]+)`', lambda m: '`' + TOKEN.sub(token, m.group(1)) + '`', old)
        new = re.sub(r'(?<=[a-z_])::core(?=::|`)', '::cores', new)
        new = re.sub(r'src/core\.rt', 'src/cores.rt', new)
        if new != old:
            path.write_text(new)
            print(path)


if __name__ == '__main__':
    main()
