"""Lists the lines in crates/*/src of a commit at which the points of docs/DESIGN-PASS.md are looked for.

    python3 tools/design_counts.py COMMIT [POINT]

A line that is listed is a place to read, not a verdict: the page says which of them were changed, and which stay and why.
Twins (point 2) come from the lines that stand twice; the page names the command.
"""
import collections
import re
import subprocess
import sys


def git(*args):
    return subprocess.run(['git', *args], check=True, capture_output=True, text=True).stdout


def sources(commit):
    names = git('ls-tree', '-r', '--name-only', commit, 'crates').split()
    return {n: git('show', f'{commit}:{n}').split('\n') for n in names if re.match(r'crates/\w+/src/.*\.rt$', n)}


def lines_like(files, *patterns):
    found = []
    for name, lines in files.items():
        for at, line in enumerate(lines, 1):
            if any(re.search(p, line) for p in patterns):
                found.append(f'{name}:{at}: {line.strip()}')
    return found


def whole(lines):
    return '\n'.join(lines)


def signatures(files):
    for name, lines in files.items():
        for m in re.finditer(r'fn (\w+)[^(]*\(([^)]*)\)', whole(lines)):
            params = tuple(re.findall(r'(\w+):', m.group(2)))
            yield f'{name}: {m.group(1)}', params


# Runs of three parameters or more that stand in three signatures or more.
def travelling(files):
    runs = collections.defaultdict(set)
    for where, params in signatures(files):
        params = [p for p in params if p != 'self']
        for low in range(len(params)):
            for high in range(low + 3, len(params) + 1):
                runs[tuple(params[low:high])].add(where)
    often = {run: sites for run, sites in runs.items() if len(sites) >= 3}
    longest = [r for r in often if not any(r != s and ' '.join(r) in ' '.join(s) for s in often)]
    return [f"({', '.join(r)}): {', '.join(sorted(often[r]))}" for r in longest]


# Clauses that stand word for word in three contracts or more.
def repeated_clauses(files):
    count = collections.Counter()
    for lines in files.values():
        for line in lines:
            if re.match(r'\s*(requires|ensures)\b.*\}$', line):
                count[line.strip()] += 1
    return [f'{n} times: {clause}' for clause, n in count.most_common() if n >= 3]


POINTS = {
    '1 enums': lambda f: lines_like(f, r'^\s*(pub )?enum '),
    '1 flags': lambda f: lines_like(f, r':\s*bool\b'),
    '1 numbers for nothing': lambda f: lines_like(f, r'-> u8$'),
    '1 options and results taken apart by hand': lambda f: lines_like(
        f, r'(Some|Ok|Err)\(.*\) => (Some|Ok|Err|return|Answer)', r'Ok\(\(\)\) => ', r'None => (None|Err)',
        r'Verdict::\w+(\(\w+\))? => Verdict', r'if let Some\(_\)', r'\.is_err\(\) \{'),
    '3 loops': lambda f: lines_like(f, r'^\s*(for|while|loop)\b'),
    '4 conversions by `as`': lambda f: lines_like(f, r'\bas [iu](8|16|32|64|128|size)\b'),
    '4 conversions, comparisons and printing': lambda f: lines_like(
        f, r'fn (from_letter|letter|named|same|as_fault|said|told_\w+|digit_count|put_\w+|\w+_word|print_\w+)\b',
        r'^impl.* (From|TryFrom)<', r'Display for', r'\.high < .*\|\|'),
    '5 clauses in three contracts or more': repeated_clauses,
    '5 parameters that travel together': travelling,
    '6 arrays': lambda f: lines_like(f, r'\[[\w<>:]+; *\w+\][,;]?\s*$', r'\[\w+; *\w+\]'),
    '6 searches': lambda f: lines_like(f, r'fn (lower_bound|binary_\w+|seek)'),
    '7 traits of one function, pointers, dyn': lambda f: [
        f'{n}: {m.group(1)}' for n, ls in f.items()
        for m in re.finditer(r'pub trait (\w+)[^{]*\{(.*?)\n\}', whole(ls), re.S) if len(re.findall(r'\bfn ', m.group(2))) == 1]
    + lines_like(f, r'\bdyn\b', r'\bfn\('),
}


def main():
    files = sources(sys.argv[1])
    for point, look in POINTS.items():
        if len(sys.argv) > 2 and not point.startswith(sys.argv[2]):
            continue
        found = look(files)
        print(f'== {point}: {len(found)}')
        for line in found:
            print('   ', line)


main()
