"""Holds the pages of the repository against what is there: links, files, identifiers, commands, lines of code and counts. Prints what is wrong.

Pages are README.md, docs/*.md, examples/README.md and crates/*/README.md. A name in backquotes is looked for in the sources, the definitions,
the scripts and the examples; a path, from the top, from the page's own folder, from crates/, and from the crate that the page is of. A word
of the scenario language, a line of a report and a piece of JSON are left alone.
"""
import functools
import glob
import os
import re
import subprocess

from common import begin, ends, told_by
from common import wrongs as wrong

begin()
PAGES = ["README.md"] + sorted(glob.glob("docs/*.md")) + ["examples/README.md"] + sorted(glob.glob("crates/*/README.md"))
SOURCES = """crates/*/src/*.rt crates/*/src/*/*.rt crates/*/specs/*.antt crates/*/proofs/*.antt crates.txt checks/* checks/*/* tools/* tools/*/*
    examples/*.scenario examples/*.report HANDLES tests prove vss timeline orders .ci/run""".split()
# Words of the kit, the host and the languages here, which no file of the repository need have.
FOREIGN = set("""rt ci rattle-kit-13f rattle-kit-13b malloc realloc std serde_json json uuid sha2 clap hex itoa byteorder indexmap arrayvec
    atomic_table crossbeam_utils libc Send Sync Drop Copy Model sha256sum taskset rsync open ftruncate pread pwrite fdatasync close
    pthread_create fsync mount requires ensures crates.txt must-fail""".split())
HEADINGS = ["Proved", "Tested only", "Trusted", "Limits", "Costs"]
MOST_README, MOST_DOCS, MOST_WORDS, LEAST_LINES, MOST_LINES = 8192, 122880, 20, 20, 80


def text_of(path):
    with open(path, encoding="utf-8", errors="replace") as file:
        return file.read()


def anchors(path):
    """The names that links to the headings of a page have."""
    titles = re.findall(r"^#+ (.*)$", text_of(path), re.M)
    return {re.sub(r"[^\w\- ]", "", title.lower()).replace(" ", "-") for title in titles}


def links(page, text):
    for shown, target in re.findall(r"\[([^\[\]]*)\]\(([^)\s]+)\)", text):
        if "://" in target:
            continue
        path, _, anchor = target.partition("#")
        path = os.path.normpath(os.path.join(os.path.dirname(page), path)) if path else page
        if not os.path.exists(path):
            wrong.append(f"{page}: a link leads to {target}, which is not there")
        elif anchor and anchor not in anchors(path):
            wrong.append(f"{page}: a link leads to {target}, and {path} has no such heading")
        elif path.endswith((".rt", ".antt")):
            there = set(re.findall(r"\w+", text_of(path)))
            wrong.extend(f"{page}: `{name}` is not in {target}" for name in re.findall(r"`(\w+)`", shown) if name not in there)


def is_there(page, path):
    """Whether a path, which may have stars, names a file as a page speaks of files."""
    home = os.path.dirname(page)
    roots = ["", home, "crates", "crates/*", os.path.join(home, "src"), os.path.join(home, "specs")]
    path = path.replace("NAME", "*")
    if any(glob.glob(os.path.join(root, path)) for root in roots):
        return True
    return "/" not in path and bool(glob.glob(f"crates/*/*/{path}") + glob.glob(f"*/{path}"))


PATH = re.compile(r"[\w.*-]*/[\w.*/-]*|[\w*-]+\.(?:rt|antt|sh|py|md|txt|scenario|report|summary|listing|svg|edit|awk)")
NAME = re.compile(r"[A-Za-z_]\w*(?:(?:::|\.)[A-Za-z_]\w*)*")
COMMAND = re.compile(r"(?:\$ )?(?:[A-Z_]+=\S+ )?(?:bash |nice |taskset -c \S+ )?((?:\./|tools/|checks/|\.ci/)[\w./-]+)(?: .*)?")
NAMED = r"\b(?:examples|docs|checks|tools|crates)/[\w./-]+\w"


def spans(page, text, words):
    for span in re.findall(r"`([^`\n]+)`", re.sub(r"^( {4}|```).*?$", "", text, flags=re.M)):
        command = COMMAND.fullmatch(span)
        if command:
            path = command.group(1)
            if not os.path.exists(path) and not is_there(page, path):
                wrong.append(f"{page}: there is no `{path}`")
        elif PATH.fullmatch(span):
            if not span.startswith(("/", "disks/", "out/")) and "/out" not in span and not is_there(page, span):
                wrong.append(f"{page}: there is no file `{span}`")
        elif NAME.fullmatch(span):
            for word in re.split(r"::|\.", span):
                if word not in words and word not in FOREIGN and not re.fullmatch(r"[a-z]\d+", word):
                    wrong.append(f"{page}: nothing is named `{word}` (in `{span}`)")


def definitions(page, text):
    """Each definition that a page says is in a file is made there."""
    for names, path in re.findall(r"((?:`\w+`(?:, | and )?)+) in\s+`([\w/]+\.antt)`", text):
        for found in glob.glob(os.path.join("crates", path)):
            made = set(re.findall(r"^ *(?:abbrev |unfoldable )?pub (?:record |data )?(\w+)", text_of(found), re.M))
            wrong.extend(f"{page}: `{name}` is not defined in `{path}`" for name in re.findall(r"`(\w+)`", names) if name not in made)


def commands(page, text):
    """The commands of indented lines, and all paths from the top."""
    for line in re.findall(r"^ {4}(.*)$", text, re.M):
        command = COMMAND.fullmatch(line.strip())
        if command and not os.path.exists(command.group(1)):
            wrong.append(f"{page}: there is no `{command.group(1)}` to run")
    for path in sorted(set(re.findall(NAMED, text))):
        if "NAME" not in path and not os.path.exists(path):
            wrong.append(f"{page}: there is no `{path}`")


def samples():
    """Each line of code of docs/LIBRARY.md, but for the comment behind it, is one of the examples, which are compiled and proved."""
    code = {line.strip() for path in glob.glob("crates/library_examples/src/*.rt") for line in text_of(path).splitlines()}
    for line in re.findall(r"^ {4}(.*)$", text_of("docs/LIBRARY.md"), re.M):
        shown = re.sub(r" +// .*$", "", line).strip()
        if shown not in code:
            wrong.append(f"docs/LIBRARY.md: no example has the line `{shown}`")


@functools.cache
def defined(path):
    """The names that a file of specs/ knows, each with the words of its definition, or with the file and the name that it is brought in from."""
    known, text = {}, re.sub("--.*", "", text_of(path))
    for crate, place, names, module in re.findall(r"^use Rattle\.(\w+)\.([\w.]+?)(?:\.\{(.*)\}| as (\w+))$", text, re.M):
        for name in (names or module).split(", "):
            first, _, here = name.partition(" as ")
            known[here or first] = f"crates/{crate}/{place.replace('.', '/')}.antt", first
    for head, rest in re.findall(r"^(?!use |unfolding )(\S.*)((?:\n .*|\n)*)", text, re.M):
        name = re.sub("^(abbrev |unfoldable |pub |record |data )*", "", head).split()[0]
        known.setdefault(name, set()).update(re.findall(r"[^\s(){}\[\];,.]+", head + rest))
    return known


def files_below(path, name):
    """How many files of specs/ have a definition, and what it uses, but for `IsAsPromised`."""
    places = [(path, name)]
    for path, name in places:
        words = defined(path).get(name)
        for word in sorted(words - {"IsAsPromised"}) if isinstance(words, set) else []:
            known = defined(path).get(word, ("", ""))
            place = (path, word) if isinstance(known, set) else known
            if place not in places and os.path.exists(place[0]):
                places.append(place)
    return len({path for path, name in places})


def counts():
    """Numbers that pages say, each as a form of words and as it is."""
    rows = [line for line in text_of("crates.txt").splitlines() if ":" in line and not line.startswith("#")]
    scenarios, in_gate = glob.glob("examples/*.scenario"), len(glob.glob("crates/*/must-fail/*.edit"))
    wrong.extend(f"{path}: does not begin with its story" for path in scenarios if not text_of(path).startswith("# "))
    by_hand = sum(len(re.findall("^name: ", text_of(it), re.M)) for it in glob.glob("crates/*/wrong.table"))
    promised = re.findall(r"^pub fn (\w+)", text_of("crates/promises/src/laws.rt"), re.M)
    kept = {
        r"(\d+) crates of crates\.txt": len(rows),
        r"(\d+) scenarios of examples/": len(scenarios),
        r"(\d+) of `must-fail/`": in_gate,
        r"(\d+) of `wrong\.table`": by_hand,
        r"(\d+) of \d+ wrong bodies": in_gate,
        r"\d+ of (\d+) wrong bodies": in_gate + by_hand,
        r"(\d+) laws of `promises`": len(promised),
        r"definitions of (\d+) files": files_below("crates/promises/specs/Headline.antt", "Headline"),
        r"and the devices it is (\d+)": files_below("crates/vss_main/specs/TopCall.antt", "IsDone"),
    }
    for form, count in kept.items():
        said = [(page, int(number)) for page in PAGES for number in re.findall(form, " ".join(text_of(page).split()))]
        if not said:
            wrong.append(f"no page says how many: {form}")
        wrong.extend(f"{page}: says {number} where there are {count}: {form}" for page, number in said if number != count)


def laws():
    """Each law of `promises` is on its page, or of `facts` has its sentence in the code."""
    for law in re.findall(r"^pub fn (\w+)", text_of("crates/promises/src/laws.rt"), re.M):
        if not re.search(rf"\b{law}\b", text_of("docs/PROMISES.md")):
            wrong.append(f"docs/PROMISES.md: the law `{law}` is not there")
    for above, law in re.findall(r"^(.*)\n(?:#.*\n)*pub fn (\w+)", text_of("crates/promises/src/facts.rt"), re.M):
        if not above.startswith("///"):
            wrong.append(f"crates/promises/src/facts.rt: the law `{law}` has no sentence")


def answers():
    """Each line of an example that docs/ANSWERS.md names is such a line, and its report has that answer; how many."""
    count, words, fails, has_examples = 0, [], False, False
    for line in text_of("docs/ANSWERS.md").splitlines():
        cells = re.split(r" *\| *", line)
        if line.startswith("#"):
            words, fails = re.findall("`([a-z]+)`", line), "fails" in line
        if not line.startswith("|") or cells[-2] == "Example":
            has_examples, name = line.startswith("|"), ""
        elif has_examples:
            cited = (re.fullmatch(r"((?:orders/)?[a-z_]+)?(?:^| |$)(\d+)?", it) for it in cells[-2].split(", "))
            for found in filter(None, cited):
                name, number, count = found[1] or name, found[2], count + 1
                faults = answer_of(cells[1], words, fails, name, number)
                wrong.extend(f"docs/ANSWERS.md: {name} {number or ''}: {it}" for it in faults)
    return count


def answer_of(answer, words, fails, name, number):
    """Yields what is wrong with the answer of a line of an example, or with how a set fails if no line is named."""
    if not os.path.exists(f"examples/{name}.scenario"):
        yield "there is no such example"
        return
    report = text_of(f"examples/{name}.report")
    if not number:
        if fails and not re.search(rf"^= set \d+ failed {answer.split(', ')[-1]}", report, re.M):
            yield f"no set fails with {answer}"
        return
    word = text_of(f"examples/{name}.scenario").splitlines()[int(number) - 1].split(" ")[0]
    reply = re.search(rf"^\d+ lane \S+ {number} (\S+)", report, re.M)
    if words and word not in words:
        yield f"the line is `{word}`, and none of: {', '.join(words)}"
    if not reply or answer[0] not in "*`" and reply[1] != answer.split(" ")[0]:
        yield f"the line is answered {reply and reply[1]}, and not {answer}"


def sizes():
    """The README and the pages of docs/ are short, and so is each cell of a table."""
    if len(text_of("README.md").encode()) > MOST_README:
        wrong.append(f"README.md has more than {MOST_README} bytes")
    if sum(os.path.getsize(page) for page in glob.glob("docs/*.md")) > MOST_DOCS:
        wrong.append(f"the pages of docs/ have more than {MOST_DOCS} bytes together")
    for page in PAGES:
        for line in re.findall(r"^\|(.*)\|$", text_of(page), re.M):
            for cell in re.split(r"(?<!\\)\|", line):
                if len(re.sub(r"\]\([^)]*\)", "]", cell).split()) > MOST_WORDS:
                    wrong.append(f"{page}: a cell has more than {MOST_WORDS} words: {cell.strip()[:60]}")


def crate_pages():
    names = [line.split(":")[0].split()[0] for line in text_of("crates.txt").splitlines() if ":" in line and not line.startswith("#")]
    for name in names:
        page = f"crates/{name}/README.md"
        if not os.path.isfile(page):
            wrong.append(f"there is no {page}")
            continue
        text = text_of(page)
        if not text.startswith(f"# {name}\n\n"):
            wrong.append(f"{page}: does not begin with its title")
        if [it for it in re.findall(r"^## (.*)$", text, re.M) if it != "Format"] != HEADINGS:
            wrong.append(f"{page}: its headings are not {', '.join(HEADINGS)}")
        if not LEAST_LINES <= text.count("\n") <= MOST_LINES:
            wrong.append(f"{page}: has {text.count(chr(10))} lines, and not {LEAST_LINES} to {MOST_LINES}")


# the paragraphs of docs/ARCHITECTURE.md on changes: what begins them, and the enum through all of whose variants a file
# goes, or the words that it has, in these crates
CHANGES = (
    ("Another line of a scenario", "scenario/src/word.rt", ""), ("Another line of a scenario", "scenario/src/op.rt", ""),
    ("Another line of a scenario", "scenario/src/line.rt", ""), ("Another payload of a write", "block_data/src/payload.rt", ""),
    ("Another time limit", "set_agenda/src/limit.rt", ""), ("A status", "vss_main/src/status.rt", ""),
    ("A field of a reply", r"PropertiesOf|told\.Properties|Told::Properties", ""),
    ("Another provider", r"\bCowGroup\b", "/(provider|vss_play|vss_world)/"),
)
# how many files such a change may touch
MOST_FILES = {"Another line of a scenario": 15, "Another payload of a write": 8}


def changes():
    """The page names for each change the files of src and specs that it touches; how many these are."""
    page, looked = "docs/ARCHITECTURE.md", 0
    crates = [line.split()[0].rstrip(":") for line in told_by("lines_of_crates", "vss")[1].splitlines()]
    paths = [path for crate in crates for path in glob.glob(f"crates/{crate}/src/*.rt") + glob.glob(f"crates/{crate}/specs/*.antt")]
    files = {path: re.sub(r"^ *(pub |ghost )*use .*$", "", text_of(path), flags=re.M) for path in paths}
    for change, of, where in CHANGES:
        words = [rf"\b{it}\b" for it in variants_of(f"crates/{of}")] if of.endswith(".rt") else [of]
        touched = [path for path, text in files.items() if re.search(where, path) and all(re.search(it, text) for it in words)]
        row = next(row for row in text_of(page).split("\n\n") if row.startswith(f"**{change}"))
        wrong.extend(f"{page}: {change} does not name {path}" for path in touched if os.path.basename(path) not in row)
        count, most = len(set(re.findall(r"\w+\.(?:rt|antt)", row))), MOST_FILES.get(change)
        if most and (f" {count} files of src and specs" not in row or count > most):
            wrong.append(f"{page}: {change} names {count} files, and may name {most}")
        looked += len(touched)
    return looked


def variants_of(path):
    """The variants of the enum that is a file's, and has its name."""
    return re.findall(r"^    ([A-Z]\w*)", re.search(r"^pub enum \w+ {\n(.*?)\n}", text_of(path), re.M | re.S)[1], re.M)


def main():
    files = {path for pattern in SOURCES for path in glob.glob(pattern) if os.path.isfile(path)}
    words = set()
    for path in files:
        words.update(re.findall(r"[A-Za-z_]\w*", text_of(path)))
        words.update(os.path.basename(path).split("."))
    words.update(path.split("/")[1] for path in glob.glob("crates/*"))
    for page in PAGES:
        text = text_of(page)
        links(page, text)
        spans(page, text, words)
        definitions(page, text)
        commands(page, text)
    samples()
    counts()
    laws()
    crate_pages()
    sizes()
    named = answers()
    if named < 40:
        wrong.append(f"docs/ANSWERS.md names {named} lines of examples only")
    for path in glob.glob("examples/*.scenario") + glob.glob("examples/orders/*.scenario"):
        if f"({path.removeprefix('examples/')})" not in text_of("examples/README.md"):
            wrong.append(f"examples/README.md does not name {path}")
    if subprocess.run(["tools/crate-table", "--check"], check=False).returncode:
        wrong.append("docs/ARCHITECTURE.md has other tables than crates.txt")
    ends(f"{len(PAGES)} pages, {named} answers and {changes()} files that a change touches, as the sources are")


main()
