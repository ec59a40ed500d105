"""Checks of the documents, for .ci/repository.

usage: .ci/pages.py commands PAGE..     each command after a '$ ' writes what stands below it
       .ci/pages.py lines PAGE FILE..   each block of Rust, of C or of specs on the page stands in one of the files
       .ci/pages.py job PAGE FILE       the page's JSON is that of the file
       .ci/pages.py narrow COUNT PAGE   at most so many lines, each of at most 120 characters (COUNT 0: of any number)
       .ci/pages.py wide COUNT FILE..   at most so many lines of the files have more than 100 characters
       .ci/pages.py names PAGE..        each path and each word of code on a page stands in the tree
       .ci/pages.py links PAGE..        each link to a file of the tree, and to a heading there, leads to one
"""
import concurrent.futures, json, os, re, subprocess, sys

# What a page names in the type of code that is no path and no word of this tree.
OTHERS = {"p3-sumcheck", "rattle-kit-13", "NAME_tests", "OTHER_PROGRAM", "_prefix", "_suffix", "_in", "_of", "_by", "x.old", "x.new", "./sumcheck"}

def text_of(file):
    with open(file, encoding="utf-8") as it:
        return it.read()

def blocks(page, word=""):
    """The fenced blocks of a page that begin with this word."""
    return re.findall(rf"^```{word}\n(.*?)^```$", text_of(page), re.M | re.S)

def commands(*pages):
    """Unproved runs are left out: another check makes one."""
    runs = [it for page in pages for block in blocks(page) for it in re.findall(r"^\$ (.*)\n((?:(?!\$ ).*\n)*)", block, re.M)]
    runs = [it for it in runs if "--try" not in it[0]]

    def said(run):
        return subprocess.run(["bash", "-c", run[0]], capture_output=True, text=True).stdout

    with concurrent.futures.ThreadPoolExecutor(4) as pool:
        wrong = [line for (line, wanted), told in zip(runs, pool.map(said, runs)) if told != wanted]
    print("\n".join(wrong), end="\n" if wrong else "", file=sys.stderr)
    return runs and not wrong

def lines(page, *files):
    found = [it for word in ("rust", "c", "antt") for it in blocks(page, word)]
    texts = [text_of(file) for file in files]
    return found and all(any(it in text for text in texts) for it in found)

def job(page, file):
    found = blocks(page, "json")
    return found and all(json.loads(it) == json.loads(text_of(file)) for it in found)

def narrow(count, page):
    read = text_of(page).splitlines()
    return read and (count == "0" or len(read) <= int(count)) and all(len(it) <= 120 for it in read)

def wide(count, *files):
    return files and sum(len(line) > 100 for file in files for line in text_of(file).splitlines()) <= int(count)

def names(*pages):
    """Fenced blocks are left out. Of a path the end is enough, as `specs/Report.antt` where the crate was named."""
    files = [it for it in subprocess.run(["git", "ls-files"], capture_output=True, text=True).stdout.split("\n") if os.path.isfile(it)]
    code = [it for it in files if not it.endswith(".md") and not it.startswith("LICENSE")]
    text = "\n".join(open(it, encoding="utf-8", errors="ignore").read() for it in code)
    words = set(re.findall(r"[A-Za-z_][\w-]*", text))
    words |= {part for it in words for part in it.split("-")} | {os.path.splitext(os.path.basename(it))[0] for it in files}
    folders = {"/" + "/".join(it.split("/")[:n]) for it in files for n in range(1, it.count("/") + 1)}
    lost = []
    for page in pages:
        for it in re.findall(r"`([^`\n]+)`", re.sub(r"^```.*?^```$", "", text_of(page), flags=re.M | re.S)):
            if it in OTHERS or "{" in it:
                continue
            if re.fullmatch(r"[\w./-]+\.[a-z]+", it) or ("/" in it and re.fullmatch(r"[\w./-]+", it)):
                path = "/" + it.strip("/")
                found = any(("/" + file).endswith(path) for file in files) or any(file.endswith(path) for file in folders) or it in text
            else:
                found = not re.fullmatch(r"[A-Za-z_][\w-]*", it) or it in words
            if not found:
                lost.append(f"{page}: {it}")
    print("\n".join(lost), end="\n" if lost else "", file=sys.stderr)
    return pages and not lost

def anchors(page):
    """The headings of a page as links name them."""
    titles = re.findall(r"^#+ (.*)$", re.sub(r"^```.*?^```$", "", text_of(page), flags=re.M | re.S), re.M)
    return {re.sub(r"[^\w -]", "", it.lower()).replace(" ", "-") for it in titles}

def links(*pages):
    files = set(subprocess.run(["git", "ls-files"], capture_output=True, text=True).stdout.split("\n"))
    folders = {file[:file.rindex("/")] for file in files if "/" in file}
    lost = []
    for page in pages:
        for target in re.findall(r"\]\(([^)\s]+)\)", re.sub(r"^```.*?^```$", "", text_of(page), flags=re.M | re.S)):
            path, _, anchor = target.partition("#")
            file = os.path.normpath(os.path.join(os.path.dirname(page), path)) if path else page
            if "://" not in target and (file not in files | folders or anchor and anchor not in anchors(file)):
                lost.append(f"{page}: {target}")
    print("\n".join(lost), end="\n" if lost else "", file=sys.stderr)
    return pages and not lost

if __name__ == "__main__":
    name, *words = sys.argv[1:]
    sys.exit(0 if {"commands": commands, "lines": lines, "job": job, "narrow": narrow, "wide": wide, "names": names, "links": links}[name](*words) else 1)
